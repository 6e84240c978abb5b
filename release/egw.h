/* Collaborative plain text for editors, in C.
 *
 * A document is a text with the history of all its changes. Several people change their own documents at the same time, and exchange
 * what the others lack as bytes, over any way that carries bytes. Then all of them show the same text.
 *
 * Indices and lengths count characters, that is Unicode scalar values. Texts are UTF-8, without an ending zero. An editor that counts
 * units of UTF-16 or bytes of UTF-8 turns its places into indices by `egw_from_utf16` or `egw_from_bytes`, and back by `egw_to_utf16`
 * or `egw_to_bytes`.
 *
 * No two calls may run at the same time on one document, nor with one peer. Nothing here waits, prints, opens a file, or keeps a
 * pointer that it was given. A call answers a status and a number. Where the status isn't EGW_OK the document is as before, but that
 * `egw_receive` keeps what it received until then. Nothing is said of how long a call takes: docs/SPEED.md has what was measured.
 *
 * Two things stay in a document for you to copy, as often as you like.
 *
 * The bytes that were found last. These calls find bytes, where they end with EGW_OK: `egw_text`, `egw_range`, `egw_text_at`,
 * `egw_heads`, `egw_save`, `egw_ask`, `egw_events`, `egw_marks`, `egw_caret` and `egw_blame`. `egw_receive` finds bytes at every status
 * but EGW_CLOSED. The answer's number tells how many there are, `egw_copy` copies them, and the next call of this list that finds bytes
 * puts its own in their place.
 *
 * The changes that were found last. `egw_changes` alone finds changes, where it ends with EGW_OK. `egw_copy_changes` copies them, and the
 * next `egw_changes` that ends so puts others in their place.
 *
 * Every other call leaves both, and so does each of these that ends with another status. An edit leaves them too: after `egw_text` and
 * then `egw_insert`, `egw_copy` still copies the text from before the insertion.
 */
#ifndef EGW_H
#define EGW_H

#include <stddef.h>
#include <stdint.h>

#ifdef __cplusplus
extern "C" {
#endif

/* A document. Make it by `egw_new` or `egw_open`, and end it by `egw_free`. Each call writes it anew: hand on pointers to it, and no
 * copies. */
typedef struct {
    void *at;
} egw_document;

/* A peer: what came from it and is no whole frame yet. Make one for each connection, by `egw_peer_new`, and end it by
 * `egw_peer_free`. */
typedef struct {
    void *at;
} egw_peer;

/* How a call ended. Behind each status stands what the answer's number tells with it; where nothing is told, the number is 0. */
enum egw_status {
    EGW_OK = 0,              /* what the call says */
    EGW_OUT_OF_MEMORY = 1,   /* every call that answers a status may end so */
    EGW_OUT_OF_RANGE = 2,    /* the length; of events, how many are held */
    EGW_TOO_MANY_HEADS = 3,  /* how many heads there are: more than 16 */
    EGW_FULL = 4,            /* how many events are held: there is no room for the new ones */
    EGW_AWAITED = 5,         /* an event of this agent is awaited: ask a peer first */
    EGW_EMPTY_NAME = 6,
    EGW_LONG_NAME = 7,       /* a name has at most 32 bytes */
    EGW_BAD_NAME = 8,        /* the place of the first byte that may not stand in a name */
    EGW_BAD_TEXT = 9,        /* how many of its first bytes are UTF-8 */
    EGW_NO_VERSION = 10,
    EGW_UNKNOWN_EVENT = 11,  /* the place in the version of the first id that isn't held, from 0 on; of an undo, the number in its id */
    EGW_SHORT_FILE = 12,     /* how many bytes there are: no file has so few */
    EGW_NO_EVENT_FILE = 13,
    EGW_FILE_VERSION = 14,   /* the file's version, which isn't known here */
    EGW_BAD_DIGEST = 15,
    EGW_BAD_FIELD = 16,      /* the offset of the field */
    EGW_TOO_MANY_EVENTS = 17, /* how many events the file says that it has */
    EGW_BAD_EVENT = 18,      /* the position of the first event that isn't good */
    EGW_LONG_FRAME = 19,     /* how many bytes the frame says that its body has */
    EGW_FRAME_KIND = 20,     /* the byte that is no kind of frame */
    EGW_BAD_FRAME = 21,
    EGW_CLASH = 22,          /* two events have one id, for which see `egw_receive`: the session is over */
    EGW_BYE = 23,            /* the peer said so: the session is over */
    EGW_NO_ID = 24,          /* the words are no id */
    EGW_CLOSED = 25,         /* the document, or the peer, was never made or is ended */
    EGW_NO_CARET = 26,       /* the words are no caret, but a version of several ids */
    EGW_NO_CHARACTER = 27,   /* the event of the caret inserts no character */
    EGW_EMPTY_LABEL = 28,
    EGW_LONG_LABEL = 29,     /* a label has at most 32 bytes */
    EGW_BAD_LABEL = 30,      /* the place of the first byte that may not stand in a label */
    EGW_NO_INDEX = 31        /* inside a character, or past the end of the text */
};

typedef struct {
    uint64_t number;
    uint32_t status; /* an `enum egw_status` */
} egw_answer;

/* What a change does. */
enum egw_change_kind {
    EGW_NOTHING = 0,   /* nothing: the character was deleted already, or the event is a mark */
    EGW_INSERTION = 1, /* inserts `ch` at the index, before what stands there */
    EGW_DELETION = 2   /* deletes the character at the index */
};

typedef struct {
    uint32_t kind; /* an `enum egw_change_kind` */
    uint32_t at;
    uint32_t ch;   /* a Unicode scalar value */
} egw_change;

/* The calls as the library has them: a handle goes in by value, and comes back through the pointer behind it. Use those below. */
egw_answer egw_raw_new(void **out);
egw_answer egw_raw_open(void **out, const uint8_t *file, size_t file_len);
void egw_raw_free(egw_document document);
uint32_t egw_raw_length(egw_document document, void **back);
uint32_t egw_raw_count(egw_document document, void **back);
egw_answer egw_raw_insert(egw_document document, void **back, const uint8_t *agent, size_t agent_len, uint32_t at,
                          const uint8_t *text, size_t text_len);
egw_answer egw_raw_delete(egw_document document, void **back, const uint8_t *agent, size_t agent_len, uint32_t at, uint32_t count);
egw_answer egw_raw_mark(egw_document document, void **back, const uint8_t *agent, size_t agent_len, const uint8_t *label,
                        size_t label_len);
egw_answer egw_raw_undo(egw_document document, void **back, const uint8_t *agent, size_t agent_len, const uint8_t *of, size_t of_len,
                        uint32_t count);
egw_answer egw_raw_text(egw_document document, void **back);
egw_answer egw_raw_range(egw_document document, void **back, uint32_t from, uint32_t count);
egw_answer egw_raw_to_utf16(egw_document document, void **back, uint32_t at);
egw_answer egw_raw_from_utf16(egw_document document, void **back, uint64_t units);
egw_answer egw_raw_to_bytes(egw_document document, void **back, uint32_t at);
egw_answer egw_raw_from_bytes(egw_document document, void **back, uint64_t bytes);
egw_answer egw_raw_text_at(egw_document document, void **back, const uint8_t *version, size_t version_len);
egw_answer egw_raw_heads(egw_document document, void **back);
egw_answer egw_raw_save(egw_document document, void **back);
egw_answer egw_raw_ask(egw_document document, void **back);
egw_answer egw_raw_events(egw_document document, void **back, uint32_t from);
egw_answer egw_raw_marks(egw_document document, void **back);
egw_answer egw_raw_caret(egw_document document, void **back, uint32_t at);
egw_answer egw_raw_caret_index(egw_document document, void **back, const uint8_t *caret, size_t caret_len);
egw_answer egw_raw_blame(egw_document document, void **back, const uint8_t *version, size_t version_len, uint32_t columns);
egw_answer egw_raw_receive(egw_document document, void **back, egw_peer peer, void **peer_back, const uint8_t *bytes, size_t len);
egw_answer egw_raw_changes(egw_document document, void **back, uint32_t from);
size_t egw_raw_copy(egw_document document, void **back, uint8_t *out, size_t room);
size_t egw_raw_copy_changes(egw_document document, void **back, egw_change *out, size_t room);
egw_answer egw_raw_peer_new(void **out);
void egw_raw_peer_free(egw_peer peer);

/* The calls. They are inline here, and the library has them under the same names too, for languages that can't take these. */
#ifndef EGW_CALL
#define EGW_CALL static inline
#endif

/* Slices of no bytes need an address too. */
static inline const uint8_t *egw_some(const void *bytes) {
    return bytes ? (const uint8_t *)bytes : (const uint8_t *)"";
}

/* What is answered for a handle of null. */
static inline egw_answer egw_closed(void) {
    egw_answer answer = {0, EGW_CLOSED};
    return answer;
}

/* A document without events. */
EGW_CALL egw_answer egw_new(egw_document *document) {
    return egw_raw_new(&document->at);
}

/* The document of an event file's bytes. Where it isn't EGW_OK, `document` isn't touched. */
EGW_CALL egw_answer egw_open(egw_document *document, const void *file, size_t len) {
    return egw_raw_open(&document->at, egw_some(file), len);
}

/* Ends a document. Of one that was ended, or never made and set to null, nothing is done. */
EGW_CALL void egw_free(egw_document *document) {
    if (document->at) egw_raw_free(*document);
    document->at = NULL;
}

/* How many characters the text has. */
EGW_CALL uint32_t egw_length(egw_document *document) {
    if (!document->at) return 0;
    return egw_raw_length(*document, &document->at);
}

/* How many events are held: one for each character that somebody inserted, one for each deletion of a character by somebody, and one or
 * more for each mark. */
EGW_CALL uint32_t egw_count(egw_document *document) {
    if (!document->at) return 0;
    return egw_raw_count(*document, &document->at);
}

/* Inserts a text before the character at an index, as an agent: the name of this copy, of 1 to 32 bytes of a-z A-Z 0-9 _ -, not
 * beginning with -. No two copies of a document may use one name. EGW_OK: the number of events made, one for each character. */
EGW_CALL egw_answer egw_insert(egw_document *document, const void *agent, size_t agent_len, uint32_t at, const void *text,
                               size_t text_len) {
    if (!document->at) return egw_closed();
    return egw_raw_insert(*document, &document->at, egw_some(agent), agent_len, at, egw_some(text), text_len);
}

/* Deletes so many characters from an index on, as an agent. EGW_OK: the number of events made, one for each character. */
EGW_CALL egw_answer egw_delete(egw_document *document, const void *agent, size_t agent_len, uint32_t at, uint32_t count) {
    if (!document->at) return egw_closed();
    return egw_raw_delete(*document, &document->at, egw_some(agent), agent_len, at, count);
}

/* Makes a mark as an agent: a save under a label, which is spelled as a name is. It changes no text, and joins all heads. EGW_OK: the
 * number of events made. */
EGW_CALL egw_answer egw_mark(egw_document *document, const void *agent, size_t agent_len, const void *label, size_t label_len) {
    if (!document->at) return egw_closed();
    return egw_raw_mark(*document, &document->at, egw_some(agent), agent_len, egw_some(label), label_len);
}

/* Undoes `count` events of one agent: the one with the id `of`, as `ada:4`, and those that this agent made after it. It does so by new
 * events of the agent `agent`. Right after it the text is what all other events left. EGW_OK: the number of events made; `egw_changes`
 * tells what they do. */
EGW_CALL egw_answer egw_undo(egw_document *document, const void *agent, size_t agent_len, const void *of, size_t of_len,
                             uint32_t count) {
    if (!document->at) return egw_closed();
    return egw_raw_undo(*document, &document->at, egw_some(agent), agent_len, egw_some(of), of_len, count);
}

/* Finds the text. */
EGW_CALL egw_answer egw_text(egw_document *document) {
    if (!document->at) return egw_closed();
    return egw_raw_text(*document, &document->at);
}

/* Finds `count` characters of the text, from the index `from` on. Where the text has fewer there, the status is EGW_OUT_OF_RANGE, with
 * the length of the text. No characters can be asked for at each index, also at the end. */
EGW_CALL egw_answer egw_range(egw_document *document, uint32_t from, uint32_t count) {
    if (!document->at) return egw_closed();
    return egw_raw_range(*document, &document->at, from, count);
}

/* How many code units of UTF-16 stand before an index: one for each character below U+10000, and two for each other. EGW_OK: their
 * number. At the end of the text that is the number of all units. Past the end the status is EGW_OUT_OF_RANGE, with the length.
 *
 * This call and the next three count in the text as it is now. The index of a change, as `egw_copy_changes` gives it, counts in the
 * text as it is just before that change: count it in your own buffer. */
EGW_CALL egw_answer egw_to_utf16(egw_document *document, uint32_t at) {
    if (!document->at) return egw_closed();
    return egw_raw_to_utf16(*document, &document->at, at);
}

/* The index that has so many code units of UTF-16 before it. EGW_OK: the index. Between the two units of one character there is no
 * index, nor past the end: the status is EGW_NO_INDEX then. */
EGW_CALL egw_answer egw_from_utf16(egw_document *document, uint64_t units) {
    if (!document->at) return egw_closed();
    return egw_raw_from_utf16(*document, &document->at, units);
}

/* How many bytes of UTF-8 stand before an index. As `egw_to_utf16`. */
EGW_CALL egw_answer egw_to_bytes(egw_document *document, uint32_t at) {
    if (!document->at) return egw_closed();
    return egw_raw_to_bytes(*document, &document->at, at);
}

/* The index that has so many bytes of UTF-8 before it. As `egw_from_utf16`, with the bytes of one character. */
EGW_CALL egw_answer egw_from_bytes(egw_document *document, uint64_t bytes) {
    if (!document->at) return egw_closed();
    return egw_raw_from_bytes(*document, &document->at, bytes);
}

/* Finds the text of a version: ids as agent:number with a comma between two, or the word root. */
EGW_CALL egw_answer egw_text_at(egw_document *document, const void *version, size_t len) {
    if (!document->at) return egw_closed();
    return egw_raw_text_at(*document, &document->at, egw_some(version), len);
}

/* Finds the ids of the heads, written as a version. They name the document as it is now. */
EGW_CALL egw_answer egw_heads(egw_document *document) {
    if (!document->at) return egw_closed();
    return egw_raw_heads(*document, &document->at);
}

/* Finds the bytes of an event file of all events that are held. Those that wait for events that they name aren't in it. */
EGW_CALL egw_answer egw_save(egw_document *document) {
    if (!document->at) return egw_closed();
    return egw_raw_save(*document, &document->at);
}

/* Finds the bytes of a question for what this document lacks. Send them to a peer. */
EGW_CALL egw_answer egw_ask(egw_document *document) {
    if (!document->at) return egw_closed();
    return egw_raw_ask(*document, &document->at);
}

/* Finds the events from number `from` on: all that came since `from` events were held. They are bytes that can be sent to a peer who
 * lacks these events. */
EGW_CALL egw_answer egw_events(egw_document *document, uint32_t from) {
    if (!document->at) return egw_closed();
    return egw_raw_events(*document, &document->at, from);
}

/* Finds the marks, oldest first: of each a line with its id, a space and its label. */
EGW_CALL egw_answer egw_marks(egw_document *document) {
    if (!document->at) return egw_closed();
    return egw_raw_marks(*document, &document->at);
}

/* Finds a caret at an index of the text: words that name the character left of it, for `egw_caret_index`. */
EGW_CALL egw_answer egw_caret(egw_document *document, uint32_t at) {
    if (!document->at) return egw_closed();
    return egw_raw_caret(*document, &document->at, at);
}

/* Where a caret is in the text as it is now. EGW_OK: the index. */
EGW_CALL egw_answer egw_caret_index(egw_document *document, const void *caret, size_t len) {
    if (!document->at) return egw_closed();
    return egw_raw_caret_index(*document, &document->at, egw_some(caret), len);
}

/* Finds who inserted which part of the text of a version, or of the text as it is where `len` is 0. Of each piece there is a line: the
 * id of its first event, the number of its characters, and as many of them as fit into so many columns of a terminal, with \n for a
 * newline and \\ for a backslash. */
EGW_CALL egw_answer egw_blame(egw_document *document, const void *version, size_t len, uint32_t columns) {
    if (!document->at) return egw_closed();
    return egw_raw_blame(*document, &document->at, egw_some(version), len, columns);
}

/* Takes bytes that a peer sent, cut anywhere, and answers what is whole by then. Finds the bytes to send back to the peer. EGW_OK: their
 * number. Even so an event may wait for others that it names, or may be refused: the bytes tell the peer how many.
 *
 * At EGW_CLOSED nothing is done, and nothing found. At any other status there may be bytes to send back too: `egw_copy` without room
 * answers how many. What was received by then is held, so take its changes. At EGW_OUT_OF_MEMORY bytes of the peer may be lost, or a
 * whole frame, even one that ends the session: close the connection and end the peer, then make a new one and ask again. After any
 * other of these statuses the session is over.
 *
 * At EGW_CLASH the number is 0. Where the clash was found here, the event that came wasn't taken, the rest of its frame was received,
 * and the last frame to be sent names the first such id. Where the peer found it, the frame that it sent names the id. */
EGW_CALL egw_answer egw_receive(egw_document *document, egw_peer *peer, const void *bytes, size_t len) {
    if (!document->at || !peer->at) return egw_closed();
    return egw_raw_receive(*document, &document->at, *peer, &peer->at, egw_some(bytes), len);
}

/* Finds what the events from number `from` on do to the text, one change for each. Take the text as it was when `from` events were
 * held, and do the changes in turn: that makes the text as it is now. EGW_OK: the number of changes. */
EGW_CALL egw_answer egw_changes(egw_document *document, uint32_t from) {
    if (!document->at) return egw_closed();
    return egw_raw_changes(*document, &document->at, from);
}

/* Copies the bytes that were found last, as many as there is room for: those of the last call that found bytes, whatever came since.
 * Answers how many there are. */
EGW_CALL size_t egw_copy(egw_document *document, void *out, size_t room) {
    if (!document->at) return 0;
    return egw_raw_copy(*document, &document->at, room ? (uint8_t *)out : (uint8_t *)document, room);
}

/* Copies the changes that were found last, as many as there is room for: those of the last `egw_changes` that ended with EGW_OK,
 * whatever came since. Answers how many there are. */
EGW_CALL size_t egw_copy_changes(egw_document *document, egw_change *out, size_t room) {
    if (!document->at) return 0;
    egw_change none;
    return egw_raw_copy_changes(*document, &document->at, room ? out : &none, room);
}

/* A peer that sent nothing yet. */
EGW_CALL egw_answer egw_peer_new(egw_peer *peer) {
    return egw_raw_peer_new(&peer->at);
}

/* Ends a peer, as `egw_free` does a document. */
EGW_CALL void egw_peer_free(egw_peer *peer) {
    if (peer->at) egw_raw_peer_free(*peer);
    peer->at = NULL;
}

#ifdef __cplusplus
}
#endif

#endif
