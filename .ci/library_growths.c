/* Each growth of memory in each call of the library is refused once, by its number. Then either the call answers so, and the document is
 * as before (`egw_receive` may have received some events), or it could do without, and answers and leaves what it does with ample
 * memory. Linked with --wrap=malloc and --wrap=realloc. */
#include "egw.h"
#include <stdio.h>
#include <stdlib.h>
#include <string.h>

void *__real_malloc(size_t size);
void *__real_realloc(void *old, size_t size);

static unsigned long asked, wanted;

void *__wrap_malloc(size_t size) {
    return ++asked == wanted ? NULL : __real_malloc(size);
}

void *__wrap_realloc(void *old, size_t size) {
    return ++asked == wanted ? NULL : __real_realloc(old, size);
}

static void stop(const char *what, unsigned long number) {
    fprintf(stderr, "%s, at growth %lu\n", what, number);
    exit(1);
}

/* Bytes of a document, with their number. */
typedef struct {
    uint8_t *bytes;
    size_t count;
} piece;

static piece found(egw_document *document, egw_answer answer) {
    piece p = {NULL, answer.number};
    if (answer.status != EGW_OK) stop("a call that must not fail does", answer.status);
    p.bytes = malloc(p.count + 1);
    egw_copy(document, p.bytes, p.count);
    return p;
}

static egw_document opened(piece file) {
    egw_document document = {NULL};
    if (egw_open(&document, file.bytes, file.count).status != EGW_OK) stop("the file isn't opened", 0);
    return document;
}

static egw_peer listening(void) {
    egw_peer peer = {NULL};
    if (egw_peer_new(&peer).status != EGW_OK) stop("no peer is made", 0);
    return peer;
}

enum call {
    OPEN, INSERT, LONG_INSERT, DELETE, MARK, UNDO, TEXT, RANGE, TO_UTF16, FROM_UTF16, TO_BYTES, FROM_BYTES, TEXT_AT, HEADS, SAVE, ASK,
    EVENTS, MARKS, CARET, CARET_INDEX, BLAME, BLAME_AT, HEAR_QUESTION, HEAR_EVENTS, CHANGES, NEW, PEER, CALLS
};

static piece file, question, events;

static egw_answer make(enum call call, egw_document *document, egw_peer *peer) {
    static const char many[] = "a longer text, which needs more than one leaf of the tree that the characters of a text stand in";
    egw_document other = {NULL};
    egw_peer next = {NULL};
    egw_answer answer = {0, EGW_OK};
    switch (call) {
    case OPEN: answer = egw_open(&other, file.bytes, file.count); break;
    case NEW: answer = egw_new(&other); break;
    case PEER: answer = egw_peer_new(&next); break;
    case INSERT: answer = egw_insert(document, "ada", 3, 1, "x", 1); break;
    case LONG_INSERT: answer = egw_insert(document, "eve", 3, 0, many, sizeof many - 1); break;
    case DELETE: answer = egw_delete(document, "ada", 3, 0, 3); break;
    case MARK: answer = egw_mark(document, "ada", 3, "noon", 4); break;
    case UNDO: answer = egw_undo(document, "eve", 3, "ada:2", 5, 4); break;
    case TEXT: answer = egw_text(document); break;
    case RANGE: answer = egw_range(document, 4, 5); break;
    case TO_UTF16: answer = egw_to_utf16(document, 7); break;
    case FROM_UTF16: answer = egw_from_utf16(document, 7); break;
    case TO_BYTES: answer = egw_to_bytes(document, 7); break;
    case FROM_BYTES: answer = egw_from_bytes(document, 7); break;
    case TEXT_AT: answer = egw_text_at(document, "ada:1", 5); break;
    case HEADS: answer = egw_heads(document); break;
    case SAVE: answer = egw_save(document); break;
    case ASK: answer = egw_ask(document); break;
    case EVENTS: answer = egw_events(document, 3); break;
    case MARKS: answer = egw_marks(document); break;
    case CARET: answer = egw_caret(document, 4); break;
    case CARET_INDEX: answer = egw_caret_index(document, "ada:3", 5); break;
    case BLAME: answer = egw_blame(document, NULL, 0, 20); break;
    case BLAME_AT: answer = egw_blame(document, "ada:6", 5, 20); break;
    case HEAR_QUESTION: answer = egw_receive(document, peer, question.bytes, question.count); break;
    case HEAR_EVENTS: answer = egw_receive(document, peer, events.bytes, events.count); break;
    case CHANGES: answer = egw_changes(document, 2); break;
    case CALLS: break;
    }
    egw_free(&other);
    egw_peer_free(&next);
    return answer;
}

/* What is seen of a document: its text, and how many events it holds. */
typedef struct {
    piece text;
    uint32_t count;
} sight;

static sight seen(egw_document *document) {
    sight s = {found(document, egw_text(document)), egw_count(document)};
    return s;
}

static void same(const sight *one, const sight *other, const char *what, unsigned long number) {
    if (one->count != other->count || one->text.count != other->text.count) stop(what, number);
    if (memcmp(one->text.bytes, other->text.bytes, one->text.count)) stop(what, number);
}

/* What was copied out has to be what was found with ample memory. */
static void same_bytes(egw_document *document, piece found_then, unsigned long number) {
    piece now = found(document, (egw_answer){found_then.count, EGW_OK});
    if (memcmp(now.bytes, found_then.bytes, now.count)) stop("other bytes are found", number);
    free(now.bytes);
}

/* Makes a call with each of its growths refused in turn. Answers how many it has. */
static unsigned long refuse_each(enum call call, const sight *before) {
    egw_document ample = opened(file);
    egw_peer from = listening();
    egw_answer wanted_answer = make(call, &ample, &from);
    piece bytes = found(&ample, (egw_answer){egw_copy(&ample, NULL, 0), wanted_answer.status});
    sight after = seen(&ample);
    egw_free(&ample);
    egw_peer_free(&from);
    unsigned long number = 1;
    for (;; number++) {
        egw_document document = opened(file);
        from = listening();
        asked = 0;
        wanted = number;
        egw_answer answer = make(call, &document, &from);
        wanted = 0;
        int reached = asked >= number;
        if (answer.status == EGW_OK) {
            if (answer.number != wanted_answer.number) stop("another number is answered", number);
            same_bytes(&document, bytes, number);
            sight now = seen(&document);
            same(&now, &after, "the document isn't as after the call", number);
            free(now.text.bytes);
        } else {
            if (!reached || answer.status != EGW_OUT_OF_MEMORY) stop("nothing is refused, and yet a call fails", number);
            sight now = seen(&document);
            if (call != HEAR_EVENTS) same(&now, before, "the document isn't as before", number);
            else if (now.count == before->count) same(&now, before, "the text isn't as before", number);
            else if (now.count < before->count) stop("events are lost", number);
            free(now.text.bytes);
        }
        egw_free(&document);
        egw_peer_free(&from);
        if (!reached) break;
    }
    free(bytes.bytes);
    free(after.text.bytes);
    return number - 1;
}

int main(void) {
    egw_document ada = {NULL}, bob = {NULL};
    egw_peer peer = listening();
    if (egw_new(&ada).status != EGW_OK || egw_new(&bob).status != EGW_OK) stop("no document is made", 0);
    if (egw_insert(&ada, "ada", 3, 0, "tea for two", 11).status != EGW_OK) stop("no text is inserted", 0);
    if (egw_mark(&ada, "ada", 3, "tea", 3).status != EGW_OK) stop("no mark is made", 0);
    if (egw_insert(&bob, "bob", 3, 0, "and cake", 8).status != EGW_OK) stop("no text is inserted", 0);
    question = found(&ada, egw_ask(&ada));
    events = found(&bob, egw_receive(&bob, &peer, question.bytes, question.count));
    file = found(&ada, egw_save(&ada));
    sight before = seen(&ada);
    egw_peer_free(&peer);
    question.count = 0;
    free(question.bytes);
    question = found(&bob, egw_ask(&bob));
    egw_free(&bob);
    egw_free(&ada);

    unsigned long all = 0;
    for (enum call call = OPEN; call < CALLS; call++) all += refuse_each(call, &before);
    free(file.bytes);
    free(question.bytes);
    free(events.bytes);
    free(before.text.bytes);
    printf("%lu growths of memory refused, in %d calls\n", all, CALLS);
    return 0;
}
