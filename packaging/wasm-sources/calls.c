/* What JavaScript calls: the calls of include/egw.h, with addresses as numbers of 32 bits, and indices in units of UTF-16. A call answers
 * its status, and `number` tells the number of the last answer. An agent's name stands 16 bytes behind the document's handle.
 *
 * JavaScript can catch a trap, and call again over memory that is half written. So each call is guarded, as the toolchain guards those
 * of its own modules: after a call that didn't return no other one begins. */
#include "egw.h"

#define CALL(name) __attribute__((export_name(#name)))
#define DOCUMENT ((egw_document *)at_address(document))
#define PEER ((egw_peer *)at_address(peer))
#define AGENT ((const char *)at_address(document) + 16), agent_len

typedef uint32_t word;

void *malloc(size_t size);
void free(void *memory);
_Bool __rattle_enter(void);
void __rattle_leave(void);
void __rattle_trap(void);

static uint64_t number;
static uint32_t place; /* the index in characters that the last call was about */

static void *at_address(word address) {
    return (void *)(uintptr_t)address;
}

static void enter(void) {
    if (__rattle_enter()) __rattle_trap();
}

static word left(word answer) {
    __rattle_leave();
    return answer;
}

static word told(egw_answer answer) {
    number = answer.number;
    return left(answer.status);
}

/* An answer that is an index, in units. */
static egw_answer in_units(egw_document *document, egw_answer answer) {
    return answer.status == EGW_OK ? egw_to_utf16(document, (uint32_t)answer.number) : answer;
}

/* Where an index in units stands: `place` is that in characters. */
static egw_answer placed(egw_document *document, word units) {
    egw_answer answer = egw_from_utf16(document, units);
    if (answer.status == EGW_OK) place = (uint32_t)answer.number;
    return answer;
}

/* How many characters the units from one index on have. */
static egw_answer measured(egw_document *document, word from, word units) {
    egw_answer answer = placed(document, from);
    if (answer.status != EGW_OK) return answer;
    answer = egw_from_utf16(document, (uint64_t)from + units);
    if (answer.status == EGW_OK) answer.number -= place;
    return answer;
}

CALL(number) double call_number(void) {
    return (double)number;
}

CALL(place) word call_place(void) {
    return place;
}

CALL(alloc) word call_alloc(word size) {
    return (word)(uintptr_t)malloc(size);
}

CALL(release) void call_release(word memory) {
    free(at_address(memory));
}

CALL(new) word call_new(word document) {
    enter();
    return told(egw_new(DOCUMENT));
}

CALL(open) word call_open(word document, word file, word len) {
    enter();
    return told(egw_open(DOCUMENT, at_address(file), len));
}

CALL(free) void call_free(word document) {
    enter();
    egw_free(DOCUMENT);
    __rattle_leave();
}

CALL(peer_new) word call_peer_new(word peer) {
    enter();
    return told(egw_peer_new(PEER));
}

CALL(peer_free) void call_peer_free(word peer) {
    enter();
    egw_peer_free(PEER);
    __rattle_leave();
}

CALL(characters) word call_characters(word document) {
    enter();
    return left(egw_length(DOCUMENT));
}

CALL(length) word call_length(word document) {
    enter();
    return told(egw_to_utf16(DOCUMENT, egw_length(DOCUMENT)));
}

CALL(count) word call_count(word document) {
    enter();
    return left(egw_count(DOCUMENT));
}

CALL(insert) word call_insert(word document, word agent_len, word at, word text, word len) {
    enter();
    egw_answer answer = placed(DOCUMENT, at);
    if (answer.status == EGW_OK) answer = egw_insert(DOCUMENT, AGENT, place, at_address(text), len);
    return told(answer);
}

CALL(delete) word call_delete(word document, word agent_len, word at, word units) {
    enter();
    egw_answer answer = measured(DOCUMENT, at, units);
    if (answer.status == EGW_OK) answer = egw_delete(DOCUMENT, AGENT, place, (uint32_t)answer.number);
    return told(answer);
}

CALL(mark) word call_mark(word document, word agent_len, word label, word len) {
    enter();
    return told(egw_mark(DOCUMENT, AGENT, at_address(label), len));
}

CALL(undo) word call_undo(word document, word agent_len, word of, word len, word count) {
    enter();
    return told(egw_undo(DOCUMENT, AGENT, at_address(of), len, count));
}

CALL(text) word call_text(word document) {
    enter();
    return told(egw_text(DOCUMENT));
}

CALL(range) word call_range(word document, word from, word units) {
    enter();
    egw_answer answer = measured(DOCUMENT, from, units);
    if (answer.status == EGW_OK) answer = egw_range(DOCUMENT, place, (uint32_t)answer.number);
    return told(answer);
}

CALL(text_at) word call_text_at(word document, word version, word len) {
    enter();
    return told(egw_text_at(DOCUMENT, at_address(version), len));
}

CALL(heads) word call_heads(word document) {
    enter();
    return told(egw_heads(DOCUMENT));
}

CALL(save) word call_save(word document) {
    enter();
    return told(egw_save(DOCUMENT));
}

CALL(ask) word call_ask(word document) {
    enter();
    return told(egw_ask(DOCUMENT));
}

CALL(events) word call_events(word document, word from) {
    enter();
    return told(egw_events(DOCUMENT, from));
}

CALL(marks) word call_marks(word document) {
    enter();
    return told(egw_marks(DOCUMENT));
}

CALL(caret) word call_caret(word document, word at) {
    enter();
    egw_answer answer = placed(DOCUMENT, at);
    if (answer.status == EGW_OK) answer = egw_caret(DOCUMENT, place);
    return told(answer);
}

CALL(caret_index) word call_caret_index(word document, word caret, word len) {
    enter();
    return told(in_units(DOCUMENT, egw_caret_index(DOCUMENT, at_address(caret), len)));
}

CALL(blame) word call_blame(word document, word version, word len, word columns) {
    enter();
    return told(egw_blame(DOCUMENT, at_address(version), len, columns));
}

CALL(receive) word call_receive(word document, word peer, word bytes, word len) {
    enter();
    return told(egw_receive(DOCUMENT, PEER, at_address(bytes), len));
}

CALL(changes) word call_changes(word document, word from) {
    enter();
    return told(egw_changes(DOCUMENT, from));
}

CALL(copy) word call_copy(word document, word out, word room) {
    enter();
    return left((word)egw_copy(DOCUMENT, at_address(out), room));
}

CALL(copy_changes) word call_copy_changes(word document, word out, word room) {
    enter();
    return left((word)egw_copy_changes(DOCUMENT, at_address(out), room));
}
