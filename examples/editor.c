/* Two editors that keep their texts in buffers of their own.
 *
 *     cc -I include examples/editor.c -o editor libegw.a
 *     ./editor STEPS SEED FILE
 *
 * Both type at drawn places, exchange what the other lacks in pieces that are cut anywhere, and carry out the changes that they are
 * told of in their buffers. After each step, or each tenth one of very many, the buffer has to be the document's text, and a drawn index
 * has to stand in it where it does in the buffer, as editors count that use bytes or UTF-16. At the end the first document is written
 * to FILE, and its text is printed: `egw cat FILE` prints the same. */
#include "egw.h"
#include <stdio.h>
#include <stdlib.h>
#include <string.h>

/* One editor: its document, what it heard from the other, and the buffer that its user sees. */
typedef struct {
    const char *name;
    egw_document document;
    egw_peer peer;
    uint32_t *buffer; /* characters */
    uint32_t length, room;
    uint32_t count;   /* how many events the buffer shows */
} editor;

static uint64_t state;

static uint32_t draw(uint32_t below) {
    state = state * 6364136223846793005u + 1442695040888963407u;
    return (uint32_t)(state >> 33) % below;
}

static void stop(const char *what, egw_answer answer) {
    fprintf(stderr, "%s: status %u, number %llu\n", what, answer.status, (unsigned long long)answer.number);
    exit(1);
}

static void *must(void *memory) {
    if (!memory) {
        fputs("out of memory\n", stderr);
        exit(1);
    }
    return memory;
}

/* The bytes that were found last. */
static uint8_t *found(egw_document *document, size_t count) {
    uint8_t *bytes = must(malloc(count + 1));
    egw_copy(document, bytes, count);
    return bytes;
}

static size_t put_utf8(uint8_t *out, uint32_t ch) {
    if (ch < 0x80) return out[0] = (uint8_t)ch, 1;
    if (ch < 0x800) return out[0] = (uint8_t)(0xC0 | ch >> 6), out[1] = (uint8_t)(0x80 | (ch & 63)), 2;
    if (ch < 0x10000) {
        out[0] = (uint8_t)(0xE0 | ch >> 12), out[1] = (uint8_t)(0x80 | (ch >> 6 & 63)), out[2] = (uint8_t)(0x80 | (ch & 63));
        return 3;
    }
    out[0] = (uint8_t)(0xF0 | ch >> 18), out[1] = (uint8_t)(0x80 | (ch >> 12 & 63));
    out[2] = (uint8_t)(0x80 | (ch >> 6 & 63)), out[3] = (uint8_t)(0x80 | (ch & 63));
    return 4;
}

static void put_into(editor *e, uint32_t at, uint32_t ch) {
    if (e->length == e->room) {
        e->room = 2 * e->room + 64;
        e->buffer = must(realloc(e->buffer, e->room * sizeof *e->buffer));
    }
    memmove(e->buffer + at + 1, e->buffer + at, (e->length - at) * sizeof *e->buffer);
    e->buffer[at] = ch;
    e->length++;
}

static void take_out(editor *e, uint32_t at) {
    memmove(e->buffer + at, e->buffer + at + 1, (e->length - at - 1) * sizeof *e->buffer);
    e->length--;
}

/* Carries out in the buffer what was received since the buffer was up to date. */
static void catch_up(editor *e) {
    egw_answer answer = egw_changes(&e->document, e->count);
    if (answer.status != EGW_OK) stop("changes", answer);
    egw_change *changes = must(malloc((answer.number + 1) * sizeof *changes));
    size_t count = egw_copy_changes(&e->document, changes, answer.number);
    for (size_t i = 0; i < count; i++) {
        if (changes[i].kind == EGW_INSERTION) put_into(e, changes[i].at, changes[i].ch);
        if (changes[i].kind == EGW_DELETION) take_out(e, changes[i].at);
    }
    e->count += (uint32_t)count;
    free(changes);
}

/* The user types a letter, or deletes one: the buffer first, then the document. */
static void type(editor *e) {
    static const uint32_t letters[] = {'a', 'b', ' ', '\n', 0xE9, 0x20AC, 0x1F375};
    egw_answer answer;
    if (e->length > 0 && draw(3) == 0) {
        uint32_t at = draw(e->length);
        take_out(e, at);
        answer = egw_delete(&e->document, e->name, strlen(e->name), at, 1);
    } else {
        uint32_t at = draw(e->length + 1), ch = letters[draw(7)];
        uint8_t text[4];
        put_into(e, at, ch);
        answer = egw_insert(&e->document, e->name, strlen(e->name), at, text, put_utf8(text, ch));
    }
    if (answer.status != EGW_OK) stop("type", answer);
    e->count += (uint32_t)answer.number;
}

/* Hands bytes over in drawn pieces, and whatever is answered back, until nothing is left to say. */
static void send(editor *from, editor *to, uint8_t *bytes, size_t len) {
    size_t sent = 0;
    while (sent < len) {
        size_t piece = 1 + draw(64);
        if (piece > len - sent) piece = len - sent;
        egw_answer answer = egw_receive(&to->document, &to->peer, bytes + sent, piece);
        if (answer.status != EGW_OK) stop("receive", answer);
        sent += piece;
        size_t back = answer.number;
        uint8_t *reply = found(&to->document, back);
        catch_up(to);
        if (back > 0) send(to, from, reply, back);
        else free(reply);
    }
    free(bytes);
}

/* Fetches what the other has and this one lacks. */
static void fetch(editor *e, editor *other) {
    egw_answer answer = egw_ask(&e->document);
    if (answer.status != EGW_OK) stop("ask", answer);
    send(e, other, found(&e->document, answer.number), answer.number);
}

/* The buffer has to be the document's text. */
static void compare(editor *e) {
    egw_answer answer = egw_text(&e->document);
    if (answer.status != EGW_OK) stop("text", answer);
    uint8_t *text = found(&e->document, answer.number);
    size_t at = 0;
    for (uint32_t i = 0; i < e->length; i++) {
        uint8_t ch[4];
        size_t n = put_utf8(ch, e->buffer[i]);
        if (at + n > answer.number || memcmp(text + at, ch, n)) stop("the buffer isn't the text", answer);
        at += n;
    }
    if (at != answer.number || egw_length(&e->document) != e->length) stop("the buffer isn't the text", answer);
    free(text);
}

static void expect(egw_answer answer, uint32_t status, uint64_t number) {
    if (answer.status != status || answer.number != number) stop("a place isn't that of the buffer", answer);
}

/* A drawn index has to stand where it does in the buffer, as editors count that use bytes or UTF-16, and what follows it has to be
 * found. Inside the next character no index stands. */
static void compare_places(editor *e) {
    egw_document *document = &e->document;
    uint32_t at = draw(e->length + 1), more = at < e->length;
    uint64_t bytes = 0, units = 0;
    uint8_t ch[4];
    for (uint32_t i = 0; i < at; i++) {
        bytes += put_utf8(ch, e->buffer[i]);
        units += e->buffer[i] < 0x10000 ? 1 : 2;
    }
    expect(egw_to_bytes(document, at), EGW_OK, bytes);
    expect(egw_to_utf16(document, at), EGW_OK, units);
    expect(egw_from_bytes(document, bytes), EGW_OK, at);
    expect(egw_from_utf16(document, units), EGW_OK, at);
    size_t count = more ? put_utf8(ch, e->buffer[at]) : 0;
    expect(egw_range(document, at, more), EGW_OK, count);
    uint8_t *next = found(document, count);
    if (memcmp(next, ch, count)) stop("the range isn't that of the buffer", egw_closed());
    free(next);
    for (size_t i = 1; i < count; i++) expect(egw_from_bytes(document, bytes + i), EGW_NO_INDEX, 0);
    if (count == 4) expect(egw_from_utf16(document, units + 1), EGW_NO_INDEX, 0);
    if (!more) {
        expect(egw_from_bytes(document, bytes + 1), EGW_NO_INDEX, 0);
        expect(egw_from_utf16(document, units + 1), EGW_NO_INDEX, 0);
    }
    expect(egw_to_bytes(document, e->length + 1), EGW_OUT_OF_RANGE, e->length);
    expect(egw_to_utf16(document, UINT32_MAX), EGW_OUT_OF_RANGE, e->length);
    expect(egw_range(document, at, UINT32_MAX), EGW_OUT_OF_RANGE, e->length);
}

int main(int argc, char **argv) {
    editor both[2] = {{.name = "ada"}, {.name = "bob"}};
    long steps = argc > 1 ? atol(argv[1]) : 1000;
    long every = steps < 10000 ? 1 : 10;
    state = argc > 2 ? strtoull(argv[2], NULL, 10) : 1;
    for (int i = 0; i < 2; i++) {
        egw_answer answer = egw_new(&both[i].document);
        if (answer.status != EGW_OK) stop("new", answer);
        answer = egw_peer_new(&both[i].peer);
        if (answer.status != EGW_OK) stop("peer", answer);
    }
    for (long step = 0; step < steps; step++) {
        int who = (int)draw(2);
        if (draw(8) == 0) fetch(&both[who], &both[1 - who]);
        else type(&both[who]);
        if (step % every == 0) {
            compare(&both[who]);
            compare_places(&both[who]);
        }
    }
    fetch(&both[0], &both[1]);
    fetch(&both[1], &both[0]);
    compare(&both[0]);
    compare(&both[1]);
    if (both[0].length != both[1].length || memcmp(both[0].buffer, both[1].buffer, both[0].length * sizeof *both[0].buffer)) {
        fputs("the editors show different texts\n", stderr);
        return 1;
    }
    egw_answer answer = egw_save(&both[0].document);
    if (answer.status != EGW_OK) stop("save", answer);
    uint8_t *file = found(&both[0].document, answer.number);
    FILE *out = fopen(argc > 3 ? argv[3] : "editor.egw", "wb");
    if (!out || fwrite(file, 1, answer.number, out) != answer.number || fclose(out)) {
        perror("the file");
        return 1;
    }
    free(file);
    answer = egw_text(&both[0].document);
    if (answer.status != EGW_OK) stop("text", answer);
    uint8_t *text = found(&both[0].document, answer.number);
    fwrite(text, 1, answer.number, stdout);
    free(text);
    for (int i = 0; i < 2; i++) {
        egw_free(&both[i].document);
        egw_peer_free(&both[i].peer);
        free(both[i].buffer);
    }
    return 0;
}
