/* What an editor waits for: nanoseconds of the calls of the library for C over a long history, and the memory that it takes.
 *
 *     cc -O2 -I include bench/live.c libegw.a -o live
 *     ./live 1000000            over a history of so many events, typed by one author with small jumps
 *     ./live FILE               over an event file
 *
 * Each row has the middle one of many, the mean, and the one that a hundredth of them are slower than. */
#include "egw.h"
#include <malloc.h>
#include <stdio.h>
#include <stdlib.h>
#include <string.h>
#include <time.h>

/* One side: its document, and what it hears from the other. */
typedef struct {
    const char *name;
    egw_document document;
    egw_peer peer;
} side;

static uint64_t state = 7;

static uint32_t draw(uint32_t below) {
    state = state * 6364136223846793005u + 1442695040888963407u;
    return (uint32_t)(state >> 33) % below;
}

static egw_answer ok(const char *what, egw_answer answer) {
    if (answer.status != EGW_OK) {
        fprintf(stderr, "%s: status %u, number %llu\n", what, answer.status, (unsigned long long)answer.number);
        exit(1);
    }
    return answer;
}

static double now(void) {
    struct timespec t;
    clock_gettime(CLOCK_MONOTONIC, &t);
    return 1e9 * (double)t.tv_sec + (double)t.tv_nsec;
}

/* Megabytes that are in use of the heap. */
static double used(void) {
    struct mallinfo2 m = mallinfo2();
    return ((double)m.uordblks + (double)m.hblkhd) / 1e6;
}

/* How long something took, each time. */
typedef struct {
    double each[10000];
    int count;
} times;

static times *none(void) {
    static times t;
    t.count = 0;
    return &t;
}

static void took(times *t, double began) {
    double n = now() - began;
    if (t) t->each[t->count++] = n;
}

static int in_order(const void *one, const void *other) {
    double a = *(const double *)one, b = *(const double *)other;
    return (a > b) - (a < b);
}

static void tell(const char *what, times *t) {
    double all = 0;
    for (int i = 0; i < t->count; i++) all += t->each[i];
    qsort(t->each, (size_t)t->count, sizeof *t->each, in_order);
    printf("%-52s %10.0f ns, mean %10.0f, 99 of 100 below %10.0f\n", what, t->each[t->count / 2], all / t->count,
           t->each[t->count * 99 / 100]);
    fflush(stdout);
}

static uint8_t *found(egw_document *document, size_t count) {
    uint8_t *bytes = malloc(count + 1);
    if (!bytes) exit(1);
    egw_copy(document, bytes, count);
    return bytes;
}

static void insert(side *s, uint32_t at) {
    ok("insert", egw_insert(&s->document, s->name, strlen(s->name), at, "x", 1));
}

/* A place near the last one. */
static uint32_t near(side *s, uint32_t *at) {
    uint32_t length = egw_length(&s->document);
    uint32_t back = draw(40) < *at ? draw(40) : 0;
    *at = *at > length ? length : *at - (back < *at ? back : *at) + draw(40);
    if (*at > length) *at = length;
    return *at;
}

/* Takes what the other typed since `from` of its events, and is told the changes: this is what is timed. Then the other takes the rest. */
static void hear(side *s, side *other, uint32_t from, times *t) {
    size_t len = ok("events", egw_events(&other->document, from)).number;
    uint8_t *bytes = found(&other->document, len);
    static egw_change changes[4096];
    uint32_t shown = egw_count(&s->document);
    double began = now();
    ok("receive", egw_receive(&s->document, &s->peer, bytes, len));
    uint64_t many = ok("changes", egw_changes(&s->document, shown)).number;
    egw_copy_changes(&s->document, changes, many < 4096 ? many : 4096);
    took(t, began);
    free(bytes);
}

/* The other types so many letters beside so many of one's own, and its letters come in. */
static times *rounds(side *one, side *other, int count, uint32_t own, uint32_t letters) {
    times *t = none();
    uint32_t here = egw_length(&one->document) / 2, there = here;
    for (int i = 0; i < count; i++) {
        uint32_t mine = egw_count(&one->document), theirs = egw_count(&other->document);
        for (uint32_t k = 0; k < own; k++) insert(one, near(one, &here));
        for (uint32_t k = 0; k < letters; k++) insert(other, near(other, &there));
        hear(one, other, theirs, t);
        if (own) hear(other, one, mine, NULL);
    }
    return t;
}

static side opened(const char *name, const uint8_t *file, size_t len) {
    side s = {name, {NULL}, {NULL}};
    if (file) ok("open", egw_open(&s.document, file, len));
    else ok("new", egw_new(&s.document));
    ok("peer", egw_peer_new(&s.peer));
    return s;
}

static uint8_t *read_file(const char *name, size_t *len) {
    FILE *in = fopen(name, "rb");
    if (!in || fseek(in, 0, SEEK_END)) return perror(name), exit(1), NULL;
    *len = (size_t)ftell(in);
    uint8_t *bytes = malloc(*len + 1);
    rewind(in);
    if (!bytes || fread(bytes, 1, *len, in) != *len) return perror(name), exit(1), NULL;
    fclose(in);
    return bytes;
}

/* Types a history: bursts of some letters, and small jumps between them. */
static uint8_t *typed(uint32_t events, size_t *len) {
    static const char burst[] = "a few words, ";
    side s = opened("eve", NULL, 0);
    uint32_t at = 0;
    double began = now();
    while (egw_count(&s.document) < events) {
        uint32_t most = events - egw_count(&s.document), n = 1 + draw((uint32_t)sizeof burst - 1);
        if (n > most) n = most;
        ok("insert", egw_insert(&s.document, s.name, 3, near(&s, &at), burst, n));
        at += n;
    }
    printf("typed %u events in bursts: %.0f ns each, %.1f MB\n", events, (now() - began) / events, used());
    *len = ok("save", egw_save(&s.document)).number;
    uint8_t *file = found(&s.document, *len);
    egw_free(&s.document);
    egw_peer_free(&s.peer);
    return file;
}

int main(int argc, char **argv) {
    if (argc != 2) {
        fprintf(stderr, "usage: live EVENTS | live FILE\n");
        return 2;
    }
    size_t len;
    uint8_t *file = argv[1][strspn(argv[1], "0123456789")] ? read_file(argv[1], &len) : typed((uint32_t)atol(argv[1]), &len);
    double before = used(), began = now();
    side ada = opened("ada", file, len);
    printf("open: %.1f ms, %.1f MB for %u events, text of %u characters, file of %.1f MB\n", (now() - began) / 1e6, used() - before,
           egw_count(&ada.document), egw_length(&ada.document), (double)len / 1e6);
    side bob = opened("bob", file, len);
    before = used();
    uint32_t events = egw_count(&ada.document);

    times *t = none();
    uint32_t mine = events, at = egw_length(&ada.document) / 2;
    for (int i = 0; i < 10000; i++) {
        uint32_t place = near(&ada, &at);
        began = now();
        insert(&ada, place);
        took(t, began);
    }
    tell("a letter typed near the last one", t);
    t = none();
    for (int i = 0; i < 10000; i++) {
        uint32_t place = draw(egw_length(&ada.document) + 1);
        began = now();
        insert(&ada, place);
        took(t, began);
    }
    tell("a letter typed anywhere", t);
    t = none();
    for (int i = 0; i < 10000; i++) {
        began = now();
        insert(&ada, egw_length(&ada.document));
        took(t, began);
    }
    tell("a letter typed at the end", t);
    printf("memory for 30000 letters typed: %.3f MB\n", used() - before);
    hear(&bob, &ada, mine, NULL);

    before = used();
    tell("a peer's letter at the heads, with its changes", rounds(&ada, &bob, 2000, 0, 1));
    tell("a peer's letter beside one's last ten", rounds(&ada, &bob, 500, 10, 1));
    tell("a peer's hundred letters beside one's last fifty", rounds(&ada, &bob, 100, 50, 100));
    printf("memory of both sides for these %u events: %.3f MB\n", egw_count(&ada.document) - events - 30000, used() - before);

    t = none();
    began = now();
    len = ok("save", egw_save(&ada.document)).number;
    took(t, began);
    tell("the bytes of the file", t);
    egw_free(&ada.document);
    egw_peer_free(&ada.peer);
    egw_free(&bob.document);
    egw_peer_free(&bob.peer);
    free(file);
    return 0;
}
