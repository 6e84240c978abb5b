/* What a letter costs in a room: people who type at once, and see each other's letters later.
 *
 *     cc -O2 -I include bench/room.c libegw.a -o room
 *     ./room USERS LAG LETTERS [LULL]
 *
 * USERS type letters in turn, each near the last one of their own, and see those of the others LAG letters later. With LULL all have seen
 * all once in so many letters. For each tenth of the LETTERS there is a row for the first user: the middle one and the 99th of a hundred
 * of the calls that take in another's letter and tell its changes, and of those that type one, in microseconds of the processor; and the
 * megabytes of the document. */
#include "egw.h"
#include <malloc.h>
#include <stdio.h>
#include <stdlib.h>
#include <string.h>
#include <time.h>

enum { MOST_USERS = 16, FRAME = 256 };

typedef struct {
    char name[16];
    egw_document document;
    egw_peer peers[MOST_USERS];
    uint32_t at;
} user;

/* A letter on its way. */
typedef struct {
    int from;
    size_t length;
    uint8_t bytes[FRAME];
} letter;

typedef struct {
    double *each;
    size_t count;
} times;

static uint64_t state = 7;

static uint32_t draw(uint32_t below) {
    state = state * 6364136223846793005u + 1442695040888963407u;
    return (uint32_t)(state >> 33) % below;
}

static egw_answer ok(const char *what, egw_answer answer) {
    if (answer.status != EGW_OK) {
        fprintf(stderr, "%s: status %u, number %llu\n", what, answer.status, (unsigned long long)answer.number);
        exit(1);
    }
    return answer;
}

static double now(void) {
    struct timespec t;
    clock_gettime(CLOCK_PROCESS_CPUTIME_ID, &t);
    return 1e6 * (double)t.tv_sec + 1e-3 * (double)t.tv_nsec;
}

static double used(void) {
    struct mallinfo2 m = mallinfo2();
    return ((double)m.uordblks + (double)m.hblkhd) / 1e6;
}

static int in_order(const void *one, const void *other) {
    double a = *(const double *)one, b = *(const double *)other;
    return (a > b) - (a < b);
}

static void tell(const char *what, times *t) {
    if (t->count == 0) return;
    qsort(t->each, t->count, sizeof *t->each, in_order);
    printf(" | %s %.1f, %.1f", what, t->each[t->count / 2], t->each[t->count * 99 / 100]);
    t->count = 0;
}

/* A letter is typed, and its event goes on its way. */
static void type(user *u, int number, letter *sent, times *t) {
    uint32_t length = egw_length(&u->document), before = egw_count(&u->document);
    uint32_t place = u->at + draw(9) > 4 ? u->at + draw(9) - 4 : 0;
    if (place > length) place = length;
    char typed = (char)('a' + draw(26));
    double began = now();
    ok("insert", egw_insert(&u->document, u->name, strlen(u->name), place, &typed, 1));
    if (t) t->each[t->count++] = now() - began;
    u->at = place + 1;
    sent->from = number;
    sent->length = ok("events", egw_events(&u->document, before)).number;
    if (sent->length > FRAME) {
        fprintf(stderr, "a letter of %zu bytes\n", sent->length);
        exit(1);
    }
    egw_copy(&u->document, sent->bytes, sent->length);
}

static void hear(user *u, const letter *heard, times *t) {
    uint32_t before = egw_count(&u->document);
    double began = now();
    ok("receive", egw_receive(&u->document, &u->peers[heard->from], heard->bytes, heard->length));
    ok("changes", egw_changes(&u->document, before));
    if (t) t->each[t->count++] = now() - began;
}

int main(int argc, char **argv) {
    if (argc < 4) {
        fprintf(stderr, "usage: room USERS LAG LETTERS [LULL]\n");
        return 2;
    }
    int users = atoi(argv[1]), lag = atoi(argv[2]), letters = atoi(argv[3]), lull = argc > 4 ? atoi(argv[4]) : 0;
    if (users < 2 || users > MOST_USERS || lag < 1 || letters < 10) return 2;
    user *all = calloc((size_t)users, sizeof *all);
    letter *sent = calloc((size_t)letters, sizeof *sent);
    times heard = {calloc((size_t)letters + 1, sizeof(double)), 0}, typed = {calloc((size_t)letters + 1, sizeof(double)), 0};
    double first = used();
    for (int n = 0; n < users; n++) {
        snprintf(all[n].name, sizeof all[n].name, "user%d", n);
        ok("new", egw_new(&all[n].document));
        for (int m = 0; m < users; m++) ok("peer", egw_peer_new(&all[n].peers[m]));
    }
    int *seen = calloc((size_t)users, sizeof *seen); /* so many letters each has seen */
    for (int n = 0; n < letters; n++) {
        int who = n % users;
        type(&all[who], who, &sent[n], who == 0 ? &typed : NULL);
        int until = lull && (n + 1) % lull == 0 ? n + 1 : n + 1 - lag;
        for (int m = 0; m < users; m++)
            for (; seen[m] < until; seen[m]++)
                if (sent[seen[m]].from != m) hear(&all[m], &sent[seen[m]], m == 0 ? &heard : NULL);
        if ((n + 1) % (letters / 10) == 0) {
            printf("%8d letters", n + 1);
            tell("heard", &heard);
            tell("typed", &typed);
            printf(" | %.1f MB a document\n", (used() - first) / users);
            fflush(stdout);
        }
    }
    return 0;
}
