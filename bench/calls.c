/* The cost of a call of the library for C, over a million calls of each kind, or of the kinds that are named: calls [label ..]

   Build, after bindings/check: cc -O2 -I bindings -o calls bench/calls.c bindings/out/libkovshenul.a
   Instructions: valgrind --tool=callgrind --toggle-collect=tg_label ./calls label, and that by 1,048,575. */
#include "kovshenul.h"
#include <inttypes.h>
#include <malloc.h>
#include <stdio.h>
#include <stdlib.h>
#include <string.h>
#include <time.h>

enum { CALLS = 1 << 20 };

static tg_store store = TG_STORE_INIT;
static uint64_t document, count, numbers[64];
static tg_target row[4];
static tg_denial why;
static tg_counts counts;

static tg_status reads(void) { return tg_read(&store, 0, document, numbers, 64, &count, &why); }
static tg_status writes(void) { return tg_write(&store, 0, document, 1, &why); }
static tg_status denied(void) { return tg_write(&store, 1, document, 1, &why); }
static tg_status lists(void) { return tg_list(&store, 0, row, 4, &count); }
static tg_status grants(void) { return tg_grant(&store, 0, 1, document, TG_READ, &why); }
static tg_status entries(void) { return tg_entries(&store, &count); }
static tg_status labels(void) { return tg_label(&store, 0, document, &count); }
static tg_status censuses(void) { return tg_census(&store, &counts); }

static void want(int it) {
    if (!it)
        exit(1);
}

static double now(void) {
    struct timespec time;
    clock_gettime(CLOCK_PROCESS_CPUTIME_ID, &time);
    return (double)time.tv_sec * 1e9 + (double)time.tv_nsec;
}

static size_t used(void) {
    struct mallinfo2 heap = mallinfo2();
    return heap.uordblks + heap.hblkhd;
}

static int word_count;
static char **words;

static int is_asked_for(const char *kind) {
    for (int i = 1; i < word_count; i++)
        if (!strcmp(words[i], kind))
            return 1;
    return word_count < 2;
}

/* A store of its own for each kind, whose journal is then as long as the calls. */
static void measure(const char *kind, tg_status (*call)(void), tg_status wanted) {
    static const tg_value workers[2] = { { TG_CELL, 0, 0 }, { TG_CELL, 0, 0 } };
    static const tg_edge edge = { 0, 1, TG_GRANT };
    static const tg_limits limits = { 10, 8, 8 };
    if (!is_asked_for(kind))
        return;
    want(tg_open(&store, workers, 2, &edge, 1, &limits) == TG_DONE);
    want(tg_create(&store, 0, TG_READ | TG_WRITE, &workers[0], &document) == TG_DONE);
    size_t before = used();
    double start = now();
    for (int i = 1; i < CALLS; i++)
        want(call() == wanted);
    double time = now() - start;
    printf("%s: %.0f ns, %.1f bytes\n", kind, time / CALLS, (double)(used() - before) / CALLS);
    want(tg_close(&store) == TG_DONE);
}

int main(int asked, char **asked_for) {
    word_count = asked;
    words = asked_for;
    measure("read", reads, TG_DONE);
    measure("write", writes, TG_DONE);
    measure("write that is denied", denied, TG_DENIED);
    measure("list of two", lists, TG_DONE);
    measure("grant", grants, TG_DONE);
    measure("entries", entries, TG_DONE);
    measure("label", labels, TG_DONE);
    measure("census", censuses, TG_DONE);
    return 0;
}
