/* Commands a second from C: speed CALLS prints a line for each kind, with the millions of calls in a second of processor time. */
#include "kovshenul.h"
#include <stdio.h>
#include <stdlib.h>
#include <time.h>

static tg_store store;
static uint64_t document, count, numbers[64];
static tg_target row[64];
static tg_denial why;
static const tg_value cell = { TG_CELL, 0, 0 };

static tg_status reads(void) { return tg_read(&store, 0, document, numbers, 64, &count, &why); }
static tg_status writes(void) { return tg_write(&store, 0, document, 1, &why); }
static tg_status grants(void) { return tg_grant(&store, 0, 1, document, TG_READ, &why); }
static tg_status denied(void) { return tg_write(&store, 1, document, 1, &why); }
static tg_status lists(void) { return tg_list(&store, 0, row, 64, &count); }
static tg_status creates(void) { return tg_create(&store, 0, TG_READ | TG_WRITE, &cell, &count); }
static tg_status entries(void) { return tg_entries(&store, &count); }

static void want(int it) {
    if (!it) {
        fputs("speed: a call was not as it should be\n", stderr);
        exit(1);
    }
}

/* A store of its own for each kind, with a row of two edges. */
static void measure(const char *kind, tg_status (*call)(void), tg_status wanted, long calls) {
    static const tg_value workers[2];
    static const tg_edge edge = { 0, 1, TG_GRANT };
    static const tg_limits limits = { 1 << 24, 65536, 1 << 20 };
    want(tg_open(&store, workers, 2, &edge, 1, &limits) == TG_DONE);
    want(tg_create(&store, 0, TG_READ | TG_WRITE, &cell, &document) == TG_DONE);
    clock_t start = clock();
    for (long i = 0; i < calls; i++)
        want(call() == wanted);
    printf("%s %.3f\n", kind, (double)calls * CLOCKS_PER_SEC / (double)(clock() - start) / 1e6);
    want(tg_close(&store) == TG_DONE);
}

int main(int count_of_words, char **words) {
    long calls = count_of_words == 2 ? atol(words[1]) : 0;
    want(calls > 0);
    measure("read", reads, TG_DONE, calls);
    measure("write", writes, TG_DONE, calls);
    measure("grant", grants, TG_DONE, calls);
    measure("denied", denied, TG_DENIED, calls);
    measure("list", lists, TG_DONE, calls);
    measure("create", creates, TG_DONE, calls);
    measure("bare", entries, TG_DONE, calls);
    return 0;
}
