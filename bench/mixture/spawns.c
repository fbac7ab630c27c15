/* The memory that subjects leave which come and go, through the library for C: spawns COUNT

   Eight workers in turn spawn a subject, grant it a document, and give up their edge to it. The subject reads, writes and
   retires. Each 10,000 entries are given up, with a nursery collection, and each 500,000 come with a full one. It prints, in MB,
   how much memory was in use and resident at most by the first 10,000 subjects and by all.

   Build, after bindings/check: cc -O2 -I bindings -o spawns bench/mixture/spawns.c bindings/out/libkovshenul.a */
#include "kovshenul.h"
#include <inttypes.h>
#include <malloc.h>
#include <stdio.h>
#include <stdlib.h>

enum { WORKERS = 8, DEEDS = 6, PART = 10000 / DEEDS, FULL = 50 * PART, FIRST = 10000 };

static tg_store store = TG_STORE_INIT;
static size_t used, resident;

static void want(int holds) {
    if (!holds) {
        fputs("spawns: an answer that should not be\n", stderr);
        exit(1);
    }
}

static void note(void) {
    struct mallinfo2 heap = mallinfo2();
    size_t pages = 0, now = heap.uordblks + heap.hblkhd;
    FILE *file = fopen("/proc/self/statm", "r");
    want(file != NULL && fscanf(file, "%*u %zu", &pages) == 1 && !fclose(file));
    used = now > used ? now : used;
    resident = 4096 * pages > resident ? 4096 * pages : resident;
}

static void spawn(uint64_t worker, uint64_t document) {
    static const tg_value zero = { TG_CELL, 0, 0 };
    uint64_t name, number, count;
    want(tg_spawn(&store, worker, TG_GRANT, &zero, &name) == TG_DONE);
    want(tg_grant(&store, worker, name, document, TG_READ | TG_WRITE, NULL) == TG_DONE);
    want(tg_remove(&store, worker, name, TG_GRANT, NULL) == TG_DONE);
    want(tg_read(&store, name, document, &number, 1, &count, NULL) == TG_DONE);
    want(tg_write(&store, name, document, name, NULL) == TG_DONE);
    want(tg_retire(&store, name) == TG_DONE);
}

static void give_up(int kind) {
    uint64_t next, left;
    note();
    want(tg_entries(&store, &next) == TG_DONE && tg_forget(&store, next) == TG_DONE);
    want(tg_collect(&store, kind, &left) == TG_DONE);
}

int main(int count, char **words) {
    static const tg_value values[WORKERS];
    const tg_limits limits = { (uint64_t)1 << 48, 65536, 1 << 20 };
    uint64_t documents[WORKERS], all = count == 2 ? strtoull(words[1], NULL, 10) : 1000000;
    want(tg_open(&store, values, WORKERS, NULL, 0, &limits) == TG_DONE);
    for (uint64_t worker = 0; worker < WORKERS; worker++)
        want(tg_create(&store, worker, TG_READ | TG_WRITE, values, &documents[worker]) == TG_DONE);
    for (uint64_t made = 1; made <= all; made++) {
        spawn(made % WORKERS, documents[made % WORKERS]);
        if (made % PART == 0)
            give_up(made % FULL == 0 ? TG_FULL : TG_NURSERY);
        if (made == FIRST || made == all)
            printf("%" PRIu64 ": in use %.3f, resident %.3f\n", made, 1e-6 * (double)used, 1e-6 * (double)resident);
    }
    return tg_close(&store) != TG_DONE;
}
