/* Collections of young vertices, and the first ones after a full collection: young VERTICES STEPS

   64 workers make so many vertices, a row each. STEPS are letters, one after the other. An f is a full collection, an n is a
   collection of the nurseries, and a c makes 1,000 more vertices. It prints the processor time of each f and n in
   microseconds, on a line each. collections/run.py builds and runs it. */
#include "kovshenul.h"
#include <stdio.h>
#include <stdlib.h>
#include <time.h>

enum { WORKERS = 64, MORE = 1000, RIGHTS = TG_READ | TG_WRITE | TG_TAKE | TG_GRANT };

static tg_store store = TG_STORE_INIT;

static void want(int it) {
    if (!it) {
        fputs("young: an answer that should not be\n", stderr);
        exit(1);
    }
}

static double now(void) {
    struct timespec time;
    clock_gettime(CLOCK_PROCESS_CPUTIME_ID, &time);
    return (double)time.tv_sec * 1e6 + (double)time.tv_nsec / 1e3;
}

static void open_store(void) {
    static tg_value values[WORKERS];
    static tg_edge edges[WORKERS];
    tg_limits limits = {1 << 24, 65536, 1 << 20};
    for (uint64_t i = 0; i < WORKERS; i++)
        edges[i] = (tg_edge){i, (i + 1) % WORKERS, TG_GRANT};
    want(!tg_open(&store, values, WORKERS, edges, WORKERS, &limits));
}

static void create(uint64_t vertices) {
    static const tg_value zero = {TG_CELL, 0, 0};
    uint64_t name;
    for (uint64_t i = 0; i < vertices; i++)
        want(!tg_create(&store, i % WORKERS, RIGHTS, &zero, &name));
}

static void collect(uint32_t kind) {
    uint64_t left;
    double start = now();
    want(!tg_collect(&store, kind, &left));
    printf("%.1f\n", now() - start);
}

int main(int count, char **words) {
    want(count >= 2);
    open_store();
    create(strtoull(words[1], NULL, 10));
    for (const char *step = count > 2 ? words[2] : ""; *step; step++)
        switch (*step) {
        case 'f': collect(TG_FULL); break;
        case 'n': collect(TG_NURSERY); break;
        case 'c': create(MORE); break;
        default: want(0);
        }
    return 0;
}
