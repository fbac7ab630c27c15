/* The cost of a store as it grows: large [VERTICES ..] (500,000, 1,000,000, 2,000,000 and 3,000,000 unless another number is
   given).

   The store has 65,536 blocks in each space. Worker 0 makes the vertices, and grants worker 1 a right over each. Then ten full
   collections are made, and the journal is audited. For each number of vertices it prints processor times in nanoseconds. They
   are of a create, of a grant, of a cell that a collection copies, and of an entry that the audit replays. The last store is then
   filled until a create answers that the heap is full. The store must then have only the vertices of the creates before it, and
   the audit must find each entry.

   Build, after bindings/check: cc -O2 -I bindings -o large bench/audits/large.c bindings/out/libkovshenul.a */
#include "kovshenul.h"
#include <inttypes.h>
#include <stdio.h>
#include <stdlib.h>
#include <time.h>

enum { COLLECTIONS = 10 };

static tg_store store = TG_STORE_INIT;
static tg_denial why;

static void want(int it) {
    if (!it) {
        fprintf(stderr, "large: a call was not answered as it should be\n");
        exit(1);
    }
}

static double now(void) {
    struct timespec time;
    clock_gettime(CLOCK_PROCESS_CPUTIME_ID, &time);
    return (double)time.tv_sec * 1e9 + (double)time.tv_nsec;
}

static tg_status create(uint64_t *name) {
    static const tg_value cell = { TG_CELL, 0, 0 };
    return tg_create(&store, 0, TG_READ, &cell, name);
}

/* Makes and grants, collects and audits, and prints what each took. */
static uint64_t fill(uint64_t vertices) {
    static const tg_value workers[2] = { { TG_CELL, 0, 0 }, { TG_CELL, 0, 0 } };
    static const tg_edge edges[1] = { { 0, 1, TG_GRANT } };
    const tg_limits limits = { 4194304, 65536, 65536 };
    uint64_t name, left, entries;
    want(tg_open(&store, workers, 2, edges, 1, &limits) == TG_DONE);
    double began = now();
    for (uint64_t at = 0; at < vertices; at++)
        want(create(&name) == TG_DONE && name == at + 2);
    double made = now();
    for (uint64_t at = 0; at < vertices; at++)
        want(tg_grant(&store, 0, 1, at + 2, TG_READ, &why) == TG_DONE);
    double granted = now();
    for (int at = 0; at < COLLECTIONS; at++)
        want(tg_collect(&store, TG_FULL, &left) == TG_DONE && left == vertices + 2);
    double collected = now();
    want(tg_audit(&store, &entries) == TG_DONE && entries == 2 * vertices);
    double audited = now();
    double each = (double)vertices;
    printf("%" PRIu64 ": create %.0f ns, grant %.0f ns, collected cell %.1f ns, audited entry %.0f ns\n", vertices, (made - began) / each,
           (granted - made) / each, (collected - granted) / each / COLLECTIONS, (audited - collected) / each / 2);
    fflush(stdout);
    return entries;
}

static uint64_t entries_now(void) {
    uint64_t count;
    want(tg_entries(&store, &count) == TG_DONE);
    return count;
}

/* Goes on until the heap is full, and looks that this changed nothing. */
static void overflow(uint64_t entries) {
    uint64_t name, left, after, audited;
    tg_status status;
    while ((status = create(&name)) == TG_DONE)
        entries++;
    want(status == TG_HEAP_FULL);
    want(entries_now() == entries);
    want(create(&name) == TG_HEAP_FULL && entries_now() == entries);
    want(tg_audit(&store, &audited) == TG_DONE && audited == entries);
    status = tg_collect(&store, TG_FULL, &left);
    want(status == TG_DONE || status == TG_HEAP_FULL);
    want(tg_collect(&store, TG_FULL, &after) == status && (status != TG_DONE || after == left));
    want(tg_audit(&store, &audited) == TG_DONE && audited == entries);
    printf("the heap is full behind %" PRIu64 " entries, and the store is as it was\n", entries);
}

int main(int count, char **words) {
    static const uint64_t usual[] = { 500000, 1000000, 2000000, 3000000 };
    int rounds = count > 1 ? count - 1 : 4;
    for (int round = 0; round < rounds; round++) {
        uint64_t vertices = count > 1 ? strtoull(words[round + 1], NULL, 10) : usual[round];
        uint64_t entries = fill(vertices);
        if (round + 1 == rounds)
            overflow(entries);
        want(tg_close(&store) == TG_DONE);
    }
    return 0;
}
