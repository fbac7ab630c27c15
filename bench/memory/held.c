/* The memory that a store holds where its user may not see it, in bytes of malloc after each step of a store's life.

   held [VERTICES]: worker 0 makes the vertices (100,000 unless another number is given), gives up its rights over each, and
   collects twice. Then it makes, gives up and collects ten vertices. Beside the journal the memory of a peak stays. There are
   blocks that are kept for the next collection, and the index of a row that shrank. There are the tables of payloads and of
   remembered places. The last line is of a store that never had a vertex more, with as many entries.

   Build, after bindings/check: cc -O2 -I bindings -o held bench/memory/held.c bindings/out/libkovshenul.a */
#include "kovshenul.h"
#include <inttypes.h>
#include <malloc.h>
#include <stdio.h>
#include <stdlib.h>

static tg_store store = TG_STORE_INIT;
static size_t before;

static void want(int it) {
    if (!it) {
        fprintf(stderr, "held: a call was not answered as it should be\n");
        exit(1);
    }
}

static size_t used(void) {
    struct mallinfo2 heap = mallinfo2();
    return heap.uordblks + heap.hblkhd;
}

static void tell(const char *step) {
    uint64_t entries;
    want(tg_entries(&store, &entries) == TG_DONE);
    printf("%-28s %12zu bytes, %" PRIu64 " entries\n", step, used() - before, entries);
}

static uint64_t create(void) {
    static const tg_value cell = { TG_CELL, 0, 0 };
    uint64_t name;
    want(tg_create(&store, 0, TG_READ, &cell, &name) == TG_DONE);
    return name;
}

static void collect(uint64_t wanted) {
    uint64_t left;
    want(tg_collect(&store, TG_FULL, &left) == TG_DONE && left == wanted);
}

static void remove_all(uint64_t first, uint64_t count) {
    tg_denial why;
    for (uint64_t at = 0; at < count; at++)
        want(tg_remove(&store, 0, first + at, TG_READ, &why) == TG_DONE);
}

/* Makes so many vertices, gives them up, and collects twice. Prints a line for each step. */
static void live(uint64_t count) {
    uint64_t first = create();
    for (uint64_t at = 1; at < count; at++)
        create();
    tell("made");
    remove_all(first, count);
    tell("given up");
    collect(1);
    tell("collected");
    collect(1);
    tell("collected again");
}

/* Makes as many entries in a store as another had, each of a write that is denied. */
static void enter(uint64_t entries) {
    tg_denial why;
    for (uint64_t at = 0; at < entries; at++)
        want(tg_write(&store, 0, 1, 0, &why) == TG_DENIED);
    tell("entries alone");
}

int main(int count, char **words) {
    static const tg_value worker = { TG_CELL, 0, 0 };
    static const tg_limits limits = { 16777216, 65536, 65536 };
    uint64_t vertices = count > 1 ? strtoull(words[1], NULL, 10) : 100000;
    before = used();
    want(vertices > 0 && tg_open(&store, &worker, 1, NULL, 0, &limits) == TG_DONE);
    tell("opened");
    live(vertices);
    live(10);
    want(tg_close(&store) == TG_DONE);
    before = used();
    want(tg_open(&store, &worker, 1, NULL, 0, &limits) == TG_DONE);
    enter(2 * (vertices + 10));
    want(tg_close(&store) == TG_DONE);
    return 0;
}
