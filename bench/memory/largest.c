/* A store at the ends of its ranges. Each call on the way to them has to be answered right.

   largest blocks    fills 65,536 blocks with vertices of one worker, to the last cell, and collects. Then it gives up every
                     other one, collects, and fills the heap again
   largest names     makes and gives up vertices until all 2^24 names are used, and audits the journal

   It prints how many there were and the processor time of each part. The first takes some 1.5 GB, and the second 3.5 GB.

   Build, after bindings/check: cc -O2 -I bindings -o largest bench/memory/largest.c bindings/out/libkovshenul.a */
#include "kovshenul.h"
#include <inttypes.h>
#include <stdio.h>
#include <stdlib.h>
#include <string.h>
#include <time.h>

/* An object has three references, and each chunk of its row six more. */
enum { BLOCKS = 65536, BLOCK_CELLS = 64, OWN = 3, MORE = 6, NAMES = 1 << 24, YOUNG = 100000 };

static tg_store store = TG_STORE_INIT;
static tg_denial why;

static void want(int it, const char *what) {
    if (!it) {
        fprintf(stderr, "largest: %s\n", what);
        exit(1);
    }
}

static void tell(const char *what, uint64_t count) {
    static double before;
    struct timespec time;
    clock_gettime(CLOCK_PROCESS_CPUTIME_ID, &time);
    double now = (double)time.tv_sec + (double)time.tv_nsec / 1e9;
    printf("%s: %" PRIu64 ", %.2f s\n", what, count, now - before);
    before = now;
}

/* The cells of one worker and so many vertices in its row. */
static uint64_t cells_of(uint64_t count) {
    return 1 + count + (count > OWN ? (count - OWN + MORE - 1) / MORE : 0);
}

static void open_store(uint64_t space_blocks) {
    static const tg_value worker = { TG_CELL, 0, 0 };
    static const tg_edge no_edge;
    tg_limits limits = { NAMES, BLOCKS, space_blocks };
    want(tg_open(&store, &worker, 1, &no_edge, 0, &limits) == TG_DONE, "the store isn't opened");
}

/* Makes vertices until one is refused. How many there were. */
static uint64_t fill(tg_status refusal) {
    static const tg_value cell = { TG_CELL, 0, 0 };
    uint64_t count = 0, name;
    tg_status status;
    while ((status = tg_create(&store, 0, TG_READ, &cell, &name)) == TG_DONE)
        count++;
    want(status == refusal, "a vertex is refused for another reason");
    return count;
}

static void collect(const char *what, uint32_t kind, uint64_t wanted) {
    uint64_t left;
    want(tg_collect(&store, kind, &left) == TG_DONE && left == wanted, what);
    tell(what, left);
}

static void blocks(void) {
    open_store(2 * BLOCKS);
    uint64_t count = fill(TG_HEAP_FULL), given = 0;
    want(cells_of(count) <= BLOCKS * BLOCK_CELLS && cells_of(count + 1) > BLOCKS * BLOCK_CELLS, "the heap isn't filled to the last cell");
    tell("vertices that fill the heap", count);
    collect("a full collection leaves", TG_FULL, count + 1);
    for (uint64_t name = 1; name <= count; name += 2, given++)
        want(tg_remove(&store, 0, name, TG_READ, &why) == TG_DONE, "a vertex isn't given up");
    collect("and, every other one given up,", TG_FULL, count - given + 1);
    tell("vertices that fill it again", fill(TG_HEAP_FULL));
}

/* Young vertices are collected now and then, since the heap has room for a fourth of all names. */
static void names(void) {
    static const tg_value cell = { TG_CELL, 0, 0 };
    uint64_t name, count, entries;
    open_store(BLOCKS);
    for (uint64_t wanted = 1; wanted < NAMES; wanted++) {
        want(tg_create(&store, 0, TG_READ, &cell, &name) == TG_DONE && name == wanted, "a vertex isn't made");
        want(tg_remove(&store, 0, name, TG_READ, &why) == TG_DONE, "a vertex isn't given up");
        want(wanted % YOUNG != 0 || tg_collect(&store, TG_NURSERY, &count) == TG_DONE, "a collection is refused");
    }
    want(fill(TG_VERTICES_FULL) == 0, "a name too many");
    tell("names", name + 1);
    want(tg_entries(&store, &entries) == TG_DONE && entries == 2 * (NAMES - 1) + 1, "the journal lacks an entry");
    want(tg_audit(&store, &count) == TG_DONE && count == entries, "the journal isn't legal");
    tell("entries that were audited", count);
}

int main(int count, char **words) {
    if (count == 2 && strcmp(words[1], "blocks") == 0)
        blocks();
    else if (count == 2 && strcmp(words[1], "names") == 0)
        names();
    else
        want(0, "largest blocks | names");
    want(tg_close(&store) == TG_DONE, "the store isn't closed");
    return 0;
}
