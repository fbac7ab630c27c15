/* The cost of the audit of a journal beside the cost of the commands that made it. It is the processor time of both, and their
   ratio, in one order of commands.

   audits ORDER [VERTICES]: worker 0 makes the vertices (200,000 unless another number is given). Then worker 1 gets a right over
   each, or the rows lose them, in this order:
     up        first to last, by grants of worker 0
     down      last to first, by grants of worker 0
     random    in an order that a seeded generator draws, by takes of worker 1
     front     worker 0 gives up its rights over each, first to last
     back      the same, last to first
     lists     worker 0 lists its row of 1,000 vertices 10,000 times
   It prints the order, both times in milliseconds and the ratio. The audit must find as many entries as there were commands.

   Build, after bindings/check: cc -O2 -I bindings -o audits bench/audits/audits.c bindings/out/libkovshenul.a */
#include "kovshenul.h"
#include <inttypes.h>
#include <stdio.h>
#include <stdlib.h>
#include <string.h>
#include <time.h>

enum { LISTS = 10000, LISTED = 1000 };

static tg_store store = TG_STORE_INIT;
static tg_denial why;

static void want(int it) {
    if (!it) {
        fprintf(stderr, "audits: a call was not answered as it should be\n");
        exit(1);
    }
}

static double now(void) {
    struct timespec time;
    clock_gettime(CLOCK_PROCESS_CPUTIME_ID, &time);
    return (double)time.tv_sec * 1e3 + (double)time.tv_nsec / 1e6;
}

/* Numbers that are the same in each run (xorshift). */
static uint64_t draw(uint64_t below) {
    static uint64_t state = 88172645463325252ULL;
    state ^= state << 13;
    state ^= state >> 7;
    state ^= state << 17;
    return state % below;
}

/* The names from `first` on, in the order that is named. */
static uint64_t *in_order(const char *order, uint64_t first, uint64_t count) {
    uint64_t *names = malloc(count * sizeof *names);
    want(names != NULL);
    int is_down = strcmp(order, "down") == 0 || strcmp(order, "back") == 0;
    for (uint64_t at = 0; at < count; at++)
        names[at] = first + (is_down ? count - 1 - at : at);
    for (uint64_t at = count; strcmp(order, "random") == 0 && at > 1; at--) {
        uint64_t other = draw(at), kept = names[at - 1];
        names[at - 1] = names[other];
        names[other] = kept;
    }
    return names;
}

static void open_store(uint64_t vertices) {
    static const tg_value workers[2] = { { TG_CELL, 0, 0 }, { TG_CELL, 0, 0 } };
    static const tg_edge edges[2] = { { 0, 1, TG_GRANT }, { 1, 0, TG_TAKE } };
    const tg_limits limits = { vertices + 2, 65536, 65536 };
    want(tg_open(&store, workers, 2, edges, 2, &limits) == TG_DONE);
}

static void create(uint64_t count) {
    static const tg_value cell = { TG_CELL, 0, 0 };
    uint64_t name;
    for (uint64_t at = 0; at < count; at++)
        want(tg_create(&store, 0, TG_READ, &cell, &name) == TG_DONE && name == at + 2);
}

/* What one more command on the vertex of this name is. */
static tg_status command(const char *order, uint64_t name) {
    if (strcmp(order, "front") == 0 || strcmp(order, "back") == 0)
        return tg_remove(&store, 0, name, TG_READ, &why);
    if (strcmp(order, "random") == 0)
        return tg_take(&store, 1, 0, name, TG_READ, &why);
    return tg_grant(&store, 0, 1, name, TG_READ, &why);
}

static uint64_t change(const char *order, uint64_t vertices) {
    uint64_t *names = in_order(order, 2, vertices);
    create(vertices);
    for (uint64_t at = 0; at < vertices; at++)
        want(command(order, names[at]) == TG_DONE);
    free(names);
    return 2 * vertices;
}

static uint64_t list(void) {
    static tg_target row[LISTED + 1];
    uint64_t count;
    create(LISTED);
    for (int at = 0; at < LISTS; at++)
        want(tg_list(&store, 0, row, LISTED + 1, &count) == TG_DONE && count == LISTED + 1);
    return LISTED + LISTS;
}

int main(int count, char **words) {
    static const char *const orders[] = { "up", "down", "random", "front", "back", "lists" };
    size_t known = 0;
    while (known < sizeof orders / sizeof *orders && (count < 2 || strcmp(orders[known], words[1]) != 0))
        known++;
    uint64_t vertices = count == 3 ? strtoull(words[2], NULL, 10) : 200000, audited;
    if (known == sizeof orders / sizeof *orders || count > 3 || vertices == 0) {
        fprintf(stderr, "usage: audits up|down|random|front|back|lists [VERTICES]\n");
        return 2;
    }
    open_store(vertices);
    double began = now();
    uint64_t entries = known == 5 ? list() : change(words[1], vertices);
    double served = now() - began;
    want(tg_audit(&store, &audited) == TG_DONE && audited == entries);
    double audit = now() - began - served;
    printf("%s: %" PRIu64 " commands %.1f ms, audit %.1f ms, ratio %.2f\n", words[1], entries, served, audit, audit / served);
    want(tg_close(&store) == TG_DONE);
    return 0;
}
