/* The cost of a store as it grows, through the library for C: store VERTICES

   64 workers make the vertices in turn, each with one edge. The entries are given up after each 4,096 commands. It prints one
   line for each part, with its name and a number. A create, a read and a label are in nanoseconds of processor time. A full
   collection is in nanoseconds for each vertex, and a nursery collection of 1,000 new vertices in milliseconds. Reads and labels
   are of 1,000,000 vertices that are drawn by chance. After the creates it prints the bytes of malloc for each vertex and the
   resident memory in MB, and in the end the most that was resident. The script bench/scaling/run.py builds and runs it. */
#include "kovshenul.h"
#include <inttypes.h>
#include <malloc.h>
#include <stdio.h>
#include <stdlib.h>
#include <time.h>

enum { WORKERS = 64, PART = 4096, LOOK_UPS = 1000000, YOUNG = 1000, ALL_BLOCKS = 1 << 20 };

static tg_store store = TG_STORE_INIT;
static uint64_t vertices;

static void want(int holds, const char *what) {
    if (!holds) {
        fprintf(stderr, "store: %s\n", what);
        exit(1);
    }
}

/* The nanoseconds of processor time since the last call. */
static double passed(void) {
    static double before;
    struct timespec time;
    clock_gettime(CLOCK_PROCESS_CPUTIME_ID, &time);
    double now = (double)time.tv_sec * 1e9 + (double)time.tv_nsec, took = now - before;
    before = now;
    return took;
}

/* A number below `below`. The numbers are the same in each run. */
static uint64_t draw(uint64_t below) {
    static uint64_t state = 12345;
    state = state * 6364136223846793005u + 1442695040888963407u;
    return (state >> 33) % below;
}

static void give_up_entries(void) {
    uint64_t entries;
    want(tg_entries(&store, &entries) == TG_DONE && tg_forget(&store, entries) == TG_DONE, "the entries aren't given up");
}

static void make(uint64_t count) {
    static const tg_value zero = { TG_CELL, 0, 0 };
    uint64_t name;
    for (uint64_t at = 0; at < count; at++) {
        want(tg_create(&store, at % WORKERS, TG_READ, &zero, &name) == TG_DONE, "a vertex isn't made");
        if (at % PART == PART - 1)
            give_up_entries();
    }
    give_up_entries();
}

static void read_some(void) {
    uint64_t number, count;
    for (uint64_t at = 0; at < LOOK_UPS; at++) {
        uint64_t it = draw(vertices);
        want(tg_read(&store, it % WORKERS, WORKERS + it, &number, 1, &count, NULL) == TG_DONE && number == 0, "a vertex isn't read");
        if (at % PART == PART - 1)
            give_up_entries();
    }
    give_up_entries();
}

static void label_some(void) {
    uint64_t rights;
    for (uint64_t at = 0; at < LOOK_UPS; at++) {
        uint64_t it = draw(vertices);
        want(tg_label(&store, it % WORKERS, WORKERS + it, &rights) == TG_DONE && rights == TG_READ, "a label is another one");
    }
}

static void collect(uint32_t kind, uint64_t wanted) {
    uint64_t left;
    want(tg_collect(&store, kind, &left) == TG_DONE && left == wanted, "a collection leaves another number of vertices");
}

/* The milliseconds of a nursery collection of new vertices. */
static double collect_young(uint64_t all) {
    make(YOUNG);
    passed();
    collect(TG_NURSERY, all);
    return passed() / 1e6;
}

static void open_store(void) {
    static const tg_value workers[WORKERS];
    static const tg_edge no_edge;
    const tg_limits limits = { WORKERS + vertices + 2 * YOUNG, ALL_BLOCKS, ALL_BLOCKS };
    want(tg_open(&store, workers, WORKERS, &no_edge, 0, &limits) == TG_DONE, "the store isn't opened");
}

/* Prints a line of /proc/self/status, which is in kB, in MB. */
static void print_memory(const char *name, const char *of) {
    char line[256];
    unsigned long kilobytes = 0;
    FILE *file = fopen("/proc/self/status", "r");
    while (file != NULL && kilobytes == 0 && fgets(line, sizeof line, file) != NULL)
        sscanf(line, of, &kilobytes);
    if (file != NULL)
        fclose(file);
    printf("%s %.1f\n", name, 1.024e-3 * (double)kilobytes);
}

/* Prints the bytes of malloc for each vertex, with headers, and what is resident. */
static void print_held(uint64_t vertices_made) {
    struct mallinfo2 heap = mallinfo2();
    printf("bytes %.1f\n", (double)(heap.uordblks + heap.hblkhd) / (double)vertices_made);
    print_memory("resident", "VmRSS: %lu kB");
}

int main(int count, char **words) {
    vertices = count == 2 ? strtoull(words[1], NULL, 10) : 0;
    want(vertices > 0, "store VERTICES");
    open_store();
    uint64_t all = WORKERS + vertices;
    passed();
    make(vertices);
    printf("create %.1f\n", passed() / (double)vertices);
    print_held(vertices);
    passed();
    collect(TG_FULL, all);
    printf("young %.1f\n", passed() / (double)vertices);
    read_some();
    printf("read %.1f\n", passed() / LOOK_UPS);
    label_some();
    printf("label %.1f\n", passed() / LOOK_UPS);
    collect(TG_FULL, all);
    printf("old %.1f\n", passed() / (double)vertices);
    printf("first %.3f\n", collect_young(all + YOUNG));
    printf("next %.3f\n", collect_young(all + 2 * YOUNG));
    print_memory("greatest", "VmHWM: %lu kB");
    want(tg_close(&store) == TG_DONE, "the store isn't closed");
    return 0;
}
