/* The cost of a plain table of edges as it grows: table VERTICES

   A C programmer might write it for the commands of store.c. It has an array with the value of each vertex, and one table of
   edges with open addressing. At most 7 of 8 places of the table are used. It has no journal and no collection, and no call can
   be refused. It prints the same lines as store.c, as far as it has these parts. bench/scaling/run.py builds and runs it. */
#include <malloc.h>
#include <stdint.h>
#include <stdio.h>
#include <stdlib.h>
#include <time.h>

enum { WORKERS = 64, LOOK_UPS = 1000000, READ = 1 };

/* An edge. A free place has no rights. */
struct edge {
    uint32_t from, to;
    uint8_t rights;
};

static struct edge *edges;
static uint64_t places, used;
static uint64_t *values, value_count, value_room;

static void *wanted(void *at) {
    if (at == NULL) {
        fputs("table: out of memory\n", stderr);
        exit(1);
    }
    return at;
}

static uint64_t hash(uint32_t from, uint32_t to) {
    uint64_t key = ((uint64_t)from << 32 | to) * 0x9E3779B97F4A7C15u;
    return key ^ key >> 29;
}

/* The edge's place, or the free one where it belongs. */
static struct edge *find(uint32_t from, uint32_t to) {
    uint64_t at = hash(from, to) & (places - 1);
    while (edges[at].rights && (edges[at].from != from || edges[at].to != to))
        at = (at + 1) & (places - 1);
    return edges + at;
}

static void grow(void) {
    struct edge *before = edges;
    uint64_t count = places;
    places = count ? 2 * count : 16;
    edges = wanted(calloc(places, sizeof *edges));
    for (uint64_t at = 0; at < count; at++)
        if (before[at].rights)
            *find(before[at].from, before[at].to) = before[at];
    free(before);
}

static void put(uint32_t from, uint32_t to, uint8_t rights) {
    if (used * 8 >= places * 7)
        grow();
    struct edge *edge = find(from, to);
    used += edge->rights == 0;
    *edge = (struct edge){ from, to, edge->rights | rights };
}

static void create(uint32_t worker) {
    if (value_count == value_room) {
        value_room = value_room ? 2 * value_room : 16;
        values = wanted(realloc(values, value_room * sizeof *values));
    }
    values[value_count] = 0;
    put(worker, (uint32_t)(WORKERS + value_count++), READ);
}

/* The nanoseconds of processor time since the last call. */
static double passed(void) {
    static double before;
    struct timespec time;
    clock_gettime(CLOCK_PROCESS_CPUTIME_ID, &time);
    double now = (double)time.tv_sec * 1e9 + (double)time.tv_nsec, took = now - before;
    before = now;
    return took;
}

/* A number below `below`. The numbers are those of store.c. */
static uint64_t draw(uint64_t below) {
    static uint64_t state = 12345;
    state = state * 6364136223846793005u + 1442695040888963407u;
    return (state >> 33) % below;
}

/* Prints a line of /proc/self/status, which is in kB, in MB. */
static void print_memory(const char *name, const char *of) {
    char line[256];
    unsigned long kilobytes = 0;
    FILE *file = fopen("/proc/self/status", "r");
    while (file != NULL && kilobytes == 0 && fgets(line, sizeof line, file) != NULL)
        sscanf(line, of, &kilobytes);
    if (file != NULL)
        fclose(file);
    printf("%s %.1f\n", name, 1.024e-3 * (double)kilobytes);
}

/* Prints the bytes of malloc for each vertex, with headers, and what is resident. */
static void print_held(uint64_t vertices_made) {
    struct mallinfo2 heap = mallinfo2();
    printf("bytes %.1f\n", (double)(heap.uordblks + heap.hblkhd) / (double)vertices_made);
    print_memory("resident", "VmRSS: %lu kB");
}

int main(int count, char **words) {
    uint64_t vertices = count == 2 ? strtoull(words[1], NULL, 10) : 0, sum = 0;
    passed();
    for (uint64_t at = 0; at < vertices; at++)
        create((uint32_t)(at % WORKERS));
    printf("create %.1f\n", passed() / (double)vertices);
    print_held(vertices);
    passed();
    for (uint64_t at = 0; at < LOOK_UPS; at++) {
        uint64_t it = draw(vertices);
        sum += find((uint32_t)(it % WORKERS), (uint32_t)(WORKERS + it))->rights & READ ? values[it] + 1 : 0;
    }
    printf("read %.1f\n", passed() / LOOK_UPS);
    for (uint64_t at = 0; at < LOOK_UPS; at++) {
        uint64_t it = draw(vertices);
        sum += find((uint32_t)(it % WORKERS), (uint32_t)(WORKERS + it))->rights;
    }
    printf("label %.1f\n", passed() / LOOK_UPS);
    print_memory("greatest", "VmHWM: %lu kB");
    return sum == 2 * LOOK_UPS ? 0 : 1;
}
