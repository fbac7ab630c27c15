/* The cost of a mixture of commands through the library for C: mixture FILE [setup]

   FILE has the bytes of Mixture.bytes of mixture.py. With setup after it only the vertices are made. It prints a sum over
   all answers, page faults, the bytes of malloc, and the processor time. mixture/run.py builds and runs it. */
#include "kovshenul.h"
#include <malloc.h>
#include <stdio.h>
#include <stdlib.h>
#include <string.h>
#include <sys/resource.h>

enum { READ, GRANT, CREATE, REMOVE, INSPECT, MINOR, FULL };
enum { ROOM = 64 };

struct step {
    unsigned char kind, worker, rights;
    uint32_t first, second;
};

static tg_store store = TG_STORE_INIT;
static uint64_t sum = 1469598103934665603u;

static void add(uint64_t it) { sum = (sum ^ it) * 1099511628211u; }

static void want(int it) {
    if (!it) {
        fputs("mixture: an answer that should not be\n", stderr);
        exit(1);
    }
}

/* The whole file, and what of it isn't read yet. */
static const unsigned char *at, *end;

static void take_file(const char *name) {
    FILE *file = fopen(name, "rb");
    want(file != NULL && !fseek(file, 0, SEEK_END));
    long size = ftell(file);
    unsigned char *bytes = malloc((size_t)size);
    rewind(file);
    want(bytes != NULL && fread(bytes, 1, (size_t)size, file) == (size_t)size && !fclose(file));
    at = bytes;
    end = bytes + size;
}

static const unsigned char *four(void) {
    want(end - at >= 4);
    at += 4;
    return at - 4;
}

static uint32_t number(void) {
    const unsigned char *b = four();
    return b[0] | (uint32_t)b[1] << 8 | (uint32_t)b[2] << 16 | (uint32_t)b[3] << 24;
}

static struct step step_of(void) {
    const unsigned char *b = four();
    struct step it = {b[0], b[1], b[2], 0, 0};
    it.first = number();
    it.second = number();
    return it;
}

static tg_status inspect(struct step it, tg_denial *why) {
    tg_target row[ROOM];
    uint64_t count;
    tg_status status = tg_inspect(&store, it.worker, it.first, row, ROOM, &count, why);
    for (uint64_t i = 0; !status && i < count; i++) {
        add(row[i].to);
        add(row[i].rights);
    }
    return status;
}

static tg_status apply(struct step it) {
    static const tg_value zero = {TG_CELL, 0, 0};
    uint64_t numbers[ROOM], count = 0;
    tg_denial why;
    tg_status status = 0;
    switch (it.kind) {
    case READ: status = tg_read(&store, it.worker, it.first, numbers, ROOM, &count, &why); break;
    case GRANT: status = tg_grant(&store, it.worker, it.first, it.second, it.rights, &why); break;
    case CREATE: status = tg_create(&store, it.worker, it.rights, &zero, &count); break;
    case REMOVE: status = tg_remove(&store, it.worker, it.first, it.rights, &why); break;
    case INSPECT: status = inspect(it, &why); break;
    case MINOR: status = tg_collect(&store, TG_NURSERY, &count); break;
    case FULL: status = tg_collect(&store, TG_FULL, &count); break;
    default: want(0);
    }
    if (it.kind == READ && !status)
        add(numbers[0]);
    add(status);
    return status;
}

static void open_store(uint32_t workers, uint32_t count) {
    tg_edge *edges = calloc(count, sizeof *edges);
    tg_value *values = calloc(workers, sizeof *values);
    tg_limits limits = {1 << 24, 1 << 20, 1 << 20};
    want(edges && values);
    for (uint32_t i = 0; i < count; i++) {
        uint32_t from = number(), to = number();
        edges[i] = (tg_edge){from, to, TG_GRANT};
    }
    want(!tg_open(&store, values, workers, edges, count, &limits));
    free(edges);
    free(values);
}

static double seconds(void) {
    struct rusage used;
    getrusage(RUSAGE_SELF, &used);
    return (double)(used.ru_utime.tv_sec + used.ru_stime.tv_sec) + 1e-6 * (double)(used.ru_utime.tv_usec + used.ru_stime.tv_usec);
}

int main(int count, char **words) {
    want(count >= 2);
    take_file(words[1]);
    uint32_t all = number(), setup = number(), workers = number(), edges = number();
    uint32_t steps = count > 2 && !strcmp(words[2], "setup") ? setup : all;
    open_store(workers, edges);
    double start = seconds();
    for (uint32_t i = 0; i < steps; i++)
        want(apply(step_of()) <= TG_DENIED);
    struct mallinfo2 heap = mallinfo2();
    struct rusage used;
    getrusage(RUSAGE_SELF, &used);
    printf("sum %016llx, %ld page faults, %zu bytes, %.3f s\n", (unsigned long long)sum, used.ru_minflt, heap.uordblks + heap.hblkhd, seconds() - start);
    return 0;
}
