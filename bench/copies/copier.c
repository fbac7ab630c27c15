// copier.c: how long a bare copier takes for the live heaps of main.rt.in, and memcpy for as many bytes.
// It keeps nothing but what copying needs: no space but one, no rights to check, blocks that are there already.
// Prints a line for each: its name, the number of cells, and the median time in nanoseconds.
#include "cells.h"

enum { BLOCKS = 547, CELLS = BLOCKS * 64, ROUNDS = 301 };

static cell *spaces[2][BLOCKS], **from = spaces[0], **to = spaces[1];
static uint64_t forward[CELLS], numbers[CELLS], root;

static void build(int is_random) {
    seed = 1;
    for (uint64_t i = 0; i < CELLS; i++) numbers[i] = i;
    for (uint64_t i = 1; is_random && i < CELLS; i++) {
        uint64_t other = draw() % (i + 1), kept = numbers[i];
        numbers[i] = numbers[other];
        numbers[other] = kept;
    }
    for (uint64_t node = 0; node < CELLS; node++) {
        uint64_t other = (is_random ? draw() : node + 1) % CELLS;
        cell *c = cell_at(from, numbers[node]);
        memset(c, 0, sizeof *c);
        c->words[0] = 1;
        c->words[1] = c->words[2] = node;
        for (uint64_t child = 1; child < 3; child++)
            if (2 * node + child < CELLS) c->words[3 + child] = link_to(numbers[2 * node + child]) | 1;
        c->words[6] = link_to(numbers[other]) | 1;
    }
    root = link_to(numbers[0]);
}

static uint64_t move(uint64_t word, uint64_t *free) {
    uint64_t number = number_in(word);
    if (!forward[number]) {
        forward[number] = link_to(*free);
        *cell_at(to, *free) = *cell_at(from, number);
        ++*free;
    }
    return forward[number] | rights_in(word);
}

// Copies what the root reaches, and gives the number of cells. The next one begins with the copies.
static uint64_t collect(void) {
    uint64_t free = 0;
    memset(forward, 0, sizeof forward);
    root = move(root, &free);
    for (uint64_t scan = 0; scan < free; scan++) {
        cell *c = cell_at(to, scan);
        for (int i = c->words[0] == 1 ? 4 : 1; i < 8; i++)
            if (c->words[i]) c->words[i] = move(c->words[i], &free);
    }
    cell **emptied = from;
    from = to;
    to = emptied;
    return free;
}

static void report(const char *name, uint64_t *times) {
    qsort(times, ROUNDS, sizeof *times, compare);
    printf("%s %d %llu\n", name, CELLS, (unsigned long long)times[ROUNDS / 2]);
}

int main(void) {
    static uint64_t times[ROUNDS];
    for (int i = 0; i < BLOCKS; i++) {
        from[i] = aligned_alloc(64, 64 * sizeof(cell));
        to[i] = aligned_alloc(64, 64 * sizeof(cell));
        if (!from[i] || !to[i]) return 1;
        memset(to[i], 0, 64 * sizeof(cell));
    }
    for (int is_random = 0; is_random < 2; is_random++) {
        build(is_random);
        for (int round = 0; round < ROUNDS; round++) {
            uint64_t start = now();
            if (collect() != CELLS) return 1;
            times[round] = now() - start;
        }
        report(is_random ? "random" : "tree", times);
    }
    cell *a = malloc(CELLS * sizeof *a), *b = malloc(CELLS * sizeof *b);
    if (!a || !b) return 1;
    memset(a, 1, CELLS * sizeof *a);
    memset(b, 2, CELLS * sizeof *b);
    for (int round = 0; round < ROUNDS; round++) {
        uint64_t start = now();
        memcpy(round % 2 ? a : b, round % 2 ? b : a, CELLS * sizeof *a);
        times[round] = now() - start;
    }
    report("memcpy", times);
    return a[CELLS / 2].words[0] == b[0].words[0] + 1;
}
