// cells.h: the parts that the bare copiers share. They are cells in blocks of 64, references to them, numbers that look
// random, and the clock.
#include <stdint.h>
#include <stdio.h>
#include <stdlib.h>
#include <string.h>
#include <time.h>

typedef struct {
    uint64_t words[8];
} cell;

static uint64_t seed;

static uint64_t draw(void) {
    seed = seed * 6364136223846793005u + 1442695040888963407u;
    return seed >> 33;
}

// A reference: present, Old, and the number of the cell where the bits of block and cell are, above those of its rights.
static uint64_t link_to(uint64_t number) { return 1ull << 41 | number << 8; }
static uint64_t number_in(uint64_t word) { return word >> 8 & ((1 << 26) - 1); }
static uint64_t rights_in(uint64_t word) { return word & 255; }
static cell *cell_at(cell **blocks, uint64_t number) { return &blocks[number / 64][number % 64]; }

static uint64_t now(void) {
    struct timespec t;
    clock_gettime(CLOCK_MONOTONIC, &t);
    return t.tv_sec * 1000000000ull + t.tv_nsec;
}

static int compare(const void *a, const void *b) {
    uint64_t x = *(const uint64_t *)a, y = *(const uint64_t *)b;
    return (x > y) - (x < y);
}
