/* How long a look-up of a label takes, by where the label lies: look_ups VERTICES
 *
 *     cc -O2 -msse2 -o look_ups bench/look_ups.c && ./look_ups 1000000
 *
 * A model of the memory that a look-up touches. 64 rows share the vertices. The index of a row has a table of groups of twelve
 * entries, its names, and the numbers of their places. They are laid out as in the kit's map. It prints nanoseconds a look-up,
 * the least of five times 1,000,000 in no order, in four layouts:
 *
 *   cell      the number of the place leads to the list of the row's cells, and that to the cell, which has the label
 *   number    the label is eight bits of the number of the place
 *   entry     the same, with name and number side by side
 *   word      a table of words of 64 bits alone, each with a name of 32 bits, a number and a label
 */
#include <emmintrin.h>
#include <stdint.h>
#include <stdio.h>
#include <stdlib.h>
#include <time.h>

enum { ROWS = 64, LANES = 12, LOAD = 10, REFERENCES = 6, ASKED = 1000000, ROUNDS = 5 };

typedef struct { uint8_t tags[16]; uint32_t at[LANES]; } Group;
typedef struct { uint32_t low, high, spot; } Entry;
typedef struct { uint64_t words[8]; } Cell;
typedef struct { Group *groups; uint64_t *names, *cells, *words; uint32_t *spots; Entry *entries; } Row;

static Row rows[ROWS];
static Cell *heap;
static uint64_t each, groups, words;

static double now(void) {
    struct timespec time;
    clock_gettime(CLOCK_MONOTONIC, &time);
    return time.tv_sec * 1e9 + time.tv_nsec;
}

static uint64_t hash(uint64_t name) {
    __uint128_t product = (__uint128_t)(name ^ 0x243F6A8885A308D3) * 0x9E3779B97F4A7C15;
    return (uint64_t)product ^ (uint64_t)(product >> 64);
}

static uint8_t tag_of(uint64_t hash) { return (hash >> 24 & 255) | 1; }

static void put(Row *row, uint64_t name, uint32_t number) {
    uint64_t code = hash(name), at = code & (groups - 1), word = code & (words - 1);
    uint32_t spot = number | 1u << 24;
    int lane = LANES;
    for (;; at = (at + 1) & (groups - 1)) {
        for (lane = 0; lane < LANES && row->groups[at].tags[lane]; lane++) {}
        if (lane < LANES) break;
    }
    row->groups[at].tags[lane] = tag_of(code);
    row->groups[at].at[lane] = number;
    row->names[number] = name;
    row->spots[number] = spot;
    row->entries[number] = (Entry){name, name >> 32, spot};
    while (row->words[word]) word = (word + 1) & (words - 1);
    row->words[word] = name << 32 | spot;
    heap[row->cells[number / REFERENCES]].words[1 + number % REFERENCES] = name << 8 | 1;
}

static void fill(void) {
    uint64_t next = 0;
    for (uint64_t i = 0; i < each; i++)
        for (uint64_t r = 0; r < ROWS; r++) {
            if (i % REFERENCES == 0) rows[r].cells[i / REFERENCES] = next++;
            next++; /* the cell of the vertex itself */
            put(rows + r, ROWS + i * ROWS + r, i);
        }
}

static uint64_t label_of(const Row *row, uint64_t name, int way) {
    uint64_t code = hash(name), at = code & (groups - 1), word = code & (words - 1);
    if (way == 3) {
        while (row->words[word] >> 32 != name) word = (word + 1) & (words - 1);
        return row->words[word] >> 24 & 255;
    }
    for (;; at = (at + 1) & (groups - 1)) {
        __m128i tags = _mm_loadu_si128((const void *)row->groups[at].tags);
        unsigned same = _mm_movemask_epi8(_mm_cmpeq_epi8(tags, _mm_set1_epi8((char)tag_of(code)))) & 0xFFF;
        for (; same; same &= same - 1) {
            uint32_t number = row->groups[at].at[__builtin_ctz(same)];
            const Entry *entry = row->entries + number;
            if (way == 2 && (entry->low | (uint64_t)entry->high << 32) == name) return entry->spot >> 24;
            if (way == 2 || row->names[number] != name) continue;
            uint32_t spot = row->spots[number];
            if (way == 1) return spot >> 24;
            uint32_t place = spot & 0xFFFFFF;
            return heap[row->cells[place / REFERENCES]].words[1 + place % REFERENCES] & 255;
        }
    }
}

static double look_up_all(int way, uint64_t *found) {
    uint64_t at = 7;
    double start = now();
    for (int i = 0; i < ASKED; i++) {
        at = at * 6364136223846793005u + 1442695040888963407u;
        uint64_t vertex = (at >> 33) % (each * ROWS);
        *found += label_of(rows + vertex % ROWS, ROWS + vertex, way);
    }
    return (now() - start) / ASKED;
}

int main(int count, char **given) {
    const char *names[] = {"cell", "number", "entry", "word"};
    each = (count > 1 ? strtoull(given[1], 0, 10) : 1000000) / ROWS;
    for (groups = 1; groups * LOAD < each;) groups *= 2;
    for (words = 16; words * 7 < each * 8;) words *= 2;
    heap = aligned_alloc(64, (2 * each + 1) * ROWS * sizeof *heap);
    for (int r = 0; r < ROWS; r++)
        rows[r] = (Row){calloc(groups, sizeof(Group)), calloc(each, 8), calloc(each / REFERENCES + 1, 8), calloc(words, 8), calloc(each, 4), calloc(each, sizeof(Entry))};
    fill();
    uint64_t found = 0;
    for (int way = 0; way < 4; way++) {
        double least = 1e18;
        for (int round = 0; round < ROUNDS; round++) {
            double took = look_up_all(way, &found);
            if (took < least) least = took;
        }
        printf("%-8s %.0f ns\n", names[way], least);
    }
    return found != 4ull * ROUNDS * ASKED;
}
