/* What no store goes on from: altered entries, parts that don't follow one another, and texts that aren't of a snapshot. The texts are in
   the table whose path is the only argument. Each is refused at its place or line, and nothing is kept. */
#include "kovshenul.h"
#include <stdio.h>
#include <stdlib.h>
#include <string.h>

enum { ENTRIES = 8, TEXT = 1 << 14 };

static const tg_value workers[2] = { { TG_CELL, 0, 0 }, { TG_CELL, 0, 0 } };
static const tg_edge edges[2] = { { 0, 1, TG_GRANT }, { 0, 1, TG_INSPECT } };
static const tg_limits limits = { 20, 8, 4 }, few = { 2, 8, 4 };

/* An entry as tg_entry writes it. */
struct kept {
    tg_record entry;
    uint64_t numbers[4];
    tg_target edges[4];
};

static struct kept first[ENTRIES];

static void stop(const char *what, uint64_t at) {
    fprintf(stderr, "refused: %s: %llu\n", what, (unsigned long long)at);
    exit(1);
}

#define WANT(it) ((it) ? (void)0 : stop(#it, __LINE__))

/* The entries of a store that is used. */
static void use(void) {
    static const tg_value sum = { TG_SUM, 0, 40 };
    tg_store store = TG_STORE_INIT;
    tg_target row[4];
    uint64_t name, number, count;
    WANT(tg_open(&store, workers, 2, edges, 1, &limits) == TG_DONE);
    WANT(tg_create(&store, 0, TG_READ | TG_WRITE, &sum, &name) == TG_DONE && name == 2);
    WANT(tg_write(&store, 0, 2, 2, NULL) == TG_DONE && tg_read(&store, 0, 2, &number, 1, &count, NULL) == TG_DONE);
    WANT(tg_grant(&store, 0, 1, 2, TG_READ, NULL) == TG_DONE && tg_read(&store, 1, 2, &number, 1, &count, NULL) == TG_DONE);
    WANT(tg_write(&store, 1, 2, 7, NULL) == TG_DENIED && tg_list(&store, 0, row, 4, &count) == TG_DONE);
    WANT(tg_retire(&store, 1) == TG_DONE);
    for (uint64_t at = 0; at < ENTRIES; at++)
        WANT(tg_entry(&store, at, &first[at].entry, first[at].numbers, 4, first[at].edges, 4) == TG_DONE);
    WANT(tg_close(&store) == TG_DONE);
}

/* Hands in entries from a place on. Returns the status of the first that is refused, and writes its place, or TG_DONE. */
static tg_status hand_in(tg_store *store, const struct kept *entries, uint64_t from, uint64_t count, uint64_t *at) {
    for (*at = from; *at < from + count; ++*at) {
        const struct kept *it = &entries[*at - from];
        tg_status status = tg_resume(store, *at, &it->entry, it->numbers, it->entry.number_count, it->edges, it->entry.edge_count);
        if (status != TG_DONE)
            return status;
    }
    return TG_DONE;
}

/* The entries aren't legal after the opening, and the store is closed at the place. */
static void is_bad(const char *what, const struct kept *entries, uint64_t count, const tg_edge *own, const tg_limits *most, uint64_t place) {
    tg_store store = TG_STORE_INIT;
    uint64_t at;
    WANT(tg_open(&store, workers, 2, own, 1, most) == TG_DONE);
    if (hand_in(&store, entries, 0, count, &at) != TG_BAD_ENTRY || at != place || store.is_open || store.handle.at != NULL)
        stop(what, at);
}

/* One number of one entry is changed. */
static void changed(void) {
    static const struct { const char *what; uint64_t entry, place; } rows[] = {
        { "the name of a vertex that was made", 0, 0 },
        { "the number of a write, by the read after it", 1, 2 },
        { "the number that a read returned", 2, 2 },
        { "the rights of a grant, by the read after it", 3, 4 },
        { "the worker that asked", 4, 4 },
        { "the rights that a denial says are missing", 5, 5 },
        { "the rights that were listed", 6, 6 },
    };
    for (size_t row = 0; row < sizeof rows / sizeof rows[0]; row++) {
        struct kept entries[ENTRIES];
        memcpy(entries, first, sizeof entries);
        struct kept *it = &entries[rows[row].entry];
        switch (row) {
        case 0: it->entry.name++; break;
        case 1: it->entry.value++; break;
        case 2: it->numbers[0]++; break;
        case 3: it->entry.rights = TG_WRITE; break;
        case 4: it->entry.worker = 2; break;
        case 5: it->entry.denial.rights = TG_READ; break;
        default: it->edges[1].rights = TG_READ; break;
        }
        is_bad(rows[row].what, entries, ENTRIES, edges, &limits, rows[row].place);
    }
}

/* An entry is left out, and the entries are handed to stores with other openings. */
static void of_another_history(void) {
    struct kept entries[ENTRIES];
    memcpy(entries, first, sizeof entries);
    memmove(&entries[3], &entries[4], (ENTRIES - 4) * sizeof entries[0]);
    is_bad("an entry left out", entries, ENTRIES - 1, edges, &limits, 3);
    is_bad("another edge", first, ENTRIES, edges + 1, &limits, 3);
    is_bad("another limit", first, ENTRIES, edges, &few, 0);
}

/* A part that is missing or comes twice is refused at its first entry, and the store goes on from its own place. */
static void parts(void) {
    tg_store store = TG_STORE_INIT;
    uint64_t at, count;
    WANT(tg_open(&store, workers, 2, edges, 1, &limits) == TG_DONE && hand_in(&store, first, 0, 3, &at) == TG_DONE);
    WANT(hand_in(&store, &first[5], 5, 3, &at) == TG_BAD_PLACE && at == 5);
    WANT(hand_in(&store, first, 0, 3, &at) == TG_BAD_PLACE && at == 0);
    WANT(tg_entries(&store, &count) == TG_DONE && count == 3);
    WANT(hand_in(&store, &first[3], 3, 5, &at) == TG_DONE && hand_in(&store, &first[3], 3, 5, &at) == TG_BAD_PLACE && at == 3);
    WANT(tg_close(&store) == TG_DONE);
}

/* One text of the table. After a refusal the snapshot is closed. */
static void read_text(const char *what, const char *text, uint64_t wanted) {
    tg_snapshot snapshot = TG_SNAPSHOT_INIT;
    char again[TEXT];
    uint64_t line = 0, length;
    tg_status status = tg_snapshot_read(&snapshot, text, strlen(text), &line);
    if (line != wanted || status != (wanted ? TG_BAD_VALUES : TG_DONE) || snapshot.is_open == (wanted > 0))
        stop(what, line);
    if (wanted)
        return;
    WANT(tg_snapshot_text(&snapshot, again, sizeof again, &length) == TG_DONE && strcmp(again, text) == 0);
    WANT(tg_snapshot_close(&snapshot) == TG_DONE);
}

/* Reads the table: a line with the line at fault and what is wrong, then the text, then an empty line. Returns how many texts it has. */
static uint64_t read_table(FILE *table) {
    static char what[TEXT], text[TEXT], line[TEXT];
    uint64_t count = 0;
    while (fgets(what, sizeof what, table) != NULL) {
        if (what[0] == '#' || what[0] == '\n')
            continue;
        text[0] = '\0';
        while (fgets(line, sizeof line, table) != NULL && line[0] != '\n')
            strcat(text, line);
        read_text(what, text, strtoull(what, NULL, 10));
        count++;
    }
    return count;
}

int main(int count, char **words) {
    FILE *table = count == 2 ? fopen(words[1], "r") : NULL;
    if (table == NULL)
        stop("usage: refused TABLE", 0);
    use();
    is_bad("a name that nobody has", (struct kept[1]) { { .entry = { .worker = 7, .deed = TG_DEED_RETIRE } } }, 1, edges, &limits, 0);
    changed();
    of_another_history();
    parts();
    printf("refused ok: %llu texts\n", (unsigned long long)read_table(table));
    fclose(table);
    return 0;
}
