/* A host that writes its journal out as tgaudit reads it. The text has the opening, a line for each entry, and how many these
   are. Build it with: cc entries.c -lkovshenul */
#include "kovshenul.h"
#include <stdio.h>
#include <stdlib.h>

enum { HOST, GUEST, WORKERS, NUMBERS = 64, OPENING = 200, END = 32 };

/* The line of an entry, with these numbers and edges. The first call says how long it is. */
static tg_status put_line(const tg_record *entry, const uint64_t *numbers, const tg_target *edges) {
    const size_t number_count = entry->number_count, edge_count = entry->edge_count;
    uint64_t length = 0;
    tg_status status = tg_entry_text(entry, numbers, number_count, edges, edge_count, NULL, 0, &length);
    char *line = status == TG_DONE ? malloc(length + 1) : NULL;
    if (line == NULL)
        return status == TG_DONE ? TG_OUT_OF_MEMORY : status;
    status = tg_entry_text(entry, numbers, number_count, edges, edge_count, line, length + 1, &length);
    if (status == TG_DONE)
        fputs(line, stdout);
    free(line);
    return status;
}

/* The line of the entry at a place. */
static tg_status put_entry(tg_store *store, uint64_t at) {
    uint64_t numbers[NUMBERS];
    tg_target *edges = NULL;
    tg_record entry;
    tg_status status = tg_entry(store, at, &entry, numbers, NUMBERS, NULL, 0);
    if (status == TG_DONE && entry.edge_count > 0) {
        edges = malloc(entry.edge_count * sizeof *edges);
        status = edges ? tg_entry(store, at, &entry, numbers, NUMBERS, edges, entry.edge_count) : TG_OUT_OF_MEMORY;
    }
    if (status == TG_DONE)
        status = put_line(&entry, numbers, edges);
    free(edges);
    return status;
}

/* The entries that the store holds, and how many it made. */
static tg_status put_entries(tg_store *store) {
    char line[END];
    uint64_t at, next, length;
    tg_status status = tg_first(store, &at);
    if (status == TG_DONE)
        status = tg_entries(store, &next);
    while (status == TG_DONE && at < next)
        status = put_entry(store, at++);
    if (status == TG_DONE)
        status = tg_end_text(next, line, END, &length);
    if (status == TG_DONE)
        fputs(line, stdout);
    return status;
}

/* A command of each kind, served or denied. */
static void work(tg_store *store) {
    static const tg_value sum = { TG_SUM, 0, 5 }, log_of_two = { TG_LOG, 2, 0 };
    uint64_t total, log, count, numbers[NUMBERS];
    tg_target row[4];
    tg_create(store, HOST, TG_READ | TG_WRITE | TG_GRANT, &sum, &total);
    tg_spawn(store, HOST, TG_READ | TG_APPEND | TG_INSPECT, &log_of_two, &log);
    tg_grant(store, HOST, GUEST, total, TG_WRITE, NULL);
    tg_write(store, GUEST, total, 7, NULL);
    for (uint64_t number = 0; number < 3; number++)
        tg_append(store, HOST, log, number, NULL);
    tg_read(store, HOST, total, numbers, NUMBERS, &count, NULL);
    tg_read(store, HOST, log, numbers, NUMBERS, &count, NULL);
    tg_list(store, HOST, row, 4, &count);
    tg_inspect(store, HOST, log, row, 4, &count, NULL);
    tg_read(store, GUEST, total, numbers, NUMBERS, &count, NULL);
    tg_write(store, GUEST, GUEST, 1, NULL);
    tg_take(store, HOST, GUEST, total, TG_READ, NULL);
    tg_take(store, HOST, GUEST, total, TG_WRITE, NULL);
    tg_remove(store, HOST, total, TG_READ, NULL);
    tg_retire(store, log);
}

int main(void) {
    static const tg_value values[WORKERS] = { { TG_CELL, 0, 0 }, { TG_MAX, 0, 3 } };
    static const tg_edge edge = { HOST, GUEST, TG_TAKE | TG_GRANT };
    static const tg_limits limits = TG_LIMITS_INIT;
    tg_store store = TG_STORE_INIT;
    char opening[OPENING];
    uint64_t length;
    tg_status status = tg_open(&store, values, WORKERS, &edge, 1, &limits);
    if (status == TG_DONE)
        status = tg_opening_text(values, WORKERS, &edge, 1, &limits, opening, OPENING, &length);
    if (status == TG_DONE) {
        work(&store);
        fputs(opening, stdout);
        status = put_entries(&store);
    }
    if (status != TG_DONE)
        fprintf(stderr, "%s\n", tg_status_text(status));
    tg_close(&store);
    return status != TG_DONE;
}
