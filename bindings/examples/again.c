/* A host whose process ends. It keeps each entry before it hands on the reply, and another process goes on from the entries that were
   kept. Here both are one program. Build it with: cc again.c -lkovshenul */
#include "kovshenul.h"
#include <inttypes.h>
#include <stdio.h>

enum { HOST, GUEST, NUMBERS = 64, EDGES = 64 };

static const tg_value cells[2] = { { TG_CELL, 0, 0 }, { TG_CELL, 0, 0 } };
static const tg_edge edge = { HOST, GUEST, TG_GRANT };
static const tg_limits limits = TG_LIMITS_INIT;

/* An entry, with room for the numbers and edges that this host's commands show. */
struct kept {
    tg_record entry;
    uint64_t numbers[NUMBERS];
    tg_target edges[EDGES];
};

/* Keeps the last entry of the store. A file is flushed before the reply is handed on, or its last entries are lost with the process. */
static tg_status keep(tg_store *store, FILE *file) {
    struct kept kept = { 0 };
    uint64_t count;
    tg_status status = tg_entries(store, &count);
    if (status == TG_DONE)
        status = tg_entry(store, count - 1, &kept.entry, kept.numbers, NUMBERS, kept.edges, EDGES);
    if (status == TG_DONE && (fwrite(&kept, sizeof kept, 1, file) != 1 || fflush(file) != 0))
        status = TG_OUT_OF_MEMORY;
    return status;
}

/* What the first process does: the guest adds to a sum of the host, and may not read it. */
static tg_status first_process(FILE *file) {
    static const tg_value sum = { TG_SUM, 0, 40 };
    tg_store store = TG_STORE_INIT;
    uint64_t name = 0, number, count;
    tg_status status = tg_open(&store, cells, 2, &edge, 1, &limits);
    for (int step = 0; status <= TG_DENIED && step < 4; step++) {
        switch (step) {
        case 0: status = tg_create(&store, HOST, TG_READ | TG_WRITE, &sum, &name); break;
        case 1: status = tg_grant(&store, HOST, GUEST, name, TG_WRITE, NULL); break;
        case 2: status = tg_write(&store, GUEST, name, 2, NULL); break;
        default: status = tg_read(&store, GUEST, name, &number, 1, &count, NULL);
        }
        if (status <= TG_DENIED)
            status = keep(&store, file);
    }
    tg_close(&store);
    return status;
}

/* Opens a store that goes on from the kept entries, of which one may have been altered. */
static tg_status resume(tg_store *store, FILE *file, uint64_t altered) {
    struct kept kept;
    uint64_t at = 0;
    tg_status status = tg_open(store, cells, 2, &edge, 1, &limits);
    rewind(file);
    while (status == TG_DONE && fread(&kept, sizeof kept, 1, file) == 1) {
        if (at == altered)
            kept.entry.target = HOST;
        status = tg_resume(store, at, &kept.entry, kept.numbers, kept.entry.number_count, kept.edges, kept.entry.edge_count);
        at += status == TG_DONE;
    }
    if (status == TG_DONE)
        printf("went on from %" PRIu64 " entries\n", at);
    else
        printf("entry %" PRIu64 ": %s\n", at, tg_status_text(status));
    return status;
}

/* What the second process does: all names, rights and values are there. */
static tg_status second_process(FILE *file) {
    tg_store store = TG_STORE_INIT;
    uint64_t number = 0, count;
    tg_status status = resume(&store, file, UINT64_MAX);
    for (uint64_t more = 0; status == TG_DONE && more < 2; more++) {
        status = tg_read(&store, HOST, 2, &number, 1, &count, NULL);
        if (status == TG_DONE)
            printf("the sum is %" PRIu64 "\n", number);
        if (status == TG_DONE)
            status = tg_write(&store, GUEST, 2, 1, NULL);
    }
    tg_close(&store);
    return status;
}

int main(void) {
    tg_store store = TG_STORE_INIT;
    FILE *file = tmpfile();
    if (file == NULL)
        return 1;
    tg_status status = first_process(file);
    if (status == TG_DONE)
        status = second_process(file);
    if (status == TG_DONE && resume(&store, file, 2) == TG_DONE)
        puts("an altered entry wasn't found");
    tg_close(&store);
    fclose(file);
    return status != TG_DONE;
}
