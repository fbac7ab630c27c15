/* A host that keeps its journal short: every few commands it writes the new entries out, has an auditor replay them, and gives them
   up. Another store and another auditor go on after the first part. Build it with: cc parts.c -lkovshenul */
#include "kovshenul.h"
#include <inttypes.h>
#include <stdio.h>

enum { HOST, GUEST, EVERY = 4, COMMANDS = 10, LINE = 100, SNAPSHOT = 500 };

/* Writes out the entries that the store holds. None of them has more than a number, or an edge. */
static tg_status put_entries(tg_store *store) {
    uint64_t at, next, number, length;
    char line[LINE];
    tg_record entry;
    tg_status status = tg_first(store, &at);
    if (status == TG_DONE)
        status = tg_entries(store, &next);
    while (status == TG_DONE && at < next) {
        status = tg_entry(store, at++, &entry, &number, 1, NULL, 0);
        if (status == TG_DONE)
            status = tg_entry_text(&entry, &number, entry.number_count, NULL, 0, line, LINE, &length);
        if (status == TG_DONE)
            fputs(line, stdout);
    }
    return status;
}

/* Writes out what the store holds, audits it, and gives it up. Where it can't be audited the store keeps it. */
static tg_status hand_over(tg_store *store, tg_auditor *auditor) {
    uint64_t audited;
    tg_status status = put_entries(store);
    if (status == TG_DONE)
        status = tg_auditor_feed(auditor, store, &audited);
    if (status == TG_DONE)
        status = tg_auditor_forget(auditor, store, audited);
    if (status == TG_DONE)
        printf("%" PRIu64 " entries audited and given up\n", audited);
    return status;
}

/* Has a store and an auditor go on from the snapshot of the auditor at its place. Another process does the same with the text of
   the snapshot alone. */
static tg_status go_on(tg_store *store, tg_auditor *auditor, const tg_limits *limits) {
    char text[SNAPSHOT];
    uint64_t length, line;
    tg_snapshot snapshot = TG_SNAPSHOT_INIT;
    tg_status status = tg_auditor_snapshot(auditor, &snapshot);
    if (status == TG_DONE)
        status = tg_snapshot_text(&snapshot, text, SNAPSHOT, &length);
    tg_snapshot_close(&snapshot);
    tg_auditor_close(auditor);
    tg_close(store);
    if (status == TG_DONE)
        status = tg_snapshot_read(&snapshot, text, length, &line);
    if (status == TG_DONE)
        status = tg_reopen(store, &snapshot, limits);
    if (status == TG_DONE)
        status = tg_auditor_reopen(auditor, &snapshot);
    if (status == TG_DONE)
        fputs(text, stdout);
    tg_snapshot_close(&snapshot);
    return status;
}

/* The host makes a sum and lets the guest add to it. The guest adds, and once writes to an object that isn't its own. */
static tg_status command(tg_store *store, uint64_t number) {
    static const tg_value sum = { TG_SUM, 0, 0 };
    static uint64_t name;
    if (number == 1)
        return tg_create(store, HOST, TG_READ | TG_WRITE, &sum, &name);
    if (number == 2)
        return tg_grant(store, HOST, GUEST, name, TG_WRITE, NULL);
    return tg_write(store, GUEST, number == 6 ? HOST : name, number, NULL);
}

int main(void) {
    static const tg_value cells[2] = { { TG_CELL, 0, 0 }, { TG_CELL, 0, 0 } };
    static const tg_edge edge = { HOST, GUEST, TG_GRANT };
    static const tg_limits limits = TG_LIMITS_INIT;
    tg_store store = TG_STORE_INIT;
    tg_auditor auditor = TG_AUDITOR_INIT;
    tg_status status = tg_open(&store, cells, 2, &edge, 1, &limits);
    if (status == TG_DONE)
        status = tg_auditor_open(&auditor, cells, 2, &edge, 1, &limits);
    for (uint64_t number = 1; status <= TG_DENIED && number <= COMMANDS; number++) {
        status = command(&store, number);
        if (status <= TG_DENIED && (number % EVERY == 0 || number == COMMANDS))
            status = hand_over(&store, &auditor);
        if (status <= TG_DENIED && number == EVERY)
            status = go_on(&store, &auditor, &limits);
    }
    if (status > TG_DENIED)
        puts(tg_status_text(status));
    tg_auditor_close(&auditor);
    tg_close(&store);
    return status > TG_DENIED;
}
