/* The store, and the auditor of its journal.

   The host is worker 0, and every plug-in is a worker that it spawns. The journal has an entry for each command. The host saves
   each entry before it uses the reply, if it has a file. The auditor replays the entries after each turn, and then the store
   gives them up, so the journal stays short. */
#include "host.h"
#include <stdio.h>
#include <stdlib.h>

tg_store store = TG_STORE_INIT;
static tg_auditor auditor = TG_AUDITOR_INIT;

void must(tg_status status, const char *call) {
    if (status == TG_DONE)
        return;
    fflush(stdout);
    fprintf(stderr, "host: %s: %s\n", call, tg_status_text(status));
    exit(1);
}

void done(tg_status status, const char *call) {
    must(status, call);
    save();
}

void open_store(void) {
    const tg_value mine = { TG_CELL, 0, 0 };
    tg_limits limits = TG_LIMITS_INIT;
    limits.max_vertices = UINT64_C(1) << 48;
    must(tg_open(&store, &mine, 1, NULL, 0, &limits), "tg_open");
    must(tg_auditor_open(&auditor, &mine, 1, NULL, 0, &limits), "tg_auditor_open");
}

uint64_t audit(void) {
    uint64_t audited;
    save();
    must(tg_auditor_feed(&auditor, &store, &audited), "tg_auditor_feed");
    must(tg_auditor_forget(&auditor, &store, audited), "tg_auditor_forget");
    return audited;
}

void close_store(void) {
    must(tg_auditor_close(&auditor), "tg_auditor_close");
    must(tg_close(&store), "tg_close");
}
