/* The texts with names: what they say with and without names, of a callback that fails, and where there is too little room. */
#include "kovshenul.h"
#include <inttypes.h>
#include <stdio.h>
#include <stdlib.h>
#include <string.h>

enum { HOST, PLUGIN, REPORT, LOG, ROOM = 200 };

/* The host's names. It counts how often it is asked, and fails from a given count on. */
struct host {
    unsigned asked, fails_after;
    char text[ROOM];
};

static const char *name_of(void *it, uint64_t vertex) {
    static const char *const names[] = { "host", "plugin", "the\nreport\177", "" };
    struct host *host = it;
    if (++host->asked > host->fails_after || vertex > LOG)
        return NULL;
    /* One text for all names. It lasts until the next call alone. */
    snprintf(host->text, sizeof host->text, "%s", names[vertex]);
    return host->text;
}

static void must_be(const char *said, size_t length, const char *wanted) {
    if (strcmp(said, wanted) == 0 && length == strlen(wanted))
        return;
    fprintf(stderr, "named: '%s' of length %zu, and not '%s'\n", said, length, wanted);
    exit(1);
}

/* Every entry of the store, with names or without. */
static void must_have(tg_store *store, const tg_naming *names, const char *const *wanted) {
    uint64_t numbers[64], count;
    tg_target edges[64];
    char text[ROOM];
    if (tg_entries(store, &count) != TG_DONE)
        exit(1);
    for (uint64_t at = 0; at < count; at++) {
        tg_record entry;
        if (tg_entry(store, at, &entry, numbers, 64, edges, 64) != TG_DONE)
            exit(1);
        const size_t length = tg_named_entry_text(&entry, numbers, edges, names, text, sizeof text);
        must_be(text, length, wanted[at]);
    }
}

/* A command of each kind, served or denied. */
static void play(tg_store *store) {
    const tg_value sum = { TG_SUM, 0, 5 }, log = { TG_LOG, 2, 0 };
    tg_target edges[64];
    uint64_t name, numbers[64], count;
    tg_create(store, HOST, TG_READ | TG_WRITE | TG_GRANT, &sum, &name);
    tg_spawn(store, HOST, TG_READ | TG_APPEND | TG_INSPECT, &log, &name);
    tg_grant(store, HOST, PLUGIN, REPORT, TG_WRITE, NULL);
    tg_write(store, PLUGIN, REPORT, 7, NULL);
    tg_append(store, HOST, LOG, 1, NULL);
    tg_read(store, HOST, REPORT, numbers, 64, &count, NULL);
    tg_list(store, HOST, edges, 64, &count);
    tg_inspect(store, HOST, LOG, edges, 64, &count, NULL);
    tg_read(store, PLUGIN, REPORT, numbers, 64, &count, NULL);
    tg_write(store, PLUGIN, PLUGIN, 1, NULL);
    tg_append(store, PLUGIN, REPORT, 1, NULL);
    tg_take(store, HOST, PLUGIN, REPORT, TG_WRITE, NULL);
    tg_remove(store, HOST, REPORT, TG_READ, NULL);
    tg_retire(store, LOG);
    tg_create(store, HOST, TG_READ, &sum, &name);
}

static const char *const plain[] = {
    "0 create rwg s5 = ok 2", "0 spawn ral l2 = ok 3", "0 grant 1 2 w = ok", "1 write 2 7 = ok", "0 append 3 1 = ok",
    "0 read 2 = ok 12", "0 list = ok 1:tg 2:rwg 3:ral", "0 inspect 3 = ok", "1 read 2 = denied read 1->2 r",
    "1 write 1 1 = denied write distinct", "1 append 2 1 = denied append 1->2 a", "0 take 1 2 w = ok", "0 remove 2 r = ok",
    "3 retire = ok", "0 create r s5 = refused vertices",
};

/* The log has the empty name, so its number is shown alone. */
static const char *const named[] = {
    "host (0) create rwg s5 = ok the?report? (2)",
    "host (0) spawn ral l2 = ok 3",
    "host (0) grant plugin (1) the?report? (2) w = ok",
    "plugin (1) write the?report? (2) 7 = ok",
    "host (0) append 3 1 = ok",
    "host (0) read the?report? (2) = ok 12",
    "host (0) list = ok plugin (1):tg the?report? (2):rwg 3:ral",
    "host (0) inspect 3 = ok",
    "plugin (1) read the?report? (2) = denied read plugin (1)->the?report? (2) r",
    "plugin (1) write plugin (1) 1 = denied write distinct",
    "plugin (1) append the?report? (2) 1 = denied append plugin (1)->the?report? (2) a",
    "host (0) take plugin (1) the?report? (2) w = ok",
    "host (0) remove the?report? (2) r = ok",
    "3 retire = ok",
    "host (0) create r s5 = refused vertices",
};

/* The turns of an answer, of which the first is one of the host. */
static void turns(tg_store *store, const tg_naming *names) {
    static const char wanted[] = "host (0) ";
    tg_answer answer = TG_ANSWER_INIT;
    tg_record turn;
    uint64_t number;
    char text[ROOM];
    if (tg_could(store, NULL, 0, NULL, 0, PLUGIN, TG_GRANT, REPORT, &answer) != TG_DONE
        || tg_answer_turn(&answer, 0, &turn, &number, 1) != TG_DONE)
        exit(1);
    if (tg_named_turn_text(&turn, &number, names, text, sizeof text) != strlen(text) || strncmp(text, wanted, strlen(wanted)) != 0)
        exit(1);
    if (tg_named_turn_text(&turn, &number, NULL, text, sizeof text) != strlen(text) || strncmp(text, "0 ", 2) != 0)
        exit(1);
    tg_answer_close(&answer);
}

static void entries_and_turns(tg_store *store, const tg_naming *names) {
    const tg_naming none = { NULL, NULL };
    play(store);
    must_have(store, NULL, plain);
    must_have(store, &none, plain);
    must_have(store, names, named);
    turns(store, names);
}

/* A callback that fails leaves numbers. A text is cut where its room ends, and its length is that of the whole text. */
static void failing(const tg_denial *why) {
    struct host host = { 0, 1, "" };
    const tg_naming names = { name_of, &host };
    char text[ROOM] = "", byte = 'x';
    must_be(text, tg_named_denial_text(why, &names, text, sizeof text), "write: w is missing on plugin (1)->2");
    host = (struct host){ 0, 0, "" };
    must_be(text, tg_named_denial_text(why, &names, text, sizeof text), "write: w is missing on 1->2");
    if (host.asked != 2 || tg_denial_text(why, text, 6) != strlen("write: w is missing on 1->2") || strcmp(text, "write") != 0)
        exit(1);
    if (tg_vertex_text(12, NULL, &byte, 0) != 2 || byte != 'x' || tg_vertex_text(12, NULL, NULL, 0) != 2)
        exit(1);
}

int main(void) {
    const tg_value cells[2] = { { TG_CELL, 0, 0 }, { TG_CELL, 0, 0 } };
    const tg_edge edge = { HOST, PLUGIN, TG_GRANT | TG_TAKE };
    const tg_limits limits = { 4, 64, 64 };
    const tg_denial why = { TG_RULE_WRITE, TG_MISSING, PLUGIN, REPORT, TG_WRITE };
    struct host host = { 0, UINT32_MAX, "" };
    const tg_naming names = { name_of, &host };
    tg_store store = TG_STORE_INIT;
    char text[ROOM];
    if (tg_open(&store, cells, 2, &edge, 1, &limits) != TG_DONE)
        return 1;
    entries_and_turns(&store, &names);
    tg_close(&store);
    must_be(text, tg_named_denial_text(&why, &names, text, sizeof text), "write: w is missing on plugin (1)->the?report? (2)");
    must_be(text, tg_vertex_text(PLUGIN, &names, text, sizeof text), "plugin (1)");
    must_be(text, tg_vertex_text(7, &names, text, sizeof text), "7");
    failing(&why);
    return 0;
}
