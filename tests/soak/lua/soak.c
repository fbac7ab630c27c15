/* soak SECONDS SCRIPT: runs 60 plug-ins of one script for so long, and starts another one in the place of each that leaves.

   At last all leave. The status is 0 if one vertex is left then, the host's own, and no resource. */
#include "host.h"
#include <inttypes.h>
#include <stdio.h>
#include <stdlib.h>

enum { RUNNING = 60, ROUNDS = 16, HOLDER = 0, WATCHED = 1 };

static uint64_t secret, started, turns;
static uint64_t workers[RUNNING];

/* Makes the secret, which one of the plug-ins may read, and another plug-in never. */
static void make_secret(void) {
    const tg_value value = { TG_CELL, 0, 4242 };
    must(make_room() ? TG_DONE : TG_OUT_OF_MEMORY, "room for a resource");
    must(tg_create(&store, HOST, TG_READ, &value, &secret), "tg_create");
    keep(secret, "secret", "the host", false);
}

static void start(const char *script, int number) {
    char name[NAME_ROOM], text[TEXT_ROOM];
    struct plugin *plugin;
    snprintf(name, sizeof name, "p%d", number);
    plugin = start_plugin(name, script, started++);
    must(plugin == NULL ? TG_NOT_OPEN : TG_DONE, "the start of a plug-in");
    workers[number] = plugin->worker;
    if (number == WATCHED)
        never(plugin->worker, TG_READ, secret);
    if (number == HOLDER && is_safe(plugin->worker, secret, TG_READ, text, sizeof text)) {
        must(tg_grant(&store, HOST, plugin->worker, secret, TG_READ, NULL), "tg_grant");
        deliver(plugin, secret);
    }
}

/* Whether the plug-in that is watched holds no right to read the secret. */
static bool is_rule_kept(void) {
    uint64_t rights;
    return workers[WATCHED] == NONE || tg_label(&store, workers[WATCHED], secret, &rights) != TG_DONE || !(rights & TG_READ);
}

/* The place in which the plug-in with the worker is, or NULL if it has left. */
static struct plugin *place_of(uint64_t worker) {
    for (int at = 0; at < MOST_PLUGINS; at++)
        if (worker != NONE && plugins[at].worker == worker)
            return &plugins[at];
    return NULL;
}

static void run_round(const char *script) {
    for (int number = 0; number < RUNNING; number++) {
        struct plugin *plugin = place_of(workers[number]);
        if (plugin == NULL) {
            start(script, number);
        } else {
            take_turn(plugin);
            turns++;
        }
    }
    audit();
}

int main(int count, char **words) {
    time_t end;
    uint64_t left, audited;
    if (count != 3) {
        fprintf(stderr, "usage: soak SECONDS SCRIPT\n");
        return 2;
    }
    open_store();
    make_secret();
    end = time(NULL) + strtol(words[1], NULL, 10);
    for (uint64_t round = 1; time(NULL) < end; round++) {
        run_round(words[2]);
        if (round % ROUNDS == 0)
            collect();
        if (!is_rule_kept()) {
            printf("soak: the plug-in that is watched may read the secret\n");
            return 1;
        }
    }
    for (int at = 0; at < MOST_PLUGINS; at++)
        if (plugins[at].worker != NONE)
            end_plugin(&plugins[at], "is ended");
    must(tg_remove(&store, HOST, secret, TG_READ, NULL), "tg_remove");
    left = collect();
    audited = audit();
    close_store();
    printf("soak: %" PRIu64 " plug-ins, %" PRIu64 " turns, %" PRIu64 " entries audited; %" PRIu64 " vertex is left, and %zu resources\n",
           started, turns, audited, left, resource_count());
    return left == 1 && resource_count() == 0 ? 0 : 1;
}
