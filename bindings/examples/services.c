/* A host of plug-ins. A plug-in is a worker with a function, and a service is an object with one. Whoever has u over a service may
   call it. Build it with: cc services.c -lkovshenul */
#include "kovshenul.h"
#include <inttypes.h>
#include <stdio.h>

enum { HOST, TWICE, PLUGINS = 2, VERTICES = 4 };
static tg_store store = TG_STORE_INIT;
static int (*services[VERTICES])(int);

/* Calls a service for a plug-in, if the plug-in may. */
static void call(const char *name, uint64_t worker, uint64_t service) {
    uint64_t rights = 0;
    if (tg_label(&store, worker, service, &rights) == TG_DONE && rights & TG_FREE_U) printf("%s: %d\n", name, services[service](21));
    else printf("%s may not call %" PRIu64 "\n", name, service);
}
static int twice(int number) { return 2 * number; }
static void good(uint64_t worker) { call("good", worker, TWICE); }
static void bad(uint64_t worker) { for (uint64_t service = 0; service < VERTICES; service++) call("bad", worker, service); }

int main(void) {
    void (*const plugins[PLUGINS])(uint64_t) = { good, bad };
    const tg_value cell = { TG_CELL, 0, 0 };
    const tg_limits limits = TG_LIMITS_INIT;
    const uint64_t silent = HOST;
    uint64_t service, workers[PLUGINS], kind, left;
    if (tg_open(&store, &cell, 1, NULL, 0, &limits) != TG_DONE || tg_create(&store, HOST, TG_FREE_U, &cell, &service) != TG_DONE) return 1;
    services[service] = twice;
    for (int at = 0; at < PLUGINS; at++) if (tg_spawn(&store, HOST, TG_GRANT, &cell, &workers[at]) != TG_DONE) return 1;
    if (tg_grant(&store, HOST, workers[0], service, TG_FREE_U, NULL) != TG_DONE) return 1;
    for (int at = 0; at < PLUGINS; at++) plugins[at](workers[at]);
    if (tg_could_kind(&store, &silent, 1, NULL, 0, workers[1], TG_FREE_U, service, &kind) == TG_DONE)
        printf("bad could call twice: %s\n", kind == TG_NEVER ? "never" : "perhaps");
    for (int at = 0; at < PLUGINS; at++) tg_leave(&store, workers[at], &left), tg_remove(&store, HOST, workers[at], TG_GRANT, NULL);
    tg_remove(&store, HOST, service, TG_FREE_U, NULL);
    if (tg_collect(&store, TG_FULL, &left) == TG_DONE) printf("%" PRIu64 " left\n", left);
    return tg_close(&store) != TG_DONE;
}
