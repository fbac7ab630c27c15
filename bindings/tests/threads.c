/* Four threads, each with a store of its own, which it moves once. */
#include "kovshenul.h"
#include <pthread.h>
#include <stdio.h>
#include <stdlib.h>

enum { THREADS = 4, ROUNDS = 500 };

static void want(int it, int line) {
    if (!it) {
        fprintf(stderr, "threads: line %d\n", line);
        exit(1);
    }
}

#define WANT(it) want(it, __LINE__)

static void *run(void *entries) {
    static const tg_value workers[1] = { { TG_SUM, 0, 0 } };
    static const tg_edge none[1] = { { 0, 0, 0 } };
    static const tg_limits limits = { 100000, 4096, 4096 };
    tg_store store = TG_STORE_INIT;
    tg_denial why;
    uint64_t name, sum, count, left;
    WANT(tg_open(&store, workers, 1, none, 0, &limits) == TG_DONE);
    for (int i = 0; i < ROUNDS; i++) {
        WANT(tg_create(&store, 0, TG_READ | TG_WRITE, &workers[0], &name) == TG_DONE);
        for (uint64_t k = 0; k < 20; k++)
            WANT(tg_write(&store, 0, name, k, &why) == TG_DONE);
        WANT(tg_read(&store, 0, name, &sum, 1, &count, &why) == TG_DONE && sum == 190);
        WANT(tg_remove(&store, 0, name, TG_READ | TG_WRITE, &why) == TG_DONE);
        if (i % 100 == 0)
            WANT(tg_collect(&store, i % 200 == 0 ? TG_FULL : TG_NURSERY, &left) == TG_DONE);
    }
    tg_store moved = store;
    WANT(tg_audit(&moved, entries) == TG_DONE);
    WANT(tg_close(&moved) == TG_DONE);
    return NULL;
}

int main(void) {
    pthread_t threads[THREADS];
    uint64_t entries[THREADS];
    for (int i = 0; i < THREADS; i++)
        WANT(pthread_create(&threads[i], NULL, run, &entries[i]) == 0);
    for (int i = 0; i < THREADS; i++)
        WANT(pthread_join(threads[i], NULL) == 0);
    for (int i = 0; i < THREADS; i++)
        WANT(entries[i] == ROUNDS * 23);
    puts("threads ok");
    return 0;
}
