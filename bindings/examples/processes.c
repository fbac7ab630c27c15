/* A table of processes. The system spawns a worker for each process and introduces it to the others. A process opens
   objects, hands handles to them on, gives them up, and ends. The host's own table says what an object's name means.

   The host asks who holds which rights by tg_label, for which the journal gets no entry. A list would keep the whole
   row in it each time. After a collection tg_names says which objects there still are. The memory that was kept beside
   the others is freed.

   Whoever has an edge to a process that merely retired keeps all that it held. So one that ends leaves. It gives up all
   its handles and retires, in one call. The others know it still, and have nothing by it.

   Build it with: cc processes.c -lkovshenul */
#include "kovshenul.h"
#include <inttypes.h>
#include <stdio.h>
#include <stdlib.h>

enum { SYSTEM = 0, SLOTS = 8, OBJECTS = 1000, ROUNDS = 4000, NAMES = 4096, NONE = 0 };

/* The worker of each slot's process, or none. The system itself has no slot. */
static uint64_t processes[SLOTS];
/* What the host keeps beside each object: here its size, and 0 where there is no object. */
static unsigned sizes[NAMES];
static uint64_t objects[OBJECTS];
static tg_store store = TG_STORE_INIT;
static unsigned long made, started, handed_on, given_up, left_with, denied, freed;

/* Numbers that are the same in each run. */
static uint32_t next_random(uint32_t below) {
    static uint64_t state = 1;
    state = state * UINT64_C(6364136223846793005) + 1442695040888963407u;
    return (uint32_t)(state >> 33) % below;
}

/* Whether it was done. Denials are counted, and any other refusal ends the program. */
static bool done(tg_status status) {
    if (status == TG_DENIED)
        denied++;
    else if (status != TG_DONE) {
        fprintf(stderr, "processes: %s\n", tg_status_text(status));
        exit(1);
    }
    return status == TG_DONE;
}

static void open_table(void) {
    const tg_value system = { TG_CELL, 0, 0 };
    tg_limits limits = TG_LIMITS_INIT;
    limits.max_vertices = NAMES;
    done(tg_open(&store, &system, 1, NULL, 0, &limits));
}

/* A process starts in an empty slot. The system may grant to it, and lets it and the others grant to each other. */
static void start_process(uint64_t *slot) {
    const tg_value cell = { TG_CELL, 0, 0 };
    uint64_t process;
    done(tg_spawn(&store, SYSTEM, TG_GRANT, &cell, &process));
    for (int i = 0; i < SLOTS; i++)
        if (processes[i] != NONE) {
            done(tg_grant(&store, SYSTEM, processes[i], process, TG_GRANT, NULL));
            done(tg_grant(&store, SYSTEM, process, processes[i], TG_GRANT, NULL));
        }
    *slot = process;
    started++;
}

/* The process of a slot ends, willing or not. The vertices that it alone reached go with the next full collection. */
static void end_process(uint64_t *slot) {
    uint64_t count;
    done(tg_leave(&store, *slot, &count));
    *slot = NONE;
    left_with += count;
}

static void open_object(uint64_t process) {
    const tg_value sum = { TG_SUM, 0, 0 };
    uint64_t name;
    if (made == OBJECTS || !done(tg_create(&store, process, TG_READ | TG_WRITE, &sum, &name)))
        return;
    sizes[name] = 1 + next_random(4096);
    objects[made++] = name;
}

/* An object that the process has a handle to, of a few that are looked at, or none. */
static uint64_t object_of(uint64_t process, uint64_t *rights) {
    for (int tries = 0; made > 0 && tries < 50; tries++) {
        uint64_t name = objects[next_random((uint32_t)made)];
        done(tg_label(&store, process, name, rights));
        if (*rights != 0)
            return name;
    }
    return NONE;
}

/* To one that it was introduced to. To itself it may not, which is denied. It holds no right over itself. */
static void hand_on(uint64_t process) {
    uint64_t rights, other = processes[next_random(SLOTS)], name = object_of(process, &rights);
    if (name == NONE || other == NONE)
        return;
    if (done(tg_grant(&store, process, other, name, rights & TG_READ ? TG_READ : rights, NULL)))
        handed_on++;
}

static void give_up(uint64_t process) {
    uint64_t rights, name = object_of(process, &rights);
    if (name != NONE && done(tg_remove(&store, process, name, rights, NULL)))
        given_up++;
}

/* Collects, and frees in the host's table what the store doesn't have any more. */
static void collect(void) {
    static uint64_t names[NAMES];
    static bool is_left[NAMES];
    uint64_t left, count;
    done(tg_collect(&store, TG_FULL, &left));
    done(tg_names(&store, names, NAMES, &count));
    for (uint64_t name = 0; name < NAMES; name++)
        is_left[name] = false;
    for (uint64_t i = 0; i < count; i++)
        is_left[names[i]] = true;
    for (uint64_t name = 0; name < NAMES; name++)
        if (sizes[name] > 0 && !is_left[name]) {
            sizes[name] = 0;
            freed++;
        }
}

/* The next step of a process, and now and then its end. */
static void step(uint64_t *slot) {
    switch (next_random(5)) {
    case 0: open_object(*slot); break;
    case 1: give_up(*slot); break;
    case 2: if (next_random(20) == 0) end_process(slot); break;
    default: hand_on(*slot);
    }
}

int main(void) {
    uint64_t entries;
    open_table();
    for (unsigned round = 1; round <= ROUNDS; round++) {
        uint64_t *slot = &processes[next_random(SLOTS)];
        if (*slot == NONE)
            start_process(slot);
        else
            step(slot);
        if (round % 1000 == 0)
            collect();
    }
    for (int i = 0; i < SLOTS; i++)
        if (processes[i] != NONE)
            end_process(&processes[i]);
    collect();
    if (freed != made) {
        fprintf(stderr, "processes: %lu objects are kept by nobody\n", made - freed);
        return 1;
    }
    done(tg_audit(&store, &entries));
    printf("%lu processes, %lu objects, %lu handles handed on, %lu given up, %lu at an end, %lu denied, all freed\n",
           started, made, handed_on, given_up, left_with, denied);
    printf("audit ok, %" PRIu64 " entries\n", entries);
    return done(tg_close(&store)) ? 0 : 1;
}
