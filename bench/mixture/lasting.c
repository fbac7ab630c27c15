/* The memory that a store that lives for years holds, through the library for C: lasting LIVE COMMANDS [alone] [sweep] [trim]

   16 workers have LIVE vertices between them (over 2,000). Half of these may be read by the next worker too, and 1,000 have edges
   to five others. Of 100 commands 60 are reads that are served, 15 are reads that are denied, and 5 are looks at a row of five
   edges. 10 are grants or removes of the next worker's edge. The last 10 end a vertex by removes, and create another in its place.
   A nursery collection comes after each 10,000, a full one after each 200,000, and each 10,000 entries are audited and given up.
   Names may come to 2^48.
     alone   no auditor, and the entries are given up
     sweep   tg_auditor_sweep after each full collection
     trim    malloc_trim(0) after each 10,000
   After each million it prints, in MB, the memory that is resident and in use now, and the most since the vertices were made. Then
   it prints the memory of the auditor now and at most. The last figures are nanoseconds of processor time in this million, of a
   command and of an entry's audit.

   Build, after bindings/check: cc -O2 -I bindings -o lasting bench/mixture/lasting.c bindings/out/libkovshenul.a */
#include "kovshenul.h"
#include <inttypes.h>
#include <malloc.h>
#include <stdio.h>
#include <stdlib.h>
#include <string.h>
#include <sys/mman.h>
#include <time.h>

enum { WORKERS = 16, ROWS = 1000, ROW = 5, PART = 10000, FULL = 200000, MILLION = 1000000 };
enum { MAKERS = TG_READ | TG_WRITE | TG_TAKE | TG_GRANT | TG_INSPECT };

static tg_store store = TG_STORE_INIT;
static tg_auditor auditor = TG_AUDITOR_INIT;
static int is_alone, is_swept, is_trimmed;

/* The names of the vertices, 0 where one was ended and the next isn't made yet, and whether the next worker has an edge. They are no
   memory of malloc. */
static uint64_t *names, live;
static unsigned char *is_lent;

/* Now and at most. */
static struct { size_t now, most; } resident, used, audited;
static double commands_time, audits_time;

static void want(int holds) {
    if (!holds) {
        fputs("lasting: an answer that should not be\n", stderr);
        exit(1);
    }
}

/* Numbers that are the same in each run (xorshift). */
static uint64_t draw(uint64_t below) {
    static uint64_t state = 88172645463325252ULL;
    state ^= state << 13;
    state ^= state >> 7;
    state ^= state << 17;
    return state % below;
}

static double seconds(void) {
    struct timespec time;
    clock_gettime(CLOCK_PROCESS_CPUTIME_ID, &time);
    return (double)time.tv_sec + 1e-9 * (double)time.tv_nsec;
}

static size_t in_use(void) {
    struct mallinfo2 heap = mallinfo2();
    return heap.uordblks + heap.hblkhd;
}

static size_t in_memory(void) {
    size_t pages = 0;
    FILE *file = fopen("/proc/self/statm", "r");
    want(file != NULL && fscanf(file, "%*u %zu", &pages) == 1 && !fclose(file));
    return pages * 4096;
}

static void note(void) {
    used.now = in_use();
    resident.now = in_memory();
    used.most = used.now > used.most ? used.now : used.most;
    resident.most = resident.now > resident.most ? resident.now : resident.most;
    audited.most = audited.now > audited.most ? audited.now : audited.most;
}

static uint64_t owner(uint64_t at) { return at % WORKERS; }
static uint64_t next(uint64_t at) { return (at + 1) % WORKERS; }

static void create(uint64_t at) {
    static const tg_value zero = { TG_CELL, 0, 0 };
    want(tg_create(&store, owner(at), MAKERS, &zero, &names[at]) == TG_DONE);
    is_lent[at] = 0;
}

/* The next worker gets its edge, or gives it up. */
static void lend(uint64_t at) {
    if (is_lent[at])
        want(tg_remove(&store, next(at), names[at], TG_READ, NULL) == TG_DONE);
    else
        want(tg_grant(&store, owner(at), next(at), names[at], TG_READ, NULL) == TG_DONE);
    is_lent[at] ^= 1;
}

/* One command of those that put another vertex in the place of one. Whether it was the last. */
static int replace(uint64_t at) {
    if (names[at] == 0) {
        create(at);
        return 1;
    }
    if (is_lent[at]) {
        lend(at);
        return 0;
    }
    want(tg_remove(&store, owner(at), names[at], MAKERS, NULL) == TG_DONE);
    names[at] = 0;
    return 0;
}

static void ask(void) {
    static uint64_t replaced;
    uint64_t kind = draw(100), at = draw(live), number, count;
    tg_target row[ROW];
    if (kind >= 90) {
        if (replaced == 0)
            replaced = at < ROWS ? at + ROWS : at;
        if (replace(replaced))
            replaced = 0;
        return;
    }
    if (names[at] == 0)
        at = 0;
    if (kind < 60)
        want(tg_read(&store, owner(at), names[at], &number, 1, &count, NULL) == TG_DONE);
    else if (kind < 75)
        want(tg_read(&store, (at + 2) % WORKERS, names[at], &number, 1, &count, NULL) == TG_DENIED);
    else if (kind < 80)
        want(tg_inspect(&store, owner(at % ROWS), names[at % ROWS], row, ROW, &count, NULL) == TG_DONE);
    else
        lend(at);
}

/* The auditor's memory is what its own calls leave. */
static void sweep(void) {
    size_t before = in_use();
    want(tg_auditor_sweep(&auditor) == TG_DONE);
    audited.now += in_use() - before;
}

static void give_up(void) {
    uint64_t passed;
    note();
    if (is_alone) {
        want(tg_entries(&store, &passed) == TG_DONE && tg_forget(&store, passed) == TG_DONE);
    } else {
        size_t before = in_use();
        double began = seconds();
        want(tg_auditor_feed(&auditor, &store, &passed) == TG_DONE);
        audits_time += seconds() - began;
        audited.now += in_use() - before;
        note();
        want(tg_auditor_forget(&auditor, &store, passed) == TG_DONE);
    }
    if (is_trimmed)
        malloc_trim(0);
}

static void open_both(void) {
    static const tg_value values[WORKERS];
    const tg_limits limits = { (uint64_t)1 << 48, 65536, 1 << 20 };
    tg_edge edges[2 * WORKERS];
    for (uint64_t worker = 0; worker < WORKERS; worker++) {
        edges[2 * worker] = (tg_edge){ worker, (worker + 1) % WORKERS, TG_GRANT };
        edges[2 * worker + 1] = (tg_edge){ worker, (worker + 5) % WORKERS, TG_GRANT };
    }
    want(tg_open(&store, values, WORKERS, edges, 2 * WORKERS, &limits) == TG_DONE);
    want(is_alone || tg_auditor_open(&auditor, values, WORKERS, edges, 2 * WORKERS, &limits) == TG_DONE);
}

static void fill(void) {
    uint64_t left;
    for (uint64_t at = 0; at < live; at++) {
        create(at);
        if (at / WORKERS % 2)
            lend(at);
        if (at % (PART / 2) == 0)
            give_up();
    }
    for (uint64_t at = 0; at < ROWS * ROW; at++) {
        uint64_t from = at / ROW, to = (from + WORKERS * 7 * (1 + at % ROW)) % ROWS;
        want(tg_grant(&store, owner(from), names[from], names[to], TG_READ, NULL) <= TG_DENIED);
    }
    give_up();
    want(tg_collect(&store, TG_FULL, &left) == TG_DONE);
    used.most = resident.most = audited.most = 0;
    commands_time = audits_time = 0;
}

static void collect(uint64_t done) {
    uint64_t left;
    if (done % PART == 0)
        want(tg_collect(&store, TG_NURSERY, &left) == TG_DONE);
    if (done % FULL == 0)
        want(tg_collect(&store, TG_FULL, &left) == TG_DONE);
}

static void tell(uint64_t done) {
    printf("%" PRIu64 ": resident %.2f, at most %.2f; in use %.2f, at most %.2f; auditor %.2f, at most %.2f; %.0f and %.0f ns\n", done,
           1e-6 * (double)resident.now, 1e-6 * (double)resident.most, 1e-6 * (double)used.now, 1e-6 * (double)used.most,
           1e-6 * (double)audited.now, 1e-6 * (double)audited.most, 1e9 / MILLION * commands_time, 1e9 / MILLION * audits_time);
    fflush(stdout);
    commands_time = audits_time = 0;
}

static void take_words(int count, char **words) {
    want(count >= 3 && (live = strtoull(words[1], NULL, 10)) > 2 * ROWS);
    for (int at = 3; at < count; at++) {
        is_alone |= !strcmp(words[at], "alone");
        is_swept |= !strcmp(words[at], "sweep");
        is_trimmed |= !strcmp(words[at], "trim");
    }
    names = mmap(NULL, 9 * live, PROT_READ | PROT_WRITE, MAP_PRIVATE | MAP_ANONYMOUS | MAP_POPULATE, -1, 0);
    want(names != MAP_FAILED);
    is_lent = (unsigned char *)(names + live);
}

int main(int count, char **words) {
    take_words(count, words);
    open_both();
    fill();
    uint64_t commands = strtoull(words[2], NULL, 10);
    for (uint64_t done = 0; done < commands;) {
        double began = seconds();
        for (int at = 0; at < PART; at++)
            ask();
        done += PART;
        collect(done);
        commands_time += seconds() - began;
        give_up();
        if (is_swept && !is_alone && done % FULL == 0)
            sweep();
        if (done % MILLION == 0)
            tell(done);
    }
    return 0;
}
