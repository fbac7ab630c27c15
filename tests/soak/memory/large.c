/* A large store that lacks memory, through the library for C: large VERTICES REFUSED SEED

   64 workers make the vertices in turn. Some are granted to the next worker, written, or given up. The heap is collected 64
   times, four times in full. The first run counts the requests for memory. In the second run REFUSED of them are refused. Half
   are drawn from all requests, and half from the requests for 64 KiB and more.

   If a call returns TG_OUT_OF_MEMORY, the census must be as it was before the call. So must the labels of 100,000 vertices that are
   drawn by chance, which are compared with a plain table. Then the call is made again. In the end all vertices are compared and read,
   and each block must have been given back. A refused request for room that a vector needn't have lets its call be served.

   It is linked with --wrap=malloc,--wrap=realloc,--wrap=free. tests/soak/memory/large.py builds and runs it. */
#include "kovshenul.h"
#include <inttypes.h>
#include <stdio.h>
#include <stdlib.h>
#include <string.h>

enum { WORKERS = 64, PART = 4096, LOOKS = 100000, LARGE = 65536, BLOCKS = 1 << 20 };
enum { MAKER = TG_READ | TG_WRITE };

enum kind { OPEN, CREATE, GRANT, WRITE, READ, REMOVE, MINOR, FULL, KINDS };
static const char *const names_of_kinds[KINDS] = { "opening", "create", "grant", "write", "read", "remove", "nursery collection", "full collection" };

/* Requests of one sort, and which of them are refused, in order. */
struct requests {
    uint64_t made, refused_count, next, *refused;
};

static struct requests all_requests, large_requests;
static int64_t held;            /* blocks that weren't given back yet */
static uint64_t refused, greatest, told[KINDS];

static tg_store store = TG_STORE_INIT;
static uint64_t vertices, made, alive;

/* The rights over each vertex of the worker that made it, and of the next one. */
static unsigned char (*rights)[2];

void *__real_malloc(size_t size);
void *__real_realloc(void *at, size_t size);
void __real_free(void *at);

static int is_drawn(struct requests *of) {
    uint64_t number = of->made++;
    int found = of->next < of->refused_count && of->refused[of->next] == number;
    of->next += (uint64_t)found;
    return found;
}

static int is_refused(size_t size) {
    int found = is_drawn(&all_requests);
    if (size >= LARGE)
        found |= is_drawn(&large_requests);
    if (found) {
        refused++;
        greatest = size > greatest ? size : greatest;
    }
    return found;
}

void *__wrap_malloc(size_t size) {
    void *at = is_refused(size) ? NULL : __real_malloc(size);
    held += at != NULL;
    return at;
}

void *__wrap_realloc(void *at, size_t size) {
    void *grown = is_refused(size) ? NULL : __real_realloc(at, size);
    held += at == NULL && grown != NULL;
    return grown;
}

void __wrap_free(void *at) {
    held -= at != NULL;
    __real_free(at);
}

static void want(int holds, const char *what) {
    if (!holds) {
        fprintf(stderr, "large: vertex %" PRIu64 ", %" PRIu64 " refused: %s\n", made, refused, what);
        exit(1);
    }
}

static uint64_t draw(uint64_t below) {
    static uint64_t state;
    state = state * 6364136223846793005u + 1442695040888963407u + vertices;
    return (state >> 16) % below;
}

static uint64_t maker(uint64_t at) { return at % WORKERS; }
static uint64_t next(uint64_t at) { return (at + 1) % WORKERS; }
static uint64_t name(uint64_t at) { return WORKERS + at; }

static void compare(uint64_t at) {
    uint64_t of_maker, of_next, of_other;
    want(tg_label(&store, maker(at), name(at), &of_maker) == TG_DONE && of_maker == rights[at][0], "its maker's rights are others");
    want(tg_label(&store, next(at), name(at), &of_next) == TG_DONE && of_next == rights[at][1], "the next worker's rights are others");
    want(tg_label(&store, next(at + 1), name(at), &of_other) == TG_DONE && of_other == 0, "a third worker has rights");
}

static void compare_with(const tg_counts *before) {
    tg_counts now;
    want(tg_census(&store, &now) == TG_DONE && !memcmp(before, &now, sizeof now), "the census changed by a call without memory");
    for (uint64_t i = 0; made && i < LOOKS; i++)
        compare(draw(made));
    compare(made);
}

static tg_status open_store(void) {
    static const tg_value workers[WORKERS];
    tg_edge edges[WORKERS];
    const tg_limits limits = { WORKERS + vertices, BLOCKS, BLOCKS };
    for (uint64_t worker = 0; worker < WORKERS; worker++)
        edges[worker] = (tg_edge){ worker, next(worker), TG_GRANT };
    return tg_open(&store, workers, WORKERS, edges, WORKERS, &limits);
}

/* A call that is about the vertex `made`, an opening or a collection. */
static tg_status call(enum kind kind) {
    static const tg_value zero = { TG_CELL, 0, 0 };
    uint64_t at = made, number = 0, count;
    tg_status status = TG_DONE;
    switch (kind) {
    case OPEN: status = open_store(); break;
    case CREATE: status = tg_create(&store, maker(at), MAKER, &zero, &number); break;
    case GRANT: status = tg_grant(&store, maker(at), next(at), name(at), TG_READ, NULL); break;
    case WRITE: status = tg_write(&store, maker(at), name(at), at, NULL); break;
    case READ: status = tg_read(&store, maker(at), name(at), &number, 1, &count, NULL); break;
    case REMOVE: status = tg_remove(&store, maker(at), name(at), MAKER, NULL); break;
    case MINOR: status = tg_collect(&store, TG_NURSERY, &number); break;
    default: status = tg_collect(&store, TG_FULL, &number);
    }
    want(status != TG_DONE || kind != CREATE || number == name(at), "another name was made");
    want(status != TG_DONE || kind != READ || number == (at % 4 == 1 ? at : 0), "a vertex stores another number");
    want(status != TG_DONE || kind != FULL || number == WORKERS + alive, "a full collection leaves another number of vertices");
    return status;
}

static void ask(enum kind kind) {
    tg_counts before;
    uint64_t refused_before = refused;
    tg_status status;
    int is_open = tg_census(&store, &before) == TG_DONE;
    want(is_open == (kind != OPEN), "the store is open before its opening, or closed after it");
    while ((status = call(kind)) == TG_OUT_OF_MEMORY) {
        want(refused > refused_before, "out of memory, where nothing was refused");
        refused_before = refused;
        told[kind]++;
        if (is_open)
            compare_with(&before);
        else
            want(tg_census(&store, &before) == TG_NOT_OPEN, "an opening without memory leaves the store open");
    }
    want(status == TG_DONE, "a call is refused for another reason");
}

static void give_up_entries(void) {
    uint64_t entries;
    want(tg_entries(&store, &entries) == TG_DONE && tg_forget(&store, entries) == TG_DONE, "the entries aren't given up");
}

static void make_one(void) {
    unsigned char *of = rights[made];
    of[0] = of[1] = 0;
    ask(CREATE);
    of[0] = MAKER;
    if (made % 8 == 0) {
        ask(GRANT);
        of[1] = TG_READ;
    }
    if (made % 4 == 1)
        ask(WRITE);
    if (made % 8 >= 6) {
        ask(REMOVE);
        of[0] = 0;
    }
    alive += of[0] || of[1];
}

static void collect_some(void) {
    uint64_t part = vertices / 64 + 1;
    if (made % part == part - 1)
        ask(made / part % 16 == 15 ? FULL : MINOR);
}

/* Looks at each vertex, and reads the vertices that their makers may read. */
static void compare_all(void) {
    for (made = 0; made < vertices; made++) {
        compare(made);
        if (rights[made][0])
            ask(READ);
        if (made % PART == 0)
            give_up_entries();
    }
}

/* A run of a store. The entries of the last tenth are kept. */
static void run(int is_compared) {
    int64_t held_before = held;
    all_requests.made = large_requests.made = alive = 0;
    made = 0;
    ask(OPEN);
    for (made = 0; made < vertices; made++) {
        make_one();
        collect_some();
        if (made % PART == 0 && made < vertices / 10 * 9)
            give_up_entries();
    }
    if (is_compared)
        compare_all();
    want(tg_close(&store) == TG_DONE && held == held_before, "a block wasn't given back");
}

static int is_in(const uint64_t *numbers, uint64_t count, uint64_t number) {
    for (uint64_t i = 0; i < count; i++)
        if (numbers[i] == number)
            return 1;
    return 0;
}

static int in_order(const void *a, const void *b) {
    uint64_t first = *(const uint64_t *)a, second = *(const uint64_t *)b;
    return (first > second) - (first < second);
}

/* Draws so many of the requests that were made. */
static void refuse(struct requests *of, uint64_t count) {
    uint64_t *drawn = __real_malloc((count + 1) * sizeof *drawn), kept = 0;
    want(drawn != NULL && count <= of->made, "fewer requests than are to be refused");
    while (kept < count) {
        uint64_t number = draw(of->made);
        if (!is_in(drawn, kept, number))
            drawn[kept++] = number;
    }
    qsort(drawn, kept, sizeof *drawn, in_order);
    of->refused = drawn;
    of->refused_count = kept;
    of->next = 0;
}

int main(int count, char **words) {
    want(count == 4, "large VERTICES REFUSED SEED");
    vertices = strtoull(words[1], NULL, 10);
    uint64_t wanted = strtoull(words[2], NULL, 10), all_told = 0;
    for (uint64_t seed = strtoull(words[3], NULL, 10); seed > 0; seed--)
        draw(2);
    rights = __real_malloc(vertices * sizeof *rights);
    want(rights != NULL && vertices > 0, "no memory for the plain table, or no vertices");
    run(0);
    printf("%" PRIu64 " vertices: %" PRIu64 " requests for memory, %" PRIu64 " of them for 64 KiB and more\n", vertices, all_requests.made, large_requests.made);
    refuse(&all_requests, wanted - wanted / 2);
    refuse(&large_requests, wanted / 2);
    run(1);
    for (int kind = 0; kind < KINDS; all_told += told[kind++])
        if (told[kind])
            printf("out of memory, and the store as it was: %s, %" PRIu64 " times\n", names_of_kinds[kind], told[kind]);
    printf("%" PRIu64 " requests refused, the greatest for %" PRIu64 " bytes: %" PRIu64 " calls out of memory, %" PRIu64 " served without\n", refused, greatest,
           all_told, refused - all_told);
    return 0;
}
