/* Random scripts through the library for C. Each prefix of a script is stopped, and two stores go on from it. One is resumed from
   the entries, and one is reopened from the snapshot of an auditor. Both take the rest of the script. Each reply has to be the
   reply of the first store, and so has the snapshot at the end. Both stores may collect before they go on, and the scripts
   collect too.

   reopened SEED SCRIPTS FAULT: FAULT is 0, or the number of a fault that is planted into the snapshot from which the second store
   is reopened. With a fault the program ends with status 3 at the first difference, which was to be found. */
#include "kovshenul.h"
#include <inttypes.h>
#include <stdio.h>
#include <stdlib.h>
#include <string.h>

enum { LINES = 60, PREFIX = 40, ROW = 160, TEXT = 1 << 16, MOST = 64 };

enum { NONE, VALUE_LOST, NAME_AGAIN, RETIRED_ACTS, EDGE_DROPPED, PLACE_FROM_0, FAULTS };

/* What a script asks for in a line: a deed, or a collection. */
enum { COLLECT = 32 };

typedef struct line {
    uint32_t deed, kind;
    uint64_t worker, via, target, rights, value;
    tg_value stored;
} line;

/* What a line came to: the status, and the entry if it made one. */
typedef struct reply {
    tg_status status;
    bool is_entry;
    tg_record record;
    uint64_t numbers[64];
    tg_target edges[ROW];
} reply;

typedef struct script {
    tg_value workers[MOST];
    size_t worker_count;
    tg_edge edges[MOST];
    size_t edge_count;
    tg_limits limits;
    line lines[LINES];
    size_t line_count;
} script;

/* Of a script that ran: the reply to each line, and the snapshot before each line and at the end. */
typedef struct history {
    reply replies[LINES];
    char *snapshots[LINES + 1];
    uint64_t entries[LINES + 1];
} history;

static uint64_t dice;
static uint64_t number_of_script;
static int fault;
static uint64_t resumed, reopened, compared;

static uint64_t roll(uint64_t below) {
    dice ^= dice << 13;
    dice ^= dice >> 7;
    dice ^= dice << 17;
    return (dice >> 11) % below;
}

static void stop(const char *what, size_t prefix, size_t at) {
    if (fault != NONE) {
        printf("found in script %" PRIu64 ": %s\n", number_of_script, what);
        exit(3);
    }
    fprintf(stderr, "reopened: script %" PRIu64 ", %zu lines before, line %zu: %s\n", number_of_script, prefix, at, what);
    exit(1);
}

static void done(tg_status status, const char *what) {
    if (status == TG_DONE)
        return;
    fprintf(stderr, "reopened: script %" PRIu64 ": %s: %s\n", number_of_script, what, tg_status_text(status));
    exit(1);
}

/* ---- scripts */

static tg_value random_value(void) {
    tg_value value = { (uint32_t)roll(4), 0, 0 };
    if (value.law == TG_LOG)
        value.most = (uint32_t)(1 + roll(roll(4) ? 4 : 64));
    else
        value.number = roll(4) ? roll(9) : UINT64_MAX - roll(9);
    return value;
}

/* A set of rights, of which many are large. */
static uint64_t random_rights(void) {
    uint64_t rights = 1 + roll(255);
    return roll(3) ? rights | (1 + roll(255)) : rights;
}

static line random_line(size_t at, const script *it) {
    static const uint32_t deeds[] = {
        TG_DEED_TAKE, TG_DEED_GRANT, TG_DEED_GRANT, TG_DEED_REMOVE, TG_DEED_READ, TG_DEED_READ, TG_DEED_WRITE, TG_DEED_WRITE, TG_DEED_APPEND,
        TG_DEED_INSPECT, TG_DEED_LIST, TG_DEED_CREATE, TG_DEED_CREATE, TG_DEED_CREATE, TG_DEED_SPAWN, TG_DEED_SPAWN, TG_DEED_RETIRE, COLLECT
    };
    uint64_t names = it->worker_count + at / 4 + 1;
    line made = { deeds[roll(sizeof deeds / sizeof deeds[0])], (uint32_t)roll(2), 0, 0, 0, 0, 0, { 0, 0, 0 } };
    made.worker = roll(roll(4) ? it->worker_count : names);
    made.via = roll(names);
    made.target = roll(names);
    made.rights = roll(2) ? 1u << roll(8) : random_rights();
    if (made.deed == TG_DEED_CREATE || made.deed == TG_DEED_SPAWN)
        made.rights = roll(2) ? 255 : random_rights();
    made.value = roll(9);
    made.stored = random_value();
    return made;
}

static void write_script(script *it) {
    it->worker_count = roll(16) ? 1 + roll(4) : MOST - roll(3);
    for (size_t i = 0; i < it->worker_count; i++)
        it->workers[i] = random_value();
    it->edge_count = it->worker_count < 2 ? 0 : roll(8);
    for (size_t i = 0; i < it->edge_count; i++) {
        uint64_t from = roll(it->worker_count), to = (from + 1 + roll(it->worker_count - 1)) % it->worker_count;
        it->edges[i] = (tg_edge){ from, to, roll(2) ? 255 : random_rights() };
    }
    const tg_limits few = { it->worker_count + roll(8), 256, 256 }, many = { (uint64_t)1 << 48, 4096, 1048576 };
    it->limits = roll(8) ? many : few;
    it->line_count = LINES - roll(LINES / 2);
    for (size_t i = 0; i < it->line_count; i++)
        it->lines[i] = random_line(i, it);
}

/* ---- a line, and its reply */

static tg_status take_line(tg_store *store, const line *it) {
    tg_target edges[ROW];
    uint64_t numbers[64], count;
    tg_denial why;
    switch (it->deed) {
    case TG_DEED_TAKE: return tg_take(store, it->worker, it->via, it->target, it->rights, &why);
    case TG_DEED_GRANT: return tg_grant(store, it->worker, it->via, it->target, it->rights, &why);
    case TG_DEED_REMOVE: return tg_remove(store, it->worker, it->target, it->rights, &why);
    case TG_DEED_READ: return tg_read(store, it->worker, it->target, numbers, 64, &count, &why);
    case TG_DEED_WRITE: return tg_write(store, it->worker, it->target, it->value, &why);
    case TG_DEED_APPEND: return tg_append(store, it->worker, it->target, it->value, &why);
    case TG_DEED_INSPECT: return tg_inspect(store, it->worker, it->target, edges, ROW, &count, &why);
    case TG_DEED_LIST: return tg_list(store, it->worker, edges, ROW, &count);
    case TG_DEED_RETIRE: return tg_retire(store, it->worker);
    case TG_DEED_CREATE: return tg_create(store, it->worker, it->rights, &it->stored, &count);
    case TG_DEED_SPAWN: return tg_spawn(store, it->worker, it->rights, &it->stored, &count);
    default: return tg_collect(store, it->kind, &count);
    }
}

static void read_entry(tg_store *store, uint64_t at, reply *out) {
    done(tg_entry(store, at, &out->record, out->numbers, 64, out->edges, ROW), "tg_entry");
    if (out->record.edge_count > ROW)
        done(TG_BAD_VALUES, "a row that is too long");
}

/* The status of the line, and its entry. */
static void answer(tg_store *store, const line *it, reply *out) {
    uint64_t before, after;
    done(tg_entries(store, &before), "tg_entries");
    out->status = take_line(store, it);
    done(tg_entries(store, &after), "tg_entries");
    out->is_entry = after > before;
    if (out->status == TG_OUT_OF_MEMORY || out->status == TG_HEAP_FULL)
        done(out->status, "a line");
    if (out->is_entry)
        read_entry(store, before, out);
}

static bool is_same(const reply *one, const reply *two) {
    if (one->status != two->status || one->is_entry != two->is_entry)
        return false;
    if (!one->is_entry)
        return true;
    const tg_record *a = &one->record, *b = &two->record;
    return memcmp(a, b, sizeof *a) == 0 && memcmp(one->numbers, two->numbers, a->number_count * sizeof(uint64_t)) == 0 &&
           memcmp(one->edges, two->edges, a->edge_count * sizeof(tg_target)) == 0;
}

/* ---- snapshots */

static char *snapshot_text(tg_auditor *auditor) {
    tg_snapshot snapshot = TG_SNAPSHOT_INIT;
    char *text = malloc(TEXT);
    uint64_t length;
    done(tg_auditor_snapshot(auditor, &snapshot), "tg_auditor_snapshot");
    done(tg_snapshot_text(&snapshot, text, TEXT, &length), "tg_snapshot_text");
    if (length >= TEXT)
        done(TG_BAD_VALUES, "a snapshot that is too long");
    done(tg_snapshot_close(&snapshot), "tg_snapshot_close");
    return text;
}

/* Replaces the rest of a line, from a place in the text on. */
static void put(char *text, char *at, const char *rest) {
    char *end = strchr(at, '\n');
    char *after = malloc(TEXT);
    snprintf(after, TEXT, "%s%s", rest, end);
    snprintf(at, TEXT - (size_t)(at - text), "%s", after);
    free(after);
}

/* The counts in the second line. */
static void put_counts(char *text, uint64_t fewer_names, bool is_from_0) {
    uint64_t made, limit, entries;
    char *at = strstr(text, "made "), counts[100];
    sscanf(at, "made %" SCNu64 " %" SCNu64 " %" SCNu64, &made, &limit, &entries);
    snprintf(counts, sizeof counts, "made %" PRIu64 " %" PRIu64 " %" PRIu64, made - fewer_names, limit, is_from_0 ? 0 : entries);
    put(text, at, counts);
}

/* Drops the last line with an edge, and counts one line fewer. */
static void drop_edge(char *text) {
    char *last = NULL, *end = strstr(text, "\npicture "), counts[40];
    for (char *at = strstr(text, "\nedge "); at != NULL; at = strstr(at + 1, "\nedge "))
        last = at;
    if (last == NULL)
        return;
    uint64_t lines = strtoull(end + 9, NULL, 10);
    snprintf(counts, sizeof counts, "picture %" PRIu64, lines - 1);
    put(text, end + 1, counts);
    char *after = strchr(last + 1, '\n');
    memmove(last, after, strlen(after) + 1);
}

/* The last vertex that isn't active acts. */
static void activate(char *text) {
    char *vertices = strstr(text, "\nvertex "), found[40] = "", word[40], *copy = malloc(TEXT);
    for (char *at = vertices; at != NULL; at = strstr(at + 1, "\nvertex ")) {
        snprintf(word, sizeof word, "\nworker %" PRIu64 "\n", (uint64_t)strtoull(at + 8, NULL, 10));
        if (strstr(text, word) == NULL)
            snprintf(found, sizeof found, "%s", word);
    }
    uint64_t name = strtoull(found + 8, NULL, 10), next;
    char *before = found[0] ? strstr(text, "\nworker ") : NULL;
    while (before != NULL && sscanf(before, "\nworker %" SCNu64, &next) == 1 && next < name)
        before = strchr(before + 1, '\n');
    if (before != NULL) {
        snprintf(copy, TEXT, "%.*s%s%s", (int)(before - text), text, found, before + 1);
        snprintf(text, TEXT, "%s", copy);
    }
    free(copy);
}

/* The first value that is a number other than 0 becomes 0. */
static void lose_value(char *text) {
    for (char *at = strstr(text, "\nvertex "); at != NULL; at = strstr(at + 1, "\nvertex ")) {
        char *value = strchr(at + 8, ' ') + 1;
        if (*value != 'l' && value[1] != '0') {
            put(text, value + 1, "0");
            return;
        }
    }
}

static void plant(char *text) {
    switch (fault) {
    case VALUE_LOST: lose_value(text); break;
    case NAME_AGAIN: put_counts(text, 1, false); break;
    case RETIRED_ACTS: activate(text); break;
    case EDGE_DROPPED: drop_edge(text); break;
    case PLACE_FROM_0: put_counts(text, 0, true); break;
    default: break;
    }
}

/* ---- stores that go on */

/* Both stores may collect before they go on. */
static void may_collect(tg_store *store) {
    uint64_t left, kind = roll(3);
    if (kind < 2)
        done(tg_collect(store, (uint32_t)kind, &left), "tg_collect");
}

/* The store is resumed from the replies to the lines before. */
static void resume(tg_store *store, const script *it, const history *all, size_t prefix) {
    uint64_t at = 0;
    done(tg_open(store, it->workers, it->worker_count, it->edges, it->edge_count, &it->limits), "tg_open");
    for (size_t i = 0; i < prefix; i++) {
        const reply *kept = &all->replies[i];
        if (!kept->is_entry)
            continue;
        tg_status status = tg_resume(store, at, &kept->record, kept->numbers, kept->record.number_count, kept->edges, kept->record.edge_count);
        if (status != TG_DONE)
            stop(tg_status_text(status), prefix, i);
        at++;
    }
    resumed++;
}

/* The store and its auditor are reopened from the snapshot before a line. Returns whether they are, which only a fault may prevent. */
static bool reopen(tg_store *store, tg_auditor *auditor, const script *it, const history *all, size_t prefix) {
    tg_snapshot snapshot = TG_SNAPSHOT_INIT;
    static char text[TEXT];
    uint64_t line;
    snprintf(text, sizeof text, "%s", all->snapshots[prefix]);
    plant(text);
    tg_status status = tg_snapshot_read(&snapshot, text, strlen(text), &line);
    if (status != TG_DONE && fault != NONE)
        return false;
    done(status, "tg_snapshot_read");
    /* No store goes on where nobody acts. */
    status = tg_reopen(store, &snapshot, &it->limits);
    bool is_open = status == TG_DONE;
    if (is_open)
        done(tg_auditor_reopen(auditor, &snapshot), "tg_auditor_reopen");
    else if (status != TG_BAD_WORKERS || strstr(all->snapshots[prefix], "\nworker ") != NULL)
        done(status, "tg_reopen");
    done(tg_snapshot_close(&snapshot), "tg_snapshot_close");
    reopened += is_open;
    return is_open;
}

/* The store takes the rest of the lines, and has the same replies. */
static void go_on(tg_store *store, const script *it, const history *all, size_t prefix) {
    static reply got;
    uint64_t entries;
    for (size_t i = prefix; i < it->line_count; i++) {
        answer(store, &it->lines[i], &got);
        compared++;
        if (!is_same(&got, &all->replies[i]))
            stop("another reply", prefix, i);
        done(tg_entries(store, &entries), "tg_entries");
        if (entries != all->entries[i + 1])
            stop("another place", prefix, i);
    }
}

/* The auditor accepts what the store did, and has the snapshot of the first store then. */
static void audit(tg_auditor *auditor, tg_store *store, const script *it, const history *all, size_t prefix) {
    if (tg_auditor_feed(auditor, store, NULL) != TG_DONE)
        stop("the audit failed", prefix, it->line_count);
    char *text = snapshot_text(auditor);
    if (strcmp(text, all->snapshots[it->line_count]) != 0)
        stop("another snapshot", prefix, it->line_count);
    free(text);
}

static void try_prefix(const script *it, const history *all, size_t prefix) {
    tg_store store = TG_STORE_INIT;
    tg_auditor auditor = TG_AUDITOR_INIT;
    if (fault == NONE) {
        resume(&store, it, all, prefix);
        may_collect(&store);
        go_on(&store, it, all, prefix);
        done(tg_auditor_open(&auditor, it->workers, it->worker_count, it->edges, it->edge_count, &it->limits), "tg_auditor_open");
        audit(&auditor, &store, it, all, prefix);
        tg_auditor_close(&auditor);
        tg_close(&store);
    }
    if (!reopen(&store, &auditor, it, all, prefix))
        return;
    may_collect(&store);
    go_on(&store, it, all, prefix);
    audit(&auditor, &store, it, all, prefix);
    tg_auditor_close(&auditor);
    tg_close(&store);
}

/* The first store takes all lines, and an auditor has the snapshot before each. */
static void run_whole(const script *it, history *all) {
    tg_store store = TG_STORE_INIT;
    tg_auditor auditor = TG_AUDITOR_INIT;
    done(tg_open(&store, it->workers, it->worker_count, it->edges, it->edge_count, &it->limits), "tg_open");
    done(tg_auditor_open(&auditor, it->workers, it->worker_count, it->edges, it->edge_count, &it->limits), "tg_auditor_open");
    for (size_t i = 0; i <= it->line_count; i++) {
        done(tg_auditor_feed(&auditor, &store, &all->entries[i]), "tg_auditor_feed");
        all->snapshots[i] = snapshot_text(&auditor);
        if (i < it->line_count)
            answer(&store, &it->lines[i], &all->replies[i]);
    }
    tg_auditor_close(&auditor);
    tg_close(&store);
}

static void try_script(void) {
    static script it;
    static history all;
    write_script(&it);
    run_whole(&it, &all);
    for (size_t prefix = 0; prefix <= it.line_count && prefix <= PREFIX; prefix++)
        try_prefix(&it, &all, prefix);
    for (size_t i = 0; i <= it.line_count; i++)
        free(all.snapshots[i]);
}

int main(int count, char **words) {
    if (count != 4 || atoi(words[3]) >= FAULTS) {
        fputs("usage: reopened SEED SCRIPTS FAULT\n", stderr);
        return 2;
    }
    uint64_t seed = strtoull(words[1], NULL, 10), scripts = strtoull(words[2], NULL, 10);
    fault = atoi(words[3]);
    for (number_of_script = seed; number_of_script < seed + scripts; number_of_script++) {
        dice = (number_of_script + 1) * UINT64_C(0x9e3779b97f4a7c15);
        try_script();
    }
    printf("%" PRIu64 " scripts: %" PRIu64 " stores resumed and %" PRIu64 " reopened, %" PRIu64 " replies compared\n", scripts, resumed, reopened,
           compared);
    return 0;
}
