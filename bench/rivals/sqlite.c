/* The mixture in SQLite, in memory, by prepared statements: sqlite FILE COMMANDS [setup]

   FILE has the bytes of Mixture.bytes of ../mixture/mixture.py. COMMANDS is how many commands a transaction has. With setup after
   it only the vertices are made. Vertices, edges and entries are tables. A full collection is a recursive query. It prints a sum
   over all answers, which is to be the sum of ../mixture/mixture.c, the bytes that SQLite holds, and the processor time. */
#include <sqlite3.h>
#include <stdint.h>
#include <stdio.h>
#include <stdlib.h>
#include <string.h>
#include <sys/resource.h>

enum { READ, GRANT, CREATE, REMOVE, INSPECT, MINOR, FULL };
enum { RIGHT_READ = 1, RIGHT_GRANT = 8, RIGHT_INSPECT = 32 };

static sqlite3 *db;
static uint64_t sum = 1469598103934665603u;

static void add(uint64_t it) { sum = (sum ^ it) * 1099511628211u; }

static void want(int it, const char *what) {
    if (!it) {
        fprintf(stderr, "sqlite: %s: %s\n", what, db ? sqlite3_errmsg(db) : "");
        exit(1);
    }
}

/* ---- the file */

static const unsigned char *at, *end;

static void take_file(const char *name) {
    FILE *file = fopen(name, "rb");
    want(file != NULL && !fseek(file, 0, SEEK_END), name);
    long size = ftell(file);
    unsigned char *bytes = malloc((size_t)size);
    rewind(file);
    want(bytes != NULL && fread(bytes, 1, (size_t)size, file) == (size_t)size && !fclose(file), name);
    at = bytes;
    end = bytes + size;
}

static uint32_t number(void) {
    want(end - at >= 4, "the file ends");
    at += 4;
    return at[-4] | (uint32_t)at[-3] << 8 | (uint32_t)at[-2] << 16 | (uint32_t)at[-1] << 24;
}

/* ---- statements */

enum { S_READ, S_HOLDS, S_PUT, S_MAKE, S_LESS, S_GONE, S_ROW, S_ENTER, S_BEGIN, S_COMMIT, STATEMENTS };

static const char *const texts[STATEMENTS] = {
    "select v.state from edge e join vertex v on v.name = e.target where e.source = ?1 and e.target = ?2 and e.rights & 1",
    "select 1 from edge where source = ?1 and target = ?2 and rights & ?3 = ?3",
    "insert into edge values (?1, ?2, ?3) on conflict do update set rights = rights | excluded.rights",
    "insert into vertex values (?1, 0)",
    "update edge set rights = rights & ~?3 where source = ?1 and target = ?2",
    "delete from edge where source = ?1 and target = ?2 and rights = 0",
    "select target, rights from edge where source = ?1 order by target",
    "insert into entry values (null, ?1, ?2, ?3, ?4, ?5, ?6)",
    "begin",
    "commit",
};

static const char *const opening =
    "pragma journal_mode=memory; pragma synchronous=off; pragma locking_mode=exclusive; pragma temp_store=memory;"
    "create table vertex(name integer primary key, state integer not null);"
    "create table edge(source integer, target integer, rights integer not null, primary key(source, target)) without rowid;"
    "create table entry(place integer primary key, worker integer, kind integer, first integer, second integer, rights integer, reply integer)";

static const char *const collection =
    "create temp table reached as with recursive r(name) as (select name from vertex where name < 16"
    " union select target from edge join r on source = r.name) select name from r;"
    "create unique index temp.by_name on reached(name);"
    "delete from edge where source not in (select name from reached);"
    "delete from vertex where name not in (select name from reached);"
    "drop table reached";

static sqlite3_stmt *statements[STATEMENTS];

static void run(const char *sql) { want(sqlite3_exec(db, sql, NULL, NULL, NULL) == SQLITE_OK, sql); }

static void open_store(void) {
    sqlite3_config(SQLITE_CONFIG_SINGLETHREAD);
    want(sqlite3_open(":memory:", &db) == SQLITE_OK, "open");
    run(opening);
    for (int i = 0; i < STATEMENTS; i++)
        want(sqlite3_prepare_v3(db, texts[i], -1, SQLITE_PREPARE_PERSISTENT, &statements[i], NULL) == SQLITE_OK, texts[i]);
}

/* Sets what the statement asks for. */
static void bind(int which, int count, const uint64_t *values) {
    for (int i = 0; i < count; i++)
        want(sqlite3_bind_int64(statements[which], i + 1, (sqlite3_int64)values[i]) == SQLITE_OK, texts[which]);
}

/* Whether the statement has a row, whose columns can be read then. */
static int has_row(int which) {
    int got = sqlite3_step(statements[which]);
    want(got == SQLITE_ROW || got == SQLITE_DONE, texts[which]);
    return got == SQLITE_ROW;
}

/* Runs the statement to its first row or its end, and returns whether it had a row. */
static int done(int which, int count, const uint64_t *values) {
    bind(which, count, values);
    int got = has_row(which);
    sqlite3_reset(statements[which]);
    return got;
}

static int holds(uint64_t x, uint64_t y, uint64_t rights) { return done(S_HOLDS, 3, (uint64_t[]){x, y, rights}); }

/* ---- commands */

struct command {
    uint64_t kind, worker, rights, first, second;
};

static uint64_t made;

/* Each returns whether the command is denied. What it answers is added to the sum, and goes to *reply for the entry. */
static int read_one(struct command it, uint64_t *reply) {
    bind(S_READ, 2, (uint64_t[]){it.worker, it.first});
    int is_held = has_row(S_READ);
    if (is_held)
        add(*reply = (uint64_t)sqlite3_column_int64(statements[S_READ], 0));
    sqlite3_reset(statements[S_READ]);
    return !is_held;
}

static int grant(struct command it) {
    if (!holds(it.worker, it.first, RIGHT_GRANT) || !holds(it.worker, it.second, it.rights))
        return 1;
    done(S_PUT, 3, (uint64_t[]){it.first, it.second, it.rights});
    return 0;
}

static int create(struct command it, uint64_t *reply) {
    *reply = made++;
    done(S_MAKE, 1, reply);
    done(S_PUT, 3, (uint64_t[]){it.worker, *reply, it.rights});
    return 0;
}

static int take_away(struct command it) {
    if (!holds(it.worker, it.first, it.rights))
        return 1;
    done(S_LESS, 3, (uint64_t[]){it.worker, it.first, it.rights});
    done(S_GONE, 2, (uint64_t[]){it.worker, it.first});
    return 0;
}

static int inspect(struct command it, uint64_t *reply) {
    if (!holds(it.worker, it.first, RIGHT_INSPECT))
        return 1;
    bind(S_ROW, 1, &it.first);
    for (*reply = 0; has_row(S_ROW); ++*reply) {
        add((uint64_t)sqlite3_column_int64(statements[S_ROW], 0));
        add((uint64_t)sqlite3_column_int64(statements[S_ROW], 1));
    }
    sqlite3_reset(statements[S_ROW]);
    return 0;
}

static void serve(struct command it) {
    uint64_t reply = 0;
    int is_denied = 0;
    switch (it.kind) {
    case READ: is_denied = read_one(it, &reply); break;
    case GRANT: is_denied = grant(it); break;
    case CREATE: is_denied = create(it, &reply); break;
    case REMOVE: is_denied = take_away(it); break;
    case INSPECT: is_denied = inspect(it, &reply); break;
    case FULL: run(collection); break;
    default: break;
    }
    add((uint64_t)is_denied);
    if (it.kind < MINOR)
        done(S_ENTER, 6, (uint64_t[]){it.worker, it.kind, it.first, it.second, it.rights, reply << 1 | (uint64_t)is_denied});
}

static double seconds(void) {
    struct rusage used;
    getrusage(RUSAGE_SELF, &used);
    return (double)(used.ru_utime.tv_sec + used.ru_stime.tv_sec) + 1e-6 * (double)(used.ru_utime.tv_usec + used.ru_stime.tv_usec);
}

int main(int count, char **words) {
    want(count >= 3, "FILE COMMANDS [setup]");
    take_file(words[1]);
    uint64_t each = strtoull(words[2], NULL, 10);
    uint32_t all = number(), setup = number(), workers = number(), edges = number();
    uint32_t steps = count > 3 && !strcmp(words[3], "setup") ? setup : all;
    open_store();
    for (; made < workers; made++)
        done(S_MAKE, 1, &made);
    for (uint32_t i = 0; i < edges; i++) {
        uint64_t from = number(), to = number();
        done(S_PUT, 3, (uint64_t[]){from, to, RIGHT_GRANT});
    }
    double start = seconds();
    for (uint32_t i = 0; i < steps; i++) {
        if (i % each == 0)
            done(S_BEGIN, 0, NULL);
        uint32_t head = number();
        struct command it = {head & 255, head >> 8 & 255, head >> 16 & 255, 0, 0};
        it.first = number();
        it.second = number();
        serve(it);
        if (i % each == each - 1 || i == steps - 1)
            done(S_COMMIT, 0, NULL);
    }
    printf("sum %016llx, %lld bytes, %.3f s\n", (unsigned long long)sum, (long long)sqlite3_memory_used(), seconds() - start);
    return 0;
}
