/* Rows that are inserted into a database of SQLite, in WAL with FULL sync: sqlite FILE COUNT BATCH

   A transaction has BATCH rows. A row has the line of an entry. It prints the seconds that the inserts took, by the clock. */
#include <sqlite3.h>
#include <stdio.h>
#include <stdlib.h>
#include <time.h>

static sqlite3 *db;

static void want(int it, const char *what) {
    if (!it) {
        fprintf(stderr, "sqlite: %s: %s\n", what, db ? sqlite3_errmsg(db) : "");
        exit(1);
    }
}

static void run(const char *text) { want(sqlite3_exec(db, text, NULL, NULL, NULL) == SQLITE_OK, text); }

static double now(void) {
    struct timespec it;
    clock_gettime(CLOCK_MONOTONIC, &it);
    return it.tv_sec + it.tv_nsec / 1e9;
}

static void insert(sqlite3_stmt *row, long at) {
    char line[64];
    int length = snprintf(line, sizeof line, "0 write 0 %ld = ok", at);
    sqlite3_bind_int64(row, 1, at);
    sqlite3_bind_text(row, 2, line, length, SQLITE_TRANSIENT);
    want(sqlite3_step(row) == SQLITE_DONE, "an insert");
    sqlite3_reset(row);
}

int main(int count_of_words, char **words) {
    want(count_of_words == 4, "FILE COUNT BATCH");
    long count = atol(words[2]), batch = atol(words[3]);
    sqlite3_stmt *row;
    want(sqlite3_open(words[1], &db) == SQLITE_OK, words[1]);
    run("PRAGMA journal_mode=WAL");
    run("PRAGMA synchronous=FULL");
    run("CREATE TABLE entry (at INTEGER PRIMARY KEY, line TEXT NOT NULL)");
    want(sqlite3_prepare_v2(db, "INSERT INTO entry VALUES (?1, ?2)", -1, &row, NULL) == SQLITE_OK, "a statement");
    double begun = now();
    for (long at = 0; at < count;) {
        run("BEGIN");
        for (long in_batch = 0; in_batch < batch && at < count; in_batch++) insert(row, at++);
        run("COMMIT");
    }
    printf("%.6f\n", now() - begun);
    sqlite3_finalize(row);
    sqlite3_close(db);
    return 0;
}
