/* A host that gives its vertices names for people. The texts of denials and entries have them. Build it with: cc names.c -lkovshenul */
#include "kovshenul.h"
#include <stdio.h>

enum { HOST, REPORT, PLUGIN, VERTICES, ROOM = 200, NUMBERS = 64 };

/* The name of a vertex, of the names that the host keeps in an array. NULL if it has none. */
static const char *name_of(void *host, uint64_t vertex) {
    const char *const *names = host;
    return vertex < VERTICES ? names[vertex] : NULL;
}

/* Writes all entries with these names. */
static void write_journal(tg_store *store, const tg_naming *names) {
    uint64_t count = 0, numbers[NUMBERS];
    char text[ROOM];
    tg_record entry;
    tg_entries(store, &count);
    for (uint64_t at = 0; at < count; at++)
        if (tg_entry(store, at, &entry, numbers, NUMBERS, NULL, 0) == TG_DONE
            && tg_named_entry_text(&entry, numbers, NULL, names, text, sizeof text) < sizeof text)
            puts(text);
}

int main(void) {
    const char *const kept[VERTICES] = { "host", "report", "plugin" };
    const tg_naming names = { name_of, (void *)kept };
    const tg_value cell = { TG_CELL, 0, 0 }, sum = { TG_SUM, 0, 40 };
    const tg_limits limits = TG_LIMITS_INIT;
    tg_store store = TG_STORE_INIT;
    uint64_t name;
    tg_denial why;
    char text[ROOM];
    if (tg_open(&store, &cell, 1, NULL, 0, &limits) != TG_DONE || tg_create(&store, HOST, TG_READ | TG_WRITE, &sum, &name) != TG_DONE
        || tg_spawn(&store, HOST, TG_GRANT, &cell, &name) != TG_DONE || tg_grant(&store, HOST, PLUGIN, REPORT, TG_READ, NULL) != TG_DONE)
        return 1;
    if (tg_write(&store, PLUGIN, REPORT, 2, &why) == TG_DENIED && tg_named_denial_text(&why, &names, text, sizeof text) < sizeof text)
        puts(text);
    write_journal(&store, &names);
    tg_close(&store);
    return 0;
}
