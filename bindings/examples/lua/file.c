/* The file from which a killed host goes on.

   The file has each entry of the store's journal, in their order. Between the entries it has the plug-ins, objects and rules that
   the host keeps beside the store. Each part is written before the script or the host sees the reply. A host that was killed is
   started again with the same words. The new process has the store do each entry again (tg_resume), and the store compares the
   replies. So nobody has to believe the file. After an altered entry the host doesn't start.

   A kill may leave one of these, which the new process mends:
   - half a part at the end of the file. It is cut off, as if its command had never been asked for
   - rights that the host held in the middle of a hand. The host gives them up
   - a worker whose plug-in isn't in the file yet. The worker leaves
   - Lua states: they are gone. Each script starts anew as the worker that it was. It has a handle to each object that it holds in
     its inbox. A script keeps in objects what it needs afterwards.

   The file is made for this machine. It has structs as they lie in memory. A host whose machine may fail calls fsync too. */
#define _POSIX_C_SOURCE 200809L
#include "host.h"
#include <inttypes.h>
#include <stdio.h>
#include <stdlib.h>
#include <string.h>
#include <unistd.h>

enum { MOST_NUMBERS = 64 };

enum kind { ENTRY = 1, PLUGIN, OBJECT, RULE, SECRET };

enum { SWEEP = 4096 };         /* entries between two collections while the file is read */

/* The head of each part. */
struct head {
    uint64_t kind, size;       /* size: how many bytes follow */
};

/* A part that the host keeps beside the store. */
struct beside {
    uint64_t vertex, number, right;
    char name[NAME_ROOM], maker[NAME_ROOM];
};

/* A plug-in that the file has, running or not. */
struct noted {
    char name[NAME_ROOM];
    uint64_t worker, number;
};

static FILE *file;
static uint64_t saved;         /* the place of the first entry that isn't in the file */
static struct noted *noted;
static size_t noted_count;

/* A host that can't write goes no further: what it does from now on would be lost. */
static void must_write(bool is_done) {
    must(is_done ? TG_DONE : TG_OUT_OF_MEMORY, "writing to the file");
}

static void write_part(enum kind kind, const void *part, size_t size) {
    const struct head head = { kind, size };
    must_write(fwrite(&head, sizeof head, 1, file) == 1 && fwrite(part, size, 1, file) == 1);
}

/* ---- writing */

/* Writes the entry at a place: its record, its numbers and its edges. */
static void write_entry(uint64_t at) {
    uint64_t numbers[MOST_NUMBERS];
    tg_record record;
    tg_target *edges = NULL;
    must(tg_entry(&store, at, &record, numbers, MOST_NUMBERS, NULL, 0), "tg_entry");
    if (record.edge_count > 0) {
        edges = malloc((size_t)record.edge_count * sizeof *edges);
        must(edges == NULL ? TG_OUT_OF_MEMORY : TG_DONE, "the edges of an entry");
        must(tg_entry(&store, at, &record, numbers, MOST_NUMBERS, edges, (size_t)record.edge_count), "tg_entry");
    }
    const size_t number_bytes = (size_t)record.number_count * sizeof *numbers;
    const size_t edge_bytes = (size_t)record.edge_count * sizeof *edges;
    const struct head head = { ENTRY, sizeof record + number_bytes + edge_bytes };
    must_write(fwrite(&head, sizeof head, 1, file) == 1 && fwrite(&record, sizeof record, 1, file) == 1
               && fwrite(numbers, 1, number_bytes, file) == number_bytes
               && (edges == NULL || fwrite(edges, edge_bytes, 1, file) == 1));
    free(edges);
}

void save(void) {
    uint64_t count;
    if (file == NULL || tg_entries(&store, &count) != TG_DONE || count == saved)
        return;
    while (saved < count)
        write_entry(saved++);
    must_write(fflush(file) == 0);
}

static void save_beside(enum kind kind, const struct beside *part) {
    if (file == NULL)
        return;
    write_part(kind, part, sizeof *part);
    must_write(fflush(file) == 0);
}

/* A text that fits into a part, with zeros after it. */
static void put_text(char *to, const char *text) {
    snprintf(to, NAME_ROOM, "%s", text);
}

void save_plugin(const struct plugin *plugin, uint64_t number) {
    struct beside part = { .vertex = plugin->worker, .number = number };
    put_text(part.name, plugin->name);
    save_beside(PLUGIN, &part);
}

void save_object(uint64_t vertex, const char *name, const char *maker) {
    struct beside part = { .vertex = vertex };
    put_text(part.name, name);
    put_text(part.maker, maker);
    save_beside(OBJECT, &part);
}

void save_rule(uint64_t worker, uint64_t right, uint64_t vertex) {
    const struct beside part = { .vertex = vertex, .number = worker, .right = right };
    save_beside(RULE, &part);
}

void save_secret(uint64_t vertex) {
    const struct beside part = { .vertex = vertex };
    save_beside(SECRET, &part);
}

/* ---- going on */

/* A part as it was read. The bytes of an entry are its record, its numbers and its edges. */
struct part {
    struct head head;
    unsigned char *bytes;
};

/* Reads the next part. Returns false at the end of the file, and where the rest of it is less than a part. */
static bool read_part(struct part *part) {
    unsigned char *larger;
    if (fread(&part->head, sizeof part->head, 1, file) != 1 || part->head.size == 0)
        return false;
    larger = realloc(part->bytes, (size_t)part->head.size);
    must(larger == NULL ? TG_OUT_OF_MEMORY : TG_DONE, "a part of the file");
    part->bytes = larger;
    return fread(part->bytes, (size_t)part->head.size, 1, file) == 1;
}

static const struct noted *noted_as(uint64_t worker) {
    for (size_t at = 0; at < noted_count; at++)
        if (noted[at].worker == worker)
            return &noted[at];
    return NULL;
}

static void note(const struct beside *part) {
    struct noted *larger = realloc(noted, (noted_count + 1) * sizeof *noted);
    must(larger == NULL ? TG_OUT_OF_MEMORY : TG_DONE, "one more plug-in of the file");
    noted = larger;
    noted[noted_count] = (struct noted){ .worker = part->vertex, .number = part->number };
    put_text(noted[noted_count++].name, part->name);
}

/* An object gets a name of its own only after the entry that makes it. Between the two the host may have been killed. */
static void keep_unnamed(const tg_record *record) {
    const struct noted *maker = noted_as(record->worker);
    if (record->deed == TG_DEED_CREATE && record->reply == TG_REPLY_NAME) {
        must(make_room() ? TG_DONE : TG_OUT_OF_MEMORY, "room for a resource");
        keep(record->name, "object", maker == NULL ? "the host" : maker->name, record->law == TG_LOG);
    }
}

/* Takes an entry of the file apart, and has the store do it again. */
static void go_on_from_entry(const struct part *part) {
    tg_record record;
    uint64_t numbers[MOST_NUMBERS];
    const size_t size = (size_t)part->head.size;
    must(size < sizeof record ? TG_BAD_VALUES : TG_DONE, "an entry of the file");
    memcpy(&record, part->bytes, sizeof record);
    must(record.number_count > MOST_NUMBERS ? TG_BAD_VALUES : TG_DONE, "an entry of the file");
    const size_t number_bytes = (size_t)record.number_count * sizeof *numbers, edges_at = sizeof record + number_bytes;
    must(size != edges_at + record.edge_count * sizeof(tg_target) ? TG_BAD_VALUES : TG_DONE, "an entry of the file");
    memcpy(numbers, part->bytes + sizeof record, number_bytes);
    /* A record and its numbers have a multiple of 8 bytes, so the edges are in their place. */
    const tg_target *edges = (const tg_target *)(const void *)(part->bytes + edges_at);
    must(tg_resume(&store, saved, &record, numbers, (size_t)record.number_count, edges, (size_t)record.edge_count), "tg_resume");
    saved++;
    keep_unnamed(&record);
}

static void go_on_from_beside(const struct part *part, uint64_t *secret) {
    struct beside it;
    must(part->head.size != sizeof it ? TG_BAD_VALUES : TG_DONE, "a part of the file");
    memcpy(&it, part->bytes, sizeof it);
    switch (part->head.kind) {
    case PLUGIN: note(&it); break;
    case OBJECT: rename_object(it.vertex, it.name, it.maker); break;
    case RULE: never(it.number, it.right, it.vertex); break;
    case SECRET: *secret = it.vertex; break;
    default: must(TG_BAD_VALUES, "a part of the file");
    }
}

/* Reads the file to its last whole part, and cuts off what comes after that. Returns the secret of the file, or NONE. */
static uint64_t read_file(void) {
    struct part part = { { 0, 0 }, NULL };
    uint64_t secret = NONE;
    long whole = 0;
    for (; read_part(&part); whole = ftell(file)) {
        if (part.head.kind == ENTRY)
            go_on_from_entry(&part);
        else
            go_on_from_beside(&part, &secret);
        audit();
        if (saved % SWEEP == 0)
            collect();
    }
    free(part.bytes);
    must_write(fseek(file, whole, SEEK_SET) == 0 && ftruncate(fileno(file), whole) == 0);
    return secret;
}

/* Workers that the file knows as no plug-in leave. Rules about workers that have left are forgotten. */
static void end_unknown(void) {
    uint64_t names[MOST_PLUGINS + 1], count, edges;
    must(tg_subjects(&store, names, MOST_PLUGINS + 1, &count), "tg_subjects");
    for (size_t at = 0; at < noted_count; at++)
        if (!is_worker(noted[at].worker))
            forget_rules(noted[at].worker);
    for (uint64_t at = 0; at < count; at++)
        if (names[at] != HOST && noted_as(names[at]) == NULL)
            done(tg_leave(&store, names[at], &edges), "tg_leave");
}

bool is_worker(uint64_t vertex) {
    uint64_t names[MOST_PLUGINS + 1], count;
    bool is_found = false;
    must(tg_subjects(&store, names, MOST_PLUGINS + 1, &count), "tg_subjects");
    for (uint64_t at = 0; at < count; at++)
        is_found = is_found || names[at] == vertex;
    return is_found;
}

uint64_t open_file(const char *name) {
    uint64_t secret;
    file = fopen(name, "r+b");
    if (file == NULL)
        file = fopen(name, "w+b");
    must_write(file != NULL);
    secret = read_file();
    if (saved == 0)
        return NONE;
    printf("host: goes on from its file\n");
    end_unknown();
    return secret;
}

bool is_in_file(const char *name) {
    for (size_t at = 0; at < noted_count; at++)
        if (strcmp(noted[at].name, name) == 0)
            return true;
    return false;
}

void start_again(const char *folder) {
    char script[FILE_ROOM];
    for (size_t at = 0; at < noted_count; at++) {
        snprintf(script, sizeof script, "%s/%s.lua", folder, noted[at].name);
        if (is_worker(noted[at].worker))
            restart_plugin(noted[at].name, script, noted[at].number, noted[at].worker);
    }
}

void tidy_host(uint64_t secret) {
    const uint64_t count = row_of(HOST, NULL, 0);
    tg_target *row = malloc((size_t)count * sizeof *row + 1);
    must(row == NULL ? TG_OUT_OF_MEMORY : TG_DONE, "the host's edges");
    row_of(HOST, row, (size_t)count);
    for (uint64_t at = 0; at < count; at++) {
        const uint64_t kept = row[at].to == secret ? TG_READ : is_worker(row[at].to) ? TG_TAKE | TG_GRANT : 0;
        if ((row[at].rights & ~kept) != 0)
            done(tg_remove(&store, HOST, row[at].to, row[at].rights & ~kept, NULL), "tg_remove");
    }
    free(row);
}

uint64_t row_of(uint64_t worker, tg_target *row, size_t room) {
    uint64_t count;
    done(tg_list(&store, worker, row, room, &count), "tg_list");
    return count;
}

void end_file(const char *name) {
    must_write(fclose(file) == 0 && remove(name) == 0);
    file = NULL;
    free(noted);
    noted = NULL;
}
