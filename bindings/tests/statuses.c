/* Each export and each status that C can meet, and that a refused call writes to no out parameter. */
#include "kovshenul.h"
#include <stdio.h>
#include <stdlib.h>
#include <string.h>

#define WANT(it)                                                                                                       \
    do {                                                                                                               \
        if (!(it)) {                                                                                                   \
            fprintf(stderr, "statuses: line %d: %s\n", __LINE__, #it);                                                \
            exit(1);                                                                                                   \
        }                                                                                                              \
    } while (0)

enum { UNTOUCHED = 99 };

static const tg_value cell = { TG_CELL, 0, 7 };
static const tg_value sum = { TG_SUM, 0, 40 };
static const tg_value greatest = { TG_MAX, 0, 5 };
static const tg_value last_two = { TG_LOG, 2, 0 };
static const tg_value workers[2] = { { TG_CELL, 0, 0 }, { TG_CELL, 0, 0 } };
static const tg_edge edges[2] = { { 0, 1, TG_TAKE | TG_GRANT }, { 1, 0, TG_GRANT } };
static const tg_limits limits = { 12, 8, 4 };

static uint64_t number = UNTOUCHED;
static uint64_t numbers[64];
static tg_denial why = { UNTOUCHED, UNTOUCHED, UNTOUCHED, UNTOUCHED, UNTOUCHED };

static int is_untouched(void) {
    return number == UNTOUCHED && why.rule == UNTOUCHED && why.cause == UNTOUCHED && why.from == UNTOUCHED
        && why.to == UNTOUCHED && why.rights == UNTOUCHED;
}

/* Whether the call for an entry is refused by this status, and writes nothing. */
static int is_no_entry(tg_store *store, uint64_t at, tg_status status) {
    tg_record entry, before;
    uint64_t room[1] = { UNTOUCHED };
    tg_target row[1] = { { UNTOUCHED, UNTOUCHED } };
    memset(&entry, UNTOUCHED, sizeof entry);
    before = entry;
    return tg_entry(store, at, &entry, room, 1, row, 1) == status && memcmp(&entry, &before, sizeof entry) == 0
        && room[0] == UNTOUCHED && row[0].to == UNTOUCHED && row[0].rights == UNTOUCHED;
}

static void closed(void) {
    tg_store store = TG_STORE_INIT;
    tg_target row[1];
    tg_counts counts;
    WANT(tg_close(&store) == TG_NOT_OPEN);
    WANT(tg_take(&store, 0, 1, 2, TG_READ, &why) == TG_NOT_OPEN);
    WANT(tg_grant(&store, 0, 1, 2, TG_READ, &why) == TG_NOT_OPEN);
    WANT(tg_remove(&store, 0, 1, TG_READ, &why) == TG_NOT_OPEN);
    WANT(tg_write(&store, 0, 1, 2, &why) == TG_NOT_OPEN);
    WANT(tg_append(&store, 0, 1, 2, &why) == TG_NOT_OPEN);
    WANT(tg_create(&store, 0, TG_READ, &cell, &number) == TG_NOT_OPEN);
    WANT(tg_spawn(&store, 0, TG_READ, &cell, &number) == TG_NOT_OPEN);
    WANT(tg_retire(&store, 0) == TG_NOT_OPEN);
    WANT(tg_subjects(&store, numbers, 64, &number) == TG_NOT_OPEN);
    WANT(tg_read(&store, 0, 1, numbers, 64, &number, &why) == TG_NOT_OPEN);
    WANT(tg_list(&store, 0, row, 1, &number) == TG_NOT_OPEN);
    WANT(tg_inspect(&store, 0, 1, row, 1, &number, &why) == TG_NOT_OPEN);
    WANT(tg_label(&store, 0, 1, &number) == TG_NOT_OPEN);
    WANT(tg_collect(&store, TG_FULL, &number) == TG_NOT_OPEN);
    WANT(tg_apply_all(&store, 0, NULL, 0, NULL, 0, &number, &number) == TG_NOT_OPEN);
    WANT(tg_census(&store, &counts) == TG_NOT_OPEN);
    WANT(tg_names(&store, numbers, 64, &number) == TG_NOT_OPEN);
    WANT(tg_entries(&store, &number) == TG_NOT_OPEN);
    WANT(is_no_entry(&store, 0, TG_NOT_OPEN));
    WANT(tg_first(&store, &number) == TG_NOT_OPEN);
    WANT(tg_forget(&store, 0) == TG_NOT_OPEN);
    WANT(tg_audit(&store, &number) == TG_NOT_OPEN);
    WANT(is_untouched() && !store.is_open && store.handle.at == NULL);
}

/* A closed auditor, and an open auditor that is fed by a closed store. Nothing happens. */
static void closed_auditors(void) {
    tg_store store = TG_STORE_INIT;
    tg_auditor auditor = TG_AUDITOR_INIT;
    uint64_t at = UNTOUCHED;
    WANT(tg_auditor_close(&auditor) == TG_NOT_OPEN);
    WANT(tg_auditor_feed(&auditor, &store, &number) == TG_NOT_OPEN);
    WANT(tg_auditor_at(&auditor, &number) == TG_NOT_OPEN);
    WANT(tg_auditor_forget(&auditor, &store, 0) == TG_NOT_OPEN);
    WANT(tg_auditor_sweep(&auditor) == TG_NOT_OPEN);
    WANT(!auditor.is_open && auditor.handle.at == NULL);
    WANT(tg_auditor_open(&auditor, NULL, 0, NULL, 0, &limits) == TG_BAD_WORKERS && !auditor.is_open);
    WANT(tg_auditor_open(&auditor, workers, 2, NULL, 0, &limits) == TG_DONE && auditor.is_open);
    WANT(tg_auditor_open(&auditor, workers, 2, NULL, 0, &limits) == TG_ALREADY_OPEN);
    WANT(tg_auditor_feed(&auditor, &store, &number) == TG_NOT_OPEN);
    WANT(tg_auditor_forget(&auditor, &store, 0) == TG_NOT_OPEN);
    WANT(tg_auditor_forget(&auditor, &store, 1) == TG_NOT_AUDITED);
    WANT(tg_auditor_at(&auditor, &at) == TG_DONE && at == 0);
    WANT(tg_auditor_close(&auditor) == TG_DONE && !auditor.is_open && auditor.handle.at == NULL);
    WANT(is_untouched() && !store.is_open);
}

/* No items may be NULL: of an opening, a read, a list, an inspect, names, subjects and an entry. */
static void no_items(void) {
    tg_store store = TG_STORE_INIT;
    uint64_t count = UNTOUCHED, name;
    tg_record entry;
    WANT(tg_open(&store, NULL, 0, NULL, 0, &limits) == TG_BAD_WORKERS && !store.is_open);
    WANT(tg_open(&store, workers, 2, NULL, 0, &limits) == TG_DONE);
    WANT(tg_list(&store, 0, NULL, 0, &count) == TG_DONE && count == 0);
    WANT(tg_create(&store, 0, TG_READ | TG_INSPECT, &cell, &name) == TG_DONE);
    WANT(tg_list(&store, 0, NULL, 0, &count) == TG_DONE && count == 1);
    WANT(tg_read(&store, 0, name, NULL, 0, &count, &why) == TG_DONE && count == 1);
    WANT(tg_inspect(&store, 0, name, NULL, 0, &count, &why) == TG_DONE && count == 0);
    WANT(tg_names(&store, NULL, 0, &count) == TG_DONE && count == 3);
    WANT(tg_subjects(&store, NULL, 0, &count) == TG_DONE && count == 2);
    WANT(tg_entries(&store, &count) == TG_DONE && count == 5);
    WANT(tg_entry(&store, 2, &entry, NULL, 0, NULL, 0) == TG_DONE && entry.deed == TG_DEED_LIST && entry.edge_count == 1);
    WANT(tg_entry(&store, 3, &entry, NULL, 0, NULL, 0) == TG_DONE && entry.deed == TG_DEED_READ && entry.number_count == 1);
    WANT(tg_close(&store) == TG_DONE);
    WANT(is_untouched());
}

/* Each status has a text of its own, and no other number has one. */
static void texts(void) {
    static const tg_status known[] = {
        TG_DONE, TG_DENIED, TG_NOT_OPEN, TG_ALREADY_OPEN, TG_OUT_OF_MEMORY, TG_HEAP_FULL, TG_VERTICES_FULL, TG_WORKERS_FULL,
        TG_NO_SUCH_WORKER, TG_IN_USE,
        TG_BAD_RIGHTS, TG_BAD_LAW, TG_BAD_KIND, TG_BAD_WORKERS, TG_BAD_LIMITS, TG_BAD_EDGE, TG_BAD_VALUES, TG_BAD_ENTRY,
        TG_BAD_PLACE, TG_NOT_WHOLE, TG_NOT_AUDITED
    };
    const size_t count = sizeof known / sizeof *known;
    const char *unknown = tg_status_text(UINT32_MAX);
    size_t told = 0;
    for (tg_status status = 0; status < 1000; status++)
        told += strcmp(tg_status_text(status), unknown) != 0;
    WANT(told == count);
    for (size_t i = 0; i < count; i++)
        for (size_t k = 0; k < i; k++)
            WANT(strcmp(tg_status_text(known[i]), tg_status_text(known[k])) != 0);
    WANT(strlen(tg_version()) >= 5);
}

/* That the text of a denial is this one, and is cut where there is less room. */
static void is_told(tg_denial denial, const char *wanted) {
    const size_t length = strlen(wanted);
    char text[96];
    WANT(length < 80);
    for (size_t room = 0; room < sizeof text; room++) {
        const size_t kept = room == 0 ? 0 : length < room ? length : room - 1;
        memset(text, UNTOUCHED, sizeof text);
        WANT(tg_denial_text(&denial, text, room) == length);
        WANT(memcmp(text, wanted, kept) == 0 && (room == 0 || text[kept] == '\0'));
        for (size_t i = room == 0 ? 0 : kept + 1; i < sizeof text; i++)
            WANT(text[i] == UNTOUCHED);
    }
    WANT(tg_denial_text(&denial, NULL, 0) == length);
}

static void texts_of_denials(void) {
    is_told((tg_denial){ TG_RULE_WRITE, TG_MISSING, 1, 2, TG_WRITE }, "write: w is missing on 1->2");
    is_told((tg_denial){ TG_RULE_INSPECT, TG_MISSING, UINT64_MAX, UINT64_MAX, 255 },
            "inspect: rwtgaluv is missing on 18446744073709551615->18446744073709551615");
    is_told((tg_denial){ TG_RULE_GRANT, TG_MISSING, 0, 10, TG_READ | TG_FREE_V }, "grant: rv is missing on 0->10");
    is_told((tg_denial){ TG_RULE_TAKE, TG_NOT_DISTINCT, 0, 0, 0 }, "take: two vertices that must differ are one");
    is_told((tg_denial){ TG_RULE_REMOVE, TG_NOT_DISTINCT, 0, 0, 0 }, "remove: two vertices that must differ are one");
    is_told((tg_denial){ TG_RULE_READ, TG_NOT_DISTINCT, 0, 0, 0 }, "read: two vertices that must differ are one");
    is_told((tg_denial){ TG_RULE_APPEND, TG_NOT_LOG, 0, 0, 0 }, "append: the target stores no log");
    is_told((tg_denial){ 7, 3, 0, 0, 0 }, "unknown rule: unknown cause");
}

/* Each set of rights has letters, which are read back. No other text is read, because each of three letters is looked at. */
static void letters_of_rights(void) {
    static const char letters[] = "rwtgaluvRx ";
    const size_t count = sizeof letters;    /* with the 0, so that shorter ones are among them */
    uint64_t rights = UNTOUCHED;
    char text[9], again[9];
    size_t read = 0;
    for (uint64_t bits = 1; bits < 256; bits++) {
        const size_t length = tg_rights_text(bits, text, sizeof text);
        WANT(length < sizeof text && strlen(text) == length);
        WANT(tg_rights_read(text, &rights) == TG_DONE && rights == bits);
    }
    WANT(strcmp(text, "rwtgaluv") == 0 && tg_rights_text(255, NULL, 0) == 8);
    WANT(tg_rights_text(0, text, sizeof text) == 0 && text[0] == '\0');
    WANT(tg_rights_text(~(uint64_t)254, text, 2) == 1 && strcmp(text, "r") == 0);
    for (size_t i = 0; i < count * count * count; i++) {
        const char said[4] = { letters[i / count / count], letters[i / count % count], letters[i % count], '\0' };
        rights = UNTOUCHED;
        if (tg_rights_read(said, &rights) == TG_DONE) {
            WANT(tg_rights_text(rights, again, sizeof again) > 0 && strcmp(again, said) == 0);
            read++;
        } else
            WANT(tg_rights_read(said, &rights) == TG_BAD_RIGHTS && rights == UNTOUCHED);
    }
    /* Texts of one letter, which any of 12 may follow after the 0, of two letters, which one may follow, and of three. */
    WANT(read == 8 * count + 28 + 56);
    WANT(tg_rights_read("rwtgaluvv", &rights) == TG_BAD_RIGHTS && tg_rights_read("", &rights) == TG_BAD_RIGHTS);
}

/* A denial that isn't needed may be NULL, and the journal has it all the same. The limits to start with are accepted. */
static void unwanted_denials(void) {
    static const tg_limits start = TG_LIMITS_INIT;
    tg_store store = TG_STORE_INIT;
    uint64_t count = UNTOUCHED;
    tg_target row[1];
    tg_record entry;
    WANT(tg_open(&store, workers, 2, NULL, 0, &start) == TG_DONE);
    WANT(tg_take(&store, 0, 1, 2, TG_READ, NULL) == TG_DENIED);
    WANT(tg_grant(&store, 0, 1, 2, TG_READ, NULL) == TG_DENIED);
    WANT(tg_remove(&store, 0, 1, TG_READ, NULL) == TG_DENIED);
    WANT(tg_write(&store, 0, 1, 2, NULL) == TG_DENIED);
    WANT(tg_append(&store, 0, 1, 2, NULL) == TG_DENIED);
    WANT(tg_read(&store, 0, 1, numbers, 64, &count, NULL) == TG_DENIED);
    WANT(tg_inspect(&store, 0, 1, row, 1, &count, NULL) == TG_DENIED && count == UNTOUCHED);
    for (uint64_t at = 0; at < 7; at++)
        WANT(tg_entry(&store, at, &entry, NULL, 0, NULL, 0) == TG_DONE && entry.reply == TG_REPLY_DENIED);
    WANT(entry.denial.rule == TG_RULE_INSPECT && entry.denial.cause == TG_MISSING && entry.denial.rights == TG_INSPECT);
    WANT(tg_take(&store, 5, 1, 2, TG_READ, NULL) == TG_NO_SUCH_WORKER);
    WANT(tg_close(&store) == TG_DONE);
}

/* One opening that must be refused, of a store and of an auditor. */
static void refused(tg_status status, const tg_value *values, size_t count, tg_edge edge, tg_limits bounds) {
    tg_store store = TG_STORE_INIT;
    tg_auditor auditor = TG_AUDITOR_INIT;
    WANT(tg_open(&store, values, count, &edge, 1, &bounds) == status);
    WANT(!store.is_open && store.handle.at == NULL);
    WANT(tg_auditor_open(&auditor, values, count, &edge, 1, &bounds) == status);
    WANT(!auditor.is_open && auditor.handle.at == NULL);
}

static void openings(void) {
    static tg_value many[65];
    const tg_edge edge = { 0, 1, TG_GRANT };
    const tg_value bad[2] = { { TG_CELL, 0, 0 }, { 4, 0, 0 } };
    const tg_value none_kept[2] = { { TG_LOG, 0, 0 }, { TG_CELL, 0, 0 } };
    const tg_value most_kept[2] = { { TG_LOG, 65, 0 }, { TG_CELL, 0, 0 } };
    refused(TG_BAD_LAW, bad, 2, edge, limits);
    refused(TG_BAD_LAW, none_kept, 2, edge, limits);
    refused(TG_BAD_LAW, most_kept, 2, edge, limits);
    refused(TG_BAD_RIGHTS, workers, 2, (tg_edge){ 0, 1, 256 }, limits);
    refused(TG_BAD_RIGHTS, workers, 2, (tg_edge){ 0, 1, 0 }, limits);
    refused(TG_BAD_WORKERS, workers, 0, edge, limits);
    refused(TG_BAD_WORKERS, many, 65, edge, (tg_limits){ 100, 100, 100 });
    refused(TG_BAD_LIMITS, workers, 2, edge, (tg_limits){ 1, 8, 4 });
    refused(TG_BAD_LIMITS, workers, 2, edge, (tg_limits){ 12, 0, 4 });
    refused(TG_BAD_LIMITS, workers, 2, edge, (tg_limits){ 12, 1048577, 4 });
    refused(TG_BAD_LIMITS, workers, 2, edge, (tg_limits){ 12, 8, 0 });
    refused(TG_BAD_LIMITS, workers, 2, edge, (tg_limits){ 12, 8, 1048577 });
    refused(TG_BAD_EDGE, workers, 2, (tg_edge){ 0, 0, TG_READ }, limits);
    refused(TG_BAD_EDGE, workers, 2, (tg_edge){ 0, 2, TG_READ }, limits);
    refused(TG_HEAP_FULL, workers, 2, edge, (tg_limits){ 12, 1, 4 });
}

/* As many names and blocks as may be: none of them takes memory before it is used. */
static void greatest_limits(void) {
    static const tg_limits greatest = { (uint64_t)1 << 48, 1048576, 1048576 };
    const tg_edge edge = { 0, 1, TG_GRANT };
    tg_store store = TG_STORE_INIT;
    tg_auditor auditor = TG_AUDITOR_INIT;
    uint64_t document = UNTOUCHED, left = UNTOUCHED;
    WANT(tg_open(&store, workers, 2, &edge, 1, &greatest) == TG_DONE);
    WANT(tg_auditor_open(&auditor, workers, 2, &edge, 1, &greatest) == TG_DONE);
    WANT(tg_create(&store, 1, TG_READ, &workers[0], &document) == TG_DONE && document == 2);
    WANT(tg_collect(&store, TG_FULL, &left) == TG_DONE && left == 3);
    WANT(tg_close(&store) == TG_DONE && tg_auditor_close(&auditor) == TG_DONE);
}

/* If there are several faults, the first is returned. Each of these calls has the next fault too. */
static void first_faults(void) {
    const tg_value bad[2] = { { TG_CELL, 0, 0 }, { 4, 0, 0 } };
    const tg_limits none = { 0, 0, 0 };
    refused(TG_BAD_LAW, bad, 2, (tg_edge){ 0, 0, 256 }, none);
    refused(TG_BAD_RIGHTS, workers, 0, (tg_edge){ 0, 0, 256 }, none);
    refused(TG_BAD_WORKERS, workers, 0, (tg_edge){ 0, 0, TG_READ }, none);
    refused(TG_BAD_LIMITS, workers, 2, (tg_edge){ 0, 0, TG_READ }, none);
    refused(TG_BAD_EDGE, workers, 2, (tg_edge){ 0, 0, TG_READ }, (tg_limits){ 12, 0, 0 });
    refused(TG_BAD_LIMITS, workers, 2, (tg_edge){ 0, 1, TG_READ }, (tg_limits){ 12, 1, 0 });
}

static void bad_requests(tg_store *store) {
    const tg_value bad = { 7, 0, 0 };
    tg_target row[1];
    WANT(tg_open(store, workers, 2, edges, 2, &limits) == TG_ALREADY_OPEN);
    WANT(tg_create(store, 0, TG_READ, &bad, &number) == TG_BAD_LAW);
    WANT(tg_create(store, 0, 0, &sum, &number) == TG_BAD_RIGHTS);
    WANT(tg_create(store, 0, 1u << 30, &sum, &number) == TG_BAD_RIGHTS);
    WANT(tg_create(store, 2, TG_READ, &sum, &number) == TG_NO_SUCH_WORKER);
    WANT(tg_create(store, 0, 256, &sum, &number) == TG_BAD_RIGHTS);
    WANT(tg_spawn(store, 0, TG_READ, &bad, &number) == TG_BAD_LAW);
    WANT(tg_spawn(store, 0, 0, &bad, &number) == TG_BAD_RIGHTS);
    WANT(tg_spawn(store, 2, 256, &sum, &number) == TG_BAD_RIGHTS);
    WANT(tg_spawn(store, 2, TG_READ, &sum, &number) == TG_NO_SUCH_WORKER);
    WANT(tg_retire(store, 2) == TG_NO_SUCH_WORKER);
    WANT(tg_retire(store, UINT64_MAX) == TG_NO_SUCH_WORKER);
    WANT(tg_take(store, 0, 1, 2, 256, &why) == TG_BAD_RIGHTS);
    WANT(tg_take(store, 0, 1, 2, 0, &why) == TG_BAD_RIGHTS);
    WANT(tg_grant(store, 0, 1, 2, UINT64_MAX, &why) == TG_BAD_RIGHTS);
    WANT(tg_grant(store, 0, 1, 2, 0, &why) == TG_BAD_RIGHTS);
    WANT(tg_remove(store, 0, 1, 256 | TG_READ, &why) == TG_BAD_RIGHTS);
    WANT(tg_remove(store, 0, 1, 0, &why) == TG_BAD_RIGHTS);
    WANT(tg_write(store, 5, 0, 2, &why) == TG_NO_SUCH_WORKER);
    WANT(tg_append(store, 5, 0, 2, &why) == TG_NO_SUCH_WORKER);
    WANT(tg_read(store, 5, 0, numbers, 64, &number, &why) == TG_NO_SUCH_WORKER);
    WANT(tg_list(store, 5, row, 1, &number) == TG_NO_SUCH_WORKER);
    WANT(tg_inspect(store, 5, 0, row, 1, &number, &why) == TG_NO_SUCH_WORKER);
    WANT(tg_label(store, 2, 1, &number) == TG_NO_SUCH_WORKER);
    WANT(tg_collect(store, 2, &number) == TG_BAD_KIND);
    WANT(is_untouched());
    WANT(tg_entries(store, &number) == TG_DONE && number == 0);
}

static void rules(tg_store *store) {
    WANT(tg_create(store, 0, TG_READ | TG_WRITE, &sum, &number) == TG_DONE && number == 2);
    WANT(tg_take(store, 0, 1, 2, TG_READ, &why) == TG_DENIED);
    WANT(why.rule == TG_RULE_TAKE && why.cause == TG_MISSING && why.from == 1 && why.to == 2 && why.rights == TG_READ);
    WANT(tg_grant(store, 0, 1, 2, TG_READ, &why) == TG_DONE);
    WANT(tg_take(store, 0, 1, 2, TG_READ, &why) == TG_DONE);
    WANT(tg_take(store, 0, 0, 2, TG_READ, &why) == TG_DENIED && why.cause == TG_NOT_DISTINCT && why.rule == TG_RULE_TAKE);
    WANT(why.from == 0 && why.to == 0 && why.rights == 0);
    WANT(tg_grant(store, 1, 0, 2, TG_WRITE, &why) == TG_DENIED && why.rule == TG_RULE_GRANT && why.rights == TG_WRITE);
    WANT(tg_remove(store, 1, 2, TG_WRITE, &why) == TG_DENIED && why.rule == TG_RULE_REMOVE);
    WANT(tg_write(store, 1, 2, 9, &why) == TG_DENIED && why.rule == TG_RULE_WRITE);
    WANT(tg_read(store, 1, 0, numbers, 64, &number, &why) == TG_DENIED && why.rule == TG_RULE_READ);
    WANT(tg_entries(store, &number) == TG_DONE && number == 9);
}

/* The rights that a worker holds are asked without an entry. It holds nothing over itself, over a vertex that was never made, or
   over a worker that only the other worker holds rights over. */
static void labels(tg_store *store) {
    uint64_t rights, entries, count;
    WANT(tg_entries(store, &entries) == TG_DONE);
    WANT(tg_label(store, 0, 2, &rights) == TG_DONE && rights == (TG_READ | TG_WRITE));
    WANT(tg_label(store, 1, 2, &rights) == TG_DONE && rights == TG_READ);
    WANT(tg_label(store, 0, 1, &rights) == TG_DONE && rights == (TG_TAKE | TG_GRANT));
    WANT(tg_label(store, 1, 0, &rights) == TG_DONE && rights == TG_GRANT);
    WANT(tg_label(store, 0, 0, &rights) == TG_DONE && rights == 0);
    WANT(tg_label(store, 0, UINT64_MAX, &rights) == TG_DONE && rights == 0);
    WANT(tg_entries(store, &count) == TG_DONE && count == entries);
}

static void laws(tg_store *store) {
    uint64_t log, most, count;
    WANT(tg_write(store, 0, 2, UINT64_MAX, &why) == TG_DONE);
    WANT(tg_read(store, 1, 2, numbers, 64, &count, &why) == TG_DONE && count == 1 && numbers[0] == 39);
    WANT(tg_create(store, 0, TG_READ | TG_WRITE, &last_two, &log) == TG_DONE && log == 3);
    WANT(tg_read(store, 0, log, numbers, 64, &count, &why) == TG_DONE && count == 0 && numbers[0] == 39);
    for (uint64_t i = 0; i < 5; i++)
        WANT(tg_write(store, 0, log, i, &why) == TG_DONE);
    numbers[1] = UNTOUCHED;
    WANT(tg_read(store, 0, log, numbers, 1, &count, &why) == TG_DONE && count == 2);
    WANT(numbers[0] == 3 && numbers[1] == UNTOUCHED);
    WANT(tg_create(store, 0, TG_READ | TG_WRITE, &greatest, &most) == TG_DONE && most == 4);
    WANT(tg_write(store, 0, most, 3, &why) == TG_DONE);
    WANT(tg_read(store, 0, most, numbers, 64, &count, &why) == TG_DONE && numbers[0] == 5);
}

/* The heap has the vertices below this number, each of which is named once, in any order. After the names the room is as it was.
   With too little room as many are named as fit, and all are counted. */
static void names_below(tg_store *store, uint64_t vertices) {
    uint64_t seen = 0, count;
    numbers[vertices] = UNTOUCHED;
    WANT(tg_names(store, numbers, 64, &count) == TG_DONE && count == vertices && numbers[vertices] == UNTOUCHED);
    for (uint64_t i = 0; i < count; i++) {
        WANT(numbers[i] < vertices && (seen >> numbers[i] & 1) == 0);
        seen |= (uint64_t)1 << numbers[i];
    }
    numbers[0] = numbers[1] = UNTOUCHED;
    WANT(tg_names(store, numbers, 1, &count) == TG_DONE && count == vertices);
    WANT(numbers[0] < vertices && numbers[1] == UNTOUCHED);
    numbers[0] = UNTOUCHED;
    WANT(tg_names(store, numbers, 0, &count) == TG_DONE && count == vertices && numbers[0] == UNTOUCHED);
}

static void counts(tg_store *store) {
    tg_target row[4] = { { 0, 0 }, { 0, 0 }, { 0, 0 }, { UNTOUCHED, UNTOUCHED } };
    tg_counts has, had;
    uint64_t left, entries, count;
    WANT(tg_list(store, 0, row, 3, &count) == TG_DONE && count == 4);
    WANT(row[0].to == 1 && row[0].rights == (TG_TAKE | TG_GRANT));
    WANT(row[1].to == 2 && row[1].rights == (TG_READ | TG_WRITE));
    WANT(row[2].to == 3 && row[3].to == UNTOUCHED && row[3].rights == UNTOUCHED);
    WANT(tg_remove(store, 0, 4, TG_READ | TG_WRITE, &why) == TG_DONE);
    WANT(tg_census(store, &had) == TG_DONE && had.vertices == 5 && had.payloads == 5);
    names_below(store, 5);
    WANT(tg_collect(store, TG_NURSERY, &left) == TG_DONE && left >= 4);
    WANT(tg_collect(store, TG_FULL, &left) == TG_DONE && left == 4);
    WANT(tg_collect(store, 2, &left) == TG_BAD_KIND);
    WANT(tg_census(store, &has) == TG_DONE && has.vertices == 4 && has.payloads == 4 && has.blocks >= 1);
    WANT(has.nursery_collections == had.nursery_collections + 1 && has.full_collections == had.full_collections + 1);
    names_below(store, 4);
    WANT(tg_label(store, 0, 4, &left) == TG_DONE && left == 0);
    for (uint64_t i = 5; i < limits.max_vertices; i++)
        WANT(tg_create(store, 1, TG_READ, &cell, &count) == TG_DONE && count == i);
    WANT(tg_entries(store, &entries) == TG_DONE);
    number = UNTOUCHED;
    WANT(tg_create(store, 1, TG_READ, &cell, &number) == TG_VERTICES_FULL && number == UNTOUCHED);
    WANT(tg_spawn(store, 1, TG_READ, &cell, &number) == TG_VERTICES_FULL && number == UNTOUCHED);
    WANT(tg_audit(store, &count) == TG_DONE && count == entries + 2);
    WANT(tg_census(store, &had) == TG_DONE && had.entries == entries + 2 && had.held == entries + 2 && had.vertices_full == 2);
    WANT(tg_write(store, 0, 1, 1, &why) == TG_DENIED && tg_write(store, 9, 1, 1, &why) == TG_NO_SUCH_WORKER);
    WANT(tg_census(store, &has) == TG_DONE && has.entries == had.entries + 1 && has.held == had.held + 1 && has.denied == had.denied + 1);
    WANT(has.vertices_full == had.vertices_full && has.workers_full == had.workers_full);
}

/* Whether a command was denied by the rule, and for this. */
static int is_denied(tg_status status, uint32_t rule, uint32_t cause, uint64_t from, uint64_t to, uint64_t rights) {
    return status == TG_DENIED && why.rule == rule && why.cause == cause && why.from == from && why.to == to && why.rights == rights;
}

/* Appends: done, and denied for each of the causes. A worker never learns the law of a vertex to which it has no right to append.
   A write to a log needs its own right. */
static void appends(tg_store *store, uint64_t log, uint64_t other) {
    uint64_t count;
    for (uint64_t i = 0; i < 3; i++)
        WANT(tg_append(store, 1, log, i, &why) == TG_DONE);
    WANT(tg_read(store, 1, log, numbers, 64, &count, &why) == TG_DONE && count == 2 && numbers[0] == 1 && numbers[1] == 2);
    WANT(is_denied(tg_append(store, 1, 1, 9, &why), TG_RULE_APPEND, TG_NOT_DISTINCT, 0, 0, 0));
    WANT(is_denied(tg_append(store, 0, log, 9, &why), TG_RULE_APPEND, TG_MISSING, 0, log, TG_APPEND));
    WANT(is_denied(tg_append(store, 0, other, 9, &why), TG_RULE_APPEND, TG_MISSING, 0, other, TG_APPEND));
    WANT(is_denied(tg_append(store, 1, 11, 9, &why), TG_RULE_APPEND, TG_MISSING, 1, 11, TG_APPEND));
    WANT(is_denied(tg_append(store, 1, other, 9, &why), TG_RULE_APPEND, TG_NOT_LOG, 0, 0, 0));
    WANT(is_denied(tg_write(store, 1, log, 9, &why), TG_RULE_WRITE, TG_MISSING, 1, log, TG_WRITE));
    WANT(tg_read(store, 1, other, numbers, 64, &count, &why) == TG_DONE && count == 1 && numbers[0] == 40);
}

/* Inspects: the target's edges and not the worker's, as many as there is room for, and denied, which writes to the denial alone. */
static void inspects(tg_store *store, uint64_t log, uint64_t other) {
    tg_target row[4] = { { 0, 0 }, { 0, 0 }, { UNTOUCHED, UNTOUCHED }, { UNTOUCHED, UNTOUCHED } };
    uint64_t count = UNTOUCHED;
    WANT(is_denied(tg_inspect(store, 1, 0, row + 2, 2, &count, &why), TG_RULE_INSPECT, TG_MISSING, 1, 0, TG_INSPECT));
    WANT(is_denied(tg_inspect(store, 0, 0, row + 2, 2, &count, &why), TG_RULE_INSPECT, TG_NOT_DISTINCT, 0, 0, 0));
    WANT(count == UNTOUCHED && row[2].to == UNTOUCHED && row[2].rights == UNTOUCHED);
    WANT(tg_inspect(store, 0, 1, row, 2, &count, &why) == TG_DONE && count == 3);
    WANT(row[0].to == 0 && row[0].rights == (TG_FREE_U | TG_FREE_V));
    WANT(row[1].to == log && row[1].rights == (TG_READ | TG_APPEND));
    WANT(row[2].to == UNTOUCHED && row[2].rights == UNTOUCHED);
    WANT(tg_inspect(store, 0, 1, row, 4, &count, &why) == TG_DONE && count == 3);
    WANT(row[2].to == other && row[2].rights == (TG_READ | TG_APPEND) && row[3].to == UNTOUCHED);
}

static void appends_and_inspects(void) {
    const tg_edge joined[2] = { { 0, 1, TG_INSPECT }, { 1, 0, TG_FREE_U | TG_FREE_V } };
    tg_store store = TG_STORE_INIT;
    uint64_t log, other, entries, count;
    WANT(tg_open(&store, workers, 2, joined, 2, &limits) == TG_DONE);
    WANT(tg_create(&store, 1, TG_READ | TG_APPEND, &last_two, &log) == TG_DONE);
    WANT(tg_create(&store, 1, TG_READ | TG_APPEND, &sum, &other) == TG_DONE);
    appends(&store, log, other);
    inspects(&store, log, other);
    WANT(tg_entries(&store, &entries) == TG_DONE && entries == 17);
    WANT(tg_audit(&store, &count) == TG_DONE && count == entries);
    WANT(tg_close(&store) == TG_DONE);
}

/* All eight rights make the greatest set. Each goes from worker to worker alone, and is given up alone. */
static void all_rights(void) {
    const tg_edge joined = { 0, 1, 255 };
    tg_store store = TG_STORE_INIT;
    uint64_t name, held;
    WANT(tg_open(&store, workers, 2, &joined, 1, &limits) == TG_DONE);
    WANT(tg_label(&store, 0, 1, &held) == TG_DONE && held == 255);
    WANT(tg_create(&store, 0, 255, &cell, &name) == TG_DONE);
    for (uint64_t right = 1; right <= TG_FREE_V; right *= 2) {
        WANT(is_denied(tg_take(&store, 0, 1, name, right, &why), TG_RULE_TAKE, TG_MISSING, 1, name, right));
        WANT(tg_grant(&store, 0, 1, name, right, &why) == TG_DONE);
        WANT(tg_label(&store, 1, name, &held) == TG_DONE && held == 2 * right - 1);
        WANT(tg_remove(&store, 0, name, right, &why) == TG_DONE);
        WANT(tg_label(&store, 0, name, &held) == TG_DONE && held == 255 - right);
        WANT(tg_take(&store, 0, 1, name, right, &why) == TG_DONE);
    }
    WANT(tg_remove(&store, 1, name, 255, &why) == TG_DONE);
    WANT(is_denied(tg_remove(&store, 1, name, 255, &why), TG_RULE_REMOVE, TG_MISSING, 1, name, 255));
    WANT(tg_label(&store, 0, name, &held) == TG_DONE && held == 255);
    WANT(tg_close(&store) == TG_DONE);
}

/* The workers are these, by rising name. After them the room is as it was. With too little room as many are named as fit. */
static void workers_are(tg_store *store, const uint64_t *wanted, uint64_t active) {
    uint64_t room[65], count, entries, after;
    memset(room, UNTOUCHED, sizeof room);
    const uint64_t untouched = room[64];
    WANT(tg_entries(store, &entries) == TG_DONE);
    WANT(tg_subjects(store, room, active - 1, &count) == TG_DONE && count == active && room[active - 1] == untouched);
    WANT(memcmp(room, wanted, (active - 1) * sizeof *room) == 0);
    WANT(tg_subjects(store, room, 65, &count) == TG_DONE && count == active && room[active] == untouched);
    WANT(memcmp(room, wanted, active * sizeof *room) == 0);
    WANT(tg_entries(store, &after) == TG_DONE && after == entries);
}

/* A worker is spawned, is handed a right to read, and retires. Then its name asks for nothing more, and its rights stay while it
   is reached. It is gone when its spawner gives it up, and its name isn't given again. */
static void a_worker_comes_and_goes(void) {
    static const uint64_t both[3] = { 0, 1, 3 }, left[2] = { 0, 3 }, last[2] = { 3, 5 };
    tg_store store = TG_STORE_INIT;
    tg_target row[2];
    uint64_t document, name, count;
    WANT(tg_open(&store, workers, 2, edges, 2, &limits) == TG_DONE);
    WANT(tg_create(&store, 0, TG_READ, &sum, &document) == TG_DONE && document == 2);
    WANT(tg_spawn(&store, 0, TG_GRANT | TG_INSPECT, &greatest, &name) == TG_DONE && name == 3);
    workers_are(&store, both, 3);
    WANT(tg_retire(&store, 1) == TG_DONE);
    WANT(tg_retire(&store, 1) == TG_NO_SUCH_WORKER);
    workers_are(&store, left, 2);
    WANT(tg_grant(&store, 0, 3, document, TG_READ, &why) == TG_DONE);
    WANT(tg_read(&store, 3, document, numbers, 64, &count, &why) == TG_DONE && count == 1 && numbers[0] == 40);
    WANT(tg_spawn(&store, 3, TG_GRANT, &cell, &name) == TG_DONE && name == 4);
    WANT(tg_retire(&store, 4) == TG_DONE);
    WANT(tg_inspect(&store, 0, 3, row, 2, &count, &why) == TG_DONE && count == 2 && row[1].to == 4);
    WANT(tg_collect(&store, TG_FULL, &count) == TG_DONE && count == 5);
    WANT(tg_remove(&store, 3, 4, TG_GRANT, &why) == TG_DONE);
    WANT(tg_collect(&store, TG_FULL, &count) == TG_DONE && count == 4);
    WANT(tg_spawn(&store, 0, TG_GRANT, &cell, &name) == TG_DONE && name == 5);
    WANT(tg_retire(&store, 0) == TG_DONE);
    WANT(tg_label(&store, 0, document, &count) == TG_NO_SUCH_WORKER);
    workers_are(&store, last, 2);
    WANT(tg_audit(&store, &count) == TG_DONE && count == 11);
    WANT(tg_close(&store) == TG_DONE);
}

/* Who leaves holds nothing any more, and each edge that it gave up is an entry. The holders of a right are listed without an
   entry. */
static void a_worker_leaves(void) {
    tg_store store = TG_STORE_INIT;
    tg_record entry;
    uint64_t client, document, names[4] = { UNTOUCHED, UNTOUCHED, UNTOUCHED, UNTOUCHED }, count = UNTOUCHED, entries;
    tg_target to[4] = { { UNTOUCHED, 0 }, { UNTOUCHED, 0 }, { UNTOUCHED, 0 }, { UNTOUCHED, 0 } };
    WANT(tg_leave(&store, 0, &count) == TG_NOT_OPEN && tg_who_holds(&store, TG_READ, 0, names, 4, &count) == TG_NOT_OPEN);
    WANT(tg_edges_to(&store, 0, to, 4, &count) == TG_NOT_OPEN && count == UNTOUCHED && to[0].to == UNTOUCHED);
    WANT(tg_open(&store, workers, 2, edges, 2, &limits) == TG_DONE);
    WANT(tg_spawn(&store, 0, TG_GRANT | TG_TAKE, &sum, &client) == TG_DONE);
    WANT(tg_create(&store, client, TG_READ | TG_WRITE, &sum, &document) == TG_DONE);
    WANT(tg_take(&store, 0, client, document, TG_READ, &why) == TG_DONE);
    WANT(tg_who_holds(&store, TG_READ, document, names, 4, &count) == TG_DONE && count == 2);
    WANT(names[0] == 0 && names[1] == client && names[2] == UNTOUCHED);
    WANT(tg_who_holds(&store, TG_WRITE, document, NULL, 0, &count) == TG_DONE && count == 1);
    WANT(tg_who_holds(&store, TG_WRITE, document + 1, names, 4, &count) == TG_DONE && count == 0);
    count = UNTOUCHED;
    WANT(tg_edges_to(&store, document, to, 4, &count) == TG_DONE && count == 2 && to[0].to == 0 && to[0].rights == TG_READ);
    WANT(to[1].to == client && to[1].rights == (TG_READ | TG_WRITE) && to[2].to == UNTOUCHED);
    WANT(tg_edges_to(&store, document, NULL, 0, &count) == TG_DONE && count == 2);
    WANT(tg_edges_to(&store, document + 1, to, 4, &count) == TG_DONE && count == 0);
    count = UNTOUCHED;
    WANT(tg_who_holds(&store, 0, document, names, 4, &count) == TG_BAD_RIGHTS);
    WANT(tg_who_holds(&store, TG_READ | TG_WRITE, document, names, 4, &count) == TG_BAD_RIGHTS && count == UNTOUCHED);
    WANT(tg_entries(&store, &entries) == TG_DONE && entries == 3);
    WANT(tg_leave(&store, document, &count) == TG_NO_SUCH_WORKER && count == UNTOUCHED);
    WANT(tg_leave(&store, client, &count) == TG_DONE && count == 1);
    WANT(tg_leave(&store, client, &count) == TG_NO_SUCH_WORKER && count == 1);
    WANT(tg_entries(&store, &entries) == TG_DONE && entries == 5);
    WANT(tg_entry(&store, 3, &entry, NULL, 0, NULL, 0) == TG_DONE && entry.deed == TG_DEED_REMOVE && entry.worker == client);
    WANT(tg_entry(&store, 4, &entry, NULL, 0, NULL, 0) == TG_DONE && entry.deed == TG_DEED_RETIRE && entry.worker == client);
    WANT(tg_who_holds(&store, TG_READ, document, names, 4, &count) == TG_DONE && count == 1 && names[0] == 0);
    WANT(tg_who_holds(&store, TG_WRITE, document, names, 4, &count) == TG_DONE && count == 0);
    WANT(tg_audit(&store, &count) == TG_DONE && count == 5);
    WANT(tg_close(&store) == TG_DONE);
}

/* How many entries the store has. */
static uint64_t entries_of(tg_store *store) {
    uint64_t count = UNTOUCHED;
    WANT(tg_entries(store, &count) == TG_DONE);
    return count;
}

/* That the hand is denied, by this rule and on this edge, with one entry. */
static void is_denied_hand(tg_store *store, tg_handing hand, tg_denial wanted) {
    const uint64_t before = entries_of(store);
    uint64_t removed = UNTOUCHED;
    tg_record entry;
    why = (tg_denial){ 99, 99, 99, 99, 99 };
    WANT(tg_hand(store, &hand, &removed, &why) == TG_DENIED && removed == UNTOUCHED && memcmp(&why, &wanted, sizeof why) == 0);
    WANT(entries_of(store) == before + 1 && tg_entry(store, before, &entry, NULL, 0, NULL, 0) == TG_DONE);
    WANT(entry.worker == hand.via && entry.target == hand.target && entry.rights == hand.rights && entry.deed == wanted.rule);
    WANT(entry.via == (wanted.rule == TG_RULE_TAKE ? hand.from : hand.to) && memcmp(&entry.denial, &wanted, sizeof why) == 0);
}

/* A worker hands rights on: one call has the entries of its commands, and a denied one has the denied command alone. */
static void rights_are_handed_on(void) {
    tg_store store = TG_STORE_INIT;
    tg_record entry;
    uint64_t owner, reader, document, rights, count, removed = UNTOUCHED;
    tg_handing hand = { 0, 0, 0, 0, 0 };
    WANT(tg_hand(&store, &hand, &removed, &why) == TG_BAD_RIGHTS);
    hand.rights = 256;
    WANT(tg_hand(&store, &hand, &removed, &why) == TG_BAD_RIGHTS);
    hand.rights = TG_READ;
    WANT(tg_hand(&store, &hand, &removed, &why) == TG_NOT_OPEN && removed == UNTOUCHED);
    WANT(tg_open(&store, workers, 1, NULL, 0, &limits) == TG_DONE && tg_spawn(&store, 0, TG_TAKE, &sum, &owner) == TG_DONE);
    WANT(tg_spawn(&store, 0, TG_GRANT, &sum, &reader) == TG_DONE);
    WANT(tg_create(&store, owner, TG_READ | TG_WRITE, &sum, &document) == TG_DONE);
    hand = (tg_handing){ 0, owner, reader, document, TG_READ | TG_WRITE };
    WANT(tg_hand(&store, &hand, NULL, NULL) == TG_DONE && entries_of(&store) == 6);
    WANT(tg_label(&store, reader, document, &rights) == TG_DONE && rights == (TG_READ | TG_WRITE));
    WANT(tg_label(&store, 0, document, &rights) == TG_DONE && rights == 0);
    WANT(tg_entry(&store, 3, &entry, NULL, 0, NULL, 0) == TG_DONE && entry.deed == TG_DEED_TAKE && entry.via == owner);
    WANT(tg_entry(&store, 4, &entry, NULL, 0, NULL, 0) == TG_DONE && entry.deed == TG_DEED_GRANT && entry.via == reader);
    WANT(tg_entry(&store, 5, &entry, NULL, 0, NULL, 0) == TG_DONE && entry.deed == TG_DEED_REMOVE);
    WANT(entry.worker == 0 && entry.target == document && entry.rights == (TG_READ | TG_WRITE) && entry.reply == TG_REPLY_DONE);
    /* What it holds by itself it keeps. */
    WANT(tg_take(&store, 0, owner, document, TG_READ, &why) == TG_DONE);
    WANT(tg_hand(&store, &hand, &removed, &why) == TG_DONE && entries_of(&store) == 10 && removed == TG_WRITE);
    WANT(tg_entry(&store, 9, &entry, NULL, 0, NULL, 0) == TG_DONE && entry.rights == TG_WRITE);
    hand.rights = TG_READ;
    WANT(tg_hand(&store, &hand, &removed, &why) == TG_DONE && entries_of(&store) == 12 && removed == 0);
    WANT(tg_label(&store, 0, document, &rights) == TG_DONE && rights == TG_READ);
    /* Each check of the take, and then each of the grant. */
    is_denied_hand(&store, (tg_handing){ 0, 0, reader, document, TG_READ }, (tg_denial){ TG_RULE_TAKE, TG_NOT_DISTINCT, 0, 0, 0 });
    is_denied_hand(&store, (tg_handing){ 0, owner, reader, owner, TG_READ }, (tg_denial){ TG_RULE_TAKE, TG_NOT_DISTINCT, 0, 0, 0 });
    is_denied_hand(&store, (tg_handing){ 0, owner, reader, 0, TG_READ }, (tg_denial){ TG_RULE_TAKE, TG_NOT_DISTINCT, 0, 0, 0 });
    is_denied_hand(&store, (tg_handing){ 0, reader, owner, document, TG_READ }, (tg_denial){ TG_RULE_TAKE, TG_MISSING, 0, reader, TG_TAKE });
    is_denied_hand(&store, (tg_handing){ 0, owner, reader, document, TG_READ | TG_APPEND }, (tg_denial){ TG_RULE_TAKE, TG_MISSING, owner, document, TG_APPEND });
    is_denied_hand(&store, (tg_handing){ 0, owner, 0, document, TG_WRITE }, (tg_denial){ TG_RULE_GRANT, TG_NOT_DISTINCT, 0, 0, 0 });
    is_denied_hand(&store, (tg_handing){ 0, owner, document, document, TG_WRITE }, (tg_denial){ TG_RULE_GRANT, TG_NOT_DISTINCT, 0, 0, 0 });
    is_denied_hand(&store, (tg_handing){ 0, owner, owner, document, TG_WRITE }, (tg_denial){ TG_RULE_GRANT, TG_MISSING, 0, owner, TG_GRANT });
    WANT(tg_label(&store, 0, document, &rights) == TG_DONE && rights == TG_READ);
    /* Who retired may still be the giver or the receiver, and hands nothing on. */
    WANT(tg_retire(&store, owner) == TG_DONE && tg_retire(&store, reader) == TG_DONE);
    hand = (tg_handing){ 0, owner, reader, document, TG_WRITE };
    WANT(tg_hand(&store, &hand, &removed, &why) == TG_DONE && removed == TG_WRITE);
    hand.via = owner;
    WANT(tg_hand(&store, &hand, &removed, &why) == TG_NO_SUCH_WORKER && entries_of(&store) == 25);
    WANT(tg_audit(&store, &count) == TG_DONE && count == 25);
    WANT(tg_close(&store) == TG_DONE);
}

/* Rights are withdrawn: each worker outside of those to keep has a remove, by rising name, and who still holds some is reported. */
static void rights_are_withdrawn(void) {
    tg_store store = TG_STORE_INIT;
    tg_record entry;
    uint64_t document, folder, readers[3], names[4] = { UNTOUCHED, UNTOUCHED, UNTOUCHED, UNTOUCHED }, count = UNTOUCHED, rights;
    const uint64_t keep[3] = { 0, 99, UINT64_MAX };
    WANT(tg_withdraw(&store, 0, 0, NULL, 0, names, 4, &count) == TG_BAD_RIGHTS);
    WANT(tg_withdraw(&store, 0, 256, NULL, 0, names, 4, &count) == TG_BAD_RIGHTS);
    WANT(tg_withdraw(&store, 0, TG_READ, NULL, 0, names, 4, &count) == TG_NOT_OPEN && count == UNTOUCHED);
    WANT(tg_open(&store, workers, 1, NULL, 0, &limits) == TG_DONE);
    WANT(tg_create(&store, 0, TG_READ | TG_WRITE, &sum, &document) == TG_DONE);
    for (int i = 0; i < 3; i++) {
        WANT(tg_spawn(&store, 0, TG_GRANT | TG_TAKE, &sum, &readers[i]) == TG_DONE);
        WANT(tg_grant(&store, 0, readers[i], document, i == 1 ? TG_READ | TG_WRITE : TG_READ, &why) == TG_DONE);
    }
    WANT(tg_create(&store, 0, TG_GRANT | TG_TAKE, &sum, &folder) == TG_DONE);
    WANT(tg_grant(&store, 0, folder, document, TG_WRITE, &why) == TG_DONE);
    WANT(tg_retire(&store, readers[2]) == TG_DONE);
    const uint64_t before = entries_of(&store);
    /* What isn't held, and what was never made, changes nothing. */
    WANT(tg_withdraw(&store, document, TG_APPEND, NULL, 0, names, 4, &count) == TG_DONE && count == 0);
    WANT(tg_withdraw(&store, 999, TG_READ, keep, 3, names, 4, &count) == TG_DONE && count == 0);
    WANT(entries_of(&store) == before && names[0] == UNTOUCHED);
    WANT(tg_withdraw(&store, document, TG_READ | TG_WRITE, keep, 3, names, 4, &count) == TG_DONE && count == 3);
    WANT(names[0] == 0 && names[1] == readers[2] && names[2] == folder && names[3] == UNTOUCHED);
    WANT(entries_of(&store) == before + 2);
    for (uint64_t i = 0; i < 2; i++) {
        WANT(tg_entry(&store, before + i, &entry, NULL, 0, NULL, 0) == TG_DONE && entry.worker == readers[i]);
        WANT(entry.deed == TG_DEED_REMOVE && entry.target == document && entry.rights == (i == 1 ? TG_READ | TG_WRITE : TG_READ));
        WANT(tg_label(&store, readers[i], document, &rights) == TG_DONE && rights == 0);
    }
    WANT(tg_label(&store, 0, document, &rights) == TG_DONE && rights == (TG_READ | TG_WRITE));
    /* It comes back from one who was reported. */
    WANT(tg_take(&store, 0, readers[2], document, TG_READ, &why) == TG_DONE);
    /* The document is still reached through the retired worker and the folder. A second call reports the same. */
    WANT(tg_withdraw(&store, document, TG_READ | TG_WRITE, NULL, 0, names, 1, &count) == TG_DONE && count == 2 && names[0] == readers[2]);
    const uint64_t after = entries_of(&store);
    WANT(tg_withdraw(&store, document, TG_READ | TG_WRITE, NULL, 0, names, 2, &count) == TG_DONE && count == 2 && names[1] == folder);
    WANT(entries_of(&store) == after && tg_audit(&store, &count) == TG_DONE && count == after);
    WANT(tg_remove(&store, 0, folder, TG_GRANT | TG_TAKE, &why) == TG_DONE);
    WANT(tg_withdraw(&store, document, TG_WRITE, NULL, 0, NULL, 0, &count) == TG_DONE && count == 0);
    WANT(tg_close(&store) == TG_DONE);
}

/* A call that parks a user or unparks it. */
typedef tg_status parking_call(tg_store *store, const tg_parking *parking, uint64_t *edges, tg_denial *denial);

/* That the call is denied, on this edge or for a vertex that is named twice, with the host's grant of the right as the only entry. */
static void is_denied_call(parking_call *call, tg_store *store, tg_parking parking, uint64_t right, tg_denial wanted) {
    const uint64_t before = entries_of(store);
    uint64_t count = UNTOUCHED;
    tg_record entry;
    why = (tg_denial){ 99, 99, 99, 99, 99 };
    WANT(call(store, &parking, &count, &why) == TG_DENIED && count == UNTOUCHED && memcmp(&why, &wanted, sizeof why) == 0);
    WANT(entries_of(store) == before + 1 && tg_entry(store, before, &entry, NULL, 0, NULL, 0) == TG_DONE);
    WANT(entry.worker == parking.host && entry.deed == TG_DEED_GRANT && entry.via == parking.user && entry.target == parking.account);
    WANT(entry.rights == right && entry.reply == TG_REPLY_DENIED && memcmp(&entry.denial, &wanted, sizeof why) == 0);
}

/* That the call is refused, with no entry. */
static void is_refused_call(parking_call *call, tg_store *store, tg_parking parking, tg_status status) {
    const uint64_t before = store->is_open ? entries_of(store) : 0;
    uint64_t count = UNTOUCHED;
    why = (tg_denial){ 99, 99, 99, 99, 99 };
    WANT(call(store, &parking, &count, &why) == status && count == UNTOUCHED && why.rule == 99);
    WANT(!store->is_open || entries_of(store) == before);
}

static void is_denied_parking(tg_store *store, tg_parking parking, tg_denial wanted) {
    is_denied_call(tg_park, store, parking, TG_GRANT, wanted);
}

static void is_refused_parking(tg_store *store, tg_parking parking, tg_status status) {
    is_refused_call(tg_park, store, parking, status);
}

/* That the entry at a place is this command, and was done. */
static void is_entry(tg_store *store, uint64_t at, tg_record wanted) {
    tg_record entry;
    WANT(tg_entry(store, at, &entry, NULL, 0, NULL, 0) == TG_DONE && memcmp(&entry, &wanted, sizeof entry) == 0);
}

/* A host parks a user: the account holds what the user held, and each command has its entry. Each denial and refusal. */
static void a_user_is_parked(void) {
    const tg_edge knows[2] = { { 0, 1, TG_GRANT }, { 1, 0, TG_FREE_U } };
    tg_store store = TG_STORE_INIT;
    tg_target row[4] = { { UNTOUCHED, 0 }, { UNTOUCHED, 0 }, { UNTOUCHED, 0 }, { UNTOUCHED, 0 } };
    uint64_t account, letter, other, count, rights;
    is_refused_parking(&store, (tg_parking){ 0, 1, 2 }, TG_NOT_OPEN);
    WANT(tg_open(&store, workers, 2, knows, 2, &limits) == TG_DONE);
    WANT(tg_create(&store, 0, TG_TAKE | TG_GRANT | TG_INSPECT, &cell, &account) == TG_DONE && account == 2);
    WANT(tg_create(&store, 1, TG_READ | TG_WRITE, &sum, &letter) == TG_DONE && letter == 3);
    /* Who isn't a worker, and names that aren't three vertices, or of which the host hasn't g. */
    is_refused_parking(&store, (tg_parking){ account, 1, account }, TG_NO_SUCH_WORKER);
    is_refused_parking(&store, (tg_parking){ 0, letter, account }, TG_NO_SUCH_WORKER);
    is_refused_parking(&store, (tg_parking){ 0, UINT64_MAX, account }, TG_NO_SUCH_WORKER);
    is_refused_parking(&store, (tg_parking){ 99, 99, 99 }, TG_NO_SUCH_WORKER);
    is_denied_parking(&store, (tg_parking){ 0, 0, account }, (tg_denial){ TG_RULE_GRANT, TG_NOT_DISTINCT, 0, 0, 0 });
    is_denied_parking(&store, (tg_parking){ 0, 1, 0 }, (tg_denial){ TG_RULE_GRANT, TG_NOT_DISTINCT, 0, 0, 0 });
    is_denied_parking(&store, (tg_parking){ 0, 1, 1 }, (tg_denial){ TG_RULE_GRANT, TG_NOT_DISTINCT, 0, 0, 0 });
    is_denied_parking(&store, (tg_parking){ 1, 0, letter }, (tg_denial){ TG_RULE_GRANT, TG_MISSING, 1, 0, TG_GRANT });
    is_denied_parking(&store, (tg_parking){ 0, 1, letter }, (tg_denial){ TG_RULE_GRANT, TG_MISSING, 0, letter, TG_GRANT });
    is_denied_parking(&store, (tg_parking){ 0, 1, UINT64_MAX }, (tg_denial){ TG_RULE_GRANT, TG_MISSING, 0, UINT64_MAX, TG_GRANT });
    WANT(entries_of(&store) == 8);
    /* An account that is in use: the user has an edge to it, or it holds something. */
    WANT(tg_grant(&store, 0, 1, account, TG_INSPECT, NULL) == TG_DONE);
    is_refused_parking(&store, (tg_parking){ 0, 1, account }, TG_IN_USE);
    WANT(tg_remove(&store, 1, account, TG_INSPECT, NULL) == TG_DONE);
    WANT(tg_create(&store, 0, TG_READ | TG_TAKE | TG_GRANT, &cell, &other) == TG_DONE && other == 4);
    WANT(tg_grant(&store, 0, other, account, TG_INSPECT, NULL) == TG_DONE);
    is_refused_parking(&store, (tg_parking){ 0, 1, other }, TG_IN_USE);
    WANT(entries_of(&store) == 12 && tg_label(&store, 1, letter, &rights) == TG_DONE && rights == (TG_READ | TG_WRITE));
    /* It is parked: two entries for each edge, and three more. */
    WANT(tg_park(&store, &(tg_parking){ 0, 1, account }, &count, NULL) == TG_DONE && count == 2 && entries_of(&store) == 19);
    is_entry(&store, 12, (tg_record){ .worker = 0, .deed = TG_DEED_GRANT, .via = 1, .target = account, .rights = TG_GRANT });
    is_entry(&store, 13, (tg_record){ .worker = 1, .deed = TG_DEED_GRANT, .via = account, .target = 0, .rights = TG_FREE_U });
    is_entry(&store, 14, (tg_record){ .worker = 1, .deed = TG_DEED_GRANT, .via = account, .target = letter, .rights = TG_READ | TG_WRITE });
    is_entry(&store, 15, (tg_record){ .worker = 1, .deed = TG_DEED_REMOVE, .target = account, .rights = TG_GRANT });
    is_entry(&store, 16, (tg_record){ .worker = 1, .deed = TG_DEED_REMOVE, .target = 0, .rights = TG_FREE_U });
    is_entry(&store, 17, (tg_record){ .worker = 1, .deed = TG_DEED_REMOVE, .target = letter, .rights = TG_READ | TG_WRITE });
    is_entry(&store, 18, (tg_record){ .worker = 1, .deed = TG_DEED_RETIRE });
    WANT(tg_inspect(&store, 0, account, row, 4, &count, NULL) == TG_DONE && count == 2 && row[0].to == 0 && row[0].rights == TG_FREE_U);
    WANT(row[1].to == letter && row[1].rights == (TG_READ | TG_WRITE) && row[2].to == UNTOUCHED);
    WANT(tg_edges_to(&store, 1, row, 4, &count) == TG_DONE && count == 1 && row[0].to == 0 && row[0].rights == TG_GRANT);
    is_refused_parking(&store, (tg_parking){ 0, 1, account }, TG_NO_SUCH_WORKER);
    WANT(tg_audit(&store, &count) == TG_DONE && count == 20 && tg_close(&store) == TG_DONE);
}

static void is_denied_unparking(tg_store *store, tg_parking parking, tg_denial wanted) {
    is_denied_call(tg_unpark, store, parking, TG_TAKE, wanted);
}

static void is_refused_unparking(tg_store *store, tg_parking parking, tg_status status) {
    is_refused_call(tg_unpark, store, parking, status);
}

/* A host unparks a user: the user holds what the account holds, and each command has its entry. Each denial and refusal. */
static void a_user_is_unparked(void) {
    const tg_edge knows[2] = { { 0, 1, TG_GRANT }, { 1, 0, TG_FREE_U } };
    tg_store store = TG_STORE_INIT;
    tg_target row[4] = { { UNTOUCHED, 0 }, { UNTOUCHED, 0 }, { UNTOUCHED, 0 }, { UNTOUCHED, 0 } };
    uint64_t account, letter, user, again, count, rights;
    is_refused_unparking(&store, (tg_parking){ 0, 1, 2 }, TG_NOT_OPEN);
    WANT(tg_open(&store, workers, 2, knows, 2, &limits) == TG_DONE);
    WANT(tg_create(&store, 0, TG_TAKE | TG_GRANT | TG_INSPECT, &cell, &account) == TG_DONE && account == 2);
    WANT(tg_create(&store, 1, TG_READ | TG_WRITE, &sum, &letter) == TG_DONE && letter == 3);
    WANT(tg_park(&store, &(tg_parking){ 0, 1, account }, &count, NULL) == TG_DONE && count == 2);
    WANT(tg_spawn(&store, 0, TG_GRANT, &cell, &user) == TG_DONE && user == 4);
    /* Who isn't a worker, as who was parked, and names that aren't three vertices, or over which the host hasn't the right. */
    is_refused_unparking(&store, (tg_parking){ 0, 1, account }, TG_NO_SUCH_WORKER);
    is_refused_unparking(&store, (tg_parking){ account, user, account }, TG_NO_SUCH_WORKER);
    is_refused_unparking(&store, (tg_parking){ 0, UINT64_MAX, account }, TG_NO_SUCH_WORKER);
    is_refused_unparking(&store, (tg_parking){ 99, 99, 99 }, TG_NO_SUCH_WORKER);
    is_denied_unparking(&store, (tg_parking){ 0, 0, account }, (tg_denial){ TG_RULE_GRANT, TG_NOT_DISTINCT, 0, 0, 0 });
    is_denied_unparking(&store, (tg_parking){ 0, user, 0 }, (tg_denial){ TG_RULE_GRANT, TG_NOT_DISTINCT, 0, 0, 0 });
    is_denied_unparking(&store, (tg_parking){ 0, user, user }, (tg_denial){ TG_RULE_GRANT, TG_NOT_DISTINCT, 0, 0, 0 });
    is_denied_unparking(&store, (tg_parking){ user, 0, account }, (tg_denial){ TG_RULE_GRANT, TG_MISSING, user, 0, TG_GRANT });
    is_denied_unparking(&store, (tg_parking){ 0, user, letter }, (tg_denial){ TG_RULE_GRANT, TG_MISSING, 0, letter, TG_TAKE });
    is_denied_unparking(&store, (tg_parking){ 0, user, UINT64_MAX }, (tg_denial){ TG_RULE_GRANT, TG_MISSING, 0, UINT64_MAX, TG_TAKE });
    /* A user that is in use: it holds something, or the account has an edge to it. */
    WANT(tg_grant(&store, 0, user, account, TG_INSPECT, NULL) == TG_DONE);
    is_refused_unparking(&store, (tg_parking){ 0, user, account }, TG_IN_USE);
    WANT(tg_remove(&store, user, account, TG_INSPECT, NULL) == TG_DONE);
    WANT(tg_create(&store, 0, TG_TAKE | TG_GRANT, &cell, &number) == TG_DONE && number == 5);
    WANT(tg_grant(&store, 0, number, user, TG_GRANT, NULL) == TG_DONE);
    is_refused_unparking(&store, (tg_parking){ 0, user, number }, TG_IN_USE);
    number = UNTOUCHED;
    const uint64_t before = entries_of(&store);
    WANT(tg_label(&store, user, letter, &rights) == TG_DONE && rights == 0);
    /* It is unparked: an entry for each edge, and three more. */
    WANT(tg_unpark(&store, &(tg_parking){ 0, user, account }, &count, NULL) == TG_DONE && count == 2 && entries_of(&store) == before + 5);
    is_entry(&store, before, (tg_record){ .worker = 0, .deed = TG_DEED_GRANT, .via = user, .target = account, .rights = TG_TAKE });
    is_entry(&store, before + 1, (tg_record){ .worker = user, .deed = TG_DEED_TAKE, .via = account, .target = 0, .rights = TG_FREE_U });
    is_entry(&store, before + 2, (tg_record){ .worker = user, .deed = TG_DEED_TAKE, .via = account, .target = letter, .rights = TG_READ | TG_WRITE });
    is_entry(&store, before + 3, (tg_record){ .worker = user, .deed = TG_DEED_REMOVE, .target = account, .rights = TG_TAKE });
    is_entry(&store, before + 4, (tg_record){ .worker = 0, .deed = TG_DEED_REMOVE, .target = account, .rights = TG_TAKE | TG_GRANT | TG_INSPECT });
    WANT(tg_list(&store, user, row, 4, &count) == TG_DONE && count == 2 && row[0].to == 0 && row[0].rights == TG_FREE_U);
    WANT(row[1].to == letter && row[1].rights == (TG_READ | TG_WRITE) && row[2].to == UNTOUCHED);
    WANT(tg_edges_to(&store, account, row, 4, &count) == TG_DONE && count == 0);
    /* The account is used once, and the next full collection frees it. */
    WANT(tg_spawn(&store, 0, TG_GRANT, &cell, &again) == TG_DONE);
    is_denied_unparking(&store, (tg_parking){ 0, again, account }, (tg_denial){ TG_RULE_GRANT, TG_MISSING, 0, account, TG_TAKE });
    WANT(tg_collect(&store, TG_FULL, &count) == TG_DONE && count == 6);
    WANT(tg_audit(&store, &count) == TG_DONE && count == entries_of(&store) && tg_close(&store) == TG_DONE);
}

/* Opens a store whose heap is soon full, with host 0 and user 1. Returns an account of the host, with which it may park the user. */
static uint64_t open_with_account(tg_store *store) {
    const tg_limits small = { 1000, 20, 4 };
    const tg_edge knows = { 0, 1, TG_GRANT };
    uint64_t account;
    WANT(tg_open(store, workers, 2, &knows, 1, &small) == TG_DONE);
    WANT(tg_create(store, 0, TG_TAKE | TG_GRANT, &cell, &account) == TG_DONE && account == 2);
    return account;
}

/* A user whose nursery is full gets nothing, and the account is as it was. After a collection there is room. */
static void unparked_in_a_full_heap(void) {
    tg_store store = TG_STORE_INIT;
    uint64_t name, made = 0, count = UNTOUCHED, rights;
    const uint64_t account = open_with_account(&store);
    for (int i = 0; i < 12; i++)
        WANT(tg_create(&store, 0, TG_READ, &cell, &name) == TG_DONE && tg_grant(&store, 0, account, name, TG_READ, NULL) == TG_DONE);
    while (tg_create(&store, 1, TG_READ, &cell, &name) == TG_DONE && tg_remove(&store, 1, name, TG_READ, NULL) == TG_DONE)
        made++;
    WANT(made > 0);
    is_refused_unparking(&store, (tg_parking){ 0, 1, account }, TG_HEAP_FULL);
    WANT(tg_list(&store, 1, NULL, 0, &count) == TG_DONE && count == 0);
    WANT(tg_label(&store, 0, account, &rights) == TG_DONE && rights == (TG_TAKE | TG_GRANT));
    WANT(tg_who_holds(&store, TG_READ, account + 1, NULL, 0, &count) == TG_DONE && count == 2);
    WANT(tg_collect(&store, TG_FULL, &count) == TG_DONE);
    WANT(tg_unpark(&store, &(tg_parking){ 0, 1, account }, &count, NULL) == TG_DONE && count == 12);
    WANT(tg_audit(&store, &number) == TG_DONE && number == entries_of(&store) && tg_close(&store) == TG_DONE);
    number = UNTOUCHED;
}

/* A user whose nursery is full is refused, and everybody holds what it held. After a collection there is room. */
static void parked_in_a_full_heap(void) {
    tg_store store = TG_STORE_INIT;
    uint64_t name, made = 0, count = UNTOUCHED, rights;
    const uint64_t account = open_with_account(&store);
    while (tg_create(&store, 1, TG_READ, &cell, &name) == TG_DONE)
        made++;
    WANT(made > 0);
    is_refused_parking(&store, (tg_parking){ 0, 1, account }, TG_HEAP_FULL);
    for (uint64_t i = 0; i < made; i++)
        WANT(tg_label(&store, 1, account + 1 + i, &rights) == TG_DONE && rights == TG_READ);
    WANT(tg_who_holds(&store, TG_READ, account + 1, &name, 1, &count) == TG_DONE && count == 1 && name == 1);
    WANT(tg_remove(&store, 1, account + made, TG_READ, NULL) == TG_DONE);
    for (uint64_t i = 0; i + 8 < made; i++)
        WANT(tg_remove(&store, 1, account + 1 + i, TG_READ, NULL) == TG_DONE);
    WANT(tg_collect(&store, TG_FULL, &count) == TG_DONE);
    WANT(tg_park(&store, &(tg_parking){ 0, 1, account }, &count, NULL) == TG_DONE && count == 7);
    WANT(tg_audit(&store, &number) == TG_DONE && number == entries_of(&store) && tg_close(&store) == TG_DONE);
    number = UNTOUCHED;
}

/* That a law is reported to the worker and to the host, each of whom may get TG_NO_LAW. */
static void is_law(tg_store *store, uint64_t name, uint32_t wanted, uint32_t kept, uint32_t wanted_by_host) {
    tg_vertex_law law = { 77, 77 };
    const uint64_t before = entries_of(store);
    WANT(tg_law(store, 1, name, &law) == TG_DONE && law.law == wanted && law.most == (wanted == TG_LOG ? kept : 0));
    law = (tg_vertex_law){ 77, 77 };
    WANT(tg_law_of(store, name, &law) == TG_DONE && law.law == wanted_by_host && law.most == (wanted_by_host == TG_LOG ? kept : 0));
    WANT(entries_of(store) == before);
}

/* A worker is shown the law of what it may use, and the host that of each vertex that a worker reaches. */
static void laws_are_shown(void) {
    const tg_value kinds[4] = { cell, sum, greatest, last_two };
    tg_store store = TG_STORE_INIT;
    tg_vertex_law law = { 77, 77 };
    uint64_t name, count;
    WANT(tg_law(&store, 1, 2, &law) == TG_NOT_OPEN && tg_law_of(&store, 2, &law) == TG_NOT_OPEN);
    WANT(tg_open(&store, workers, 2, edges, 2, &limits) == TG_DONE);
    WANT(tg_law(&store, 2, 0, &law) == TG_NO_SUCH_WORKER && tg_law(&store, UINT64_MAX, 0, &law) == TG_NO_SUCH_WORKER);
    WANT(law.law == 77 && law.most == 77);
    for (uint32_t i = 0; i < 4; i++) {
        WANT(tg_create(&store, 0, 255, &kinds[i], &name) == TG_DONE && name == 2 + i);
        is_law(&store, name, TG_NO_LAW, 2, i);
        WANT(tg_grant(&store, 0, 1, name, TG_TAKE | TG_GRANT | TG_INSPECT | TG_FREE_U | TG_FREE_V, NULL) == TG_DONE);
        is_law(&store, name, TG_NO_LAW, 2, i);
        const uint64_t use[3] = { TG_READ, TG_WRITE, TG_APPEND };
        for (int k = 0; k < 3; k++) {
            WANT(tg_grant(&store, 0, 1, name, use[k], NULL) == TG_DONE);
            is_law(&store, name, i, 2, i);
            WANT(tg_remove(&store, 1, name, use[k], NULL) == TG_DONE);
        }
    }
    /* A worker's own vertex, one that was never made, and one that no worker reaches, before and after it is collected. */
    is_law(&store, 1, TG_NO_LAW, 0, TG_CELL);
    is_law(&store, 6, TG_NO_LAW, 0, TG_NO_LAW);
    is_law(&store, UINT64_MAX, TG_NO_LAW, 0, TG_NO_LAW);
    WANT(tg_withdraw(&store, 5, 255, NULL, 0, NULL, 0, &count) == TG_DONE && count == 0);
    is_law(&store, 5, TG_NO_LAW, 2, TG_NO_LAW);
    WANT(tg_collect(&store, TG_FULL, &count) == TG_DONE && count == 5);
    is_law(&store, 5, TG_NO_LAW, 2, TG_NO_LAW);
    is_law(&store, 4, TG_NO_LAW, 2, TG_MAX);
    WANT(tg_close(&store) == TG_DONE);
}

/* Three clients that know each other leave: their empty rows stay, which their spawner has edges to, and nothing else. */
static void three_leave(void) {
    const uint64_t know = TG_TAKE | TG_GRANT;
    tg_store store = TG_STORE_INIT;
    uint64_t clients[3], notes[3], names[8] = { 0 }, count = UNTOUCHED;
    WANT(tg_open(&store, workers, 1, NULL, 0, &limits) == TG_DONE);
    for (int i = 0; i < 3; i++)
        WANT(tg_spawn(&store, 0, know, &sum, &clients[i]) == TG_DONE);
    for (int i = 0; i < 3; i++) {
        WANT(tg_grant(&store, 0, clients[i], clients[(i + 1) % 3], know, &why) == TG_DONE);
        WANT(tg_grant(&store, 0, clients[i], clients[(i + 2) % 3], know, &why) == TG_DONE);
        WANT(tg_create(&store, clients[i], TG_READ, &sum, &notes[i]) == TG_DONE);
    }
    for (int i = 0; i < 3; i++)
        WANT(tg_leave(&store, clients[i], &count) == TG_DONE && count == 3);
    WANT(tg_collect(&store, TG_FULL, &count) == TG_DONE && count == 4);
    WANT(tg_names(&store, names, 8, &count) == TG_DONE && count == 4);
    for (int i = 0; i < 4; i++)
        WANT(names[i] == 0 || (names[i] >= clients[0] && names[i] <= clients[2]));
    for (int i = 0; i < 3; i++) {
        WANT(tg_who_holds(&store, TG_READ, notes[i], names, 8, &count) == TG_DONE && count == 0);
        WANT(tg_who_holds(&store, TG_GRANT, clients[i], names, 8, &count) == TG_DONE && count == 1 && names[0] == 0);
    }
    WANT(tg_close(&store) == TG_DONE);
}

/* With 64 workers none is spawned until one retires. The refusal has its entry. No worker is needed to count, collect or audit. */
static void as_many_workers_as_may_be(void) {
    const tg_limits many = { 200, 200, 100 };
    tg_store store = TG_STORE_INIT;
    tg_record entry;
    uint64_t names[64], name, count;
    WANT(tg_open(&store, workers, 1, NULL, 0, &many) == TG_DONE);
    for (uint64_t i = 0; i < 63; i++)
        WANT(tg_spawn(&store, i, TG_GRANT, &cell, &name) == TG_DONE && name == i + 1);
    number = UNTOUCHED;
    WANT(tg_spawn(&store, 63, TG_GRANT, &last_two, &number) == TG_WORKERS_FULL && number == UNTOUCHED);
    WANT(tg_entry(&store, 63, &entry, NULL, 0, NULL, 0) == TG_DONE && entry.worker == 63 && entry.deed == TG_DEED_SPAWN);
    WANT(entry.reply == TG_REPLY_WORKERS_FULL && entry.law == TG_LOG && entry.most == 2 && entry.rights == TG_GRANT);
    WANT(tg_create(&store, 63, TG_READ, &cell, &name) == TG_DONE && name == 64);
    WANT(tg_retire(&store, 5) == TG_DONE);
    WANT(tg_spawn(&store, 63, TG_GRANT, &cell, &name) == TG_DONE && name == 65);
    WANT(tg_subjects(&store, names, 64, &count) == TG_DONE && count == 64);
    for (uint64_t i = 0; i < 64; i++)
        WANT(names[i] == (i < 5 ? i : i < 63 ? i + 1 : 65));
    for (uint64_t i = 0; i < 64; i++)
        WANT(tg_retire(&store, names[i]) == TG_DONE);
    WANT(tg_subjects(&store, names, 64, &count) == TG_DONE && count == 0);
    WANT(tg_spawn(&store, 0, TG_GRANT, &cell, &name) == TG_NO_SUCH_WORKER);
    WANT(tg_collect(&store, TG_FULL, &count) == TG_DONE && count == 0);
    WANT(tg_audit(&store, &count) == TG_DONE && count == 131);
    WANT(tg_close(&store) == TG_DONE);
}

/* The opening, and one entry of each deed and of each reply but TG_REPLY_WORKERS_FULL. The journal below has their texts. */
static void deeds(tg_store *store) {
    static const tg_edge joined[2] = { { 0, 1, TG_TAKE | TG_GRANT | TG_INSPECT }, { 1, 0, TG_GRANT } };
    static const tg_limits five = { 5, 8, 4 };
    tg_target row[4];
    uint64_t name, count;
    WANT(tg_open(store, workers, 2, joined, 2, &five) == TG_DONE);
    WANT(tg_create(store, 0, TG_READ | TG_WRITE | TG_APPEND, &last_two, &name) == TG_DONE && name == 2);
    WANT(tg_create(store, 1, TG_READ | TG_APPEND, &sum, &name) == TG_DONE && name == 3);
    WANT(tg_spawn(store, 1, TG_INSPECT, &last_two, &name) == TG_DONE && name == 4);
    WANT(tg_create(store, 0, 255, &cell, &name) == TG_VERTICES_FULL);
    WANT(tg_spawn(store, 4, 255, &cell, &name) == TG_VERTICES_FULL);
    WANT(tg_retire(store, 4) == TG_DONE);
    WANT(tg_remove(store, 1, 4, TG_INSPECT, &why) == TG_DONE);
    WANT(tg_take(store, 0, 1, 3, TG_READ, &why) == TG_DONE);
    WANT(tg_grant(store, 0, 1, 2, TG_WRITE, &why) == TG_DONE);
    WANT(tg_write(store, 0, 2, 8, &why) == TG_DONE);
    WANT(tg_append(store, 0, 2, 9, &why) == TG_DONE);
    WANT(tg_read(store, 0, 2, numbers, 64, &count, &why) == TG_DONE);
    WANT(tg_list(store, 1, row, 4, &count) == TG_DONE);
    WANT(tg_inspect(store, 0, 1, row, 4, &count, &why) == TG_DONE);
    WANT(tg_remove(store, 0, 2, TG_WRITE, &why) == TG_DONE);
    WANT(tg_write(store, 0, 2, 5, &why) == TG_DENIED);
    WANT(tg_append(store, 1, 3, 6, &why) == TG_DENIED);
    WANT(tg_take(store, 0, 0, 2, TG_READ, &why) == TG_DENIED);
    WANT(tg_read(store, 1, 2, numbers, 64, &count, &why) == TG_DENIED);
}

static const tg_record journal[] = {
    { .worker = 0, .deed = TG_DEED_CREATE, .reply = TG_REPLY_NAME, .law = TG_LOG, .most = 2,
      .rights = TG_READ | TG_WRITE | TG_APPEND, .name = 2 },
    { .worker = 1, .deed = TG_DEED_CREATE, .reply = TG_REPLY_NAME, .law = TG_SUM, .rights = TG_READ | TG_APPEND, .name = 3,
      .number_count = 1 },
    { .worker = 1, .deed = TG_DEED_SPAWN, .reply = TG_REPLY_NAME, .law = TG_LOG, .most = 2, .rights = TG_INSPECT, .name = 4 },
    { .worker = 0, .deed = TG_DEED_CREATE, .reply = TG_REPLY_VERTICES_FULL, .law = TG_CELL, .rights = 255, .number_count = 1 },
    { .worker = 4, .deed = TG_DEED_SPAWN, .reply = TG_REPLY_VERTICES_FULL, .law = TG_CELL, .rights = 255, .number_count = 1 },
    { .worker = 4, .deed = TG_DEED_RETIRE, .reply = TG_REPLY_DONE },
    { .worker = 1, .deed = TG_DEED_REMOVE, .reply = TG_REPLY_DONE, .target = 4, .rights = TG_INSPECT },
    { .worker = 0, .deed = TG_DEED_TAKE, .reply = TG_REPLY_DONE, .via = 1, .target = 3, .rights = TG_READ },
    { .worker = 0, .deed = TG_DEED_GRANT, .reply = TG_REPLY_DONE, .via = 1, .target = 2, .rights = TG_WRITE },
    { .worker = 0, .deed = TG_DEED_WRITE, .reply = TG_REPLY_DONE, .target = 2, .value = 8 },
    { .worker = 0, .deed = TG_DEED_APPEND, .reply = TG_REPLY_DONE, .target = 2, .value = 9 },
    { .worker = 0, .deed = TG_DEED_READ, .reply = TG_REPLY_VALUES, .target = 2, .number_count = 2 },
    { .worker = 1, .deed = TG_DEED_LIST, .reply = TG_REPLY_EDGES, .edge_count = 3 },
    { .worker = 0, .deed = TG_DEED_INSPECT, .reply = TG_REPLY_EDGES, .target = 1, .edge_count = 3 },
    { .worker = 0, .deed = TG_DEED_REMOVE, .reply = TG_REPLY_DONE, .target = 2, .rights = TG_WRITE },
    { .worker = 0, .deed = TG_DEED_WRITE, .reply = TG_REPLY_DENIED, .target = 2, .value = 5,
      .denial = { TG_RULE_WRITE, TG_MISSING, 0, 2, TG_WRITE } },
    { .worker = 1, .deed = TG_DEED_APPEND, .reply = TG_REPLY_DENIED, .target = 3, .value = 6,
      .denial = { TG_RULE_APPEND, TG_NOT_LOG, 0, 0, 0 } },
    { .worker = 0, .deed = TG_DEED_TAKE, .reply = TG_REPLY_DENIED, .via = 0, .target = 2, .rights = TG_READ,
      .denial = { TG_RULE_TAKE, TG_NOT_DISTINCT, 0, 0, 0 } },
    { .worker = 1, .deed = TG_DEED_READ, .reply = TG_REPLY_DENIED, .target = 2, .denial = { TG_RULE_READ, TG_MISSING, 1, 2, TG_READ } }
};

enum { ENTRIES = sizeof journal / sizeof *journal };

/* The numbers and edges of those entries that have any. After them the rooms are as they were. */
static void entry_lists(tg_store *store) {
    static const uint64_t firsts[ENTRIES] = { [1] = 40, [3] = 7, [4] = 7, [11] = 8 };
    static const tg_target held[3] = { { 0, TG_GRANT }, { 2, TG_WRITE }, { 3, TG_READ | TG_APPEND } };
    for (uint64_t at = 0; at < ENTRIES; at++) {
        uint64_t room[3] = { UNTOUCHED, UNTOUCHED, UNTOUCHED };
        tg_target row[4] = { { UNTOUCHED, 0 }, { UNTOUCHED, 0 }, { UNTOUCHED, 0 }, { UNTOUCHED, 0 } };
        tg_record entry;
        WANT(tg_entry(store, at, &entry, room, 3, row, 4) == TG_DONE);
        WANT(room[0] == (entry.number_count > 0 ? firsts[at] : UNTOUCHED));
        WANT(room[1] == (entry.number_count > 1 ? 9 : UNTOUCHED) && room[2] == UNTOUCHED);
        WANT(entry.edge_count == 0 ? row[0].to == UNTOUCHED : memcmp(row, held, sizeof held) == 0);
        WANT(row[3].to == UNTOUCHED);
    }
}

/* With too little room as much is shown as fits, and all is counted. */
static void small_rooms(tg_store *store) {
    uint64_t room[2] = { UNTOUCHED, UNTOUCHED };
    tg_target row[3] = { { UNTOUCHED, 0 }, { UNTOUCHED, 0 }, { UNTOUCHED, 0 } };
    tg_record entry;
    WANT(tg_entry(store, 11, &entry, room, 1, row, 0) == TG_DONE && entry.number_count == 2);
    WANT(room[0] == 8 && room[1] == UNTOUCHED && row[0].to == UNTOUCHED);
    WANT(tg_entry(store, 13, &entry, room, 0, row, 2) == TG_DONE && entry.edge_count == 3);
    WANT(room[0] == 8 && row[0].to == 0 && row[1].to == 2 && row[2].to == UNTOUCHED);
}

/* Each entry is read back as it was made, before and after a collection, and there is none after the last. Reading makes no entry. */
static void entries_read(void) {
    tg_store store = TG_STORE_INIT;
    uint64_t count;
    deeds(&store);
    for (int round = 0; round < 2; round++) {
        WANT(tg_entries(&store, &count) == TG_DONE && count == ENTRIES);
        for (uint64_t at = 0; at < ENTRIES; at++) {
            tg_record entry;
            WANT(tg_entry(&store, at, &entry, NULL, 0, NULL, 0) == TG_DONE);
            WANT(memcmp(&entry, &journal[at], sizeof entry) == 0);
        }
        entry_lists(&store);
        small_rooms(&store);
        WANT(is_no_entry(&store, ENTRIES, TG_BAD_PLACE));
        WANT(is_no_entry(&store, UINT64_MAX, TG_BAD_PLACE));
        WANT(tg_collect(&store, TG_FULL, &count) == TG_DONE);
    }
    WANT(tg_audit(&store, &count) == TG_DONE && count == ENTRIES);
    WANT(tg_close(&store) == TG_DONE);
}

/* Entries are given up, and what is held is read as before. Nothing else changes, and an audit of the rest says so. */
static void entries_forgotten(void) {
    tg_store store = TG_STORE_INIT;
    tg_record entry;
    uint64_t first = UNTOUCHED, count = UNTOUCHED;
    deeds(&store);
    WANT(tg_first(&store, &first) == TG_DONE && first == 0);
    WANT(tg_forget(&store, 0) == TG_DONE && tg_audit(&store, &count) == TG_DONE && count == ENTRIES);
    for (uint64_t upto = 1; upto <= ENTRIES; upto++) {
        WANT(tg_forget(&store, ENTRIES + 1) == TG_BAD_PLACE && tg_forget(&store, UINT64_MAX) == TG_BAD_PLACE);
        WANT(tg_forget(&store, upto) == TG_DONE);
        WANT(tg_forget(&store, upto - 1) == TG_BAD_PLACE);
        WANT(tg_first(&store, &first) == TG_DONE && first == upto);
        WANT(tg_entries(&store, &count) == TG_DONE && count == ENTRIES);
        WANT(is_no_entry(&store, upto - 1, TG_BAD_PLACE) && is_no_entry(&store, 0, TG_BAD_PLACE));
        WANT(tg_audit(&store, &number) == TG_NOT_WHOLE && number == UNTOUCHED);
        for (uint64_t at = upto; at < ENTRIES; at++)
            WANT(tg_entry(&store, at, &entry, NULL, 0, NULL, 0) == TG_DONE && memcmp(&entry, &journal[at], sizeof entry) == 0);
        WANT(is_no_entry(&store, ENTRIES, TG_BAD_PLACE));
    }
    WANT(tg_list(&store, 1, NULL, 0, &count) == TG_DONE);
    WANT(tg_entry(&store, ENTRIES, &entry, NULL, 0, NULL, 0) == TG_DONE && entry.deed == TG_DEED_LIST && entry.edge_count == count);
    WANT(tg_close(&store) == TG_DONE);
}

/* Whether the auditor is at this place. */
static int stands_at(tg_auditor *auditor, uint64_t place) {
    uint64_t at = UNTOUCHED;
    return tg_auditor_at(auditor, &at) == TG_DONE && at == place;
}

/* A journal is audited part after part, and given up as far as the auditor has come. */
static void parts_audited(void) {
    tg_store store = TG_STORE_INIT;
    tg_auditor auditor = TG_AUDITOR_INIT;
    uint64_t count = UNTOUCHED, first;
    WANT(tg_open(&store, workers, 2, edges, 2, &limits) == TG_DONE);
    WANT(tg_auditor_open(&auditor, workers, 2, edges, 2, &limits) == TG_DONE && stands_at(&auditor, 0));
    WANT(tg_auditor_feed(&auditor, &store, &count) == TG_DONE && count == 0);
    for (uint64_t round = 1; round <= 5; round++) {
        WANT(tg_create(&store, 0, TG_READ | TG_WRITE, &sum, &count) == TG_DONE);
        WANT(tg_grant(&store, 0, 1, count, TG_READ, &why) == TG_DONE);
        WANT(tg_write(&store, 1, count, 2, &why) == TG_DENIED);
        WANT(tg_auditor_forget(&auditor, &store, 3 * round) == TG_NOT_AUDITED);
        WANT(tg_auditor_feed(&auditor, &store, round % 2 == 0 ? &count : NULL) == TG_DONE && stands_at(&auditor, 3 * round));
        WANT(round % 2 == 1 || count == 3 * round);
        WANT(tg_auditor_forget(&auditor, &store, 3 * round + 1) == TG_NOT_AUDITED);
        WANT(tg_auditor_sweep(&auditor) == TG_DONE && stands_at(&auditor, 3 * round));
        WANT(tg_auditor_forget(&auditor, &store, 3 * round) == TG_DONE);
        WANT(tg_auditor_forget(&auditor, &store, 3 * round - 1) == TG_BAD_PLACE);
        WANT(tg_first(&store, &first) == TG_DONE && first == 3 * round);
    }
    WANT(tg_auditor_close(&auditor) == TG_DONE && tg_close(&store) == TG_DONE);
}

/* Three cases stop an auditor. Entries were given up before it was fed, or a store hasn't made as many, or a store has another
   opening. Then the first entry that shows it is bad. From then on it is fed no more. */
static void auditors_stopped(void) {
    const tg_edge other[2] = { { 0, 1, TG_TAKE | TG_GRANT }, { 1, 0, TG_INSPECT } };
    tg_store store = TG_STORE_INIT, fresh = TG_STORE_INIT;
    tg_auditor auditor = TG_AUDITOR_INIT;
    WANT(tg_open(&store, workers, 2, edges, 2, &limits) == TG_DONE && tg_open(&fresh, workers, 2, edges, 2, &limits) == TG_DONE);
    WANT(tg_auditor_open(&auditor, workers, 2, other, 2, &limits) == TG_DONE);
    number = UNTOUCHED;
    WANT(tg_create(&store, 1, TG_READ, &sum, numbers) == TG_DONE);
    WANT(tg_auditor_feed(&auditor, &store, numbers) == TG_DONE && numbers[0] == 1);
    WANT(tg_auditor_feed(&auditor, &fresh, &number) == TG_BAD_PLACE && stands_at(&auditor, 1));
    WANT(tg_list(&store, 0, NULL, 0, numbers) == TG_DONE);
    WANT(tg_grant(&store, 1, 0, 2, TG_READ, &why) == TG_DONE);
    for (int round = 0; round < 2; round++)
        WANT(tg_auditor_feed(&auditor, &store, &number) == TG_BAD_ENTRY && stands_at(&auditor, 2) && number == UNTOUCHED);
    WANT(tg_auditor_feed(&auditor, &fresh, &number) == TG_BAD_ENTRY && stands_at(&auditor, 2));
    WANT(tg_auditor_close(&auditor) == TG_DONE);
    WANT(tg_auditor_open(&auditor, workers, 2, edges, 2, &limits) == TG_DONE);
    WANT(tg_forget(&store, 1) == TG_DONE);
    WANT(tg_auditor_feed(&auditor, &store, &number) == TG_BAD_PLACE && stands_at(&auditor, 0) && number == UNTOUCHED);
    WANT(tg_auditor_close(&auditor) == TG_DONE && tg_close(&store) == TG_DONE && tg_close(&fresh) == TG_DONE);
}

/* A nursery of one block is used up: 64 cells, with one for the worker. */
static void full_heap(void) {
    const tg_limits small = { 1000, 1, 1 };
    tg_store store = TG_STORE_INIT;
    tg_status status = TG_DONE;
    uint64_t made = 0, name, entries;
    WANT(tg_open(&store, workers, 1, edges, 0, &small) == TG_DONE);
    while ((status = tg_create(&store, 0, TG_READ, &cell, &name)) == TG_DONE)
        made++;
    WANT(status == TG_HEAP_FULL && made > 0);
    WANT(tg_entries(&store, &entries) == TG_DONE && entries == made);
    WANT(tg_close(&store) == TG_DONE);
}

/* Old has the one block that it may have. What is young goes to another space first, so a nursery collection has room. */
static void old_at_its_limit(void) {
    const tg_limits narrow = { 1000, 8, 1 };
    tg_store store = TG_STORE_INIT;
    uint64_t name, left, count;
    WANT(tg_open(&store, workers, 1, edges, 0, &narrow) == TG_DONE);
    for (int i = 0; i < 20; i++)
        WANT(tg_create(&store, 0, TG_READ, &cell, &name) == TG_DONE);
    WANT(tg_collect(&store, TG_FULL, &left) == TG_DONE && left == 21);
    WANT(tg_create(&store, 0, TG_READ, &cell, &name) == TG_DONE);
    WANT(tg_collect(&store, TG_NURSERY, &left) == TG_DONE && left == 22);
    WANT(tg_audit(&store, &count) == TG_DONE && count == 21);
    WANT(tg_close(&store) == TG_DONE);
}

/* Two full nurseries of one block each, of which next to nothing is reached any more. Garbage takes no room in a collection. */
static void heap_of_garbage(void) {
    const tg_limits narrow = { 1000, 8, 1 };
    tg_store store = TG_STORE_INIT;
    uint64_t made[128], name, left;
    size_t count = 0;
    WANT(tg_open(&store, workers, 2, edges, 0, &narrow) == TG_DONE);
    for (uint64_t worker = 0; worker < 2; worker++) {
        size_t first = count;
        while (tg_create(&store, worker, TG_READ, &cell, &name) == TG_DONE)
            made[count++] = name;
        for (size_t i = first; i < count; i++)
            WANT(tg_remove(&store, worker, made[i], TG_READ, &why) == TG_DONE);
    }
    WANT(count > 64);
    WANT(tg_collect(&store, TG_FULL, &left) == TG_DONE && left == 2);
    WANT(tg_close(&store) == TG_DONE);
}

/* A log may keep 64 numbers, and then keeps the last 64. */
static void longest_log(void) {
    const tg_value longest = { TG_LOG, 64, 0 };
    tg_store store = TG_STORE_INIT;
    uint64_t name, count, entries;
    WANT(tg_open(&store, workers, 1, edges, 0, &limits) == TG_DONE);
    WANT(tg_create(&store, 0, TG_READ | TG_WRITE, &longest, &name) == TG_DONE);
    for (uint64_t i = 0; i < 70; i++)
        WANT(tg_write(&store, 0, name, i, &why) == TG_DONE);
    WANT(tg_read(&store, 0, name, numbers, 64, &count, &why) == TG_DONE && count == 64);
    for (uint64_t i = 0; i < 64; i++)
        WANT(numbers[i] == i + 6);
    WANT(tg_entries(&store, &entries) == TG_DONE && entries == 72);
    WANT(tg_audit(&store, &count) == TG_DONE && count == entries);
    WANT(tg_close(&store) == TG_DONE);
}

/* ---- what could come about */

static const uint64_t host[1] = { 0 };

/* Whether the question is refused by this status, alone and after another question, and the answer is as it was. */
static int is_unanswered(tg_store *store, const uint64_t *silent, size_t count, tg_edge supposed, uint64_t right, tg_status status) {
    const tg_question asked[2] = { { 0, TG_READ, 1 }, { 1, right, 0 } };
    tg_answer answer = TG_ANSWER_INIT;
    uint64_t kind = UNTOUCHED, at = UNTOUCHED;
    return tg_could(store, silent, count, &supposed, 1, 1, right, 0, &answer) == status && !answer.is_open && answer.handle.at == NULL
        && tg_could_kind(store, silent, count, &supposed, 1, 1, right, 0, &kind) == status && kind == UNTOUCHED
        && tg_could_any(store, silent, count, &supposed, 1, asked, 2, &at, &answer) == status && at == UNTOUCHED && !answer.is_open
        && answer.handle.at == NULL;
}

/* Whether an answer is of this kind, with so many turns and names. */
static int says(tg_answer *answer, uint64_t kind, uint64_t turns, uint64_t names) {
    uint64_t told = UNTOUCHED, count = UNTOUCHED, wanting = UNTOUCHED;
    return tg_answer_kind(answer, &told) == TG_DONE && told == kind && tg_answer_turns(answer, &count) == TG_DONE && count == turns
        && tg_answer_names(answer, &wanting) == TG_DONE && wanting == names;
}

static void closed_answers(void) {
    tg_store store = TG_STORE_INIT;
    tg_answer answer = TG_ANSWER_INIT;
    tg_record turn, before;
    memset(&turn, UNTOUCHED, sizeof turn);
    before = turn;
    WANT(tg_could(&store, NULL, 0, NULL, 0, 0, TG_READ, 1, &answer) == TG_NOT_OPEN);
    WANT(tg_could_kind(&store, NULL, 0, NULL, 0, 0, TG_READ, 1, &number) == TG_NOT_OPEN && is_untouched());
    WANT(tg_could_any(&store, NULL, 0, NULL, 0, NULL, 0, &number, &answer) == TG_NOT_OPEN && is_untouched());
    WANT(tg_answer_kind(&answer, &number) == TG_NOT_OPEN && tg_answer_names(&answer, &number) == TG_NOT_OPEN);
    WANT(tg_answer_turns(&answer, &number) == TG_NOT_OPEN && is_untouched());
    WANT(tg_answer_turn(&answer, 0, &turn, NULL, 0) == TG_NOT_OPEN && memcmp(&turn, &before, sizeof turn) == 0);
    WANT(tg_answer_close(&answer) == TG_NOT_OPEN && !answer.is_open && answer.handle.at == NULL);
}

static void bad_questions(tg_store *store) {
    static const uint64_t strangers[2] = { 0, 3 };
    static const tg_edge fine = { 1, 0, TG_READ }, empty = { 1, 0, 0 }, loop = { 1, 1, TG_READ }, far = { 1, 9, TG_READ };
    WANT(is_unanswered(store, strangers, 2, fine, 0, TG_BAD_RIGHTS));
    WANT(is_unanswered(store, strangers, 2, fine, TG_READ | TG_WRITE, TG_BAD_RIGHTS));
    WANT(is_unanswered(store, strangers, 2, fine, 256, TG_BAD_RIGHTS));
    WANT(is_unanswered(store, strangers, 2, empty, TG_READ, TG_BAD_RIGHTS));
    WANT(is_unanswered(store, strangers, 2, loop, TG_READ, TG_NO_SUCH_WORKER));
    WANT(is_unanswered(store, host, 1, loop, TG_READ, TG_BAD_EDGE));
    WANT(is_unanswered(store, host, 1, far, TG_READ, TG_BAD_EDGE));
}

/* Whether this is the turn by which 1 takes w over the document from 0. */
static int is_take(const tg_record *turn, uint64_t document) {
    return turn->deed == TG_DEED_TAKE && turn->via == 0 && turn->target == document && turn->rights == TG_WRITE && turn->law == 0
        && turn->most == 0 && turn->value == 0 && turn->number_count == 0;
}

/* All turns are those of 1, who takes w once, and the record says nothing of a reply. */
static void turns_of_one(tg_answer *answer, uint64_t document) {
    tg_record turn, before;
    uint64_t room[1] = { UNTOUCHED }, kind, count = 0, takes = 0;
    WANT(tg_answer_kind(answer, &kind) == TG_DONE && kind == TG_COULD);
    WANT(tg_answer_turns(answer, &count) == TG_DONE && count > 0 && says(answer, TG_COULD, count, 0));
    for (uint64_t at = 0; at < count; at++) {
        WANT(tg_answer_turn(answer, at, &turn, room, 1) == TG_DONE && turn.worker == 1 && turn.reply == TG_REPLY_DONE);
        WANT(turn.name == 0 && turn.denial.rights == 0 && turn.edge_count == 0);
        takes += (uint64_t)is_take(&turn, document);
    }
    WANT(takes == 1);
    before = turn;
    room[0] = UNTOUCHED;
    WANT(tg_answer_turn(answer, count, &turn, room, 1) == TG_BAD_PLACE && memcmp(&turn, &before, sizeof turn) == 0);
    WANT(tg_answer_turn(answer, UINT64_MAX, &turn, room, 1) == TG_BAD_PLACE && room[0] == UNTOUCHED);
}

/* A host asks about a grant before it makes it. The store has no entry of it. */
static void questions(void) {
    static const tg_edge supposed[1] = { { 1, 0, TG_TAKE } };
    tg_store store = TG_STORE_INIT;
    tg_answer answer = TG_ANSWER_INIT, kept;
    uint64_t document, entries, left;
    WANT(tg_open(&store, workers, 2, edges, 0, &limits) == TG_DONE);
    WANT(tg_create(&store, 0, TG_WRITE, &cell, &document) == TG_DONE);
    bad_questions(&store);
    WANT(tg_could(&store, host, 1, NULL, 0, 1, TG_WRITE, document, &answer) == TG_DONE && says(&answer, TG_NEVER, 0, 0));
    kept = answer;
    WANT(tg_could(&store, host, 1, NULL, 0, 1, TG_WRITE, document, &answer) == TG_ALREADY_OPEN);
    WANT(tg_could(&store, host, 1, NULL, 0, 1, 0, document, &answer) == TG_BAD_RIGHTS);
    WANT(answer.is_open && answer.handle.at == kept.handle.at && says(&answer, TG_NEVER, 0, 0));
    WANT(tg_answer_close(&answer) == TG_DONE && !answer.is_open && answer.handle.at == NULL);
    WANT(tg_could(&store, host, 1, supposed, 1, 1, TG_WRITE, document, &answer) == TG_DONE);
    turns_of_one(&answer, document);
    WANT(tg_answer_close(&answer) == TG_DONE);
    WANT(tg_could(&store, NULL, 0, NULL, 0, 0, TG_WRITE, document, &answer) == TG_DONE && says(&answer, TG_NOW, 0, 0));
    WANT(tg_answer_close(&answer) == TG_DONE);
    WANT(tg_retire(&store, 1) == TG_DONE && tg_collect(&store, TG_FULL, &left) == TG_DONE && left == 2);
    WANT(tg_could(&store, NULL, 0, NULL, 0, 1, TG_WRITE, document, &answer) == TG_DONE && says(&answer, TG_UNREACHED, 0, 0));
    WANT(tg_entries(&store, &entries) == TG_DONE && entries == 2);
    WANT(tg_close(&store) == TG_DONE && says(&answer, TG_UNREACHED, 0, 0) && tg_answer_close(&answer) == TG_DONE);
}

/* Whether the kind of the answer, without the answer, is this one. */
static int is_kind(tg_store *store, const uint64_t *silent, size_t count, uint64_t x, uint64_t right, uint64_t y, uint64_t wanted) {
    uint64_t kind = UNTOUCHED;
    return tg_could_kind(store, silent, count, NULL, 0, x, right, y, &kind) == TG_DONE && kind == wanted;
}

/* A policy of many questions: the first that isn't answered never is reported, with its answer. */
static void policies(void) {
    static const tg_edge supposed[1] = { { 1, 0, TG_TAKE } };
    tg_store store = TG_STORE_INIT;
    tg_answer answer = TG_ANSWER_INIT;
    uint64_t document, at = UNTOUCHED, entries;
    WANT(tg_open(&store, workers, 2, edges, 0, &limits) == TG_DONE);
    WANT(tg_create(&store, 0, TG_READ | TG_WRITE, &cell, &document) == TG_DONE);
    const tg_question asked[4] = { { 1, TG_READ, document }, { 0, TG_READ, 1 }, { 1, TG_WRITE, document }, { 0, TG_WRITE, document } };
    WANT(tg_could_any(&store, host, 1, NULL, 0, NULL, 0, &at, &answer) == TG_DONE && at == 0 && !answer.is_open);
    WANT(tg_could_any(&store, host, 1, NULL, 0, asked, 3, &at, &answer) == TG_DONE && at == 3 && !answer.is_open);
    WANT(tg_could_any(&store, host, 1, NULL, 0, asked, 4, &at, &answer) == TG_DONE && at == 3 && says(&answer, TG_NOW, 0, 0));
    at = UNTOUCHED;
    WANT(tg_could_any(&store, host, 1, NULL, 0, asked, 4, &at, &answer) == TG_ALREADY_OPEN && at == UNTOUCHED);
    WANT(says(&answer, TG_NOW, 0, 0) && tg_answer_close(&answer) == TG_DONE);
    WANT(tg_could_any(&store, host, 1, supposed, 1, asked + 1, 3, &at, &answer) == TG_DONE && at == 1);
    turns_of_one(&answer, document);
    WANT(tg_answer_close(&answer) == TG_DONE);
    WANT(is_kind(&store, host, 1, 1, TG_WRITE, document, TG_NEVER) && is_kind(&store, NULL, 0, 0, TG_WRITE, document, TG_NOW));
    WANT(is_kind(&store, NULL, 0, 1, TG_READ, 3, TG_COULD));
    /* Who isn't reached keeps what it holds, so a policy doesn't pass it. */
    WANT(tg_retire(&store, 1) == TG_DONE && is_kind(&store, NULL, 0, 1, TG_WRITE, document, TG_UNREACHED));
    WANT(tg_could_any(&store, host, 1, NULL, 0, asked, 3, &at, &answer) == TG_DONE && at == 0 && says(&answer, TG_UNREACHED, 0, 0));
    WANT(tg_entries(&store, &entries) == TG_DONE && entries == 2);
    WANT(tg_close(&store) == TG_DONE && tg_answer_close(&answer) == TG_DONE);
}

/* A name after more than 65,536 other names has no turns, because they would make all of these. The next name has some. */
static void far_names(void) {
    static const tg_limits lasting = { (uint64_t)1 << 48, 8, 4 };
    static const uint64_t both[2] = { 0, 1 };
    const uint64_t far = (uint64_t)1 << 40;
    tg_store store = TG_STORE_INIT;
    tg_answer answer = TG_ANSWER_INIT;
    uint64_t kind = UNTOUCHED;
    WANT(tg_open(&store, workers, 2, edges, 0, &lasting) == TG_DONE);
    WANT(tg_could(&store, NULL, 0, NULL, 0, 0, TG_READ, far, &answer) == TG_DONE && says(&answer, TG_OPEN, 0, 0));
    WANT(tg_answer_close(&answer) == TG_DONE);
    WANT(tg_could(&store, NULL, 0, NULL, 0, far, TG_READ, 0, &answer) == TG_DONE && says(&answer, TG_NEVER, 0, 0));
    WANT(tg_answer_close(&answer) == TG_DONE);
    WANT(tg_could(&store, both, 2, NULL, 0, 0, TG_READ, far, &answer) == TG_DONE && says(&answer, TG_NEVER, 0, 0));
    WANT(tg_answer_close(&answer) == TG_DONE);
    WANT(tg_could(&store, NULL, 0, NULL, 0, 0, TG_READ, 2, &answer) == TG_DONE);
    WANT(tg_answer_kind(&answer, &kind) == TG_DONE && kind == TG_COULD);
    WANT(tg_answer_close(&answer) == TG_DONE && tg_close(&store) == TG_DONE);
}

/* Whether no view is opened for this status, and its place is as it was. */
static int is_unseen(tg_store *store, const uint64_t *silent, size_t count, tg_edge supposed, tg_status status) {
    tg_view view = TG_VIEW_INIT;
    return tg_view_open(store, silent, count, &supposed, 1, &view) == status && !view.is_open && view.handle.at == NULL;
}

/* Whether the view answers this to the question whether x could come to write y. */
static int sees(tg_view *view, uint64_t x, uint64_t y, uint64_t kind) {
    uint64_t told = UNTOUCHED;
    return tg_view_could(view, x, TG_WRITE, y, &told) == TG_DONE && told == kind;
}

/* Whether the view answers this, or is refused by this status, as if the edge were there too. */
static int sees_as_if(tg_view *view, tg_edge edge, uint64_t x, uint64_t right, uint64_t y, tg_status status, uint64_t kind) {
    uint64_t told = UNTOUCHED;
    return tg_view_could_as_if(view, &edge, 1, x, right, y, &told) == status && told == kind;
}

/* Whether the view follows an edge or not, or is refused by this status. */
static int follows(tg_view *view, tg_edge edge, tg_status status, uint64_t wanted) {
    uint64_t followed = UNTOUCHED;
    return tg_view_follow(view, &edge, &followed) == status && followed == wanted;
}

/* Whether a question about these rights is refused, and has no answer. */
static int is_untold(tg_view *view, uint64_t rights) {
    uint64_t told = UNTOUCHED;
    return tg_view_could(view, 1, rights, 0, &told) == TG_BAD_RIGHTS && told == UNTOUCHED;
}

static void closed_views(void) {
    tg_store store = TG_STORE_INIT;
    tg_view view = TG_VIEW_INIT;
    WANT(tg_view_open(&store, NULL, 0, NULL, 0, &view) == TG_NOT_OPEN && !view.is_open && view.handle.at == NULL);
    WANT(tg_view_could(&view, 0, TG_READ, 1, &number) == TG_NOT_OPEN && is_untouched());
    WANT(tg_view_could(&view, 0, TG_READ | TG_WRITE, 1, &number) == TG_BAD_RIGHTS && is_untouched());
    WANT(tg_view_could_as_if(&view, NULL, 0, 0, TG_READ, 1, &number) == TG_NOT_OPEN && is_untouched());
    WANT(follows(&view, (tg_edge){ 0, 1, TG_READ }, TG_NOT_OPEN, UNTOUCHED) && follows(&view, (tg_edge){ 0, 1, 0 }, TG_BAD_RIGHTS, UNTOUCHED));
    WANT(sees_as_if(&view, (tg_edge){ 0, 1, 0 }, 0, TG_READ, 1, TG_BAD_RIGHTS, UNTOUCHED));
    WANT(sees_as_if(&view, (tg_edge){ 0, 1, TG_READ }, 0, 0, 1, TG_BAD_RIGHTS, UNTOUCHED));
    WANT(tg_view_close(&view) == TG_NOT_OPEN && !view.is_open && view.handle.at == NULL);
}

static void bad_views(tg_store *store) {
    static const uint64_t strangers[2] = { 0, 3 };
    static const tg_edge empty = { 1, 0, 0 }, loop = { 1, 1, TG_READ }, far = { 1, 9, TG_READ };
    WANT(is_unseen(store, strangers, 2, empty, TG_BAD_RIGHTS));
    WANT(is_unseen(store, strangers, 2, loop, TG_NO_SUCH_WORKER));
    WANT(is_unseen(store, host, 1, loop, TG_BAD_EDGE));
    WANT(is_unseen(store, host, 1, far, TG_BAD_EDGE));
}

/* A view answers many questions, as of the moment when it was opened, and outlives its store. */
static void views(void) {
    static const tg_edge supposed[1] = { { 1, 0, TG_TAKE } };
    tg_store store = TG_STORE_INIT;
    tg_view view = TG_VIEW_INIT, other = TG_VIEW_INIT, kept;
    uint64_t document, entries, left;
    tg_denial why;
    WANT(tg_open(&store, workers, 2, edges, 2, &limits) == TG_DONE);
    WANT(tg_create(&store, 0, TG_WRITE, &cell, &document) == TG_DONE);
    bad_views(&store);
    WANT(tg_view_open(&store, host, 1, NULL, 0, &view) == TG_DONE && view.is_open && view.handle.at != NULL);
    kept = view;
    WANT(tg_view_open(&store, host, 1, NULL, 0, &view) == TG_ALREADY_OPEN);
    WANT(tg_view_open(&store, host, 1, &(tg_edge){ 1, 0, 0 }, 1, &view) == TG_BAD_RIGHTS);
    WANT(view.is_open && view.handle.at == kept.handle.at && sees(&view, 1, document, TG_NEVER));
    WANT(sees(&view, 0, document, TG_PERHAPS) && sees(&view, document, 0, TG_NEVER) && sees(&view, UINT64_MAX, 0, TG_NEVER));
    WANT(is_untold(&view, 0) && is_untold(&view, TG_READ | TG_WRITE) && is_untold(&view, 256));
    WANT(sees_as_if(&view, (tg_edge){ 1, document, TG_READ }, 1, TG_WRITE, document, TG_DONE, TG_NEVER));
    WANT(sees_as_if(&view, (tg_edge){ 1, document, TG_READ }, 1, TG_READ, document, TG_DONE, TG_PERHAPS));
    WANT(sees_as_if(&view, supposed[0], 1, TG_WRITE, document, TG_DONE, TG_PERHAPS) && sees(&view, 1, document, TG_NEVER));
    WANT(sees_as_if(&view, (tg_edge){ 1, 1, TG_READ }, 1, TG_READ, document, TG_BAD_EDGE, UNTOUCHED));
    WANT(sees_as_if(&view, (tg_edge){ 9, 1, TG_READ }, 1, TG_READ, document, TG_BAD_EDGE, UNTOUCHED));
    WANT(tg_view_open(&store, host, 1, supposed, 1, &other) == TG_DONE && sees(&other, 1, document, TG_PERHAPS));
    WANT(tg_view_close(&other) == TG_DONE && !other.is_open && other.handle.at == NULL);
    WANT(tg_retire(&store, 1) == TG_DONE && tg_remove(&store, 0, 1, edges[0].rights, &why) == TG_DONE);
    WANT(tg_view_open(&store, NULL, 0, NULL, 0, &other) == TG_DONE && sees(&other, 1, document, TG_UNREACHED));
    WANT(tg_collect(&store, TG_FULL, &left) == TG_DONE && left == 2 && sees(&other, 1, document, TG_UNREACHED));
    WANT(tg_entries(&store, &entries) == TG_DONE && entries == 3 && tg_retire(&store, 0) == TG_DONE);
    WANT(tg_view_close(&other) == TG_DONE && tg_view_open(&store, NULL, 0, NULL, 0, &other) == TG_DONE);
    WANT(sees(&other, 0, document, TG_UNREACHED) && sees(&other, document + 1, 0, TG_NEVER));
    WANT(tg_close(&store) == TG_DONE && sees(&view, 1, document, TG_NEVER));
    WANT(tg_view_close(&view) == TG_DONE && tg_view_close(&other) == TG_DONE && tg_view_close(&view) == TG_NOT_OPEN);
}

/* A view goes on with the edge of a grant that joins none of its parts, and stays as it was otherwise. */
static void followed_views(void) {
    tg_store store = TG_STORE_INIT;
    tg_view view = TG_VIEW_INIT;
    uint64_t document, kind = UNTOUCHED;
    WANT(tg_open(&store, workers, 2, (tg_edge[1]){ { 0, 1, TG_GRANT } }, 1, &limits) == TG_DONE);
    WANT(tg_create(&store, 0, TG_READ | TG_WRITE, &cell, &document) == TG_DONE);
    WANT(tg_view_open(&store, host, 1, NULL, 0, &view) == TG_DONE && sees(&view, 1, document, TG_NEVER));
    WANT(follows(&view, (tg_edge){ 1, 1, TG_READ }, TG_BAD_EDGE, UNTOUCHED) && follows(&view, (tg_edge){ 1, 9, TG_READ }, TG_BAD_EDGE, UNTOUCHED));
    WANT(follows(&view, (tg_edge){ 1, document, 256 }, TG_BAD_RIGHTS, UNTOUCHED) && sees(&view, 1, document, TG_NEVER));
    WANT(tg_grant(&store, 0, 1, document, TG_READ, NULL) == TG_DONE);
    WANT(follows(&view, (tg_edge){ 1, document, TG_READ }, TG_DONE, 1) && sees(&view, 1, document, TG_NEVER));
    WANT(tg_view_could(&view, 1, TG_READ, document, &kind) == TG_DONE && kind == TG_PERHAPS);
    WANT(follows(&view, (tg_edge){ 1, 0, TG_TAKE }, TG_DONE, 0) && sees(&view, 1, document, TG_NEVER));
    WANT(tg_close(&store) == TG_DONE && tg_view_close(&view) == TG_DONE);
}

/* No name is left: the turns make vertices, of which an entry's numbers are read. */
static void names_wanting(void) {
    static const tg_edge taker[1] = { { 1, 0, TG_TAKE } };
    static const tg_limits few = { 3, 8, 4 };
    tg_store store = TG_STORE_INIT;
    tg_answer answer = TG_ANSWER_INIT;
    tg_record turn;
    uint64_t document, kind, names, count, made = 0, room[1];
    WANT(tg_open(&store, workers, 2, taker, 1, &few) == TG_DONE && tg_create(&store, 1, TG_READ, &cell, &document) == TG_DONE);
    WANT(tg_could(&store, NULL, 0, NULL, 0, 0, TG_READ, document, &answer) == TG_DONE);
    WANT(tg_answer_kind(&answer, &kind) == TG_DONE && kind == TG_WANTS_NAMES);
    WANT(tg_answer_names(&answer, &names) == TG_DONE && tg_answer_turns(&answer, &count) == TG_DONE && count > names && names > 0);
    for (uint64_t at = 0; at < count; at++) {
        room[0] = UNTOUCHED;
        WANT(tg_answer_turn(&answer, at, &turn, room, 1) == TG_DONE);
        WANT(turn.number_count == (turn.deed == TG_DEED_CREATE) && (room[0] == UNTOUCHED) == (turn.number_count == 0));
        made += (uint64_t)(turn.deed == TG_DEED_CREATE);
    }
    WANT(made == names && tg_close(&store) == TG_DONE && tg_answer_close(&answer) == TG_DONE);
}

/* ---- a store that is resumed from entries */

/* An entry as tg_entry writes it, with all of its numbers and edges. */
struct kept {
    tg_record entry;
    uint64_t numbers[64];
    tg_target edges[64];
};

enum { MOST_KEPT = 40 };

static struct kept kept[MOST_KEPT];

/* Keeps all entries of a store, and returns how many there are. */
static uint64_t keep(tg_store *store) {
    uint64_t count;
    WANT(tg_entries(store, &count) == TG_DONE && count <= MOST_KEPT);
    for (uint64_t at = 0; at < count; at++)
        WANT(tg_entry(store, at, &kept[at].entry, kept[at].numbers, 64, kept[at].edges, 64) == TG_DONE);
    return count;
}

static tg_status hand_in(tg_store *store, uint64_t at, const struct kept *it) {
    return tg_resume(store, at, &it->entry, it->numbers, it->entry.number_count, it->edges, it->entry.edge_count);
}

/* Opens a store that has the first so many of the kept entries. */
static void resume_upto(tg_store *store, uint64_t count) {
    WANT(tg_open(store, workers, 2, edges, 2, &limits) == TG_DONE);
    for (uint64_t at = 0; at < count; at++)
        WANT(hand_in(store, at, &kept[at]) == TG_DONE);
}

/* Whether the store has exactly the first so many of the kept entries. */
static int has_kept(tg_store *store, uint64_t count) {
    struct kept own;
    uint64_t entries;
    if (tg_entries(store, &entries) != TG_DONE || entries != count)
        return 0;
    for (uint64_t at = 0; at < count; at++) {
        memset(&own, 0, sizeof own);
        WANT(tg_entry(store, at, &own.entry, own.numbers, 64, own.edges, 64) == TG_DONE);
        if (memcmp(&own, &kept[at], sizeof own) != 0)
            return 0;
    }
    return 1;
}

/* A store that asks for each deed, is answered by each reply, and then by 12 vertices has no name left. */
static void tell_of_each(tg_store *store) {
    static const tg_value values[4] = { { TG_CELL, 0, 7 }, { TG_SUM, 0, 40 }, { TG_MAX, 0, 5 }, { TG_LOG, 2, 0 } };
    uint64_t name, count;
    tg_target row[8];
    tg_denial denial;
    for (int i = 0; i < 4; i++)
        WANT(tg_create(store, 0, TG_READ | TG_WRITE | TG_APPEND | TG_INSPECT, &values[i], &name) == TG_DONE);
    WANT(tg_grant(store, 0, 1, 2, TG_READ, &denial) == TG_DONE);
    WANT(tg_take(store, 0, 1, 2, TG_READ, &denial) == TG_DONE);
    WANT(tg_write(store, 0, 3, 2, &denial) == TG_DONE && tg_append(store, 0, 5, 9, &denial) == TG_DONE);
    WANT(tg_append(store, 0, 5, 8, &denial) == TG_DONE && tg_append(store, 0, 2, 8, &denial) == TG_DENIED);
    WANT(tg_read(store, 0, 5, numbers, 64, &count, &denial) == TG_DONE && count == 2);
    WANT(tg_read(store, 1, 3, numbers, 64, &count, &denial) == TG_DENIED && tg_take(store, 0, 0, 2, TG_READ, &denial) == TG_DENIED);
    WANT(tg_list(store, 0, row, 8, &count) == TG_DONE && count == 5);
    WANT(tg_inspect(store, 0, 2, row, 8, &count, &denial) == TG_DONE && count == 0);
    WANT(tg_spawn(store, 0, TG_GRANT, &cell, &name) == TG_DONE && name == 6);
    WANT(tg_remove(store, 0, 6, TG_GRANT, &denial) == TG_DONE && tg_retire(store, 6) == TG_DONE);
    while (tg_create(store, 1, TG_READ, &cell, &name) == TG_DONE)
        continue;
    WANT(tg_spawn(store, 0, TG_GRANT, &cell, &name) == TG_VERTICES_FULL);
}

/* The entry is refused by this status after the first `at` of them. After TG_BAD_ENTRY nothing is left, else the store is as it was. */
static void is_refused(uint64_t at, const struct kept *it, tg_status status) {
    tg_store store = TG_STORE_INIT;
    resume_upto(&store, at);
    WANT(hand_in(&store, at, it) == status);
    WANT(store.is_open == (status != TG_BAD_ENTRY));
    if (status == TG_BAD_ENTRY)
        WANT(store.handle.at == NULL && tg_close(&store) == TG_NOT_OPEN);
    else
        WANT(has_kept(&store, at) && hand_in(&store, at, &kept[at]) == TG_DONE && tg_close(&store) == TG_DONE);
}

/* Each field of each entry is altered in turn. What comes is another entry, which isn't legal, or none. */
static void each_field_altered(uint64_t count) {
    uint64_t bad = 0, none = 0;
    for (uint64_t at = 0; at < count; at++)
        for (size_t byte = 0; byte < sizeof(tg_record); byte += 4) {
            struct kept it = kept[at];
            tg_store store = TG_STORE_INIT;
            const size_t number_count = it.entry.number_count, edge_count = it.entry.edge_count;
            ((unsigned char *)&it.entry)[byte] ^= 1;
            resume_upto(&store, at);
            tg_status status = tg_resume(&store, at, &it.entry, it.numbers, number_count, it.edges, edge_count);
            /* Another vertex may be named by a deed that is answered in the same way. Then the entry is legal. */
            WANT(status == TG_BAD_ENTRY || status == TG_BAD_VALUES || status == TG_DONE);
            WANT(status != TG_DONE || kept[at].entry.deed <= TG_DEED_INSPECT || kept[at].entry.deed >= TG_DEED_CREATE);
            bad += status == TG_BAD_ENTRY;
            none += status == TG_BAD_VALUES;
            tg_close(&store);
        }
    WANT(bad > count && none > 10 * count);
}

/* The numbers that were read and the edges that were listed are compared too. */
static void lists_altered(uint64_t count) {
    for (uint64_t at = 0; at < count; at++) {
        struct kept it = kept[at];
        if (it.entry.reply == TG_REPLY_VALUES) {
            it.numbers[1] ^= 1;
            is_refused(at, &it, TG_BAD_ENTRY);
            it.entry.number_count--;
            is_refused(at, &it, TG_BAD_ENTRY);
        }
        if (it.entry.reply == TG_REPLY_EDGES && it.entry.edge_count > 0) {
            it.edges[1].to ^= 1;
            is_refused(at, &it, TG_BAD_ENTRY);
            it.edges[1].rights = 0;
            is_refused(at, &it, TG_BAD_VALUES);
            it.edges[1].rights = 256;
            is_refused(at, &it, TG_BAD_VALUES);
        }
        it = kept[at];
        it.entry.worker = 2;
        is_refused(at, &it, TG_BAD_ENTRY);
    }
}

/* Whether the entry with other counts than its record's is none. */
static void bad_counts(uint64_t count) {
    tg_store store = TG_STORE_INIT;
    resume_upto(&store, 0);
    for (uint64_t at = 0; at < count; at++) {
        const struct kept *it = &kept[at];
        const size_t number_count = it->entry.number_count, edge_count = it->entry.edge_count;
        WANT(tg_resume(&store, at, &it->entry, it->numbers, number_count + 1, it->edges, edge_count) == TG_BAD_VALUES);
        WANT(edge_count >= 64 || tg_resume(&store, at, &it->entry, it->numbers, number_count, it->edges, edge_count + 1) == TG_BAD_VALUES);
    }
    WANT(has_kept(&store, 0) && tg_close(&store) == TG_DONE);
    WANT(tg_resume(&store, 0, &kept[0].entry, NULL, 0, NULL, 0) == TG_BAD_VALUES);
    WANT(hand_in(&store, 0, &kept[0]) == TG_NOT_OPEN && !store.is_open && store.handle.at == NULL);
}

/* A store whose entries were kept goes on in another place, and is asked the same as the first store. */
static void resumed(void) {
    tg_store first = TG_STORE_INIT, second = TG_STORE_INIT;
    const tg_edge other[2] = { { 0, 1, TG_TAKE | TG_GRANT }, { 1, 0, TG_INSPECT } };
    uint64_t count, left;
    memset(kept, 0, sizeof kept);
    WANT(tg_open(&first, workers, 2, edges, 2, &limits) == TG_DONE);
    tell_of_each(&first);
    count = keep(&first);
    resume_upto(&second, count);
    WANT(has_kept(&second, count) && tg_audit(&second, &left) == TG_DONE && left == count);
    for (uint64_t at = 0; at < count; at++)
        WANT(hand_in(&second, at, &kept[at]) == TG_BAD_PLACE);
    WANT(hand_in(&second, count + 1, &kept[0]) == TG_BAD_PLACE && has_kept(&second, count));
    WANT(tg_write(&first, 0, 3, 5, &why) == TG_DONE && tg_write(&second, 0, 3, 5, &why) == TG_DONE);
    WANT(tg_collect(&second, TG_FULL, &left) == TG_DONE && keep(&first) == count + 1 && has_kept(&second, count + 1));
    WANT(tg_close(&first) == TG_DONE && tg_close(&second) == TG_DONE);
    each_field_altered(count);
    lists_altered(count);
    bad_counts(count);
    WANT(tg_open(&second, workers, 2, other, 2, &limits) == TG_DONE);
    for (uint64_t at = 0; at < 4; at++)
        WANT(hand_in(&second, at, &kept[at]) == TG_DONE);
    WANT(tg_close(&second) == TG_DONE);
}

/* A heap that is full of what nobody reaches is collected on the way. With too few blocks for what is reached the store says so, keeps
   what it has, and another one with more goes on. */
static void resumed_in_a_full_heap(void) {
    static const tg_limits lasting = { 1000, 3, 1 };
    tg_store first = TG_STORE_INIT, second = TG_STORE_INIT;
    uint64_t name, left, entries = 0, none[1];
    struct kept it;
    tg_counts census;
    memset(&it, 0, sizeof it);
    WANT(tg_open(&first, workers, 1, edges, 0, &lasting) == TG_DONE);
    WANT(tg_open(&second, workers, 1, edges, 0, &lasting) == TG_DONE);
    for (int i = 0; i < 500; i++) {
        if (tg_create(&first, 0, TG_READ, &cell, &name) == TG_HEAP_FULL)
            WANT(tg_collect(&first, TG_FULL, &left) == TG_DONE && tg_create(&first, 0, TG_READ, &cell, &name) == TG_DONE);
        WANT(tg_remove(&first, 0, name, TG_READ, NULL) == TG_DONE);
    }
    WANT(tg_entries(&first, &entries) == TG_DONE && entries == 1000);
    for (uint64_t at = 0; at < entries; at++) {
        WANT(tg_entry(&first, at, &it.entry, it.numbers, 64, it.edges, 64) == TG_DONE);
        WANT(hand_in(&second, at, &it) == TG_DONE && tg_forget(&second, at + 1) == TG_DONE);
    }
    WANT(tg_census(&second, &census) == TG_DONE && census.full_collections > 0 && census.entries == entries && census.held == 0);
    WANT(tg_close(&first) == TG_DONE && tg_close(&second) == TG_DONE);
    WANT(tg_open(&first, workers, 1, edges, 0, &(tg_limits){ 1000, 64, 64 }) == TG_DONE);
    WANT(tg_open(&second, workers, 1, edges, 0, &lasting) == TG_DONE);
    tg_status status = TG_DONE;
    for (entries = 0; status == TG_DONE; entries++) {
        WANT(tg_create(&first, 0, TG_READ, &cell, &name) == TG_DONE && tg_entry(&first, entries, &it.entry, it.numbers, 64, it.edges, 64) == TG_DONE);
        status = hand_in(&second, entries, &it);
    }
    WANT(status == TG_HEAP_FULL && tg_entries(&second, none) == TG_DONE && none[0] == entries - 1);
    WANT(hand_in(&second, entries - 1, &it) == TG_HEAP_FULL && tg_remove(&second, 0, 1, TG_READ, NULL) == TG_DONE);
    WANT(tg_close(&first) == TG_DONE && tg_close(&second) == TG_DONE);
}

/* ---- the text of a history */

enum { LINE = 400 };

/* A call for a text, of which nothing but the room is left to say. */
struct asked_text {
    const tg_value *workers;
    size_t worker_count;
    const tg_edge *edges;
    size_t edge_count;
    const struct kept *it;
    uint64_t count;
};

static tg_status opening_of(const struct asked_text *of, char *text, size_t room, uint64_t *length) {
    return tg_opening_text(of->workers, of->worker_count, of->edges, of->edge_count, &limits, text, room, length);
}

static tg_status line_of(const struct asked_text *of, char *text, size_t room, uint64_t *length) {
    const tg_record *entry = &of->it->entry;
    return tg_entry_text(entry, of->it->numbers, entry->number_count, of->it->edges, entry->edge_count, text, room, length);
}

static tg_status end_of(const struct asked_text *of, char *text, size_t room, uint64_t *length) {
    return tg_end_text(of->count, text, room, length);
}

/* That a call writes this text, and cuts it where there is less room. */
static void is_written(tg_status (*call)(const struct asked_text *, char *, size_t, uint64_t *), struct asked_text of, const char *wanted) {
    const size_t length = strlen(wanted);
    char text[LINE];
    uint64_t told;
    WANT(length < LINE - 2);
    for (size_t room = 0; room <= length + 2; room++) {
        const size_t kept = room == 0 ? 0 : length < room ? length : room - 1;
        memset(text, UNTOUCHED, sizeof text);
        told = UNTOUCHED;
        WANT(call(&of, room == 0 ? NULL : text, room, &told) == TG_DONE && told == length);
        WANT(memcmp(text, wanted, kept) == 0 && (room == 0 || text[kept] == '\0'));
        for (size_t i = room == 0 ? 0 : kept + 1; i < sizeof text; i++)
            WANT(text[i] == UNTOUCHED);
    }
}

/* That a call is refused by this status, and writes nothing. */
static void is_unwritten(tg_status (*call)(const struct asked_text *, char *, size_t, uint64_t *), struct asked_text of, tg_status status) {
    char text[LINE];
    uint64_t told = UNTOUCHED;
    memset(text, UNTOUCHED, sizeof text);
    WANT(call(&of, text, LINE, &told) == status && told == UNTOUCHED);
    for (size_t i = 0; i < sizeof text; i++)
        WANT(text[i] == UNTOUCHED);
    WANT(call(&of, NULL, 0, &told) == status && told == UNTOUCHED);
}

/* The lines of the store of tell_of_each, one for each of its first entries. */
static const char *const lines[] = {
    "0 create rwal c7 = ok 2\n", "0 create rwal s40 = ok 3\n", "0 create rwal m5 = ok 4\n", "0 create rwal l2 = ok 5\n",
    "0 grant 1 2 r = ok\n", "0 take 1 2 r = ok\n", "0 write 3 2 = ok\n", "0 append 5 9 = ok\n", "0 append 5 8 = ok\n",
    "0 append 2 8 = denied append law\n", "0 read 5 = ok 9 8\n", "1 read 3 = denied read 1->3 r\n",
    "0 take 0 2 r = denied take distinct\n", "0 list = ok 1:tg 2:rwal 3:rwal 4:rwal 5:rwal\n", "0 inspect 2 = ok\n",
    "0 spawn g c7 = ok 6\n", "0 remove 6 g = ok\n", "6 retire = ok\n"
};

static void texts_of_histories(void) {
    static const tg_value four[4] = { { TG_CELL, 0, 0 }, { TG_SUM, 0, UINT64_MAX }, { TG_MAX, 0, 5 }, { TG_LOG, 64, 0 } };
    static const tg_value no_law[2] = { { TG_CELL, 0, 0 }, { 4, 0, 0 } };
    static const tg_edge no_rights = { 0, 1, 0 }, to_itself = { 1, 1, TG_READ };
    const size_t count = sizeof lines / sizeof *lines;
    tg_store store = TG_STORE_INIT;
    uint64_t length = UNTOUCHED;
    struct kept other;
    is_written(opening_of, (struct asked_text){ four, 4, edges, 2, NULL, 0 },
               "kovshenul entries 1\nopening 4 12\nworker c0\nworker s18446744073709551615\nworker m5\nworker l64\nedge 0 1 tg\nedge 1 0 g\n");
    is_written(opening_of, (struct asked_text){ workers, 1, NULL, 0, NULL, 0 }, "kovshenul entries 1\nopening 1 12\nworker c0\n");
    is_unwritten(opening_of, (struct asked_text){ no_law, 2, &no_rights, 1, NULL, 0 }, TG_BAD_LAW);
    is_unwritten(opening_of, (struct asked_text){ NULL, 0, &no_rights, 1, NULL, 0 }, TG_BAD_RIGHTS);
    is_unwritten(opening_of, (struct asked_text){ NULL, 0, NULL, 0, NULL, 0 }, TG_BAD_WORKERS);
    is_unwritten(opening_of, (struct asked_text){ workers, 2, &to_itself, 1, NULL, 0 }, TG_BAD_EDGE);
    is_written(end_of, (struct asked_text){ NULL, 0, NULL, 0, NULL, 0 }, "entries 0\n");
    is_written(end_of, (struct asked_text){ NULL, 0, NULL, 0, NULL, UINT64_MAX }, "entries 18446744073709551615\n");
    memset(kept, 0, sizeof kept);
    WANT(tg_open(&store, workers, 2, edges, 2, &limits) == TG_DONE);
    tell_of_each(&store);
    WANT(keep(&store) == 25 && tg_close(&store) == TG_DONE);
    for (size_t at = 0; at < count; at++)
        is_written(line_of, (struct asked_text){ NULL, 0, NULL, 0, &kept[at], 0 }, lines[at]);
    is_written(line_of, (struct asked_text){ NULL, 0, NULL, 0, &kept[23], 0 }, "1 create r c7 = refused vertices\n");
    is_written(line_of, (struct asked_text){ NULL, 0, NULL, 0, &kept[24], 0 }, "0 spawn g c7 = refused vertices\n");
    other = kept[24];
    other.entry.reply = TG_REPLY_WORKERS_FULL;
    is_written(line_of, (struct asked_text){ NULL, 0, NULL, 0, &other, 0 }, "0 spawn g c7 = refused workers\n");
    for (size_t at = 0; at < count; at++) {
        other = kept[at];
        other.entry.deed = 7;
        is_unwritten(line_of, (struct asked_text){ NULL, 0, NULL, 0, &other, 0 }, TG_BAD_VALUES);
        other = kept[at];
        other.entry.denial.to++;
        other.entry.denial.rule = 7;
        is_unwritten(line_of, (struct asked_text){ NULL, 0, NULL, 0, &other, 0 }, TG_BAD_VALUES);
    }
    WANT(tg_entry_text(&kept[10].entry, NULL, 0, NULL, 0, NULL, 0, &length) == TG_BAD_VALUES && length == UNTOUCHED);
}

/* ---- snapshots */

static const char shown[] =
    "kovshenul picture 1\nmade 4 12 5\nworker 0\nworker 1\nvertex 0 c0\nvertex 1 c0\nvertex 2 s42\nvertex 3 l2:8\n"
    "edge 0 1 tg\nedge 0 2 rw\nedge 0 3 ra\nedge 1 0 g\nedge 1 2 r\npicture 9\n";

static void closed_snapshots(void) {
    tg_snapshot snapshot = TG_SNAPSHOT_INIT;
    tg_auditor auditor = TG_AUDITOR_INIT;
    char text[LINE] = "";
    uint64_t length = UNTOUCHED;
    WANT(tg_snapshot_close(&snapshot) == TG_NOT_OPEN && tg_snapshot_text(&snapshot, text, LINE, &length) == TG_NOT_OPEN);
    WANT(tg_auditor_snapshot(&auditor, &snapshot) == TG_NOT_OPEN && tg_auditor_reopen(&auditor, &snapshot) == TG_NOT_OPEN);
    WANT(text[0] == '\0' && length == UNTOUCHED && !snapshot.is_open && snapshot.handle.at == NULL && !auditor.is_open);
}

/* That the text isn't read, and which line is at fault. */
static void is_unread(const char *text, size_t length, uint64_t line) {
    tg_snapshot snapshot = TG_SNAPSHOT_INIT;
    uint64_t told = UNTOUCHED;
    WANT(tg_snapshot_read(&snapshot, text, length, &told) == TG_BAD_VALUES && told == line);
    WANT(!snapshot.is_open && snapshot.handle.at == NULL);
}

/* Each byte of the text of a snapshot is altered in turn. What is read then is another snapshot, which has the other text. */
static void each_byte_altered(void) {
    char text[sizeof shown], again[sizeof shown];
    uint64_t length, read = 0;
    for (size_t at = 0; at < sizeof shown - 1; at++) {
        tg_snapshot snapshot = TG_SNAPSHOT_INIT;
        memcpy(text, shown, sizeof shown);
        text[at] ^= 1;
        if (tg_snapshot_read(&snapshot, text, sizeof shown - 1, &length) != TG_DONE)
            continue;
        WANT(tg_snapshot_text(&snapshot, again, sizeof again, &length) == TG_DONE && length == sizeof shown - 1);
        WANT(strcmp(again, text) == 0 && tg_snapshot_close(&snapshot) == TG_DONE);
        read++;
    }
    WANT(read > 0 && read < 40);
    for (size_t cut = 0; cut < sizeof shown - 1; cut++) {
        uint64_t line = 1;
        for (size_t at = 0; at < cut; at++)
            line += shown[at] == '\n';
        is_unread(shown, cut, line);
    }
    is_unread(NULL, 0, 1);
    is_unread("kovshenul picture 2\n", 20, 1);
    is_unread("kovshenul picture 1\nmade 0 12 5\npicture 0\n", 42, 2);
    is_unread("kovshenul picture 1\nmade 2 12 5\nworker 0\npicture 0\n", 51, 3);
}

/* An auditor goes on from a snapshot of another one, and says what that one says. */
static void snapshots(void) {
    tg_store store = TG_STORE_INIT, fresh = TG_STORE_INIT;
    tg_auditor first = TG_AUDITOR_INIT, second = TG_AUDITOR_INIT;
    tg_snapshot snapshot = TG_SNAPSHOT_INIT, again = TG_SNAPSHOT_INIT;
    char text[LINE], other[LINE];
    uint64_t name, length, line = UNTOUCHED;
    WANT(tg_open(&store, workers, 2, edges, 2, &limits) == TG_DONE && tg_open(&fresh, workers, 2, edges, 2, &limits) == TG_DONE);
    WANT(tg_auditor_open(&first, workers, 2, edges, 2, &limits) == TG_DONE);
    WANT(tg_create(&store, 0, TG_READ | TG_WRITE, &sum, &name) == TG_DONE && tg_write(&store, 0, name, 2, &why) == TG_DONE);
    WANT(tg_grant(&store, 0, 1, name, TG_READ, &why) == TG_DONE);
    WANT(tg_create(&store, 0, TG_READ | TG_APPEND, &last_two, &name) == TG_DONE && tg_append(&store, 0, name, 8, &why) == TG_DONE);
    WANT(tg_auditor_feed(&first, &store, NULL) == TG_DONE);
    WANT(tg_auditor_snapshot(&first, &snapshot) == TG_DONE && snapshot.is_open && stands_at(&first, 5));
    WANT(tg_auditor_snapshot(&first, &snapshot) == TG_ALREADY_OPEN && tg_auditor_snapshot(&second, &snapshot) == TG_ALREADY_OPEN);
    WANT(tg_auditor_reopen(&first, &snapshot) == TG_ALREADY_OPEN && tg_auditor_reopen(&first, &again) == TG_ALREADY_OPEN);
    for (size_t room = 0; room < LINE; room++) {
        memset(text, UNTOUCHED, sizeof text);
        WANT(tg_snapshot_text(&snapshot, room == 0 ? NULL : text, room, &length) == TG_DONE && length == strlen(shown));
        WANT(room == 0 ? text[0] == UNTOUCHED : strlen(text) == (length < room ? length : room - 1) && memcmp(text, shown, strlen(text)) == 0);
    }
    WANT(tg_snapshot_read(&snapshot, shown, sizeof shown - 1, &line) == TG_ALREADY_OPEN && line == UNTOUCHED);
    WANT(tg_snapshot_read(&again, text, length, &line) == TG_DONE && line == UNTOUCHED && again.is_open);
    WANT(tg_auditor_reopen(&second, &again) == TG_DONE && stands_at(&second, 5) && again.is_open);
    WANT(tg_auditor_feed(&second, &fresh, &line) == TG_BAD_PLACE && line == UNTOUCHED);
    WANT(tg_forget(&store, 5) == TG_DONE && tg_read(&store, 1, 2, numbers, 64, &length, &why) == TG_DONE && numbers[0] == 42);
    WANT(tg_auditor_feed(&first, &store, NULL) == TG_DONE && tg_auditor_feed(&second, &store, NULL) == TG_DONE && stands_at(&second, 6));
    WANT(tg_snapshot_close(&snapshot) == TG_DONE && tg_snapshot_close(&again) == TG_DONE && !again.is_open && again.handle.at == NULL);
    WANT(tg_auditor_snapshot(&first, &snapshot) == TG_DONE && tg_auditor_snapshot(&second, &again) == TG_DONE);
    WANT(tg_snapshot_text(&snapshot, text, LINE, &length) == TG_DONE && tg_snapshot_text(&again, other, LINE, &length) == TG_DONE);
    WANT(strcmp(text, other) == 0 && strcmp(text, shown) != 0);
    WANT(tg_snapshot_close(&snapshot) == TG_DONE && tg_snapshot_close(&again) == TG_DONE);
    WANT(tg_auditor_close(&first) == TG_DONE && tg_auditor_close(&second) == TG_DONE);
    /* Without 1's right over the sum the read isn't legal. From then on the auditor has no snapshot. */
    memcpy(other, shown, sizeof shown);
    other[strstr(other, "edge 1 2 r") - other + 9] = 'w';
    WANT(tg_snapshot_read(&snapshot, other, sizeof shown - 1, &line) == TG_DONE && tg_auditor_reopen(&first, &snapshot) == TG_DONE);
    WANT(tg_auditor_feed(&first, &store, NULL) == TG_BAD_ENTRY && stands_at(&first, 5));
    WANT(tg_auditor_snapshot(&first, &again) == TG_BAD_ENTRY && !again.is_open && again.handle.at == NULL);
    WANT(tg_auditor_close(&first) == TG_DONE && tg_snapshot_close(&snapshot) == TG_DONE);
    WANT(tg_close(&store) == TG_DONE && tg_close(&fresh) == TG_DONE);
}

/* The parts of a snapshot's text, one after the other. */
static void parts_of_a_snapshot(void) {
    static const char text[] = "kovshenul picture 1\nmade 9 281474976710656 77\nworker 2\nvertex 2 c18446744073709551615\nvertex 5 s0\nvertex 6 m3\n"
                               "vertex 7 l4:1,2,3\nvertex 8 l64\nedge 2 5 rwtgaluv\nedge 2 7 v\npicture 7\n";
    static const tg_part wanted[] = {
        { TG_PART_COUNTS, 0, 0, 0, 0, 0, 0, 9, UINT64_C(1) << 48, 77, 0 },
        { TG_PART_WORKER, 0, 0, 2, 0, 0, 0, 0, 0, 0, 0 },
        { TG_PART_VERTEX, TG_CELL, 0, 2, 0, 0, 0, 0, 0, 0, 1 },
        { TG_PART_VERTEX, TG_SUM, 0, 5, 0, 0, 0, 0, 0, 0, 1 },
        { TG_PART_VERTEX, TG_MAX, 0, 6, 0, 0, 0, 0, 0, 0, 1 },
        { TG_PART_VERTEX, TG_LOG, 4, 7, 0, 0, 0, 0, 0, 0, 3 },
        { TG_PART_VERTEX, TG_LOG, 64, 8, 0, 0, 0, 0, 0, 0, 0 },
        { TG_PART_EDGE, 0, 0, 0, 2, 5, 255, 0, 0, 0, 0 },
        { TG_PART_EDGE, 0, 0, 0, 2, 7, TG_FREE_V, 0, 0, 0, 0 },
    };
    static const uint64_t first[] = { 0, 0, UINT64_MAX, 0, 3, 1, 0, 0, 0 };
    const size_t count = sizeof wanted / sizeof wanted[0], length = sizeof text - 1;
    size_t at = 0;
    tg_part part;
    for (size_t i = 0; i < count; i++) {
        numbers[0] = numbers[1] = UNTOUCHED;
        WANT(tg_snapshot_next(text, length, &at, &part, numbers, 1) == TG_DONE && memcmp(&part, &wanted[i], sizeof part) == 0);
        WANT(numbers[0] == (part.number_count > 0 ? first[i] : UNTOUCHED) && numbers[1] == UNTOUCHED);
    }
    size_t last = at;
    memset(&part, 7, sizeof part);
    WANT(tg_snapshot_next(text, length, &at, &part, numbers, 64) == TG_BAD_PLACE && at == last && part.kind == 0x07070707);
    WANT(tg_snapshot_next(text, length - 1, &at, &part, numbers, 64) == TG_BAD_VALUES && at == last && part.kind == 0x07070707);
    at = length + 1;
    WANT(tg_snapshot_next(text, length, &at, &part, NULL, 0) == TG_BAD_VALUES && at == length + 1);
    /* A text that is cut off anywhere ends with a part that is none. */
    for (size_t cut = 0; cut < length; cut++) {
        char *own = malloc(cut + 1);
        tg_status status = TG_DONE;
        WANT(own != NULL);
        memcpy(own, text, cut);
        for (at = 0; status == TG_DONE;)
            status = tg_snapshot_next(own, cut, &at, &part, numbers, 64);
        WANT(status == TG_BAD_VALUES && at <= cut);
        free(own);
    }
    static const char *const none[] = { "vertex 1 x1\n", "vertex 1 c18446744073709551616\n", "vertex 1 l4294967296\n", "vertex 1 c1,\n", "edge 1 2 \n",
                                        "edge 1 2 wr\n", "worker -1\n", "made 1 1 1\n", "vertex 1 l2:\n", "worker 1\r\n", "" };
    for (size_t i = 0; i < sizeof none / sizeof none[0]; i++) {
        char own[60];
        at = 1;
        snprintf(own, sizeof own, "\n%s", none[i]);
        WANT(tg_snapshot_next(own, strlen(own), &at, &part, numbers, 64) == TG_BAD_VALUES && at == 1);
    }
}

/* A store goes on from a snapshot, with its names, values and places. */
static void a_store_goes_on_from_a_snapshot(void) {
    static const char nobody[] = "kovshenul picture 1\nmade 1 12 0\npicture 0\n";
    tg_store store = TG_STORE_INIT;
    tg_auditor auditor = TG_AUDITOR_INIT;
    tg_snapshot snapshot = TG_SNAPSHOT_INIT;
    tg_record entry;
    tg_counts counts;
    tg_limits other = limits;
    uint64_t names[4], name, count, line;
    WANT(tg_reopen(&store, &snapshot, &limits) == TG_NOT_OPEN && !store.is_open && store.handle.at == NULL);
    WANT(tg_snapshot_read(&snapshot, nobody, sizeof nobody - 1, &line) == TG_DONE);
    WANT(tg_reopen(&store, &snapshot, &limits) == TG_BAD_WORKERS && tg_snapshot_close(&snapshot) == TG_DONE);
    WANT(tg_snapshot_read(&snapshot, shown, sizeof shown - 1, &line) == TG_DONE);
    other.max_vertices++;
    WANT(tg_reopen(&store, &snapshot, &other) == TG_BAD_LIMITS);
    other.max_vertices = 0;
    WANT(tg_reopen(&store, &snapshot, &other) == TG_BAD_LIMITS);
    other = limits;
    other.max_blocks = 0;
    WANT(tg_reopen(&store, &snapshot, &other) == TG_BAD_LIMITS);
    other.max_blocks = (1 << 20) + 1;
    WANT(tg_reopen(&store, &snapshot, &other) == TG_BAD_LIMITS);
    other = limits;
    other.max_space_blocks = 0;
    WANT(tg_reopen(&store, &snapshot, &other) == TG_BAD_LIMITS);
    WANT(!store.is_open && store.handle.at == NULL && snapshot.is_open);
    WANT(tg_reopen(&store, &snapshot, &limits) == TG_DONE && store.is_open && snapshot.is_open);
    WANT(tg_reopen(&store, &snapshot, &limits) == TG_ALREADY_OPEN);
    WANT(entries_of(&store) == 5 && tg_first(&store, &count) == TG_DONE && count == 5);
    WANT(tg_entry(&store, 4, &entry, NULL, 0, NULL, 0) == TG_BAD_PLACE && tg_audit(&store, &count) == TG_NOT_WHOLE);
    WANT(tg_subjects(&store, names, 4, &count) == TG_DONE && count == 2 && names[0] == 0 && names[1] == 1);
    WANT(tg_census(&store, &counts) == TG_DONE && counts.vertices == 4 && counts.payloads == 4 && counts.held == 0 && counts.denied == 0);
    WANT(tg_label(&store, 0, 1, &count) == TG_DONE && count == (TG_TAKE | TG_GRANT));
    WANT(tg_label(&store, 1, 2, &count) == TG_DONE && count == TG_READ);
    /* From here each command is answered as by the first store. */
    WANT(tg_read(&store, 1, 2, numbers, 64, &count, &why) == TG_DONE && count == 1 && numbers[0] == 42);
    WANT(tg_append(&store, 0, 3, 9, &why) == TG_DONE && tg_append(&store, 0, 3, 10, &why) == TG_DONE);
    WANT(tg_read(&store, 0, 3, numbers, 64, &count, &why) == TG_DONE && count == 2 && numbers[0] == 9 && numbers[1] == 10);
    WANT(tg_write(&store, 1, 2, 1, &why) == TG_DENIED && why.rights == TG_WRITE);
    WANT(tg_create(&store, 1, TG_READ, &sum, &name) == TG_DONE && name == 4);
    WANT(tg_auditor_reopen(&auditor, &snapshot) == TG_DONE && tg_auditor_feed(&auditor, &store, &count) == TG_DONE && count == 11);
    WANT(tg_auditor_forget(&auditor, &store, 11) == TG_DONE && tg_collect(&store, TG_FULL, &count) == TG_DONE && count == 5);
    WANT(tg_close(&store) == TG_DONE && tg_auditor_close(&auditor) == TG_DONE && tg_snapshot_close(&snapshot) == TG_DONE);
}

enum { MOST_COMMANDS = 1024 };

/* Each command of a batch is done as its own call does it, and its answer is that of its entry. */
static void batches(void) {
    tg_store store = TG_STORE_INIT;
    uint64_t name, done, first, count;
    tg_record answers[8], entry;
    WANT(tg_open(&store, workers, 2, edges, 2, &limits) == TG_DONE);
    WANT(tg_create(&store, 0, TG_READ | TG_WRITE, &sum, &name) == TG_DONE);
    const tg_command commands[8] = {
        { TG_DEED_WRITE, 0, name, 0, 2 },
        { TG_DEED_READ, 0, name, 0, 0 },
        { TG_DEED_APPEND, 0, name, 0, 1 },                  /* denied */
        { TG_DEED_GRANT, 1, name, TG_READ, 0 },
        { TG_DEED_LIST, 0, 0, 0, 0 },
        { TG_DEED_REMOVE, 0, name, TG_WRITE, 0 },
        { TG_DEED_INSPECT, 0, name, 0, 0 },                 /* denied */
        { TG_DEED_TAKE, 1, 0, TG_GRANT, 0 },                /* denied: the ends must differ */
    };
    WANT(tg_apply_all(&store, 0, commands, 8, answers, 8, &first, &done) == TG_DONE && done == 8 && first == 1);
    WANT(tg_entries(&store, &count) == TG_DONE && count == first + 8);
    for (size_t i = 0; i < 8; i++) {
        WANT(tg_entry(&store, first + i, &entry, numbers, 64, NULL, 0) == TG_DONE);
        WANT(memcmp(&entry, answers + i, sizeof entry) == 0 && entry.deed == commands[i].deed && entry.worker == 0);
        WANT((entry.reply == TG_REPLY_DENIED) == (i == 2 || i == 6 || i == 7));
        WANT(entry.deed != TG_DEED_READ || (entry.number_count == 1 && numbers[0] == 42));
    }
    WANT(tg_apply_all(&store, 0, NULL, 0, NULL, 0, &first, &done) == TG_DONE && done == 0);
    WANT(tg_apply_all(&store, 0, commands, 2, NULL, 0, &first, &done) == TG_DONE && done == 2);
    memset(answers, UNTOUCHED, sizeof answers);
    entry = answers[1];
    WANT(tg_apply_all(&store, 0, commands, 2, answers, 1, &first, &done) == TG_DONE && done == 2);
    WANT(answers[0].deed == TG_DEED_WRITE && memcmp(answers + 1, &entry, sizeof entry) == 0);
    WANT(first == 11 && tg_audit(&store, &count) == TG_DONE && count == 13);
    WANT(tg_close(&store) == TG_DONE);
}

/* What stops a batch: what was done before stays, and what is refused first of all does nothing. */
static void batches_stopped(void) {
    static tg_command many[MOST_COMMANDS + 1];
    static const tg_command retires[3] = {
        { TG_DEED_LIST, 0, 0, 0, 0 }, { TG_DEED_RETIRE, 0, 0, 0, 0 }, { TG_DEED_LIST, 0, 0, 0, 0 }
    };
    static const tg_command no_kind[2] = { { TG_DEED_LIST, 0, 0, 0, 0 }, { 7, 0, 0, 0, 0 } };
    static const tg_command no_rights[2] = { { TG_DEED_LIST, 0, 0, 0, 0 }, { TG_DEED_REMOVE, 0, 1, 256, 0 } };
    tg_store store = TG_STORE_INIT;
    uint64_t first = UNTOUCHED, done = UNTOUCHED, count;
    tg_record answers[3], before;
    memset(answers, UNTOUCHED, sizeof answers);
    before = answers[0];
    for (size_t i = 0; i <= MOST_COMMANDS; i++)
        many[i].deed = TG_DEED_READ;
    WANT(tg_apply_all(&store, 0, many, MOST_COMMANDS + 1, answers, 3, &first, &done) == TG_BAD_LIMITS);
    WANT(tg_apply_all(&store, 0, no_kind, 2, answers, 3, &first, &done) == TG_BAD_KIND);
    WANT(tg_apply_all(&store, 0, retires, 3, answers, 3, &first, &done) == TG_NOT_OPEN);
    WANT(tg_open(&store, workers, 2, edges, 2, &limits) == TG_DONE);
    WANT(tg_apply_all(&store, 0, many, MOST_COMMANDS + 1, answers, 3, &first, &done) == TG_BAD_LIMITS);
    WANT(tg_apply_all(&store, 0, no_kind, 2, answers, 3, &first, &done) == TG_BAD_KIND);
    WANT(tg_apply_all(&store, 0, no_rights, 2, answers, 3, &first, &done) == TG_BAD_RIGHTS);
    for (uint32_t deed = TG_DEED_RETIRE + 1; deed < 32; deed++) {
        const tg_command unknown = { deed, 0, 0, TG_READ, 0 };
        WANT(tg_apply_all(&store, 0, &unknown, 1, answers, 3, &first, &done) == TG_BAD_KIND);
    }
    WANT(first == UNTOUCHED && done == UNTOUCHED && memcmp(answers, &before, sizeof before) == 0);
    WANT(tg_entries(&store, &count) == TG_DONE && count == 0);
    WANT(tg_apply_all(&store, 0, many, MOST_COMMANDS, NULL, 0, &first, &done) == TG_DONE && done == MOST_COMMANDS);
    WANT(tg_apply_all(&store, 0, retires, 3, answers, 3, &first, &done) == TG_NO_SUCH_WORKER && done == 2);
    WANT(answers[1].deed == TG_DEED_RETIRE && memcmp(answers + 2, &before, sizeof before) == 0);
    WANT(tg_apply_all(&store, 0, retires, 3, answers, 3, &first, &done) == TG_NO_SUCH_WORKER && done == 0);
    WANT(tg_apply_all(&store, 1, retires, 1, answers, 3, &first, &done) == TG_DONE && done == 1);
    WANT(tg_audit(&store, &count) == TG_DONE && count == MOST_COMMANDS + 3);
    WANT(tg_close(&store) == TG_DONE);
}

int main(void) {
    tg_store store = TG_STORE_INIT;
    WANT(tg_abi() == TG_ABI);
    no_items();
    texts();
    texts_of_denials();
    letters_of_rights();
    unwanted_denials();
    closed();
    closed_answers();
    closed_views();
    closed_auditors();
    openings();
    greatest_limits();
    first_faults();
    WANT(tg_open(&store, workers, 2, edges, 2, &limits) == TG_DONE && store.is_open && store.handle.at != NULL);
    bad_requests(&store);
    rules(&store);
    labels(&store);
    laws(&store);
    counts(&store);
    WANT(tg_close(&store) == TG_DONE && !store.is_open && store.handle.at == NULL);
    WANT(tg_close(&store) == TG_NOT_OPEN);
    full_heap();
    old_at_its_limit();
    heap_of_garbage();
    longest_log();
    appends_and_inspects();
    all_rights();
    a_worker_comes_and_goes();
    as_many_workers_as_may_be();
    entries_read();
    questions();
    policies();
    far_names();
    views();
    followed_views();
    names_wanting();
    a_worker_leaves();
    rights_are_handed_on();
    rights_are_withdrawn();
    a_user_is_parked();
    a_user_is_unparked();
    parked_in_a_full_heap();
    unparked_in_a_full_heap();
    laws_are_shown();
    three_leave();
    entries_forgotten();
    parts_audited();
    auditors_stopped();
    batches();
    batches_stopped();
    resumed();
    resumed_in_a_full_heap();
    texts_of_histories();
    closed_snapshots();
    snapshots();
    parts_of_a_snapshot();
    a_store_goes_on_from_a_snapshot();
    each_byte_altered();
    puts("statuses ok");
    return 0;
}
