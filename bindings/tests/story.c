/* A caretaker keeps a document. It hands the right to read it on to a visitor, who reads it, gives the right back and
   can't read it any more. Then the caretaker gives up its own rights, and the document is gone. Collections run in
   between, and no reply shows them. At the end the journal is audited.

   Build it with: cc story.c -lkovshenul */
#include "kovshenul.h"
#include <inttypes.h>
#include <stdio.h>
#include <stdlib.h>

enum { CARETAKER = 0, VISITOR = 1 };

/* Stops where a call was refused: this story has memory and room for all. */
static tg_status served(tg_status status) {
    if (status >= 16) {
        fprintf(stderr, "story: refused, %s\n", tg_status_text(status));
        exit(1);
    }
    return status;
}

/* Prints how a command ended. */
static void tell(const char *what, tg_status status, const tg_denial *why) {
    char letters[9];
    printf("%s: ", what);
    if (served(status) == TG_DONE) {
        puts("ok");
        return;
    }
    fputs("denied, ", stdout);
    if (why->cause == TG_NOT_DISTINCT) {
        puts("two vertices that must differ are one");
        return;
    }
    if (why->cause == TG_NOT_LOG) {
        puts("what the target stores is no log");
        return;
    }
    tg_rights_text(why->rights, letters, sizeof letters);
    printf("%s is missing on %" PRIu64 "->%" PRIu64 "\n", letters, why->from, why->to);
}

static void visitor_reads(tg_store *store, uint64_t document) {
    uint64_t number, count;
    tg_denial why;
    tg_status status = served(tg_read(store, VISITOR, document, &number, 1, &count, &why));
    if (status == TG_DONE)
        printf("visitor reads: ok, [%" PRIu64 "]\n", number);
    else
        tell("visitor reads", status, &why);
}

static void collect(tg_store *store) {
    uint64_t left;
    served(tg_collect(store, TG_FULL, &left));
    printf("full collection: %" PRIu64 " vertices are left\n", left);
}

/* The caretaker makes the document, and hands the right to read it on to the visitor. */
static uint64_t hand_on(tg_store *store) {
    const tg_value sum = { TG_SUM, 0, 40 };
    uint64_t document;
    tg_denial why;
    served(tg_create(store, CARETAKER, TG_READ | TG_WRITE, &sum, &document));
    printf("caretaker makes a document: ok, its name is %" PRIu64 "\n", document);
    tell("caretaker hands r on", tg_grant(store, CARETAKER, VISITOR, document, TG_READ, &why), &why);
    return document;
}

/* The visitor reads the document, before and after a collection and a write of the caretaker. */
static void visit(tg_store *store, uint64_t document) {
    tg_denial why;
    visitor_reads(store, document);
    collect(store);
    visitor_reads(store, document);
    tell("caretaker writes 2", tg_write(store, CARETAKER, document, 2, &why), &why);
    visitor_reads(store, document);
    tell("visitor writes 2", tg_write(store, VISITOR, document, 2, &why), &why);
}

/* The visitor gives the right back, and then the caretaker gives up its own. */
static void take_back(tg_store *store, uint64_t document) {
    tg_denial why;
    tell("visitor gives r back", tg_remove(store, VISITOR, document, TG_READ, &why), &why);
    collect(store);
    visitor_reads(store, document);
    tell("caretaker gives up rw", tg_remove(store, CARETAKER, document, TG_READ | TG_WRITE, &why), &why);
    tell("caretaker hands r on", tg_grant(store, CARETAKER, VISITOR, document, TG_READ, &why), &why);
    collect(store);
    visitor_reads(store, document);
}

int main(void) {
    const tg_value workers[2] = { { TG_CELL, 0, 0 }, { TG_CELL, 0, 0 } };
    const tg_edge edges[1] = { { CARETAKER, VISITOR, TG_GRANT } };
    const tg_limits limits = { 10, 8, 4 };
    tg_store store = TG_STORE_INIT;
    uint64_t entries;
    if (tg_abi() != TG_ABI) {
        fputs("story: this library is of another edition\n", stderr);
        return 1;
    }
    served(tg_open(&store, workers, 2, edges, 1, &limits));
    uint64_t document = hand_on(&store);
    visit(&store, document);
    take_back(&store, document);
    served(tg_audit(&store, &entries));
    printf("audit ok, %" PRIu64 " entries\n", entries);
    tg_close(&store);
    return 0;
}
