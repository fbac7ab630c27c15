/* Texts for people, with the names that a host gives to vertices. Nothing here reads or changes a store, so no name changes a
   reply.

   It is tested, and nothing of it is proved. The build compiles it beside kovshenul.c. */
#include "kovshenul.h"
#include "writer.h"

/* The words of the deeds, by their numbers. */
static const char *deed_text(uint32_t deed) {
    switch (deed) {
    case TG_DEED_TAKE: return "take";
    case TG_DEED_GRANT: return "grant";
    case TG_DEED_REMOVE: return "remove";
    case TG_DEED_READ: return "read";
    case TG_DEED_WRITE: return "write";
    case TG_DEED_APPEND: return "append";
    case TG_DEED_INSPECT: return "inspect";
    case TG_DEED_LIST: return "list";
    case TG_DEED_RETIRE: return "retire";
    case TG_DEED_CREATE: return "create";
    case TG_DEED_SPAWN: return "spawn";
    default: return "unknown deed";
    }
}

/* The word of a rule. The numbers of the rules are the numbers of their deeds. */
static const char *rule_text(uint32_t rule) {
    return rule <= TG_RULE_INSPECT ? deed_text(rule) : "unknown rule";
}

/* A name, with ? for each byte that no text has. */
static void put_name(struct writer *to, const char *name) {
    for (; *name != '\0'; name++)
        put(to, (unsigned char)*name < ' ' || *name == 127 ? '?' : *name);
}

/* A vertex: its number, in brackets after its name if it has one. */
static void put_vertex(struct writer *to, uint64_t vertex, const tg_naming *names) {
    const char *name = names == NULL || names->name_of == NULL ? NULL : names->name_of(names->host, vertex);
    if (name == NULL || *name == '\0') {
        put_number(to, vertex);
        return;
    }
    put_name(to, name);
    put_words(to, " (");
    put_number(to, vertex);
    put(to, ')');
}

static void put_edge(struct writer *to, const tg_denial *denial, const tg_naming *names) {
    put_vertex(to, denial->from, names);
    put_words(to, "->");
    put_vertex(to, denial->to, names);
}

static void put_denial(struct writer *to, const tg_denial *denial, const tg_naming *names) {
    put_words(to, rule_text(denial->rule));
    put_words(to, ": ");
    switch (denial->cause) {
    case TG_NOT_DISTINCT: put_words(to, "two vertices that must differ are one"); break;
    case TG_NOT_LOG: put_words(to, "the target stores no log"); break;
    case TG_MISSING:
        put_rights(to, denial->rights);
        put_words(to, " is missing on ");
        put_edge(to, denial, names);
        break;
    default: put_words(to, "unknown cause");
    }
}

/* ---- the worker that asked, and its deed */

static void put_next_vertex(struct writer *to, uint64_t vertex, const tg_naming *names) {
    put(to, ' ');
    put_vertex(to, vertex, names);
}

static void put_next_number(struct writer *to, uint64_t number) {
    put(to, ' ');
    put_number(to, number);
}

/* What a new vertex stores at first: the letter of its law, and a number. A log begins empty, and has the most that it keeps. */
static void put_value(struct writer *to, const tg_record *it, const uint64_t *numbers) {
    static const char laws[] = "csml";
    put(to, ' ');
    put(to, it->law <= TG_LOG ? laws[it->law] : '?');
    put_number(to, it->law == TG_LOG || it->number_count == 0 ? it->most : numbers[0]);
}

static bool names_target(uint32_t deed) {
    return deed <= TG_DEED_INSPECT;
}

static bool names_rights(uint32_t deed) {
    return deed <= TG_DEED_REMOVE || deed == TG_DEED_CREATE || deed == TG_DEED_SPAWN;
}

static void put_turn(struct writer *to, const tg_record *it, const uint64_t *numbers, const tg_naming *names) {
    put_vertex(to, it->worker, names);
    put(to, ' ');
    put_words(to, deed_text(it->deed));
    if (it->deed == TG_DEED_TAKE || it->deed == TG_DEED_GRANT)
        put_next_vertex(to, it->via, names);
    if (names_target(it->deed))
        put_next_vertex(to, it->target, names);
    if (names_rights(it->deed)) {
        put(to, ' ');
        put_rights(to, it->rights);
    }
    if (it->deed == TG_DEED_WRITE || it->deed == TG_DEED_APPEND)
        put_next_number(to, it->value);
    if (it->deed == TG_DEED_CREATE || it->deed == TG_DEED_SPAWN)
        put_value(to, it, numbers);
}

/* ---- what was answered */

/* A denial as an entry has it: the rule, and the edge with the rights, or one word. */
static void put_denied(struct writer *to, const tg_denial *denial, const tg_naming *names) {
    put_words(to, "denied ");
    put_words(to, rule_text(denial->rule));
    put(to, ' ');
    if (denial->cause != TG_MISSING) {
        put_words(to, denial->cause == TG_NOT_LOG ? "law" : "distinct");
        return;
    }
    put_edge(to, denial, names);
    put(to, ' ');
    put_rights(to, denial->rights);
}

static void put_shown(struct writer *to, const tg_target *edges, uint64_t count, const tg_naming *names) {
    for (uint64_t i = 0; i < count; i++) {
        put_next_vertex(to, edges[i].to, names);
        put(to, ':');
        put_rights(to, edges[i].rights);
    }
}

static void put_values(struct writer *to, const uint64_t *numbers, uint64_t count) {
    for (uint64_t i = 0; i < count; i++)
        put_next_number(to, numbers[i]);
}

static void put_reply(struct writer *to, const tg_record *it, const uint64_t *numbers, const tg_target *edges,
                      const tg_naming *names) {
    switch (it->reply) {
    case TG_REPLY_DENIED: put_denied(to, &it->denial, names); return;
    case TG_REPLY_VERTICES_FULL: put_words(to, "refused vertices"); return;
    case TG_REPLY_WORKERS_FULL: put_words(to, "refused workers"); return;
    default: put_words(to, "ok");
    }
    if (it->reply == TG_REPLY_NAME)
        put_next_vertex(to, it->name, names);
    if (it->reply == TG_REPLY_VALUES)
        put_values(to, numbers, it->number_count);
    if (it->reply == TG_REPLY_EDGES)
        put_shown(to, edges, it->edge_count, names);
}

/* ---- the calls */

size_t tg_vertex_text(uint64_t vertex, const tg_naming *names, char *text, size_t room) {
    struct writer to = { text, room, 0 };
    put_vertex(&to, vertex, names);
    return ended(&to);
}

size_t tg_named_denial_text(const tg_denial *denial, const tg_naming *names, char *text, size_t room) {
    struct writer to = { text, room, 0 };
    put_denial(&to, denial, names);
    return ended(&to);
}

size_t tg_named_turn_text(const tg_record *turn, const uint64_t *numbers, const tg_naming *names, char *text, size_t room) {
    struct writer to = { text, room, 0 };
    put_turn(&to, turn, numbers, names);
    return ended(&to);
}

size_t tg_named_entry_text(const tg_record *entry, const uint64_t *numbers, const tg_target *edges, const tg_naming *names,
                           char *text, size_t room) {
    struct writer to = { text, room, 0 };
    put_turn(&to, entry, numbers, names);
    put_words(&to, " = ");
    put_reply(&to, entry, numbers, edges, names);
    return ended(&to);
}
