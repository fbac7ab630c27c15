/* The host's policy: who must never come to hold what.

   The host asks before rights go anywhere. It asks whether a rule could break later, if the holder got them, whatever all
   plug-ins then do together. Only the host itself is silent, because it asks before each of its own grants. */
#include "host.h"
#include <stdio.h>

enum { MOST_RULES = 8 };

struct rule {
    uint64_t worker, right, vertex;
};

static struct rule rules[MOST_RULES];
static int rule_count;

void never(uint64_t worker, uint64_t right, uint64_t vertex) {
    must(rule_count == MOST_RULES ? TG_OUT_OF_MEMORY : TG_DONE, "one more rule");
    rules[rule_count++] = (struct rule){ worker, right, vertex };
}

void forget_rules(uint64_t worker) {
    int kept = 0;
    for (int at = 0; at < rule_count; at++)
        if (rules[at].worker != worker)
            rules[kept++] = rules[at];
    rule_count = kept;
}

/* Writes which rule would break at once, or could break later by commands of plug-ins alone. */
static void write_why(const struct rule *rule, uint64_t kind, char *text, size_t room) {
    char letters[9], worker[KNOWN_ROOM], vertex[KNOWN_ROOM];
    tg_rights_text(rule->right, letters, sizeof letters);
    snprintf(text, room, "%s %s %s over %s", known_as(rule->worker, worker, sizeof worker),
             kind == TG_NOW ? "would hold" : "could then come to hold", letters, known_as(rule->vertex, vertex, sizeof vertex));
}

bool is_safe(uint64_t holder, uint64_t vertex, uint64_t rights, char *text, size_t room) {
    const uint64_t silent = HOST;
    const tg_edge as_if = { holder, vertex, rights };
    bool is_kept = true;
    for (int at = 0; is_kept && at < rule_count; at++) {
        tg_answer answer = TG_ANSWER_INIT;
        uint64_t kind;
        tg_status status =
            tg_could(&store, &silent, 1, &as_if, 1, rules[at].worker, rules[at].right, rules[at].vertex, &answer);
        if (status != TG_DONE) {
            /* Nothing is known, so nothing is handed on. */
            snprintf(text, room, "the policy can't be asked: %s", tg_status_text(status));
            return false;
        }
        must(tg_answer_kind(&answer, &kind), "tg_answer_kind");
        is_kept = kind == TG_NEVER || kind == TG_UNREACHED;
        if (!is_kept)
            write_why(&rules[at], kind, text, room);
        must(tg_answer_close(&answer), "tg_answer_close");
    }
    return is_kept;
}
