/* A host asks before it hands a right on: could the plug-in come to read the guarded document then? */
#include <kovshenul.h>
#include <inttypes.h>
#include <stdio.h>

enum { HOST, PLUGIN };

/* Prints whether the right over the folder comes about. */
static tg_status ask(tg_store *store, uint64_t folder, uint64_t guarded, uint64_t right) {
    const uint64_t silent = HOST;
    const tg_edge supposed = { PLUGIN, folder, right };
    tg_answer answer = TG_ANSWER_INIT;
    uint64_t kind = TG_OPEN, count = 0;
    tg_record turn;
    tg_status status = tg_could(store, &silent, 1, &supposed, 1, PLUGIN, TG_READ, guarded, &answer);
    if (status == TG_DONE && tg_answer_kind(&answer, &kind) == TG_DONE && tg_answer_turns(&answer, &count) == TG_DONE)
        puts(kind == TG_NEVER ? "never" : "could");
    for (uint64_t at = 0; at < count && tg_answer_turn(&answer, at, &turn, NULL, 0) == TG_DONE; at++)
        if (turn.deed == TG_DEED_TAKE)
            printf("%" PRIu64 " takes %" PRIu64 " from %" PRIu64 "\n", turn.worker, turn.target, turn.via);
    tg_answer_close(&answer);
    return status;
}

int main(void) {
    tg_store store = TG_STORE_INIT;
    const tg_value cells[2] = { { TG_CELL, 0, 0 }, { TG_CELL, 0, 0 } }, cell = { TG_CELL, 0, 7 };
    const tg_limits limits = TG_LIMITS_INIT;
    uint64_t folder, guarded;
    int is = tg_open(&store, cells, 2, NULL, 0, &limits) == TG_DONE
        && tg_create(&store, HOST, TG_READ | TG_TAKE | TG_GRANT, &cell, &folder) == TG_DONE
        && tg_create(&store, HOST, TG_READ, &cell, &guarded) == TG_DONE
        && tg_grant(&store, HOST, folder, guarded, TG_READ, NULL) == TG_DONE
        && ask(&store, folder, guarded, TG_READ) == TG_DONE && ask(&store, folder, guarded, TG_TAKE) == TG_DONE;
    tg_close(&store);
    return !is;
}
