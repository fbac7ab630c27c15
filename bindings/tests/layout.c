/* The sizes, offsets and constants of interface 4, which a program built against it has in its code. It is compiled, and not run.
   That the library has the same is seen by layout.awk. */
#include "kovshenul.h"

#define SAME(is, wanted) _Static_assert((is) == (wanted), #is)

SAME(TG_ABI, 4);

SAME(sizeof(bool), 1);
SAME(sizeof(void *), 8);
SAME(sizeof(size_t), 8);

SAME(sizeof(tg_store), 16);
SAME(offsetof(tg_store, is_open), 0);
SAME(offsetof(tg_store, handle.at), 8);

SAME(sizeof(tg_answer), 16);
SAME(offsetof(tg_answer, is_open), 0);
SAME(offsetof(tg_answer, handle.at), 8);
SAME(sizeof(tg_view), 16);
SAME(offsetof(tg_view, is_open), 0);
SAME(offsetof(tg_view, handle.at), 8);
SAME(sizeof(tg_auditor), 16);
SAME(offsetof(tg_auditor, is_open), 0);
SAME(offsetof(tg_auditor, handle.at), 8);
SAME(sizeof(tg_snapshot), 16);
SAME(offsetof(tg_snapshot, is_open), 0);
SAME(offsetof(tg_snapshot, handle.at), 8);

SAME(sizeof(tg_value), 16);
SAME(offsetof(tg_value, law), 0);
SAME(offsetof(tg_value, most), 4);
SAME(offsetof(tg_value, number), 8);

SAME(sizeof(tg_vertex_law), 8);
SAME(offsetof(tg_vertex_law, law), 0);
SAME(offsetof(tg_vertex_law, most), 4);

SAME(sizeof(tg_edge), 24);
SAME(offsetof(tg_edge, from), 0);
SAME(offsetof(tg_edge, to), 8);
SAME(offsetof(tg_edge, rights), 16);

SAME(sizeof(tg_handing), 40);
SAME(offsetof(tg_handing, via), 0);
SAME(offsetof(tg_handing, from), 8);
SAME(offsetof(tg_handing, to), 16);
SAME(offsetof(tg_handing, target), 24);
SAME(offsetof(tg_handing, rights), 32);

SAME(sizeof(tg_parking), 24);
SAME(offsetof(tg_parking, host), 0);
SAME(offsetof(tg_parking, user), 8);
SAME(offsetof(tg_parking, account), 16);

SAME(sizeof(tg_question), 24);
SAME(offsetof(tg_question, x), 0);
SAME(offsetof(tg_question, right), 8);
SAME(offsetof(tg_question, y), 16);

SAME(sizeof(tg_limits), 24);
SAME(offsetof(tg_limits, max_vertices), 0);
SAME(offsetof(tg_limits, max_blocks), 8);
SAME(offsetof(tg_limits, max_space_blocks), 16);

SAME(sizeof(tg_denial), 32);
SAME(offsetof(tg_denial, rule), 0);
SAME(offsetof(tg_denial, cause), 4);
SAME(offsetof(tg_denial, from), 8);
SAME(offsetof(tg_denial, to), 16);
SAME(offsetof(tg_denial, rights), 24);

SAME(sizeof(tg_part), 80);
SAME(offsetof(tg_part, kind), 0);
SAME(offsetof(tg_part, law), 4);
SAME(offsetof(tg_part, most), 8);
SAME(offsetof(tg_part, name), 16);
SAME(offsetof(tg_part, from), 24);
SAME(offsetof(tg_part, to), 32);
SAME(offsetof(tg_part, rights), 40);
SAME(offsetof(tg_part, made), 48);
SAME(offsetof(tg_part, limit), 56);
SAME(offsetof(tg_part, entries), 64);
SAME(offsetof(tg_part, number_count), 72);
SAME(TG_PART_COUNTS, 0);
SAME(TG_PART_WORKER, 1);
SAME(TG_PART_VERTEX, 2);
SAME(TG_PART_EDGE, 3);

SAME(sizeof(tg_target), 16);
SAME(offsetof(tg_target, to), 0);
SAME(offsetof(tg_target, rights), 8);

SAME(sizeof(tg_naming), 16);
SAME(offsetof(tg_naming, name_of), 0);
SAME(offsetof(tg_naming, host), 8);

SAME(sizeof(tg_command), 40);
SAME(offsetof(tg_command, deed), 0);
SAME(offsetof(tg_command, via), 8);
SAME(offsetof(tg_command, target), 16);
SAME(offsetof(tg_command, rights), 24);
SAME(offsetof(tg_command, value), 32);

SAME(sizeof(tg_record), 112);
SAME(offsetof(tg_record, worker), 0);
SAME(offsetof(tg_record, deed), 8);
SAME(offsetof(tg_record, reply), 12);
SAME(offsetof(tg_record, law), 16);
SAME(offsetof(tg_record, most), 20);
SAME(offsetof(tg_record, via), 24);
SAME(offsetof(tg_record, target), 32);
SAME(offsetof(tg_record, rights), 40);
SAME(offsetof(tg_record, value), 48);
SAME(offsetof(tg_record, name), 56);
SAME(offsetof(tg_record, denial), 64);
SAME(offsetof(tg_record, number_count), 96);
SAME(offsetof(tg_record, edge_count), 104);

SAME(sizeof(tg_counts), 80);
SAME(offsetof(tg_counts, vertices), 0);
SAME(offsetof(tg_counts, payloads), 8);
SAME(offsetof(tg_counts, blocks), 16);
SAME(offsetof(tg_counts, entries), 24);
SAME(offsetof(tg_counts, held), 32);
SAME(offsetof(tg_counts, denied), 40);
SAME(offsetof(tg_counts, vertices_full), 48);
SAME(offsetof(tg_counts, workers_full), 56);
SAME(offsetof(tg_counts, nursery_collections), 64);
SAME(offsetof(tg_counts, full_collections), 72);

SAME(TG_READ | TG_WRITE << 8 | TG_TAKE << 16 | TG_GRANT << 24, 0x08040201);
SAME(TG_APPEND | TG_INSPECT << 8 | TG_FREE_U << 16, 0x402010);
SAME(TG_FREE_V, 0x80);
SAME(TG_CELL | TG_SUM << 8 | TG_MAX << 16 | TG_LOG << 24, 0x03020100);
SAME(TG_NO_LAW, 0x0F);
SAME(TG_RULE_TAKE | TG_RULE_GRANT << 8 | TG_RULE_REMOVE << 16 | TG_RULE_READ << 24, 0x03020100);
SAME(TG_RULE_WRITE | TG_RULE_APPEND << 8 | TG_RULE_INSPECT << 16, 0x060504);
SAME(TG_NOT_DISTINCT | TG_MISSING << 8 | TG_NOT_LOG << 16, 0x020100);
SAME(TG_DEED_TAKE | TG_DEED_GRANT << 8 | TG_DEED_REMOVE << 16 | TG_DEED_READ << 24, 0x03020100);
SAME(TG_DEED_WRITE | TG_DEED_APPEND << 8 | TG_DEED_INSPECT << 16 | TG_DEED_LIST << 24, 0x08060504);
SAME(TG_DEED_RETIRE | TG_DEED_CREATE << 8 | TG_DEED_SPAWN << 16, 0x111009);
SAME(TG_REPLY_DONE | TG_REPLY_DENIED << 8 | TG_REPLY_NAME << 16 | TG_REPLY_VALUES << 24, 0x03020100);
SAME(TG_REPLY_EDGES | TG_REPLY_VERTICES_FULL << 8 | TG_REPLY_WORKERS_FULL << 16, 0x111004);
SAME(TG_FULL | TG_NURSERY << 8, 0x0100);
SAME(TG_DONE | TG_DENIED << 8, 0x0100);
SAME(TG_NEVER | TG_NOW << 8 | TG_COULD << 16 | TG_WANTS_NAMES << 24, 0x03020100);
SAME(TG_UNREACHED | TG_OPEN << 8 | TG_PERHAPS << 16, 0x060504);
