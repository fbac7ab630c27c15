/* Has callgrind write down what was counted since the last mark, under a name, and count anew. */
#include <valgrind/callgrind.h>

void mark(const char *name) {
    CALLGRIND_DUMP_STATS_AT(name);
}
