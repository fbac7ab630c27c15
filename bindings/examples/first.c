/* The first lines of a program over the store. Build it with: cc first.c -lkovshenul */
#include "kovshenul.h"
#include <stdio.h>

int main(void) {
    tg_store store = TG_STORE_INIT;
    const tg_value cells[2] = { { TG_CELL, 0, 0 }, { TG_CELL, 0, 0 } }, sum = { TG_SUM, 0, 40 };
    const tg_edge edge = { 0, 1, TG_GRANT };
    const tg_limits limits = TG_LIMITS_INIT;
    uint64_t document, number, count;
    tg_denial why;
    char text[80];
    if (tg_open(&store, cells, 2, &edge, 1, &limits) == TG_DONE
        && tg_create(&store, 0, TG_READ | TG_WRITE, &sum, &document) == TG_DONE
        && tg_grant(&store, 0, 1, document, TG_READ, NULL) == TG_DONE
        && tg_read(&store, 1, document, &number, 1, &count, NULL) == TG_DONE)
        printf("[%llu]\n", (unsigned long long)number);
    if (tg_write(&store, 1, document, 2, &why) == TG_DENIED && tg_denial_text(&why, text, sizeof text) < sizeof text)
        puts(text);
    tg_close(&store);
    return 0;
}
