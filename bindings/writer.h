/* How texts are written to room of the caller. kovshenul.c and naming.c share it, and no program of a user does. */
#ifndef KOVSHENUL_WRITER_H
#define KOVSHENUL_WRITER_H

#include "kovshenul.h"

/* The letters of the rights, by their bits. */
static const char right_letters[] = "rwtgaluv";

enum { RIGHTS = sizeof right_letters - 1, DIGITS = 20 };

/* Where a text is written, for how many bytes there is room, and how many were to be written so far. */
struct writer {
    char *text;
    size_t room, length;
};

/* One byte more, where there is room for it and for the 0 after it. */
static inline void put(struct writer *to, char byte) {
    if (to->room > 0 && to->length < to->room - 1)
        to->text[to->length] = byte;
    to->length++;
}

static inline void put_words(struct writer *to, const char *words) {
    for (; *words != '\0'; words++)
        put(to, *words);
}

static inline void put_number(struct writer *to, uint64_t number) {
    char digits[DIGITS];
    int count = 0;
    do {
        digits[count++] = (char)('0' + number % 10);
        number /= 10;
    } while (number > 0);
    while (count > 0)
        put(to, digits[--count]);
}

static inline void put_rights(struct writer *to, uint64_t rights) {
    for (int bit = 0; bit < RIGHTS; bit++)
        if (rights >> bit & 1)
            put(to, right_letters[bit]);
}

/* Puts the 0 after what there was room for, and returns how long the whole text is. */
static inline size_t ended(const struct writer *to) {
    if (to->room > 0)
        to->text[to->length < to->room ? to->length : to->room - 1] = '\0';
    return to->length;
}

#endif
