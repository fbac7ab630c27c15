/* The parts of a snapshot, read from its text. The proved reader (tg_snapshot_read) judges the text. Nothing here does, or reads
   a store.

   It is tested, and nothing of it is proved. The build compiles it beside kovshenul.c. */
#include "kovshenul.h"
#include "writer.h"

enum { MOST_NUMBERS = 64 };

/* The text that is left. */
struct reader {
    const char *at, *end;
};

/* Passes these words, if they are next. */
static bool pass(struct reader *from, const char *words) {
    const char *at = from->at;
    for (; *words != '\0'; words++, at++)
        if (at == from->end || *at != *words)
            return false;
    from->at = at;
    return true;
}

static bool is_digit_next(const struct reader *from) {
    return from->at < from->end && '0' <= *from->at && *from->at <= '9';
}

/* Passes a number, and the byte after it. */
static bool pass_number(struct reader *from, char after, uint64_t *number) {
    bool is_number = is_digit_next(from);
    for (*number = 0; is_digit_next(from); from->at++) {
        uint64_t digit = (uint64_t)(*from->at - '0');
        if (*number > (UINT64_MAX - digit) / 10)
            return false;
        *number = *number * 10 + digit;
    }
    return is_number && from->at < from->end && *from->at++ == after;
}

/* Passes letters of rights, and the end of the line. */
static bool pass_rights(struct reader *from, uint64_t *rights) {
    *rights = 0;
    for (int bit = 0; bit < RIGHTS; bit++)
        if (from->at < from->end && *from->at == right_letters[bit]) {
            *rights |= UINT64_C(1) << bit;
            from->at++;
        }
    return *rights != 0 && pass(from, "\n");
}

/* Whether this many numbers follow, with a comma between two. The first ones go to numbers, as many as there is room for. */
static bool pass_numbers(struct reader *from, uint64_t *count, uint64_t *numbers, size_t room) {
    uint64_t number;
    bool is_last;
    *count = 0;
    do {
        struct reader before = *from;
        is_last = pass_number(from, '\n', &number);
        if (!is_last) {
            *from = before;
            if (!pass_number(from, ',', &number))
                return false;
        }
        if (*count < room)
            numbers[*count] = number;
        ++*count;
    } while (!is_last);
    return true;
}

/* Passes what a log stores: how many numbers it keeps, and the numbers after a colon if there are any. */
static bool pass_log(struct reader *from, tg_part *part, uint64_t *numbers, size_t room) {
    struct reader before = *from;
    uint64_t most;
    bool is_empty = pass_number(from, '\n', &most);
    if (!is_empty) {
        *from = before;
        if (!pass_number(from, ':', &most) || !pass_numbers(from, &part->number_count, numbers, room))
            return false;
    }
    part->most = (uint32_t)most;
    return most <= UINT32_MAX;
}

static bool pass_vertex(struct reader *from, tg_part *part, uint64_t *numbers, size_t room) {
    static const char *const laws[] = { "c", "s", "m", "l" };
    if (!pass_number(from, ' ', &part->name))
        return false;
    while (part->law <= TG_LOG && !pass(from, laws[part->law]))
        part->law++;
    if (part->law == TG_LOG)
        return pass_log(from, part, numbers, room);
    return part->law < TG_LOG && pass_numbers(from, &part->number_count, numbers, room);
}

static bool pass_counts(struct reader *from, tg_part *part) {
    return pass(from, "kovshenul picture 1\nmade ") && pass_number(from, ' ', &part->made) && pass_number(from, ' ', &part->limit)
        && pass_number(from, '\n', &part->entries);
}

static bool pass_edge(struct reader *from, tg_part *part) {
    return pass_number(from, ' ', &part->from) && pass_number(from, ' ', &part->to) && pass_rights(from, &part->rights);
}

/* Passes the part that is next, and says what it is. */
static bool pass_part(struct reader *from, bool is_first, tg_part *part, uint64_t *numbers, size_t room) {
    if (is_first) {
        part->kind = TG_PART_COUNTS;
        return pass_counts(from, part);
    }
    if (pass(from, "worker ")) {
        part->kind = TG_PART_WORKER;
        return pass_number(from, '\n', &part->name);
    }
    if (pass(from, "vertex ")) {
        part->kind = TG_PART_VERTEX;
        return pass_vertex(from, part, numbers, room);
    }
    part->kind = TG_PART_EDGE;
    return pass(from, "edge ") && pass_edge(from, part);
}

/* Whether all that is left is the last line. */
static bool is_last_line(struct reader from) {
    uint64_t count;
    return pass(&from, "picture ") && pass_number(&from, '\n', &count) && from.at == from.end;
}

tg_status tg_snapshot_next(const char *text, size_t length, size_t *at, tg_part *part, uint64_t *numbers, size_t room) {
    uint64_t own[MOST_NUMBERS];
    tg_part next = { 0 };
    if (*at > length)
        return TG_BAD_VALUES;
    struct reader from = { text + *at, text + length };
    if (*at > 0 && is_last_line(from))
        return TG_BAD_PLACE;
    if (!pass_part(&from, *at == 0, &next, own, MOST_NUMBERS) || next.number_count > MOST_NUMBERS)
        return TG_BAD_VALUES;
    for (uint64_t i = 0; i < next.number_count && i < room; i++)
        numbers[i] = own[i];
    *part = next;
    *at = (size_t)(from.at - text);
    return TG_DONE;
}
