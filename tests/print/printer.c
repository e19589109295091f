#include "printer.h"

#include "second.h"

static void put_state(struct bytes *out, const uint8_t *area)
{
    putf(out, " %llu\n", (unsigned long long)second_word(area, SECOND_STATE_AT));
}

static void put_reply(struct bytes *out, const uint8_t *area, char letter, uint64_t permission, uint64_t set)
{
    putf(out, "%c %llu ", letter, (unsigned long long)permission);
    put_set(out, set);
    put_state(out, area);
}

void put_open_line(struct bytes *out, const uint8_t *area)
{
    putf(out, "O %llu", (unsigned long long)second_word(area, 0));
    put_state(out, area);
}

void put_row_lines(struct bytes *out, const uint8_t *area, size_t row)
{
    uint64_t permission = second_word(area, second_permission_at(row));
    uint64_t denied = second_word(area, second_denied_at(row));
    if (denied != 0)
        put_reply(out, area, 'D', permission, denied);
    for (size_t k = 0; k < second_word(area, second_count_at(row)); k++)
        put_reply(out, area, 'A', permission, second_word(area, second_open_at(row, k)));
}

void put_shown_row(struct bytes *out, const uint8_t *area, size_t row)
{
    putf(out, "= %llu ", (unsigned long long)second_word(area, second_permission_at(row)));
    put_set(out, second_word(area, second_denied_at(row)));
    for (size_t k = 0; k < second_word(area, second_count_at(row)); k++) {
        putf(out, " ");
        put_set(out, second_word(area, second_open_at(row, k)));
    }
    putf(out, "\n");
}
