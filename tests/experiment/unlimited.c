#include "unlimited.h"

#include <stdbool.h>

static bool is_part(uint64_t part, uint64_t whole)
{
    return (part & ~whole) == 0;
}

static void add_open(struct unlimited_row *row, uint64_t set)
{
    for (size_t k = 0; k < row->count; k++)
        if (is_part(row->open[k], set))
            return;
    size_t kept = 0;
    for (size_t k = 0; k < row->count; k++)
        if (!is_part(set, row->open[k]))
            row->open[kept++] = row->open[k];
    row->open[kept] = set;
    row->count = kept + 1;
}

void unlimited_deny(struct unlimited_row *row, uint64_t set)
{
    /* The sets added are at most as many as were taken, so none is overwritten before it is read. */
    size_t count = row->count;
    row->denied |= set;
    row->count = 0;
    for (size_t k = 0; k < count; k++)
        add_open(row, row->open[k] & ~set);
}

void unlimited_allow(struct unlimited_row *row, uint64_t set)
{
    add_open(row, set & ~row->denied);
}

uint32_t unlimited_decide(const struct unlimited_row *row, uint64_t set)
{
    if (is_part(set, row->denied))
        return 10;
    for (size_t k = 0; k < row->count; k++)
        if (is_part(row->open[k], set))
            return 11;
    return 12;
}
