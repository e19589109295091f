#include "damage.h"

#include "groups.h"
#include "second.h"

static size_t any_place(size_t rows)
{
    size_t row = any_below(rows ? rows : 1);
    switch (any_below(6)) {
    case 0: return any_below(3);
    case 1: return second_permission_at(row);
    case 2: return second_count_at(row);
    case 3: return second_denied_at(row);
    case 4: return second_open_at(row, any_below(SECOND_OPENS));
    default: return any_below(SECOND_BYTES / 8);
    }
}

static uint64_t any_value(uint64_t old)
{
    switch (any_below(6)) {
    case 0: return old + 1;
    case 1: return old - 1;
    case 2: return old ^ (uint64_t)1 << any_below(64);
    case 3: return any_below(9);
    case 4: return (uint64_t)1 << any_below(64);
    default: return 0;
    }
}

void damage(uint8_t *area, size_t rows)
{
    size_t at = any_place(rows);
    second_put(area, at, any_value(second_word(area, at)));
}
