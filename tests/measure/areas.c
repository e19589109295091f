#include "areas.h"

#include "../yardstick/yardstick.h"

#include <assert.h>
#include <string.h>

/* Roles from FIRST_OPEN on may be open, those from FIRST_DENIED on may be denied. */
enum { FIRST_OPEN = 1, FIRST_DENIED = 48, SHIFTS = 16 };

uint64_t word(const uint8_t *area, size_t at)
{
    uint64_t value = 0;
    for (int k = 7; k >= 0; k--)
        value = value << 8 | area[8 * at + (size_t)k];
    return value;
}

static void put(uint8_t *area, size_t at, uint64_t value)
{
    for (size_t k = 0; k < 8; k++)
        area[8 * at + k] = (uint8_t)(value >> 8 * k);
}

size_t contents_at(size_t i)
{
    return CONTENTS_AT + 2 * i;
}

size_t body_at(size_t i)
{
    return BODIES_AT + BODY_WORDS * i;
}

static uint64_t role(unsigned r)
{
    return UINT64_C(1) << r;
}

/* By the higher role first, then by the lower: the pairs then ascend as numbers. */
static uint64_t pair(unsigned k)
{
    unsigned high = 1;
    for (; k >= high; high++)
        k -= high;
    return role(high) | role(k);
}

/* Four of eight roles, of two neighbours the one has those that the other lacks, and so many roles above them as there are
 * neighbours before: the sets then ascend, and none is part of another, since their fours differ. */
static uint64_t crossed(unsigned k)
{
    static const uint64_t fours[] = {0x0f, 0x17, 0x1b, 0x1d, 0x1e, 0x27, 0x2b, 0x2d};
    unsigned pairs = (k + 1) / 2;
    uint64_t four = k % 2 == 0 && k > 0 ? 0xff ^ fours[pairs] : fours[pairs];
    return four | (role(pairs) - 1) << 8;
}

/* Rows differ, so that none of them can stand for another. */
static unsigned shift(unsigned i)
{
    return i % SHIFTS;
}

/* Set k of a row's open sets, before its shift. */
static uint64_t open_set(unsigned k, enum kind kind)
{
    switch (kind) {
    case PAIRS:
        return pair(k);
    case TURNED:
        return role(MOST_OPENS + k) | role(MOST_OPENS - 1 - k);
    case CROSSED:
        return crossed(k);
    case STAR:
        return role(0) | role(k + 1);
    default:
        return role(k);
    }
}

/* Of row i. */
static uint64_t shifted_set(unsigned i, unsigned k, enum kind kind)
{
    return kind == LONG ? ~(role(MOST_OPENS - 1 - k) << shift(i)) : open_set(k, kind) << FIRST_OPEN << shift(i);
}

static uint64_t highest_role(uint64_t set)
{
    while ((set & (set - 1)) != 0)
        set &= set - 1;
    return set;
}

uint64_t strikable(unsigned i, unsigned opens, enum kind kind)
{
    uint64_t roles = 0;
    for (unsigned k = 0; k < opens; k++)
        if (kind == TURNED || (kind == PAIRS && k + 1 == opens))
            roles |= highest_role(open_set(k, kind));
    return roles << FIRST_OPEN << shift(i);
}

uint32_t permission_of(unsigned i)
{
    return 2 * i + 2;
}

void fill(uint8_t *area, unsigned rows, unsigned opens, enum kind kind)
{
    assert(rows <= MOST_ROWS && opens <= MOST_OPENS);
    memset(area, 0, AREA_BYTES);
    put(area, 0, 64);
    put(area, 1, rows);
    put(area, STATE_AT, FILLED_STATE);
    for (unsigned i = 0; i < rows; i++) {
        put(area, contents_at(i), permission_of(i));
        put(area, contents_at(i) + 1, opens);
        put(area, body_at(i), kind == LONG ? 0 : role(FIRST_DENIED + shift(i)));
        for (unsigned k = 0; k < opens; k++)
            put(area, body_at(i) + 1 + k, shifted_set(i, k, kind));
    }
    assert(yardstick_good(area, AREA_BYTES));
}

void fill_names(uint8_t *table, size_t length)
{
    assert(length <= MOST_NAME);
    memset(table, 'n', TABLE_BYTES);
    for (size_t r = 0; r < NAMED_ROLES; r++) {
        size_t start = NAMES_AT + length * r;
        uint8_t *pair = table + 4 * r;
        pair[0] = (uint8_t)start;
        pair[1] = (uint8_t)(start >> 8);
        pair[2] = (uint8_t)length;
        pair[3] = 0;
    }
}
