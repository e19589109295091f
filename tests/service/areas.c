/* Makes what the test of print and feed runs on, the same in every run.
 *   areas lines KIND COUNT   a stream of lines on standard output: small, sets, rows, wide or full
 *   areas stored SEED FILE   an area that calls of the library made, by chance
 *   areas full FILE          one of 128 rows with 15 open sets each, and with denied roles */
#include "../lines/bytes.h"
#include "../lines/streams.h"
#include "groups.h"

#include <stdbool.h>
#include <stdio.h>
#include <stdlib.h>
#include <string.h>
#include <wickthrush.h>

static uint8_t area[WICKTHRUSH_AREA_BYTES];

static int write_area(const char *name)
{
    FILE *file = fopen(name, "wb");
    return !file || fwrite(area, 1, sizeof area, file) != sizeof area || fclose(file) != 0;
}

static int lines(const char *kind, size_t count)
{
    static struct bytes in;
    clear(&in);
    if (strcmp(kind, "small") == 0)
        put_small(&in, count);
    else if (strcmp(kind, "sets") == 0)
        put_many_sets(&in, count);
    else if (strcmp(kind, "rows") == 0)
        put_many_rows(&in, count);
    else if (strcmp(kind, "wide") == 0)
        put_wide(&in, count);
    else if (strcmp(kind, "full") == 0)
        put_full_area(&in);
    else
        return 2;
    return fwrite(in.at, 1, in.count, stdout) != in.count;
}

/* A set of few roles, so that replies seldom contradict each other. */
static uint64_t any_set(unsigned roles)
{
    uint64_t set = 0;
    for (uint64_t k = any_below(5) + 1; k > 0; k--)
        set |= UINT64_C(1) << any_below(roles);
    return set;
}

static int stored(unsigned long seed, const char *name)
{
    for (unsigned long k = 0; k < seed; k++)
        (void)any();
    unsigned roles = 1 + (unsigned)any_below(WICKTHRUSH_MOST_ROLES), recorded = 0;
    uint64_t permissions = 1 + any_below(200), events = any_below(4000);
    uint32_t state = (uint32_t)(any() >> (32 + any_below(32)));
    if (wickthrush_open(area, sizeof area, roles, state) != WICKTHRUSH_RECORDED)
        return 1;
    for (uint64_t k = 0; k < events; k++) {
        uint32_t permission = (uint32_t)(UINT32_MAX - any_below(permissions) * (UINT32_MAX / permissions));
        uint64_t kind = any_below(3) > 0 ? WICKTHRUSH_REPLY_ALLOW : WICKTHRUSH_REPLY_DENY;
        if (any_below(10) == 0)
            kind = any_below(2) > 0 ? WICKTHRUSH_GIVEN : WICKTHRUSH_WITHDRAWN;
        bool update = kind >= WICKTHRUSH_WITHDRAWN;
        uint64_t number = update ? any_below(roles) : any_set(roles);
        uint32_t answer = wickthrush_event(area, sizeof area, permission, kind, number, state + update);
        recorded += answer == WICKTHRUSH_RECORDED;
        state += update && (answer == WICKTHRUSH_RECORDED || answer == WICKTHRUSH_FORGOTTEN);
    }
    return events > 10 && recorded == 0 ? 1 : write_area(name);
}

static int full(const char *name)
{
    if (wickthrush_open(area, sizeof area, WICKTHRUSH_MOST_ROLES, UINT32_MAX) != WICKTHRUSH_RECORDED)
        return 1;
    for (uint32_t row = 0; row < WICKTHRUSH_MOST_ROWS; row++) {
        if (wickthrush_event(area, sizeof area, UINT32_MAX - row, WICKTHRUSH_REPLY_DENY, UINT64_C(0xffff) << 48,
                             UINT32_MAX) != 0)
            return 1;
        for (unsigned k = 0; k < WICKTHRUSH_MOST_OPEN_SETS; k++) {
            uint64_t lacking = UINT64_C(1) << (16 + k) | UINT64_C(1) << (31 + row % 16);
            if (wickthrush_event(area, sizeof area, UINT32_MAX - row, WICKTHRUSH_REPLY_ALLOW,
                                 UINT64_C(0xffffffff0000) & ~lacking, UINT32_MAX) != 0)
                return 1;
        }
    }
    return write_area(name);
}

int main(int count, char **words)
{
    if (count == 4 && strcmp(words[1], "lines") == 0)
        return lines(words[2], strtoul(words[3], NULL, 10));
    if (count == 4 && strcmp(words[1], "stored") == 0)
        return stored(strtoul(words[2], NULL, 10), words[3]);
    if (count == 3 && strcmp(words[1], "full") == 0)
        return full(words[2]);
    fprintf(stderr, "areas: lines KIND COUNT, stored SEED FILE or full FILE\n");
    return 2;
}
