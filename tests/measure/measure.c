/* Repeats one call of the archive on an area of a known fill, which is put back before each call:
 *     measure CALL ROWS OPENS own|pairs|turned|crossed|star|long TIMES
 * prints the last answer. Two runs that differ by one call give the cost of that call and of putting back. */
#include "../yardstick/yardstick.h"
#include "areas.h"

#include <stdio.h>
#include <stdlib.h>
#include <string.h>

/* The buffers that the calls ask for. */
enum { ROOM = 4096, SHEET_ROOM = 36864 };

/* As "shift leader" has them. */
enum { USUAL_NAME = 12 };

/* The functions of the archive: the compiler is told the names of those that it has. */
#ifdef CHECK
bool CHECK(const uint8_t *area, size_t len);
#endif
#ifdef DECIDE
struct yardstick_decided DECIDE(const uint8_t *area, size_t len, uint32_t permission, uint64_t set);
#endif
#ifdef EVENT
uint32_t EVENT(uint8_t *area, size_t len, uint32_t permission, uint64_t kind, uint64_t number, uint32_t state);
#endif
#ifdef PRINT_OPEN
struct yardstick_written PRINT_OPEN(const uint8_t *area, size_t len, uint8_t *out, size_t out_len);
#endif
#ifdef PRINT_ROW
struct yardstick_written PRINT_ROW(const uint8_t *area, size_t len, uint64_t row, uint8_t *out, size_t out_len);
#endif
#ifdef SHEET
struct yardstick_written SHEET(const uint8_t *area, size_t len, const uint8_t *works, size_t works_len,
                               const uint8_t *standard, size_t standard_len, uint32_t permission, uint64_t session,
                               uint8_t *out, size_t out_len);
#endif

static uint8_t area[AREA_BYTES], before[AREA_BYTES];
#if defined PRINT_OPEN || defined PRINT_ROW || defined SHEET
static uint8_t out[SHEET_ROOM];
#endif
#ifdef SHEET
/* Tables in which no role has a name, and in which each has a usual one, or one as long as it can be. */
static uint8_t bare[TABLE_BYTES], named[TABLE_BYTES], longest[TABLE_BYTES];
#endif

/* The last row, its permission and sets of it; on an empty area the permission of row 0 and empty sets. */
static uint64_t last_row;
static uint32_t permission;
static uint64_t denied_set, first_open, last_open, struck, first_role;

/* Putting back alone, and with a thousand instructions: they prove the counter. */
static uint32_t nothing(void)
{
    return 0;
}

static uint32_t thousand(void)
{
    __asm__ volatile(".rept 1000\n\tnop\n\t.endr");
    return 0;
}

#if defined CHECK
static uint32_t check(void)
{
    return CHECK(area, AREA_BYTES);
}
#elif defined DECIDE
/* Permission 0 is refused right after the check. */
static struct yardstick_decided check(void)
{
    return DECIDE(area, AREA_BYTES, 0, 0);
}
#endif

#ifdef DECIDE
/* Undecided: every open set of the last row is looked at. */
static struct yardstick_decided decide(void)
{
    return DECIDE(area, AREA_BYTES, permission, UINT64_C(1) << FREE_ROLE);
}
#endif

#ifdef EVENT
static uint32_t deny(uint64_t set)
{
    return EVENT(area, AREA_BYTES, permission, YARDSTICK_DENY, set, FILLED_STATE);
}

static uint32_t allow(uint64_t set)
{
    return EVENT(area, AREA_BYTES, permission, YARDSTICK_ALLOW, set, FILLED_STATE);
}

/* What is known already. */
static uint32_t reply_deny(void)
{
    return deny(denied_set);
}

static uint32_t reply_allow(void)
{
    return allow(last_open);
}

/* Open sets lose roles: of pairs the struck ones then come first and drop the others. */
static uint32_t deny_strikes(void)
{
    return deny(struck);
}

/* The lowest role of the first open set alone: of pairs it drops every set that has it. */
static uint32_t allow_drops(void)
{
    return allow(first_open & -first_open);
}

/* One open set more, before all others and behind them. */
static uint32_t allow_first(void)
{
    return allow(UINT64_C(1) << LOWEST_ROLE);
}

static uint32_t allow_last(void)
{
    return allow(UINT64_C(1) << FREE_ROLE);
}

/* A permission before all others: every row moves. */
static uint32_t new_row(void)
{
    return EVENT(area, AREA_BYTES, permission_of(0) - 1, YARDSTICK_DENY, UINT64_C(1) << FREE_ROLE, FILLED_STATE);
}

/* The lowest role of the first open set: of pairs every set that has it goes. */
static uint32_t withdrawn(void)
{
    return EVENT(area, AREA_BYTES, permission, YARDSTICK_WITHDRAWN, first_role, FILLED_STATE + 1);
}

static uint32_t given(void)
{
    return EVENT(area, AREA_BYTES, permission, YARDSTICK_GIVEN, first_role, FILLED_STATE + 1);
}
#endif

#ifdef PRINT_OPEN
static struct yardstick_written print_open(void)
{
    return PRINT_OPEN(area, AREA_BYTES, out, ROOM);
}
#endif

#ifdef PRINT_ROW
static struct yardstick_written print_row(void)
{
    return PRINT_ROW(area, AREA_BYTES, last_row, out, ROOM);
}
#endif

#if defined PRINT_OPEN && defined PRINT_ROW
/* The O line and all rows, up to the call that finds no row more; the few instructions of this loop are counted too. */
static struct yardstick_written print_whole(void)
{
    struct yardstick_written written = print_open();
    for (uint64_t row = 0; written.answer == 0; row++)
        written = PRINT_ROW(area, AREA_BYTES, row, out, ROOM);
    return written;
}
#endif

#ifdef SHEET
/* The sheet of the last row, undecided, one table lent as both. It has more arguments than go into registers: what puts
 * the others on the stack is counted too. */
static struct yardstick_written sheet(const uint8_t *table)
{
    return SHEET(area, AREA_BYTES, table, TABLE_BYTES, table, TABLE_BYTES, permission, UINT64_C(1) << FREE_ROLE, out,
                 SHEET_ROOM);
}

static struct yardstick_written sheet_bare(void)
{
    return sheet(bare);
}

static struct yardstick_written sheet_named(void)
{
    return sheet(named);
}

static struct yardstick_written sheet_long(void)
{
    return sheet(longest);
}
#endif

/* Each gives what its call gives, so that it ends in a jump to the call, and adds nothing to it. */
static const struct call {
    const char *name;
    uint32_t (*run)(void);
    struct yardstick_decided (*decides)(void);
    struct yardstick_written (*prints)(void);
} calls[] = {
    {"nothing", nothing, NULL, NULL},
    {"thousand", thousand, NULL, NULL},
#if defined CHECK
    {"check", check, NULL, NULL},
#elif defined DECIDE
    {"check", NULL, check, NULL},
#endif
#ifdef DECIDE
    {"decide", NULL, decide, NULL},
#endif
#ifdef EVENT
    {"reply-deny", reply_deny, NULL, NULL},
    {"reply-allow", reply_allow, NULL, NULL},
    {"deny-strikes", deny_strikes, NULL, NULL},
    {"allow-drops", allow_drops, NULL, NULL},
    {"allow-first", allow_first, NULL, NULL},
    {"allow-last", allow_last, NULL, NULL},
    {"new-row", new_row, NULL, NULL},
    {"withdrawn", withdrawn, NULL, NULL},
    {"given", given, NULL, NULL},
#endif
#ifdef PRINT_OPEN
    {"print-open", NULL, NULL, print_open},
#endif
#ifdef PRINT_ROW
    {"print-row", NULL, NULL, print_row},
#endif
#if defined PRINT_OPEN && defined PRINT_ROW
    {"print-whole", NULL, NULL, print_whole},
#endif
#ifdef SHEET
    {"sheet-bare", NULL, NULL, sheet_bare},
    {"sheet-named", NULL, NULL, sheet_named},
    {"sheet-long", NULL, NULL, sheet_long},
#endif
};

static _Noreturn void stop(const char *why)
{
    fprintf(stderr, "measure: %s\n", why);
    exit(2);
}

static unsigned number(const char *text, unsigned most)
{
    char *end;
    unsigned long value = strtoul(text, &end, 10);
    if (end == text || *end != '\0' || value > most)
        stop("bad number");
    return (unsigned)value;
}

static enum kind kind_named(const char *name)
{
    static const char *const names[] = {
        [OWN] = "own", [PAIRS] = "pairs", [TURNED] = "turned", [CROSSED] = "crossed", [STAR] = "star", [LONG] = "long"};
    for (enum kind kind = OWN; kind <= LONG; kind++)
        if (strcmp(name, names[kind]) == 0)
            return kind;
    stop("no such kind");
}

int main(int argc, char **argv)
{
    if (argc != 6)
        stop("usage: measure CALL ROWS OPENS own|pairs|turned|crossed|star|long TIMES");
    const struct call *call = NULL;
    for (size_t k = 0; k < sizeof calls / sizeof calls[0]; k++)
        if (strcmp(argv[1], calls[k].name) == 0)
            call = &calls[k];
    if (call == NULL)
        stop("no such call");
    unsigned rows = number(argv[2], MOST_ROWS);
    unsigned opens = number(argv[3], MOST_OPENS);
    enum kind kind = kind_named(argv[4]);
    unsigned times = number(argv[5], 1000000);

    fill(before, rows, opens, kind);
    permission = permission_of(rows > 0 ? rows - 1 : 0);
    last_row = rows > 0 ? rows - 1 : 0;
    if (rows > 0) {
        denied_set = word(before, body_at(rows - 1));
        first_open = word(before, body_at(rows - 1) + 1);
        last_open = word(before, body_at(rows - 1) + opens);
        struck = strikable(rows - 1, opens, kind);
        while (first_open >> first_role > 1 && (first_open >> first_role & 1) == 0)
            first_role++;
    }

#ifdef SHEET
    fill_names(bare, 0);
    fill_names(named, USUAL_NAME);
    fill_names(longest, MOST_NAME);
#endif

    uint32_t answer = 0;
    if (call->decides != NULL)
        for (unsigned k = 0; k < times; k++) {
            memcpy(area, before, AREA_BYTES);
            answer = call->decides().answer;
        }
    else if (call->prints != NULL)
        for (unsigned k = 0; k < times; k++) {
            memcpy(area, before, AREA_BYTES);
            answer = call->prints().answer;
        }
    else
        for (unsigned k = 0; k < times; k++) {
            memcpy(area, before, AREA_BYTES);
            answer = call->run();
        }

    if (!yardstick_good(area, AREA_BYTES))
        stop("the call left a bad area");
    printf("%u\n", (unsigned)answer);
    return 0;
}
