/* Drives the library and the yardstick side by side: every answer, every role to ask about and every byte of the area
 * and of a sheet must be the same. */
#include "../measure/areas.h"
#include "../second/groups.h"
#include "wickthrush.h"
#include "yardstick.h"

#include <string.h>

enum what { OPEN, EVENT, DECIDE, FORGET };

/* One call; kind is an event's, number a role count, a set or a role. */
struct call {
    enum what what;
    size_t len;
    uint32_t permission;
    uint64_t kind, number;
    uint32_t state; /* of open and events */
};

static uint8_t area[AREA_BYTES], other[AREA_BYTES], kept[AREA_BYTES];
static unsigned long times[18], asked[WICKTHRUSH_MOST_ROLES], good_areas, bad_areas;

/* The answer; decide alone gives a role too. */
static uint32_t ask_library(const struct call *c, uint32_t *role)
{
    wickthrush_decided decided;
    switch (c->what) {
    case OPEN: return wickthrush_open(area, c->len, c->number, c->state);
    case EVENT: return wickthrush_event(area, c->len, c->permission, c->kind, c->number, c->state);
    case DECIDE:
        decided = wickthrush_decide(area, c->len, c->permission, c->number);
        *role = decided.role;
        return decided.answer;
    default: return wickthrush_forget(area, c->len, c->permission);
    }
}

static uint32_t ask_yardstick(const struct call *c, uint32_t *role)
{
    struct yardstick_decided decided;
    switch (c->what) {
    case OPEN: return yardstick_open(other, c->len, c->number, c->state);
    case EVENT: return yardstick_event(other, c->len, c->permission, c->kind, c->number, c->state);
    case DECIDE:
        decided = yardstick_decide(other, c->len, c->permission, c->number);
        *role = decided.role;
        return decided.answer;
    default: return yardstick_forget(other, c->len, c->permission);
    }
}

/* Both areas start equal and must end so. */
static uint32_t both(const struct call *c)
{
    uint32_t role = WICKTHRUSH_NO_ROLE, expected_role = WICKTHRUSH_NO_ROLE;
    uint32_t answer = ask_library(c, &role), expected = ask_yardstick(c, &expected_role);
    bool same =
        check(answer == expected && role == expected_role,
              "call %d, permission %lu, kind %#llx, number %#llx, state %lu: %lu with role %lu, not %lu with %lu",
              (int)c->what, (unsigned long)c->permission, (unsigned long long)c->kind, (unsigned long long)c->number,
              (unsigned long)c->state, (unsigned long)answer, (unsigned long)role, (unsigned long)expected,
              (unsigned long)expected_role);
    same &= check(memcmp(area, other, AREA_BYTES) == 0, "call %d answered %lu: the areas differ", (int)c->what,
                  (unsigned long)answer);
    /* One difference must not show up again in all that follows. */
    if (!same)
        memcpy(other, area, AREA_BYTES);
    if (expected < sizeof times / sizeof times[0])
        times[expected]++;
    if (expected_role < WICKTHRUSH_MOST_ROLES)
        asked[expected_role]++;
    return expected;
}

/* ---- numbers for calls */

static const uint64_t odd_numbers[] = {
    2, 3, 4, 5, 63, 64, 65, 255, 256, UINT64_C(1) << 32, (UINT64_C(1) << 32) + 3, UINT64_C(1) << 63, UINT64_MAX};
static const size_t odd_lengths[] = {0, 1, 18448, AREA_BYTES - 1, AREA_BYTES + 1, AREA_BYTES + 8, SIZE_MAX};
static const uint32_t odd_states[] = {0,         1, 2, 255, 65536, UINT32_C(1) << 31, UINT32_MAX - 2, UINT32_MAX - 1,
                                      UINT32_MAX};

#define ANY_OF(list) ((list)[any_below(sizeof(list) / sizeof(list)[0])])

/* What a stream is made of: role count, how many permissions, how many roles to a set, calls of 100 that are updates.
 */
struct style {
    uint64_t n;
    unsigned permissions, roles, updates;
};

static uint64_t all_roles(uint64_t n)
{
    return UINT64_MAX >> (64 - n);
}

static uint64_t any_set(const struct style *style)
{
    uint64_t set = 0;
    for (unsigned k = 0; k < style->roles; k++)
        set |= UINT64_C(1) << any_below(style->n);
    return any_below(16) ? set : any() & all_roles(style->n);
}

/* Even ones are those of a filled area. */
static uint32_t any_permission(const struct style *style)
{
    uint32_t permission = 1 + (uint32_t)any_below(style->permissions);
    return any_below(64) ? permission : UINT32_MAX - permission;
}

static uint32_t any_state(void)
{
    return any_below(2) ? ANY_OF(odd_states) : (uint32_t)any();
}

/* Mostly in time. The state of a damaged area may be anything. */
static struct call any_event(const struct style *style, uint64_t kind)
{
    bool reply = kind < YARDSTICK_WITHDRAWN;
    uint32_t state = (uint32_t)word(area, STATE_AT) + !reply;
    if (any_below(10) == 0)
        state = any_below(2) ? state + (uint32_t)any_below(7) - 3 : any_state();
    uint64_t number = reply ? any_set(style) : any_below(style->n);
    return (struct call){EVENT, AREA_BYTES, any_permission(style), kind, number, state};
}

static struct call any_call(const struct style *style)
{
    uint64_t dice = any_below(100);
    if (dice < style->updates)
        return any_event(style, YARDSTICK_WITHDRAWN + any_below(2));
    struct call c = any_event(style, YARDSTICK_DENY + any_below(2));
    if (dice < style->updates + 20)
        c.what = DECIDE;
    else if (dice < style->updates + 22)
        c.what = FORGET;
    return c;
}

static void spoil(struct call *c)
{
    switch (any_below(6)) {
    case 0: c->len = ANY_OF(odd_lengths); break;
    case 1: c->permission = 0; break;
    case 2: c->kind = ANY_OF(odd_numbers); break;
    case 3: c->number = ANY_OF(odd_numbers); break;
    case 4: c->state = any_state(); break;
    default:
        *c = (struct call){OPEN, AREA_BYTES, 0, 0, any_below(2) ? ANY_OF(odd_numbers) : any_below(66), any_state()};
    }
}

/* ---- sheets */

enum { SHEET_ROOM = 36864, MOST_ROOM = SHEET_ROOM + 16, MOST_TABLE = 1000 };

static void put_half(uint8_t *at, size_t value)
{
    at[0] = (uint8_t)value;
    at[1] = (uint8_t)(value >> 8);
}

/* Names anywhere in a table; one table of 16 is too short, or has a pair of any numbers. */
static size_t any_table(uint8_t *table)
{
    size_t len = NAMES_AT + any_below(MOST_TABLE - NAMES_AT + 1);
    for (size_t i = 0; i < len; i++)
        table[i] = (uint8_t)any();
    for (size_t r = 0; r < NAMED_ROLES; r++) {
        size_t length = any_below(3) ? any_below(MOST_NAME + 1) : 0;
        put_half(table + 4 * r, any_below(len - length + 1));
        put_half(table + 4 * r + 2, length);
    }
    if (any_below(32) == 0)
        return any_below(NAMES_AT);
    if (any_below(32) == 0)
        put_half(table + 4 * any_below(NAMED_ROLES) + 2, any() >> any_below(64));
    return len;
}

/* The sheet of a permission: the bytes behind it too must be the same, and so those of a buffer that is not written. */
static void both_sheets(const struct call *c)
{
    static uint8_t works[MOST_TABLE], standard[MOST_TABLE], out[MOST_ROOM], other_out[MOST_ROOM];
    size_t works_len = any_table(works), standard_len = any_table(standard);
    size_t room = any_below(16) ? SHEET_ROOM + any_below(17) : any_below(SHEET_ROOM);
    memset(out, (int)any_below(256), MOST_ROOM);
    memcpy(other_out, out, MOST_ROOM);
    wickthrush_written written =
        wickthrush_sheet(area, c->len, works, works_len, standard, standard_len, c->permission, c->number, out, room);
    struct yardstick_written expected = yardstick_sheet(other, c->len, works, works_len, standard, standard_len,
                                                        c->permission, c->number, other_out, room);
    check(written.answer == expected.answer && written.bytes == expected.bytes,
          "sheet, permission %lu, session %#llx: %lu with %lu bytes, not %lu with %lu", (unsigned long)c->permission,
          (unsigned long long)c->number, (unsigned long)written.answer, (unsigned long)written.bytes,
          (unsigned long)expected.answer, (unsigned long)expected.bytes);
    check(memcmp(out, other_out, MOST_ROOM) == 0, "sheet, permission %lu, session %#llx: other bytes",
          (unsigned long)c->permission, (unsigned long long)c->number);
    check(memcmp(area, other, AREA_BYTES) == 0, "a sheet changed an area");
    times[expected.answer]++;
}

/* ---- streams */

static void stream(const struct style *style, unsigned calls, unsigned odd)
{
    for (unsigned i = 0; i < calls; i++) {
        struct call c = any_call(style);
        if (any_below(100) < odd)
            spoil(&c);
        if (any_below(8) == 0)
            both_sheets(&c);
        if (both(&c) == 0 && c.what == OPEN)
            both(&(struct call){OPEN, AREA_BYTES, 0, 0, style->n, any_state()});
    }
}

static struct style any_style(void)
{
    static const uint64_t counts[] = {1, 2, 3, 6, 8, 16, 17, 33, 50, 63, 64, 64};
    struct style style = {ANY_OF(counts), 1 + (unsigned)any_below(8), 1 + (unsigned)any_below(5), 15};
    if (any_below(3) == 0)
        style.permissions = 256;
    return style;
}

static void good_streams(void)
{
    group("streams on opened areas, odd numbers among them");
    for (unsigned round = 0; round < 400; round++) {
        struct style style = any_style();
        for (size_t i = 0; i < AREA_BYTES; i++)
            area[i] = other[i] = (uint8_t)any();
        both(&(struct call){EVENT, AREA_BYTES, 1, YARDSTICK_DENY, 1, 0});
        both(&(struct call){OPEN, AREA_BYTES, 0, 0, style.n, any_state()});
        stream(&style, 250, 10);
        check(yardstick_good(area, AREA_BYTES), "the area breaks a layout rule");
    }
}

static void filled_streams(void)
{
    static const unsigned rows[] = {0, 1, 2, 64, 127, 128}, opens[] = {1, 2, 3, 14, 15};
    group("streams on filled areas");
    for (size_t r = 0; r < sizeof rows / sizeof rows[0]; r++)
        for (size_t o = 0; o < sizeof opens / sizeof opens[0]; o++)
            for (enum kind kind = OWN; kind <= STAR; kind++) {
                fill(area, rows[r], opens[o], kind);
                memcpy(other, area, AREA_BYTES);
                struct style style = {64, 2 * rows[r] + 2, 1 + (unsigned)any_below(3), 5};
                stream(&style, 200, 2);
            }
}

/* ---- damaged and random areas */

static void put_both(size_t at, uint64_t value)
{
    for (size_t k = 0; k < 8; k++)
        area[8 * at + k] = other[8 * at + k] = (uint8_t)(value >> 8 * k);
}

/* Every call once, the event once of each kind; what is good stays comparable, what is bad must be left alone. */
static void every_call(const struct style *style)
{
    if (yardstick_good(area, AREA_BYTES))
        good_areas++;
    else
        bad_areas++;
    for (uint64_t kind = YARDSTICK_DENY; kind <= YARDSTICK_GIVEN; kind++) {
        struct call c = any_event(style, kind);
        both(&c);
    }
    both(&(struct call){DECIDE, AREA_BYTES, any_permission(style), 0, any_set(style), 0});
    both_sheets(&(struct call){DECIDE, AREA_BYTES, any_permission(style), 0, any_set(style), 0});
    both(&(struct call){FORGET, AREA_BYTES, any_permission(style), 0, 0, 0});
}

static void decide_once(void)
{
    both(&(struct call){DECIDE, AREA_BYTES, permission_of(0), 0, 1, 0});
}

/* Role counts and row counts of every size, over rows that are there or not. */
static void every_header(void)
{
    static const unsigned rows[] = {0, 1, 127, 128};
    group("every role count with every row count");
    for (size_t r = 0; r < sizeof rows / sizeof rows[0]; r++) {
        fill(area, rows[r], 1, OWN);
        memcpy(other, area, AREA_BYTES);
        for (uint64_t n = 0; n <= 130; n++)
            for (uint64_t used = 0; used <= 130; used++) {
                put_both(0, n);
                put_both(1, used);
                decide_once();
            }
    }
}

/* Each word of a full and of a half full area by itself, so that none can go unread. */
static void each_word_damaged(void)
{
    group("each word damaged by itself");
    for (unsigned kind = 0; kind < 4; kind++) {
        fill(area, kind % 2 ? MOST_ROWS : 3, kind < 2 ? 3 : MOST_OPENS, kind % 2 ? PAIRS : OWN);
        memcpy(other, area, AREA_BYTES);
        for (size_t at = 0; at < AREA_WORDS; at++) {
            uint64_t before = word(area, at);
            uint64_t damaged[] = {before ^ UINT64_C(1) << any_below(64), before + 1, any()};
            for (size_t k = 0; k < sizeof damaged / sizeof damaged[0]; k++) {
                put_both(at, damaged[k]);
                decide_once();
            }
            put_both(at, before);
        }
    }
}

/* A change that comes near to an area: a set, count, permission or header number of the used rows. */
static void damage(uint64_t n)
{
    uint64_t rows = word(area, 1);
    /* The number of rows and that of open sets may be damaged already. */
    size_t i = rows - 1 < MOST_ROWS ? any_below(rows) : 0;
    uint64_t count = word(area, contents_at(i) + 1);
    size_t set = body_at(i) + any_below(count < MOST_OPENS ? count + 2 : BODY_WORDS);
    switch (any_below(11)) {
    case 0: put_both(0, any_below(70)); break;
    case 1: put_both(1, rows + any_below(3) - 1); break;
    case 2: put_both(contents_at(i), word(area, contents_at(i)) + any_below(5) - 2); break;
    case 3: put_both(contents_at(i), UINT64_C(1) << (31 + any_below(3))); break;
    case 4: put_both(contents_at(i) + 1, count + any_below(3) - 1); break;
    case 5: put_both(set, 0); break;
    case 6: put_both(set, word(area, body_at(i) + any_below(BODY_WORDS))); break;
    case 7: put_both(set, word(area, set) & any()); break;
    case 8: put_both(set, word(area, set) | UINT64_C(1) << any_below(n < 63 ? n + 1 : 64)); break;
    case 9: put_both(STATE_AT, any() >> any_below(64)); break;
    default: put_both(any_below(AREA_WORDS), any()); break;
    }
}

static void damaged_areas(void)
{
    group("damaged areas");
    for (unsigned round = 0; round < 150; round++) {
        struct style style = any_style();
        both(&(struct call){OPEN, AREA_BYTES, 0, 0, style.n, any_state()});
        stream(&style, 60, 0);
        memcpy(kept, area, AREA_BYTES);
        for (unsigned times_damaged = 0; times_damaged < 40; times_damaged++) {
            memcpy(area, kept, AREA_BYTES);
            memcpy(other, kept, AREA_BYTES);
            for (uint64_t k = any_below(3); k < 3; k++)
                damage(style.n);
            every_call(&style);
        }
    }
}

/* Few small rows of random words: some keep every rule, most break one or two. */
static void random_areas(void)
{
    group("random areas");
    for (unsigned round = 0; round < 8000; round++) {
        struct style style = {2 + any_below(5), 4, 2, 10};
        memset(area, 0, AREA_BYTES);
        memset(other, 0, AREA_BYTES);
        uint64_t rows = any_below(3), permission = 0;
        put_both(0, style.n);
        put_both(1, rows);
        put_both(STATE_AT, any_state());
        for (size_t i = 0; i < rows; i++) {
            uint64_t count = any_below(4), set = 0;
            permission += any_below(8) ? 1 + any_below(2) : 0;
            put_both(contents_at(i), permission);
            put_both(contents_at(i) + 1, count);
            put_both(body_at(i), any_below(2) ? UINT64_C(1) << any_below(style.n) : 0);
            for (size_t k = 1; k <= count; k++) {
                set = (set + any_below(UINT64_C(1) << (style.n - 1))) & (all_roles(style.n) << 1 | 1);
                put_both(body_at(i) + k, set);
            }
        }
        every_call(&style);
    }
    for (unsigned round = 0; round < 200; round++) {
        for (size_t i = 0; i < AREA_BYTES; i++)
            area[i] = other[i] = (uint8_t)(any_below(4) ? 0 : any());
        every_call(&(struct style){64, 4, 2, 10});
    }
}

static void everything_occurred(void)
{
    group("every answer occurred, every role as one to ask about, and good areas and bad ones");
    for (size_t answer = 0; answer < sizeof times / sizeof times[0]; answer++)
        check(answer == 9 || answer == 15 || times[answer] > 0, "answer %zu never occurred", answer);
    for (size_t role = 0; role < WICKTHRUSH_MOST_ROLES; role++)
        check(asked[role] > 0, "role %zu never occurred", role);
    check(good_areas > 1000 && bad_areas > 1000, "%lu good areas, %lu bad ones", good_areas, bad_areas);
}

int main(void)
{
    good_streams();
    filled_streams();
    every_header();
    each_word_damaged();
    damaged_areas();
    random_areas();
    everything_occurred();
    return finish();
}
