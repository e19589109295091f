/* The header's numbers, the readings of the Rules, the order of refusals, the layout rules, and the memory around the
 * lent area. */
#define _DEFAULT_SOURCE
#include "groups.h"
#include "second.h"
#include "wickthrush.h"

#include <stdio.h>
#include <string.h>
#include <sys/mman.h>

enum {
    BYTES = WICKTHRUSH_AREA_BYTES,
    WORDS = BYTES / 8,
    ROLES = WICKTHRUSH_MOST_ROLES,
    ROWS = WICKTHRUSH_MOST_ROWS,
    OPENS = WICKTHRUSH_MOST_OPEN_SETS
};

/* The area stands between guard bytes, as many as it has itself: room for a call that takes a wrong length as right. */
enum { GUARD = BYTES };
static _Alignas(16) uint8_t memory[GUARD + BYTES + GUARD];
static uint8_t *const area = memory + GUARD;
static uint8_t before[BYTES];

/* Lent to calls that print and must write nothing. */
static uint8_t out[SECOND_ROOM];

static uint8_t guard_byte(size_t i)
{
    return (uint8_t)(i * 7 + 1);
}

static void put_guards(void)
{
    for (size_t i = 0; i < sizeof memory; i++)
        memory[i] = guard_byte(i);
    for (size_t i = 0; i < sizeof out; i++)
        out[i] = guard_byte(i);
}

/* Names the first byte outside the area at `at` that has changed. */
static void check_guards(const uint8_t *at, const char *name)
{
    size_t i = 0, first = (size_t)(at - memory);
    while (i < sizeof memory && (memory[i] == guard_byte(i) || (i >= first && i < first + BYTES)))
        i++;
    check(i == sizeof memory, "%s: guard byte %zu changed", name, i);
}

/* The set of up to three roles. */
#define BIT(role) (UINT64_C(1) << (role))
#define SET2(a, b) (BIT(a) | BIT(b))
#define SET3(a, b, c) (BIT(a) | BIT(b) | BIT(c))

/* ---- the header */

/* The second program has its numbers from the Rules, not from the header. */
static void header_numbers(void)
{
    static const struct {
        const char *name;
        unsigned long number, expected;
    } numbers[] = {
#define NUMBER(name, expected) {#name, WICKTHRUSH_##name, expected}
        NUMBER(AREA_BYTES, SECOND_BYTES),
        NUMBER(MOST_ROLES, SECOND_MOST_ROLES),
        NUMBER(MOST_ROWS, SECOND_ROWS),
        NUMBER(MOST_OPEN_SETS, SECOND_OPENS),
        NUMBER(NO_ROLE, SECOND_NO_ROLE),
        NUMBER(REPLY_DENY, 0),
        NUMBER(REPLY_ALLOW, 1),
        NUMBER(WITHDRAWN, 2),
        NUMBER(GIVEN, 3),
        NUMBER(RECORDED, 0),
        NUMBER(BAD_AREA, 1),
        NUMBER(BAD_ROLE_COUNT, 2),
        NUMBER(NO_PERMISSION, 3),
        NUMBER(UNKNOWN_ROLE, 4),
        NUMBER(BAD_VERDICT, 5),
        NUMBER(CONTRADICTION, 6),
        NUMBER(FULL, 7),
        NUMBER(FORGOTTEN, 8),
        NUMBER(UNREADABLE, 9),
        NUMBER(DENY, 10),
        NUMBER(ALLOW, 11),
        NUMBER(UNDECIDED, 12),
        NUMBER(LATE, 13),
        NUMBER(AHEAD, 14),
        NUMBER(SHORT_BUFFER, 16),
        NUMBER(NO_SUCH_ROW, 18),
        NUMBER(PRINT_BYTES, SECOND_ROOM),
#undef NUMBER
    };
    group("the header's numbers");
    for (size_t i = 0; i < sizeof numbers / sizeof numbers[0]; i++)
        check(numbers[i].number == numbers[i].expected, "WICKTHRUSH_%s is %lu instead of %lu", numbers[i].name,
              numbers[i].number, numbers[i].expected);
}

/* ---- decide */

/* In the place of an answer that has a role, and of the role of an answer that is not 12. */
enum { WRONG = 1000 };

/* The answer of a decide that must give no role. */
static uint32_t decided(const uint8_t *at, size_t len, uint32_t permission, uint64_t set)
{
    wickthrush_decided got = wickthrush_decide(at, len, permission, set);
    return got.role == SECOND_NO_ROLE ? got.answer : WRONG;
}

/* The role of a decide that must answer 12. */
static uint32_t role_to_ask(const uint8_t *at, size_t len, uint32_t permission, uint64_t set)
{
    wickthrush_decided got = wickthrush_decide(at, len, permission, set);
    return got.answer == 12 ? got.role : WRONG;
}

/* ---- open and events */

static uint64_t word(size_t at)
{
    return second_word(area, at);
}

/* The policy state that the area must be in. */
static uint32_t present;

static void open_in(uint64_t n, uint32_t state)
{
    check(wickthrush_open(area, BYTES, n, state) == 0, "open with %llu roles in state %lu", (unsigned long long)n,
          (unsigned long)state);
    present = state;
}

static void open_area(uint64_t n)
{
    open_in(n, 0);
}

static bool is_update(uint64_t kind)
{
    return kind == 2 || kind == 3;
}

/* An event that comes in time; an update that counts moves the state, with 8 too. */
static uint32_t event(uint32_t permission, uint64_t kind, uint64_t number)
{
    uint32_t answer = wickthrush_event(area, BYTES, permission, kind, number, present + is_update(kind));
    if (is_update(kind) && (answer == 0 || answer == 8))
        present++;
    return answer;
}

/* Takes the area as it is, to hold it against later. */
static void keep(void)
{
    memcpy(before, area, BYTES);
}

/* Whether every byte is as it was kept, but for the state, which is the present one. */
static bool kept(void)
{
    second_put(before, SECOND_STATE_AT, present);
    return memcmp(area, before, BYTES) == 0;
}

/* ---- the calls that print: tests/print has more of them */

/* The answer of a call that must write nothing. */
static uint32_t refused_print(wickthrush_written got)
{
    bool untouched = got.bytes == 0;
    for (size_t i = 0; i < sizeof out; i++)
        untouched = untouched && out[i] == guard_byte(i);
    return untouched ? got.answer : WRONG;
}

static uint32_t open_line(const uint8_t *at, size_t len, size_t room)
{
    return refused_print(wickthrush_print_open(at, len, out, room));
}

static uint32_t row_lines(const uint8_t *at, size_t len, uint64_t row, size_t room)
{
    return refused_print(wickthrush_print_row(at, len, row, out, room));
}

/* ---- readings */

/* A line of the program (its letter, then a set or a role), and its answer.
 * With Q there must be no role; ? is a Q that must be answered 12, and here its answer is the role to ask about.
 * A small letter asks for row 0: u rows used, d denied set, c number of open sets, o and w the first two open sets; s
 * asks for the state. Events come in time. */
struct step {
    char letter;
    uint64_t number;
    uint64_t answer;
};

struct reading {
    const char *name;
    struct step steps[16];
};

/* Role count 8, permission 5. */
static const struct reading readings[] = {
    {"no row, decide on -", {{'Q', 0, 10}, {'u', 0, 0}, {'s', 0, 0}}},
    {"no row, decide on 0", {{'?', BIT(0), 0}, {'u', 0, 0}}},
    {"allow on -", {{'A', 0, 6}, {'u', 0, 0}}},
    {"deny on -", {{'D', 0, 0}, {'u', 0, 0}}},
    {"allow 2,3", {{'A', SET2(2, 3), 0}, {'?', SET2(3, 4), 3}}},
    {"allow 2,3; withdraw 2",
     {{'A', SET2(2, 3), 0},
      {'R', 2, 0},
      {'?', BIT(3), 3},
      {'Q', BIT(2), 10},
      {'?', SET2(2, 3), 3},
      {'c', 0, 0},
      {'s', 0, 1}}},
    {"allow 2,3; deny 2", {{'A', SET2(2, 3), 0}, {'D', BIT(2), 0}, {'Q', BIT(3), 11}}},
    {"allow 2,3; withdraw 2; deny 2",
     {{'A', SET2(2, 3), 0}, {'R', 2, 0}, {'D', BIT(2), 0}, {'?', BIT(3), 3}, {'c', 0, 0}}},
    {"allow 2,3; deny 2; withdraw 2", {{'A', SET2(2, 3), 0}, {'D', BIT(2), 0}, {'R', 2, 0}, {'Q', BIT(3), 11}}},
    {"allow 3; allow 3,4", {{'A', BIT(3), 0}, {'A', SET2(3, 4), 0}, {'c', 0, 1}, {'o', 0, BIT(3)}}},
    {"allow 3,4; allow 3", {{'A', SET2(3, 4), 0}, {'A', BIT(3), 0}, {'c', 0, 1}, {'o', 0, BIT(3)}}},
    {"deny 1,2; give 1", {{'D', SET2(1, 2), 0}, {'G', 1, 0}, {'Q', BIT(1), 11}, {'Q', BIT(2), 10}}},
    {"allow 2,3; deny 2,3", {{'A', SET2(2, 3), 0}, {'D', SET2(2, 3), 6}}},
    {"allow 1,2; allow 2,3", {{'A', SET2(1, 2), 0}, {'A', SET2(2, 3), 0}, {'?', BIT(2), 2}}},
    {"the worked case",
     {{'D', SET2(1, 2), 0},
      {'A', SET3(2, 3, 4), 0},
      {'A', SET3(4, 5, 6), 0},
      {'D', SET2(4, 7), 0},
      {'d', 0, SET2(1, 2) | SET2(4, 7)},
      {'c', 0, 2},
      {'o', 0, BIT(3)},
      {'w', 0, SET2(5, 6)},
      {'Q', SET2(3, 4), 11},
      {'Q', SET3(1, 4, 7), 10},
      {'?', SET2(1, 5), 5},
      {'?', SET3(1, 2, 6), 6},
      {'?', SET2(0, 5), 0}}},
    {"no row, whom to ask about",
     {{'?', BIT(7), 7}, {'?', SET2(0, 7), 0}, {'?', SET3(3, 5, 6), 3}, {'?', BIT(8) - 1, 0}, {'Q', 0, 10}}},
    {"allow 3", {{'A', BIT(3), 0}, {'Q', SET2(2, 3), 11}, {'?', BIT(2), 2}}},
    {"no denied role is asked about",
     {{'D', SET3(0, 1, 4), 0},
      {'?', SET2(0, 2), 2},
      {'?', SET3(0, 1, 7), 7},
      {'?', SET3(2, 4, 6), 2},
      {'?', SET3(1, 4, 6), 6},
      {'Q', SET2(0, 4), 10}}},
    {"roles of open sets are asked about",
     {{'A', SET2(5, 6), 0},
      {'?', BIT(5), 5},
      {'?', SET2(6, 7), 6},
      {'?', SET2(4, 5), 4},
      {'Q', SET3(4, 5, 6), 11},
      {'Q', SET2(5, 6), 11}}},
    {"whom to ask about after updates",
     {{'R', 0, 0},
      {'?', SET2(0, 1), 1},
      {'G', 3, 0},
      {'Q', SET2(1, 3), 11},
      {'?', SET3(0, 1, 2), 1},
      {'G', 0, 0},
      {'Q', SET2(0, 1), 11},
      {'F', 0, 0},
      {'?', SET2(0, 1), 0}}},
    {"allow on a denied set",
     {{'D', SET2(1, 2), 0}, {'A', BIT(1), 6}, {'A', SET2(1, 2), 6}, {'A', SET2(2, 3), 0}, {'o', 0, BIT(3)}}},
    {"deny on part of an open set",
     {{'A', SET3(1, 2, 3), 0}, {'D', BIT(1), 0}, {'D', SET2(2, 3), 6}, {'Q', SET2(2, 3), 11}}},
    {"allow 2,3 twice", {{'A', SET2(2, 3), 0}, {'A', SET2(2, 3), 0}, {'c', 0, 1}, {'o', 0, SET2(2, 3)}}},
    {"deny makes a part",
     {{'A', SET2(2, 3), 0}, {'A', SET3(3, 4, 5), 0}, {'D', SET2(2, 4), 0}, {'c', 0, 1}, {'o', 0, BIT(3)}}},
    {"give, then withdraw",
     {{'G', 7, 0}, {'Q', BIT(7), 11}, {'R', 7, 0}, {'Q', BIT(7), 10}, {'d', 0, BIT(7)}, {'c', 0, 0}, {'s', 0, 2}}},
    {"give drops open sets with it",
     {{'A', SET2(2, 3), 0}, {'G', 2, 0}, {'c', 0, 1}, {'o', 0, BIT(2)}, {'?', BIT(3), 3}}},
    {"forget", {{'A', BIT(2), 0}, {'F', 0, 0}, {'u', 0, 0}, {'?', BIT(2), 2}, {'F', 0, 0}, {'s', 0, 0}}},
    {"forget after an update",
     {{'G', 2, 0}, {'F', 0, 0}, {'u', 0, 0}, {'s', 0, 1}, {'A', BIT(3), 0}, {'R', 3, 0}, {'F', 0, 0}, {'s', 0, 2}}},
    {"unknown roles",
     {{'A', BIT(8), 4},
      {'D', BIT(63), 4},
      {'G', 8, 4},
      {'R', 64, 4},
      {'Q', BIT(8), 4},
      {'Q', SET2(0, 8), 4},
      {'u', 0, 0},
      {'s', 0, 0}}},
};

static uint64_t done(const struct step *step)
{
    switch (step->letter) {
    case 'D': return event(5, 0, step->number);
    case 'A': return event(5, 1, step->number);
    case 'R': return event(5, 2, step->number);
    case 'G': return event(5, 3, step->number);
    case 'Q': return decided(area, BYTES, 5, step->number);
    case '?': return role_to_ask(area, BYTES, 5, step->number);
    case 'F': return wickthrush_forget(area, BYTES, 5);
    case 'u': return word(1);
    case 's': return word(SECOND_STATE_AT);
    case 'd': return word(second_denied_at(0));
    case 'c': return word(second_count_at(0));
    case 'o': return word(second_open_at(0, 0));
    default: return word(second_open_at(0, 1));
    }
}

static void table_of_readings(void)
{
    group("readings with 8 roles");
    for (size_t i = 0; i < sizeof readings / sizeof readings[0]; i++) {
        open_area(8);
        for (const struct step *step = readings[i].steps; step->letter; step++) {
            uint64_t answer = done(step);
            check(answer == step->answer, "%s, step %d: %llu instead of %llu", readings[i].name,
                  (int)(step - readings[i].steps + 1), (unsigned long long)answer, (unsigned long long)step->answer);
        }
    }
}

/* What each kind makes of the number 5: of a set, roles 0 and 2; of a role, itself. */
static void kinds(void)
{
    static const struct {
        uint64_t kind, denied, open, session;
        uint32_t answer;
    } effects[] = {
        {0, SET2(0, 2), 0, SET2(0, 2), 10},
        {1, 0, SET2(0, 2), SET2(0, 2), 11},
        {2, BIT(5), 0, BIT(5), 10},
        {3, 0, BIT(5), BIT(5), 11},
    };
    group("each kind, with a number that is a set or a role");
    for (size_t i = 0; i < sizeof effects / sizeof effects[0]; i++) {
        open_area(8);
        keep();
        second_put(before, 1, 1);
        second_put_row(before, 0, 9, effects[i].denied, effects[i].open != 0, &effects[i].open);
        check(event(9, effects[i].kind, 5) == 0, "kind %zu isn't 0", i);
        check(kept(), "kind %zu writes other bytes", i);
        check(decided(area, BYTES, 9, effects[i].session) == effects[i].answer, "kind %zu is decided otherwise", i);
    }
}

static void role_counts(void)
{
    static const uint64_t bad[] = {0,   ROLES + 1, ROLES + 2,   128,     255,       256,
                                   257, BIT(32),   BIT(32) + 8, BIT(63), UINT64_MAX};
    group("role counts");
    for (uint64_t n = 1; n <= ROLES; n++) {
        const uint64_t unknown[] = {n, 64, BIT(32), BIT(32) + 1, BIT(63), UINT64_MAX};
        open_area(n);
        check(word(0) == n && word(1) == 0, "open with %llu roles writes other words", (unsigned long long)n);
        check(event(5, 0, BIT(n - 1)) == 0 && decided(area, BYTES, 5, BIT(n - 1)) == 10, "deny on role %llu",
              (unsigned long long)n - 1);
        check(event(5, 1, BIT(n - 1)) == 6, "allow on role %llu", (unsigned long long)n - 1);
        for (uint64_t kind = 0; n < ROLES && kind <= 1; kind++)
            check(event(5, kind, BIT(n)) == 4, "a set with role %llu of as many", (unsigned long long)n);
        for (uint64_t kind = 2; kind <= 3; kind++) {
            check(event(6, kind, n - 1) == 0, "role %llu is unknown", (unsigned long long)n - 1);
            check(decided(area, BYTES, 6, BIT(n - 1)) == (kind == 2 ? 10 : 11), "role %llu, kind %llu",
                  (unsigned long long)n - 1, (unsigned long long)kind);
            for (size_t i = 0; i < sizeof unknown / sizeof unknown[0]; i++)
                check(event(6, kind, unknown[i]) == 4, "role %llu of %llu is known", (unsigned long long)unknown[i],
                      (unsigned long long)n);
        }
    }
    check(event(7, 0, UINT64_MAX) == 0 && decided(area, BYTES, 7, UINT64_MAX) == 10, "all 64 roles denied");
    keep();
    for (size_t i = 0; i < sizeof bad / sizeof bad[0]; i++)
        check(wickthrush_open(area, BYTES, bad[i], present + 1) == 2 && kept(), "role count %llu",
              (unsigned long long)bad[i]);
}

/* What is denied, from role 0 up, leaves the next one to ask about, and at the end none. */
static void roles_to_ask(void)
{
    group("the role to ask about, of 1 to 64");
    for (uint64_t n = 1; n <= ROLES; n++) {
        uint64_t all = UINT64_MAX >> (ROLES - n);
        open_area(n);
        for (uint64_t r = 0; r < n; r++) {
            check(role_to_ask(area, BYTES, 5, all) == r, "of %llu roles those below %llu are denied",
                  (unsigned long long)n, (unsigned long long)r);
            check(role_to_ask(area, BYTES, 5, BIT(r)) == r, "role %llu alone", (unsigned long long)r);
            check(role_to_ask(area, BYTES, 6, BIT(r)) == r, "role %llu without a row", (unsigned long long)r);
            check(event(5, 0, BIT(r)) == 0, "deny %llu", (unsigned long long)r);
            check(decided(area, BYTES, 5, BIT(r)) == 10, "role %llu denied", (unsigned long long)r);
        }
        check(decided(area, BYTES, 5, all) == 10, "all %llu roles denied", (unsigned long long)n);
        check(event(5, 3, n - 1) == 0 && decided(area, BYTES, 5, all) == 11, "role %llu given",
              (unsigned long long)n - 1);
    }
}

/* 15 one-role open sets fit; a 16th open set is refused in a reply, and forgets the row in an update. */
static void open_sets(void)
{
    static uint8_t empty[BYTES];
    group("15 open sets fit; an update that is forgotten for want of room moves the state");
    for (uint64_t n = 16; n <= ROLES; n++) {
        uint64_t last = n - 1, low = n - 16;
        open_area(n);
        memcpy(empty, area, BYTES);
        for (uint64_t r = low; r < last; r++)
            check(event(5, 1, BIT(r)) == 0, "one-role set %llu", (unsigned long long)r);
        check(word(second_count_at(0)) == OPENS, "not 15 open sets");
        keep();
        check(event(5, 1, BIT(last)) == 7, "a 16th open set isn't 7");
        check(wickthrush_event(area, BYTES, 5, 1, BIT(last), 1) == 14, "a 16th open set, ahead, isn't 14");
        check(wickthrush_event(area, BYTES, 5, 3, last, 0) == 13, "giving a 16th role, late, isn't 13");
        check(wickthrush_event(area, BYTES, 5, 3, last, 2) == 14, "giving a 16th role, ahead, isn't 14");
        check(event(5, 1, SET2(low, last)) == 0, "a set that reducing drops isn't 0");
        check(kept(), "the area changed");
        check(event(5, 3, low) == 0, "giving a proved role isn't 0");
        check(kept(), "the area changed in more than its state");
        check(event(5, 3, last) == 8, "giving a 16th role isn't 8");
        second_put(empty, SECOND_STATE_AT, 2);
        check(memcmp(area, empty, BYTES) == 0, "the row isn't gone, or the state isn't 2");
    }
    /* Full is judged after reducing: a set that takes the place of two others fits. */
    open_area(32);
    for (uint64_t r = 0; r < OPENS; r++)
        check(event(5, 1, r < 2 ? SET2(30, r) : SET2(2 * r, 2 * r + 1)) == 0, "15 open sets");
    check(event(5, 1, SET2(2, 3)) == 7, "a 16th set isn't 7");
    check(event(5, 1, BIT(30)) == 0, "a set that takes the place of two isn't 0");
    check(word(second_count_at(0)) == OPENS - 1, "not 14 open sets");
}

static void rows(void)
{
    group("128 rows fit; an update without room for a row moves the state");
    for (unsigned order = 0; order < 3; order++) {
        open_in(8, 9);
        /* Ascending, descending, and mixed; none is permission 5. */
        for (uint32_t i = 0; i < ROWS; i++) {
            uint32_t k = order == 0 ? i : order == 1 ? ROWS - 1 - i : i * 37 % ROWS;
            check(event(1000 + 3 * k, k % 2, BIT(k % 8)) == 0, "row %lu", (unsigned long)k);
        }
        check(word(1) == ROWS && second_good(area), "not 128 good rows");
        keep();
        check(event(5, 0, BIT(0)) == 7, "deny on 0 isn't 7");
        check(event(5, 1, BIT(0)) == 7, "allow on 0 isn't 7");
        check(event(5, 1, 0) == 6, "allow on - isn't 6");
        check(event(5, 0, 0) == 0, "deny on - isn't 0");
        check(event(5, 4, 0) == 5, "kind 4 isn't 5");
        check(event(5, 1, BIT(8)) == 4, "allow on 8 isn't 4");
        check(event(5, 3, 8) == 4, "give 8 isn't 4");
        check(wickthrush_event(area, BYTES, 5, 0, BIT(0), 8) == 13, "a late deny on 0 isn't 13");
        check(wickthrush_event(area, BYTES, 5, 0, BIT(0), 10) == 14, "deny on 0, ahead, isn't 14");
        check(wickthrush_event(area, BYTES, 5, 2, 0, 9) == 13, "a late withdraw 0 isn't 13");
        check(wickthrush_event(area, BYTES, 5, 2, 0, 11) == 14, "withdraw 0, ahead, isn't 14");
        check(wickthrush_forget(area, BYTES, 5) == 0, "forget of a permission without a row isn't 0");
        check(role_to_ask(area, BYTES, 5, BIT(0)) == 0, "decide without a row isn't 12 with role 0");
        check(kept(), "the area changed");
        /* an update without room leaves every byte but those of the state */
        check(event(5, 2, 0) == 8, "withdraw 0 isn't 8");
        check(word(SECOND_STATE_AT) == 10 && kept(), "after withdraw 0 the area isn't as before but in state 10");
        check(event(5, 3, 0) == 8, "give 0 isn't 8");
        check(word(SECOND_STATE_AT) == 11 && kept(), "after give 0 the area isn't as before but in state 11");
        check(wickthrush_event(area, BYTES, 1000, 0, 0, 9) == 13, "a reply in the state before is not late");
        check(event(1003, 3, 7) == 0, "an update on a used row isn't 0");
        check(event(5, 0, BIT(0)) == 7, "deny on 0 still isn't 7");
        check(wickthrush_forget(area, BYTES, 1000 + 3 * 64) == 0, "forget isn't 0");
        check(word(1) == ROWS - 1 && second_good(area), "not 127 good rows");
        check(event(5, 0, BIT(0)) == 0, "after one forget deny on 0 isn't 0");
        check(decided(area, BYTES, 5, BIT(0)) == 10, "the new row doesn't deny");
    }
}

/* Every mix of faults: the answer is the first of 1, 3, 5, 4, 13 or 14, 6 that applies. */
static void order_of_refusals(void)
{
    /* By kind: replies that contradict what is known, and updates that say it. */
    static const uint64_t numbers[] = {BIT(2), BIT(1), 1, 2};
    static const uint32_t untimely[] = {13, 14, 13, 14}, states[] = {6, 9, 0, UINT32_MAX};
    group("order of refusals");
    for (unsigned faults = 0; faults < 64; faults++) {
        bool broken = faults & 1, no_permission = faults & 2, bad_kind = faults & 4, unknown = faults & 8;
        bool in_time = faults & 32;
        size_t len = faults & 16 ? BYTES - 1 : BYTES;
        open_in(8, 7);
        check(event(5, 0, BIT(1)) == 0, "deny 1");
        check(event(5, 1, BIT(2)) == 0, "allow 2");
        if (broken)
            area[BYTES - 1] = 1;
        keep();
        uint32_t permission = no_permission ? 0 : 5;
        uint64_t beyond = unknown ? BIT(8) : 0;
        uint32_t area_or_permission = broken || len != BYTES ? 1 : no_permission ? 3 : 0;
        for (uint64_t kind = 0; kind < SECOND_KINDS; kind++) {
            for (size_t i = 0; i < 4; i++) {
                uint32_t state = in_time ? present + is_update(kind) : states[i];
                uint32_t timed = in_time ? (is_update(kind) ? 0 : 6) : untimely[i];
                uint32_t expected = area_or_permission ? area_or_permission : bad_kind ? 5 : unknown ? 4 : timed;
                check(wickthrush_event(area, len, permission, kind + (bad_kind ? 4 : 0), numbers[kind] + beyond,
                                       state) == expected,
                      "kind %llu in state %lu with faults %#x", (unsigned long long)kind, (unsigned long)state, faults);
                /* an update that says what is known moves the state, and no more */
                if (expected == 0) {
                    check(word(SECOND_STATE_AT) == 8, "an update left state %llu",
                          (unsigned long long)word(SECOND_STATE_AT));
                    second_put(area, SECOND_STATE_AT, 7);
                }
            }
        }
        uint32_t decide = area_or_permission ? area_or_permission : unknown ? 4 : 10;
        check(decided(area, len, permission, BIT(1) + beyond) == decide, "decide with faults %#x", faults);
        if (area_or_permission)
            check(wickthrush_forget(area, len, permission) == area_or_permission, "forget with faults %#x", faults);
        for (uint64_t n = 0; n <= 65; n += 65)
            check(wickthrush_open(area, len, n, 8) == (len != BYTES ? 1 : 2), "open with faults %#x", faults);
        check(kept(), "faults %#x changed the area", faults);
    }
}

/* ---- policy states */

/* What an event on a good area answers to its state alone. */
static uint32_t answer_by_state(uint64_t kind, uint64_t of_area, uint64_t of_event)
{
    uint64_t next = of_area + 1;
    if (is_update(kind))
        return of_event < next ? 13 : of_event > next ? 14 : 0;
    return of_event < of_area ? 13 : of_event > of_area ? 14 : 0;
}

/* An event of each kind on an area in one state, with another: what counts, and what it leaves. */
static void in_state(uint32_t of_area, uint32_t of_event)
{
    for (uint64_t kind = 0; kind < SECOND_KINDS; kind++) {
        uint32_t expected = answer_by_state(kind, of_area, of_event);
        open_in(8, of_area);
        keep();
        check(word(SECOND_STATE_AT) == of_area, "open in state %lu", (unsigned long)of_area);
        uint32_t answer = wickthrush_event(area, BYTES, 5, kind, 1, of_event);
        check(answer == expected, "kind %llu, state %lu on %lu: %lu instead of %lu", (unsigned long long)kind,
              (unsigned long)of_event, (unsigned long)of_area, (unsigned long)answer, (unsigned long)expected);
        if (expected == 0) {
            present = of_event;
            second_put(before, 1, 1);
            second_put_row(before, 0, 5,
                           kind == 0   ? BIT(0)
                           : kind == 2 ? BIT(1)
                                       : 0,
                           kind % 2, (uint64_t[]){kind == 1 ? BIT(0) : BIT(1)});
        }
        check(kept(), "kind %llu, state %lu on %lu: other bytes", (unsigned long long)kind, (unsigned long)of_event,
              (unsigned long)of_area);
    }
}

static void late_and_ahead(void)
{
    static const uint32_t states[] = {0,          1,          2,          5,          255,        256,
                                      65535,      65536,      16777215,   0x7ffffffe, 0x7fffffff, 0x80000000,
                                      0x80000001, 0xfffffffd, 0xfffffffe, UINT32_MAX};
    group("late and ahead: replies but in the area's state, updates but one above");
    for (size_t i = 0; i < sizeof states / sizeof states[0]; i++) {
        for (size_t k = 0; k < sizeof states / sizeof states[0]; k++)
            in_state(states[i], states[k]);
        for (uint32_t off = 0; off <= 6; off++)
            in_state(states[i], states[i] + off - 3);
        for (unsigned bit = 0; bit < 32; bit++)
            in_state(states[i], states[i] ^ UINT32_C(1) << bit);
    }
}

/* An update that is refused for whatever reason leaves its number free: sent rightly, it counts. */
static void refused_updates(void)
{
    group("a refused update does not move the state");
    for (uint64_t kind = 2; kind <= 3; kind++) {
        open_in(8, 41);
        check(event(6, kind, 0) == 0, "the first update");
        keep();
        check(wickthrush_event(area, BYTES - 1, 5, kind, 1, 43) == 1 && kept(), "1 left other bytes");
        check(wickthrush_event(area, BYTES, 0, kind, 1, 43) == 3 && kept(), "3 left other bytes");
        check(wickthrush_event(area, BYTES, 5, kind + 2, 1, 43) == 5 && kept(), "5 left other bytes");
        check(wickthrush_event(area, BYTES, 5, kind, 8, 43) == 4 && kept(), "4 left other bytes");
        check(wickthrush_event(area, BYTES, 5, kind, 1, 42) == 13 && kept(), "an update told twice left other bytes");
        check(wickthrush_event(area, BYTES, 5, kind, 1, 44) == 14 && kept(), "14 left other bytes");
        check(wickthrush_event(area, BYTES, 5, kind, 1, 43) == 0 && word(SECOND_STATE_AT) == 43, "then it counts");
        check(wickthrush_event(area, BYTES, 5, kind, 1, 44) == 0 && word(SECOND_STATE_AT) == 44, "and the next");
    }
}

/* Behind the last state there is none. */
static void last_state(void)
{
    static const uint32_t states[] = {0, 1, 0x7fffffff, 0xfffffffe, UINT32_MAX};
    group("in state 4294967295 no update counts");
    open_in(8, UINT32_MAX - 1);
    check(event(5, 3, 2) == 0 && word(SECOND_STATE_AT) == UINT32_MAX, "the last update");
    keep();
    for (uint64_t kind = 2; kind <= 3; kind++)
        for (size_t i = 0; i < sizeof states / sizeof states[0]; i++)
            check(wickthrush_event(area, BYTES, 5, kind, 1, states[i]) == 13 && kept(), "an update with state %lu",
                  (unsigned long)states[i]);
    check(event(5, 1, BIT(2)) == 0 && kept(), "a reply in the last state");
    check(event(5, 0, BIT(2)) == 6 && kept(), "a contradiction in the last state");
    check(wickthrush_event(area, BYTES, 5, 1, BIT(2), 0) == 13 && kept(), "a reply in the first state");
    check(decided(area, BYTES, 5, BIT(2)) == 11, "decide in the last state");
    check(wickthrush_forget(area, BYTES, 5) == 0 && word(SECOND_STATE_AT) == UINT32_MAX, "forget in the last state");
    open_in(8, 0);
    check(event(5, 3, 2) == 0, "an update after a new opening");
}

/* What an update about one permission does to another: nothing, but replies about it become late or timely. */
static void updates_about_others(void)
{
    group("an update about another permission makes a reply late or timely, and no more");
    for (uint64_t kind = 2; kind <= 3; kind++) {
        open_in(8, 3);
        check(event(5, 1, SET2(1, 2)) == 0 && event(5, 0, BIT(3)) == 0, "replies about 5");
        check(wickthrush_event(area, BYTES, 5, 0, BIT(1), 4) == 14, "a reply in the state after is not ahead");
        check(event(6, kind, 2) == 0, "an update about 6");
        check(decided(area, BYTES, 5, SET2(1, 2)) == 11 && decided(area, BYTES, 5, BIT(3)) == 10 &&
                  role_to_ask(area, BYTES, 5, SET2(1, 3)) == 1,
              "it changed a decision about 5");
        keep();
        check(wickthrush_event(area, BYTES, 5, 0, BIT(1), 3) == 13 && kept(),
              "a reply in the state before is not late");
        check(wickthrush_event(area, BYTES, 5, 1, BIT(3), 3) == 13 && kept(), "a contradiction that is late is not 13");
        check(wickthrush_event(area, BYTES, 5, 0, BIT(1), 4) == 0, "the same reply is not timely now");
        check(decided(area, BYTES, 5, BIT(2)) == 11, "it was not recorded");
        check(wickthrush_event(area, BYTES, 5, 1, BIT(3), 4) == 6, "a contradiction in time is not 6");
    }
}

/* Forget knows no state. */
static void forgets(void)
{
    group("forget leaves the state");
    for (uint32_t state = 0; state < 3; state++) {
        open_in(8, 100 * state);
        check(event(5, 3, 2) == 0 && event(6, 0, BIT(1)) == 0 && event(6, 2, 3) == 0, "events");
        check(wickthrush_forget(area, BYTES, 5) == 0 && word(SECOND_STATE_AT) == present, "forget 5");
        check(wickthrush_forget(area, BYTES, 7) == 0 && word(SECOND_STATE_AT) == present, "forget 7, which has no row");
        check(wickthrush_event(area, BYTES, 5, 0, BIT(2), present - 2) == 13, "a reply as of the opening is not late");
        check(event(5, 0, BIT(2)) == 0, "a reply in the present state");
        check(wickthrush_forget(area, BYTES, 5) == 0 && wickthrush_forget(area, BYTES, 6) == 0, "forget all");
        check(word(1) == 0 && word(SECOND_STATE_AT) == present, "with nothing known the state is not the present one");
    }
}

/* Numbers that look good in their lower 8, 16 or 32 bits. */
static void wide_numbers(void)
{
    group("numbers beyond their range, as whole 64-bit numbers");
    open_area(4);
    check(event(5, 0, BIT(1)) == 0, "deny 1");
    keep();
    for (unsigned high = 2; high < 64; high++) {
        for (uint64_t low = 0; low < 4; low++) {
            uint64_t number = BIT(high) + low;
            check(event(5, number, 2) == 5, "kind 2^%u + %llu", high, (unsigned long long)low);
            check(event(5, number, UINT64_MAX) == 5, "kind 2^%u + %llu, unknown role", high, (unsigned long long)low);
            for (uint64_t kind = 2; kind <= 3; kind++)
                check(event(5, kind, number) == 4, "role 2^%u + %llu, kind %llu", high, (unsigned long long)low,
                      (unsigned long long)kind);
        }
        uint64_t unknown = high < 4 ? BIT(4) : BIT(high);
        for (uint64_t kind = 0; kind <= 1; kind++)
            check(event(5, kind, unknown | BIT(2)) == 4, "a set with role %u", high);
        check(decided(area, BYTES, 5, unknown | BIT(2)) == 4, "a session with role %u", high);
        if (high > 6)
            check(wickthrush_open(area, BYTES, BIT(high) + 8, 1) == 2, "role count 2^%u + 8", high);
    }
    check(event(5, UINT64_MAX, 2) == 5, "kind 2^64 - 1");
    check(kept(), "the area changed");
}

/* ---- bad areas */

/* Every call but open answers 1 and leaves the area and the bytes around it alone, whatever its numbers. */
static void refused(const char *name, size_t len)
{
    memcpy(before, area, BYTES);
    uint32_t answers[] = {
        wickthrush_event(area, len, 5, 0, 0, 0),
        wickthrush_event(area, len, 5, 1, 1, 0),
        wickthrush_event(area, len, 5, 2, 0, 1),
        wickthrush_event(area, len, 5, 3, 0, 1),
        wickthrush_event(area, len, 5, 4, 0, 0),
        wickthrush_event(area, len, 5, 0, 0, UINT32_MAX),
        wickthrush_event(area, len, 0, UINT64_MAX, UINT64_MAX, UINT32_MAX),
        decided(area, len, 5, 0),
        decided(area, len, 5, 1),
        decided(area, len, 0, UINT64_MAX),
        wickthrush_forget(area, len, 5),
        wickthrush_forget(area, len, 0),
        open_line(area, len, SECOND_ROOM),
        open_line(area, len, 0),
        row_lines(area, len, 0, SECOND_ROOM),
        row_lines(area, len, 0, SECOND_ROOM - 1),
        row_lines(area, len, ROWS, SECOND_ROOM),
        row_lines(area, len, UINT64_MAX, 0),
    };
    for (size_t i = 0; i < sizeof answers / sizeof answers[0]; i++)
        check(answers[i] == 1, "%s: call %zu answers %lu", name, i, (unsigned long)answers[i]);
    check(memcmp(area, before, BYTES) == 0, "%s: the area changed", name);
    check_guards(area, name);
}

static void accepted(const char *name)
{
    check(decided(area, BYTES, 5, 0) == 10, "%s: a good area is refused", name);
    check(second_good(area), "%s: the second program calls it bad", name);
}

/* The good areas that are broken: without rows, with three, and with 128 rows of 15 open sets. */
enum base { NO_ROWS, THREE_ROWS, ALL_ROWS };

static void make(enum base base)
{
    memset(area, 0, BYTES);
    second_put(area, 0, base == ALL_ROWS ? 17 : 8);
    second_put(area, SECOND_STATE_AT, base == ALL_ROWS ? UINT32_MAX : base == THREE_ROWS ? 70000 : 0);
    if (base == THREE_ROWS) {
        second_put(area, 1, 3);
        second_put_row(area, 0, 4, SET2(1, 2), 2, (uint64_t[]){BIT(3), SET2(5, 6)});
        second_put_row(area, 1, 5, BIT(7), 0, NULL);
        second_put_row(area, 2, 70000, 0, 3, (uint64_t[]){SET2(0, 1), SET2(1, 2), SET2(0, 7)});
    }
    if (base == ALL_ROWS) {
        uint64_t open[OPENS];
        for (size_t k = 0; k < OPENS; k++)
            open[k] = BIT(k);
        second_put(area, 1, ROWS);
        for (size_t row = 0; row < ROWS; row++)
            second_put_row(area, row, row == ROWS - 1 ? UINT32_MAX : 1 + 33 * row, BIT(15), OPENS, open);
    }
}

/* One rule broken: which words become what. */
#define N 0
#define USED 1
#define STATE 2
#define PERMISSION(row) (3 + 2 * (row))
#define COUNT(row) (4 + 2 * (row))
#define DENIED(row) (259 + 16 * (row))
#define OPEN(row, k) (260 + 16 * (row) + (k))

struct breach {
    const char *rule;
    enum base base;
    struct {
        size_t at;
        uint64_t value;
    } change[2];
};

/* A second change at word 0 is none. */
static const struct breach breaches[] = {
    {"role count 0", NO_ROWS, {{N, 0}}},
    {"role count 65", NO_ROWS, {{N, 65}}},
    {"role count 65 with rows", THREE_ROWS, {{N, 65}}},
    {"role count 2^8 + 8", THREE_ROWS, {{N, BIT(8) + 8}}},
    {"role count 2^32 + 8", THREE_ROWS, {{N, BIT(32) + 8}}},
    {"role count 2^63", NO_ROWS, {{N, BIT(63)}}},
    {"role count 2^64 - 1", NO_ROWS, {{N, UINT64_MAX}}},
    {"129 rows", ALL_ROWS, {{USED, 129}}},
    {"2^32 + 128 rows", ALL_ROWS, {{USED, BIT(32) + 128}}},
    {"2^32 rows", NO_ROWS, {{USED, BIT(32)}}},
    {"2^63 + 3 rows", THREE_ROWS, {{USED, BIT(63) + 3}}},
    {"2^64 - 1 rows", ALL_ROWS, {{USED, UINT64_MAX}}},
    {"one row too few", THREE_ROWS, {{USED, 2}}},
    {"one row too many", THREE_ROWS, {{USED, 4}}},
    {"a row without contents", NO_ROWS, {{USED, 1}}},
    {"state 2^32", NO_ROWS, {{STATE, BIT(32)}}},
    {"state 2^32 + 70000", THREE_ROWS, {{STATE, BIT(32) + 70000}}},
    {"state 2^32 after 2^32 - 1", ALL_ROWS, {{STATE, BIT(32)}}},
    {"state 2^40", THREE_ROWS, {{STATE, BIT(40)}}},
    {"state 2^63", NO_ROWS, {{STATE, BIT(63)}}},
    {"state 2^64 - 1", ALL_ROWS, {{STATE, UINT64_MAX}}},
    {"16 open sets in the first row", ALL_ROWS, {{COUNT(0), 16}}},
    {"16 open sets in the last row", ALL_ROWS, {{COUNT(127), 16}}},
    {"2^32 + 2 open sets", THREE_ROWS, {{COUNT(0), BIT(32) + 2}}},
    {"2^8 + 2 open sets", THREE_ROWS, {{COUNT(0), BIT(8) + 2}}},
    {"2^64 - 1 open sets", ALL_ROWS, {{COUNT(127), UINT64_MAX}}},
    {"one open set too few", THREE_ROWS, {{COUNT(2), 2}}},
    {"one open set too many", THREE_ROWS, {{COUNT(0), 3}}},
    {"permission 0", THREE_ROWS, {{PERMISSION(0), 0}}},
    {"permission 2^32", THREE_ROWS, {{PERMISSION(2), BIT(32)}}},
    {"permission 2^32 + 70000", THREE_ROWS, {{PERMISSION(2), BIT(32) + 70000}}},
    {"permission 2^64 - 1", ALL_ROWS, {{PERMISSION(127), UINT64_MAX}}},
    {"first permission 2^32 + 4", THREE_ROWS, {{PERMISSION(0), BIT(32) + 4}}},
    {"permissions equal", THREE_ROWS, {{PERMISSION(0), 5}}},
    {"permissions descending", THREE_ROWS, {{PERMISSION(1), 3}}},
    {"last permissions equal", ALL_ROWS, {{PERMISSION(126), UINT32_MAX}}},
    {"last permission descending", ALL_ROWS, {{PERMISSION(127), 1}}},
    {"first permissions exchanged", ALL_ROWS, {{PERMISSION(0), 34}, {PERMISSION(1), 1}}},
    {"a gap among open sets", THREE_ROWS, {{OPEN(2, 2), 0}, {OPEN(2, 3), SET2(0, 7)}}},
    {"an open set behind the last", THREE_ROWS, {{OPEN(0, 2), BIT(4)}}},
    {"an open set in the last place", THREE_ROWS, {{OPEN(0, 14), BIT(7)}}},
    {"an open set in a row without any", THREE_ROWS, {{OPEN(1, 0), BIT(0)}}},
    {"a row that says nothing", THREE_ROWS, {{DENIED(1), 0}}},
    {"denied role n", THREE_ROWS, {{DENIED(1), SET2(7, 8)}}},
    {"denied role 63", THREE_ROWS, {{DENIED(1), BIT(63)}}},
    {"denied role n in the last row", ALL_ROWS, {{DENIED(127), BIT(17)}}},
    {"open role n", THREE_ROWS, {{OPEN(2, 2), SET2(0, 8)}}},
    {"open role 63", THREE_ROWS, {{OPEN(0, 1), SET2(5, 63)}}},
    {"open role n in the last place", ALL_ROWS, {{OPEN(127, 14), BIT(17)}}},
    {"fewer roles than sets have", THREE_ROWS, {{N, 7}}},
    {"an empty open set", THREE_ROWS, {{OPEN(0, 0), 0}}},
    {"only an empty open set", THREE_ROWS, {{COUNT(1), 1}}},
    {"an open set with a denied role", THREE_ROWS, {{OPEN(0, 1), SET2(5, 6) | BIT(2)}}},
    {"a denied role in an open set", THREE_ROWS, {{DENIED(0), SET3(1, 2, 5)}}},
    {"a denied role in the last open set", ALL_ROWS, {{DENIED(127), SET2(14, 15)}}},
    {"open sets exchanged", THREE_ROWS, {{OPEN(2, 1), SET2(0, 7)}, {OPEN(2, 2), SET2(1, 2)}}},
    {"open sets equal", THREE_ROWS, {{OPEN(2, 1), SET2(0, 1)}}},
    {"an open set part of the next", THREE_ROWS, {{OPEN(2, 1), SET3(0, 1, 2)}}},
    {"an open set part of a later one", THREE_ROWS, {{OPEN(2, 2), SET3(0, 1, 7)}}},
};

static void broken_rules(void)
{
    group("each layout rule broken by itself");
    for (size_t i = 0; i < sizeof breaches / sizeof breaches[0]; i++) {
        const struct breach *breach = &breaches[i];
        make(breach->base);
        accepted(breach->rule);
        second_put(area, breach->change[0].at, breach->change[0].value);
        if (breach->change[1].at != 0)
            second_put(area, breach->change[1].at, breach->change[1].value);
        check(!second_good(area), "%s: the second program calls it good", breach->rule);
        refused(breach->rule, BYTES);
    }
}

/* Breaks one rule in one place, and sees only that it is refused. */
static void refused_with(const char *rule, size_t at, uint64_t value, size_t other, uint64_t other_value)
{
    uint64_t old = word(at), other_old = word(other);
    second_put(area, at, value);
    second_put(area, other, other_value);
    check(decided(area, BYTES, 5, 0) == 1, "%s: words %zu and %zu", rule, at, other);
    second_put(area, other, other_old);
    second_put(area, at, old);
}

static void broken_pairs(void)
{
    static const size_t some_rows[] = {0, 1, 62, 127};
    group("each pair of open sets and each row broken");
    make(ALL_ROWS);
    for (size_t i = 0; i < sizeof some_rows / sizeof some_rows[0]; i++) {
        size_t row = some_rows[i];
        for (size_t k = 0; k < OPENS; k++) {
            refused_with("empty", OPEN(row, k), 0, N, 17);
            refused_with("denied", OPEN(row, k), BIT(k) | BIT(15), N, 17);
            refused_with("unknown role", OPEN(row, k), BIT(k) | BIT(17), N, 17);
            for (size_t j = 0; j < k; j++) {
                refused_with("part", OPEN(row, k), SET2(j, k), N, 17);
                refused_with("exchanged", OPEN(row, k), BIT(j), OPEN(row, j), BIT(k));
            }
        }
    }
    for (size_t row = 0; row < ROWS; row++) {
        refused_with("16 open sets", COUNT(row), 16, N, 17);
        refused_with("permission 0", PERMISSION(row), 0, N, 17);
        refused_with("permission 2^32", PERMISSION(row), BIT(32) + 33 * row, N, 17);
        refused_with("denied role n", DENIED(row), BIT(17), N, 17);
        if (row > 0)
            refused_with("permissions equal", PERMISSION(row), word(PERMISSION(row - 1)), N, 17);
    }
    accepted("after all");
}

/* Every byte that is not in use must be zero. */
static void unused_bytes(void)
{
    bool used[WORDS];
    group("each unused byte not zero");
    for (enum base base = NO_ROWS; base <= THREE_ROWS; base++) {
        make(base);
        memset(used, 0, sizeof used);
        used[N] = used[USED] = used[STATE] = true;
        for (size_t row = 0; row < word(USED); row++) {
            used[PERMISSION(row)] = used[COUNT(row)] = used[DENIED(row)] = true;
            for (size_t k = 0; k < word(COUNT(row)); k++)
                used[OPEN(row, k)] = true;
        }
        for (size_t i = 0; i < BYTES; i++) {
            if (used[i / 8])
                continue;
            area[i] = (uint8_t)(1 << any_below(8));
            check(decided(area, BYTES, 5, 0) == 1, "byte %zu", i);
            area[i] = 0;
        }
        accepted("after all");
    }
}

/* Four bytes of its word are the state's, whatever they hold; the others must be zero. */
static void state_bytes(void)
{
    group("each byte of the state's word");
    for (enum base base = NO_ROWS; base <= ALL_ROWS; base++) {
        for (unsigned byte = 0; byte < 8; byte++) {
            for (unsigned value = 0; value < 256; value++) {
                make(base);
                area[8 * STATE + byte] = (uint8_t)value;
                uint32_t expected = byte >= 4 && value != 0 ? 1 : 10;
                check(decided(area, BYTES, 6, 0) == expected, "byte %u is %u", byte, value);
                check(second_good(area) == (expected == 10), "the second program says otherwise of byte %u", byte);
            }
        }
    }
}

static void lengths(void)
{
    group("areas of wrong length");
    make(THREE_ROWS);
    accepted("right length");
    for (size_t i = 0; i < SECOND_WRONG_LENGTHS; i++) {
        size_t len = second_wrong_lengths[i];
        refused("wrong length", len);
        check(wickthrush_open(area, len, 8, 0) == 1, "open with length %zu", len);
        check(wickthrush_open(area, len, 0, 1) == 1, "open with length %zu and no roles", len);
        check(memcmp(area, before, BYTES) == 0, "length %zu: the area changed", len);
        check_guards(area, "open with a wrong length");
    }
    check(decided(NULL, 0, 5, 0) == 1, "decide on nothing");
    check(wickthrush_open(NULL, 0, 8, 0) == 1, "open on nothing");
}

/* An area after open: the role count and the state, then zeros. */
static void opened(const char *name, uint64_t n, uint32_t state)
{
    memset(before, 0, BYTES);
    second_put(before, N, n);
    second_put(before, STATE, state);
    check(wickthrush_open(area, BYTES, n, state) == 0, "%s: open isn't 0", name);
    check(memcmp(area, before, BYTES) == 0, "%s: open left other bytes", name);
    check_guards(area, name);
}

static void any_bytes(void)
{
    group("random bytes are no area, and open takes them");
    for (unsigned round = 0; round < 300; round++) {
        for (size_t i = 0; i < BYTES; i++)
            area[i] = (uint8_t)any();
        /* Half of them look good up to the rows. */
        if (round % 2) {
            second_put(area, N, 1 + any_below(64));
            second_put(area, USED, any_below(129));
            second_put(area, STATE, (uint32_t)any());
        }
        refused("random bytes", BYTES);
        opened("random bytes", 1 + any_below(64), (uint32_t)any());
    }
    for (unsigned byte = 0; byte < 256; byte++) {
        memset(area, (int)byte, BYTES);
        refused("equal bytes", BYTES);
        opened("equal bytes", 64, byte % 2 ? UINT32_MAX : 0);
    }
}

static size_t any_place(void)
{
    size_t row = any_below(4);
    switch (any_below(8)) {
    case 0: return N;
    case 1: return USED;
    case 2: return PERMISSION(row);
    case 3: return COUNT(row);
    case 4: return DENIED(row);
    case 5: return STATE;
    default: return OPEN(row, any_below(4));
    }
}

static uint64_t any_value(uint64_t old)
{
    uint64_t role = any_below(8);
    switch (any_below(6)) {
    case 0: return old + 1;
    case 1: return old - 1;
    case 2: return old ^ BIT(any_below(9));
    case 3: return any_below(9);
    case 4: return BIT(any_below(64));
    default: return SET2(role, any_below(8));
    }
}

/* Good areas with a few words changed: the library refuses exactly those that break a rule. */
static void changed_words(void)
{
    unsigned good = 0, bad = 0;
    group("areas with changed words against the rules of the layout");
    for (unsigned round = 0; round < 20000; round++) {
        make(THREE_ROWS);
        for (uint64_t changes = 1 + any_below(3); changes > 0; changes--) {
            size_t at = any_place();
            second_put(area, at, any_value(word(at)));
        }
        bool is_good = second_good(area);
        *(is_good ? &good : &bad) += 1;
        uint32_t answer = decided(area, BYTES, 9, 0);
        check(answer == (is_good ? 10 : 1), "a changed area that is %s answers %lu", is_good ? "good" : "bad",
              (unsigned long)answer);
    }
    check(good > 1000 && bad > 1000, "%u good and %u bad areas are too few", good, bad);
}

/* ---- the memory around */

/* A short stream with every kind of call; its area must be the same wherever it stands. */
static void short_stream(uint8_t *at)
{
    static uint8_t first[BYTES];
    static bool has_first;
    uint32_t answers[] = {
        wickthrush_open(at, BYTES, 64, 7),
        wickthrush_event(at, BYTES, 9, 0, SET2(1, 63), 7),
        wickthrush_event(at, BYTES, UINT32_MAX, 1, SET2(0, 62), 7),
        wickthrush_event(at, BYTES, 1, 1, SET2(3, 4), 7),
        wickthrush_event(at, BYTES, 5, 3, 63, 8),
        wickthrush_forget(at, BYTES, 9),
    };
    for (size_t i = 0; i < sizeof answers / sizeof answers[0]; i++)
        check(answers[i] == 0, "call %zu of the stream", i);
    for (uint32_t permission = 10; permission < 200; permission++)
        check(wickthrush_event(at, BYTES, permission, 0, permission, 8) == (permission < 135 ? 0 : 7), "row of %lu",
              (unsigned long)permission);
    check(wickthrush_event(at, BYTES, 300, 2, 0, 9) == 8, "update without room");
    check(wickthrush_event(at, BYTES, 5, 0, 1, 8) == 13, "a late reply");
    check(wickthrush_event(at, BYTES, 5, 2, 1, 11) == 14, "an update ahead");
    check(decided(at, BYTES, 5, BIT(63)) == 11, "decide");
    check(decided(at, BYTES - 1, 5, BIT(63)) == 1, "decide, one byte short");
    if (!has_first)
        memcpy(first, at, BYTES);
    has_first = true;
    check(memcmp(at, first, BYTES) == 0, "the area has other bytes here");
}

static void guard_bytes(void)
{
    group("guard bytes at every alignment");
    for (size_t shift = 0; shift < 16; shift++) {
        char name[32];
        snprintf(name, sizeof name, "alignment %zu", shift);
        put_guards();
        short_stream(area + shift);
        check_guards(area + shift, name);
    }
}

/* Memory that nobody may touch stands right before or right behind the area; reading it ends this program. */
static void guard_pages(void)
{
    enum { PAGE = 65536 };
    group("forbidden memory around the area, and decide on memory that can't be written");
    uint8_t *memory = mmap(NULL, 3 * PAGE, PROT_NONE, MAP_PRIVATE | MAP_ANONYMOUS, -1, 0);
    if (!check(memory != MAP_FAILED && mprotect(memory + PAGE, PAGE, PROT_READ | PROT_WRITE) == 0, "no memory"))
        return;
    short_stream(memory + PAGE);
    short_stream(memory + 2 * PAGE - BYTES);
    check(mprotect(memory + PAGE, PAGE, PROT_READ) == 0, "not protected");
    check(decided(memory + PAGE, BYTES, 5, BIT(63)) == 11, "decide at the start");
    check(role_to_ask(memory + 2 * PAGE - BYTES, BYTES, 5, BIT(0)) == 0, "decide at the end");
    check(decided(memory + PAGE + 1, BYTES, 5, BIT(0)) == 1, "decide one byte off");
    munmap(memory, 3 * PAGE);
}

int main(void)
{
    put_guards();
    header_numbers();
    table_of_readings();
    kinds();
    role_counts();
    roles_to_ask();
    open_sets();
    rows();
    order_of_refusals();
    late_and_ahead();
    refused_updates();
    last_state();
    updates_about_others();
    forgets();
    wide_numbers();
    lengths();
    broken_rules();
    broken_pairs();
    unused_bytes();
    state_bytes();
    any_bytes();
    changed_words();
    guard_bytes();
    guard_pages();
    return finish();
}
