#include "holders.h"

#include "call.h"
#include "chance.h"
#include "groups.h"
#include "wickthrush.h"

#include <stdio.h>

/* The sheet of a permission, for all sessions or so many of them. */
static void compare_sessions(uint32_t permission, second_sets possible, uint64_t sessions)
{
    uint64_t all = UINT64_C(1) << n;
    for (uint64_t k = 0; k < all && k < sessions; k++) {
        struct request request = ask(permission, sessions >= all ? k : any_below(all));
        struct sheet sheet = sheet_of_possible(possible, n, request.session);
        expect_sheet(&request, &sheet);
    }
}

/* ---- everything that can be known */

/* The holder sets that share no role with the denied set, and one with each open set. */
static second_sets left_by(uint64_t denied, size_t count, const uint64_t *open)
{
    second_sets possible = 0;
    for (uint64_t holders = 0; holders < UINT64_C(1) << n; holders++) {
        bool agrees = (holders & denied) == 0;
        for (size_t k = 0; k < count; k++)
            agrees = agrees && (holders & open[k]) != 0;
        if (agrees)
            possible |= UINT64_C(1) << holders;
    }
    return possible;
}

static unsigned long knowledges;

static void compare_row(uint64_t denied, size_t count, const uint64_t *open)
{
    knowledges++;
    if (few && n == 5 && any_below(16) != 0)
        return;
    start_area(n);
    if (denied != 0 || count != 0)
        add_row(5, denied, count, open);
    any_names(&works);
    any_names(&standard);
    compare_sessions(5, left_by(denied, count, open), 16);
}

/* A row of these sets, and all that have further open sets, from a number on. */
static void every_row(uint64_t denied, size_t count, uint64_t *open, uint64_t from)
{
    compare_row(denied, count, open);
    for (uint64_t set = from; set < UINT64_C(1) << n; set++) {
        bool apart = (set & denied) == 0;
        for (size_t k = 0; k < count; k++)
            apart = apart && (open[k] & set) != open[k];
        if (!apart)
            continue;
        open[count] = set;
        every_row(denied, count + 1, open, set + 1);
    }
}

void every_knowledge(void)
{
    static const unsigned long expected[] = {0, 3, 10, 41, 282, 8666};
    group("everything that can be known with 1 to 5 roles, by the holder sets that are possible then");
    for (uint64_t roles = 1; roles <= 5; roles++) {
        uint64_t open[SECOND_MINIMAL];
        start_area(roles);
        end_area();
        knowledges = 0;
        for (uint64_t denied = 0; denied < UINT64_C(1) << roles; denied++)
            every_row(denied, 0, open, 1);
        check(knowledges == expected[roles], "%lu knowledges of %lu", knowledges, expected[roles]);
    }
}

/* ---- histories */

/* What one is made of: of 20 calls so many are updates; most replies are allows on so many roles, on any for 0. */
struct style {
    uint32_t permissions;
    unsigned updates, size;
};

static struct second second;
static unsigned long updates, forgets, late;

/* A set of so many roles, as far as there are so many. */
static uint64_t any_of_size(unsigned size)
{
    uint64_t set = 0;
    while (second_lowest(~set) < n && size > 0) {
        uint64_t alone = BIT(any_below(n));
        size -= (set & alone) == 0;
        set |= alone;
    }
    return set;
}

static uint32_t forget(uint32_t permission)
{
    forgets++;
    uint32_t answer = wickthrush_forget(area, BYTES, permission), expected = second_forget(&second, BYTES, permission);
    check(answer == expected, "a forget is answered %lu", (unsigned long)answer);
    return permission;
}

/* One in eight names another state, which is mostly late or early. */
static uint32_t event(uint32_t permission, uint64_t kind, uint64_t number)
{
    bool update = kind >= SECOND_WITHDRAWN;
    uint32_t state = second.state + update;
    if (any_below(8) == 0)
        state += (uint32_t)any_below(7) - 3;
    uint32_t answer = wickthrush_event(area, BYTES, permission, kind, number, state);
    uint32_t expected = second_event(&second, BYTES, permission, kind, number, state);
    check(answer == expected, "an event is answered %lu instead of %lu", (unsigned long)answer,
          (unsigned long)expected);
    updates += update && expected == 0;
    late += expected == 13;
    return permission;
}

/* One call on both sides; returns its permission. */
static uint32_t any_call(const struct style *style)
{
    uint32_t permission = 1 + (uint32_t)any_below(style->permissions);
    uint64_t dice = any_below(20), set = any_below(UINT64_C(1) << n);
    if (dice == 19)
        return forget(permission);
    if (dice < style->updates)
        return event(permission, SECOND_WITHDRAWN + any_below(2), any_below(n));
    if (style->size != 0 && any_below(6) != 0)
        return event(permission, SECOND_ALLOW, any_of_size(style->size));
    return any_below(2) ? event(permission, SECOND_ALLOW, set) : event(permission, SECOND_DENY, set & any());
}

void histories(void)
{
    group("random histories of 1 to 6 roles, with updates, forgets and late replies, by the holder sets left possible");
    for (unsigned round = 0; round < (few ? 60 : 1200); round++) {
        struct style style = {1 + (uint32_t)any_below(3), (unsigned)any_below(6), (unsigned)any_below(4)};
        uint64_t roles = 1 + round % SECOND_ROLES;
        uint32_t state = 3 + (uint32_t)any() / 2;
        check(second_open(&second, BYTES, roles, state) == 0 && wickthrush_open(area, BYTES, roles, state) == 0,
              "an area does not open");
        look();
        any_names(&works);
        any_names(&standard);
        for (unsigned calls = 0; calls < 60; calls++) {
            uint32_t permission = any_call(&style), other = 1 + (uint32_t)any_below(4);
            compare_sessions(permission, second_possible(&second, permission), 3);
            compare_sessions(other, second_possible(&second, other), 1);
        }
    }
    printf("histories had %lu updates, %lu forgets and %lu late events\n", updates, forgets, late);
    check(updates > 50 && forgets > 50 && late > 50, "a kind of call is too rare");
}
