/* Drives the library and the second program side by side: answers, roles to ask about and bytes must be the same. */
#include "groups.h"
#include "second.h"
#include "wickthrush.h"

#include <stdio.h>
#include <string.h>

enum { BYTES = WICKTHRUSH_AREA_BYTES, ANSWERS = 15 };

enum what { OPEN, EVENT, FORGET };

/* One call; kind is an event's, number a role count, a set or a role. */
struct call {
    enum what what;
    size_t len;
    uint32_t permission;
    uint64_t kind, number;
    uint32_t state; /* of open and events */
};

static bool is_reply(const struct call *c)
{
    return c->what == EVENT && c->kind < SECOND_WITHDRAWN;
}

/* The state that an event has to name; 0, which is late, behind the last one. */
static uint32_t timely(const struct second *second, const struct call *c)
{
    return is_reply(c) ? second->state : second->state + 1;
}

/* The same history on both sides. */
struct pair {
    struct second second;
    uint8_t area[BYTES];
};

static unsigned long times[ANSWERS], asked[SECOND_NO_ROLE + 1];

static uint32_t ask_library(uint8_t *area, const struct call *c)
{
    switch (c->what) {
    case OPEN: return wickthrush_open(area, c->len, c->number, c->state);
    case EVENT: return wickthrush_event(area, c->len, c->permission, c->kind, c->number, c->state);
    default: return wickthrush_forget(area, c->len, c->permission);
    }
}

static uint32_t ask_second(struct second *second, const struct call *c)
{
    switch (c->what) {
    case OPEN: return second_open(second, c->len, c->number, c->state);
    case EVENT: return second_event(second, c->len, c->permission, c->kind, c->number, c->state);
    default: return second_forget(second, c->len, c->permission);
    }
}

/* Makes a call on both sides; a refused one must leave the bytes alone. */
static uint32_t both(struct pair *pair, const struct call *c)
{
    static uint8_t before[BYTES];
    memcpy(before, pair->area, BYTES);
    uint32_t expected = ask_second(&pair->second, c);
    uint32_t answer = ask_library(pair->area, c);
    check(answer == expected, "call %d, permission %lu, kind %#llx, number %#llx, state %lu: %lu instead of %lu",
          (int)c->what, (unsigned long)c->permission, (unsigned long long)c->kind, (unsigned long long)c->number,
          (unsigned long)c->state, (unsigned long)answer, (unsigned long)expected);
    if (pair->second.n != 0)
        check(second_word(pair->area, SECOND_STATE_AT) == pair->second.state, "answer %lu: not in state %lu",
              (unsigned long)expected, (unsigned long)pair->second.state);
    if (expected != 0 && expected != 8)
        check(memcmp(before, pair->area, BYTES) == 0, "refused with %lu, but the area changed",
              (unsigned long)expected);
    times[expected]++;
    return expected;
}

/* Makes a decide on the library's side. */
static void expect_decision(const uint8_t *area, size_t len, uint32_t permission, uint64_t set,
                            struct second_decided expected)
{
    wickthrush_decided decided = wickthrush_decide(area, len, permission, set);
    check(decided.answer == expected.answer && decided.role == expected.role,
          "decide, permission %lu, set %#llx: %lu with role %lu instead of %lu with role %lu",
          (unsigned long)permission, (unsigned long long)set, (unsigned long)decided.answer,
          (unsigned long)decided.role, (unsigned long)expected.answer, (unsigned long)expected.role);
    times[expected.answer]++;
    asked[expected.role]++;
}

static void compare_decision(const struct pair *pair, size_t len, uint32_t permission, uint64_t set)
{
    expect_decision(pair->area, len, permission, set, second_decide(&pair->second, len, permission, set));
}

/* Every session of a permission. */
static void compare_sessions(const struct pair *pair, uint32_t permission)
{
    for (uint64_t set = 0; set < UINT64_C(1) << pair->second.n; set++)
        compare_decision(pair, BYTES, permission, set);
}

static void compare_bytes(const struct pair *pair)
{
    static uint8_t expected[BYTES];
    second_area(&pair->second, expected);
    check(memcmp(pair->area, expected, BYTES) == 0, "the area has other bytes");
}

static void copy_pair(struct pair *to, const struct pair *from)
{
    second_copy(&to->second, &from->second);
    memcpy(to->area, from->area, BYTES);
}

static void open_pair(struct pair *pair, uint64_t n, uint32_t state)
{
    struct call c = {OPEN, BYTES, 0, 0, n, state};
    both(pair, &c);
}

/* ---- everything small */

/* The i-th event or forget of a permission with n roles; returns whether there is one. */
static bool nth_call(uint64_t n, uint32_t permission, uint64_t i, struct call *c)
{
    uint64_t sets = UINT64_C(1) << n;
    *c = (struct call){FORGET, BYTES, permission, 0, 0, 0};
    if (i < 2 * sets)
        *c = (struct call){EVENT, BYTES, permission, SECOND_DENY + i / sets, i % sets, 0};
    else if (i < 2 * sets + 2 * n)
        *c = (struct call){EVENT, BYTES, permission, SECOND_WITHDRAWN + (i - 2 * sets) / n, (i - 2 * sets) % n, 0};
    return i <= 2 * sets + 2 * n;
}

enum { MOST_DEPTH = 5 };

/* Each event with `states` states, of which the first is the timely one. */
static void every_stream(const struct pair *pair, unsigned depth, unsigned states)
{
    static const uint32_t beside[] = {0, UINT32_MAX, 1, 2};
    static struct pair below[MOST_DEPTH + 1];
    struct pair *next = &below[depth];
    struct call c;
    for (uint64_t i = 0; nth_call(pair->second.n, 5, i, &c); i++) {
        for (unsigned k = 0; k < (c.what == EVENT ? states : 1); k++) {
            c.state = timely(&pair->second, &c) + beside[k];
            copy_pair(next, pair);
            both(next, &c);
            compare_bytes(next);
            compare_sessions(next, 5);
            if (depth > 1)
                every_stream(next, depth - 1, states);
        }
    }
}

static void every_short_stream(void)
{
    static const unsigned depth[] = {0, MOST_DEPTH, 3, 3}, depth_by_states[] = {0, 2, 2, 1};
    static struct pair pair;
    group("every stream of 5, 3 and 3 calls with 1, 2 and 3 roles");
    for (uint64_t n = 1; n <= 3; n++) {
        open_pair(&pair, n, 0);
        every_stream(&pair, depth[n], 1);
    }
    group("every stream of 2, 2 and 1 calls with 1, 2 and 3 roles and states around, from the first and the last on");
    for (uint64_t n = 1; n <= 3; n++) {
        open_pair(&pair, n, 0);
        every_stream(&pair, depth_by_states[n], 4);
        open_pair(&pair, n, UINT32_MAX - 1);
        every_stream(&pair, depth_by_states[n], 4);
    }
}

/* What has been met of all that can be known of a permission, as a table that is searched from a number's own place. */
enum { SLOTS = 1 << 15, MOST_KNOWLEDGE = 9000 };
static second_sets slots[SLOTS], met[MOST_KNOWLEDGE];
static size_t met_count;

static void meet(second_sets possible)
{
    size_t i = possible * UINT64_C(0x9e3779b97f4a7c15) >> 49;
    while (slots[i] != 0 && slots[i] != possible)
        i = (i + 1) % SLOTS;
    if (slots[i] == possible || met_count == MOST_KNOWLEDGE)
        return;
    slots[i] = possible;
    met[met_count++] = possible;
}

/* Replies that leave just these holder sets possible; returns how many. */
static size_t retell(uint64_t n, uint32_t permission, second_sets possible, uint32_t state, struct call *calls)
{
    struct second_row row = second_row(possible, n);
    size_t count = 0;
    calls[count++] = (struct call){EVENT, BYTES, permission, SECOND_DENY, row.denied, state};
    for (size_t k = 0; k < row.count; k++)
        calls[count++] = (struct call){EVENT, BYTES, permission, SECOND_ALLOW, row.open[k], state};
    return count;
}

/* Nothing known but of permission 5. */
static void know(struct second *second, uint64_t n, second_sets possible, uint32_t state)
{
    struct call calls[1 + SECOND_MINIMAL];
    size_t count = retell(n, 5, possible, state, calls);
    second_open(second, BYTES, n, state);
    for (size_t i = 0; i < count; i++)
        ask_second(second, &calls[i]);
}

/* Gathers everything that can be known of a permission, by the second program alone. */
static void gather(uint64_t n)
{
    memset(slots, 0, sizeof slots);
    met_count = 0;
    meet(second_all(n));
    for (size_t k = 0; k < met_count; k++) {
        static struct second start, next;
        struct call c;
        know(&start, n, met[k], 0);
        for (uint64_t i = 0; nth_call(n, 5, i, &c); i++) {
            c.state = timely(&start, &c);
            second_copy(&next, &start);
            ask_second(&next, &c);
            meet(second_possible(&next, 5));
        }
    }
}

/* Bytes follow from knowledge, so one visit to each knowledge covers streams of every length. */
static void every_knowledge(void)
{
    static const size_t expected[] = {0, 3, 10, 41, 282, 8666};
    group("every call on everything that can be known with 1 to 4 roles, and on each 16th with 5");
    for (uint64_t n = 1; n <= 5; n++) {
        gather(n);
        check(met_count == expected[n], "%zu knowledges of %zu met", met_count, expected[n]);
        for (size_t k = 0; k < met_count; k += n < 5 ? 1 : 16) {
            static struct pair pair, next;
            know(&pair.second, n, met[k], (uint32_t)any());
            second_area(&pair.second, pair.area);
            compare_sessions(&pair, 5);
            struct call c;
            for (uint64_t i = 0; nth_call(n, 5, i, &c); i++) {
                c.state = timely(&pair.second, &c) + (any_below(8) ? 0 : (uint32_t)any_below(5) - 2);
                copy_pair(&next, &pair);
                if (both(&next, &c) == 0)
                    compare_bytes(&next);
            }
        }
    }
}

/* ---- random streams */

static const uint64_t odd_counts[] = {
    0, 65, 66, 255, 257, 65539, UINT64_C(1) << 32, (UINT64_C(1) << 32) + 3, UINT64_C(1) << 63, UINT64_MAX};
static const size_t odd_lengths[] = {
    0, 1, 18448, BYTES - 1, BYTES + 1, BYTES + 8, 2 * BYTES, ((size_t)1 << 32) + BYTES, SIZE_MAX};

#define ANY_OF(list) ((list)[any_below(sizeof(list) / sizeof(list)[0])])

enum { MOST_PERMISSIONS = 200 };

/* What a random stream is made of. */
struct style {
    uint32_t permission[MOST_PERMISSIONS];
    size_t permissions;
    unsigned updates, forgets, odd, untimely; /* of 100 calls */
    bool triples;                             /* replies are mostly allows on three roles */
};

static void choose_permissions(struct style *style, size_t count)
{
    static const uint32_t edges[] = {1, UINT32_MAX, UINT32_C(1) << 31, 255, 256};
    style->permissions = count;
    for (size_t i = 0; i < count; i++)
        style->permission[i] = any_below(4) ? (uint32_t)any() | 2 : ANY_OF(edges);
}

/* A state to open in: a quarter lies near the first one, a quarter near the last. */
static uint32_t any_opening(void)
{
    switch (any_below(4)) {
    case 0: return (uint32_t)any_below(4);
    case 1: return UINT32_MAX - (uint32_t)any_below(40);
    default: return (uint32_t)any();
    }
}

/* The state of an event that comes late or early, by one or by far; of an update also the present one, once more. */
static uint32_t any_untimely(uint32_t state)
{
    switch (any_below(8)) {
    case 0: return state - 1;
    case 1: return state + 1;
    case 2: return state - (uint32_t)any_below(6);
    case 3: return state + (uint32_t)any_below(6);
    case 4: return any_below(2) ? 0 : UINT32_MAX;
    case 5: return state ^ UINT32_C(1) << any_below(32);
    case 6: return state & (uint32_t)any_below(65536);
    default: return (uint32_t)any();
    }
}

static uint64_t any_set(uint64_t n)
{
    return any_below(UINT64_C(1) << n);
}

static uint64_t any_triple(uint64_t n)
{
    uint64_t set;
    do
        set = any_set(n);
    while (__builtin_popcountll(set) != 3);
    return set;
}

/* Sets with bits at or above n. */
static uint64_t odd_set(uint64_t n)
{
    uint64_t set = any_set(n);
    switch (any_below(4)) {
    case 0: return set | UINT64_C(1) << n;
    case 1: return set | UINT64_C(1) << 63;
    case 2: return set | UINT64_C(1) << 32;
    default: return set | UINT64_C(1) << (n + any_below(64 - n));
    }
}

/* Kinds and roles at or above a bound; half of them would be below it if their upper bits were lost. */
static uint64_t beyond(uint64_t bound)
{
    static const unsigned bits[] = {3, 6, 8, 16, 32, 63};
    switch (any_below(8)) {
    case 0: return bound;
    case 1: return bound + 1;
    case 2: return any_below(2) ? 63 : UINT64_MAX;
    case 3: return any() | UINT64_C(1) << 40;
    default: return (UINT64_C(1) << ANY_OF(bits)) + any_below(bound);
    }
}

static struct call any_call(const struct style *style, const struct second *second, uint64_t n)
{
    struct call c = {.what = EVENT, .len = BYTES};
    c.permission = style->permission[any_below(style->permissions)];
    c.kind = SECOND_DENY + any_below(2);
    c.number = any_set(n);
    uint64_t dice = any_below(100);
    if (dice < style->updates) {
        c.kind = SECOND_WITHDRAWN + any_below(2);
        c.number = any_below(n);
    } else if (dice < style->updates + style->forgets) {
        c.what = FORGET;
    } else if (style->triples && any_below(8)) {
        c.kind = SECOND_ALLOW;
        c.number = any_triple(n);
    }
    c.state = timely(second, &c);
    if (any_below(100) < style->untimely)
        c.state = any_untimely(c.state);
    return c;
}

/* Makes one argument or several odd. A kind by itself puts a set where a role belongs, or a role where a set does. */
static void spoil(struct call *c, uint64_t n)
{
    do {
        switch (any_below(10)) {
        case 0: c->len = ANY_OF(odd_lengths); break;
        case 1: c->permission = 0; break;
        case 2: c->kind = beyond(SECOND_KINDS); break;
        case 3: c->kind = any_below(SECOND_KINDS); break;
        case 4: *c = (struct call){OPEN, BYTES, 0, 0, ANY_OF(odd_counts), any_opening()}; break;
        case 5:
        case 6: c->state = any_untimely(c->state); break;
        default: c->number = c->what == OPEN ? 0 : any_below(2) ? odd_set(n) : beyond(n);
        }
    } while (any_below(2));
}

static void compare_odd_decisions(const struct pair *pair, const struct style *style)
{
    uint32_t permission = style->permission[any_below(style->permissions)];
    uint64_t n = pair->second.n;
    size_t len = ANY_OF(odd_lengths);
    compare_decision(pair, BYTES, permission, odd_set(n));
    compare_decision(pair, BYTES, 0, odd_set(n));
    compare_decision(pair, BYTES, 0, any_set(n));
    compare_decision(pair, len, 0, UINT64_MAX);
    compare_decision(pair, len, permission, any_set(n));
}

/* In a state over 32 bits the same rows are no area. */
static void compare_damaged(const struct pair *pair, const struct style *style)
{
    static struct pair damaged;
    memcpy(damaged.area, pair->area, BYTES);
    second_put(damaged.area, SECOND_STATE_AT, pair->second.state | UINT64_C(1) << (32 + any_below(32)));
    struct call c = any_call(style, &pair->second, pair->second.n);
    both(&damaged, &c);
    compare_decision(&damaged, BYTES, c.permission, any_set(pair->second.n));
}

/* Every permission of the stream, or only a few of very many. */
static void compare_all(const struct pair *pair, const struct style *style)
{
    compare_bytes(pair);
    compare_damaged(pair, style);
    compare_odd_decisions(pair, style);
    if (style->permissions <= 8) {
        for (size_t i = 0; i < style->permissions; i++)
            compare_sessions(pair, style->permission[i]);
        return;
    }
    for (size_t i = 0; i < style->permissions; i++)
        compare_decision(pair, BYTES, style->permission[i], any_set(pair->second.n));
}

/* Two areas in turn, so that nothing kept outside them can go unseen. */
static void stream(const struct style *style, uint64_t n, unsigned calls, unsigned between)
{
    static struct pair pairs[2];
    for (size_t k = 0; k < 2; k++) {
        pairs[k].second.n = 0;
        for (size_t i = 0; i < BYTES; i++)
            pairs[k].area[i] = (uint8_t)any();
        struct call early = any_call(style, &pairs[k].second, n);
        both(&pairs[k], &early);
        compare_decision(&pairs[k], BYTES, style->permission[0], any_set(n));
        open_pair(&pairs[k], n, any_opening());
    }
    for (unsigned i = 1; i <= calls; i++) {
        struct pair *pair = &pairs[any_below(2)];
        struct call c = any_call(style, &pair->second, n);
        if (any_below(100) < style->odd)
            spoil(&c, n);
        both(pair, &c);
        if (i % between == 0 || i == calls)
            compare_all(pair, style);
    }
}

static void random_streams(void)
{
    group("random streams of up to 8 permissions and 6 roles, odd numbers among them");
    for (unsigned round = 0; round < 500; round++) {
        struct style style = {.updates = 20, .forgets = 3, .odd = 15, .untimely = 15};
        choose_permissions(&style, 1 + any_below(8));
        stream(&style, 1 + any_below(6), 120, 12);
    }
    group("random streams on rows near 15 open sets");
    for (unsigned round = 0; round < 200; round++) {
        struct style style = {.updates = 2, .forgets = 1, .odd = 2, .untimely = 2, .triples = true};
        choose_permissions(&style, 1 + any_below(2));
        stream(&style, 6, 160, 12);
    }
    group("random streams of 200 permissions on 128 rows");
    for (unsigned round = 0; round < 16; round++) {
        struct style style = {.updates = 30, .forgets = 6, .odd = 3, .untimely = 5};
        choose_permissions(&style, MOST_PERMISSIONS);
        stream(&style, 2 + any_below(5), 2500, 250);
    }
}

/* ---- six roles among up to 64: those that no event names stay free */

struct renaming {
    uint64_t n;
    uint64_t role[SECOND_ROLES];
    uint64_t named;
};

static struct renaming any_renaming(void)
{
    struct renaming to = {.n = 7 + any_below(58)};
    if (any_below(3) == 0)
        to.n = 64;
    for (size_t i = 0; i < SECOND_ROLES; i++) {
        do
            to.role[i] = i == 0 ? to.n - 1 : any_below(to.n);
        while (to.named >> to.role[i] & 1);
        to.named |= UINT64_C(1) << to.role[i];
    }
    return to;
}

static uint64_t renamed(const struct renaming *to, uint64_t set)
{
    uint64_t other = 0;
    for (size_t i = 0; i < SECOND_ROLES; i++)
        if (set >> i & 1)
            other |= UINT64_C(1) << to->role[i];
    return other;
}

/* By their new names another role can be the lowest. */
static struct second_decided far_decided(uint32_t answer, uint64_t may_hold)
{
    return (struct second_decided){answer, answer == 12 ? second_lowest(may_hold) : SECOND_NO_ROLE};
}

static void far_sessions(const struct second *second, const uint8_t *area, const struct renaming *to,
                         uint32_t permission)
{
    uint64_t all = to->n == 64 ? UINT64_MAX : (UINT64_C(1) << to->n) - 1;
    uint64_t may_hold = second_may_hold(second_possible(second, permission));
    for (uint64_t set = 0; set < 1 << SECOND_ROLES; set++) {
        uint32_t near = second_decide(second, BYTES, permission, set).answer;
        uint64_t far = renamed(to, set), far_may_hold = renamed(to, set & may_hold);
        expect_decision(area, BYTES, permission, far, far_decided(near, far_may_hold));
        uint64_t from = any_below(64), more = any() << from & all & ~to->named;
        uint32_t answer = more == 0 || near == 11 ? near : 12;
        expect_decision(area, BYTES, permission, far | more, far_decided(answer, far_may_hold | more));
    }
    if (to->n < 64)
        expect_decision(area, BYTES, permission, UINT64_C(1) << to->n, (struct second_decided){4, SECOND_NO_ROLE});
}

static void far_roles(void)
{
    static uint8_t area[BYTES];
    group("random streams of 6 roles among up to 64");
    for (unsigned round = 0; round < 300; round++) {
        struct renaming to = any_renaming();
        static struct second second;
        struct style style = {.updates = 15, .forgets = 2, .untimely = 10, .triples = round % 2};
        uint32_t opening = any_opening();
        choose_permissions(&style, 1 + any_below(3));
        second_open(&second, BYTES, SECOND_ROLES, opening);
        check(wickthrush_open(area, BYTES, to.n, opening) == 0, "open with %llu roles", (unsigned long long)to.n);
        for (unsigned i = 1; i <= 80; i++) {
            struct call c = any_call(&style, &second, SECOND_ROLES);
            uint32_t expected = ask_second(&second, &c);
            if (c.what == EVENT)
                c.number = is_reply(&c) ? renamed(&to, c.number) : to.role[c.number];
            uint32_t answer = ask_library(area, &c);
            check(answer == expected, "far call %d, kind %llu: %lu instead of %lu", (int)c.what,
                  (unsigned long long)c.kind, (unsigned long)answer, (unsigned long)expected);
            if (i % 20 == 0)
                for (size_t k = 0; k < style.permissions; k++)
                    far_sessions(&second, area, &to, style.permission[k]);
        }
        check(second_good(area), "the area breaks a layout rule");
    }
}

/* ---- equal knowledge, equal bytes */

enum { MOST_CALLS = 200 };

/* A random stream of events in which every answer is 0. */
static size_t recorded_stream(struct pair *pair, uint64_t n, struct call *calls, size_t most)
{
    struct style style = {.updates = 10};
    size_t count = 0;
    choose_permissions(&style, 1 + any_below(6));
    open_pair(pair, n, any_opening());
    for (unsigned i = 0; i < MOST_CALLS && count < most; i++) {
        struct call c = any_call(&style, &pair->second, n);
        if (c.kind == SECOND_DENY && any_below(2))
            c.number &= any();
        if (both(pair, &c) == 0)
            calls[count++] = c;
    }
    return count;
}

/* Neighbours that are replies may change places, about whatever permissions; updates stay where they are. */
static void rearrange(struct call *calls, size_t count)
{
    for (size_t swaps = 0; swaps < 20 * count; swaps++) {
        size_t i = any_below(count - 1);
        struct call *a = &calls[i], *b = &calls[i + 1];
        if (!is_reply(a) || !is_reply(b))
            continue;
        struct call c = *a;
        *a = *b;
        *b = c;
    }
}

static void rearranged_streams(void)
{
    static struct pair pair;
    static uint8_t again[BYTES];
    struct call calls[MOST_CALLS];
    unsigned compared = 0;
    group("rearranged streams");
    for (unsigned round = 0; round < 1200; round++) {
        uint64_t n = 1 + any_below(6);
        size_t count = recorded_stream(&pair, n, calls, 2 + any_below(40));
        if (count < 2)
            continue;
        uint32_t opening = is_reply(&calls[0]) ? calls[0].state : calls[0].state - 1;
        rearrange(calls, count);
        bool all_recorded = wickthrush_open(again, BYTES, pair.second.n, opening) == 0;
        for (size_t i = 0; i < count; i++)
            all_recorded = ask_library(again, &calls[i]) == 0 && all_recorded;
        if (!all_recorded)
            continue;
        compared++;
        check(memcmp(pair.area, again, BYTES) == 0, "%zu rearranged calls give other bytes", count);
    }
    check(compared > 900, "only %u streams were recorded in both orders", compared);
}

/* The same knowledge told in few words: for each permission in any order what is denied, and each open set. */
static void retold_streams(void)
{
    static struct pair pair;
    static uint8_t again[BYTES];
    struct call calls[MOST_CALLS];
    group("knowledge retold by another trail");
    for (unsigned round = 0; round < 300; round++) {
        recorded_stream(&pair, 1 + any_below(6), calls, 60);
        const struct second *second = &pair.second;
        size_t count = 0;
        for (size_t i = 0; i < second->used; i++)
            count += retell(second->n, second->permission[i], second->possible[i], second->state, &calls[count]);
        if (count > 1)
            rearrange(calls, count);
        check(wickthrush_open(again, BYTES, second->n, second->state) == 0, "an area does not open");
        for (size_t i = 0; i < count; i++)
            check(ask_library(again, &calls[i]) == 0, "a retold reply is refused");
        check(memcmp(pair.area, again, BYTES) == 0, "retold knowledge has other bytes");
    }
}

/* Trails of one permission with 3 roles: their areas are equal exactly when their knowledge and their states are. */
static void equal_knowledge(void)
{
    enum { KNOWLEDGES = 41, STATES = 9, MOST = KNOWLEDGES * STATES };
    static struct pair pair;
    static uint8_t first[MOST][BYTES];
    static second_sets knowledge[MOST];
    static uint32_t states[MOST];
    size_t count = 0;
    unsigned again = 0, in_other_states = 0;
    group("areas are equal exactly when knowledge and state are");
    for (unsigned round = 0; round < 1500; round++) {
        open_pair(&pair, 3, (uint32_t)any_below(3));
        for (uint64_t i = any_below(7); i > 0; i--) {
            struct call c;
            nth_call(3, 5, any_below(23), &c);
            c.state = timely(&pair.second, &c);
            both(&pair, &c);
        }
        second_sets possible = second_possible(&pair.second, 5);
        bool known = false;
        for (size_t i = 0; i < count; i++) {
            bool same = memcmp(first[i], pair.area, BYTES) == 0;
            bool same_knowledge = knowledge[i] == possible, same_state = states[i] == pair.second.state;
            check(same == (same_knowledge && same_state), "bytes are %s, knowledge and state aren't so",
                  same ? "equal" : "different");
            known = known || (same_knowledge && same_state);
            again += same_knowledge && same_state;
            in_other_states += same_knowledge && !same_state;
        }
        if (known)
            continue;
        memcpy(first[count], pair.area, BYTES);
        knowledge[count] = possible;
        states[count++] = pair.second.state;
    }
    check(again > 1000 && in_other_states > 1000, "equal knowledge: %u times in the same state, %u in another", again,
          in_other_states);
}

/* ---- a head office, and a line that delays, loses and repeats */

enum { MOST_STATES = 40, MOST_SENT = 80, OFFICE_PERMISSIONS = 3 };

/* The policy of each state, and every update that made one. */
struct office {
    uint64_t n;
    uint32_t opening, state;
    uint64_t holders[MOST_STATES][OFFICE_PERMISSIONS];
    struct call update[MOST_STATES];
};

static void open_office(struct office *office)
{
    office->n = 1 + any_below(SECOND_ROLES);
    office->opening = office->state = any_opening();
    for (size_t p = 0; p < OFFICE_PERMISSIONS; p++)
        office->holders[0][p] = any_set(office->n);
}

static uint64_t holders_in(const struct office *office, uint32_t state, uint32_t permission)
{
    return office->holders[state - office->opening][permission - 1];
}

/* One more update; it makes the next state. */
static struct call change_policy(struct office *office)
{
    uint32_t place = office->state - office->opening + 1;
    uint64_t kind = SECOND_WITHDRAWN + any_below(2), role = any_below(office->n), p = any_below(OFFICE_PERMISSIONS);
    memcpy(office->holders[place], office->holders[place - 1], sizeof office->holders[0]);
    uint64_t *holders = &office->holders[place][p];
    *holders = kind == SECOND_GIVEN ? *holders | UINT64_C(1) << role : *holders & ~(UINT64_C(1) << role);
    office->update[place] = (struct call){EVENT, BYTES, 1 + (uint32_t)p, kind, role, ++office->state};
    return office->update[place];
}

/* A reply, true in the office's state of the moment, which it names. */
static struct call reply_of(const struct office *office)
{
    uint32_t permission = 1 + (uint32_t)any_below(OFFICE_PERMISSIONS);
    uint64_t set = any_set(office->n), held = holders_in(office, office->state, permission);
    return (struct call){EVENT, BYTES, permission, (set & held) != 0 ? SECOND_ALLOW : SECOND_DENY, set, office->state};
}

static bool can_change(const struct office *office)
{
    return office->state != UINT32_MAX && office->state - office->opening + 1 < MOST_STATES;
}

/* Each verdict is that of the policy in the area's state, whatever the office's is by now. */
static void compare_policy(const struct pair *pair, const struct office *office, unsigned long *verdicts)
{
    for (uint32_t permission = 1; permission <= OFFICE_PERMISSIONS; permission++) {
        uint64_t held = holders_in(office, pair->second.state, permission);
        for (uint64_t set = 0; set < UINT64_C(1) << office->n; set++) {
            uint32_t answer = wickthrush_decide(pair->area, BYTES, permission, set).answer;
            check(answer == 12 || answer == ((set & held) != 0 ? 11 : 10), "%lu is not the policy of state %lu",
                  (unsigned long)answer, (unsigned long)pair->second.state);
            *verdicts += set != 0 && answer != 12;
        }
    }
}

/* The second program reads its past by the states that events name: in any order it says the same. */
static void mix_past(struct second *second)
{
    for (size_t i = second->past_count; i > 1; i--) {
        size_t k = any_below(i);
        struct second_recorded event = second->past[i - 1];
        second->past[i - 1] = second->past[k];
        second->past[k] = event;
    }
}

static void head_office(void)
{
    static struct pair pair;
    static struct office office;
    unsigned long verdicts = 0, misleading = 0;
    group("replies and updates that come late, early, twice or not at all: verdicts are those of the area's state");
    for (unsigned round = 0; round < 300; round++) {
        struct call waiting[MOST_SENT];
        size_t count = 0;
        open_office(&office);
        open_pair(&pair, office.n, office.opening);
        for (unsigned turn = 0; turn < MOST_SENT; turn++) {
            waiting[count++] = any_below(3) == 0 && can_change(&office) ? change_policy(&office) : reply_of(&office);
            /* half of the time the one sent first; it may be lost, or come again */
            size_t i = any_below(2) ? 0 : any_below(count);
            struct call c = waiting[i];
            if (any_below(10))
                memmove(&waiting[i], &waiting[i + 1], (--count - i) * sizeof c);
            if (any_below(10) == 0)
                continue;
            uint32_t answer = both(&pair, &c);
            check(answer != 6, "a true reply is a contradiction");
            bool held = (holders_in(&office, pair.second.state, c.permission) & c.number) != 0;
            misleading += answer == 13 && is_reply(&c) && held != (c.kind == SECOND_ALLOW);
            /* what was lost is asked for again */
            if (answer == 14 && any_below(2))
                both(&pair, &office.update[pair.second.state - office.opening + 1]);
            if (turn % 16 == 0)
                compare_policy(&pair, &office, &verdicts);
        }
        mix_past(&pair.second);
        compare_bytes(&pair);
    }
    check(verdicts > 1000, "only %lu verdicts", verdicts);
    check(misleading > 100, "only %lu late replies were no longer true", misleading);
}

static void every_answer(void)
{
    group("every answer occurred, and every role as one to ask about");
    for (uint32_t answer = 0; answer < ANSWERS; answer++) {
        if (answer == 9)
            continue;
        check(times[answer] > 0, "answer %lu never occurred", (unsigned long)answer);
        printf("  answer %lu: %lu times\n", (unsigned long)answer, times[answer]);
    }
    for (uint32_t role = 0; role < SECOND_MOST_ROLES; role++)
        check(asked[role] > 0, "role %lu never occurred", (unsigned long)role);
}

int main(void)
{
    every_short_stream();
    every_knowledge();
    random_streams();
    far_roles();
    rearranged_streams();
    retold_streams();
    equal_knowledge();
    head_office();
    every_answer();
    return finish();
}
