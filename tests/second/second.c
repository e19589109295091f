/* The second program: every answer from the set of all possible holder sets. */
#include "second.h"

#include <stdlib.h>
#include <string.h>

static bool member(uint64_t set, uint64_t i)
{
    return set >> i & 1;
}

/* ---- holder sets */

/* The holder sets that share a role with a set. */
static second_sets sharing(uint64_t set)
{
    static second_sets table[1 << SECOND_ROLES];
    static bool filled;
    if (!filled) {
        for (uint64_t s = 0; s < 1 << SECOND_ROLES; s++)
            for (uint64_t h = 0; h < 1 << SECOND_ROLES; h++)
                if (h & s)
                    table[s] |= UINT64_C(1) << h;
        filled = true;
    }
    return table[set];
}

second_sets second_all(uint64_t n)
{
    second_sets all = 0;
    for (uint64_t h = 0; h < UINT64_C(1) << n; h++)
        all |= UINT64_C(1) << h;
    return all;
}

/* Whether every possible holder set shares a role with a set. */
static bool always_shares(second_sets possible, uint64_t set)
{
    return (possible & ~sharing(set)) == 0;
}

/* Whether none does. */
static bool never_shares(second_sets possible, uint64_t set)
{
    return (possible & sharing(set)) == 0;
}

uint64_t second_may_hold(second_sets possible)
{
    uint64_t roles = 0;
    for (uint64_t h = 0; h < 1 << SECOND_ROLES; h++)
        if (member(possible, h))
            roles |= h;
    return roles;
}

uint32_t second_lowest(uint64_t set)
{
    for (uint32_t r = 0; r < SECOND_MOST_ROLES; r++)
        if (member(set, r))
            return r;
    return SECOND_NO_ROLE;
}

/* Whether a set always shares, and no set with one role less does. */
static bool minimal(second_sets possible, uint64_t set)
{
    if (!always_shares(possible, set))
        return false;
    for (uint64_t r = 0; r < SECOND_ROLES; r++)
        if (member(set, r) && always_shares(possible, set & ~(UINT64_C(1) << r)))
            return false;
    return true;
}

struct second_row second_row(second_sets possible, uint64_t n)
{
    struct second_row row = {0};
    for (uint64_t r = 0; r < n; r++)
        if (never_shares(possible, UINT64_C(1) << r))
            row.denied |= UINT64_C(1) << r;
    for (uint64_t s = 1; s < UINT64_C(1) << n; s++)
        if ((s & row.denied) == 0 && minimal(possible, s))
            row.open[row.count++] = s;
    return row;
}

/* ---- policies: a holder set for each state */

static bool is_reply(uint64_t kind)
{
    return kind == SECOND_DENY || kind == SECOND_ALLOW;
}

/* The past of one permission: its updates by rising number, and its replies. */
struct trail {
    size_t updates, replies;
    struct second_recorded update[SECOND_PAST], reply[SECOND_PAST];
    size_t behind[SECOND_PAST]; /* how many of the updates the state of a reply has behind it */
};

static void add_update(struct trail *trail, const struct second_recorded *update)
{
    size_t i = trail->updates++;
    for (; i > 0 && trail->update[i - 1].state > update->state; i--)
        trail->update[i] = trail->update[i - 1];
    trail->update[i] = *update;
}

static size_t updates_up_to(const struct trail *trail, uint32_t state)
{
    size_t count = 0;
    while (count < trail->updates && trail->update[count].state <= state)
        count++;
    return count;
}

static void read_trail(const struct second *second, uint32_t permission, struct trail *trail)
{
    trail->updates = trail->replies = 0;
    for (size_t i = 0; i < second->past_count; i++) {
        const struct second_recorded *event = &second->past[i];
        if (event->permission != permission)
            continue;
        if (is_reply(event->kind))
            trail->reply[trail->replies++] = *event;
        else
            add_update(trail, event);
    }
    for (size_t i = 0; i < trail->replies; i++)
        trail->behind[i] = updates_up_to(trail, trail->reply[i].state);
}

/* What each number of updates makes of a starting set. */
static void make_policies(const struct trail *trail, uint64_t start, uint64_t *holders)
{
    holders[0] = start;
    for (size_t i = 0; i < trail->updates; i++) {
        uint64_t alone = UINT64_C(1) << trail->update[i].number;
        holders[i + 1] = trail->update[i].kind == SECOND_GIVEN ? holders[i] | alone : holders[i] & ~alone;
    }
}

/* Whether each reply is true in the state that it names. */
static bool agrees(const struct trail *trail, const uint64_t *holders)
{
    for (size_t i = 0; i < trail->replies; i++) {
        bool shares = (holders[trail->behind[i]] & trail->reply[i].number) != 0;
        if (shares != (trail->reply[i].kind == SECOND_ALLOW))
            return false;
    }
    return true;
}

/* Of every starting set that agrees with the past, the holder set that it has become in a state. */
static second_sets possible_in(const struct second *second, uint32_t permission, uint32_t state)
{
    static struct trail trail;
    static uint64_t holders[SECOND_PAST + 1];
    second_sets possible = 0;
    read_trail(second, permission, &trail);
    for (uint64_t start = 0; start < UINT64_C(1) << second->n; start++) {
        make_policies(&trail, start, holders);
        if (agrees(&trail, holders))
            possible |= UINT64_C(1) << holders[updates_up_to(&trail, state)];
    }
    return possible;
}

static bool same_event(const struct second_recorded *a, const struct second_recorded *b)
{
    return a->permission == b->permission && a->state == b->state && a->kind == b->kind && a->number == b->number;
}

/* A reply that is told again says nothing new. */
static void remember(struct second *second, struct second_recorded event)
{
    for (size_t i = 0; i < second->past_count; i++)
        if (same_event(&second->past[i], &event))
            return;
    if (second->past_count == SECOND_PAST)
        abort();
    second->past[second->past_count++] = event;
}

static void drop_past(struct second *second, uint32_t permission)
{
    size_t kept = 0;
    for (size_t i = 0; i < second->past_count; i++)
        if (second->past[i].permission != permission)
            second->past[kept++] = second->past[i];
    second->past_count = kept;
}

void second_copy(struct second *to, const struct second *from)
{
    memcpy(to, from, offsetof(struct second, past) + from->past_count * sizeof from->past[0]);
}

/* ---- permissions */

/* The place of a permission among those of which something is known. */
static size_t place(const struct second *second, uint32_t permission)
{
    size_t i = 0;
    while (i < second->used && second->permission[i] < permission)
        i++;
    return i;
}

static bool stands_at(const struct second *second, uint32_t permission, size_t i)
{
    return i < second->used && second->permission[i] == permission;
}

/* As it was worked out at the permission's last event: those of others change none of its holder sets. */
second_sets second_possible(const struct second *second, uint32_t permission)
{
    size_t i = place(second, permission);
    return stands_at(second, permission, i) ? second->possible[i] : second_all(second->n);
}

static bool fits(const struct second *second, uint32_t permission, second_sets possible)
{
    if (second_row(possible, second->n).count > SECOND_OPENS)
        return false;
    bool has_row = stands_at(second, permission, place(second, permission));
    return has_row || possible == second_all(second->n) || second->used < SECOND_ROWS;
}

static void learn(struct second *second, uint32_t permission, second_sets possible)
{
    size_t i = place(second, permission);
    size_t behind = second->used - i;
    if (stands_at(second, permission, i)) {
        memmove(&second->permission[i], &second->permission[i + 1], (behind - 1) * sizeof second->permission[0]);
        memmove(&second->possible[i], &second->possible[i + 1], (behind - 1) * sizeof second->possible[0]);
        second->used--;
        behind--;
    }
    if (possible == second_all(second->n))
        return;
    memmove(&second->permission[i + 1], &second->permission[i], behind * sizeof second->permission[0]);
    memmove(&second->possible[i + 1], &second->possible[i], behind * sizeof second->possible[0]);
    second->permission[i] = permission;
    second->possible[i] = possible;
    second->used++;
}

/* ---- calls, each with its refusals in the order of the Rules */

static bool bad_area(const struct second *second, size_t len)
{
    return len != SECOND_BYTES || second->n == 0;
}

static bool known_set(const struct second *second, uint64_t set)
{
    return set < UINT64_C(1) << second->n;
}

uint32_t second_open(struct second *second, size_t len, uint64_t n, uint32_t state)
{
    if (len != SECOND_BYTES)
        return 1;
    if (n < 1 || n > SECOND_MOST_ROLES)
        return 2;
    if (n > SECOND_ROLES)
        abort();
    second->n = n;
    second->state = state;
    second->used = 0;
    second->past_count = 0;
    return 0;
}

/* A reply is timely in the state that it names, an update in the one before that which it makes. */
static uint32_t untimely(uint32_t present, bool reply, uint32_t state)
{
    if (state < present || (!reply && state == present))
        return 13;
    return state - present > (reply ? 0 : 1) ? 14 : 0;
}

static void forget(struct second *second, uint32_t permission)
{
    drop_past(second, permission);
    learn(second, permission, second_all(second->n));
}

uint32_t second_event(struct second *second, size_t len, uint32_t permission, uint64_t kind, uint64_t number,
                      uint32_t state)
{
    bool reply = is_reply(kind);
    size_t past_count = second->past_count;
    if (bad_area(second, len))
        return 1;
    if (permission == 0)
        return 3;
    if (kind >= SECOND_KINDS)
        return 5;
    if (reply ? !known_set(second, number) : number >= second->n)
        return 4;
    uint32_t refusal = untimely(second->state, reply, state);
    if (refusal != 0)
        return refusal;
    remember(second, (struct second_recorded){permission, state, kind, number});
    second_sets possible = possible_in(second, permission, state);
    bool room = fits(second, permission, possible);
    if (reply && (possible == 0 || !room)) {
        second->past_count = past_count;
        return possible == 0 ? 6 : 7;
    }
    second->state = state;
    if (!room) {
        forget(second, permission);
        return 8;
    }
    learn(second, permission, possible);
    return 0;
}

static struct second_decided without_role(uint32_t answer)
{
    return (struct second_decided){answer, SECOND_NO_ROLE};
}

struct second_decided second_decide(const struct second *second, size_t len, uint32_t permission, uint64_t set)
{
    if (bad_area(second, len))
        return without_role(1);
    if (permission == 0)
        return without_role(3);
    if (!known_set(second, set))
        return without_role(4);
    second_sets possible = second_possible(second, permission);
    if (never_shares(possible, set))
        return without_role(10);
    if (always_shares(possible, set))
        return without_role(11);
    return (struct second_decided){12, second_lowest(set & second_may_hold(possible))};
}

uint32_t second_forget(struct second *second, size_t len, uint32_t permission)
{
    if (bad_area(second, len))
        return 1;
    if (permission == 0)
        return 3;
    forget(second, permission);
    return 0;
}

/* ---- the area's bytes */

enum { CONTENTS = SECOND_STATE_AT + 1, BODIES = CONTENTS + 2 * SECOND_ROWS, BODY = 1 + SECOND_OPENS };

size_t second_permission_at(size_t row)
{
    return CONTENTS + 2 * row;
}

size_t second_count_at(size_t row)
{
    return CONTENTS + 2 * row + 1;
}

size_t second_denied_at(size_t row)
{
    return BODIES + BODY * row;
}

size_t second_open_at(size_t row, size_t open)
{
    return BODIES + BODY * row + 1 + open;
}

uint64_t second_word(const uint8_t *area, size_t at)
{
    uint64_t value = 0;
    for (size_t i = 0; i < 8; i++)
        value |= (uint64_t)area[8 * at + i] << (8 * i);
    return value;
}

void second_put(uint8_t *area, size_t at, uint64_t value)
{
    for (size_t i = 0; i < 8; i++)
        area[8 * at + i] = (uint8_t)(value >> (8 * i));
}

const size_t second_wrong_lengths[SECOND_WRONG_LENGTHS] = {
    0,
    1,
    8,
    SECOND_BYTES / 2,
    18448, /* an area of before, without a policy state */
    SECOND_BYTES - 1,
    SECOND_BYTES + 1,
    SECOND_BYTES + 8,
    18968,
    2 * SECOND_BYTES,
    (size_t)1 << 31,
    ((size_t)1 << 32) + SECOND_BYTES,
    ((size_t)1 << 63) + SECOND_BYTES,
    SIZE_MAX};

void second_put_row(uint8_t *area, size_t row, uint64_t permission, uint64_t denied, size_t count, const uint64_t *open)
{
    second_put(area, second_permission_at(row), permission);
    second_put(area, second_count_at(row), count);
    second_put(area, second_denied_at(row), denied);
    for (size_t k = 0; k < count; k++)
        second_put(area, second_open_at(row, k), open[k]);
}

void second_area(const struct second *second, uint8_t *area)
{
    memset(area, 0, SECOND_BYTES);
    second_put(area, 0, second->n);
    second_put(area, 1, second->used);
    second_put(area, SECOND_STATE_AT, second->state);
    for (size_t i = 0; i < second->used; i++) {
        /* read anew, in the state of now */
        second_sets possible = possible_in(second, second->permission[i], second->state);
        struct second_row row = second_row(possible, second->n);
        second_put_row(area, i, second->permission[i], row.denied, row.count, row.open);
    }
}

static bool below(uint64_t set, uint64_t n)
{
    return n == 64 || set >> n == 0;
}

static bool good_row(const uint8_t *area, uint64_t n, size_t i)
{
    uint64_t permission = second_word(area, second_permission_at(i));
    uint64_t count = second_word(area, second_count_at(i));
    uint64_t denied = second_word(area, second_denied_at(i));
    if (permission == 0 || permission > UINT32_MAX || count > SECOND_OPENS || !below(denied, n))
        return false;
    if (i > 0 && second_word(area, second_permission_at(i - 1)) >= permission)
        return false;
    if (denied == 0 && count == 0)
        return false;
    for (size_t k = 0; k < SECOND_OPENS; k++) {
        uint64_t open = second_word(area, second_open_at(i, k));
        if (k >= count) {
            if (open != 0)
                return false;
            continue;
        }
        if (open == 0 || !below(open, n) || (open & denied) != 0)
            return false;
        for (size_t j = 0; j < k; j++) {
            uint64_t earlier = second_word(area, second_open_at(i, j));
            if (earlier >= open || (earlier & open) == earlier || (earlier & open) == open)
                return false;
        }
    }
    return true;
}

bool second_good(const uint8_t *area)
{
    uint64_t n = second_word(area, 0);
    uint64_t used = second_word(area, 1);
    if (n < 1 || n > SECOND_MOST_ROLES || used > SECOND_ROWS || second_word(area, SECOND_STATE_AT) > UINT32_MAX)
        return false;
    for (size_t i = 0; i < used; i++)
        if (!good_row(area, n, i))
            return false;
    for (size_t i = used; i < SECOND_ROWS; i++) {
        if (second_word(area, second_permission_at(i)) != 0 || second_word(area, second_count_at(i)) != 0)
            return false;
        for (size_t k = 0; k < BODY; k++)
            if (second_word(area, second_denied_at(i) + k) != 0)
                return false;
    }
    return true;
}
