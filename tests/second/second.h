/* The second program: what the Rules say of every call, worked out by enumerating holder sets.
 * It keeps no rows and has no steps; it shares nothing with the cache but the numbers of the Rules.
 *
 * It keeps what was recorded, each event with the policy state that it names, and reads it by these numbers: a starting
 * set becomes a holder set for each state, by the updates numbered up to it, and a reply is held against the holder set
 * of the state that it names. When an event came plays no part. */
#ifndef SECOND_H
#define SECOND_H

#include <stdbool.h>
#include <stddef.h>
#include <stdint.h>

enum {
    SECOND_ROLES = 6, /* the largest role count it can enumerate: its 64 holder sets fill one number */
    SECOND_MOST_ROLES = 64, /* the largest role count of an area */
    SECOND_NO_ROLE = 64,
    SECOND_ROWS = 128,
    SECOND_OPENS = 15,
    SECOND_MINIMAL = 20, /* the most sets of 6 roles of which none is part of another */
    SECOND_BYTES = 18456,
    SECOND_WRONG_LENGTHS = 14,
    SECOND_ROOM = 4096, /* the fewest bytes of a buffer to print into */
    SECOND_PAST = 4096  /* the most events that it can keep */
};

/* The kinds of event: the replies, on a set, come before the updates, on a role. */
enum { SECOND_DENY = 0, SECOND_ALLOW = 1, SECOND_WITHDRAWN = 2, SECOND_GIVEN = 3, SECOND_KINDS = 4 };

/* Holder sets that are possible for a permission: bit h stands for the holder set h. */
typedef uint64_t second_sets;

/* An event that was recorded. A reply is true in its state; an update made its state, and is true from there on. */
struct second_recorded {
    uint32_t permission, state;
    uint64_t kind, number;
};

struct second {
    uint64_t n;     /* 0 until opened: every call but open then finds a bad area */
    uint32_t state; /* the present policy state */
    size_t used;
    uint32_t permission[SECOND_ROWS];  /* ascending: those for which not every holder set is possible */
    second_sets possible[SECOND_ROWS]; /* in the present state */
    size_t past_count;
    struct second_recorded past[SECOND_PAST]; /* what is not forgotten, in any order */
};

/* The reduced form, read off the possible holder sets. */
struct second_row {
    uint64_t denied;
    size_t count;
    uint64_t open[SECOND_MINIMAL]; /* ascending */
};

/* What decide gives: with 12 the role to ask about, with every other answer SECOND_NO_ROLE. */
struct second_decided {
    uint32_t answer, role;
};

/* The calls of the C side. A role count above SECOND_ROLES, and a longer past, is beyond this program and ends it. */
uint32_t second_open(struct second *second, size_t len, uint64_t n, uint32_t state);
uint32_t second_event(struct second *second, size_t len, uint32_t permission, uint64_t kind, uint64_t number,
                      uint32_t state);
struct second_decided second_decide(const struct second *second, size_t len, uint32_t permission, uint64_t set);
uint32_t second_forget(struct second *second, size_t len, uint32_t permission);

/* Copies no more than there is of the past. */
void second_copy(struct second *to, const struct second *from);

second_sets second_all(uint64_t n);

/* The holder sets that are possible in the present state. */
second_sets second_possible(const struct second *second, uint32_t permission);
struct second_row second_row(second_sets possible, uint64_t n);

/* The roles that some possible holder set has. */
uint64_t second_may_hold(second_sets possible);

/* The lowest role of a set; SECOND_NO_ROLE where it has none. */
uint32_t second_lowest(uint64_t set);

/* The bytes that the area must have. */
void second_area(const struct second *second, uint8_t *area);

/* Lengths that no area has. */
extern const size_t second_wrong_lengths[SECOND_WRONG_LENGTHS];

/* Whether an area of the right length obeys every layout rule, for any role count. */
bool second_good(const uint8_t *area);

/* Places of words in the area, rows and open sets counted from 0. */
enum { SECOND_STATE_AT = 2 };
size_t second_permission_at(size_t row);
size_t second_count_at(size_t row);
size_t second_denied_at(size_t row);
size_t second_open_at(size_t row, size_t open);
uint64_t second_word(const uint8_t *area, size_t at);
void second_put(uint8_t *area, size_t at, uint64_t value);

/* The words of one row: entry and body. */
void second_put_row(uint8_t *area, size_t row, uint64_t permission, uint64_t denied, size_t count, const uint64_t *open);

#endif
