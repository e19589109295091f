/* Lent areas and name tables of a known fill, to count the instructions of a call on them. */
#ifndef MEASURE_AREAS_H
#define MEASURE_AREAS_H

#include <stddef.h>
#include <stdint.h>

enum {
    MOST_ROWS = 128,
    MOST_OPENS = 15,
    BODY_WORDS = 16,
    STATE_AT = 2,
    CONTENTS_AT = 3,
    BODIES_AT = 259,
    AREA_WORDS = 2307,
    AREA_BYTES = 8 * AREA_WORDS,
    NAMED_ROLES = 64,
    NAMES_AT = 4 * NAMED_ROLES,
    MOST_NAME = 32,
    TABLE_BYTES = NAMES_AT + NAMED_ROLES * MOST_NAME
};

/* OWN: each open set is one role that no other set of its row has.
 * PAIRS: the open sets are all pairs of few roles, so no set has a role of its own.
 * TURNED: each open set has two roles of its own; without the upper ones the sets stand in falling order.
 * CROSSED: two neighbours together have all roles of the sets before them, an even number of sets from the last on.
 * STAR: all open sets have their lowest role in common, so an allow on it takes the place of all.
 * LONG: each open set has all roles but one, and nothing is denied: sets that are long in print. */
enum kind { OWN, PAIRS, TURNED, CROSSED, STAR, LONG };

/* Roles that no filled row denies and, but for LONG, no open set has: one below, one above those of all open sets. */
#define LOWEST_ROLE 0
#define FREE_ROLE 47

/* The policy state of a filled area: replies on it name this one, updates the next. */
#define FILLED_STATE 7

/* Role count 64, row i has the permission permission_of(i); rows at most MOST_ROWS, opens at most MOST_OPENS, and for
 * LONG at least 1. */
void fill(uint8_t *area, unsigned rows, unsigned opens, enum kind kind);

/* Even numbers from 2 on: a new permission may then stand before, between or behind those with a row. */
uint32_t permission_of(unsigned i);

/* Roles that a deny reply strikes out of row i's open sets: of TURNED the upper one of each set, of PAIRS the
 * highest one, of OWN none. */
uint64_t strikable(unsigned i, unsigned opens, enum kind kind);

uint64_t word(const uint8_t *area, size_t at);

/* The place of row i's permission, and of its denied set, which its open sets follow. */
size_t contents_at(size_t i);
size_t body_at(size_t i);

/* A name table of TABLE_BYTES: every role has a name of so many bytes, for 0 none. */
void fill_names(uint8_t *table, size_t length);

#endif
