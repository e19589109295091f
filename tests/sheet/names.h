/* Name tables, written, read and judged by the Rules alone. They share nothing with the library. */
#ifndef NAMES_H
#define NAMES_H

#include "bytes.h"

#include <stdbool.h>

enum {
    NAMES_ROLES = 64,
    NAMES_CONTENTS = 256, /* bytes of the pairs */
    NAMES_LONGEST = 32,
    NAMES_REACH = 65535 + NAMES_LONGEST, /* bytes of a table that names can use */
    NAMES_BYTES = 70000                  /* of the largest table here */
};

/* A table of so many bytes; whatever stands behind them is none of it. */
struct names {
    size_t count;
    uint8_t at[NAMES_BYTES];
};

/* A table of its contents alone, in which no role has a name. */
void names_clear(struct names *names);

/* Start and length, of which the pair has the lowest 16 bits. */
void names_put_pair(struct names *names, unsigned role, size_t start, size_t length);
size_t names_start(const struct names *names, unsigned role);
size_t names_length(const struct names *names, unsigned role);

/* Puts a name behind all that is there. */
void names_add(struct names *names, unsigned role, const void *name, size_t length);

/* Whether the sheet takes a table: 17 is its answer where this is false. */
bool names_good(const struct names *names);

/* What stands on the sheet for a role, by good tables. */
void put_role(struct bytes *out, unsigned role, const struct names *works, const struct names *standard);

#endif
