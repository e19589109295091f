/* The Rules' steps and verdicts for replies, with a row for every permission and no limit on open sets. */
#ifndef UNLIMITED_H
#define UNLIMITED_H

#include <stddef.h>
#include <stdint.h>

/* One reply adds at most one open set, so a row with room for all replies about its permission never overflows. */
enum { UNLIMITED_OPENS = 200 };

struct unlimited_row {
    uint64_t denied;
    size_t count;
    uint64_t open[UNLIMITED_OPENS]; /* none part of another */
};

void unlimited_deny(struct unlimited_row *row, uint64_t set);
void unlimited_allow(struct unlimited_row *row, uint64_t set);

/* 10, 11 or 12. */
uint32_t unlimited_decide(const struct unlimited_row *row, uint64_t set);

#endif
