/* The yardstick: the Rules' calls in plain C, to compare the library's answers, bytes and instructions with. */
#ifndef YARDSTICK_H
#define YARDSTICK_H

#include <stdbool.h>
#include <stddef.h>
#include <stdint.h>

/* The kinds of event: the replies, on a set, come before the updates, on a role. */
enum { YARDSTICK_DENY = 0, YARDSTICK_ALLOW = 1, YARDSTICK_WITHDRAWN = 2, YARDSTICK_GIVEN = 3 };

/* What decide gives; the library's type has the same fields. */
struct yardstick_decided {
    uint32_t answer, role;
};

uint32_t yardstick_open(uint8_t *area, size_t len, uint64_t role_count, uint32_t state);
uint32_t yardstick_event(uint8_t *area, size_t len, uint32_t permission, uint64_t kind, uint64_t number,
                         uint32_t state);
struct yardstick_decided yardstick_decide(const uint8_t *area, size_t len, uint32_t permission, uint64_t set);
uint32_t yardstick_forget(uint8_t *area, size_t len, uint32_t permission);

/* What the sheet gives; the library's type has the same fields. */
struct yardstick_written {
    uint32_t answer, bytes;
};

struct yardstick_written yardstick_sheet(const uint8_t *area, size_t len, const uint8_t *works, size_t works_len,
                                         const uint8_t *standard, size_t standard_len, uint32_t permission,
                                         uint64_t session, uint8_t *out, size_t out_len);

/* Whether the bytes obey every layout rule. */
bool yardstick_good(const uint8_t *area, size_t len);

#endif
