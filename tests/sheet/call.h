/* What the tests lend to the sheet, and one call of it: answer, count, every byte of the buffer and around it. */
#ifndef CALL_H
#define CALL_H

#include "bytes.h"
#include "names.h"
#include "printer.h"
#include "second.h"

#include <stdbool.h>

/* From the Rules, not from the header. */
enum {
    BYTES = SECOND_BYTES,
    ROWS = SECOND_ROWS,
    OPENS = SECOND_OPENS,
    ROLES = SECOND_MOST_ROLES,
    ROOM = SHEET_ROOM,
    LONGEST = 31250, /* bytes of the longest sheet: 945 names of 32 bytes, 14 times ` ;`, and the words */
    MOST_ROOM = 3 * ROOM,
    MOST_SHIFT = 16
};

#define BIT(role) (UINT64_C(1) << (role))
#define COUNT(list) (sizeof(list) / sizeof(list)[0])

/* Whether less is to be run. */
extern bool few;

/* ---- what is lent */

extern uint8_t area[BYTES];
extern struct names works, standard;

/* Whether the area is good, by the second program's word, and its role count: as of the last look. */
extern bool good;
extern uint64_t n;
void look(void);

uint64_t all_below(uint64_t count);

/* An area of so many roles; rows come by rising permission. */
void start_area(uint64_t count);
void add_row(uint32_t permission, uint64_t denied, size_t count, const uint64_t *open);
void end_area(void);

/* Only one row, of permission 5. */
void single_row(uint64_t count, uint64_t denied, size_t opens, const uint64_t *open);

/* 64 roles, and for permission 5 as many open sets as there can be, each of 63 roles. */
void longest_row(void);

enum { PAGE = 65536 };

/* Memory that ends where other memory begins which nobody may touch: going on there ends this program. */
uint8_t *end_of_memory(size_t bytes);

/* Area and tables stand so many bytes before such memory. */
extern size_t slack;

/* ---- one call */

/* The other arguments; shift is how far the buffer stands from an even address. */
struct request {
    size_t len;
    uint32_t permission;
    uint64_t session;
    size_t room, shift;
};

struct request ask(uint32_t permission, uint64_t session);

/* Each makes a call, and returns how many bytes are to be written: by the second printer, by what a sheet must say, by
 * its bytes, by a text of permission and session, by a refusal. */
size_t compare(struct request request);
size_t expect_sheet(const struct request *request, const struct sheet *sheet);
size_t expect_bytes(const struct request *request, const struct bytes *text);
size_t expect_text(uint32_t permission, uint64_t session, const char *text);
size_t expect_refusal(const struct request *request, uint32_t refusal);

/* The text of permission 5 and the session of role 0, by the second printer. */
const struct bytes *plain_text(void);

/* Whether every answer came up, each line with and without names, and each verdict. */
void check_what_came_up(void);

#endif
