/* The second printer of sheets, by the Rules alone. It reads an area's bytes by the layout, decides by itself, and
 * shares nothing with the library. */
#ifndef PRINTER_H
#define PRINTER_H

#include "names.h"
#include "second.h"

enum { SHEET_ROOM = 36864 /* the fewest bytes of a buffer for a sheet */ };

enum verdict { DENY, ALLOW, UNDECIDED };

/* What a sheet says. */
struct sheet {
    uint64_t denied, proved;
    size_t count;
    uint64_t open[SECOND_MINIMAL]; /* of more than one role each */
    enum verdict verdict;
};

/* Read off the row that a permission has in a good area. */
struct sheet sheet_of_area(const uint8_t *area, uint32_t permission, uint64_t session);

/* Read off the possible holder sets of a permission with n roles: no row and no step is in it. */
struct sheet sheet_of_possible(second_sets possible, uint64_t n, uint64_t session);

/* The four lines. */
void put_sheet(struct bytes *out, const struct sheet *sheet, const struct names *works, const struct names *standard);

#endif
