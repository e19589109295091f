/* The second printer: an area as lines, by the Rules alone. It reads the area's bytes by the layout, and shares nothing
 * with the library. Each function adds to what is there. */
#ifndef PRINTER_H
#define PRINTER_H

#include "bytes.h"

/* `O n state`. */
void put_open_line(struct bytes *out, const uint8_t *area);

/* Of a used row `D p set state`, if something is denied, and `A p set state` for each open set. */
void put_row_lines(struct bytes *out, const uint8_t *area, size_t row);

/* What S shows of a used row. */
void put_shown_row(struct bytes *out, const uint8_t *area, size_t row);

#endif
