/* Areas, tables and requests by chance. */
#ifndef CHANCE_H
#define CHANCE_H

#include "call.h"

/* One role, few, half or nearly all of them. */
uint64_t any_set(uint64_t count);

/* An area of rows of any sets that the rules allow. */
void build_area(void);

/* Letters, any bytes, or those that mean something elsewhere. */
void spell(uint8_t *at, size_t count);

size_t any_length(void);

/* A table with names one behind the other, as a careful hand lays them out; some roles have none. */
void lay_out(struct names *names);

/* A table of so many bytes, and names anywhere in it: in the contents too, one over the other, up to the last byte. */
void scatter(struct names *names, size_t count);

/* Good tables of every kind; both tables, of which one in sixteen is bad. */
void any_names(struct names *names);
void any_tables(void);

/* Mostly of a row that the area has, and mostly not refused. */
struct request any_request(void);

#endif
