/* Makes streams of lines, good and bad ones, the same in every run. Each maker adds to what is there. */
#ifndef STREAMS_H
#define STREAMS_H

#include "bytes.h"

/* Up to 6 roles and 8 permissions; one line in seven is spoiled. */
void put_small(struct bytes *in, size_t lines);

/* 6 roles, and replies on three of them: rows come to 15 open sets and past that. */
void put_many_sets(struct bytes *in, size_t lines);

/* 200 permissions: the 128 rows are used up and given back. */
void put_many_rows(struct bytes *in, size_t lines);

/* 7 to 64 roles, with long sets. */
void put_wide(struct bytes *in, size_t lines);

/* An area of 64 roles with 128 rows, each of 15 open sets that 6 groups of roles give. */
void put_full_area(struct bytes *in);

/* Lines that are nearly right: every field edge, every short line, every byte in every place. */
void put_edges(struct bytes *in);
void put_short_lines(struct bytes *in);
void put_every_byte(struct bytes *in);

/* Lines around 216 bytes and far longer ones, good lines before, in and behind them. */
void put_long_lines(struct bytes *in);

/* The longest line that reads: allow, decide and so on, on a long permission, all 64 roles and a long state. */
void put_longest(struct bytes *in, char letter);

/* Fills up to `upto` bytes in one of FILLERS ways, ending with LF. */
enum { FILLERS = 4 };
void put_filler(struct bytes *in, size_t upto, unsigned way);

#endif
