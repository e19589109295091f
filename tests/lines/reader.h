/* The second side's own reader of lines: what the Rules have the line program print for a stream of bytes.
 * Answers and rows come from the second program, which enumerates the holder sets of 6 roles. More roles are within its
 * reach where the events on a permission tell at most 6 groups of them apart: a group then stands for one of its 6. */
#ifndef READER_H
#define READER_H

#include "bytes.h"

#include <stdbool.h>

enum { LONGEST_LINE = 216 };

struct line {
    char letter;     /* 0: it doesn't read */
    uint64_t number; /* role count or permission */
    uint64_t set;    /* a role of G and R as the set of it alone */
    uint64_t state;  /* of O, A, D, G and R */
};

/* Reads a line without its LF. */
struct line read_line(const uint8_t *at, size_t count);

/* Writes what must be printed. False if the stream is out of reach. */
bool expect(const struct bytes *in, struct bytes *out);

/* A line without its LF, for messages and for comparing line by line; returns where the next one starts. */
size_t line_at(const struct bytes *in, size_t start, size_t *count);

#endif
