/* Runs the line program as a child, on bytes that come in a chosen way. */
#ifndef RUN_H
#define RUN_H

#include "bytes.h"

#include <stdbool.h>

/* The words that start the program; NULL ends them. */
extern char **program;

/* How input comes: all at once from a file, or by a pipe in pieces of 1 to `most` bytes with pauses after the first. */
struct feed {
    size_t most; /* 0: from a file */
    unsigned pauses;
};

struct ended {
    bool in_time;
    int status; /* as waitpid has it */
    double seconds;
};

/* Runs it to its end. What it says on standard error goes to `said`. */
struct ended run(const struct bytes *in, struct feed feed, struct bytes *out, struct bytes *said);

/* Runs it on a pipe that holds these bytes, 64 KiB at most, and has no end: behind them a read fails. */
struct ended run_dry(const struct bytes *in, struct bytes *out, struct bytes *said);

/* Runs it on the same bytes again and again without end, reads one line of output and closes that side.
 * `ignore`: the signal of a closed pipe is ignored, so that the write itself fails. */
struct ended run_and_leave(const struct bytes *in, bool ignore);

/* Runs it with output to a device that takes nothing. */
struct ended run_on_full_device(const struct bytes *in);

#endif
