/* Checks in named groups: a group passes if it has checks and none fails. */
#ifndef GROUPS_H
#define GROUPS_H

#include <stdbool.h>
#include <stdint.h>

/* Ends the group before, and starts one. */
void group(const char *name);

/* Counts a check; the first failures of a group are printed. Returns whether it held. */
bool check(bool holds, const char *format, ...) __attribute__((format(printf, 2, 3)));

/* Ends the last group, prints 'N passed, M failed', and returns the exit status. */
int finish(void);

/* Numbers that look random and are the same in every run. */
uint64_t any(void);
uint64_t any_below(uint64_t bound);

#endif
