/* Bytes that grow as they are written. */
#ifndef BYTES_H
#define BYTES_H

#include <stddef.h>
#include <stdint.h>

struct bytes {
    uint8_t *at; /* followed by a NUL that is none of them */
    size_t count, room;
};

void clear(struct bytes *bytes);
void put(struct bytes *bytes, const void *from, size_t count);
void put_again(struct bytes *bytes, uint8_t byte, size_t times);
void putf(struct bytes *bytes, const char *format, ...) __attribute__((format(printf, 2, 3)));

/* A set of roles as the Rules write it. */
void put_set(struct bytes *bytes, uint64_t set);

#endif
