#include "bytes.h"

#include <stdarg.h>
#include <stdio.h>
#include <stdlib.h>
#include <string.h>

static void make_room(struct bytes *bytes, size_t count)
{
    if (bytes->room - bytes->count > count)
        return;
    bytes->room = 2 * (bytes->count + count) + 64;
    bytes->at = realloc(bytes->at, bytes->room);
    if (!bytes->at)
        abort();
}

void clear(struct bytes *bytes)
{
    make_room(bytes, 0);
    bytes->count = 0;
    bytes->at[0] = 0;
}

void put(struct bytes *bytes, const void *from, size_t count)
{
    make_room(bytes, count);
    memcpy(bytes->at + bytes->count, from, count);
    bytes->count += count;
    bytes->at[bytes->count] = 0;
}

void put_again(struct bytes *bytes, uint8_t byte, size_t times)
{
    make_room(bytes, times);
    memset(bytes->at + bytes->count, byte, times);
    bytes->count += times;
    bytes->at[bytes->count] = 0;
}

void putf(struct bytes *bytes, const char *format, ...)
{
    char text[512];
    va_list arguments;
    va_start(arguments, format);
    int count = vsnprintf(text, sizeof text, format, arguments);
    va_end(arguments);
    if (count < 0 || (size_t)count >= sizeof text)
        abort();
    put(bytes, text, (size_t)count);
}

void put_set(struct bytes *bytes, uint64_t set)
{
    const char *before = "";
    if (set == 0)
        putf(bytes, "-");
    for (unsigned role = 0; role < 64; role++) {
        if (set >> role & 1) {
            putf(bytes, "%s%u", before, role);
            before = ",";
        }
    }
}
