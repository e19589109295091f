#include "names.h"

#include <string.h>

enum { PAIR = 4 };

static void put_half(uint8_t *at, size_t value)
{
    at[0] = (uint8_t)value;
    at[1] = (uint8_t)(value >> 8);
}

static size_t half(const uint8_t *at)
{
    return at[0] + 256 * (size_t)at[1];
}

void names_clear(struct names *names)
{
    memset(names->at, 0, NAMES_CONTENTS);
    names->count = NAMES_CONTENTS;
}

void names_put_pair(struct names *names, unsigned role, size_t start, size_t length)
{
    put_half(names->at + PAIR * role, start);
    put_half(names->at + PAIR * role + 2, length);
}

size_t names_start(const struct names *names, unsigned role)
{
    return half(names->at + PAIR * role);
}

size_t names_length(const struct names *names, unsigned role)
{
    return half(names->at + PAIR * role + 2);
}

void names_add(struct names *names, unsigned role, const void *name, size_t length)
{
    names_put_pair(names, role, names->count, length);
    memcpy(names->at + names->count, name, length);
    names->count += length;
}

static bool good_pair(const struct names *names, unsigned role)
{
    size_t start = names_start(names, role), length = names_length(names, role);
    return length == 0 || (length <= NAMES_LONGEST && start + length <= names->count);
}

bool names_good(const struct names *names)
{
    if (names->count < NAMES_CONTENTS)
        return false;
    for (unsigned role = 0; role < NAMES_ROLES; role++)
        if (!good_pair(names, role))
            return false;
    return true;
}

void put_role(struct bytes *out, unsigned role, const struct names *works, const struct names *standard)
{
    const struct names *from = names_length(works, role) != 0 ? works : standard;
    if (names_length(from, role) != 0)
        put(out, from->at + names_start(from, role), names_length(from, role));
    else
        putf(out, "%u", role);
}
