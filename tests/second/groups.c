#include "groups.h"

#include <stdarg.h>
#include <stdio.h>

enum { SHOWN = 5 };

static const char *name;
static unsigned long checks, failures;
static unsigned passed, failed;

static void end(void)
{
    if (!name)
        return;
    bool good = checks > 0 && failures == 0;
    printf("%s: %s: %lu compared", good ? "passed" : "FAILED", name, checks);
    if (failures)
        printf(", %lu differ", failures);
    printf("\n");
    fflush(stdout);
    if (good)
        passed++;
    else
        failed++;
}

void group(const char *next)
{
    end();
    name = next;
    checks = 0;
    failures = 0;
}

bool check(bool holds, const char *format, ...)
{
    checks++;
    if (holds)
        return true;
    if (failures++ < SHOWN) {
        va_list arguments;
        va_start(arguments, format);
        printf("  %s: ", name);
        vprintf(format, arguments);
        printf("\n");
        va_end(arguments);
    }
    return false;
}

int finish(void)
{
    end();
    printf("%u passed, %u failed\n", passed, failed);
    return failed != 0;
}

uint64_t any(void)
{
    static uint64_t state = UINT64_C(88172645463325252);
    state ^= state << 13;
    state ^= state >> 7;
    state ^= state << 17;
    return state;
}

uint64_t any_below(uint64_t bound)
{
    return (any() >> 11) % bound;
}
