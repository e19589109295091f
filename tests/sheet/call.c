#define _DEFAULT_SOURCE
#include "call.h"

#include "groups.h"
#include "wickthrush.h"

#include <stdio.h>
#include <stdlib.h>
#include <string.h>
#include <sys/mman.h>

bool few;

/* ---- what is lent */

uint8_t area[BYTES];
struct names works, standard;
bool good;
uint64_t n;

void look(void)
{
    good = second_good(area);
    n = second_word(area, 0);
}

uint64_t all_below(uint64_t count)
{
    return UINT64_MAX >> (ROLES - count);
}

void start_area(uint64_t count)
{
    memset(area, 0, BYTES);
    second_put(area, 0, count);
}

void add_row(uint32_t permission, uint64_t denied, size_t count, const uint64_t *open)
{
    size_t row = (size_t)second_word(area, 1);
    second_put(area, 1, row + 1);
    second_put_row(area, row, permission, denied, count, open);
}

void end_area(void)
{
    look();
    check(good, "the area is bad");
}

void single_row(uint64_t count, uint64_t denied, size_t opens, const uint64_t *open)
{
    start_area(count);
    add_row(5, denied, opens, open);
    end_area();
}

void longest_row(void)
{
    uint64_t open[OPENS];
    for (size_t k = 0; k < OPENS; k++)
        open[k] = ~BIT(OPENS - 1 - k);
    single_row(ROLES, 0, OPENS, open);
}

uint8_t *end_of_memory(size_t bytes)
{
    size_t pages = (bytes + PAGE - 1) / PAGE * PAGE;
    uint8_t *start = mmap(NULL, pages + PAGE, PROT_NONE, MAP_PRIVATE | MAP_ANONYMOUS, -1, 0);
    if (start == MAP_FAILED || mprotect(start, pages, PROT_READ | PROT_WRITE) != 0)
        abort();
    for (size_t i = 0; i < pages; i++)
        start[i] = (uint8_t)any();
    return start + pages;
}

enum { MOST_SLACK = 64 };
size_t slack = MOST_SLACK;

/* A copy of what is lent, at the end of its memory. */
static const uint8_t *lend(uint8_t **end, const void *from, size_t count, size_t most)
{
    if (*end == NULL)
        *end = end_of_memory(most + MOST_SLACK);
    return memcpy(*end - slack - count, from, count);
}

/* ---- one call */

struct request ask(uint32_t permission, uint64_t session)
{
    return (struct request){BYTES, permission, session, ROOM, 0};
}

static uint32_t answer_to(const struct request *request)
{
    if (request->len != BYTES || !good)
        return 1;
    if (!names_good(&works) || !names_good(&standard))
        return 17;
    if (request->permission == 0)
        return 3;
    if ((request->session & ~all_below(n)) != 0)
        return 4;
    return request->room < ROOM ? 16 : 0;
}

/* The buffer stands between guard bytes. */
enum { GUARD = 512, SALTS = 256 };
static uint8_t memory[GUARD + MOST_SHIFT + MOST_ROOM + GUARD], wanted[sizeof memory];

/* Puts bytes into both that are not those of the call before. */
static void fill_memory(size_t count)
{
    static uint8_t pattern[sizeof memory + SALTS];
    static bool filled;
    for (size_t i = 0; i < sizeof pattern && !filled; i++)
        pattern[i] = (uint8_t)any();
    filled = true;
    size_t salt = any_below(SALTS);
    memcpy(memory, pattern + salt, count);
    memcpy(wanted, pattern + salt, count);
}

enum { ANSWERS = 20 };
static unsigned long times[ANSWERS];

static void expect(const struct request *request, uint32_t answer, const struct bytes *text)
{
    static uint8_t *area_end, *works_end, *standard_end;
    const uint8_t *a = lend(&area_end, area, BYTES, BYTES), *w = lend(&works_end, works.at, works.count, NAMES_BYTES),
                  *s = lend(&standard_end, standard.at, standard.count, NAMES_BYTES);
    size_t place = GUARD + request->shift, span = place + request->room + GUARD;
    fill_memory(span);
    memcpy(wanted + place, text->at, text->count);

    wickthrush_written written = wickthrush_sheet(a, request->len, w, works.count, s, standard.count,
                                                  request->permission, request->session, memory + place, request->room);

    times[answer]++;
    check(
        written.answer == answer && written.bytes == text->count,
        "length %zu, tables of %zu and %zu, permission %lu, session %#llx, room %zu: %lu with %lu bytes, not %lu, %zu",
        request->len, works.count, standard.count, (unsigned long)request->permission,
        (unsigned long long)request->session, request->room, (unsigned long)written.answer,
        (unsigned long)written.bytes, (unsigned long)answer, text->count);
    size_t i = 0;
    if (memcmp(memory, wanted, span) == 0)
        i = span;
    while (i < span && memory[i] == wanted[i])
        i++;
    check(i == span, "answer %lu, a text of %zu bytes: other bytes from byte %lld of the buffer on",
          (unsigned long)answer, text->count, (long long)i - (long long)place);
    check(memcmp(a, area, BYTES) == 0, "the area changed");
    check(memcmp(w, works.at, works.count) == 0 && memcmp(s, standard.at, standard.count) == 0, "a table changed");
}

/* What the sheets had that were printed. */
static unsigned long with_denied, with_proved, with_open, with_opens, verdicts[UNDECIDED + 1];

size_t expect_sheet(const struct request *request, const struct sheet *sheet)
{
    static struct bytes text;
    clear(&text);
    put_sheet(&text, sheet, &works, &standard);
    with_denied += sheet->denied != 0;
    with_proved += sheet->proved != 0;
    with_open += sheet->count == 1;
    with_opens += sheet->count > 1;
    verdicts[sheet->verdict]++;
    return expect_bytes(request, &text);
}

size_t expect_bytes(const struct request *request, const struct bytes *text)
{
    expect(request, 0, text);
    return text->count;
}

size_t expect_text(uint32_t permission, uint64_t session, const char *text)
{
    static struct bytes bytes;
    struct request request = ask(permission, session);
    clear(&bytes);
    put(&bytes, text, strlen(text));
    return expect_bytes(&request, &bytes);
}

size_t expect_refusal(const struct request *request, uint32_t refusal)
{
    static struct bytes nothing;
    clear(&nothing);
    expect(request, refusal, &nothing);
    return 0;
}

size_t compare(struct request request)
{
    uint32_t answer = answer_to(&request);
    if (answer != 0)
        return expect_refusal(&request, answer);
    struct sheet sheet = sheet_of_area(area, request.permission, request.session);
    return expect_sheet(&request, &sheet);
}

const struct bytes *plain_text(void)
{
    static struct bytes text;
    struct sheet sheet = sheet_of_area(area, 5, 1);
    clear(&text);
    put_sheet(&text, &sheet, &works, &standard);
    return &text;
}

void check_what_came_up(void)
{
    for (uint32_t answer = 0; answer < ANSWERS; answer++) {
        bool given = answer == 0 || answer == 1 || answer == 3 || answer == 4 || answer == 16 || answer == 17;
        check(given ? times[answer] > 100 : times[answer] == 0, "answer %lu, %lu times", (unsigned long)answer,
              times[answer]);
        if (given)
            printf("  answer %lu: %lu times\n", (unsigned long)answer, times[answer]);
    }
    printf("  sheets with denied roles: %lu; with proved ones: %lu; with one open set: %lu; with more: %lu\n",
           with_denied, with_proved, with_open, with_opens);
    printf("  sheets that deny: %lu; that allow: %lu; undecided: %lu\n", verdicts[DENY], verdicts[ALLOW],
           verdicts[UNDECIDED]);
    check(with_denied > 500 && with_proved > 500 && with_open > 500 && with_opens > 500, "a line is too rare");
    check(verdicts[DENY] > 500 && verdicts[ALLOW] > 500 && verdicts[UNDECIDED] > 500, "a verdict is too rare");
}
