/* Holds the calls that print against the second printer: answers, counts, and every byte of the buffer and around it.
 * Feeds what they print to a fresh cache and to the line program.
 *   print all PROGRAM WORD ..   every group; `few` in the place of `all` runs less, for an emulator */
#define _DEFAULT_SOURCE
#include "bytes.h"
#include "damage.h"
#include "groups.h"
#include "printer.h"
#include "reader.h"
#include "run.h"
#include "second.h"
#include "wickthrush.h"

#include <signal.h>
#include <stdio.h>
#include <stdlib.h>
#include <string.h>
#include <sys/mman.h>

/* From the Rules, not from the header. */
enum {
    BYTES = SECOND_BYTES,
    ROWS = SECOND_ROWS,
    OPENS = SECOND_OPENS,
    ROLES = SECOND_MOST_ROLES,
    ROOM = SECOND_ROOM,
    LONGEST = 3055 /* bytes of the longest row: ten of its sets lack a role of one digit, five one of two */
};

#define BIT(role) (UINT64_C(1) << (role))
#define COUNT(list) (sizeof(list) / sizeof(list)[0])

static bool few;

/* ---- one call */

/* The area to print. Whether it is good, and how many rows it has, is the second program's word. */
static uint8_t area[BYTES];
static bool good;
static uint64_t used;

static void look(void)
{
    good = second_good(area);
    used = second_word(area, 1);
}

/* The buffer stands between guard bytes, and has room for more than is asked for. */
enum { GUARD = 512, MOST_ROOM = 3 * ROOM };
static uint8_t memory[GUARD + MOST_ROOM + GUARD], wanted[sizeof memory];

enum { ANSWERS = 19 };
static unsigned long times[ANSWERS];
static size_t longest;

/* The O line is asked for as a row of its own. */
struct what {
    bool open;
    uint64_t row;
};

static const struct what open_line = {true, 0};

static struct what row_of(uint64_t row)
{
    return (struct what){false, row};
}

static uint32_t answer_of(struct what what, size_t len, size_t room)
{
    if (len != BYTES || !good)
        return 1;
    if (!what.open && what.row >= used)
        return 18;
    return room < ROOM ? 16 : 0;
}

static wickthrush_written print(const uint8_t *from, size_t len, struct what what, uint8_t *out, size_t room)
{
    return what.open ? wickthrush_print_open(from, len, out, room)
                     : wickthrush_print_row(from, len, what.row, out, room);
}

/* Makes a call into a buffer of `room` bytes at a place of the memory, and holds what comes of it against what must. */
static void compare_at(struct what what, size_t len, size_t place, size_t room)
{
    static uint8_t before[BYTES];
    static struct bytes text;
    uint32_t expected = answer_of(what, len, room);
    uint8_t salt = (uint8_t)any();
    for (size_t i = 0; i < sizeof memory; i++)
        memory[i] = wanted[i] = (uint8_t)(i * 7 + salt);
    clear(&text);
    if (expected == 0 && what.open)
        put_open_line(&text, area);
    else if (expected == 0)
        put_row_lines(&text, area, (size_t)what.row);
    if (text.count > longest)
        longest = text.count;
    check(text.count <= ROOM, "a text of %zu bytes", text.count);
    memcpy(wanted + place, text.at, text.count);
    memcpy(before, area, BYTES);

    wickthrush_written written = print(area, len, what, memory + place, room);

    const char *name = what.open ? "O line" : "row";
    times[expected]++;
    check(written.answer == expected && written.bytes == text.count,
          "%s %llu of %llu, length %zu, room %zu: %lu with %lu bytes instead of %lu with %zu", name,
          (unsigned long long)what.row, (unsigned long long)used, len, room, (unsigned long)written.answer,
          (unsigned long)written.bytes, (unsigned long)expected, text.count);
    size_t i = 0;
    while (i < sizeof memory && memory[i] == wanted[i])
        i++;
    check(i == sizeof memory, "%s %llu, answer %lu: other bytes from byte %lld of the buffer on", name,
          (unsigned long long)what.row, (unsigned long)expected, (long long)i - (long long)place);
    check(memcmp(area, before, BYTES) == 0, "the area changed");
}

static void compare(struct what what, size_t len, size_t room)
{
    compare_at(what, len, GUARD, room);
}

/* ---- what is asked of an area */

static const size_t rooms[] = {0, 1, 206, ROOM - 1, ROOM, ROOM + 1, 2 * ROOM, MOST_ROOM};

/* The O line and every row, and of each kind of row number and buffer some. */
static void compare_all(void)
{
    compare(open_line, BYTES, ROOM);
    for (uint64_t row = 0; row < used; row++)
        compare(row_of(row), BYTES, any_below(2) ? ROOM : ROOM + any_below(MOST_ROOM - ROOM));
    uint64_t row = used ? any_below(used) : 0;
    const uint64_t numbers[] = {0,       used - 1,      used,    used + 1,      127,
                                128,     255,           256,     256 + row,     BIT(31) + row,
                                BIT(32), BIT(32) + row, BIT(63), BIT(63) + row, UINT64_MAX};
    for (size_t k = 0; k < COUNT(numbers); k++)
        compare(row_of(numbers[k]), BYTES, ROOM);
    compare(row_of(numbers[any_below(COUNT(numbers))]), BYTES, rooms[any_below(COUNT(rooms))]);
    compare(open_line, BYTES, rooms[any_below(COUNT(rooms))]);
}

/* ---- a spare gateway */

static uint8_t spare[BYTES];

/* A line, read by the second side's reader and handed to the library: its answer, or 9 if it is none of a print. */
static uint32_t hand_over(const uint8_t *at, size_t count)
{
    struct line line = read_line(at, count);
    switch (line.letter) {
    case 'O': return wickthrush_open(spare, BYTES, line.number, (uint32_t)line.state);
    case 'D': return wickthrush_event(spare, BYTES, (uint32_t)line.number, SECOND_DENY, line.set, (uint32_t)line.state);
    case 'A':
        return wickthrush_event(spare, BYTES, (uint32_t)line.number, SECOND_ALLOW, line.set, (uint32_t)line.state);
    default: return 9;
    }
}

/* All that the library prints of the area, as a caller does it: rows from 0 on until there is none. */
static void print_whole(struct bytes *text)
{
    static uint8_t out[ROOM];
    clear(text);
    wickthrush_written written = wickthrush_print_open(area, BYTES, out, ROOM);
    for (uint64_t row = 0; written.answer == 0 && row <= ROWS; row++) {
        put(text, out, written.bytes < ROOM ? written.bytes : ROOM);
        written = wickthrush_print_row(area, BYTES, row, out, ROOM);
    }
    check(written.answer == 18, "behind the last row comes %lu", (unsigned long)written.answer);
}

struct span {
    size_t at, count;
};

/* Fills the spare: all lines are answered 0, and its bytes are those of the area.
 * `mixed`: the lines come in any order behind the first. */
static void compare_spare(const struct bytes *text, bool mixed)
{
    enum { MOST_LINES = 1 + ROWS * (1 + OPENS) };
    static struct span lines[MOST_LINES + 1];
    size_t count = 0;
    for (size_t at = 0, next; at < text->count && count <= MOST_LINES; at = next) {
        lines[count].at = at;
        next = line_at(text, at, &lines[count].count);
        count++;
    }
    if (!check(count >= 1 && count <= MOST_LINES && text->at[text->count - 1] == '\n', "not the lines of an area"))
        return;
    for (size_t i = count - 1; mixed && i > 1; i--) {
        size_t k = 1 + any_below(i);
        struct span other = lines[i];
        lines[i] = lines[k];
        lines[k] = other;
    }
    for (size_t i = 0; i < BYTES; i++)
        spare[i] = (uint8_t)any();
    for (size_t i = 0; i < count; i++) {
        const uint8_t *at = text->at + lines[i].at;
        uint32_t answer = hand_over(at, lines[i].count);
        check(answer == 0, "'%.*s' is answered %lu", (int)lines[i].count, (const char *)at, (unsigned long)answer);
    }
    check(memcmp(spare, area, BYTES) == 0, "the spare has other bytes than the area of %llu rows",
          (unsigned long long)used);
}

static void compare_spares(void)
{
    static struct bytes text;
    print_whole(&text);
    compare_spare(&text, false);
    compare_spare(&text, true);
}

/* The line program answers 0 to each line, and then shows the rows. */
static void compare_program(void)
{
    static struct bytes text, want, got, said;
    size_t number = 0, count;
    print_whole(&text);
    putf(&text, "S\n");
    clear(&want);
    for (size_t at = 0; at < text.count; at = line_at(&text, at, &count))
        putf(&want, "%zu 0\n", ++number);
    for (size_t row = 0; row < used; row++)
        put_shown_row(&want, area, row);
    struct ended ended = run(&text, (struct feed){0, 0}, &got, &said);
    check(ended.in_time && ended.status == 0 && said.count == 0, "the line program ended with %#x",
          (unsigned)ended.status);
    check(got.count == want.count && memcmp(got.at, want.at, want.count) == 0,
          "it shows other rows than the %llu of the area", (unsigned long long)used);
}

/* ---- areas */

/* States of every number of digits, the first and the last among them. */
static uint32_t any_state(void)
{
    static const uint32_t edges[] = {0, 1, 9, 10, 99, 100, 999999999, 1000000000, UINT32_MAX - 1, UINT32_MAX};
    return any_below(2) ? edges[any_below(COUNT(edges))] : (uint32_t)(any() >> (32 + any_below(32)));
}

static void open_area(uint64_t n)
{
    for (size_t i = 0; i < BYTES; i++)
        area[i] = (uint8_t)any();
    check(wickthrush_open(area, BYTES, n, any_state()) == 0, "open with %llu roles", (unsigned long long)n);
    look();
}

/* An event in time: the area says which state it has to name. */
static uint32_t event(uint32_t permission, uint64_t kind, uint64_t number)
{
    uint32_t state = (uint32_t)second_word(area, SECOND_STATE_AT);
    return wickthrush_event(area, BYTES, permission, kind, number, kind < SECOND_WITHDRAWN ? state : state + 1);
}

static uint64_t all_below(uint64_t n)
{
    return UINT64_MAX >> (ROLES - n);
}

/* One role, few, half or nearly all of them. */
static uint64_t any_set(uint64_t n)
{
    uint64_t set = any();
    switch (any_below(5)) {
    case 0: set = BIT(any_below(n)); break;
    case 1: set = BIT(any_below(n)) | BIT(any_below(n)); break;
    case 2: set &= any() & any(); break;
    case 3: set |= any() | any(); break;
    default: break;
    }
    return set & all_below(n);
}

static uint32_t any_permission(uint64_t count)
{
    static const uint32_t edges[] = {1, 9, 10, 99, 100, 999999999, 1000000000, UINT32_C(1) << 31, UINT32_MAX};
    uint64_t k = any_below(count);
    return k < COUNT(edges) ? edges[k] : (uint32_t)(k * UINT64_C(2654435761)) | 1;
}

/* An area as a stream of replies, updates and forgets leaves it; refused ones are part of a stream. */
static void random_area(uint64_t n)
{
    static const uint64_t most[] = {2, 20, 20, 300};
    uint64_t permissions = 1 + any_below(most[any_below(COUNT(most))]);
    bool allows = any_below(2), pairs = permissions < 3;
    open_area(n);
    for (uint64_t calls = 1 + any_below(any_below(4) ? 80 : 600); calls > 0; calls--) {
        uint32_t permission = any_permission(permissions), answer;
        uint64_t dice = any_below(20);
        if (dice < 2)
            answer = event(permission, SECOND_WITHDRAWN + any_below(2), any_below(n));
        else if (dice < 3)
            answer = wickthrush_forget(area, BYTES, permission);
        else if (pairs && dice < 19)
            answer = event(permission, SECOND_ALLOW, BIT(any_below(n)) | BIT(any_below(n)));
        else
            answer = event(permission, dice > (allows ? 4 : 11) ? SECOND_ALLOW : SECOND_DENY, any_set(n));
        /* behind the last state an update is late */
        check(answer == 0 || (answer >= 6 && answer <= 8) || (answer == 13 && dice < 2), "the stream is answered %lu",
              (unsigned long)answer);
    }
    look();
    check(good, "the stream leaves a bad area");
}

/* 128 rows of 15 open sets, the last permissions there are. Each set lacks one role, so none is part of another. */
enum full { LONGEST_ROWS, WITH_DENIED, ONE_ROLE };

static void full_area(enum full full)
{
    memset(area, 0, BYTES);
    second_put(area, 0, ROLES);
    second_put(area, 1, ROWS);
    second_put(area, SECOND_STATE_AT, full == ONE_ROLE ? 0 : UINT32_MAX);
    for (size_t row = 0; row < ROWS; row++) {
        uint64_t open[OPENS], denied = full == LONGEST_ROWS ? 0 : BIT(15 + row % 49);
        for (size_t k = 0; k < OPENS; k++)
            open[k] = full == ONE_ROLE ? BIT(k) : ~BIT(OPENS - 1 - k) & ~denied;
        second_put_row(area, row, UINT32_MAX - (ROWS - 1) + row, denied, OPENS, open);
    }
    look();
    check(good, "the full area is bad");
}

/* ---- groups */

static void empty_areas(void)
{
    group("empty areas of 1 to 64 roles");
    for (uint64_t n = 1; n <= ROLES; n++) {
        open_area(n);
        check(good && used == 0, "an empty area is bad");
        compare_all();
        compare_spares();
    }
}

static unsigned long only_denied, only_open, both, full_rows;

static void count_rows(void)
{
    for (size_t row = 0; row < used; row++) {
        bool denies = second_word(area, second_denied_at(row)) != 0;
        uint64_t opens = second_word(area, second_count_at(row));
        *(opens == 0 ? &only_denied : denies ? &both : &only_open) += 1;
        full_rows += opens == OPENS;
    }
}

static void random_areas(void)
{
    group("areas of random streams, of 1 to 64 roles, against the second printer");
    for (unsigned round = 0; round < (few ? 2 : 30); round++) {
        for (uint64_t n = 1; n <= ROLES; n++) {
            random_area(n);
            count_rows();
            compare_all();
        }
    }
    printf("rows: %lu with a denied set alone, %lu with open sets alone, %lu with both; %lu with 15 open sets\n",
           only_denied, only_open, both, full_rows);
    check(only_denied > 50 && only_open > 50 && both > 50 && full_rows > 5, "a kind of row is too rare");
}

static void random_spares(void)
{
    group("what is printed of such areas, taken by a fresh cache: all answers 0, the same bytes, in any order");
    for (unsigned round = 0; round < (few ? 2 : 30); round++) {
        for (uint64_t n = 1; n <= ROLES; n++) {
            random_area(n);
            compare_spares();
        }
    }
}

static void full_areas(void)
{
    group("128 rows of 15 open sets, 64 roles, the longest permissions");
    for (enum full full = LONGEST_ROWS; full <= ONE_ROLE; full++) {
        full_area(full);
        compare_all();
        compare_spares();
    }
    printf("the longest text of a call has %zu bytes\n", longest);
    check(longest == LONGEST, "it is not %d", LONGEST);
}

/* Rows by themselves: lines and their numbers of bytes are written down here. */
static void few_rows(void)
{
    static const uint64_t opens[] = {BIT(3), BIT(5) | BIT(6)};
    static const char *const texts[] = {"D 1 0 70\n", "A 9 3 70\nA 9 5,6 70\n",
                                        "D 10 1,2,4,7 70\nA 10 3 70\nA 10 5,6 70\n",
                                        "D 4294967295 0,1,2,3,4,5,6,7 70\n"};
    static uint8_t out[ROOM];
    group("rows of a denied set alone, of open sets alone, of both, of all roles");
    memset(area, 0, BYTES);
    second_put(area, 0, 8);
    second_put(area, 1, 4);
    second_put(area, SECOND_STATE_AT, 70);
    second_put_row(area, 0, 1, BIT(0), 0, NULL);
    second_put_row(area, 1, 9, 0, 2, opens);
    second_put_row(area, 2, 10, BIT(1) | BIT(2) | BIT(4) | BIT(7), 2, opens);
    second_put_row(area, 3, UINT32_MAX, 0xff, 0, NULL);
    look();
    check(good, "the area is bad");
    compare_all();
    compare_spares();
    for (size_t row = 0; row < COUNT(texts); row++) {
        wickthrush_written written = wickthrush_print_row(area, BYTES, row, out, ROOM);
        check(written.answer == 0 && written.bytes == strlen(texts[row]) && memcmp(out, texts[row], written.bytes) == 0,
              "row %zu is not '%s'", row, texts[row]);
    }
    wickthrush_written written = wickthrush_print_open(area, BYTES, out, ROOM);
    check(written.answer == 0 && written.bytes == 7 && memcmp(out, "O 8 70\n", 7) == 0, "the O line");
}

/* Every mix of a bad area, a wrong length, a row that is not there and a short buffer. */
static void order_of_refusals(void)
{
    group("order of refusals: 1, then 18, then 16");
    for (unsigned round = 0; round < 3; round++) {
        for (unsigned broken = 0; broken < 2; broken++) {
            if (round == 0)
                open_area(8);
            else if (round == 1)
                random_area(1 + any_below(ROLES));
            else
                full_area(WITH_DENIED);
            if (broken)
                area[round == 1 ? 0 : 15] ^= 0x80;
            look();
            check(good == !broken, "the area is not as it should be");
            uint64_t count = broken ? 0 : used;
            const uint64_t numbers[] = {0,   count - 1, count,       count + 1, 127,
                                        128, BIT(32),   BIT(32) + 1, BIT(63),   UINT64_MAX};
            for (size_t r = 0; r < COUNT(rooms); r++) {
                for (size_t l = 0; l <= SECOND_WRONG_LENGTHS; l++) {
                    size_t len = l < SECOND_WRONG_LENGTHS ? second_wrong_lengths[l] : BYTES;
                    compare(open_line, len, rooms[r]);
                    for (size_t k = 0; k < COUNT(numbers); k++)
                        compare(row_of(numbers[k]), len, rooms[r]);
                }
            }
        }
    }
    look();
    wickthrush_written nothing = wickthrush_print_open(NULL, 0, NULL, 0);
    check(nothing.answer == 1 && nothing.bytes == 0, "the O line of nothing");
    nothing = wickthrush_print_row(NULL, 0, 0, NULL, 0);
    check(nothing.answer == 1 && nothing.bytes == 0, "a row of nothing");
    full_area(ONE_ROLE);
    nothing = wickthrush_print_open(area, BYTES, NULL, 0);
    check(nothing.answer == 16 && nothing.bytes == 0, "the O line into nothing");
    nothing = wickthrush_print_row(area, BYTES, 0, NULL, 0);
    check(nothing.answer == 16 && nothing.bytes == 0, "a row into nothing");
    nothing = wickthrush_print_row(area, BYTES, ROWS, NULL, 0);
    check(nothing.answer == 18 && nothing.bytes == 0, "no row into nothing");
}

/* Areas with a few words changed: those that break a rule are refused, the others printed as they are now. */
static void changed_areas(void)
{
    unsigned long kept = 0, broken = 0;
    group("areas with changed words: 1 exactly where a rule of the layout is broken, whatever the row and the buffer");
    for (unsigned round = 0; round < (few ? 300 : 6000); round++) {
        if (round % 10 == 0)
            random_area(1 + any_below(ROLES));
        static uint8_t whole[BYTES];
        memcpy(whole, area, BYTES);
        size_t rows = used;
        for (uint64_t changes = 1 + any_below(2); changes > 0; changes--)
            damage(area, rows);
        look();
        *(good ? &kept : &broken) += 1;
        compare(open_line, BYTES, rooms[any_below(COUNT(rooms))]);
        compare(row_of(0), BYTES, ROOM);
        compare(row_of(any_below(ROWS + 2)), BYTES, rooms[any_below(COUNT(rooms))]);
        compare(row_of(any()), BYTES, rooms[any_below(COUNT(rooms))]);
        memcpy(area, whole, BYTES);
        look();
    }
    check(kept > 20 && broken > 100, "%lu good and %lu bad areas are too few", kept, broken);
}

static void alignments(void)
{
    group("buffers at every alignment");
    for (size_t shift = 0; shift < 16; shift++) {
        full_area(LONGEST_ROWS);
        compare_at(open_line, BYTES, GUARD + shift, ROOM);
        for (uint64_t row = 0; row < ROWS; row += 9)
            compare_at(row_of(row), BYTES, GUARD + shift, ROOM);
    }
}

/* Memory that nobody may touch stands right before or right behind the buffer; touching it ends this program. */
static void forbidden_memory(void)
{
    enum { PAGE = 65536 };
    group("forbidden memory around the buffer, and an area that can't be written");
    uint8_t *lent = mmap(NULL, 3 * PAGE, PROT_NONE, MAP_PRIVATE | MAP_ANONYMOUS, -1, 0);
    uint8_t *read_only = mmap(NULL, PAGE, PROT_READ | PROT_WRITE, MAP_PRIVATE | MAP_ANONYMOUS, -1, 0);
    if (!check(lent != MAP_FAILED && mprotect(lent + PAGE, PAGE, PROT_READ | PROT_WRITE) == 0, "no buffer") ||
        !check(read_only != MAP_FAILED, "no area"))
        return;
    uint8_t *from = read_only + PAGE - BYTES;
    full_area(LONGEST_ROWS);
    memcpy(from, area, BYTES);
    check(mprotect(read_only, PAGE, PROT_READ) == 0, "not protected");
    uint8_t *const places[] = {lent + PAGE, lent + 2 * PAGE - ROOM};
    static struct bytes text;
    for (size_t k = 0; k < COUNT(places); k++) {
        for (uint64_t row = 0; row <= ROWS; row++) {
            clear(&text);
            if (row < ROWS)
                put_row_lines(&text, area, (size_t)row);
            else
                put_open_line(&text, area);
            struct what what = row < ROWS ? row_of(row) : open_line;
            wickthrush_written written = print(from, BYTES, what, places[k], ROOM);
            check(written.answer == 0 && written.bytes == text.count && memcmp(places[k], text.at, text.count) == 0,
                  "row %llu", (unsigned long long)row);
        }
    }
    /* refused calls touch no byte, so the buffer may be forbidden too */
    check(print(from, BYTES, row_of(0), lent, ROOM - 1).answer == 16, "a short buffer that is forbidden");
    check(print(from, BYTES, row_of(ROWS), lent, ROOM).answer == 18, "no row, and forbidden memory");
    check(print(read_only, BYTES, row_of(0), lent, ROOM).answer == 1, "a bad area, and forbidden memory");
    munmap(lent, 3 * PAGE);
    munmap(read_only, PAGE);
}

static void line_program(void)
{
    group("what is printed, read by the line program: all answers 0, and S shows the rows");
    for (unsigned round = 0; round < (few ? 4 : 192); round++) {
        random_area(1 + round % ROLES);
        compare_program();
    }
    for (enum full full = LONGEST_ROWS; full <= ONE_ROLE; full++) {
        full_area(full);
        compare_program();
    }
    open_area(ROLES);
    compare_program();
}

static void every_answer(void)
{
    group("every answer of the calls that print came up");
    for (uint32_t answer = 0; answer < ANSWERS; answer++) {
        bool given = answer == 0 || answer == 1 || answer == 16 || answer == 18;
        check(given == (times[answer] > 0), "answer %lu, %lu times", (unsigned long)answer, times[answer]);
        if (given)
            printf("  answer %lu: %lu times\n", (unsigned long)answer, times[answer]);
    }
}

int main(int count, char **words)
{
    if (count < 3)
        return 2;
    few = strcmp(words[1], "few") == 0;
    program = words + 2;
    signal(SIGPIPE, SIG_IGN);
    few_rows();
    empty_areas();
    random_areas();
    random_spares();
    full_areas();
    order_of_refusals();
    changed_areas();
    alignments();
    forbidden_memory();
    line_program();
    every_answer();
    return finish();
}
