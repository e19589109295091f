/* Holds the line program against the second side's reader, line by line.
 *   lines all PROGRAM WORD ..   every group; `few` in the place of `all` runs less, for an emulator
 *   lines                       prints what must be printed for its standard input; status 3: out of its reach */
#include "bytes.h"
#include "groups.h"
#include "reader.h"
#include "run.h"
#include "streams.h"

#include <signal.h>
#include <stdio.h>
#include <stdlib.h>
#include <string.h>
#include <sys/wait.h>

/* An exit status that no crash and no bad usage has. */
enum { OUT_OF_REACH = 3 };

static bool few;

static const struct feed from_file = {0, 0};

static void shown(char *text, size_t room, const uint8_t *at, size_t count)
{
    size_t used = 0;
    for (size_t i = 0; i < count && used + 8 < room; i++) {
        if (at[i] >= ' ' && at[i] < 127 && used + 12 < room)
            text[used++] = (char)at[i];
        else
            used += (size_t)snprintf(text + used, room - used, at[i] >= ' ' && at[i] < 127 ? ".." : "\\x%02x", at[i]);
    }
    text[used] = 0;
}

enum { ANSWERS = 15, ROLES = 64 };
static unsigned long times[ANSWERS], with_role[ANSWERS], asked[ROLES];

/* Answers that were to come, and roles behind them, so that none goes untried. */
static void count_answer(const uint8_t *line)
{
    char *at;
    strtoull((const char *)line, &at, 10);
    unsigned long answer = strtoul(at, &at, 10);
    if (line[0] == '=' || answer >= ANSWERS)
        return;
    times[answer]++;
    if (*at == '\n')
        return;
    with_role[answer]++;
    unsigned long role = strtoul(at, NULL, 10);
    if (role < ROLES)
        asked[role]++;
}

/* Counts each line that is the same; says where the first other one is. */
static void compare_output(const struct bytes *out, const struct bytes *want)
{
    size_t a = 0, b = 0, number = 0;
    while (a < out->count || b < want->count) {
        size_t got_count, want_count;
        const uint8_t *got_at = out->at + a, *want_at = want->at + b;
        size_t next_a = line_at(out, a, &got_count), next_b = line_at(want, b, &want_count);
        char got_text[160], want_text[160];
        bool same = next_a - a == next_b - b && memcmp(got_at, want_at, next_a - a) == 0;
        number++;
        if (same) {
            check(true, "same");
            count_answer(want_at);
        } else {
            shown(got_text, sizeof got_text, got_at, got_count);
            shown(want_text, sizeof want_text, want_at, want_count);
            check(false, "output line %zu is '%s', not '%s'", number, got_text, want_text);
            return;
        }
        a = next_a;
        b = next_b;
    }
}

static struct bytes out, said;

/* The run ended well, and what it printed is `want`. */
static void judge(struct ended ended, const struct bytes *in, const struct bytes *want)
{
    check(ended.in_time, "it didn't end on %zu bytes", in->count);
    check(ended.in_time && ended.status == 0, "it ended with %#x", (unsigned)ended.status);
    check(said.count == 0, "it said '%.60s' on standard error", (const char *)said.at);
    compare_output(&out, want);
}

static double compare_with(const struct bytes *in, struct feed feed, const struct bytes *want)
{
    struct ended ended = run(in, feed, &out, &said);
    judge(ended, in, want);
    return ended.seconds;
}

static double compare(const struct bytes *in, struct feed feed)
{
    static struct bytes want;
    if (!check(expect(in, &want), "the stream is out of the second program's reach"))
        return 0;
    return compare_with(in, feed, &want);
}

/* ---- streams as they come */

static void random_streams(void)
{
    static struct bytes in;
    struct {
        const char *name;
        void (*put)(struct bytes *, size_t);
        size_t lines, streams;
    } kinds[] = {
        {"random streams of up to 8 permissions and 6 roles, spoiled lines among them", put_small, 150, 400},
        {"random streams on rows near 15 open sets", put_many_sets, 200, 150},
        {"random streams of 200 permissions on 128 rows", put_many_rows, 2500, 16},
        {"random streams of 7 to 64 roles and long sets", put_wide, 200, 200},
    };
    for (size_t k = 0; k < sizeof kinds / sizeof kinds[0]; k++) {
        size_t runs = few ? 1 : 8;
        group(kinds[k].name);
        for (size_t i = 0; i < runs; i++) {
            clear(&in);
            putf(&in, "S\nQ 5 1\nA 5 1 0\nG 5 1 1\nF 5\nx\nO 8\nO 65 0\nD 0 1 0\n");
            for (size_t m = 0; m < kinds[k].streams / 8; m++)
                kinds[k].put(&in, kinds[k].lines);
            compare(&in, from_file);
        }
    }
}

static void bad_lines(void)
{
    static struct bytes in;
    struct {
        const char *name;
        void (*put)(struct bytes *);
    } kinds[] = {
        {"lines that are nearly right, and every edge of every field", put_edges},
        {"every short line of a few letters", put_short_lines},
        {"every byte in every place of a line", put_every_byte},
        {"lines around 216 bytes and up to 100,000", put_long_lines},
    };
    for (size_t k = 0; k < sizeof kinds / sizeof kinds[0]; k++) {
        group(kinds[k].name);
        clear(&in);
        kinds[k].put(&in);
        compare(&in, from_file);
        if (!few)
            compare(&in, (struct feed){3000, 20});
    }
}

/* Of all that can be said, nothing needs more than 205 bytes: longer lines never read. */
static void longest_line(void)
{
    static struct bytes in;
    group("the longest lines that read have 205 bytes, and without a state 194");
    for (const char *letter = "ADQ"; *letter; letter++) {
        clear(&in);
        put_longest(&in, *letter);
        check(in.count == (*letter == 'Q' ? 194 : 205) + 1, "it has %zu", in.count - 1);
        static struct bytes whole;
        clear(&whole);
        putf(&whole, "O 64 4294967295\n");
        put(&whole, in.at, in.count);
        putf(&whole, "S\n");
        put(&whole, in.at, in.count - 1);
        compare(&whole, from_file);
    }
}

static void endings(void)
{
    static const struct {
        const char *text;
        size_t count;
    } texts[] = {
#define TEXT(literal) {literal, sizeof(literal) - 1}
        TEXT(""),
        TEXT("\n"),
        TEXT("\n\n"),
        TEXT("\n\n\n\n\n\n\n\n\n\n\n"),
        TEXT("S"),
        TEXT("O 8 0"),
        TEXT("O 8 0\n"),
        TEXT("O 8 0\nS"),
        TEXT("O 8 0\nS\n"),
        TEXT("O 8 0\nS\n\n"),
        TEXT("O 8 0\n\nS"),
        TEXT("\nO 8 0\nS"),
        TEXT("O 8 0\r\nS\r\n"),
        TEXT("O 8 0\nS\r\nS"),
        TEXT("\r"),
        TEXT("\0"),
        TEXT("\0\n\0"),
        TEXT("O 8 0\n\0S\nS\0\nS"),
        TEXT("O 8 0\nA 5 1 0\0\nA 5\0 1 0\nS"),
        TEXT("\xff\xfe\nO 8 0\nS\xff\n\x80\x81\x82\nS"),
        TEXT("O 8 0\n "),
        TEXT("O 8 0\nx"),
        TEXT("O 8 0\nD 5 1 0\nS\nO 8 0\nS"),
#undef TEXT
    };
    static struct bytes in;
    group("ends of input: no LF, nothing, only LFs, CR LF, NUL, high bytes");
    for (size_t i = 0; i < sizeof texts / sizeof texts[0]; i++) {
        clear(&in);
        put(&in, texts[i].text, texts[i].count);
        compare(&in, from_file);
        compare(&in, (struct feed){1, few ? 2 : 6});
    }
    static const size_t lengths[] = {205, 215, 216, 217, 4096, 65536, 100000};
    for (size_t i = 0; i < sizeof lengths / sizeof lengths[0]; i++) {
        clear(&in);
        putf(&in, "O 8 0\n");
        put_again(&in, 'x', lengths[i]);
        compare(&in, from_file);
        putf(&in, "\n");
        compare(&in, from_file);
        putf(&in, "S");
        compare(&in, from_file);
    }
    clear(&in);
    put_again(&in, '\n', 200000);
    compare(&in, from_file);
    clear(&in);
    for (size_t i = 0; i < 100000; i++)
        putf(&in, "%c", (int)any_below(256));
    compare(&in, from_file);
}

/* What is held of a line when a read fails need not be all of it. */
static void failing_input(void)
{
    enum { PIPE = 65536 };
    static const struct {
        const char *text;
        size_t times;
    } held[] = {{"", 1}, {"S", 1}, {"Q 5 1", 1}, {"O 8 0", 1}, {"x", 1}, {"x", 300}};
    static struct bytes in, want;
    group("input that fails within a line: the lines before it are answered, it is not, and the program ends");
    for (size_t i = 0; i < sizeof held / sizeof held[0]; i++) {
        for (unsigned way = 0; way < 3; way++) {
            clear(&in);
            if (way > 0)
                put_small(&in, 50);
            if (way > 1)
                put_filler(&in, PIPE - strlen(held[i].text) * held[i].times, 0);
            check(expect(&in, &want), "the stream is out of the second program's reach");
            for (size_t k = 0; k < held[i].times; k++)
                putf(&in, "%s", held[i].text);
            judge(run_dry(&in, &out, &said), &in, &want);
        }
    }
}

/* A line that a read would cut, at every one of its bytes. */
static void boundaries(void)
{
    static const size_t at[] = {4096, 65536, 131072};
    static const char line[] = "A 5 2,3 0\nQ 5 2,3,63\nS\n";
    static struct bytes in;
    group("lines that lie across 4,096, 65,536 and 131,072 bytes");
    for (size_t k = 0; k < sizeof at / sizeof at[0]; k++) {
        for (unsigned way = 0; way < FILLERS; way++) {
            for (size_t back = 0; back < sizeof line; back += few ? 7 : 1) {
                if (few && k == 2 && way != 2)
                    continue;
                clear(&in);
                putf(&in, "O 64 0\n");
                put_filler(&in, at[k] - back, way);
                check(in.count == at[k] - back, "the filler has %zu bytes", in.count);
                putf(&in, "%s", line);
                compare(&in, from_file);
            }
        }
    }
}

static void pieces(void)
{
    static const size_t most[] = {1, 2, 3, 7, 61, 216, 217, 4095, 4097, 65535, 65537};
    static struct bytes in;
    group("input by a pipe, in pieces of 1 to 65,537 bytes with pauses");
    for (size_t i = 0; i < sizeof most / sizeof most[0]; i++) {
        if (few && i % 3)
            continue;
        clear(&in);
        put_small(&in, 150);
        put_wide(&in, 100);
        if (most[i] > 100) {
            put_long_lines(&in);
            put_many_rows(&in, 2000);
        }
        compare(&in, (struct feed){most[i], few ? 20 : 60});
    }
}

/* A line, and what is printed behind its number, by the Rules alone. */
struct said {
    const char *line, *printed;
};

static void put_said(const struct said *lines, size_t count, struct bytes *in, struct bytes *want)
{
    clear(in);
    clear(want);
    for (size_t i = 0; i < count; i++) {
        putf(in, "%s\n", lines[i].line);
        putf(want, "%zu %s\n", i + 1, lines[i].printed);
    }
}

/* What counts in which state, and what moves it. */
static void policy_states(void)
{
    static const struct said lines[] = {
        {"D 5 1 0", "1"},
        {"O 8 3", "0"},
        {"A 5 1,2 3", "0"},
        {"A 5 1,2 2", "13"},
        {"A 5 1,2 4", "14"},
        {"G 5 1 3", "13"},
        {"G 5 1 5", "14"},
        {"D 5 1 4", "14"},
        {"G 6 1 4", "0"}, /* another permission's update makes a reply late, and the next timely */
        {"D 5 1 3", "13"},
        {"D 5 1 4", "0"},
        {"Q 5 2", "11"},
        {"D 5 2 3", "13"},
        {"D 5 2 5", "14"},
        {"D 5 2 4", "6"},
        {"D 5 8 3", "4"},
        {"D 0 8 3", "3"},
        {"G 5 8 5", "4"}, /* a refused update leaves its number */
        {"G 0 1 5", "3"},
        {"G 5 8 9", "4"},
        {"R 5 2 5", "0"},
        {"Q 5 2", "10"},
        {"F 5", "0"}, /* a forget leaves the state */
        {"D 5 0 0", "13"},
        {"D 5 0 4", "13"},
        {"D 5 0 5", "0"},
        {"S", "0\n= 5 0\n= 6 - 1"},
        {"O 8 4294967294", "0"},
        {"R 5 1 4294967295", "0"},
        {"R 5 1 4294967295", "13"},
        {"R 5 1 0", "13"},
        {"R 5 1 4294967296", "9"},
        {"D 5 2 4294967295", "0"},
        {"D 5 3 4294967294", "13"},
        {"S", "0\n= 5 1,2"},
        {"O 8", "9"},
        {"D 5 1", "9"},
        {"D 5 1,2", "9"},
        {"G 5 1", "9"},
        {"O 8 4294967296", "9"},
        {"O 8 01", "9"},
        {"D 5 1 01", "9"},
        {"D 5 1 0 0", "9"},
        {"F 5 0", "9"},
        {"S 0", "9"},
        {"S", "0\n= 5 1,2"},
    };
    static struct bytes in, want;
    group("policy states: late and ahead, what moves them and what does not, and lines without a state");
    put_said(lines, sizeof lines / sizeof lines[0], &in, &want);
    compare_with(&in, from_file, &want);
    compare(&in, from_file);
}

static void third_field(void)
{
    static const struct said lines[] = {
        {"Q 5 0", "1"},       {"O 64 0", "0"},       {"Q 5 -", "10"},       {"Q 5 0", "12 0"},
        {"Q 5 63", "12 63"},  {"Q 5 0,63", "12 0"},  {"Q 5 9,10", "12 9"},  {"Q 5 10,11", "12 10"},
        {"Q 12 12", "12 12"}, {"Q 0 0", "3"},        {"Q 5 64", "9"},       {"Q 5 0 0", "9"},
        {"D 5 0,1 0", "0"},   {"Q 5 0,1", "10"},     {"Q 5 0,2", "12 2"},   {"Q 5 1,63", "12 63"},
        {"A 5 62,63 0", "0"}, {"Q 5 0,62,63", "11"}, {"Q 5 1,63", "12 63"}, {"Q 5 0,61,62", "12 61"},
        {"D 5 62,63 0", "6"}, {"R 5 62 1", "0"},     {"Q 5 62", "10"},      {"Q 5 62,63", "12 63"},
        {"G 5 63 2", "0"},    {"Q 5 2,63", "11"},    {"Q 5 2,62", "12 2"},  {"S", "0\n= 5 0,1,62 63"},
        {"F 5", "0"},         {"Q 5 0,63", "12 0"},  {"O 8 0", "0"},        {"Q 5 7", "12 7"},
        {"Q 5 7,8", "4"},     {"Q 0 8", "3"},        {"O 65 0", "2"},
    };
    static struct bytes in, want;
    size_t count = sizeof lines / sizeof lines[0];
    group("a third field, the role to ask about: with 12 and nowhere else");
    put_said(lines, count, &in, &want);
    /* all roles, of which all but the last are denied */
    putf(&in, "O 64 0\nD 4294967295 ");
    put_set(&in, UINT64_MAX >> 1);
    putf(&in, " 0\n");
    put_longest(&in, 'Q');
    putf(&want, "%zu 0\n%zu 0\n%zu 12 63\n", count + 1, count + 2, count + 3);
    compare_with(&in, from_file, &want);
    compare(&in, from_file);
}

/* 15 one-role open sets in the row of `p`, and rows beside it; the answers follow by their number alone.
 * The second program can't come here: with its 6 roles no update makes a 16th open set. */
static void put_sixteenth(struct bytes *in, struct bytes *want)
{
    unsigned n = 16 + (unsigned)any_below(49), line = 0;
    unsigned long p = 2 + any_below(UINT32_MAX - 2), state = any_below(UINT32_MAX - 20);
    uint64_t roles = 0, others = UINT64_MAX >> (64 - n);
    clear(in);
    clear(want);
    putf(in, "O %u %lu\nD %lu 0 %lu\nG %lu 1 %lu\n", n, state, p - 1, state, p + 1, state + 1);
    state++;
    while (__builtin_popcountll(roles) < 15) {
        unsigned role = (unsigned)any_below(n);
        bool given = any_below(2);
        if (!(roles >> role & 1))
            putf(in, "%c %lu %u %lu\n", given ? 'G' : 'A', p, role, given ? ++state : state);
        roles |= UINT64_C(1) << role;
    }
    others &= ~roles;
    unsigned other = (unsigned)__builtin_ctzll(others), held = (unsigned)__builtin_ctzll(roles);
    putf(in, "S\nA %lu %u %lu\nQ %lu %u\n", p, other, state, p, held);
    putf(in, "G %lu %u %lu\nQ %lu %u\nS\n", p, other, state + 1, p, held);
    /* the state moved */
    putf(in, "D %lu - %lu\nD %lu - %lu\n", p, state, p, state + 1);

    while (line < 19)
        putf(want, "%u 0\n", ++line);
    putf(want, "= %lu 0\n= %lu -", p - 1, p);
    for (unsigned role = 0; role < n; role++)
        if (roles >> role & 1)
            putf(want, " %u", role);
    putf(want, "\n= %lu - 1\n20 7\n21 11\n22 8\n23 12 %u\n24 0\n", p + 1, held);
    putf(want, "= %lu 0\n= %lu - 1\n25 13\n26 0\n", p - 1, p + 1);
}

static void sixteenth_set(void)
{
    static struct bytes in, want;
    group("a 16th open set: the reply answers 7, the update 8, and then the row is gone and the state has moved");
    for (size_t i = 0; i < (few ? 10 : 100); i++) {
        put_sixteenth(&in, &want);
        compare_with(&in, from_file, &want);
    }
}

/* ---- much output */

/* 15 sets that each lack one of the first roles: none is part of another, and none is longer in print. */
static void put_longest_rows(struct bytes *in, struct bytes *rows)
{
    for (uint32_t p = UINT32_MAX - 127; p >= UINT32_MAX - 127; p++) {
        putf(rows, "= %lu -", (unsigned long)p);
        for (unsigned role = 15; role-- > 0;) {
            uint64_t set = UINT64_MAX & ~(UINT64_C(1) << role);
            putf(in, "A %lu ", (unsigned long)p);
            put_set(in, set);
            putf(in, " 4294967295\n");
            putf(rows, " ");
            put_set(rows, set);
        }
        putf(rows, "\n");
    }
}

static void much_output(void)
{
    static struct bytes in, rows, want;
    group("show on 128 rows of 15 open sets, many times");
    clear(&in);
    put_full_area(&in);
    for (size_t i = 0; i < (few ? 3 : 30); i++)
        putf(&in, "S\n");
    compare(&in, from_file);
    compare(&in, (struct feed){50000, 5});

    group("show on the longest rows there are");
    clear(&in);
    clear(&rows);
    clear(&want);
    putf(&in, "O 64 4294967295\n");
    put_longest_rows(&in, &rows);
    size_t lines = 1 + 128 * 15;
    for (size_t i = 1; i <= lines; i++)
        putf(&want, "%zu 0\n", i);
    for (size_t i = 1; i <= (few ? 2 : 10); i++) {
        putf(&in, "S\n");
        putf(&want, "%zu 0\n", lines + i);
        put(&want, rows.at, rows.count);
    }
    compare_with(&in, from_file, &want);
}

static void closed_output(void)
{
    static struct bytes in;
    group("output that is closed after a line, or takes nothing: the program ends");
    for (unsigned way = 0; way < 2; way++) {
        clear(&in);
        put_small(&in, 1000);
        if (way == 1) {
            put_full_area(&in);
            putf(&in, "S\nS\nS\n");
        }
        for (unsigned ignore = 0; ignore < 2; ignore++) {
            struct ended ended = run_and_leave(&in, ignore);
            check(ended.in_time, "it reads on without end");
            bool by_signal = WIFSIGNALED(ended.status) && WTERMSIG(ended.status) == SIGPIPE;
            check(ended.status == 0 || (!ignore && by_signal), "it ended with %#x", (unsigned)ended.status);
        }
        struct ended ended = run_on_full_device(&in);
        check(ended.in_time && ended.status == 0, "on a full device it ended with %#x", (unsigned)ended.status);
    }
}

/* ---- speed */

static void speed(void)
{
    enum { LINES = 100000 };
    static struct bytes in;
    size_t lines = few ? LINES / 50 : LINES;
    group("many lines on small areas, and on a full one");
    clear(&in);
    for (size_t i = 0; i < lines; i += 1002)
        put_small(&in, 1000);
    double small = compare(&in, from_file);
    clear(&in);
    put_full_area(&in);
    for (size_t i = 0; i < lines; i++)
        putf(&in, "Q %lu %u,%u,%u\n", (unsigned long)UINT32_MAX - any_below(130), (unsigned)any_below(20),
             20 + (unsigned)any_below(20), 40 + (unsigned)any_below(24));
    double full = compare(&in, from_file);
    printf("%zu lines on areas of up to 8 rows: %.2f s; as many on 128 rows of 15 open sets: %.2f s%s\n", lines, small,
           full, few ? " (times under an emulator say nothing)" : "");
}

/* 5 is out of reach of a line: its letter is its kind. */
static void every_answer(void)
{
    group("every answer but 5 came up, and every role behind 12");
    printf("answers:");
    for (unsigned i = 0; i < ANSWERS; i++) {
        printf(" %u %lu times%s", i, times[i], i < ANSWERS - 1 ? "," : "\n");
        check(i == 5 ? times[i] == 0 : times[i] > 0, "answer %u, %lu times", i, times[i]);
        check(with_role[i] == (i == 12 ? times[i] : 0), "answer %u, %lu times with a role", i, with_role[i]);
    }
    for (unsigned role = 0; role < ROLES; role++)
        check(asked[role] > 0, "no role %u", role);
}

static int print_expected(void)
{
    static struct bytes in, want;
    char chunk[4096];
    size_t count;
    clear(&in);
    while ((count = fread(chunk, 1, sizeof chunk, stdin)) > 0)
        put(&in, chunk, count);
    if (!expect(&in, &want)) {
        fprintf(stderr, "lines: the events on a permission tell more than 6 groups of roles apart\n");
        return OUT_OF_REACH;
    }
    fwrite(want.at, 1, want.count, stdout);
    return 0;
}

int main(int count, char **words)
{
    if (count == 1)
        return print_expected();
    if (count < 3)
        return 2;
    few = strcmp(words[1], "few") == 0;
    program = words + 2;
    signal(SIGPIPE, SIG_IGN);
    bad_lines();
    longest_line();
    endings();
    failing_input();
    boundaries();
    pieces();
    random_streams();
    third_field();
    policy_states();
    sixteenth_set();
    much_output();
    closed_output();
    speed();
    every_answer();
    return finish();
}
