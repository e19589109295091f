#include "streams.h"

#include "groups.h"
#include "reader.h"

#include <stdbool.h>
#include <stdio.h>
#include <string.h>

typedef unsigned long long number;

#define COUNT(list) (sizeof(list) / sizeof(list)[0])
#define ANY_OF(list) ((list)[any_below(COUNT(list))])

static const uint64_t all_roles = UINT64_MAX;

static void put_line(struct bytes *in, const char *line)
{
    putf(in, "%s\n", line);
}

static void put_on_set(struct bytes *in, char letter, uint64_t permission, uint64_t set)
{
    putf(in, "%c %llu ", letter, (number)permission);
    put_set(in, set);
    putf(in, "\n");
}

static void put_reply(struct bytes *in, char letter, uint64_t permission, uint64_t set, uint32_t state)
{
    putf(in, "%c %llu ", letter, (number)permission);
    put_set(in, set);
    putf(in, " %lu\n", (unsigned long)state);
}

static void put_update(struct bytes *in, char letter, uint64_t permission, uint64_t role, uint32_t state)
{
    putf(in, "%c %llu %llu %lu\n", letter, (number)permission, (number)role, (unsigned long)state);
}

/* ---- lines that don't read, or only just do */

/* Each is unreadable or records nothing, also with a state behind it, and none tells roles of a permission apart. */
static const char *const odd_lines[] = {
    /* no letter */
    "", " ", "-", "0", "1", "9 12 5", "=", "= 5 - 3", "#", "//", "X", "X 5", "\r", "\t",
    /* open */
    "O", "O ", "O  ", "O -", "O x", "O 08", "O 008", "O 8 ", "O  8", "O 8 8 8", "O 256", "O 264", "O 65", "O 0", "O 00",
    "O 255", "O 1000", "O 4294967304", "O 18446744073709551624", "O +8", "O -8", "O 8.", "O 8,", "O 8-", "o 8", "O8",
    "O,8", "O\t8", "O 0x8", "O 1e1", " O 8", "O 8,0", "O 8  0",
    /* allow */
    "A", "A ", "A 5", "A 5 ", "A 5  ", "A  5 1", "A 5  1", "A 5 1 ", " A 5 1", "A 5 1 2 3", "A 5 1,", "A 5 ,1", "A 5 ,",
    "A 5 1,,2", "A 5 1, 2", "A 5 1 ,2", "A 5 01", "A 5 1,02", "A 5 00", "A 5 2,1", "A 5 1,1", "A 5 1,2,2", "A 5 0,0",
    "A 5 3,2,1", "A 5 64", "A 5 1,64", "A 5 63,64", "A 5 100", "A 5 256", "A 5 257", "A 5 4294967297", "A 5 -1",
    "A 5 18446744073709551617", "A 5 --", "A 5 -,1", "A 5 1,-", "A 5 - ", "A 5 -0", "A 5 1-2", "A 5 1.2", "A 5 +1",
    "A 5 *", "A 5 x", "A x 1", "A -5 1", "A +5 1", "A 05 1", "A 00 1", "A 5,1", "A5 1", "A 4294967296 1",
    "A 4294967301 1", "A 9999999999 1", "A 04294967295 1", "A 10000000000 1", "A 18446744073709551621 1",
    "A 99999999999999999999999999999999 1", "A - 1", "A , 1", "a 5 1", "A 5 1\r", "A 5 1\t", "A\t5 1", "A 5\t1",
    /* deny */
    "D", "D 5", "D 5 ", "D 5 1 ", "D 5 1 2 3", "D 5 2,1", "D 5 1,1", "D 5 01", "D 5 64", "D 4294967296 1",
    "D 4294967301 1", "D 05 1", "D  5 1", "D 5  1", "d 5 1", "D5 1", "D 5 --", "D 5 -\r",
    /* given */
    "G", "G 5", "G 5 ", "G 5 -", "G 5 1,2", "G 5 1 ", "G 5 1 2 3", "G 5 01", "G 5 64", "G 5 255", "G 5 256", "G 5 257",
    "G 5 4294967296", "G 5 18446744073709551616", "G 5 x", "G x 1", "G 05 1", "G  5 1", "G 5  1", "G 4294967296 1",
    "G 4294967301 1", "g 5 1", "G5 1", "G 5 1,", "G 5 +1",
    /* withdrawn */
    "R", "R 5", "R 5 ", "R 5 -", "R 5 1,2", "R 5 1 ", "R 5 1 2 3", "R 5 01", "R 5 64", "R 5 256", "R 5 257", "R x 1",
    "R 05 1", "R  5 1", "R 5  1", "R 4294967296 1", "R 4294967301 1", "r 5 1", "R5 1", "R 5 1,",
    /* decide */
    "Q", "Q 5", "Q 5 ", "Q 5 1 ", "Q 5 1 2", "Q 5 2,1", "Q 5 1,1", "Q 5 01", "Q 5 64", "Q 5 -1", "Q 4294967296 1",
    "Q 4294967301 1", "Q 05 1", "Q  5 1", "Q 5  1", "q 5 1", "Q5 1",
    /* forget */
    "F", "F ", "F 5 ", "F  5", "F 05", "F 5 1", "F 5 -", "F -", "F x", "F 4294967296", "F 4294967301",
    "F 18446744073709551621", "f 5", "F5", "F 5,", "F 5\r",
    /* show */
    "S ", " S", "S 5", "S -", "S S", "SS", "s", "S\r", "S\t", "S,", "S 0",
    /* bytes above 127 */
    "\xff", "\x80S", "\xef\xbb\xbfS", "S\xc2\xa0", "A\xc2\xa0" "5 1", "A 5 \xd9\xa1",
    /* permission 0 */
    "A 0 1", "D 0 1", "G 0 1", "R 0 1", "Q 0 1", "F 0", "A 0 64", "G 0 64",
};

/* Lines that lack only a state, as all did before there were states, and what is none. */
static const char *const stateless[] = {"O 8", "A 5 1", "A 5 -", "D 5 1", "D 5 -", "G 5 1", "R 5 1"};
static const char *const odd_states[] = {
    "", " ", "  ", " 00", " 01", " 0 ", "  0", " 0 0", " 0 1", " -", " -0", " -1", " +1", " x", " 0x1", " 1e1", " 1.",
    " ,", " 0,", " ,0", " 0,1", " 0-", " \t0", "\t0", " 0\t", " 0\r", ",0 ", " 4294967296", " 4294967297",
    " 4294967306", " 9999999999", " 10000000000", " 04294967295", " 18446744073709551615", " 18446744073709551616",
    " 18446744073709551617", " 99999999999999999999999999999999", " \xd9\xa1",
};
static const uint32_t edge_states[] = {
    0,         1,     2,       3,         9,          10,         99,         100,
    65535,     65536, 1 << 20, 999999999, 1000000000, 2147483647, 2147483648, UINT32_MAX - 1,
    UINT32_MAX};

static const uint64_t edge_permissions[] = {1,     2,     5,       9,         10,         99,         100,
                                            65535, 65536, 1 << 20, 999999999, 1000000000, 2147483648, 4294967295};

/* Each odd line by itself, and with a state behind it. */
static void put_odd_lines(struct bytes *in, uint32_t state, const char *between)
{
    for (size_t i = 0; i < COUNT(odd_lines); i++)
        putf(in, "%s\n%s%s %lu\n%s", odd_lines[i], between, odd_lines[i], (unsigned long)state, between);
    for (size_t i = 0; i < COUNT(stateless); i++)
        for (size_t k = 0; k < COUNT(odd_states); k++)
            putf(in, "%s%s\n%s", stateless[i], odd_states[k], between);
}

/* Events with every state around the area's, and with those of many digits. */
static void put_states(struct bytes *in, unsigned role)
{
    static const char letters[] = "ADGR";
    for (size_t i = 0; i < COUNT(edge_states); i++) {
        uint32_t state = edge_states[i];
        putf(in, "O %u %lu\n", role + 1, (unsigned long)state);
        for (size_t k = 0; k < 4; k++) {
            for (size_t m = 0; m < COUNT(edge_states); m++)
                putf(in, "%c %zu %u %lu\n", letters[k], 5 + k, role, (unsigned long)edge_states[m]);
            for (uint32_t off = 0; off < 7; off++)
                putf(in, "%c %zu %u %lu\n", letters[k], 5 + k, role, (unsigned long)(uint32_t)(state + off - 3));
        }
        put_line(in, "S");
    }
}

void put_edges(struct bytes *in)
{
    static const unsigned counts[] = {1, 2, 6, 7, 63, 64};
    put_odd_lines(in, 0, "");
    for (unsigned k = 0; k < COUNT(counts); k++) {
        unsigned last = counts[k] - 1;
        putf(in, "O %u 0\nA 5 %u 0\nD 6 %u 0\nG 7 %u 1\nR 8 %u 2\n", counts[k], last, last, last, last);
        for (unsigned p = 5; p <= 8; p++) {
            for (unsigned role = last; role <= last + 1; role++)
                putf(in, "A %u %u 1\nD %u %u 3\nG %u %u 2\nR %u %u 4\n", p, role, p, role, p, role, p, role);
            unsigned beyond = last + 1;
            putf(in, "A %u %u 2\nD %u %u 2\nG %u %u 3\nR %u %u 3\n", p, beyond, p, beyond, p, beyond, p, beyond);
            putf(in, "Q %u %u\nQ %u %u\nQ %u -\nA %u - 2\nD %u - 2\n", p, last, p, last + 1, p, p, p);
        }
        char between[16];
        snprintf(between, sizeof between, "Q 5 %u\n", last);
        put_odd_lines(in, 2, between);
        for (size_t i = 0; i < COUNT(edge_permissions); i++)
            putf(in, "D %llu 0 2\nS\nF %llu\n", (number)edge_permissions[i], (number)edge_permissions[i]);
        put_line(in, "S");
        put_states(in, last);
    }
    for (unsigned n = 0; n <= 300; n++) {
        unsigned last = n > 0 && n <= 64 ? n - 1 : 63;
        putf(in, "O %u\nO %u 0\nQ 5 %u\nS\nD 5 %u 0\nD 6 %u 0\nS\n", n, n, last, last, n);
    }
}

/* Every text of up to `most` of some letters, between two texts. */
static void put_texts(struct bytes *in, const char *before, const char *letters, size_t most)
{
    size_t base = strlen(letters), total = 1;
    for (size_t length = 0; length <= most; length++, total *= base) {
        for (size_t code = 0; code < total; code++) {
            putf(in, "%s", before);
            for (size_t i = 0, rest = code; i < length; i++, rest /= base)
                put(in, &letters[rest % base], 1);
            putf(in, "\n");
        }
    }
}

void put_short_lines(struct bytes *in)
{
    put_texts(in, "", "OSFAQ 015-,", 4);
    put_texts(in, "O", " 015-,", 5);
    /* roles from 2 on are unknown, so none are told apart */
    put_line(in, "O 2 0");
    put_texts(in, "A 5 1", " 015-,", 4);
    put_texts(in, "D 5 -", " 015-,", 4);
    put_line(in, "O 64 0");
    put_line(in, "A 5 1,3 0");
    put_line(in, "D 5 0,6,10 0");
    put_line(in, "A 5 13,31 0");
    put_texts(in, "Q 5 ", "0136-, ", 5);
    put_texts(in, "F ", "056- ", 5);
    static const char letters[] = "ADGR";
    for (size_t i = 0; i < 4; i++) {
        uint32_t state = 0;
        for (unsigned p = 1; p <= 60; p++) {
            char before[32];
            snprintf(before, sizeof before, "%c %u%u", letters[i], p, (unsigned)any_below(1000));
            put_line(in, before);
            strcat(before, " ");
            /* the first of those with a state is an update that counts, where it is one */
            unsigned long named = i < 2 ? state : ++state;
            putf(in, "%s%u\n%s%u,%u\n%s-\n", before, p, before, p, p + 1, before);
            putf(in, "%s%u %lu\n%s%u,%u %lu\n%s- %lu\n", before, p, named, before, p, p + 1, named, before, named);
            putf(in, "%s0%u %lu\n%s%u,%u %lu\n%s%u, %lu\n", before, p, named, before, p, p, named, before, p, named);
        }
        putf(in, "S\nO 62 0\n");
    }
}

void put_every_byte(struct bytes *in)
{
    put_line(in, "O 9 0");
    put_line(in, "A 5 1,2 0");
    put_line(in, "D 5 3 0");
    for (unsigned code = 0; code < 256; code++) {
        static const char *const lines[] = {"S", "Q 5 1,2", "A 5 1 0", "F 6", "G 7 1 1", "O 9 0"};
        if (code == '\n')
            continue;
        for (size_t i = 0; i < COUNT(lines); i++) {
            char text[16];
            size_t count = strlen(lines[i]);
            /* in the place of the first byte, and behind the last one */
            memcpy(text, lines[i], count);
            text[0] = (char)code;
            put(in, text, count);
            putf(in, "\n%s", lines[i]);
            putf(in, "%c\n", (int)code);
        }
        putf(in, "Q%c5 1,2\n", (int)code);
        putf(in, "Q 5%c1,2\n", (int)code);
        putf(in, "Q 5 1%c2\n", (int)code);
        putf(in, "Q 5 %c1,2\n", (int)code);
        putf(in, "Q 5 1,2%cx\n", (int)code);
        putf(in, "A 5 1%c0\n", (int)code);
        putf(in, "A 5 1 %c0\n", (int)code);
        putf(in, "A 5 1 0%c1\n", (int)code);
        putf(in, "O 9%c0\n", (int)code);
        putf(in, "O 9 %c0\n", (int)code);
        put_line(in, "O 9 0");
    }
    put_line(in, "S");
}

/* ---- long lines */

void put_longest(struct bytes *in, char letter)
{
    if (letter == 'A' || letter == 'D')
        put_reply(in, letter, UINT32_MAX, all_roles, UINT32_MAX);
    else
        put_on_set(in, letter, UINT32_MAX, all_roles);
}

/* A good line, then as many bytes more as it takes. */
static void put_stretched(struct bytes *in, const char *line, char more, size_t count)
{
    putf(in, "%s", line);
    put_again(in, (uint8_t)more, count - strlen(line));
    putf(in, "\n");
}

void put_long_lines(struct bytes *in)
{
    static const size_t lengths[] = {193, 194, 195,  199,  200,  201,  204,   205,   206,   207,   213,   214, 215,
                                     216, 217, 218,  219,  220,  255,  256,   257,   409,   410,   411,   431, 432,
                                     433, 434, 4095, 4096, 4097, 8192, 65535, 65536, 65537, 99999, 100000};
    static struct bytes longest;
    put_line(in, "O 64 4294967295");
    for (const char *letter = "ADQS"; *letter; letter++) {
        put_longest(in, *letter);
        putf(in, "S\nF 4294967295\n");
    }
    for (size_t i = 0; i < COUNT(lengths); i++) {
        put_again(in, 'x', lengths[i]);
        putf(in, "\nD 5 1 4294967295\n");
        put_stretched(in, "S", ' ', lengths[i]);
        put_stretched(in, "F 5", '0', lengths[i]);
        put_stretched(in, "O ", '0', lengths[i]);
        put_stretched(in, "O 8 ", '0', lengths[i]);
        put_stretched(in, "Q 5 1", ',', lengths[i]);
        put_stretched(in, "D 5 1 ", '1', lengths[i]);
        for (const char *letter = "QD"; *letter; letter++) {
            clear(&longest);
            put_longest(&longest, *letter);
            longest.at[--longest.count] = 0;
            if (lengths[i] >= longest.count)
                put_stretched(in, (const char *)longest.at, ' ', lengths[i]);
        }
        if (lengths[i] >= LONGEST_LINE) {
            /* a good line stands where a line cut at this length would go on */
            put_again(in, ' ', lengths[i]);
            putf(in, "O 8 0\n");
            put_again(in, 0, lengths[i]);
            putf(in, "S\n");
        }
        putf(in, "Q 5 1\nS\n");
    }
}

void put_filler(struct bytes *in, size_t upto, unsigned way)
{
    static const size_t length[FILLERS] = {6, 1, LONGEST_LINE + 1, LONGEST_LINE + 2};
    if (way == 1) {
        put_again(in, '\n', upto > in->count ? upto - in->count : 0);
        return;
    }
    while (in->count + 2 * length[way] <= upto) {
        if (way == 0)
            putf(in, "Q 5 3\n");
        else {
            put_again(in, '5', length[way] - 1);
            putf(in, "\n");
        }
    }
    if (in->count < upto) {
        put_again(in, 'x', upto - in->count - 1);
        putf(in, "\n");
    }
}

/* ---- random streams */

enum { MOST_PERMISSIONS = 200, GROUPS = 6 };

/* What a stream is made of; a near set is a set of groups. */
struct style {
    size_t permissions;
    unsigned replies, updates, forgets, shows, odd; /* of 100 lines; the rest decides */
    unsigned untimely;                              /* of 100 events */
    bool triples, spoil;
};

struct world {
    const struct style *style;
    unsigned n;
    uint32_t state; /* the area's, as the lines before leave it */
    uint64_t permission[MOST_PERMISSIONS];
    uint64_t group[MOST_PERMISSIONS][GROUPS]; /* disjoint; 0: none */
    unsigned singles[MOST_PERMISSIONS];       /* the first groups have one role each */
};

static uint64_t below_n(unsigned n)
{
    return n == 64 ? all_roles : (UINT64_C(1) << n) - 1;
}

static uint64_t any_permission(void)
{
    switch (any_below(4)) {
    case 0: return ANY_OF(edge_permissions);
    case 1: return 1 + any_below(300);
    case 2: return UINT32_MAX - any_below(300);
    default: return 1 + any_below(UINT32_MAX);
    }
}

static void choose_groups(struct world *world, size_t i)
{
    unsigned singles = world->n <= GROUPS ? world->n : (unsigned)any_below(GROUPS + 1);
    uint64_t used = 0;
    memset(world->group[i], 0, sizeof world->group[i]);
    world->singles[i] = singles;
    for (unsigned k = 0; k < singles; k++) {
        uint64_t alone;
        do
            alone = UINT64_C(1) << any_below(world->n);
        while (used & alone);
        used |= alone;
        world->group[i][k] = alone;
    }
    if (singles == GROUPS)
        return;
    /* the others share what is left, some roles staying unnamed */
    unsigned unnamed = (unsigned)any_below(2);
    for (unsigned role = 0; role < world->n; role++) {
        uint64_t alone = UINT64_C(1) << role, k = singles + any_below(GROUPS - singles + unnamed);
        if (!(used & alone) && k < GROUPS)
            world->group[i][k] |= alone;
    }
}

/* Near the first state, near the last one, where updates run out, or anywhere. */
static uint32_t any_opening(void)
{
    switch (any_below(8)) {
    case 0: return ANY_OF(edge_states);
    case 1: return UINT32_MAX - (uint32_t)any_below(30);
    case 2: return (uint32_t)any();
    default: return (uint32_t)any_below(3);
    }
}

static void open_world(struct world *world, struct bytes *in, const struct style *style, unsigned n)
{
    world->style = style;
    world->n = n;
    world->state = any_opening();
    for (size_t i = 0; i < style->permissions; i++) {
        world->permission[i] = any_permission();
        choose_groups(world, i);
        /* one permission has one choice of groups */
        for (size_t k = 0; k < i; k++) {
            if (world->permission[k] == world->permission[i]) {
                memcpy(world->group[i], world->group[k], sizeof world->group[i]);
                world->singles[i] = world->singles[k];
            }
        }
    }
    putf(in, "O %u %lu\n", n, (unsigned long)world->state);
}

/* The state that an event has to name, or now and then another. */
static uint32_t any_state(const struct world *world, bool update)
{
    uint32_t timely = world->state + update;
    if (any_below(100) >= world->style->untimely)
        return timely;
    switch (any_below(5)) {
    case 0: return timely - 1;
    case 1: return timely + 1;
    case 2: return timely - (uint32_t)any_below(9);
    case 3: return timely + (uint32_t)any_below(9);
    default: return ANY_OF(edge_states);
    }
}

/* Moves the state where the line that starts there is an update that counts. */
static void follow(struct world *world, const struct bytes *in, size_t start)
{
    struct line line = read_line(in->at + start, in->count > start ? in->count - 1 - start : 0);
    bool update = line.letter == 'G' || line.letter == 'R';
    if (update && line.number != 0 && (line.set & ~below_n(world->n)) == 0 && line.state == world->state + UINT64_C(1))
        world->state++;
}

static uint64_t far_set(const struct world *world, size_t i, uint64_t near)
{
    uint64_t set = 0;
    for (unsigned k = 0; k < GROUPS; k++)
        if (near >> k & 1)
            set |= world->group[i][k];
    return set;
}

static uint64_t any_near(const struct world *world)
{
    if (!world->style->triples || any_below(8) == 0)
        return any_below(1 << GROUPS);
    uint64_t near;
    do
        near = any_below(1 << GROUPS);
    while (__builtin_popcountll(near) != 3);
    return near;
}

static void put_decide(const struct world *world, struct bytes *in, size_t i)
{
    uint64_t set = far_set(world, i, any_below(1 << GROUPS));
    if (any_below(3) == 0)
        set |= any() & any() & below_n(world->n);
    if (any_below(3) == 0)
        set &= any() | any();
    put_on_set(in, 'Q', world->permission[i], set);
}

static void put_good_line(const struct world *world, struct bytes *in)
{
    const struct style *style = world->style;
    size_t i = any_below(style->permissions);
    uint64_t permission = world->permission[i], dice = any_below(100);
    if (dice < style->replies) {
        char letter = any_below(style->triples ? 8 : 2) ? 'A' : 'D';
        put_reply(in, letter, permission, far_set(world, i, any_near(world)), any_state(world, false));
    } else if ((dice -= style->replies) < style->updates && world->singles[i]) {
        uint64_t role = (uint64_t)__builtin_ctzll(world->group[i][any_below(world->singles[i])]);
        put_update(in, any_below(2) ? 'G' : 'R', permission, role, any_state(world, true));
    } else if ((dice -= style->updates) < style->forgets) {
        putf(in, "F %llu\n", (number)permission);
    } else if ((dice -= style->forgets) < style->shows) {
        put_line(in, "S");
    } else {
        put_decide(world, in, i);
    }
}

/* A role at or above n, where there is one. */
static void put_unknown(const struct world *world, struct bytes *in)
{
    size_t i = any_below(world->style->permissions);
    uint64_t permission = any_below(4) ? world->permission[i] : 0;
    if (world->n == 64)
        return;
    uint64_t role = any_below(2) ? world->n : world->n + any_below(64 - world->n);
    uint64_t set = far_set(world, i, any_near(world)) | UINT64_C(1) << role;
    switch (any_below(6)) {
    case 0: put_on_set(in, 'Q', permission, set); break;
    case 1:
    case 2: put_reply(in, "AD"[any_below(2)], permission, set, any_state(world, false)); break;
    default: put_update(in, "GR"[any_below(2)], permission, role, any_state(world, true));
    }
}

static void remove_bytes(struct bytes *in, size_t at, size_t count)
{
    memmove(in->at + at, in->at + at + count, in->count - at - count + 1);
    in->count -= count;
}

static void insert_byte(struct bytes *in, size_t at, char byte)
{
    put(in, "", 1);
    memmove(in->at + at + 1, in->at + at, in->count - 1 - at);
    in->at[at] = (uint8_t)byte;
}

/* Changes a byte or a few of the line that starts at `start`, and never makes it an open. */
static void spoil_line(struct bytes *in, size_t start)
{
    static const char spoilers[] = " ,-0123456789ADGQRFSadgqrfso\t\r\0\x7f\x80\xff";
    do {
        size_t length = in->count - 1 - start;
        size_t at = start + any_below(length ? length : 1);
        char byte = spoilers[any_below(sizeof spoilers - 1)];
        switch (any_below(5)) {
        case 0: insert_byte(in, at, byte); break;
        case 1: insert_byte(in, in->count - 1, any_below(2) ? ' ' : byte); break;
        case 2: insert_byte(in, at, (char)in->at[at] == '\n' ? byte : (char)in->at[at]); break;
        case 3:
            if (length > 0)
                remove_bytes(in, at, 1);
            break;
        default:
            if (length > 0)
                in->at[at] = (uint8_t)byte;
        }
    } while (any_below(3) == 0);
}

static void put_odd_line(const struct world *world, struct bytes *in)
{
    size_t start = in->count;
    switch (any_below(world->style->spoil ? 6 : 4)) {
    case 0: put_unknown(world, in); break;
    case 1: put_line(in, ANY_OF(odd_lines)); break;
    case 2: putf(in, "%s %lu\n", ANY_OF(odd_lines), (unsigned long)any_state(world, any_below(2))); break;
    case 3: putf(in, "%s%s\n", ANY_OF(stateless), ANY_OF(odd_states)); break;
    default:
        put_good_line(world, in);
        spoil_line(in, start);
    }
}

static void put_stream(struct bytes *in, const struct style *style, unsigned n, size_t lines)
{
    static struct world world;
    open_world(&world, in, style, n);
    for (size_t i = 0; i < lines; i++) {
        size_t start = in->count;
        if (any_below(100) < style->odd)
            put_odd_line(&world, in);
        else
            put_good_line(&world, in);
        follow(&world, in, start);
    }
    put_line(in, "S");
}

void put_small(struct bytes *in, size_t lines)
{
    struct style style = {
        .replies = 45, .updates = 15, .forgets = 3, .shows = 5, .odd = 20, .untimely = 12, .spoil = true};
    style.permissions = 1 + any_below(8);
    put_stream(in, &style, 1 + (unsigned)any_below(6), lines);
}

void put_many_sets(struct bytes *in, size_t lines)
{
    struct style style = {
        .replies = 75, .updates = 1, .forgets = 1, .shows = 4, .odd = 3, .untimely = 2, .triples = true};
    style.permissions = 1 + any_below(2);
    put_stream(in, &style, 6, lines);
}

void put_many_rows(struct bytes *in, size_t lines)
{
    struct style style = {.replies = 45, .updates = 25, .forgets = 6, .odd = 3, .untimely = 5};
    style.permissions = MOST_PERMISSIONS;
    put_stream(in, &style, 2 + (unsigned)any_below(5), lines);
}

void put_wide(struct bytes *in, size_t lines)
{
    struct style style = {.replies = 55, .updates = 10, .forgets = 2, .shows = 5, .odd = 8, .untimely = 8};
    style.permissions = 1 + any_below(8);
    style.triples = any_below(2);
    put_stream(in, &style, any_below(3) ? 7 + (unsigned)any_below(58) : 64, lines);
}

void put_full_area(struct bytes *in)
{
    put_line(in, "O 64 0");
    for (uint64_t row = 0; row < 128; row++) {
        uint64_t permission = UINT32_MAX - 127 + row;
        for (uint64_t near = 0; near < 1 << GROUPS; near++) {
            uint64_t set = 0;
            if (__builtin_popcountll(near) != 4)
                continue;
            for (unsigned role = 0; role < 64; role++)
                if (near >> (role + row) % GROUPS & 1)
                    set |= UINT64_C(1) << role;
            put_reply(in, 'A', permission, set, 0);
        }
    }
}
