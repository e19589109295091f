/* Holds the sheet against the second printer, texts that are written down, and the possible holder sets.
 *   sheet all     every group; `few` in the place of `all` runs less, for an emulator */
#define _DEFAULT_SOURCE
#include "bytes.h"
#include "call.h"
#include "chance.h"
#include "damage.h"
#include "groups.h"
#include "holders.h"
#include "names.h"
#include "wickthrush.h"

#include <stdio.h>
#include <string.h>
#include <sys/mman.h>

/* ---- texts written down */

static void name(struct names *names, unsigned role, const char *text)
{
    names_add(names, role, text, strlen(text));
}

/* A few names of each. Roles 2 and 5 have two, role 6 has none. */
static void plain_tables(void)
{
    names_clear(&works);
    name(&works, 2, "locksmith");
    name(&works, 7, "night watch");
    name(&works, 5, "L");
    names_clear(&standard);
    name(&standard, 0, "visitor");
    name(&standard, 1, "operator");
    name(&standard, 2, "fitter");
    name(&standard, 3, "electrician");
    name(&standard, 4, "shift leader");
    name(&standard, 5, "laboratory");
}

static void written_down(void)
{
    static const uint64_t paper[] = {BIT(3), BIT(5) | BIT(6)}, pairs[] = {3, 12}, between[] = {1, 6, 8},
                          mixed[] = {3, 4, BIT(3) | BIT(5), BIT(4) | BIT(5)}, alone[] = {BIT(7)}, only[] = {1};
#define PAPER "denied operator locksmith shift leader night watch\nproved electrician\nopen L 6\nverdict "
#define PAIRS "denied\nproved\nopen visitor operator ; locksmith electrician\nverdict "
    group("sheets that are written down");
    plain_tables();
    start_area(8);
    add_row(5, BIT(1) | BIT(2) | BIT(4) | BIT(7), COUNT(paper), paper);
    add_row(6, 0, COUNT(pairs), pairs);
    add_row(7, 0, COUNT(between), between);
    add_row(9, 0xff, 0, NULL);
    add_row(10, BIT(6) | BIT(7), COUNT(mixed), mixed);
    add_row(UINT32_MAX, 0x7f, COUNT(alone), alone);
    end_area();
    expect_text(5, BIT(1) | BIT(5), PAPER "undecided\n");
    expect_text(5, BIT(3) | BIT(4), PAPER "allow\n");
    expect_text(5, BIT(5) | BIT(6), PAPER "allow\n");
    expect_text(5, BIT(1) | BIT(4) | BIT(7), PAPER "deny\n");
    expect_text(6, 1, PAIRS "undecided\n");
    expect_text(6, 7, PAIRS "allow\n");
    expect_text(6, 0, PAIRS "deny\n");
    expect_text(7, 2, "denied\nproved visitor electrician\nopen operator locksmith\nverdict undecided\n");
    expect_text(8, 0xff, "denied\nproved\nopen\nverdict undecided\n");
    expect_text(8, 0, "denied\nproved\nopen\nverdict deny\n");
    expect_text(1, BIT(7), "denied\nproved\nopen\nverdict undecided\n");
    expect_text(9, 0xff,
                "denied visitor operator locksmith electrician shift leader L 6 night watch\nproved\nopen\n"
                "verdict deny\n");
    expect_text(10, BIT(5) | BIT(6),
                "denied 6 night watch\nproved locksmith\n"
                "open visitor operator ; electrician L ; shift leader L\nverdict undecided\n");
    expect_text(UINT32_MAX, BIT(7),
                "denied visitor operator locksmith electrician shift leader L 6\nproved night watch\nopen\n"
                "verdict allow\n");
    names_clear(&works);
    expect_text(5, 2, "denied operator fitter shift leader 7\nproved electrician\nopen laboratory 6\nverdict deny\n");
    names_clear(&standard);
    expect_text(5, 2, "denied 1 2 4 7\nproved 3\nopen 5 6\nverdict deny\n");
    single_row(1, 1, 0, NULL);
    expect_text(5, 1, "denied 0\nproved\nopen\nverdict deny\n");
    expect_text(6, 1, "denied\nproved\nopen\nverdict undecided\n");
    single_row(1, 0, COUNT(only), only);
    expect_text(5, 1, "denied\nproved 0\nopen\nverdict allow\n");
    expect_text(5, 0, "denied\nproved 0\nopen\nverdict deny\n");
}

/* ---- names */

/* A role in each line, shown so; the other one has a name of its own in one of the tables. */
static void expect_shown(unsigned role, unsigned other, const char *shown)
{
    char text[200];
    uint64_t alone = BIT(role), pair = alone | BIT(other);
    name(role % 2 ? &works : &standard, other, "other");
    single_row(ROLES, alone, 0, NULL);
    snprintf(text, sizeof text, "denied %s\nproved\nopen\nverdict deny\n", shown);
    expect_text(5, alone, text);
    single_row(ROLES, 0, 1, &alone);
    snprintf(text, sizeof text, "denied\nproved %s\nopen\nverdict allow\n", shown);
    expect_text(5, alone, text);
    single_row(ROLES, 0, 1, &pair);
    snprintf(text, sizeof text, "denied\nproved\nopen %s %s\nverdict undecided\n", role < other ? shown : "other",
             role < other ? "other" : shown);
    expect_text(5, alone, text);
}

/* With names of each length in neither, one or both of the tables. */
static void whose_name(void)
{
    group("the works' name, or else the standard one, or else the number: role by role, in each line");
    for (unsigned role = 0; role < ROLES; role++) {
        for (size_t length = 1; length <= NAMES_LONGEST; length += few ? 31 : 1) {
            char own[NAMES_LONGEST + 1] = "", ours[NAMES_LONGEST + 1] = "", number[3];
            memset(own, 'w', length);
            memset(ours, 's', 1 + (length + role) % NAMES_LONGEST);
            snprintf(number, sizeof number, "%u", role);
            for (unsigned have = 0; have < 4; have++) {
                names_clear(&works);
                names_clear(&standard);
                if (have & 1)
                    name(&works, role, own);
                if (have & 2)
                    name(&standard, role, ours);
                expect_shown(role, role == 0, have & 1 ? own : have & 2 ? ours : number);
            }
        }
    }
}

/* Names of each byte; then names whose bytes are those of others, and of the pairs. */
static void bytes_of_names(void)
{
    static struct bytes text;
    struct request request = ask(5, 0);
    group("names of any bytes, names within names, and names in the contents");
    single_row(ROLES, BIT(5) | BIT(6), 0, NULL);
    for (int byte = 0; byte < 256; byte++) {
        for (size_t length = 1; length <= NAMES_LONGEST; length += NAMES_LONGEST - 1) {
            uint8_t bytes[NAMES_LONGEST];
            memset(bytes, byte, length);
            plain_tables();
            names_add(byte % 2 ? &works : &standard, 6, bytes, length);
            clear(&text);
            putf(&text, "denied L ");
            put(&text, bytes, length);
            putf(&text, "\nproved\nopen\nverdict deny\n");
            expect_bytes(&request, &text);
        }
    }
    names_clear(&works);
    names_clear(&standard);
    name(&works, 0, "instrument technician");
    names_put_pair(&works, 1, NAMES_CONTENTS, 10);     /* instrument */
    names_put_pair(&works, 2, NAMES_CONTENTS + 11, 4); /* tech */
    names_put_pair(&works, 3, NAMES_CONTENTS + 10, 1); /* a space */
    names_put_pair(&works, 4, NAMES_CONTENTS + 20, 1); /* n, the last byte */
    names_put_pair(&works, 5, NAMES_CONTENTS, 10);     /* instrument once more */
    names_put_pair(&works, 6, NAMES_CONTENTS - 1, 3);  /* from the contents into the names */
    names_put_pair(&works, 7, 0, 4);                   /* the pair of role 0: 256 and 21 */
    names_put_pair(&works, 8, 4 * 8, 4);               /* its own pair: 32 and 4 */
    single_row(ROLES, 0x1ff, 0, NULL);
    clear(&text);
    putf(&text, "denied instrument technician instrument tech   n instrument ");
    put(&text, "\0in", 3);
    put(&text, " \0\1\25\0", 5);
    put(&text, " \40\0\4\0", 5);
    putf(&text, "\nproved\nopen\nverdict deny\n");
    expect_bytes(&request, &text);
}

/* ---- what a table may be */

/* A table of so many bytes in which only role 63 may have a name, which ends so many bytes behind it. */
static void table_of(struct names *names, size_t count, size_t length, size_t behind)
{
    names_clear(names);
    names->count = count;
    if (length != 0)
        names_put_pair(names, 63, count + behind - length, length);
}

static void table_lengths(void)
{
    struct request request = ask(5, 1);
    single_row(ROLES, BIT(63) | 1, 0, NULL);
    for (unsigned which = 0; which < 2; which++) {
        struct names *varied = which ? &standard : &works, *other = which ? &works : &standard;
        names_clear(other);
        for (size_t count = 0; count <= 300; count++) {
            for (size_t length = 0; length <= NAMES_LONGEST && length <= count; length += few ? 16 : 1) {
                table_of(varied, count, length, 0);
                size_t bytes = compare(request);
                check((bytes == 0) == (count < NAMES_CONTENTS), "a table of %zu bytes", count);
                table_of(varied, count, length, 1);
                if (length > 0)
                    expect_refusal(&request, 17);
                /* both of the same length */
                table_of(varied, count, length, 0);
                table_of(other, count, length, 0);
                compare(request);
                names_clear(other);
            }
        }
    }
}

static void every_table_length(void)
{
    group("tables of 0 to 300 bytes: 17 below 256, and where a name runs outside");
    table_lengths();
}

static unsigned long taken, refused;

/* One pair, at starts on each side of each bound. The role is shown, or is none of the area's. */
static void judge_pair(unsigned role, size_t length, size_t count)
{
    const size_t ends = count - length;
    const size_t starts[] = {0,        1,         4 * role, 255,       256,   ends - 1, ends,
                             ends + 1, count - 1, count,    count + 1, 32768, 65535};
    uint64_t roles = any_below(2) ? 1 + any_below(ROLES) : any_below(2) ? 1 : role + any_below(2);
    roles += roles == 0;
    single_row(roles, role < roles ? BIT(role) : 1, 0, NULL);
    for (size_t k = 0; k < COUNT(starts); k++) {
        struct names *varied = any_below(2) ? &works : &standard;
        /* one of more than 16 bits would stand for another */
        if (starts[k] > 65535)
            continue;
        varied->count = count;
        names_put_pair(varied, role, starts[k], length);
        *(compare(ask(5, 1)) != 0 ? &taken : &refused) += 1;
        names_clear(varied);
    }
}

/* By hand: the last role, in an area of one. */
static void judge_role_63(struct names *names)
{
    struct request request = ask(5, 1);
    names_put_pair(names, 63, 0, 33);
    expect_refusal(&request, 17);
    names_put_pair(names, 63, 224, 32);
    expect_text(5, 1, "denied 0\nproved\nopen\nverdict deny\n");
    names_put_pair(names, 63, 225, 32);
    expect_refusal(&request, 17);
    names_put_pair(names, 63, 256, 1);
    expect_refusal(&request, 17);
    names_put_pair(names, 63, 65535, 1);
    expect_refusal(&request, 17);
    names_put_pair(names, 63, 65535, 0);
    expect_text(5, 1, "denied 0\nproved\nopen\nverdict deny\n");
    names_clear(names);
}

static void every_pair(void)
{
    static const size_t counts[] = {256, 257, 287, 288, 289, 300, 512, 65535, 65536, 65566, 65567, 65568, 70000};
    static const size_t lengths[] = {0,   1,   2,   31,  32,  33,   34,    63,    64,
                                     255, 256, 257, 288, 512, 8192, 32768, 65504, 65535};
    group("each of the 64 pairs of both tables is judged, whatever the role count is");
    names_clear(&works);
    names_clear(&standard);
    for (unsigned role = 0; role < ROLES; role += few ? 7 : 1)
        for (size_t l = 0; l < COUNT(lengths); l++)
            for (size_t c = 0; c < COUNT(counts); c++)
                judge_pair(role, lengths[l], counts[c]);
    check(taken > 1000 && refused > 1000, "%lu tables taken and %lu refused are too few", taken, refused);
    single_row(1, 1, 0, NULL);
    judge_role_63(&works);
    judge_role_63(&standard);
}

/* Names at every place that a start can name, the last ones too. */
static void long_tables(void)
{
    group("tables of 65,567 to 70,000 bytes: names up to where a start reaches");
    spell(works.at, NAMES_BYTES);
    spell(standard.at, NAMES_BYTES);
    single_row(ROLES, UINT64_MAX, 0, NULL);
    for (unsigned round = 0; round < (few ? 40 : 400); round++) {
        works.count = standard.count = round % 2 ? NAMES_BYTES : NAMES_REACH + any_below(3);
        for (unsigned role = 0; role < ROLES; role++) {
            names_put_pair(&works, role, any_below(4) ? any() : 65535 - any_below(3), any_below(2) ? any_length() : 0);
            names_put_pair(&standard, role, any_below(4) ? any() : 65535 - any_below(3), any_length());
        }
        check(compare(ask(5, any())) != 0, "a table is bad");
    }
}

/* ---- long sheets and blank ones */

/* By whose names they are, the bytes of the sheet; the numbers of the roles have one digit or two. */
static void longest_sheets(void)
{
    enum { WORKS, STANDARD, IN_TURN, NOBODY };
    static const size_t lengths[] = {[WORKS] = LONGEST, [STANDARD] = LONGEST, [IN_TURN] = LONGEST, [NOBODY] = 2760};
    static const size_t rooms[] = {0, LONGEST - 1, LONGEST, LONGEST + 1, ROOM - 1, ROOM, ROOM + 1, MOST_ROOM};
    group("64 roles, 15 open sets of 63 roles, names of 32 bytes: the longest sheet");
    longest_row();
    for (size_t whose = WORKS; whose <= NOBODY; whose++) {
        names_clear(&works);
        names_clear(&standard);
        for (unsigned role = 0; role < ROLES && whose != NOBODY; role++) {
            uint8_t bytes[NAMES_LONGEST];
            spell(bytes, sizeof bytes);
            names_add(whose == WORKS || (whose == IN_TURN && role % 2) ? &works : &standard, role, bytes, sizeof bytes);
        }
        size_t undecided = compare(ask(5, 1)), allow = compare(ask(5, UINT64_MAX)), deny = compare(ask(5, 0));
        check(undecided == lengths[whose] && allow == undecided - 4 && deny == undecided - 5,
              "it has %zu bytes, %zu with allow, %zu with deny", undecided, allow, deny);
        for (size_t k = 0; k < COUNT(rooms); k++)
            compare((struct request){BYTES, 5, 1, rooms[k], 0});
    }
}

static void blank_permissions(void)
{
    group("permissions without a row, and the empty session, of 1 to 64 roles");
    plain_tables();
    for (uint64_t roles = 1; roles <= ROLES; roles++) {
        uint64_t all = all_below(roles);
        start_area(roles);
        end_area();
        expect_text(1, 0, "denied\nproved\nopen\nverdict deny\n");
        expect_text(UINT32_MAX, all, "denied\nproved\nopen\nverdict undecided\n");
        for (unsigned role = 0; role < ROLES; role++)
            compare(ask(5, BIT(role)));
        start_area(roles);
        add_row(4, all, 0, NULL);
        add_row(6, 0, 1, &all);
        end_area();
        expect_text(5, 0, "denied\nproved\nopen\nverdict deny\n");
        expect_text(5, 1, "denied\nproved\nopen\nverdict undecided\n");
        for (uint32_t permission = 3; permission <= 7; permission++) {
            compare(ask(permission, 0));
            compare(ask(permission, all));
            compare(ask(permission, any_set(roles)));
        }
    }
}

/* ---- refusals */

enum fault { SOUND, EMPTY, SHORT, TOO_LONG, OUTSIDE, FAULTS };

static void faulty_table(struct names *names, enum fault fault)
{
    lay_out(names);
    switch (fault) {
    case EMPTY: names->count = 0; break;
    case SHORT: names->count = NAMES_CONTENTS - 1; break;
    case TOO_LONG: names_put_pair(names, 63, 0, NAMES_LONGEST + 1); break;
    case OUTSIDE: names_put_pair(names, 20, names->count, 1); break;
    default: break;
    }
}

/* Every mix of the other arguments; the first refusal that applies is given. The area has 8 roles. */
static void mix_arguments(size_t len, bool damaged, bool faulty)
{
    static const size_t rooms[] = {0, 1, 4096, LONGEST, ROOM - 1, ROOM, ROOM + 1};
    static const uint64_t sessions[] = {0, 3, BIT(7), BIT(8), BIT(63) | 1, UINT64_MAX};
    for (uint32_t permission = 0; permission <= 5; permission += 5) {
        for (size_t s = 0; s < COUNT(sessions); s++) {
            for (size_t r = 0; r < COUNT(rooms); r++) {
                struct request request = {len, permission, sessions[s], rooms[r], 0};
                if (len != BYTES || damaged)
                    expect_refusal(&request, 1);
                else if (faulty)
                    expect_refusal(&request, 17);
                else if (permission == 0)
                    expect_refusal(&request, 3);
                else if (sessions[s] >= BIT(8))
                    expect_refusal(&request, 4);
                else if (rooms[r] < ROOM)
                    expect_refusal(&request, 16);
                else
                    compare(request);
            }
        }
    }
}

static void order_of_refusals(void)
{
    static const uint64_t open[] = {6};
    group("order of refusals: 1, 17, 3, 4, 16");
    for (unsigned damaged = 0; damaged < 2; damaged++) {
        single_row(8, 1, COUNT(open), open);
        if (damaged)
            area[15] ^= 0x80;
        look();
        check(good == !damaged, "the area is not as it should be");
        for (unsigned faults = 0; faults < FAULTS * FAULTS; faults++) {
            faulty_table(&works, faults % FAULTS);
            faulty_table(&standard, faults / FAULTS);
            for (size_t l = 0; l <= SECOND_WRONG_LENGTHS; l++)
                if (!few || l == SECOND_WRONG_LENGTHS || l == faults % SECOND_WRONG_LENGTHS)
                    mix_arguments(l < SECOND_WRONG_LENGTHS ? second_wrong_lengths[l] : BYTES, damaged, faults != 0);
        }
    }
}

/* Areas with a few words changed: those that break a rule are refused, of the others the sheet is as they are now. */
static void changed_areas(void)
{
    unsigned long kept = 0, broken = 0;
    group("areas with changed words: 1 exactly where a rule of the layout is broken, whatever else is asked");
    for (unsigned round = 0; round < (few ? 600 : 10000); round++) {
        static uint8_t whole[BYTES];
        if (round % 10 == 0)
            build_area();
        memcpy(whole, area, BYTES);
        any_tables();
        size_t rows = second_word(area, 1);
        for (uint64_t changes = 1 + any_below(2); changes > 0; changes--)
            damage(area, rows);
        look();
        *(good ? &kept : &broken) += 1;
        for (unsigned k = 0; k < 3; k++)
            compare(any_request());
        memcpy(area, whole, BYTES);
        look();
    }
    check(kept > 20 && broken > 100, "%lu good and %lu bad areas are too few", kept, broken);
}

/* ---- random areas */

/* An event in time: the area says which state it has to name. */
static uint32_t event(uint32_t permission, uint64_t kind, uint64_t number)
{
    uint32_t state = (uint32_t)second_word(area, SECOND_STATE_AT);
    return wickthrush_event(area, BYTES, permission, kind, number, kind < SECOND_WITHDRAWN ? state : state + 1);
}

/* One call of a stream; refused ones are part of it. */
static uint32_t any_call(uint64_t permissions, bool allows)
{
    uint32_t permission = 1 + (uint32_t)any_below(permissions);
    uint64_t dice = any_below(20);
    if (dice < 2)
        return event(permission, SECOND_WITHDRAWN + any_below(2), any_below(n));
    if (dice < 3)
        return wickthrush_forget(area, BYTES, permission);
    return event(permission, dice > (allows ? 4 : 11) ? SECOND_ALLOW : SECOND_DENY, any_set(n));
}

static void reached_areas(void)
{
    unsigned long areas = 0;
    group("areas that random events reach, of 1 to 64 roles, with random tables and sessions");
    for (unsigned round = 0; round < (few ? 64 : 1280); round++) {
        uint64_t permissions = any_below(8) ? 1 + any_below(6) : 150;
        bool allows = any_below(2);
        check(wickthrush_open(area, BYTES, 1 + round % ROLES, (uint32_t)any() / 2) == 0, "an area does not open");
        look();
        for (uint64_t calls = any_below(4) ? 20 : 160; calls > 0; calls--) {
            uint32_t answer = any_call(permissions, allows);
            check(answer == 0 || (answer >= 6 && answer <= 8), "the stream is answered %lu", (unsigned long)answer);
            if (answer == 0)
                areas++;
            else if (any_below(4))
                continue;
            end_area();
            any_tables();
            compare(any_request());
            compare(any_request());
        }
    }
    printf("%lu areas were reached\n", areas);
}

static void built_areas(void)
{
    group("areas that are built of random rows, with random tables and sessions");
    for (unsigned round = 0; round < (few ? 1000 : 40000); round++) {
        build_area();
        any_tables();
        for (unsigned k = 0; k < 3; k++)
            compare(any_request());
    }
}

/* ---- memory */

static wickthrush_written plain_call(const uint8_t *a, const uint8_t *w, const uint8_t *s, uint8_t *out, size_t room)
{
    return wickthrush_sheet(a, BYTES, w, works.count, s, standard.count, 5, 1, out, room);
}

static void check_plain(wickthrush_written written, const uint8_t *out, const struct bytes *text)
{
    check(written.answer == 0 && written.bytes == text->count && memcmp(out, text->at, text->count) == 0,
          "%lu with %lu bytes", (unsigned long)written.answer, (unsigned long)written.bytes);
}

static void alignments(void)
{
    static const uint64_t open[] = {BIT(1) | BIT(2), BIT(9) | BIT(33)};
    static uint8_t places[3][NAMES_BYTES + MOST_SHIFT], out[ROOM + MOST_SHIFT];
    group("areas, tables and buffers at every alignment");
    single_row(ROLES, BIT(7) | BIT(63), COUNT(open), open);
    for (size_t shift = 0; shift < 4 * MOST_SHIFT; shift++) {
        any_names(&works);
        any_names(&standard);
        uint8_t *a = memcpy(places[0] + shift % MOST_SHIFT, area, BYTES),
                *w = memcpy(places[1] + shift * 3 % MOST_SHIFT, works.at, works.count),
                *s = memcpy(places[2] + shift * 5 % MOST_SHIFT, standard.at, standard.count),
                *o = out + shift * 7 % MOST_SHIFT;
        check_plain(plain_call(a, w, s, o, ROOM), o, plain_text());
    }
}

/* Nothing of what is only read is written, so one table may stand for both. */
static void lent_twice(void)
{
    static const uint64_t open[] = {0xff};
    static uint8_t out[ROOM];
    group("one table lent as both");
    single_row(ROLES, 0xffff0000, COUNT(open), open);
    for (unsigned round = 0; round < 50; round++) {
        any_names(&works);
        standard = works;
        check_plain(plain_call(area, works.at, works.at, out, ROOM), out, plain_text());
    }
}

/* Tables and a buffer of which only the bytes that can be used may be touched. */
static void vast_lengths(void)
{
    enum { USED = 4 * PAGE };
    static const size_t beside[] = {0, 1, 100, 255, 256, 300, ROOM - 1};
    uint8_t *lent[3];
    group("tables and buffers of over 4 GiB");
    for (size_t k = 0; k < COUNT(lent); k++) {
        lent[k] = mmap(NULL, BIT(32) + USED, PROT_NONE, MAP_PRIVATE | MAP_ANONYMOUS | MAP_NORESERVE, -1, 0);
        if (!check(lent[k] != MAP_FAILED && mprotect(lent[k], USED, PROT_READ | PROT_WRITE) == 0, "no memory"))
            return;
    }
    single_row(ROLES, UINT64_MAX, 0, NULL);
    scatter(&works, NAMES_BYTES);
    scatter(&standard, NAMES_BYTES);
    names_put_pair(&works, 7, 65535, 32);
    names_put_pair(&works, 63, 0, 0);
    names_put_pair(&standard, 63, 65535, 32);
    memcpy(lent[0], works.at, NAMES_BYTES);
    memcpy(lent[1], standard.at, NAMES_BYTES);
    for (size_t k = 0; k < COUNT(beside); k++) {
        size_t count = BIT(32) + beside[k];
        check_plain(wickthrush_sheet(area, BYTES, lent[0], count, lent[1], count, 5, 1, lent[2], count), lent[2],
                    plain_text());
    }
    for (size_t k = 0; k < COUNT(lent); k++)
        munmap(lent[k], BIT(32) + USED);
}

/* Memory that nobody may touch begins where area and tables end: reading on ends this program. */
static void nothing_behind(void)
{
    group("forbidden memory right behind area and tables of every length");
    slack = 0;
    table_lengths();
    for (unsigned round = 0; round < (few ? 300 : 5000); round++) {
        build_area();
        any_tables();
        compare(any_request());
    }
}

/* The arguments before which a call is refused are not even looked at: they may be forbidden. */
static void refused_unseen(const uint8_t *a, const uint8_t *w, const uint8_t *s, uint8_t *forbidden)
{
    check(plain_call(a, w, s, forbidden, ROOM - 1).answer == 16, "a short buffer that is forbidden");
    check(plain_call(a, w, s, NULL, 0).answer == 16, "no buffer");
    check(wickthrush_sheet(a, BYTES, w, works.count, s, standard.count, 0, 1, forbidden, ROOM).answer == 3,
          "no permission, and a forbidden buffer");
    check(wickthrush_sheet(a, BYTES, NULL, 0, s, standard.count, 5, 1, forbidden, ROOM).answer == 17,
          "no works' table");
    check(wickthrush_sheet(a, BYTES, w, works.count, NULL, 0, 5, 1, forbidden, ROOM).answer == 17, "no standard table");
    check(wickthrush_sheet(a, BYTES, NULL, 0, NULL, 0, 0, 1, NULL, 0).answer == 17, "no table");
    check(wickthrush_sheet(NULL, 0, NULL, 0, NULL, 0, 0, 1, NULL, 0).answer == 1, "nothing at all");
    check(wickthrush_sheet(a, BYTES - 1, forbidden, 256, forbidden, 256, 5, 1, forbidden, ROOM).answer == 1,
          "a bad area, and all else forbidden");
}

/* Forbidden memory before or behind all that is lent, of which only the buffer can be written. */
static void forbidden_memory(void)
{
    enum { PAGES = 2 * PAGE };
    uint8_t *end[4];
    group("forbidden memory around area, tables and buffer, of which only the buffer can be written");
    for (size_t k = 0; k < COUNT(end); k++)
        end[k] = end_of_memory(PAGES);
    longest_row();
    lay_out(&works);
    lay_out(&standard);
    for (unsigned before = 0; before < 2; before++) {
        const uint8_t *a = memcpy(end[0] - (before ? PAGES : BYTES), area, BYTES),
                      *w = memcpy(end[1] - (before ? PAGES : works.count), works.at, works.count),
                      *s = memcpy(end[2] - (before ? PAGES : standard.count), standard.at, standard.count);
        uint8_t *out = end[3] - (before ? PAGES : ROOM);
        for (size_t k = 0; k < 3; k++)
            check(mprotect(end[k] - PAGES, PAGES, PROT_READ) == 0, "not protected");
        check_plain(plain_call(a, w, s, out, ROOM), out, plain_text());
        refused_unseen(a, w, s, end[3]);
        for (size_t k = 0; k < 3; k++)
            check(mprotect(end[k] - PAGES, PAGES, PROT_READ | PROT_WRITE) == 0, "still protected");
    }
}

static void what_came_up(void)
{
    group("every answer of the sheet came up, each line with and without names, and each verdict");
    check_what_came_up();
}

int main(int count, char **words)
{
    if (count != 2)
        return 2;
    few = strcmp(words[1], "few") == 0;
    /* a library that ends this program does not take along what was said of it */
    setvbuf(stdout, NULL, _IOLBF, 0);
    written_down();
    whose_name();
    bytes_of_names();
    every_table_length();
    every_pair();
    long_tables();
    longest_sheets();
    blank_permissions();
    order_of_refusals();
    changed_areas();
    reached_areas();
    built_areas();
    every_knowledge();
    histories();
    alignments();
    lent_twice();
    vast_lengths();
    what_came_up();
    /* last: what a bad library does here ends this program */
    nothing_behind();
    forbidden_memory();
    return finish();
}
