#include "reader.h"

#include "second.h"

#include <stdlib.h>
#include <string.h>

/* ---- one line */

static bool has_state(char letter)
{
    return strchr("OADGR", letter) != NULL;
}

static void write_line(const struct line *line, struct bytes *out)
{
    putf(out, "%c", line->letter);
    if (line->letter != 'S')
        putf(out, " %llu", (unsigned long long)line->number);
    if (strchr("ADQGR", line->letter)) {
        putf(out, " ");
        put_set(out, line->set);
    }
    if (has_state(line->letter))
        putf(out, " %llu", (unsigned long long)line->state);
}

/* The roles that stand behind one byte each, up to the first thing that is none. */
static uint64_t guess_set(const char *at)
{
    uint64_t set = 0;
    while (*at) {
        char *end;
        unsigned long long role = strtoull(at + 1, &end, 10);
        if (end == at + 1 || role > 63)
            break;
        set |= UINT64_C(1) << role;
        at = end;
    }
    return set;
}

/* The number behind the last space, which is cut off. */
static uint64_t cut_state(char *text)
{
    char *last = strrchr(text, ' ');
    if (!last)
        return 0;
    *last = 0;
    return strtoull(last + 1, NULL, 10);
}

static bool one_role(uint64_t set)
{
    return set != 0 && (set & (set - 1)) == 0;
}

static bool in_range(const struct line *line)
{
    if (line->state > UINT32_MAX)
        return false;
    switch (line->letter) {
    case 'S': return true;
    case 'O': return line->number <= 255;
    case 'G':
    case 'R': return line->number <= UINT32_MAX && one_role(line->set);
    default: return line->number <= UINT32_MAX;
    }
}

/* A guess that forgives much: the line reads exactly if the guess is written as the line is. */
struct line read_line(const uint8_t *at, size_t count)
{
    static struct bytes again;
    char text[LONGEST_LINE + 1];
    struct line line = {0};
    if (count == 0 || count > LONGEST_LINE || at[0] == 0 || !strchr("OADGRQFS", at[0]))
        return line;
    memcpy(text, at, count);
    text[count] = 0;
    char *end;
    line.letter = text[0];
    if (has_state(line.letter))
        line.state = cut_state(text);
    line.number = strtoull(text + 1, &end, 10);
    line.set = guess_set(end);
    clear(&again);
    write_line(&line, &again);
    if (!in_range(&line) || again.count != count || memcmp(again.at, at, count) != 0)
        line.letter = 0;
    return line;
}

/* ---- groups of roles that no event on a permission tells apart
 *
 * Replies are on whole groups and updates on groups of one role, so whether a holder set is possible depends only on
 * which groups it shares a role with: group i can be role i of the second program. Denied and open sets are whole
 * groups too: if every possible holder set shares a role with t, it does so with the groups inside t, since from any
 * other group it could have a role outside t instead. */

struct groups {
    uint32_t permission;
    size_t count;
    uint64_t group[SECOND_ROLES]; /* ascending, so that open sets stand in the same order on both sides */
};

struct reader {
    struct second second;
    uint64_t n;
    struct groups *known;
    size_t known_count, known_room;
};

static bool below(uint64_t set, uint64_t n)
{
    return n == 64 || set >> n == 0;
}

static bool add_group(struct groups *groups, uint64_t set)
{
    size_t i = groups->count;
    if (i == SECOND_ROLES)
        return false;
    for (; i > 0 && groups->group[i - 1] > set; i--)
        groups->group[i] = groups->group[i - 1];
    groups->group[i] = set;
    groups->count++;
    return true;
}

/* Splits groups until each lies in a set or outside it. False if there are too many. */
static bool tell_apart(struct groups *groups, uint64_t set)
{
    struct groups before = *groups;
    uint64_t fresh = set;
    groups->count = 0;
    for (size_t i = 0; i < before.count; i++) {
        uint64_t inside = before.group[i] & set, outside = before.group[i] & ~set;
        fresh &= ~inside;
        if ((inside && !add_group(groups, inside)) || (outside && !add_group(groups, outside)))
            return false;
    }
    return fresh == 0 || add_group(groups, fresh);
}

static struct groups *groups_of(struct reader *reader, uint64_t permission)
{
    for (size_t i = 0; i < reader->known_count; i++)
        if (reader->known[i].permission == permission)
            return &reader->known[i];
    if (reader->known_count == reader->known_room) {
        reader->known_room = 2 * reader->known_room + 16;
        reader->known = realloc(reader->known, reader->known_room * sizeof *reader->known);
        if (!reader->known)
            abort();
    }
    struct groups *fresh = &reader->known[reader->known_count++];
    *fresh = (struct groups){.permission = (uint32_t)permission};
    return fresh;
}

static bool opens(const struct line *line)
{
    return line->letter == 'O' && line->number >= 1 && line->number <= 64;
}

static bool is_event(const struct line *line)
{
    return line->letter && strchr("ADGR", line->letter);
}

/* Gathers the groups of every permission up to the next open. False if one has too many. */
static bool gather_groups(struct reader *reader, const struct line *line, size_t count)
{
    reader->known_count = 0;
    for (size_t i = 0; i < count && !opens(&line[i]); i++)
        if (is_event(&line[i]) && line[i].number != 0 && below(line[i].set, reader->n))
            if (!tell_apart(groups_of(reader, line[i].number), line[i].set))
                return false;
    return true;
}

/* The groups that lie in a set, as roles of the second program. */
static uint64_t inside(const struct groups *groups, uint64_t set)
{
    uint64_t near = 0;
    for (size_t i = 0; i < groups->count; i++)
        if ((groups->group[i] & ~set) == 0)
            near |= UINT64_C(1) << i;
    return near;
}

/* Those that share a role with it. */
static uint64_t touched(const struct groups *groups, uint64_t set)
{
    return ~inside(groups, ~set) & ((UINT64_C(1) << groups->count) - 1);
}

static uint64_t joined(const struct groups *groups, uint64_t near)
{
    uint64_t set = 0;
    for (size_t i = 0; i < groups->count; i++)
        if (near >> i & 1)
            set |= groups->group[i];
    return set;
}

/* ---- answers */

static uint32_t ask_open(struct reader *reader, const struct line *line)
{
    uint64_t n = line->number;
    if (opens(line))
        reader->n = n;
    return second_open(&reader->second, SECOND_BYTES, opens(line) && n > SECOND_ROLES ? SECOND_ROLES : n,
                       (uint32_t)line->state);
}

static uint64_t kind_of(const struct line *line)
{
    switch (line->letter) {
    case 'D': return SECOND_DENY;
    case 'A': return SECOND_ALLOW;
    case 'R': return SECOND_WITHDRAWN;
    default: return SECOND_GIVEN;
    }
}

/* An event on a set with a role at or above n is one on such a role of the second program. */
static uint32_t ask_event(struct reader *reader, const struct line *line)
{
    const struct groups *groups = groups_of(reader, line->number);
    bool known = below(line->set, reader->n);
    uint64_t kind = kind_of(line), near = known ? inside(groups, line->set) : UINT64_C(1) << reader->second.n;
    return second_event(&reader->second, SECOND_BYTES, (uint32_t)line->number, kind,
                        kind < SECOND_WITHDRAWN ? near : second_lowest(near), (uint32_t)line->state);
}

/* A session may cut through groups. It's allowed if the groups in it are; it's denied if all that it touches are. */
static uint32_t ask_decide(struct reader *reader, const struct line *line)
{
    const struct groups *groups = groups_of(reader, line->number);
    const struct second *second = &reader->second;
    uint32_t permission = (uint32_t)line->number;
    if (!below(line->set, reader->n))
        return second_decide(second, SECOND_BYTES, permission, UINT64_C(1) << second->n).answer;
    uint32_t answer = second_decide(second, SECOND_BYTES, permission, inside(groups, line->set)).answer;
    if (answer < 10 || answer == 11)
        return answer;
    uint64_t near = touched(groups, line->set);
    bool all_named = (line->set & ~joined(groups, near)) == 0;
    return all_named && second_decide(second, SECOND_BYTES, permission, near).answer == 10 ? 10 : 12;
}

/* The lowest role of a session outside the groups that no possible holder set shares a role with. */
static uint32_t role_to_ask(struct reader *reader, const struct line *line)
{
    uint64_t may_hold = second_may_hold(second_possible(&reader->second, (uint32_t)line->number));
    return second_lowest(line->set & ~joined(groups_of(reader, line->number), ~may_hold));
}

static uint32_t ask(struct reader *reader, const struct line *line)
{
    switch (line->letter) {
    case 0: return 9;
    case 'O': return ask_open(reader, line);
    case 'Q': return ask_decide(reader, line);
    case 'F': return second_forget(&reader->second, SECOND_BYTES, (uint32_t)line->number);
    case 'S': return reader->second.n == 0;
    default: return ask_event(reader, line);
    }
}

static void write_rows(struct reader *reader, struct bytes *out)
{
    const struct second *second = &reader->second;
    for (size_t i = 0; i < second->used; i++) {
        struct second_row row = second_row(second->possible[i], second->n);
        const struct groups *groups = groups_of(reader, second->permission[i]);
        putf(out, "= %lu ", (unsigned long)second->permission[i]);
        put_set(out, joined(groups, row.denied));
        for (size_t k = 0; k < row.count; k++) {
            putf(out, " ");
            put_set(out, joined(groups, row.open[k]));
        }
        putf(out, "\n");
    }
}

/* ---- streams */

size_t line_at(const struct bytes *in, size_t start, size_t *count)
{
    const uint8_t *end = memchr(in->at + start, '\n', in->count - start);
    *count = end ? (size_t)(end - in->at) - start : in->count - start;
    return start + *count + (end != NULL);
}

static struct line *read_lines(const struct bytes *in, size_t *count)
{
    struct line *line = NULL;
    size_t room = 0, length;
    *count = 0;
    for (size_t at = 0, next; at < in->count; at = next) {
        next = line_at(in, at, &length);
        if (*count == room) {
            room = 2 * room + 64;
            line = realloc(line, room * sizeof *line);
            if (!line)
                abort();
        }
        line[(*count)++] = read_line(in->at + at, length);
    }
    return line;
}

bool expect(const struct bytes *in, struct bytes *out)
{
    struct reader reader = {0};
    size_t count;
    struct line *line = read_lines(in, &count);
    bool reached = true;
    clear(out);
    for (size_t i = 0; i < count && reached; i++) {
        uint32_t answer = ask(&reader, &line[i]);
        putf(out, "%zu %lu", i + 1, (unsigned long)answer);
        if (answer == 12)
            putf(out, " %lu", (unsigned long)role_to_ask(&reader, &line[i]));
        putf(out, "\n");
        if (answer == 0 && line[i].letter == 'S')
            write_rows(&reader, out);
        if (opens(&line[i]))
            reached = gather_groups(&reader, &line[i + 1], count - i - 1);
    }
    free(reader.known);
    free(line);
    return reached;
}
