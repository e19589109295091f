/* The experiment of the Paper, sections 4.1 and 4.2, through the library:
 *     experiment PLOT TABLES SUMMARY
 * writes a plot (SVG) and two Markdown files. Every run writes the same. */
#include "../second/groups.h"
#include "plot.h"
#include "unlimited.h"
#include "wickthrush.h"

#include <stdbool.h>
#include <stdio.h>
#include <stdlib.h>
#include <string.h>

enum {
    ROLES = 50,
    STATE = 0, /* no update comes */
    ROLES_PER_USER = 5,
    MOST_USERS = UNLIMITED_OPENS,
    MOST_PERMISSIONS = 3000,
    MOST_REQUESTS = MOST_USERS * MOST_PERMISSIONS,
    TESTS = 20000,
    AREAS = (MOST_PERMISSIONS + WICKTHRUSH_MOST_ROWS - 1) / WICKTHRUSH_MOST_ROWS,
    DENY = WICKTHRUSH_DENY,
    ALLOW = WICKTHRUSH_ALLOW,
    UNDECIDED = WICKTHRUSH_UNDECIDED
};

/* A policy's size, and what the Paper reports for it: the gain over exact reuse in percent, 0 where it says nothing.
 */
struct setup {
    unsigned users, permissions, roles_per_permission, reported_gain;
};

static const struct setup setups[] = {
    {50, 3000, 2, 30},  {100, 3000, 2, 74}, {200, 3000, 2, 128}, {50, 3000, 20, 0},
    {100, 3000, 20, 0}, {200, 3000, 20, 0}, {100, 128, 2, 0},    {100, 128, 20, 0},
};

enum { SETUPS = sizeof setups / sizeof setups[0] };

struct result {
    double hit[CURVES][LEVELS];             /* percent */
    unsigned long replies, refused[CURVES]; /* refused: answered 7 */
    size_t most_opens;                      /* of a row without limits, at any time */
};

/* ---- the policy, which stands for the head office */

static uint64_t session[MOST_USERS], holders[MOST_PERMISSIONS];

static uint64_t any_roles(unsigned count)
{
    uint64_t set = 0;
    while (count > 0) {
        uint64_t role = UINT64_C(1) << any_below(ROLES);
        if ((set & role) == 0) {
            set |= role;
            count--;
        }
    }
    return set;
}

static void make_policy(const struct setup *setup)
{
    for (unsigned u = 0; u < setup->users; u++)
        session[u] = any_roles(ROLES_PER_USER);
    for (unsigned p = 0; p < setup->permissions; p++)
        holders[p] = any_roles(setup->roles_per_permission);
}

/* ---- requests: number r is user r / permissions, permission r % permissions */

static uint32_t warming[MOST_REQUESTS], testing[TESTS];

static void make_requests(const struct setup *setup)
{
    uint32_t requests = setup->users * setup->permissions;
    for (uint32_t r = 0; r < requests; r++)
        warming[r] = r;
    for (uint32_t r = requests; r > 1; r--) {
        uint32_t other = (uint32_t)any_below(r), swapped = warming[r - 1];
        warming[r - 1] = warming[other];
        warming[other] = swapped;
    }
    for (size_t t = 0; t < TESTS; t++)
        testing[t] = (uint32_t)any_below(requests);
}

/* ---- the four ways of reuse */

static bool answered[MOST_REQUESTS];
static uint32_t same_session[MOST_USERS]; /* the first user with the roles of this one */
static struct unlimited_row rows[MOST_PERMISSIONS];
static uint8_t areas[AREAS][WICKTHRUSH_AREA_BYTES], one[WICKTHRUSH_AREA_BYTES];

static void stop(const char *why)
{
    fprintf(stderr, "experiment: %s\n", why);
    exit(1);
}

static void start(const struct setup *setup)
{
    memset(answered, 0, sizeof answered);
    memset(rows, 0, sizeof rows);
    for (unsigned u = 0; u < setup->users; u++) {
        same_session[u] = 0;
        while (session[same_session[u]] != session[u])
            same_session[u]++;
    }
    for (size_t k = 0; k < AREAS; k++)
        if (wickthrush_open(areas[k], sizeof areas[k], ROLES, STATE) != WICKTHRUSH_RECORDED)
            stop("an area does not open");
    if (wickthrush_open(one, sizeof one, ROLES, STATE) != WICKTHRUSH_RECORDED)
        stop("the area does not open");
}

/* Whether the reply was refused for want of room. */
static bool feed(uint8_t *area, uint32_t permission, bool allowed, uint64_t set)
{
    enum wickthrush_kind kind = allowed ? WICKTHRUSH_REPLY_ALLOW : WICKTHRUSH_REPLY_DENY;
    uint32_t answer = wickthrush_event(area, WICKTHRUSH_AREA_BYTES, permission, kind, set, STATE);
    if (answer != WICKTHRUSH_RECORDED && answer != WICKTHRUSH_FULL)
        stop("a reply has another answer than recorded or full");
    return answer == WICKTHRUSH_FULL;
}

static void warm(const struct setup *setup, uint32_t request, struct result *result)
{
    uint32_t u = request / setup->permissions, p = request % setup->permissions;
    bool allowed = (session[u] & holders[p]) != 0;

    answered[same_session[u] * setup->permissions + p] = true;
    if (allowed)
        unlimited_allow(&rows[p], session[u]);
    else
        unlimited_deny(&rows[p], session[u]);
    if (rows[p].count > result->most_opens)
        result->most_opens = rows[p].count;
    result->refused[SEVERAL] += feed(areas[p / WICKTHRUSH_MOST_ROWS], p + 1, allowed, session[u]);
    result->refused[ONE] += feed(one, p + 1, allowed, session[u]);
    result->replies++;
}

/* A hit is a verdict, and it must be the one that the head office would give. */
static bool is_hit(uint32_t verdict, bool allowed)
{
    if (verdict != UNDECIDED && verdict != (allowed ? (uint32_t)ALLOW : (uint32_t)DENY))
        stop("a verdict differs from the policy");
    return verdict != UNDECIDED;
}

static void test(const struct setup *setup, unsigned level, struct result *result)
{
    unsigned hits[CURVES] = {0};
    for (size_t t = 0; t < TESTS; t++) {
        uint32_t u = testing[t] / setup->permissions, p = testing[t] % setup->permissions;
        bool allowed = (session[u] & holders[p]) != 0;
        const uint8_t *area = areas[p / WICKTHRUSH_MOST_ROWS];
        hits[EXACT] += answered[same_session[u] * setup->permissions + p];
        hits[UNLIMITED] += is_hit(unlimited_decide(&rows[p], session[u]), allowed);
        hits[SEVERAL] += is_hit(wickthrush_decide(area, sizeof areas[0], p + 1, session[u]).answer, allowed);
        hits[ONE] += is_hit(wickthrush_decide(one, sizeof one, p + 1, session[u]).answer, allowed);
    }
    for (size_t c = 0; c < CURVES; c++)
        result->hit[c][level] = 100.0 * hits[c] / TESTS;
}

/* Warmness level k is k twentieths of all requests. */
static void run(const struct setup *setup, struct result *result)
{
    make_policy(setup);
    make_requests(setup);
    start(setup);
    uint32_t requests = setup->users * setup->permissions, fed = 0;
    for (unsigned level = 0; level < LEVELS; level++) {
        for (; fed < (uint64_t)requests * level / (LEVELS - 1); fed++)
            warm(setup, warming[fed], result);
        test(setup, level, result);
    }
}

/* ---- what is written */

/* The mean over warmness from 5 % on of how many percent more hits than exact reuse. */
static double gain(const struct result *result, enum curve curve)
{
    double sum = 0;
    for (unsigned level = 1; level < LEVELS; level++)
        sum += 100 * (result->hit[curve][level] / result->hit[EXACT][level] - 1);
    return sum / (LEVELS - 1);
}

static double refused(const struct result *result, enum curve curve)
{
    return 100.0 * result->refused[curve] / result->replies;
}

static unsigned needed_areas(const struct setup *setup)
{
    return (setup->permissions + WICKTHRUSH_MOST_ROWS - 1) / WICKTHRUSH_MOST_ROWS;
}

static void write_tables(FILE *out, const struct result *results)
{
    fprintf(out,
            "# Hit rates\n\nWritten by `tests/experiment/run`; [EXPERIMENT.md](../EXPERIMENT.md) says what they mean. "
            "Hit rates in percent of %d requests.\n",
            TESTS);
    for (size_t k = 0; k < SETUPS; k++) {
        const struct setup *s = &setups[k];
        fprintf(out, "\n## %u users, %u permissions, %u roles a permission\n\n", s->users, s->permissions,
                s->roles_per_permission);
        fprintf(out,
                "| Warmness | Exact reuse | One area | Areas for all (%u) | Without limits |\n|---|---|---|---|---|\n",
                needed_areas(s));
        for (unsigned level = 0; level < LEVELS; level++)
            fprintf(out, "| %u %% | %.1f | %.1f | %.1f | %.1f |\n", 100 * level / (LEVELS - 1),
                    results[k].hit[EXACT][level], results[k].hit[ONE][level], results[k].hit[SEVERAL][level],
                    results[k].hit[UNLIMITED][level]);
    }
}

static void write_summary(FILE *out, const struct result *results)
{
    static const unsigned levels[] = {2, 4, 6, 10, 20};
    fprintf(out, "Hit rate in percent, exact reuse / areas for all permissions / without limits:\n\n");
    fputs("| Users | Permissions | Roles a permission | 10 % warm | 20 % | 30 % | 50 % | 100 % |\n"
          "|---|---|---|---|---|---|---|---|\n",
          out);
    for (size_t k = 0; k < SETUPS; k++) {
        fprintf(out, "| %u | %u | %u |", setups[k].users, setups[k].permissions, setups[k].roles_per_permission);
        for (size_t i = 0; i < sizeof levels / sizeof levels[0]; i++)
            fprintf(out, " %.1f / %.1f / %.1f |", results[k].hit[EXACT][levels[i]], results[k].hit[SEVERAL][levels[i]],
                    results[k].hit[UNLIMITED][levels[i]]);
        fprintf(out, "\n");
    }
    fprintf(out, "\nMean gain over exact reuse in percent, and what did not fit:\n\n");
    fprintf(
        out,
        "| Users | Permissions | Roles a permission | Gain, the Paper | without limits | areas for all | one area "
        "| Replies answered 7, areas for all | one area | Most open sets, without limits |\n"
        "|---|---|---|---|---|---|---|---|---|---|\n");
    for (size_t k = 0; k < SETUPS; k++) {
        const struct result *r = &results[k];
        fprintf(out, "| %u | %u | %u |", setups[k].users, setups[k].permissions, setups[k].roles_per_permission);
        if (setups[k].reported_gain)
            fprintf(out, " %u |", setups[k].reported_gain);
        else
            fprintf(out, " - |");
        fprintf(out, " %.0f | %.0f | %.0f | %.1f %% | %.1f %% | %zu |\n", gain(r, UNLIMITED), gain(r, SEVERAL),
                gain(r, ONE), refused(r, SEVERAL), refused(r, ONE), r->most_opens);
    }
}

static FILE *create(const char *name)
{
    FILE *out = fopen(name, "w");
    if (out == NULL)
        stop("a file cannot be written");
    return out;
}

int main(int argc, char **argv)
{
    if (argc != 4)
        stop("usage: experiment PLOT TABLES SUMMARY");
    static struct result results[SETUPS];
    struct panel panels[SETUPS];
    unsigned count = 0;
    for (size_t k = 0; k < SETUPS; k++) {
        run(&setups[k], &results[k]);
        if (setups[k].permissions != MOST_PERMISSIONS)
            continue;
        snprintf(panels[count].title, sizeof panels[count].title, "%u users, %u roles a permission", setups[k].users,
                 setups[k].roles_per_permission);
        panels[count++].hit = results[k].hit;
    }
    FILE *plot = create(argv[1]), *tables = create(argv[2]), *summary = create(argv[3]);
    write_plot(plot, panels, count);
    write_tables(tables, results);
    write_summary(summary, results);
    bool written = fclose(plot) == 0;
    written &= fclose(tables) == 0;
    written &= fclose(summary) == 0;
    if (!written)
        stop("a file cannot be written");
    return 0;
}
