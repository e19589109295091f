/* Wickthrush: a cache of access decisions that lives in memory lent by the caller.
 *
 * Every answer of wickthrush_decide is nonzero, deny and undecided too: compare it with WICKTHRUSH_ALLOW, as in
 * wickthrush_decide(..).answer == WICKTHRUSH_ALLOW, and refuse on anything else; the role beside it only says whom to
 * ask about.
 * The other calls are done where they answer WICKTHRUSH_RECORDED, which is 0.
 *
 * It takes the replies of a decision point and policy updates, and decides requests from them: allow or deny
 * where every assignment of roles that agrees with them says so, undecided otherwise, with a role to ask about.
 *
 * Roles are 0 to n - 1, where n is the role count. A role set is a number: role r is its bit of weight 2^r, which is
 * UINT64_C(1) << r. A permission is any number but 0.
 *
 * The decision point numbers the states of its policy: each update makes a state, whose number is one above that of the
 * state before. The area has the number of the state that it has come to. Every event names a state: a reply the one
 * that it was worked out in, an update the one that it makes.
 *
 * The lent area has WICKTHRUSH_AREA_BYTES bytes and may stand at any address. In each call area points to len bytes
 * that may be read and, except in decide, sheet and the calls that print, written; with len 0 it may be null. Their
 * contents and len may be anything. Nothing else is kept: an area may be copied, moved or stored. Areas are independent
 * of each other; the caller sees to it that no call changes an area while another call is using it.
 *
 * The calls that print, and sheet, write lines into a buffer that is lent too: out points to out_len bytes that may be
 * written, at any address, with no byte of the area, or of a table that sheet takes, among them; with out_len 0 it may
 * be null.
 *
 * Where several refusals apply, the first of this order is given: 1, 2, 3, 5, 4, 13, 14, 6, then 7 or 8. In the
 * calls that print it is 1, 18, 16. In sheet it is 1, 17, 3, 4, 16.
 */
#ifndef WICKTHRUSH_H
#define WICKTHRUSH_H

#include <stddef.h>
#include <stdint.h>

/* Each function is marked by it: an answer that is not looked at is a warning, where the compiler has one. */
#if defined(__GNUC__)
#define WICKTHRUSH_MUST_USE __attribute__((warn_unused_result))
#elif (defined(__cplusplus) && __cplusplus >= 201703L) || (defined(__STDC_VERSION__) && __STDC_VERSION__ >= 202311L)
#define WICKTHRUSH_MUST_USE [[nodiscard]]
#else
#define WICKTHRUSH_MUST_USE
#endif

#ifdef __cplusplus
extern "C" {
#endif

#define WICKTHRUSH_VERSION_MAJOR 0
#define WICKTHRUSH_VERSION_MINOR 5
#define WICKTHRUSH_VERSION_PATCH 2

/* The bytes of the lent area. */
#define WICKTHRUSH_AREA_BYTES 18456

/* The largest role count, the most permissions with a row, and the most open sets of a row. */
#define WICKTHRUSH_MOST_ROLES 64
#define WICKTHRUSH_MOST_ROWS 128
#define WICKTHRUSH_MOST_OPEN_SETS 15

/* The fewest bytes of a buffer to print into. No text of a call that prints is longer. */
#define WICKTHRUSH_PRINT_BYTES 4096

/* The fewest bytes of a buffer for a sheet. No sheet has more than 31250. */
#define WICKTHRUSH_SHEET_BYTES 36864

/* The bytes of the contents that a table of names begins with, and the most bytes of a name. */
#define WICKTHRUSH_NAME_CONTENTS_BYTES 256
#define WICKTHRUSH_MOST_NAME 32

/* No role, as wickthrush_decide gives it with every answer but undecided. It is no bit of a set: do not shift by it. */
#define WICKTHRUSH_NO_ROLE 64

/* The kinds of event, each with the number that goes beside it in wickthrush_event. */
enum wickthrush_kind {
    WICKTHRUSH_REPLY_DENY = 0,  /* the role set of the session that was refused */
    WICKTHRUSH_REPLY_ALLOW = 1, /* the role set of the session that was allowed */
    WICKTHRUSH_WITHDRAWN = 2,   /* the role that the permission was withdrawn from */
    WICKTHRUSH_GIVEN = 3        /* the role that the permission was given to */
};

enum wickthrush_answer {
    WICKTHRUSH_RECORDED = 0,
    WICKTHRUSH_BAD_AREA = 1,
    WICKTHRUSH_BAD_ROLE_COUNT = 2,
    WICKTHRUSH_NO_PERMISSION = 3,
    WICKTHRUSH_UNKNOWN_ROLE = 4,
    WICKTHRUSH_BAD_VERDICT = 5,
    WICKTHRUSH_CONTRADICTION = 6,
    WICKTHRUSH_FULL = 7,
    WICKTHRUSH_FORGOTTEN = 8,
    WICKTHRUSH_UNREADABLE = 9, /* of the line program alone: no call gives it */
    WICKTHRUSH_DENY = 10,
    WICKTHRUSH_ALLOW = 11,
    WICKTHRUSH_UNDECIDED = 12,
    WICKTHRUSH_LATE = 13,
    WICKTHRUSH_AHEAD = 14,
    WICKTHRUSH_SHORT_BUFFER = 16,
    WICKTHRUSH_BAD_NAME_TABLE = 17,
    WICKTHRUSH_NO_SUCH_ROW = 18
};

/* The answer in words, for logs and messages; "unknown" for a number that is no answer. */
WICKTHRUSH_MUST_USE static inline const char *wickthrush_answer_name(uint32_t answer)
{
    switch (answer) {
    case WICKTHRUSH_RECORDED: return "recorded";
    case WICKTHRUSH_BAD_AREA: return "bad area";
    case WICKTHRUSH_BAD_ROLE_COUNT: return "bad role count";
    case WICKTHRUSH_NO_PERMISSION: return "no permission";
    case WICKTHRUSH_UNKNOWN_ROLE: return "unknown role";
    case WICKTHRUSH_BAD_VERDICT: return "bad verdict";
    case WICKTHRUSH_CONTRADICTION: return "contradiction";
    case WICKTHRUSH_FULL: return "full";
    case WICKTHRUSH_FORGOTTEN: return "forgotten";
    case WICKTHRUSH_UNREADABLE: return "unreadable";
    case WICKTHRUSH_DENY: return "deny";
    case WICKTHRUSH_ALLOW: return "allow";
    case WICKTHRUSH_UNDECIDED: return "undecided";
    case WICKTHRUSH_LATE: return "late";
    case WICKTHRUSH_AHEAD: return "ahead";
    case WICKTHRUSH_SHORT_BUFFER: return "short buffer";
    case WICKTHRUSH_BAD_NAME_TABLE: return "bad name table";
    case WICKTHRUSH_NO_SUCH_ROW: return "no such row";
    default: return "unknown";
    }
}

/* Makes an area of role_count roles in which nothing is known, at the policy state that the decision point is in. The
 * area may hold any bytes before.
 *
 * WICKTHRUSH_RECORDED        every byte of the area is written
 * WICKTHRUSH_BAD_AREA        len is not WICKTHRUSH_AREA_BYTES; area unchanged
 * WICKTHRUSH_BAD_ROLE_COUNT  role_count is not 1 to 64; area unchanged
 */
WICKTHRUSH_MUST_USE uint32_t wickthrush_open(uint8_t *area, size_t len, uint64_t role_count, uint32_t state);

/* Takes an event about the permission: a reply of the decision point, or a policy update. Every event comes in by this
 * call, in the order in which the decision point sent them: keep one queue.
 *
 * kind says what happened. For a reply number is the role set of the session: its bit of weight 2^r for role r. For an
 * update it is one role, as itself: role 5 is 5. Both are whole 64-bit numbers; nothing of them is cut off.
 *
 * A reply is taken as true in the state that it names, and counts only if that is the area's. An update counts only if
 * its state is one above the area's, and from then on that is the area's, with WICKTHRUSH_FORGOTTEN too. At state
 * 4294967295 no update counts any more: the decision point has to count anew, and areas are opened anew.
 *
 * WICKTHRUSH_RECORDED       the area has the event and what was known before, as far as it still holds
 * WICKTHRUSH_BAD_AREA       len is wrong or the bytes are no area; area unchanged
 * WICKTHRUSH_NO_PERMISSION  permission is 0; area unchanged
 * WICKTHRUSH_BAD_VERDICT    kind is none of the four; area unchanged
 * WICKTHRUSH_UNKNOWN_ROLE   a role of the set, or that of an update, is at or above the role count; area unchanged
 * WICKTHRUSH_LATE           a reply whose state is below the area's, or an update whose state is not above it; area
 *                           unchanged
 * WICKTHRUSH_AHEAD          a reply whose state is above the area's, or an update whose state is more than one above:
 *                           an update that comes before it is missing; area unchanged
 * WICKTHRUSH_CONTRADICTION  a reply that no assignment that was possible agrees with; area unchanged
 * WICKTHRUSH_FULL           a reply, and the permission's new row has no room; area unchanged
 * WICKTHRUSH_FORGOTTEN      an update, and the permission's new row has no room: nothing is known of this permission
 *                           any more, the area has the update's state, everything else in it stays
 */
WICKTHRUSH_MUST_USE uint32_t wickthrush_event(uint8_t *area, size_t len, uint32_t permission, uint64_t kind,
                                              uint64_t number, uint32_t state);

/* What wickthrush_decide gives: one of its answers, and the role to ask about where that is WICKTHRUSH_UNDECIDED. */
typedef struct {
    uint32_t answer, role;
} wickthrush_decided;

/* Decides whether a session with the roles of set may use the permission. Never changes the area. Its answers:
 *
 * WICKTHRUSH_DENY           under every possible assignment it may not; always so for the empty set
 * WICKTHRUSH_ALLOW          under every possible assignment it may
 * WICKTHRUSH_UNDECIDED      neither
 * WICKTHRUSH_BAD_AREA       len is wrong or the bytes are no area
 * WICKTHRUSH_NO_PERMISSION  permission is 0
 * WICKTHRUSH_UNKNOWN_ROLE   set has a role at or above the role count
 *
 * With WICKTHRUSH_UNDECIDED the role is the lowest of set that is not known to be denied: it holds the permission under
 * some possible assignment, and no lower role of set does under any. Log it, and show it to the operator, who can ask
 * about it by phone: "undecided, ask about role 5". With every other answer, refusals too, it is WICKTHRUSH_NO_ROLE.
 * Role 0 is a role: look at the answer, not at the role.
 */
WICKTHRUSH_MUST_USE wickthrush_decided wickthrush_decide(const uint8_t *area, size_t len, uint32_t permission,
                                                         uint64_t set);

/* Forgets everything about a permission. The area's state stays.
 *
 * WICKTHRUSH_RECORDED       nothing is known of the permission, also where nothing was known before
 * WICKTHRUSH_BAD_AREA       len is wrong or the bytes are no area; area unchanged
 * WICKTHRUSH_NO_PERMISSION  permission is 0; area unchanged
 */
WICKTHRUSH_MUST_USE uint32_t wickthrush_forget(uint8_t *area, size_t len, uint32_t permission);

/* What the calls that print, and sheet, give: one of their answers, and how many bytes were written, from the first
 * byte of out on. With every answer but WICKTHRUSH_RECORDED these are 0. */
typedef struct {
    uint32_t answer, bytes;
} wickthrush_written;

/* Writes the first of the lines that tell what an area knows: "O n state" and a line feed, where n is the role count
 * and state the area's. wickthrush_print_row writes the others. Never changes the area; the bytes of out behind those
 * written stay as they are, and there is no NUL.
 *
 * WICKTHRUSH_RECORDED      the line is written
 * WICKTHRUSH_BAD_AREA      len is wrong or the bytes are no area; out unchanged
 * WICKTHRUSH_SHORT_BUFFER  out_len is below WICKTHRUSH_PRINT_BYTES; out unchanged
 */
WICKTHRUSH_MUST_USE wickthrush_written wickthrush_print_open(const uint8_t *area, size_t len, uint8_t *out,
                                                             size_t out_len);

/* Writes the lines of one row, which has what is known of one permission p. Rows are counted from 0, by rising
 * permission. First comes "D p set state" if something is denied, then "A p set state" for each open set in stored
 * order, with the area's state and a line feed behind each. Never changes the area; the bytes of out behind those
 * written stay as they are, and there is no NUL.
 *
 * WICKTHRUSH_RECORDED      the lines are written
 * WICKTHRUSH_BAD_AREA      len is wrong or the bytes are no area; out unchanged
 * WICKTHRUSH_NO_SUCH_ROW   row is not below the number of rows used: all are printed; out unchanged
 * WICKTHRUSH_SHORT_BUFFER  out_len is below WICKTHRUSH_PRINT_BYTES; out unchanged
 *
 * The O line and then the lines of row 0, 1, 2 and so on, up to WICKTHRUSH_NO_SUCH_ROW, are input for wickthrush(1).
 * Taken by a fresh cache, as wickthrush_open for the O line, wickthrush_event for each D and A, all are answered
 * WICKTHRUSH_RECORDED and give an area of the same bytes, if no call has changed the area between them.
 */
WICKTHRUSH_MUST_USE wickthrush_written wickthrush_print_row(const uint8_t *area, size_t len, uint64_t row, uint8_t *out,
                                                            size_t out_len);

/* Writes a sheet for people: what is known of the permission, with roles by their names, and the verdict for a session.
 * It has four lines, each with a line feed at its end:
 *
 *   denied     the roles that hold the permission under no possible assignment
 *   proved     the roles that hold it under every one
 *   open       sets of two roles or more, with " ;" between two sets: under every possible assignment some role of the
 *              set holds it, and that is so of no smaller part of the set
 *   verdict    deny, allow or undecided: what wickthrush_decide answers for the permission and the session
 *
 * Behind the word of a line a space comes before each name, or before the verdict, and nothing behind the last. The
 * roles of a set ascend, and open sets come in stored order. Decide by wickthrush_decide, not by reading a sheet.
 *
 * works and standard are tables of names: works_len and standard_len bytes that may be read, at any address; with a
 * length of 0 the pointer may be null. Their bytes and lengths may be anything, and both may be the same bytes; nobody
 * may write to a table during the call. Mind the order, works first: exchanged they compile, and the standard names go
 * before the works' own. A table begins with WICKTHRUSH_NAME_CONTENTS_BYTES bytes of contents: at byte
 * 4 * r, for each role r from 0 to 63, the byte of the table at which its name starts and how many bytes it has, 16
 * bits each, the least byte first. Behind the contents stand the names. With 0 bytes the table has no name of that
 * role, whatever the start. The name in works is shown; where works has none, that in standard; where neither has one,
 * the number of the role. A name may start within the contents, and names may overlap. 256 zeros are a table without
 * names. "wickthrush names" makes a table of a list; examples/standard-names.txt in the source is the standard list.
 *
 * A name may have any bytes and is shown as it is, line feeds and control bytes too: wickthrush(3) says what to do.
 *
 * The area is checked once. Neither it nor a table is changed; the bytes of out behind those written stay as they are,
 * and there is no NUL. At most 31250 bytes are written.
 *
 * WICKTHRUSH_RECORDED        the sheet is written
 * WICKTHRUSH_BAD_AREA        len is wrong or the bytes are no area; out unchanged
 * WICKTHRUSH_BAD_NAME_TABLE  works or standard has less than WICKTHRUSH_NAME_CONTENTS_BYTES, or a name of more than
 *                            WICKTHRUSH_MOST_NAME bytes, or one that runs outside the table; all 64 roles of both
 *                            tables are judged, whatever the role count is; out unchanged
 * WICKTHRUSH_NO_PERMISSION   permission is 0; out unchanged
 * WICKTHRUSH_UNKNOWN_ROLE    session has a role at or above the role count; out unchanged
 * WICKTHRUSH_SHORT_BUFFER    out_len is below WICKTHRUSH_SHEET_BYTES; out unchanged
 */
WICKTHRUSH_MUST_USE wickthrush_written wickthrush_sheet(const uint8_t *area, size_t len, const uint8_t *works,
                                                        size_t works_len, const uint8_t *standard, size_t standard_len,
                                                        uint32_t permission, uint64_t session, uint8_t *out,
                                                        size_t out_len);

#ifdef __cplusplus
}
#endif

#endif
