/* A gateway with a simulated head office behind a link that goes down, loses events and brings them out of order.
 *
 * While the link is up the head office decides, and the gateway feeds its replies and policy updates to the cache: by
 * one queue, in the order in which they come. The head office numbers the states of its policy, and each event names
 * one: by these numbers the cache refuses a reply that comes late, and tells when an update is missing.
 * While it is down the gateway decides from the cache, refuses what the cache cannot decide, and says whom to ask
 * about.
 * Every answer of the cache is treated here; take the functions under "the gateway" as a pattern. */
#include <wickthrush.h>

#include <stdbool.h>
#include <stdio.h>
#include <stdlib.h>
#include <string.h>

enum { OPERATOR, FITTER, CHEMIST, ELECTRICIAN, ROLES = 16 };

#define ONLY(role) (UINT64_C(1) << (role))

enum { VALVE = 1, DOSE, METER, SCRAPER, PUMP, PERMISSIONS };

static const char *const deeds[PERMISSIONS] = {[VALVE] = "open the sludge valve",
                                               [DOSE] = "change the dose",
                                               [METER] = "read the meter",
                                               [SCRAPER] = "start the scraper",
                                               [PUMP] = "stop the pump"};

static void print_role(uint64_t role)
{
    static const char *const names[] = {"operator", "fitter", "chemist", "electrician"};
    if (role < sizeof names / sizeof names[0])
        printf("%s", names[role]);
    else
        printf("role %llu", (unsigned long long)role);
}

static void print_session(uint64_t session)
{
    const char *between = "";
    for (unsigned role = 0; role < WICKTHRUSH_MOST_ROLES; role++) {
        if ((session & ONLY(role)) == 0)
            continue;
        printf("%s", between);
        print_role(role);
        between = " and ";
    }
}

/* ---- events: replies and policy updates, as the radio brings them */

struct event {
    uint32_t permission;
    uint64_t kind;   /* one of enum wickthrush_kind, as wide as the call takes it: no bit of a wrong one gets lost */
    uint64_t number; /* of a reply the role set of the session, of an update the role */
    uint32_t state;  /* of a reply the policy state that it was worked out in, of an update the one that it makes */
};

static bool is_reply(const struct event *event)
{
    return event->kind == WICKTHRUSH_REPLY_DENY || event->kind == WICKTHRUSH_REPLY_ALLOW;
}

static void print_event(const struct event *event)
{
    switch (event->kind) {
    case WICKTHRUSH_REPLY_DENY: printf("denied to "); break;
    case WICKTHRUSH_REPLY_ALLOW: printf("allowed to "); break;
    case WICKTHRUSH_WITHDRAWN: printf("withdrawn from "); break;
    case WICKTHRUSH_GIVEN: printf("given to "); break;
    default: printf("of an unknown kind, state %u", (unsigned)event->state); return;
    }
    if (is_reply(event))
        print_session(event->number);
    else
        print_role(event->number);
    printf(", state %u", (unsigned)event->state);
}

/* All kinds in one, oldest first. With a queue for replies and one for updates an event can overtake another. */
struct queue {
    struct event events[8];
    size_t count;
};

static bool put(struct queue *queue, struct event event)
{
    if (queue->count == sizeof queue->events / sizeof queue->events[0])
        return false;
    queue->events[queue->count++] = event;
    return true;
}

static void take_out(struct queue *queue, size_t at)
{
    queue->count--;
    memmove(&queue->events[at], &queue->events[at + 1], (queue->count - at) * sizeof queue->events[0]);
}

/* ---- the head office: it has the true policy, which the gateway never sees */

enum { KEPT = 16 };

struct office {
    uint64_t holders[PERMISSIONS]; /* the roles that hold each permission */
    uint32_t state;                /* the number of its policy state, which is that of its last update */
    struct event updates[KEPT];    /* its last updates, each at its number % KEPT: a gateway may ask for them again */
};

static struct event office_replies(const struct office *office, uint32_t permission, uint64_t session)
{
    bool allowed = (office->holders[permission] & session) != 0;
    return (struct event){permission, allowed ? WICKTHRUSH_REPLY_ALLOW : WICKTHRUSH_REPLY_DENY, session, office->state};
}

/* Each update makes a policy state, which has the next number. */
static struct event office_changes(struct office *office, uint32_t permission, uint64_t kind, uint64_t number)
{
    struct event update = {permission, kind, number, ++office->state};
    if (kind == WICKTHRUSH_GIVEN)
        office->holders[permission] |= ONLY(number);
    else if (kind == WICKTHRUSH_WITHDRAWN)
        office->holders[permission] &= ~ONLY(number);
    office->updates[update.state % KEPT] = update;
    return update;
}

/* The update that made a state; none if it is not kept any more, or not made yet. */
static const struct event *office_update(const struct office *office, uint32_t state)
{
    const struct event *update = &office->updates[state % KEPT];
    return state != 0 && update->state == state ? update : NULL;
}

/* ---- the gateway */

struct gateway {
    bool link_is_up;
    struct queue queue;                  /* what came by radio and is not heard yet */
    uint8_t area[WICKTHRUSH_AREA_BYTES]; /* all that it remembers; it could be kept over a restart */
};

static void tell_someone(const char *what)
{
    printf("    ALARM: %s\n", what);
}

/* With nothing known, at a policy state; 0 while that of the head office is not known: what comes is ahead then. */
static void start_anew(struct gateway *gateway, uint32_t state)
{
    if (wickthrush_open(gateway->area, sizeof gateway->area, ROLES, state) != WICKTHRUSH_RECORDED)
        tell_someone("the cache does not open");
}

/* Answers that come from the memory being damaged or from a mistake in this program, whatever the call was. */
static void mend(struct gateway *gateway, uint32_t answer)
{
    if (answer == WICKTHRUSH_BAD_AREA) {
        start_anew(gateway, 0);
        tell_someone("the cache's memory is damaged; it starts anew and knows nothing");
        return;
    }
    printf("    answer %u, %s\n", (unsigned)answer, wickthrush_answer_name(answer));
    tell_someone("this gateway handed a wrong number to the cache");
}

/* The policy state of the cache, which stands last on its O line: "O 16 40". */
static uint32_t state_of(struct gateway *gateway)
{
    uint8_t line[WICKTHRUSH_PRINT_BYTES];
    wickthrush_written written = wickthrush_print_open(gateway->area, sizeof gateway->area, line, sizeof line);
    if (written.answer != WICKTHRUSH_RECORDED) {
        mend(gateway, written.answer);
        return 0;
    }
    line[written.bytes - 1] = '\0'; /* in place of the line feed */
    return (uint32_t)strtoul(strrchr((const char *)line, ' '), NULL, 10);
}

static void forget(struct gateway *gateway, uint32_t permission)
{
    uint32_t answer = wickthrush_forget(gateway->area, sizeof gateway->area, permission);
    if (answer != WICKTHRUSH_RECORDED)
        mend(gateway, answer);
}

/* The radio task: whatever the kind of an event, it goes behind those that wait. */
static void receive(struct gateway *gateway, struct event event)
{
    if (put(&gateway->queue, event))
        return;
    /* What is lost may be a withdrawal. The next event will show it, but perhaps not before the next decision: nothing
     * that was known is sure. */
    gateway->queue.count = 0;
    start_anew(gateway, state_of(gateway));
    tell_someone("an event is lost, since the queue is full; the cache starts anew and knows nothing");
}

/* Feeds one event to the cache, and gives its answer. */
static uint32_t hear(struct gateway *gateway, const struct event *event)
{
    uint32_t answer = wickthrush_event(gateway->area, sizeof gateway->area, event->permission, event->kind,
                                       event->number, event->state);
    printf("    heard: ");
    print_event(event);
    printf("; %s\n", wickthrush_answer_name(answer));
    switch (answer) {
    case WICKTHRUSH_RECORDED: break;
    case WICKTHRUSH_LATE:
        /* A reply that was worked out before an update that is heard: who asked asks again. An update was heard
         * already: the radio brought it twice. */
        printf("    %s: dropped\n", is_reply(event) ? "out of date" : "heard before");
        break;
    case WICKTHRUSH_AHEAD:
        /* An update between the cache's state and this one is missing. The event waits for it in the queue. */
        printf("    an update before it is missing: it waits\n");
        break;
    case WICKTHRUSH_FULL:
        /* A reply. What was known before still holds, so nothing needs doing. */
        printf("    no room to remember this; what was known stays\n");
        break;
    case WICKTHRUSH_FORGOTTEN:
        /* An update. Going on with the old rights would be wrong, so the cache dropped them; replies will fill it
         * again. */
        printf("    no room to remember this; all of this permission is forgotten\n");
        break;
    case WICKTHRUSH_CONTRADICTION:
        /* A reply. The head office changed its policy without a number, named a wrong one, or is mistaken. Which of its
         * words is wrong cannot be known: keep neither. */
        forget(gateway, event->permission);
        tell_someone("the head office contradicts what it said before; all of this permission is forgotten");
        break;
    case WICKTHRUSH_BAD_AREA: mend(gateway, answer); break;
    default:
        mend(gateway, answer);
        /* An update that cannot be taken stops the numbering: whatever names its state or a later one is ahead, and old
         * rights stay in force. An unknown kind may be an update. What is not above the cache's state is an old one. */
        if (!is_reply(event) && event->state > state_of(gateway)) {
            start_anew(gateway, event->state);
            tell_someone("an update could not be taken; the cache starts anew behind it and knows nothing");
        }
        break;
    }
    return answer;
}

/* Feeds what waits to the cache, oldest first. What is ahead stays, and is tried again behind each update. */
static void hear_queue(struct gateway *gateway)
{
    struct queue *queue = &gateway->queue;
    for (size_t k = 0; k < queue->count;) {
        if (hear(gateway, &queue->events[k]) == WICKTHRUSH_AHEAD) {
            k++;
            continue;
        }
        bool was_reply = is_reply(&queue->events[k]);
        take_out(queue, k);
        if (!was_reply)
            k = 0;
    }
}

/* With the link up: asks for the update behind the cache's state, and hears it and what waits. False if none is
 * missing. */
static bool hear_missing(struct gateway *gateway, const struct office *office)
{
    uint32_t state = state_of(gateway);
    if (state == office->state)
        return false;
    printf("    asks for update %u\n", (unsigned)state + 1);
    const struct event *update = office_update(office, state + 1);
    if (update != NULL) {
        hear(gateway, update);
    } else {
        printf("    it is not kept any more; the cache starts anew at state %u and knows nothing\n",
               (unsigned)office->state);
        start_anew(gateway, office->state);
    }
    hear_queue(gateway);
    return true;
}

/* With the link up: hears what waits, and the updates that are missing before it. */
static void hear_all(struct gateway *gateway, const struct office *office)
{
    hear_queue(gateway);
    while (gateway->queue.count > 0 && hear_missing(gateway, office))
        ;
}

/* Decides without the head office: only a proved allow lets anyone in. What came before the link went down is heard
 * first: it may be a withdrawal. */
static bool decide_alone(struct gateway *gateway, uint32_t permission, uint64_t session)
{
    hear_queue(gateway);
    /* What still waits is ahead of a missing update. The cache would go by its own state, as if there were no update;
     * this gateway knows that there is one, and it may be a withdrawal. */
    if (gateway->queue.count > 0) {
        printf("    refused: an update is missing, and nobody here knows of what\n");
        return false;
    }
    wickthrush_decided decided = wickthrush_decide(gateway->area, sizeof gateway->area, permission, session);
    switch (decided.answer) {
    case WICKTHRUSH_ALLOW: printf("    allowed: all that was heard leaves no other answer\n"); return true;
    case WICKTHRUSH_DENY: printf("    refused: none of these roles holds it\n"); return false;
    case WICKTHRUSH_UNDECIDED:
        /* The operator has a phone where the gateway has no link. What is told there is a reply like any other, in the
         * policy state that the head office says with it: first come the updates up to that. */
        printf("    refused: not known; by phone, ask about ");
        print_role(decided.role);
        printf("\n");
        return false;
    default:
        printf("    refused: the cache could not be asked\n");
        mend(gateway, decided.answer);
        return false;
    }
}

/* ---- what happens at the works */

/* The reply to a request comes. Whatever the cache answered, it is obeyed, but for one that is out of date. */
static bool obey(struct gateway *gateway, const struct office *office, struct event reply)
{
    for (unsigned times = 0; times < 3; times++) {
        receive(gateway, reply);
        hear_all(gateway, office);
        if (reply.state >= state_of(gateway)) {
            bool allowed = reply.kind == WICKTHRUSH_REPLY_ALLOW;
            printf("    %s by the head office\n", allowed ? "allowed" : "refused");
            return allowed;
        }
        /* A cache that is ahead of the head office itself starts anew. */
        hear_missing(gateway, office);
        printf("    asks again\n");
        reply = office_replies(office, reply.permission, reply.number);
    }
    tell_someone("the replies of the head office are always out of date");
    return false;
}

static void wants(uint64_t session, uint32_t permission)
{
    print_session(session);
    printf(" wants to %s\n", deeds[permission]);
}

/* Someone whose session has these roles asks. */
static bool request(struct gateway *gateway, const struct office *office, uint64_t session, uint32_t permission)
{
    wants(session, permission);
    if (!gateway->link_is_up)
        return decide_alone(gateway, permission, session);
    return obey(gateway, office, office_replies(office, permission, session));
}

/* The head office gives or withdraws. */
static struct event change(struct office *office, uint32_t permission, uint64_t kind, uint64_t number)
{
    struct event update = office_changes(office, permission, kind, number);
    printf("the head office changes who may %s: ", deeds[permission]);
    print_event(&update);
    printf("\n");
    return update;
}

/* With the link up the gateway hears of it at once. */
static void tell(struct gateway *gateway, const struct office *office, struct event update)
{
    receive(gateway, update);
    hear_all(gateway, office);
}

static void link_goes_down(struct gateway *gateway)
{
    gateway->link_is_up = false;
    printf("-- the link is down\n");
}

/* The updates made meanwhile come first: a reply about the policy of today is ahead of them. */
static void link_comes_up(struct gateway *gateway, const struct office *office)
{
    gateway->link_is_up = true;
    printf("-- the link is up\n");
    while (hear_missing(gateway, office))
        ;
}

/* A reply is on its way when the permission is withdrawn, and the withdrawal is faster. Believed, the reply would make
 * the fitter's right look proved, since the operator's is gone: but it was the operator's. */
static void come_late(struct gateway *gateway, struct office *office)
{
    wants(ONLY(OPERATOR) | ONLY(FITTER), PUMP);
    struct event reply = office_replies(office, PUMP, ONLY(OPERATOR) | ONLY(FITTER));
    tell(gateway, office, change(office, PUMP, WICKTHRUSH_WITHDRAWN, OPERATOR));
    obey(gateway, office, reply);
}

/* An order that two queues break. The operator alone holds the permission: a session of operator and fitter is allowed,
 * the operator loses it, an operator is refused. All three come in before the gateway hears the first, and then the
 * link goes down. */
static void overtake(struct gateway *gateway, struct office *office)
{
    enum { COUNT = 3 };
    struct event sent[COUNT];
    sent[0] = office_replies(office, SCRAPER, ONLY(OPERATOR) | ONLY(FITTER));
    sent[1] = office_changes(office, SCRAPER, WICKTHRUSH_WITHDRAWN, OPERATOR);
    sent[2] = office_replies(office, SCRAPER, ONLY(OPERATOR));
    printf("three events about who may %s come in, and wait to be heard\n", deeds[SCRAPER]);
    for (size_t k = 0; k < COUNT; k++) {
        printf("    sent: ");
        print_event(&sent[k]);
        printf("\n");
        receive(gateway, sent[k]);
    }
    link_goes_down(gateway);

    /* All that waits in one queue is heard before all that waits in the other, so the refusal overtakes the withdrawal.
     * Believed, it would strike the operator from the pair, and the fitter's right would look proved. Its number says
     * that it is ahead, so it is heard again when the withdrawal is. */
    static struct gateway other;
    printf("-- another gateway has a queue for replies and one for updates\n");
    start_anew(&other, sent[0].state);
    for (size_t k = 0; k < COUNT; k++)
        if (is_reply(&sent[k]))
            receive(&other, sent[k]);
    for (size_t k = 0; k < COUNT; k++)
        if (!is_reply(&sent[k]))
            receive(&other, sent[k]);
    if (request(&other, office, ONLY(FITTER), SCRAPER) && office->holders[SCRAPER] == 0)
        printf("    WRONG: nobody holds it\n");

    printf("-- this gateway has one queue\n");
    request(gateway, office, ONLY(FITTER), SCRAPER);
}

int main(void)
{
    static struct gateway gateway;
    struct office office = {.state = 40,
                            .holders = {[VALVE] = ONLY(OPERATOR),
                                        [DOSE] = ONLY(CHEMIST),
                                        [METER] = ONLY(ROLES - 1) - 1,
                                        [SCRAPER] = ONLY(OPERATOR),
                                        [PUMP] = ONLY(OPERATOR)}};

    start_anew(&gateway, 0);
    link_comes_up(&gateway, &office);
    request(&gateway, &office, ONLY(OPERATOR) | ONLY(FITTER), VALVE);
    request(&gateway, &office, ONLY(CHEMIST), VALVE);
    request(&gateway, &office, ONLY(CHEMIST), DOSE);

    link_goes_down(&gateway);
    request(&gateway, &office, ONLY(OPERATOR) | ONLY(FITTER), VALVE);
    request(&gateway, &office, ONLY(OPERATOR) | ONLY(FITTER) | ONLY(CHEMIST), VALVE);
    request(&gateway, &office, ONLY(CHEMIST), VALVE);
    request(&gateway, &office, ONLY(FITTER), VALVE);

    /* One of operator and fitter held it. With the operator's gone, nothing is proved of the fitter: a cache that only
     * struck the operator from the pair would let the fitter open the valve. */
    link_comes_up(&gateway, &office);
    tell(&gateway, &office, change(&office, VALVE, WICKTHRUSH_WITHDRAWN, OPERATOR));
    link_goes_down(&gateway);
    request(&gateway, &office, ONLY(FITTER), VALVE);
    request(&gateway, &office, ONLY(OPERATOR), VALVE);
    /* Of the two the operator is known not to hold it, so there is only the fitter to ask about. */
    request(&gateway, &office, ONLY(OPERATOR) | ONLY(FITTER), VALVE);

    /* A gateway without a link cannot know of this; it goes by what it heard last. */
    change(&office, DOSE, WICKTHRUSH_GIVEN, ELECTRICIAN);
    request(&gateway, &office, ONLY(ELECTRICIAN), DOSE);
    link_comes_up(&gateway, &office);
    link_goes_down(&gateway);
    request(&gateway, &office, ONLY(ELECTRICIAN), DOSE);

    /* The radio loses an update. The next event is ahead: the gateway asks for what is missing, and hears it first. */
    link_comes_up(&gateway, &office);
    struct event lost = change(&office, DOSE, WICKTHRUSH_WITHDRAWN, ELECTRICIAN);
    printf("    the radio loses it\n");
    request(&gateway, &office, ONLY(CHEMIST), VALVE);
    printf("the radio brings what was lost after all\n");
    tell(&gateway, &office, lost);
    link_goes_down(&gateway);
    request(&gateway, &office, ONLY(ELECTRICIAN), DOSE);

    /* The same, and the link goes down before the gateway can ask. */
    link_comes_up(&gateway, &office);
    change(&office, VALVE, WICKTHRUSH_GIVEN, FITTER);
    printf("    the radio loses it\n");
    receive(&gateway, change(&office, VALVE, WICKTHRUSH_GIVEN, ELECTRICIAN));
    link_goes_down(&gateway);
    request(&gateway, &office, ONLY(ELECTRICIAN), VALVE);
    link_comes_up(&gateway, &office);
    link_goes_down(&gateway);
    request(&gateway, &office, ONLY(ELECTRICIAN), VALVE);

    link_comes_up(&gateway, &office);
    come_late(&gateway, &office);
    overtake(&gateway, &office);

    /* A change that the head office tells nobody, and gives no number. */
    link_comes_up(&gateway, &office);
    printf("the head office takes the dose from everyone and tells nobody\n");
    office.holders[DOSE] = 0;
    request(&gateway, &office, ONLY(CHEMIST), DOSE);

    /* Each of 15 roles is proved to hold the permission: no room for a 16th set. */
    for (unsigned role = 0; role < ROLES - 1; role++)
        request(&gateway, &office, ONLY(role), METER);
    office.holders[METER] |= ONLY(ROLES - 1);
    request(&gateway, &office, ONLY(ROLES - 1), METER);
    tell(&gateway, &office, change(&office, METER, WICKTHRUSH_GIVEN, ROLES - 1));
    link_goes_down(&gateway);
    request(&gateway, &office, ONLY(OPERATOR), METER);
    link_comes_up(&gateway, &office);
    request(&gateway, &office, ONLY(OPERATOR), METER);

    /* What the gateway was not built for: no old right may outlive an update that it cannot take. */
    tell(&gateway, &office, change(&office, METER, WICKTHRUSH_WITHDRAWN, ROLES));
    printf("the head office sends a kind of event that is new\n");
    tell(&gateway, &office, office_changes(&office, VALVE, (UINT64_C(1) << 32) + WICKTHRUSH_REPLY_ALLOW, ONLY(FITTER)));
    printf("nine events come in before the first is heard\n");
    for (unsigned k = 0; k < 9; k++)
        receive(&gateway, office_replies(&office, METER, ONLY(k)));
    hear_queue(&gateway);
    request(&gateway, &office, ONLY(OPERATOR), METER);

    link_goes_down(&gateway);
    printf("a byte of the gateway's memory changes by itself\n");
    gateway.area[sizeof gateway.area - 1] ^= 1;
    request(&gateway, &office, ONLY(OPERATOR), METER);
    request(&gateway, &office, ONLY(OPERATOR), METER);
    return 0;
}
