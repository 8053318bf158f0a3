/* A host in C: document 01's worked listing, by direct calls on a target that the host keeps and lends.
 *
 * It prints the seven lines of the listing, each from the reply of a call. With --more it goes on with a call that is
 * refused, with the calls that the listing does not have, and with slices of length 0. It compares nothing itself:
 * host.txt and host-more.txt are what it should print, and bin/hosts builds it, runs it and compares.
 *
 * Exit status: 0 all calls were made; 1 the lines could not be written; 2 wrong usage, or no target was made. */
#include "gussetreed.h"

#include <inttypes.h>
#include <stdio.h>
#include <string.h>

/* What the host keeps. The target is the whole state of the reference target, the memory is what puts write and gets read.
 * Both are lent to a call for as long as it runs; the library keeps nothing. They are static, and so they are aligned,
 * initialised, and not on the stack. */
static gussetreed_target target;
static uint8_t memory[16];

/* ---- Printing, as document 01 has it ("Script and printout"): a line for each call, numbered from 0, all decimal. */

static unsigned line;

static void number(uint64_t n)
{
    printf(" %" PRIu64, n);
}

static const char *refusal(uint32_t code)
{
    switch (code) {
    case GUSSETREED_BAD_STATE:
        return "BAD_STATE";
    case GUSSETREED_BAD_MEMORY:
        return "BAD_MEMORY";
    case GUSSETREED_ARG_INVALID:
        return "ARG_INVALID";
    case GUSSETREED_NO_SPACE:
        return "NO_SPACE";
    case GUSSETREED_IN_USE:
        return "IN_USE";
    default:
        return "?";
    }
}

/* What a reply says, without an end of line. Which of its numbers mean something depends on the answer. */
static void say_answer(gussetreed_reply r)
{
    printf("%u ", line++);
    switch (r.answer) {
    case GUSSETREED_REFUSED:
        printf("REFUSED %s", refusal(r.code));
        break;
    case GUSSETREED_MADE:
        printf("MADE");
        break;
    case GUSSETREED_LINKED: /* the handle */
        printf("LINKED");
        number(r.value);
        break;
    case GUSSETREED_TAKEN:
        printf("TAKEN");
        break;
    case GUSSETREED_DONE:
        printf("DONE");
        break;
    case GUSSETREED_SEARCHED: /* how many were found */
        printf("SEARCHED");
        number(r.value);
        break;
    case GUSSETREED_PRIORITY: /* the accepted length, the offset, the ack */
    case GUSSETREED_OVERFLOW:
        printf("%s", r.answer == GUSSETREED_PRIORITY ? "PRIORITY" : "OVERFLOW");
        number(r.value);
        number(r.second);
        number(r.code);
        break;
    case GUSSETREED_DROPPED: /* the ack */
        printf("DROPPED");
        number(r.code);
        break;
    case GUSSETREED_PERM:
        printf("PERM");
        number(r.code);
        break;
    case GUSSETREED_OP:
        printf("OP");
        number(r.code);
        break;
    case GUSSETREED_NONE:
        printf("NONE");
        break;
    case GUSSETREED_COUNTER: /* success and failure */
        printf("COUNTER");
        number(r.value);
        number(r.second);
        break;
    case GUSSETREED_REGISTER:
        printf("REGISTER");
        number(r.value);
        break;
    case GUSSETREED_READY:
        printf("READY");
        break;
    case GUSSETREED_NOT_READY:
        printf("NOT_READY");
        break;
    case GUSSETREED_REACHED: /* the place in the list, from 0 */
        printf("REACHED");
        number(r.value);
        break;
    case GUSSETREED_NONE_REACHED:
        printf("NONE_REACHED");
        break;
    default:
        printf("? %" PRIu32, r.answer);
    }
}

static void say(gussetreed_reply r)
{
    say_answer(r);
    printf("\n");
}

/* The line of a get has the accepted bytes behind the answer, in hex: the first of the reply buffer. */
static void say_get(gussetreed_reply r, const uint8_t *buffer)
{
    say_answer(r);
    if (r.answer == GUSSETREED_PRIORITY || r.answer == GUSSETREED_OVERFLOW) {
        printf("%s", r.value == 0 ? " -" : " ");
        for (uint64_t i = 0; i < r.value; i++)
            printf("%02x", buffer[i]);
    }
    printf("\n");
}

static const char *event_kind(uint32_t kind)
{
    switch (kind) {
    case GUSSETREED_EVENT_LINK:
        return "LINK";
    case GUSSETREED_EVENT_PUT:
        return "PUT";
    case GUSSETREED_EVENT_GET:
        return "GET";
    case GUSSETREED_EVENT_PUT_OVERFLOW:
        return "PUT_OVERFLOW";
    case GUSSETREED_EVENT_GET_OVERFLOW:
        return "GET_OVERFLOW";
    case GUSSETREED_EVENT_SEARCH:
        return "SEARCH";
    case GUSSETREED_EVENT_AUTO_UNLINK:
        return "AUTO_UNLINK";
    default: /* GUSSETREED_EVENT_AUTO_FREE; any other number is read so too */
        return "AUTO_FREE";
    }
}

/* The line of an event read: the event's fields in document 01's order, then the gap. */
static void say_event(gussetreed_event_reply r)
{
    const gussetreed_event e = r.event;

    if (r.answer != GUSSETREED_EVENT) {
        say((gussetreed_reply){.answer = r.answer, .code = r.code});
        return;
    }
    printf("%u EVENT %s %s", line++, event_kind(e.kind), e.fail == GUSSETREED_FAIL_OK ? "OK" : "NO_MATCH");
    number(e.portal);
    number(e.list);
    number(e.nid);
    number(e.pid);
    number(e.uid);
    number(e.matchbits);
    number(e.requested);
    number(e.accepted);
    number(e.offset);
    number(e.place);
    number(e.hdrdata);
    number(e.user);
    number(e.gap);
    printf("\n");
}

/* ---- The calls */

/* The put of the listing, but for its portal and payload: from nid 1, pid 2, uid 3, with match bits 5. */
static gussetreed_reply put(uint16_t portal, size_t memory_length, const char *payload)
{
    const gussetreed_request q = {
        .portal = portal,
        .ack = 1, /* full */
        .nid = 1,
        .pid = 2,
        .uid = 3,
        .matchbits = 5,
        .offset = 0,
        .hdrdata = 9,
    };
    return gussetreed_put(&target, memory, memory_length, q, (const uint8_t *)payload, strlen(payload));
}

static void listing(void)
{
    /* An overflow entry for early messages: it takes every put, one behind the other. */
    const gussetreed_entry early = {
        .portal = 0,
        .list = 1, /* overflow */
        .counter = GUSSETREED_NO_COUNTER,
        .options = GUSSETREED_OP_PUT | GUSSETREED_MANAGE_LOCAL,
        .start = 0,
        .length = 8,
        .minfree = 0,
        .uid = GUSSETREED_ANY,
        .nid = GUSSETREED_ANY,
        .pid = GUSSETREED_ANY,
        .matchbits = 0,
        .ignorebits = UINT64_MAX,
        .user = 7,
    };
    say(gussetreed_append(&target, early));

    /* No entry waits for this put in the priority list, so it comes to the overflow entry, and its header waits. */
    say(put(0, sizeof memory, "abc"));

    /* The entry that the put was meant for comes too late and takes the waiting message; nothing is linked. */
    const gussetreed_entry late = {
        .portal = 0,
        .list = 0, /* priority */
        .counter = GUSSETREED_NO_COUNTER,
        .options = GUSSETREED_OP_PUT | GUSSETREED_USE_ONCE,
        .start = 8,
        .length = 4,
        .minfree = 0,
        .uid = GUSSETREED_ANY,
        .nid = GUSSETREED_ANY,
        .pid = GUSSETREED_ANY,
        .matchbits = 5,
        .ignorebits = 0,
        .user = 8,
    };
    say(gussetreed_append(&target, late));

    /* LINK of the overflow entry, PUT into it, PUT_OVERFLOW of the late one; then the queue is empty. */
    for (int i = 0; i < 4; i++)
        say_event(gussetreed_read_event(&target));
}

/* The other calls. What the listing left: the overflow entry has handle 1 and local offset 3, and nothing waits in it. */
static void others(void)
{
    /* Refused: the memory is not as long as the target's. A refused call changes nothing. */
    say(put(0, sizeof memory - 1, "de"));

    /* The same with the right memory: two bytes behind the first three. */
    say(put(0, sizeof memory, "de"));

    /* A search has an entry's fields, and the mode in place of the list. This one finds the waiting put and deletes it. */
    const gussetreed_entry sought = {
        .portal = 0,
        .list = 1, /* delete */
        .counter = GUSSETREED_NO_COUNTER,
        .options = GUSSETREED_OP_PUT,
        .uid = GUSSETREED_ANY,
        .nid = GUSSETREED_ANY,
        .pid = GUSSETREED_ANY,
        .matchbits = 5,
        .user = 9,
    };
    say(gussetreed_search(&target, sought));

    /* Nothing waits in the overflow entry any more, so it can be unlinked. */
    say(gussetreed_unlink(&target, 1));

    /* An entry for gets, which counts the bytes of each in counter 0; and a get from it. The buffer's length is the requested
     * length, here 8. Only 5 bytes are available: the others of the buffer stay as they are. */
    const gussetreed_entry given = {
        .portal = 0,
        .list = 0, /* priority */
        .counter = 0,
        .options = GUSSETREED_OP_GET | GUSSETREED_CT_COMM | GUSSETREED_CT_BYTES,
        .start = 0,
        .length = 5,
        .uid = GUSSETREED_ANY,
        .nid = GUSSETREED_ANY,
        .pid = GUSSETREED_ANY,
        .matchbits = 6,
        .user = 10,
    };
    say(gussetreed_append(&target, given));
    const gussetreed_request q = {.portal = 0, .nid = 1, .pid = 2, .uid = 3, .matchbits = 6};
    uint8_t buffer[8] = {0};
    const gussetreed_reply got = gussetreed_get(&target, memory, sizeof memory, q, buffer, sizeof buffer);
    say_get(got, buffer);

    /* Counter 1 is set to 2 and incremented by 1; counter 0 has the 5 bytes of the get. */
    say(gussetreed_set_counter(&target, (gussetreed_counter_change){.counter = 1, .success = 2}));
    say(gussetreed_increment(&target, (gussetreed_counter_change){.counter = 1, .success = 1}));
    say(gussetreed_read_counter(&target, 0));

    /* Has counter 0 reached 6? Has counter 0 reached 6, or else counter 1 its 3? */
    say(gussetreed_ready(&target, (gussetreed_counter_test){.counter = 0, .test = 6}));
    const uint64_t counters[] = {0, 1};
    const uint64_t tests[] = {6, 3};
    say(gussetreed_poll(&target, counters, 2, tests, 2));

    /* Portal 1 has no entry: the put is dropped, and register 0 counts it. */
    say(put(1, sizeof memory, "f"));
    say(gussetreed_read_register(&target, 0));
}

/* A target of size 0, whose memory has length 0. Where the length is 0 the pointer may be NULL. */
static void nothing(void)
{
    static gussetreed_target empty;
    say(gussetreed_new(&empty, (gussetreed_settings){.size = 0}));

    /* An entry without bytes takes puts and gets. */
    const gussetreed_entry entry = {
        .portal = 0,
        .list = 0, /* priority */
        .counter = GUSSETREED_NO_COUNTER,
        .options = GUSSETREED_OP_PUT | GUSSETREED_OP_GET,
        .uid = GUSSETREED_ANY,
        .nid = GUSSETREED_ANY,
        .pid = GUSSETREED_ANY,
        .user = 11,
    };
    say(gussetreed_append(&empty, entry));

    /* No memory, and no payload or buffer; nor counters and tests. */
    const gussetreed_request q = {.portal = 0, .nid = 1, .pid = 2, .uid = 3};
    say(gussetreed_put(&empty, NULL, 0, q, NULL, 0));
    say_get(gussetreed_get(&empty, NULL, 0, q, NULL, 0), NULL);
    say(gussetreed_poll(&empty, NULL, 0, NULL, 0));
}

int main(int argc, char **argv)
{
    const int more = argc == 2 && strcmp(argv[1], "--more") == 0;
    if (argc != 1 && !more) {
        fputs("usage: host [--more]\n", stderr);
        return 2;
    }

    /* The listing begins with a target of 16 bytes of memory. Making it has no line there. */
    const gussetreed_reply made = gussetreed_new(&target, (gussetreed_settings){.size = sizeof memory});
    if (made.answer != GUSSETREED_MADE) {
        fprintf(stderr, "host: no target was made: %s\n", refusal(made.code));
        return 2;
    }
    listing();
    if (more) {
        others();
        nothing();
    }
    return fflush(stdout) == 0 && !ferror(stdout) ? 0 : 1;
}
