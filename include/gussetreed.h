/* The reference target for hosts in C (C99 or later) and C++ (C++11 or later) on x86-64.
 *
 * Made by tools/make-header from
 *   crates/matching/src/layout.rt
 *   crates/matching/src/entry.rt
 *   crates/state/src/layout.rt
 *   crates/matching/src/kinds.rt
 *   crates/gussetreed/src/layout.rt
 *   crates/gussetreed/src/calls.rt
 * Not to be edited: change the source and run the tool. The library is libgussetreed.a; examples/host.c is a host.
 *
 * What a caller owes. The proofs speak of calls that keep to this, and nothing checks it:
 *
 * - The target pointer points to a whole gussetreed_target, aligned to 8, in memory that was initialised. For
 *   gussetreed_new alone it need not be: its code does not read the place. Every bit pattern is a target, and every
 *   other call refuses an unsound one BAD_STATE.
 * - A slice is a pointer and, behind it, its length in elements: the pointer has that many, all initialised, those of a
 *   reply buffer too. With length 0 it may be any pointer, NULL too.
 * - No overlap between target, memory, payload and reply buffer.
 * - One thread at a time: while a call runs, nothing else touches what it is lent, no signal handler either.
 * - Enough stack: 256 KiB free.
 * - These declarations, and no others: nothing compares a caller's declarations with the library, which is why the
 *   prototypes are made from the source.
 *
 * Nothing else is asked: every call takes every value of its arguments, and answers REFUSED where it must. */
#ifndef GUSSETREED_H
#define GUSSETREED_H

#include <stddef.h>
#include <stdint.h>

#if defined(__cplusplus)
#define GUSSETREED_SIZE_IS(type, size) static_assert(sizeof(type) == size, "the size of " #type)
#elif defined(__STDC_VERSION__) && __STDC_VERSION__ >= 201112L
#define GUSSETREED_SIZE_IS(type, size) _Static_assert(sizeof(type) == size, "the size of " #type)
#else
#define GUSSETREED_SIZE_IS(type, size) typedef char gussetreed_size_of_##type[sizeof(type) == size ? 1 : -1]
#endif

#ifdef __cplusplus
extern "C" {
#endif

GUSSETREED_SIZE_IS(size_t, 8);

/* ---- crates/matching/src/layout.rt */

/* What a host hands over by value. Unsigned numbers in C's layout, with no padding: every bit pattern is a value. */

/* A match list entry, as append and search take it. */
typedef struct gussetreed_entry {
    /* The portal table index: 0 to 7. */
    uint16_t portal;
    /* 0 priority, 1 overflow. In a search the mode: 0 look, 1 delete. */
    uint8_t list;
    /* The counting event: 0 to 15, or 255 for none. */
    uint8_t counter;
    uint32_t options;
    /* The region: where it starts in the memory, and its length in bytes. */
    uint32_t start;
    uint32_t length;
    uint32_t minfree;
    /* Identities: 4,294,967,295 takes any. */
    uint32_t uid;
    uint32_t nid;
    uint32_t pid;
    uint64_t matchbits;
    uint64_t ignorebits;
    /* The user number, which the entry's events carry. */
    uint64_t user;
} gussetreed_entry;
GUSSETREED_SIZE_IS(gussetreed_entry, 56);

/* A request as its caller gives it. Its kind and its requested length are not here: the call that takes it adds them. */
typedef struct gussetreed_request {
    uint16_t portal;
    /* The acknowledgement asked: 0 none, 1 full, 2 counting, 3 operation. */
    uint16_t ack;
    uint32_t nid;
    uint32_t pid;
    uint32_t uid;
    uint64_t matchbits;
    uint64_t offset;
    /* The header data. */
    uint64_t hdrdata;
} gussetreed_request;
GUSSETREED_SIZE_IS(gussetreed_request, 40);

/* ---- crates/matching/src/entry.rt */

/* The option bits (names of the Portals report, 3.12.1). */
#define GUSSETREED_OP_PUT (1u << 0)
#define GUSSETREED_OP_GET (1u << 1)
#define GUSSETREED_MANAGE_LOCAL (1u << 2)
#define GUSSETREED_NO_TRUNCATE (1u << 3)
#define GUSSETREED_USE_ONCE (1u << 4)
#define GUSSETREED_ACK_DISABLE (1u << 5)
#define GUSSETREED_UNEXPECTED_HDR_DISABLE (1u << 6)
#define GUSSETREED_EVENT_LINK_DISABLE (1u << 7)
#define GUSSETREED_EVENT_COMM_DISABLE (1u << 8)
#define GUSSETREED_EVENT_SUCCESS_DISABLE (1u << 9)
#define GUSSETREED_EVENT_OVER_DISABLE (1u << 10)
#define GUSSETREED_EVENT_UNLINK_DISABLE (1u << 11)
#define GUSSETREED_CT_COMM (1u << 12)
#define GUSSETREED_CT_OVERFLOW (1u << 13)
#define GUSSETREED_CT_BYTES (1u << 14)

/* In uid, nid or pid of an entry: any. A request may not carry it. */
#define GUSSETREED_ANY 4294967295u

/* In an entry's counter: none. */
#define GUSSETREED_NO_COUNTER 255u

/* ---- crates/state/src/layout.rt */

/* The state that a host keeps and lends to each call, and what it hands over by value. Unsigned numbers in C's layout, with no
 * padding: every bit pattern is a value. A flag is set when it is not 0; a kind is read by a decoding that knows every number; the
 * head of the ring is read modulo 64. An event in the queue is given back as it stands there. */

/* The settings of a new target. */
typedef struct gussetreed_settings {
    /* The memory's length in bytes: at most 65,536. */
    uint32_t size;
} gussetreed_settings;
GUSSETREED_SIZE_IS(gussetreed_settings, 4);

/* An entry that the target holds: linked, or retired while messages wait in it. */
typedef struct gussetreed_held_entry {
    gussetreed_entry entry;
    uint32_t handle;
    /* The local offset. */
    uint32_t local;
    /* Not 0: it unlinked by itself while messages wait in it, and is in no list. */
    uint64_t retired;
} gussetreed_held_entry;
GUSSETREED_SIZE_IS(gussetreed_held_entry, 72);

/* All entries in the order in which they were linked. A list of a portal is those of its portal and list number that are linked. */
typedef struct gussetreed_entries {
    gussetreed_held_entry slots[64];
    size_t count;
} gussetreed_entries;
GUSSETREED_SIZE_IS(gussetreed_entries, 4616);

/* The header of a message that waits in an overflow entry. */
typedef struct gussetreed_header {
    uint16_t portal;
    /* 0 put, any other get. */
    uint16_t kind;
    /* The handle of the entry. */
    uint32_t handle;
    uint32_t nid;
    uint32_t pid;
    uint32_t uid;
    uint32_t requested;
    uint32_t accepted;
    /* Where its bytes are in the memory. */
    uint32_t place;
    uint64_t matchbits;
    /* The request's own offset. */
    uint64_t offset;
    uint64_t hdrdata;
} gussetreed_header;
GUSSETREED_SIZE_IS(gussetreed_header, 56);

/* The unexpected headers of all portals in the order of their arrival. */
typedef struct gussetreed_unexpected {
    gussetreed_header slots[32];
    size_t count;
} gussetreed_unexpected;
GUSSETREED_SIZE_IS(gussetreed_unexpected, 1800);

/* A full event. */
typedef struct gussetreed_event {
    /* 0 LINK, 1 PUT, 2 GET, 3 PUT_OVERFLOW, 4 GET_OVERFLOW, 5 SEARCH, 6 AUTO_UNLINK, any other AUTO_FREE. */
    uint32_t kind;
    /* 0 OK, any other NO_MATCH. */
    uint16_t fail;
    /* 1 where events were lost just before this one, else 0. */
    uint16_t gap;
    uint16_t portal;
    uint16_t list;
    /* The handle of the entry whose user it carries: 0 where that has none (a search, an append answered TAKEN). Not printed. */
    uint32_t owner;
    uint32_t nid;
    uint32_t pid;
    uint32_t uid;
    uint32_t requested;
    uint32_t accepted;
    uint32_t place;
    uint64_t matchbits;
    uint64_t offset;
    uint64_t hdrdata;
    uint64_t user;
} gussetreed_event;
GUSSETREED_SIZE_IS(gussetreed_event, 72);

/* The event queue: a ring. */
typedef struct gussetreed_queue {
    gussetreed_event slots[64];
    /* The slot of the oldest event, modulo 64. */
    size_t head;
    size_t count;
    /* Not 0: events were lost since the last one was queued. */
    uint64_t lost;
} gussetreed_queue;
GUSSETREED_SIZE_IS(gussetreed_queue, 4632);

/* A counting event. */
typedef struct gussetreed_counter {
    uint64_t success;
    uint64_t failure;
} gussetreed_counter;
GUSSETREED_SIZE_IS(gussetreed_counter, 16);

/* Counting events 0 to 15. */
typedef struct gussetreed_counters {
    gussetreed_counter slots[16];
} gussetreed_counters;
GUSSETREED_SIZE_IS(gussetreed_counters, 256);

/* The status registers. */
typedef struct gussetreed_registers {
    /* PTL_SR_DROP_COUNT */
    uint64_t dropped;
    /* PTL_SR_PERMISSION_VIOLATIONS */
    uint64_t permission;
    /* PTL_SR_OPERATION_VIOLATIONS */
    uint64_t operation;
} gussetreed_registers;
GUSSETREED_SIZE_IS(gussetreed_registers, 24);

/* The target side of one matching interface. */
typedef struct gussetreed_target {
    /* The memory's length in bytes. */
    uint32_t size;
    /* The last handle given: 0 if none. */
    uint32_t last;
    gussetreed_entries entries;
    gussetreed_unexpected unexpected;
    gussetreed_queue queue;
    gussetreed_counters counters;
    gussetreed_registers registers;
} gussetreed_target;
GUSSETREED_SIZE_IS(gussetreed_target, 11336);

/* What a counter is set to, or incremented by. */
typedef struct gussetreed_counter_change {
    uint64_t counter;
    uint64_t success;
    uint64_t failure;
} gussetreed_counter_change;
GUSSETREED_SIZE_IS(gussetreed_counter_change, 24);

/* A counter, and the success that it is asked for. */
typedef struct gussetreed_counter_test {
    uint64_t counter;
    uint64_t test;
} gussetreed_counter_test;
GUSSETREED_SIZE_IS(gussetreed_counter_test, 16);

/* ---- crates/matching/src/kinds.rt */

/* The kinds of a full event. */
#define GUSSETREED_EVENT_LINK 0u
#define GUSSETREED_EVENT_PUT 1u
#define GUSSETREED_EVENT_GET 2u
#define GUSSETREED_EVENT_PUT_OVERFLOW 3u
#define GUSSETREED_EVENT_GET_OVERFLOW 4u
#define GUSSETREED_EVENT_SEARCH 5u
#define GUSSETREED_EVENT_AUTO_UNLINK 6u
#define GUSSETREED_EVENT_AUTO_FREE 7u

/* The fail types of a full event. */
#define GUSSETREED_FAIL_OK 0u
#define GUSSETREED_FAIL_NO_MATCH 1u

/* ---- crates/gussetreed/src/layout.rt */

/* What a call hands back to a host: unsigned numbers in C's layout, with no padding. What each number means is `reply_of` of the
 * specification, and for the event read `event_reply_of`. */

/* An answer as numbers. A number that its answer has no use for is 0. */
typedef struct gussetreed_reply {
    /* Which answer it is: one of the numbers below. */
    uint32_t answer;
    /* REFUSED: the refusal. PRIORITY, OVERFLOW, DROPPED, PERM, OP: the ack. */
    uint32_t code;
    /* LINKED: the handle. SEARCHED: how many. PRIORITY, OVERFLOW: the accepted length. COUNTER: its success. REGISTER: its value.
     * REACHED: the place in the list, from 0. */
    uint64_t value;
    /* PRIORITY, OVERFLOW: the offset. COUNTER: its failure. */
    uint64_t second;
} gussetreed_reply;
GUSSETREED_SIZE_IS(gussetreed_reply, 24);

/* The answer of an event read. */
typedef struct gussetreed_event_reply {
    /* EVENT, NONE or REFUSED. */
    uint32_t answer;
    /* REFUSED: the refusal. */
    uint32_t code;
    /* EVENT: the oldest event. Else all its numbers are 0. */
    gussetreed_event event;
} gussetreed_event_reply;
GUSSETREED_SIZE_IS(gussetreed_event_reply, 80);

/* The answers. */
#define GUSSETREED_REFUSED 0u
#define GUSSETREED_MADE 1u
#define GUSSETREED_LINKED 2u
#define GUSSETREED_TAKEN 3u
#define GUSSETREED_DONE 4u
#define GUSSETREED_SEARCHED 5u
#define GUSSETREED_PRIORITY 6u
#define GUSSETREED_OVERFLOW 7u
#define GUSSETREED_DROPPED 8u
#define GUSSETREED_PERM 9u
#define GUSSETREED_OP 10u
#define GUSSETREED_EVENT 11u
#define GUSSETREED_NONE 12u
#define GUSSETREED_COUNTER 13u
#define GUSSETREED_REGISTER 14u
#define GUSSETREED_READY 15u
#define GUSSETREED_NOT_READY 16u
#define GUSSETREED_REACHED 17u
#define GUSSETREED_NONE_REACHED 18u

/* The refusals. */
#define GUSSETREED_BAD_STATE 1u
#define GUSSETREED_BAD_MEMORY 2u
#define GUSSETREED_ARG_INVALID 3u
#define GUSSETREED_NO_SPACE 4u
#define GUSSETREED_IN_USE 5u

/* ---- crates/gussetreed/src/calls.rt */

/* Makes a target of a size in a place that its caller lends. What the place held is not read, and is lost: beside a refusal too,
 * where a target of size 0 comes to stand there. */
gussetreed_reply gussetreed_new(gussetreed_target *place, gussetreed_settings s);

/* Appends an entry: LINKED or TAKEN. */
gussetreed_reply gussetreed_append(gussetreed_target *t, gussetreed_entry e);

/* Unlinks an entry by its handle: DONE. */
gussetreed_reply gussetreed_unlink(gussetreed_target *t, uint32_t handle);

/* Searches the unexpected headers; the entry has the mode, 0 look or 1 delete, in place of the list: SEARCHED. */
gussetreed_reply gussetreed_search(gussetreed_target *t, gussetreed_entry e);

/* Takes a put: PRIORITY, OVERFLOW, DROPPED, PERM or OP. Of the slices only the memory may be written. */
gussetreed_reply gussetreed_put(
    gussetreed_target *t,
    uint8_t *memory, size_t memory_length,
    gussetreed_request q,
    const uint8_t *payload, size_t payload_length);

/* Takes a get: the answers of a put. Of the slices only the buffer may be written, from its start on. */
gussetreed_reply gussetreed_get(
    gussetreed_target *t,
    const uint8_t *memory, size_t memory_length,
    gussetreed_request q,
    uint8_t *buffer, size_t buffer_length);

/* Takes the oldest event from the queue: EVENT or NONE. */
gussetreed_event_reply gussetreed_read_event(gussetreed_target *t);

/* Sets both fields of a counter: DONE. */
gussetreed_reply gussetreed_set_counter(gussetreed_target *t, gussetreed_counter_change x);

/* Adds to both fields of a counter, modulo 2^64: DONE. */
gussetreed_reply gussetreed_increment(gussetreed_target *t, gussetreed_counter_change x);

/* Reads a counter: COUNTER. */
gussetreed_reply gussetreed_read_counter(const gussetreed_target *t, uint64_t k);

/* Reads a register, 0 drop, 1 permission, 2 operation: REGISTER. */
gussetreed_reply gussetreed_read_register(const gussetreed_target *t, uint64_t k);

/* Tests a counter: READY or NOT_READY. */
gussetreed_reply gussetreed_ready(const gussetreed_target *t, gussetreed_counter_test x);

/* Polls a list of counters, each with the test at its place in another list: REACHED or NONE_REACHED. */
gussetreed_reply gussetreed_poll(
    const gussetreed_target *t,
    const uint64_t *ks, size_t ks_length,
    const uint64_t *tests, size_t tests_length);

#undef GUSSETREED_SIZE_IS

#ifdef __cplusplus
}
#endif

#endif
