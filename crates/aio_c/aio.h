/* The calls of the library aio_c. A handle holds a core: the decisions of a reactor, over a poller
 * in memory that is told what the system's poller answered. A program that goes one round is
 * shim/programs/one_round.c; one that goes many, of 5,000 sources over epoll, rounds.c beside it.
 *
 * Every call but aio_new and aio_free takes the handle by value and puts it back through `out`. A
 * caller has to see to this; where it does not, what comes of it is undefined:
 *
 * - A handle that is used was put back by the last call for its core, or by an aio_new that
 *   answered true. It is used once: then no more, nor after aio_free. A zeroed one is none. The
 *   one that is put back may look like the one that was used, so that wrong use goes unnoticed for
 *   a while.
 * - Calls for one core come one at a time, ordered by a lock of the caller's.
 * - `out` is a place for a handle; it may be the one from which the handle of the call was read.
 *   What stood there is overwritten, and not freed: another core whose handle stood there is lost.
 *   `wakers` is a place for `wakers_count` numbers; it may be NULL only where that is 0.
 *
 * Nothing else is asked of a caller: each number and each order of calls has an answer. Link with
 * the kit's libc_c.
 *
 * Keys name sources, at most 4,096 of them, and one that is free again is given again. The numbers
 * of listeners, timers and rounds never are. Numbers of wakers are the caller's own, and 0 is one
 * as any other: equal numbers are one waker, and a poll with the number of the poll waiter stores
 * nothing anew. Moments are nanoseconds from a start that the caller chose; those past 10^18 count
 * as that, and the moment of a begin or a finish that is below the last one of its core counts as
 * the last one. Limits are nanoseconds from no start. */
#ifndef AIO_H
#define AIO_H

#include <stdbool.h>
#include <stddef.h>
#include <stdint.h>

#ifdef __cplusplus
extern "C" {
#endif

/* What is done has a code below 3. A poll: 0 pending, 1 ready, 2 the poller could not be armed.
 * With 2 the waker waits all the same, though perhaps no event comes for it: the next poll of the
 * source arms again, and so does each one until an arm succeeds. A wait: 1 where it was
 * interrupted. An event that was handled: 2 where the poller could not be armed again. Each code
 * from 3 on is a refusal, after which all is as it was but where its own line says else: */
enum {
    AIO_DONE = 0,
    AIO_READY = 1,
    AIO_ARM_FAULT = 2,
    AIO_ADD_FAULT = 3,        /* the poller could not register the source */
    AIO_WAIT_FAULT = 4,       /* the wait failed; the round goes on, and its end tells that */
    AIO_REMOVE_FAULT = 5,     /* the poller could not take the source out; it is gone too */
    AIO_LOCKED = 6,           /* a round runs: it ends first */
    AIO_NO_ROUND = 7,         /* no round runs */
    AIO_EVENTS_LEFT = 8,      /* events are in hand */
    AIO_NO_SOURCE = 9,        /* no source has this key */
    AIO_IN_USE = 10,          /* the source has a listener */
    AIO_FULL = 11,            /* 4,096 sources live */
    AIO_ROUNDS_SPENT = 12,    /* 2^64 - 1 rounds have begun; this core begins no other */
    AIO_OUT_OF_MEMORY = 13,   /* nothing was done: the call may be made again */
    AIO_NOTHING_IN_HAND = 14, /* a round runs, and no event is in hand */
    AIO_NO_LISTENER = 15,     /* no listener has this number */
    AIO_TICKETS_SPENT = 16,   /* 2^64 - 1 listeners came; this core has no number for another */
    AIO_NOTIFY_FAULT = 17,    /* not answered by a core, which has nobody to notify */
    AIO_IDS_SPENT = 18,       /* 2^40 - 1 timers were registered; this core takes no other */
    AIO_UNREAD_WAKERS = 19    /* the last finish told wakers that were not all read: aio_woken first */
};

struct aio_handle {
    uint8_t *ptr;
};

/* a key, where the code is 0 */
struct aio_key_answer {
    uint32_t code;
    uint32_t key;
};

/* a poll, with the waker that lost its place, to be woken, where `wakes` says that one did */
struct aio_poll_answer {
    uint32_t code;
    bool wakes;
    uint32_t waker;
};

/* the number of a listener or a timer, where the code is 0 */
struct aio_number_answer {
    uint32_t code;
    uint64_t number;
};

/* a round's number, and the limit of its waits, where `limited` says that there is one */
struct aio_begin_answer {
    uint32_t code;
    bool limited;
    uint64_t number;
    uint64_t limit;
};

/* how many events are in hand */
struct aio_wait_answer {
    uint32_t code;
    uint32_t events;
};

/* the key of the event that was handled, whose source need not live */
struct aio_handle_answer {
    uint32_t code;
    uint32_t key;
};

/* what failed first in the round: 0 nothing, 1 a wait, 2 an arm; and how many wakers to wake */
struct aio_finish_answer {
    uint32_t code;
    uint32_t fault;
    uint64_t wakers;
};

/* whether the call would arm the poller, and for which directions */
struct aio_ask_answer {
    bool arms;
    bool read;
    bool write;
    bool priority;
};

/* A core with nothing registered; false where memory ran out. Then `out` is as it was: it has no
 * handle, and there is nothing to free. */
bool aio_new(struct aio_handle *out);
void aio_free(struct aio_handle h);

/* Sources. aio_add gives the least key that no source has, so the key of one that was taken out
 * comes again: an event of the earlier one that is given after that counts for the new one.
 * aio_live tells whether a source has this key. */
struct aio_key_answer aio_add(struct aio_handle h, struct aio_handle *out);
uint32_t aio_del(struct aio_handle h, struct aio_handle *out, uint32_t key);
bool aio_live(struct aio_handle h, struct aio_handle *out, uint32_t key);

/* Poll waiters and listeners. What a call would ask of the poller is asked before it; where the
 * system's poller fails at that, aio_fail_next(1) comes before the call.
 *
 * A poll waiter is one for each direction of a source: `wakes` in the answer of a poll tells that
 * another one lost its place, which is to be woken. A source may have many listeners, each with
 * one waker. A listener waits for what comes after its first aio_step. Once it is ready it stays
 * so: give it up then. Its number never comes again, and it is of its source until aio_unlisten. */
struct aio_poll_answer aio_poll(struct aio_handle h, struct aio_handle *out, uint32_t key,
    bool write, uint32_t waker);
struct aio_ask_answer aio_poll_asks(struct aio_handle h, struct aio_handle *out, uint32_t key,
    bool write);
struct aio_number_answer aio_listen(struct aio_handle h, struct aio_handle *out, uint32_t key,
    bool write);
uint32_t aio_step(struct aio_handle h, struct aio_handle *out, uint64_t listener, uint32_t waker);
struct aio_ask_answer aio_step_asks(struct aio_handle h, struct aio_handle *out, uint64_t listener);
uint32_t aio_unlisten(struct aio_handle h, struct aio_handle *out, uint64_t listener);

/* The same for urgent readiness, a third direction of each source. Of a source whose urgent
 * readiness is neither polled nor listened for, no call asks it of the poller. */
struct aio_poll_answer aio_poll_priority(struct aio_handle h, struct aio_handle *out,
    uint32_t key, uint32_t waker);
struct aio_ask_answer aio_poll_priority_asks(struct aio_handle h, struct aio_handle *out,
    uint32_t key);
struct aio_number_answer aio_listen_priority(struct aio_handle h, struct aio_handle *out,
    uint32_t key);

/* A round. Whoever takes these steps in this order, all of them in each round, loses no wake:
 *
 * 1. aio_begin.
 * 2. The system's wait, no longer than the limit that was told, and for good where there is none.
 * 3. aio_give for each event that it gave; aio_interrupt_next where it was interrupted;
 *    aio_fail_next(3) where it failed.
 * 4. aio_wait, and for each event that it took in hand aio_handle_asks, what that asks of the
 *    system's poller, and aio_handle. Then this step again, until an aio_wait answers 0 with no
 *    events.
 * 5. aio_finish.
 * 6. Where the finish told wakers, aio_woken with places for as many, each of which is then woken.
 *
 * Step 4 comes again since an aio_wait takes in hand the first 1,024 events that were given and not
 * yet taken; the others are for the next one, and so are all where it was interrupted or failed: 1
 * and 4 are its answers then, and the round goes on. The system has cleared the interests of all of
 * them, and tells none of them again. So where events were given that no aio_wait has taken,
 * aio_begin tells the limit 0, whatever limit it is given: a round whose steps came only once is
 * followed by one that does not wait. Events are handled in the order in which they were given, so
 * the caller knows of which source aio_handle_asks speaks before aio_handle tells the key. A step
 * that answers 13 did nothing, and is taken again where there is memory; the round runs until then.
 *
 * aio_woken writes the wakers of the last finish, in order, as many of them as there are places;
 * the places behind them stay as they are. Where there were places for all of them they are read,
 * and it writes nothing from then on; with fewer places none counts as read, and the next aio_woken
 * begins with the first of them again. Until they are read aio_begin answers 19, with all as it was,
 * so that none is lost. Whom a running round has taken so far is told by its finish alone.
 *
 * aio_ticker tells how many rounds have begun, which is the number of the last one. */
uint64_t aio_ticker(struct aio_handle h, struct aio_handle *out);
struct aio_begin_answer aio_begin(struct aio_handle h, struct aio_handle *out, uint64_t now,
    bool limited, uint64_t limit);
struct aio_wait_answer aio_wait(struct aio_handle h, struct aio_handle *out);
struct aio_handle_answer aio_handle(struct aio_handle h, struct aio_handle *out);
struct aio_ask_answer aio_handle_asks(struct aio_handle h, struct aio_handle *out);
struct aio_finish_answer aio_finish(struct aio_handle h, struct aio_handle *out, uint64_t now);
void aio_woken(struct aio_handle h, struct aio_handle *out, uint32_t *wakers, size_t wakers_count);

/* Timers. One fires once: in a begin or a finish at its moment or later, which takes it out. To
 * take one out that is not there, as one that has fired, changes nothing and answers 0. The number
 * of a timer never comes again. */
struct aio_number_answer aio_insert_timer(struct aio_handle h, struct aio_handle *out,
    uint64_t at, uint32_t waker);
uint32_t aio_remove_timer(struct aio_handle h, struct aio_handle *out, uint64_t at, uint64_t id);

/* What the system's poller answered: an event, without urgent readiness or with it; a failure of
 * the next call of a kind (0 a registration, 1 an arm, 2 a removal, 3 and each other number a
 * wait); a wait that was interrupted. An event may have any key: one that no source has is
 * handled, and wakes nobody. One that is refused for want of memory was not given. A failure stays
 * due until the poller in memory is asked for such a call: where the call that follows is refused,
 * or asks for none, the next one that asks takes it, of whatever source. Where a wait is to fail
 * and to be interrupted, it fails, and the next one is interrupted. */
uint32_t aio_give(struct aio_handle h, struct aio_handle *out, uint32_t key, bool read, bool write);
uint32_t aio_give_priority(struct aio_handle h, struct aio_handle *out, uint32_t key, bool read,
    bool write);
void aio_fail_next(struct aio_handle h, struct aio_handle *out, uint32_t kind);
void aio_interrupt_next(struct aio_handle h, struct aio_handle *out);

#ifdef __cplusplus
}
#endif

#endif
