/* One round of a core over the system's poll: a task that waits for a pipe to be readable, and one
 * that waits for a timer. Where crates/aio_c/out/libaio_c.a is (rt lib makes it), from the top:
 *
 *     cc -std=c11 -I crates/aio_c shim/programs/one_round.c crates/aio_c/out/libaio_c.a \
 *         "$(dirname "$(rt doc)")/c/liblibc_c.a" -o one_round && ./one_round
 *
 * It prints that task 9 is woken, then task 7, and that the pipe is readable once. */
#define _POSIX_C_SOURCE 200809L
#include "aio.h"
#include <poll.h>
#include <stdio.h>
#include <stdlib.h>
#include <time.h>
#include <unistd.h>

/* The one handle of the core. A call reads it by value and puts the next one there. */
static struct aio_handle core;

/* What the system is asked of the pipe: its interest is cleared by each event that it gives. */
static struct pollfd pipe_end;

/* Two tasks, and room for their wakers. */
enum { READER = 7, SLEEPER = 9, ROOM = 16 };

static void expect(bool holds, const char *what)
{
    if (!holds) {
        fprintf(stderr, "%s\n", what);
        exit(1);
    }
}

/* Nanoseconds since the first call; the clock never falls. */
static uint64_t moment(void)
{
    static struct timespec start;
    struct timespec now;
    clock_gettime(CLOCK_MONOTONIC, &now);
    if (start.tv_sec == 0 && start.tv_nsec == 0)
        start = now;
    return (uint64_t)(now.tv_sec - start.tv_sec) * 1000000000u + (uint64_t)now.tv_nsec
        - (uint64_t)start.tv_nsec;
}

/* Asks the system for what the core would ask. Here nothing can fail; where the system refuses,
 * aio_fail_next(core, &core, 1) comes before the call that arms. */
static void arm(struct aio_ask_answer asked)
{
    if (asked.arms)
        pipe_end.events = (short)((asked.read ? POLLIN : 0) | (asked.write ? POLLOUT : 0));
}

/* A limit in whole milliseconds, not before its moment; -1 where there is none. */
static int milliseconds(struct aio_begin_answer begun)
{
    if (!begun.limited)
        return -1;
    uint64_t whole = begun.limit / 1000000u + (begun.limit % 1000000u != 0);
    return whole < 1000000u ? (int)whole : 1000000;
}

/* The system's wait; what it gave is told to the core's own poller. */
static void wait_for_the_system(int limit, uint32_t key)
{
    int ready = poll(&pipe_end, pipe_end.events ? 1 : 0, limit);
    if (ready < 0) {
        aio_interrupt_next(core, &core);
    } else if (ready > 0) {
        bool read = (pipe_end.revents & (POLLIN | POLLHUP | POLLERR)) != 0;
        pipe_end.events = 0;
        expect(aio_give(core, &core, key, read, false) == AIO_DONE, "no memory for an event");
    }
}

/* Takes in hand what was given and handles it, until nothing is left: a wait takes 1,024 events. */
static void handle_all(void)
{
    for (;;) {
        struct aio_wait_answer waited = aio_wait(core, &core);
        if (waited.code == AIO_READY)
            continue; /* interrupted: its events are for the next one */
        expect(waited.code == AIO_DONE, "the wait was refused");
        if (waited.events == 0)
            return;
        for (uint32_t n = 0; n < waited.events; n++) {
            arm(aio_handle_asks(core, &core));
            expect(aio_handle(core, &core).code == AIO_DONE, "an event was not handled");
        }
    }
}

/* Whom the round has to wake is read before the next one begins. */
static void wake_all(uint64_t count)
{
    uint32_t wakers[ROOM];
    expect(count <= ROOM, "more wakers than tasks");
    aio_woken(core, &core, wakers, ROOM);
    for (uint64_t n = 0; n < count; n++)
        printf("wake task %u\n", (unsigned)wakers[n]);
}

static void one_round(uint32_t key)
{
    struct aio_begin_answer begun = aio_begin(core, &core, moment(), false, 0);
    expect(begun.code == AIO_DONE, "the round did not begin");
    wait_for_the_system(milliseconds(begun), key);
    handle_all();
    struct aio_finish_answer ended = aio_finish(core, &core, moment());
    expect(ended.code == AIO_DONE && ended.fault == 0, "the round did not end well");
    wake_all(ended.wakers);
}

int main(void)
{
    int ends[2];
    expect(pipe(ends) == 0, "no pipe");
    pipe_end.fd = ends[0];

    expect(aio_new(&core), "no memory for a core");
    struct aio_key_answer source = aio_add(core, &core);
    expect(source.code == AIO_DONE, "the source was not added");

    arm(aio_poll_asks(core, &core, source.key, false));
    struct aio_poll_answer first = aio_poll(core, &core, source.key, false, READER);
    expect(first.code == AIO_DONE, "the pipe is not pending");
    expect(aio_insert_timer(core, &core, moment(), SLEEPER).code == AIO_DONE, "no timer");

    expect(write(ends[1], "x", 1) == 1, "nothing was written");
    one_round(source.key);

    struct aio_poll_answer second = aio_poll(core, &core, source.key, false, READER);
    printf("the pipe is %s\n", second.code == AIO_READY ? "readable" : "pending");
    aio_free(core);
    return 0;
}
