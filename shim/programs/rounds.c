/* Rounds over the system's epoll, in oneshot mode: 5,000 pipes, a task that reads each, and one
 * timer. A core has at most 4,096 sources, so two cores stand beside one epoll, and what the system
 * knows of a pipe names the core and the key. Each round follows the header's order: begin, the system's
 * wait, aio_give, aio_wait and aio_handle until nothing is left, finish, the wakers. Where
 * crates/aio_c/out/libaio_c.a is (rt lib makes it), from the top:
 *
 *     cc -std=c11 -Wall -Wextra -Werror -I crates/aio_c shim/programs/rounds.c \
 *         crates/aio_c/out/libaio_c.a "$(dirname "$(rt doc)")/c/liblibc_c.a" -o rounds && ./rounds
 *
 * In each burst every pipe gets a byte before the system is asked, so that a core is given 2,500
 * events at once, of which an aio_wait takes 1,024. Every task has to come to its byte: one that is
 * not woken is a lost wake, and the program ends with status 1. Where fewer files may be open it
 * takes as many pipes as there may be, and says so. */
#define _POSIX_C_SOURCE 200809L
#include "aio.h"
#include <errno.h>
#include <stdio.h>
#include <stdlib.h>
#include <sys/epoll.h>
#include <sys/resource.h>
#include <time.h>
#include <unistd.h>

enum {
    CORES = 2,
    PIPES = 5000,          /* half of them in each core */
    BURSTS = 20,
    SLEEPER = PIPES,       /* the waker of the timer's task; that of a pipe's task is its number */
    EVENTS = PIPES,        /* room for the events of one wait of the system */
    ROUNDS_MAY_BE_IDLE = 3 /* so many rounds may end in which nobody is woken */
};

#define SECOND 1000000000u

struct core {
    struct aio_handle handle; /* each call reads it, and puts the next one there */
    int pipe_of[PIPES];       /* the number of the pipe behind each key */
    uint32_t given[EVENTS];   /* the keys of the events that were given and not handled, in order */
    unsigned given_count, handled;
};

struct pipe {
    int read_end, write_end;
    unsigned core;
    uint32_t key;
    unsigned bytes; /* that its task has read */
};

static struct core cores[CORES];
static struct pipe pipes[PIPES];
static int pipes_count;
static int system_poller;
static bool sleeper_woken;

static void expect(bool holds, const char *what)
{
    if (!holds) {
        fprintf(stderr, "%s\n", what);
        exit(1);
    }
}

/* Nanoseconds since the first call. The clock is monotonic: moments never fall. */
static uint64_t moment(void)
{
    static struct timespec start;
    struct timespec now;
    clock_gettime(CLOCK_MONOTONIC, &now);
    if (start.tv_sec == 0 && start.tv_nsec == 0)
        start = now;
    return (uint64_t)(now.tv_sec - start.tv_sec) * SECOND + (uint64_t)now.tv_nsec
        - (uint64_t)start.tv_nsec;
}

/* Arms the system's poller for what the next call would ask. Where it fails the core is told, and
 * the call that comes next answers 2. */
static void arm(struct core *core, struct aio_ask_answer asked, uint32_t key)
{
    if (!asked.arms)
        return;
    struct epoll_event on = {
        .events = EPOLLONESHOT | (asked.read ? EPOLLIN : 0u) | (asked.write ? EPOLLOUT : 0u),
        .data.u64 = (uint64_t)(core - cores) << 32 | key,
    };
    int file = pipes[core->pipe_of[key]].read_end; /* of a program whose sources go: if it lives */
    if (epoll_ctl(system_poller, EPOLL_CTL_MOD, file, &on) != 0)
        aio_fail_next(core->handle, &core->handle, 1);
}

/* A pipe joins a core: the system knows it first, with no interest. */
static void add_pipe(int number)
{
    struct pipe *made = &pipes[number];
    made->core = (unsigned)number % CORES;
    struct core *core = &cores[made->core];
    int ends[2];
    expect(pipe(ends) == 0, "no pipe");
    made->read_end = ends[0];
    made->write_end = ends[1];
    struct aio_key_answer source = aio_add(core->handle, &core->handle);
    expect(source.code == AIO_DONE, "a source was not added");
    made->key = source.key;
    core->pipe_of[source.key] = number;
    struct epoll_event none = {.events = EPOLLONESHOT};
    expect(epoll_ctl(system_poller, EPOLL_CTL_ADD, made->read_end, &none) == 0, "no room in epoll");
}

/* The task of a pipe waits for its next byte. */
static void wait_to_read(int number)
{
    struct core *core = &cores[pipes[number].core];
    uint32_t key = pipes[number].key;
    arm(core, aio_poll_asks(core->handle, &core->handle, key, false), key);
    struct aio_poll_answer polled =
        aio_poll(core->handle, &core->handle, key, false, (uint32_t)number);
    expect(polled.code == AIO_DONE, "a pipe is ready before its byte, or could not be armed");
    expect(!polled.wakes, "two tasks wait for one pipe");
}

/* A woken task: its poll is ready, so its read does not block. */
static void wake(uint32_t waker)
{
    if (waker == SLEEPER) {
        sleeper_woken = true;
        return;
    }
    struct pipe *woken = &pipes[waker];
    struct core *core = &cores[woken->core];
    arm(core, aio_poll_asks(core->handle, &core->handle, woken->key, false), woken->key);
    struct aio_poll_answer polled =
        aio_poll(core->handle, &core->handle, woken->key, false, waker);
    expect(polled.code == AIO_READY, "a woken task is not ready");
    char byte;
    expect(read(woken->read_end, &byte, 1) == 1, "there is no byte");
    woken->bytes++;
}

/* The least of the cores' limits, in whole milliseconds and not before its moment. A second at most
 * is asked for, so that a program which lost a wake does not wait for good. */
static int begin_all(void)
{
    uint64_t least = SECOND;
    for (int i = 0; i < CORES; i++) {
        struct aio_begin_answer begun =
            aio_begin(cores[i].handle, &cores[i].handle, moment(), true, SECOND);
        expect(begun.code == AIO_DONE, "a round did not begin");
        if (begun.limited && begun.limit < least)
            least = begun.limit;
    }
    return (int)(least / 1000000u + (least % 1000000u != 0));
}

/* The system's wait. What it gave is told to the core that it concerns; an interrupt to all. An
 * event counts for each direction that could go on, an error or a hangup for both. */
static void wait_for_the_system(int limit)
{
    static struct epoll_event given[EVENTS];
    int count = epoll_wait(system_poller, given, EVENTS, limit);
    for (int i = 0; count < 0 && i < CORES; i++) {
        if (errno == EINTR)
            aio_interrupt_next(cores[i].handle, &cores[i].handle);
        else
            aio_fail_next(cores[i].handle, &cores[i].handle, 3);
    }
    for (int i = 0; i < count; i++) {
        struct core *core = &cores[given[i].data.u64 >> 32];
        uint32_t on = given[i].events, both = EPOLLHUP | EPOLLERR;
        uint32_t code = aio_give(core->handle, &core->handle, (uint32_t)given[i].data.u64,
            (on & (EPOLLIN | both)) != 0, (on & (EPOLLOUT | both)) != 0);
        expect(code == AIO_DONE, "no memory for an event");
        core->given[core->given_count++] = (uint32_t)given[i].data.u64;
    }
}

/* Takes in hand what a core was given and handles it, until a wait takes none: one takes at most
 * 1,024, and one that fails or is interrupted leaves all for the next. Events come in the order in
 * which they were given, so it is known of which source aio_handle_asks speaks. */
static void handle_all(struct core *core)
{
    for (;;) {
        struct aio_wait_answer waited = aio_wait(core->handle, &core->handle);
        if (waited.code == AIO_READY || waited.code == AIO_WAIT_FAULT)
            continue;
        expect(waited.code == AIO_DONE, "a wait was refused");
        if (waited.events == 0) {
            expect(core->handled == core->given_count, "an event was lost");
            core->handled = core->given_count = 0;
            return;
        }
        for (uint32_t n = 0; n < waited.events; n++) {
            uint32_t key = core->given[core->handled++];
            arm(core, aio_handle_asks(core->handle, &core->handle), key);
            struct aio_handle_answer done = aio_handle(core->handle, &core->handle);
            expect(done.code == AIO_DONE, "an event was not handled");
            expect(done.key == key, "an event came out of its turn");
        }
    }
}

/* Ends a core's round, and wakes whom it has to, before the next begin. */
static uint64_t finish(struct core *core)
{
    static uint32_t wakers[PIPES + 1];
    struct aio_finish_answer ended = aio_finish(core->handle, &core->handle, moment());
    expect(ended.code == AIO_DONE, "a round did not end");
    expect(ended.wakers <= PIPES + 1, "more wakers than tasks");
    aio_woken(core->handle, &core->handle, wakers, PIPES + 1);
    for (uint64_t n = 0; n < ended.wakers; n++)
        wake(wakers[n]);
    return ended.wakers;
}

static uint64_t one_round(void)
{
    uint64_t woken = 0;
    wait_for_the_system(begin_all());
    for (int i = 0; i < CORES; i++) {
        handle_all(&cores[i]);
        woken += finish(&cores[i]);
    }
    return woken;
}

/* As many pipes as files may be open, two for each. */
static void count_pipes(void)
{
    struct rlimit files;
    expect(getrlimit(RLIMIT_NOFILE, &files) == 0, "no limit of files is known");
    files.rlim_cur = files.rlim_max;
    setrlimit(RLIMIT_NOFILE, &files);
    getrlimit(RLIMIT_NOFILE, &files);
    pipes_count = PIPES;
    if (files.rlim_cur < 2 * PIPES + 16) {
        pipes_count = (int)(files.rlim_cur - 16) / 2;
        fprintf(stderr, "%d pipes of %d, for want of files\n", pipes_count, PIPES);
    }
}

int main(void)
{
    count_pipes();
    system_poller = epoll_create1(EPOLL_CLOEXEC);
    expect(system_poller >= 0, "no epoll");
    for (int i = 0; i < CORES; i++)
        expect(aio_new(&cores[i].handle), "no memory for a core");
    for (int number = 0; number < pipes_count; number++)
        add_pipe(number);
    struct aio_number_answer timer = aio_insert_timer(
        cores[0].handle, &cores[0].handle, moment() + SECOND / 5, SLEEPER);
    expect(timer.code == AIO_DONE, "no timer");

    uint64_t woken = 0;
    for (int burst = 1; burst <= BURSTS; burst++) {
        for (int number = 0; number < pipes_count; number++)
            wait_to_read(number);
        for (int number = 0; number < pipes_count; number++)
            expect(write(pipes[number].write_end, "x", 1) == 1, "a byte was not written");
        uint64_t wanted = (uint64_t)burst * (uint64_t)pipes_count;
        for (int idle = 0; woken < wanted && idle < ROUNDS_MAY_BE_IDLE;) {
            bool was_woken = sleeper_woken;
            uint64_t now = one_round();
            woken += now - (sleeper_woken && !was_woken);
            idle = now == 0 ? idle + 1 : 0;
        }
        expect(woken == wanted, "a wake was lost");
    }
    while (!sleeper_woken)
        one_round();
    for (int number = 0; number < pipes_count; number++)
        expect(pipes[number].bytes == BURSTS, "a task has not read each of its bytes");
    for (int i = 0; i < CORES; i++)
        aio_free(cores[i].handle);
    printf("each task was woken for each of its %d bytes, and one by a timer\n", BURSTS);
    return 0;
}
