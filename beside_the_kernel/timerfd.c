/*
 * What Linux's timerfd costs, with N timers armed: what crates/bench measures of timers (`out/bench timers`).
 *
 * Build and run, on one core:
 *
 *     cc -O2 -Wall -Wextra -o /tmp/timerfd beside_the_kernel/timerfd.c && taskset -c 3 /tmp/timerfd
 *
 * All but one of N timers are armed an hour ahead. A line for each N of 16 and 4096 and each measure, with the least of five
 * repeats, in nanoseconds: to disarm and arm one; to arm one later than it was, each in turn; and to arm one for a nanosecond
 * ahead, wait for its event and read its expiration. Whatever goes otherwise ends the program with status 1.
 */
#define _GNU_SOURCE
#include <stdint.h>
#include <stdio.h>
#include <stdlib.h>
#include <sys/epoll.h>
#include <sys/timerfd.h>
#include <time.h>
#include <unistd.h>

enum { REPEATS = 5, ROUNDS = 10000, HOUR = 3600 };

static const int COUNTS[] = {16, 4096};

static void require(int holds, const char *what) {
    if (!holds) {
        perror(what);
        exit(1);
    }
}

static double nanoseconds(void) {
    struct timespec now;
    require(clock_gettime(CLOCK_MONOTONIC, &now) == 0, "clock_gettime");
    return (double)now.tv_sec * 1e9 + (double)now.tv_nsec;
}

static void arm(int fd, time_t seconds, long nanoseconds) {
    struct itimerspec due = {.it_value = {.tv_sec = seconds, .tv_nsec = nanoseconds}};
    require(timerfd_settime(fd, 0, &due, NULL) == 0, "timerfd_settime");
}

/* Opens `count` timers, adds each to the instance, and arms it. */
static int *open_all(int epoll, int count) {
    int *fds = malloc((size_t)count * sizeof *fds);
    require(fds != NULL, "malloc");
    for (int k = 0; k < count; k++) {
        fds[k] = timerfd_create(CLOCK_MONOTONIC, TFD_NONBLOCK | TFD_CLOEXEC);
        require(fds[k] >= 0, "timerfd_create");
        struct epoll_event event = {.events = EPOLLIN, .data.fd = fds[k]};
        require(epoll_ctl(epoll, EPOLL_CTL_ADD, fds[k], &event) == 0, "epoll_ctl");
        arm(fds[k], HOUR, k);
    }
    return fds;
}

static void disarm_and_arm(int epoll, const int *fds, int count, int round) {
    (void)epoll, (void)round;
    arm(fds[count / 2], 0, 0);
    arm(fds[count / 2], HOUR, 0);
}

static void arm_later(int epoll, const int *fds, int count, int round) {
    (void)epoll;
    arm(fds[round % count], 2 * HOUR, round);
}

static void expire(int epoll, const int *fds, int count, int round) {
    struct epoll_event event;
    uint64_t expirations = 0;
    int fd = fds[round % count];
    arm(fd, 0, 1);
    require(epoll_wait(epoll, &event, 1, -1) == 1 && event.data.fd == fd, "epoll_wait");
    require(read(fd, &expirations, sizeof expirations) == sizeof expirations && expirations == 1, "read");
}

static void measure(const char *name, void (*work)(int, const int *, int, int), int count) {
    double least = 1e18;
    int epoll = epoll_create1(EPOLL_CLOEXEC);
    require(epoll >= 0, "epoll_create1");
    int *fds = open_all(epoll, count);
    for (int repeat = 0; repeat < REPEATS; repeat++) {
        double begin = nanoseconds();
        for (int round = 0; round < ROUNDS; round++)
            work(epoll, fds, count, round);
        double took = (nanoseconds() - begin) / ROUNDS;
        least = took < least ? took : least;
    }
    printf("%s, %d armed: %.0f ns\n", name, count, least);
    for (int k = 0; k < count; k++)
        close(fds[k]);
    free(fds);
    close(epoll);
}

int main(void) {
    for (unsigned k = 0; k < sizeof COUNTS / sizeof *COUNTS; k++) {
        measure("disarm and arm one", disarm_and_arm, COUNTS[k]);
        measure("arm one later", arm_later, COUNTS[k]);
        measure("arm one, wait and read", expire, COUNTS[k]);
    }
    return 0;
}
