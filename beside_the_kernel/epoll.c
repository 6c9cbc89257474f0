/*
 * What one write, one wait and one read cost over Linux's epoll and eventfd, with N descriptors in one epoll instance of
 * which one is ready: what grows with N in the line "a write, a run and a read, N counters" of crates/bench.
 *
 * Build and run, on one core:
 *
 *     cc -O2 -Wall -Wextra -o /tmp/epoll beside_the_kernel/epoll.c && taskset -c 3 /tmp/epoll
 *
 * Each descriptor is an eventfd that is added for EPOLLIN, level-triggered. Each round writes 1 to the next one in turn,
 * waits with room for 256 events, which must report that one alone, and reads the 1 back. A line for each N of 1, 16, 256,
 * 4096 and 100000, with the least of five repeats, in nanoseconds a round; where the limit on a process's descriptors is
 * lower and can't be raised, N is as many as it allows, and the line says that number. Whatever goes otherwise ends the
 * program with status 1.
 */
#define _GNU_SOURCE
#include <stdint.h>
#include <stdio.h>
#include <stdlib.h>
#include <string.h>
#include <sys/epoll.h>
#include <sys/eventfd.h>
#include <sys/resource.h>
#include <sys/utsname.h>
#include <time.h>
#include <unistd.h>

/* The descriptors that the process has beside those that it waits on are fewer than OTHERS. */
enum { REPEATS = 5, ROOM = 256, OTHERS = 32 };

static const int COUNTS[] = {1, 16, 256, 4096, 100000};

static const long ROUNDS = 1000000;

static void stop(const char *what) {
    perror(what);
    exit(1);
}

static void require(int holds, const char *what) {
    if (!holds) {
        fprintf(stderr, "epoll: %s\n", what);
        exit(1);
    }
}

static double nanoseconds(void) {
    struct timespec now;
    if (clock_gettime(CLOCK_MONOTONIC, &now) != 0)
        stop("clock_gettime");
    return (double)now.tv_sec * 1e9 + (double)now.tv_nsec;
}

/* How many of `count` descriptors this process may open beside its others, once its limit is as high as it may be. */
static int allowed(int count) {
    struct rlimit limit;
    if (getrlimit(RLIMIT_NOFILE, &limit) != 0)
        stop("getrlimit");
    rlim_t wanted = (rlim_t)count + OTHERS;
    if (limit.rlim_cur < wanted) {
        struct rlimit higher = {.rlim_cur = wanted, .rlim_max = limit.rlim_max < wanted ? wanted : limit.rlim_max};
        if (setrlimit(RLIMIT_NOFILE, &higher) == 0)
            return count;
        limit.rlim_cur = limit.rlim_max;
        if (setrlimit(RLIMIT_NOFILE, &limit) != 0)
            stop("setrlimit");
    }
    return limit.rlim_cur < wanted ? (int)limit.rlim_cur - OTHERS : count;
}

/* Opens `count` eventfds, and adds each to the instance. */
static int *open_all(int epoll, int count) {
    int *fds = malloc((size_t)count * sizeof *fds);
    require(fds != NULL, "no memory");
    for (int k = 0; k < count; k++) {
        fds[k] = eventfd(0, EFD_NONBLOCK | EFD_CLOEXEC);
        if (fds[k] < 0)
            stop("eventfd");
        struct epoll_event event = {.events = EPOLLIN, .data.fd = fds[k]};
        if (epoll_ctl(epoll, EPOLL_CTL_ADD, fds[k], &event) != 0)
            stop("epoll_ctl");
    }
    return fds;
}

static void go_round(int epoll, int fd) {
    static struct epoll_event events[ROOM];
    uint64_t one = 1, value = 0;
    require(write(fd, &one, sizeof one) == sizeof one, "a write failed");
    require(epoll_wait(epoll, events, ROOM, -1) == 1, "a wait reported other than one event");
    require(events[0].data.fd == fd && events[0].events == EPOLLIN, "a wait reported another event");
    require(read(fd, &value, sizeof value) == sizeof value && value == 1, "a read gave other than 1");
}

/* The least time of a round among the repeats. */
static double measure(int epoll, const int *fds, int count) {
    double least = 0;
    for (int repeat = 0; repeat < REPEATS; repeat++) {
        double start = nanoseconds();
        for (long round = 0, next = 0; round < ROUNDS; round++) {
            go_round(epoll, fds[next]);
            next = next + 1 == count ? 0 : next + 1;
        }
        double round = (nanoseconds() - start) / (double)ROUNDS;
        if (repeat == 0 || round < least)
            least = round;
    }
    return least;
}

/* Prints the processor's name and the kernel's version. */
static void print_machine(void) {
    struct utsname kernel;
    if (uname(&kernel) != 0)
        stop("uname");
    char line[256] = "", model[256] = "unknown processor";
    FILE *cpuinfo = fopen("/proc/cpuinfo", "r");
    while (cpuinfo != NULL && fgets(line, sizeof line, cpuinfo) != NULL) {
        char *name = strstr(line, ": ");
        if (strncmp(line, "model name", 10) == 0 && name != NULL) {
            name[strcspn(name, "\n")] = '\0';
            strcpy(model, name + 2);
            break;
        }
    }
    if (cpuinfo != NULL)
        fclose(cpuinfo);
    printf("%s; %s %s\n", model, kernel.sysname, kernel.release);
}

int main(void) {
    print_machine();
    for (size_t k = 0; k < sizeof COUNTS / sizeof *COUNTS; k++) {
        int count = allowed(COUNTS[k]);
        int epoll = epoll_create1(EPOLL_CLOEXEC);
        if (epoll < 0)
            stop("epoll_create1");
        int *fds = open_all(epoll, count);
        printf("a write, a wait and a read, %d idle: %.0f ns a round\n", count, measure(epoll, fds, count));
        fflush(stdout);
        for (int fd = 0; fd < count; fd++)
            close(fds[fd]);
        free(fds);
        close(epoll);
    }
    return 0;
}
