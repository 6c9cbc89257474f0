/* Refuses requests for memory, or for threads, of the program that it is preloaded into, and counts them.

   Counted are the calls of malloc, calloc, realloc, aligned_alloc and posix_memalign from the moment at which libc calls
   the program's main until main returns or the program calls _exit or abort, on every thread; so those of libc's own start
   and end are left alone, and those that libc makes while main runs, as for a thread, are counted. Requests are numbered
   from 1. A program of tests that is run with the name of one requests nothing before the test's body begins nor behind its
   end, so each request is the test's; and a test that fails calls abort.

   REFUSE_REQUEST=N refuses the Nth request, REFUSE_FROM=N the Nth and all behind it; of neither none is refused.
   REFUSE_THREAD=N and REFUSE_THREADS_FROM=N do the same with the calls of pthread_create, which are numbered from 1 too.
   REFUSE_REPORT=FILE writes into the file, when the program has ended, the number of requests, that of threads, and behind
   them how many requests there had been at each reading of the clock (clock_gettime), in order: so a program marks what
   lies between two of its calls. */

#define _GNU_SOURCE
#include <dlfcn.h>
#include <errno.h>
#include <pthread.h>
#include <sched.h>
#include <stdatomic.h>
#include <stdio.h>
#include <stdlib.h>
#include <sys/syscall.h>
#include <time.h>
#include <unistd.h>

#define MOST_MARKS 4096

extern void *__libc_malloc(size_t);
extern void *__libc_calloc(size_t, size_t);
extern void *__libc_realloc(void *, size_t);
extern void *__libc_memalign(size_t, size_t);

typedef void *entry(void *);
typedef int creation(pthread_t *, const pthread_attr_t *, entry *, void *);

/* What is counted, and what of it is refused: the one of a number, and all from a number on. */
struct counted {
    atomic_ulong count;
    unsigned long refused, refused_from;
};

static atomic_bool counting, reported = 1;
static atomic_ulong marks, mark[MOST_MARKS];
static struct counted requests, threads;
static creation *create;
static void (*give_up)(void);

static int is_next_refused(struct counted *counted)
{
    if (!counting)
        return 0;
    unsigned long number = ++counted->count;
    return number == counted->refused || (counted->refused_from != 0 && number >= counted->refused_from);
}

static int is_refused(void)
{
    if (!is_next_refused(&requests))
        return 0;
    errno = ENOMEM;
    return 1;
}

void *malloc(size_t size)
{
    return is_refused() ? NULL : __libc_malloc(size);
}

void *calloc(size_t count, size_t size)
{
    return is_refused() ? NULL : __libc_calloc(count, size);
}

void *realloc(void *old, size_t size)
{
    return is_refused() ? NULL : __libc_realloc(old, size);
}

void *aligned_alloc(size_t alignment, size_t size)
{
    return is_refused() ? NULL : __libc_memalign(alignment, size);
}

int posix_memalign(void **out, size_t alignment, size_t size)
{
    void *made = is_refused() ? NULL : __libc_memalign(alignment, size);
    if (made == NULL)
        return ENOMEM;
    *out = made;
    return 0;
}

int pthread_create(pthread_t *thread, const pthread_attr_t *attributes, entry *entry, void *argument)
{
    return is_next_refused(&threads) ? EAGAIN : create(thread, attributes, entry, argument);
}

int clock_gettime(clockid_t clock, struct timespec *now)
{
    if (counting) {
        unsigned long place = marks++;
        if (place < MOST_MARKS)
            mark[place] = requests.count;
    }
    return syscall(SYS_clock_gettime, clock, now);
}

static unsigned long number_of(const char *name)
{
    const char *text = getenv(name);
    return text ? strtoul(text, NULL, 10) : 0;
}

static void report(void)
{
    const char *path = getenv("REFUSE_REPORT");
    FILE *file = path ? fopen(path, "w") : NULL;
    if (file == NULL)
        return;
    fprintf(file, "%lu\n%lu\n", requests.count, threads.count);
    for (unsigned long k = 0; k < marks && k < MOST_MARKS; k++)
        fprintf(file, "%lu\n", mark[k]);
    fclose(file);
}

/* Where another thread ends the program too, none does before the report is written. */
static void stop_counting(void)
{
    if (atomic_exchange(&counting, 0)) {
        report();
        reported = 1;
    }
    while (!reported)
        sched_yield();
}

void _exit(int status)
{
    stop_counting();
    for (;;)
        syscall(SYS_exit_group, status);
}

void abort(void)
{
    stop_counting();
    for (;;)
        give_up();
}

static int (*program)(int, char **, char **);

static int counted_program(int argc, char **argv, char **environment)
{
    reported = 0;
    counting = 1;
    int status = program(argc, argv, environment);
    stop_counting();
    return status;
}

typedef int start(int (*)(int, char **, char **), int, char **, void (*)(void), void (*)(void), void (*)(void), void *);

int __libc_start_main(int (*entry)(int, char **, char **), int argc, char **argv, void (*init)(void),
                      void (*fini)(void), void (*loader_fini)(void), void *stack_end)
{
    start *real = (start *)dlsym(RTLD_NEXT, "__libc_start_main");
    program = entry;
    create = (creation *)dlsym(RTLD_NEXT, "pthread_create");
    give_up = (void (*)(void))dlsym(RTLD_NEXT, "abort");
    requests.refused = number_of("REFUSE_REQUEST");
    requests.refused_from = number_of("REFUSE_FROM");
    threads.refused = number_of("REFUSE_THREAD");
    threads.refused_from = number_of("REFUSE_THREADS_FROM");
    return real(counted_program, argc, argv, init, fini, loader_fini, stack_end);
}
