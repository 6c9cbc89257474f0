/* Stops the threads of the program that it is preloaded into, at random, between any two of their instructions.

   Each thread, the first one too, has a timer that sends it a signal after a random time. Its handler does nothing, yields
   the processor, or sleeps for a random time, and sets the timer anew. So what another thread does just between two
   instructions of this one, which many rounds alone may never meet, is met soon, also on one processor.

   SHAKE_SEED=N is what the random numbers begin with; without it nothing is done.
   SHAKE_GAP=N is the longest time between two signals of a thread, beyond the least one, and SHAKE_NAP=N its longest sleep,
   in nanoseconds, both from 1 to half a second; 20000 where they are left out.
   SHAKE_COUNT=FILE has the handler count its calls in the file's first eight bytes.

   The numbers of a thread follow from the seed, from those of the thread that started it, and from how many that one had
   started before; so they are the same in each run, and it is the kernel's turns that are not.

   The handler makes two system calls, which need nothing of libc's state, and leaves errno as it was. What the program calls
   by libc's `syscall`, as all its sleeps, isn't interrupted: a signal that comes meanwhile waits, and stops the thread when
   it has just woken. Other system calls that a signal interrupts go on behind it. */

#define _GNU_SOURCE
#include <dlfcn.h>
#include <errno.h>
#include <fcntl.h>
#include <pthread.h>
#include <signal.h>
#include <stdarg.h>
#include <stdatomic.h>
#include <stdint.h>
#include <stdlib.h>
#include <sys/mman.h>
#include <sys/prctl.h>
#include <sys/syscall.h>
#include <time.h>
#include <unistd.h>

#ifndef sigev_notify_thread_id
#define sigev_notify_thread_id _sigev_un._tid
#endif

/* In nanoseconds: with less a thread would do nothing but take signals, as some system calls begin anew after each. */
#define LEAST_GAP 3000

/* So that a handler finds them without a call, which may request memory. */
#define OF_EACH_THREAD static __thread __attribute__((tls_model("initial-exec")))

typedef void *entry(void *);
typedef int creation(pthread_t *, const pthread_attr_t *, entry *, void *);
typedef long system_call(long, ...);

OF_EACH_THREAD uint64_t own_seed, started, state;
OF_EACH_THREAD int timer;

static creation *create;
static system_call *kernel;
static pthread_key_t at_end;
static sigset_t own_signal;
static uint64_t longest_gap, longest_nap, uncounted;
static int is_on;
static _Atomic uint64_t *calls = (_Atomic uint64_t *)&uncounted;

static uint64_t mixed(uint64_t number)
{
    number += 0x9e3779b97f4a7c15;
    number = (number ^ (number >> 30)) * 0xbf58476d1ce4e5b9;
    number = (number ^ (number >> 27)) * 0x94d049bb133111eb;
    return number ^ (number >> 31);
}

/* A random number of the thread, from 0 up. */
static long below(uint64_t limit)
{
    return mixed(state++) % limit;
}

static void set_timer(void)
{
    struct itimerspec next = {.it_value.tv_nsec = LEAST_GAP + below(longest_gap)};
    kernel(SYS_timer_settime, timer, 0, &next, NULL);
}

static void stop(int signal)
{
    (void)signal;
    int before = errno;
    struct timespec nap = {.tv_nsec = below(longest_nap)};
    long turn = below(4);
    if (turn == 0)
        kernel(SYS_sched_yield);
    else if (turn > 1)
        kernel(SYS_nanosleep, &nap, NULL);
    atomic_fetch_add(calls, 1);
    set_timer();
    errno = before;
}

static void give_up(void)
{
    static const char why[] = "shake_threads: a thread has no timer\n";
    ssize_t written = write(STDERR_FILENO, why, sizeof why - 1);
    _exit(written < 0 ? 126 : 125);
}

static void begin(uint64_t seed)
{
    own_seed = state = mixed(seed);
    struct sigevent event = {.sigev_notify = SIGEV_THREAD_ID, .sigev_signo = SIGRTMIN};
    event.sigev_notify_thread_id = gettid();
    if (kernel(SYS_timer_create, CLOCK_MONOTONIC, &event, &timer) != 0 || pthread_setspecific(at_end, &at_end) != 0)
        give_up();
    /* by itself the kernel lengthens each sleep by up to 50 microseconds */
    prctl(PR_SET_TIMERSLACK, 1);
    pthread_sigmask(SIG_UNBLOCK, &own_signal, NULL);
    set_timer();
}

/* Of a thread that ends: its stack is given back, so no handler may run on it. */
static void end(void *unused)
{
    (void)unused;
    pthread_sigmask(SIG_BLOCK, &own_signal, NULL);
    kernel(SYS_timer_delete, timer);
}

struct start {
    entry *entry;
    void *argument;
    uint64_t seed;
};

static void *shaken(void *given)
{
    struct start start = *(struct start *)given;
    free(given);
    begin(start.seed);
    return start.entry(start.argument);
}

int pthread_create(pthread_t *thread, const pthread_attr_t *attributes, entry *entry, void *argument)
{
    if (!is_on)
        return create(thread, attributes, entry, argument);
    struct start *start = malloc(sizeof *start);
    if (start == NULL)
        return EAGAIN;
    *start = (struct start){entry, argument, own_seed + ++started};
    int refused = create(thread, attributes, shaken, start);
    if (refused)
        free(start);
    return refused;
}

long syscall(long number, ...)
{
    long given[6];
    va_list rest;
    va_start(rest, number);
    for (int k = 0; k < 6; k++)
        given[k] = va_arg(rest, long);
    va_end(rest);
    if (is_on)
        pthread_sigmask(SIG_BLOCK, &own_signal, NULL);
    long answer = kernel(number, given[0], given[1], given[2], given[3], given[4], given[5]);
    int error = errno;
    if (is_on)
        pthread_sigmask(SIG_UNBLOCK, &own_signal, NULL);
    errno = error;
    return answer;
}

static uint64_t number_of(const char *name, uint64_t otherwise)
{
    const char *text = getenv(name);
    return text ? strtoul(text, NULL, 10) : otherwise;
}

static void count_in(const char *path)
{
    int file = open(path, O_RDWR);
    void *shared = mmap(NULL, sizeof *calls, PROT_READ | PROT_WRITE, MAP_SHARED, file, 0);
    if (shared != MAP_FAILED)
        calls = shared;
    close(file);
}

__attribute__((constructor)) static void begin_first(void)
{
    create = (creation *)dlsym(RTLD_NEXT, "pthread_create");
    kernel = (system_call *)dlsym(RTLD_NEXT, "syscall");
    if (getenv("SHAKE_SEED") == NULL)
        return;
    if (getenv("SHAKE_COUNT"))
        count_in(getenv("SHAKE_COUNT"));
    longest_gap = number_of("SHAKE_GAP", 20000);
    longest_nap = number_of("SHAKE_NAP", 20000);
    sigemptyset(&own_signal);
    sigaddset(&own_signal, SIGRTMIN);
    struct sigaction action = {.sa_handler = stop, .sa_flags = SA_RESTART};
    sigaction(SIGRTMIN, &action, NULL);
    pthread_key_create(&at_end, end);
    is_on = 1;
    begin(number_of("SHAKE_SEED", 0));
}
