/* Preloaded before a program, lets its time go CLOCK_TIMES as fast: its clock, and how long its threads wait for each
   other at most. It calls the system itself, so that it may be called before anything is looked up. */
#include <errno.h>
#include <linux/futex.h>
#include <stdarg.h>
#include <stdlib.h>
#include <sys/syscall.h>
#include <time.h>

#define NANOS 1000000000LL

static long long clock_times(void) {
    const char *text = getenv("CLOCK_TIMES");
    return text && atoll(text) > 0 ? atoll(text) : 1;
}

static struct timespec of_nanos(long long nanos) {
    return (struct timespec){.tv_sec = nanos / NANOS, .tv_nsec = nanos % NANOS};
}

/* What the C library's `syscall` does, on x86-64. */
static long call_system(long number, const long given[6]) {
    register long fourth __asm__("r10") = given[3];
    register long fifth __asm__("r8") = given[4];
    register long sixth __asm__("r9") = given[5];
    long result;
    __asm__ volatile("syscall"
                     : "=a"(result)
                     : "a"(number), "D"(given[0]), "S"(given[1]), "d"(given[2]), "r"(fourth), "r"(fifth), "r"(sixth)
                     : "rcx", "r11", "memory");
    if (result >= 0 || result < -4095) return result;
    errno = (int)-result;
    return -1;
}

int clock_gettime(clockid_t clock, struct timespec *at) {
    int failed = (int)call_system(SYS_clock_gettime, (long[6]){clock, (long)at});
    if (!failed && clock == CLOCK_MONOTONIC) *at = of_nanos((at->tv_sec * NANOS + at->tv_nsec) * clock_times());
    return failed;
}

long syscall(long number, ...) {
    long given[6];
    struct timespec less;
    va_list all;
    va_start(all, number);
    for (int place = 0; place < 6; place++) given[place] = va_arg(all, long);
    va_end(all);
    const struct timespec *most = (const struct timespec *)given[3];
    int waits = number == SYS_futex && (given[1] & FUTEX_CMD_MASK) == FUTEX_WAIT && most;
    // (A wait for ever has more seconds than nanoseconds can count.)
    if (waits && most->tv_sec < NANOS) {
        less = of_nanos((most->tv_sec * NANOS + most->tv_nsec) / clock_times());
        given[3] = (long)&less;
    }
    return call_system(number, given);
}
