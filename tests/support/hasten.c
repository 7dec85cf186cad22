/* Makes the seconds of a program pass faster, so that what it does after a minute is seen after seconds, or slower. It is
 * preloaded; no program is linked with it.
 *
 *   cc -shared -fPIC -o hasten.so hasten.c
 *   LD_PRELOAD=./hasten.so HASTE=20 PROGRAM ..
 *
 * The program's clock runs HASTE times as fast as the machine's, and it waits for its sockets as much shorter; HASTE may
 * have a fraction. With LEAP=S at most S seconds pass from one look at the clock to the next, as if the machine had stood
 * still meanwhile. With ABORTED_ACCEPTS=N its first N accepts of a client fail as those of one that has gone away. */
#define _GNU_SOURCE
#include <errno.h>
#include <stdlib.h>
#include <sys/epoll.h>
#include <sys/socket.h>
#include <sys/syscall.h>
#include <time.h>
#include <unistd.h>

static double setting(const char *name, double otherwise) {
    const char *value = getenv(name);
    return value ? atof(value) : otherwise;
}

int clock_gettime(clockid_t clock, struct timespec *time) {
    static struct timespec start;
    static long long last, left_out;
    int status = syscall(SYS_clock_gettime, clock, time);
    if (status != 0 || clock != CLOCK_MONOTONIC)
        return status;
    if (start.tv_sec == 0)
        start = *time;
    long long passed = (time->tv_sec - start.tv_sec) * 1000000000LL + time->tv_nsec - start.tv_nsec;
    long long then = start.tv_nsec + (long long)(passed * setting("HASTE", 1)) - left_out;
    long long latest = last + (long long)(setting("LEAP", 1e9) * 1e9);
    if (then > latest) {
        left_out += then - latest;
        then = latest;
    }
    last = then;
    time->tv_sec = start.tv_sec + then / 1000000000;
    time->tv_nsec = then % 1000000000;
    return status;
}

int epoll_wait(int set, struct epoll_event *events, int most, int timeout) {
    if (timeout > 0)
        timeout = (int)(timeout / setting("HASTE", 1)) + 1;
    return syscall(SYS_epoll_pwait, set, events, most, timeout, NULL, 8);
}

int accept4(int listener, struct sockaddr *address, socklen_t *length, int flags) {
    static long aborted;
    int accepted = syscall(SYS_accept4, listener, address, length, flags);
    if (accepted >= 0 && aborted < setting("ABORTED_ACCEPTS", 0)) {
        aborted++;
        close(accepted);
        errno = ECONNABORTED;
        return -1;
    }
    return accepted;
}
