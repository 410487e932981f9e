/* Lets something happen while the program reads or waits, by LD_PRELOAD, just there and however busy the machine is.
 *
 *   MEANWHILE_DO    a line of shell
 *   MEANWHILE_READ  it is run behind the read of that number, counted from 1; behind each read where this is 0
 *   MEANWHILE_WAIT  it is run in place of the wait of that number
 */
#define _GNU_SOURCE
#include <stdlib.h>
#include <sys/syscall.h>
#include <time.h>
#include <unistd.h>

static int is_now(const char *when, int *calls) {
    const char *at = getenv(when);
    ++*calls;
    return at && (atoi(at) == 0 || atoi(at) == *calls);
}

static void meanwhile(void) {
    char *shim = getenv("LD_PRELOAD");
    unsetenv("LD_PRELOAD");
    if (system(getenv("MEANWHILE_DO"))) abort();
    setenv("LD_PRELOAD", shim, 1);
}

ssize_t read(int fd, void *bytes, size_t length) {
    static int reads;
    ssize_t got = syscall(SYS_read, fd, bytes, length);
    if (is_now("MEANWHILE_READ", &reads)) meanwhile();
    return got;
}

static int is_waited_otherwise(void) {
    static int waits;
    if (!is_now("MEANWHILE_WAIT", &waits)) return 0;
    meanwhile();
    return 1;
}

int nanosleep(const struct timespec *asked, struct timespec *left) {
    return is_waited_otherwise() ? 0 : (int)syscall(SYS_nanosleep, asked, left);
}

int clock_nanosleep(clockid_t clock, int flags, const struct timespec *asked, struct timespec *left) {
    return is_waited_otherwise() ? 0 : (int)syscall(SYS_clock_nanosleep, clock, flags, asked, left);
}
