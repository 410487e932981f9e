/* Stands between the program and the system in a test, by LD_PRELOAD: at the SHIM_AT-th call that changes a file it stops the program, or fails.
 *
 *   SHIM_HOW  before: killed before the call; after: killed behind it; half: a write is done by half, then killed;
 *             fail: the call fails with SHIM_ERRNO; short: a write does one byte, and the program goes on;
 *             signal: the signal SHIM_ERRNO comes before the call; signalled: it comes behind it
 *   SHIM_LOG  takes a line for each such call that was made
 */
#define _GNU_SOURCE
#include <errno.h>
#include <fcntl.h>
#include <signal.h>
#include <stdarg.h>
#include <stdlib.h>
#include <string.h>
#include <sys/stat.h>
#include <sys/syscall.h>
#include <unistd.h>

static int calls, at, number, log_fd = -1;
static const char *how = "";

__attribute__((constructor)) static void begin(void) {
    const char *s;
    if ((s = getenv("SHIM_AT"))) at = atoi(s);
    if ((s = getenv("SHIM_HOW"))) how = s;
    if ((s = getenv("SHIM_ERRNO"))) number = atoi(s);
    if ((s = getenv("SHIM_LOG"))) log_fd = syscall(SYS_openat, AT_FDCWD, s, O_WRONLY | O_CREAT | O_APPEND | O_CLOEXEC, 0600);
}

static int is(const char *what) { return calls == at && !strcmp(how, what); }
static void die(void) { syscall(SYS_kill, getpid(), SIGKILL); }

static void note(const char *what) {
    if (log_fd >= 0) {
        syscall(SYS_write, log_fd, what, strlen(what));
        syscall(SYS_write, log_fd, "\n", 1);
    }
}

/* Before the call: whether it is to fail. */
static int enter(void) {
    calls++;
    if (is("before")) die();
    if (is("signal")) syscall(SYS_kill, getpid(), number);
    if (is("fail")) {
        errno = number;
        return 1;
    }
    return 0;
}

static long leave(const char *what, long r) {
    if (r >= 0) note(what);
    if (is("after")) die();
    if (is("signalled")) syscall(SYS_kill, getpid(), number);
    return r;
}

ssize_t write(int fd, const void *p, size_t n) {
    if (fd <= 2) return syscall(SYS_write, fd, p, n);
    if (enter()) return -1;
    if (is("half")) {
        syscall(SYS_write, fd, p, n / 2);
        die();
    }
    if (is("short")) n = 1;
    return leave("write", syscall(SYS_write, fd, p, n));
}

int fsync(int fd) {
    struct stat s;
    if (enter()) return -1;
    return leave(!fstat(fd, &s) && S_ISDIR(s.st_mode) ? "fsync directory" : "fsync file", syscall(SYS_fsync, fd));
}

int rename(const char *from, const char *to) {
    if (enter()) return -1;
    return leave("rename", syscall(SYS_renameat2, AT_FDCWD, from, AT_FDCWD, to, 0));
}

int unlink(const char *path) {
    if (enter()) return -1;
    return leave(strstr(path, ".lock") ? "unlink lock" : "unlink file", syscall(SYS_unlinkat, AT_FDCWD, path, 0));
}

int fchmod(int fd, mode_t mode) {
    if (enter()) return -1;
    return leave("fchmod", syscall(SYS_fchmod, fd, mode));
}

static int opened(const char *path, int flags, mode_t mode) {
    if (!(flags & O_CREAT)) return syscall(SYS_openat, AT_FDCWD, path, flags, 0);
    if (enter()) return -1;
    return leave("create", syscall(SYS_openat, AT_FDCWD, path, flags, mode));
}

int open64(const char *path, int flags, ...) {
    va_list more;
    va_start(more, flags);
    mode_t mode = flags & O_CREAT ? va_arg(more, mode_t) : 0;
    va_end(more);
    return opened(path, flags, mode);
}

int open(const char *path, int flags, ...) {
    va_list more;
    va_start(more, flags);
    mode_t mode = flags & O_CREAT ? va_arg(more, mode_t) : 0;
    va_end(more);
    return opened(path, flags, mode);
}
