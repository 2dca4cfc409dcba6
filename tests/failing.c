/* Lets one call to the system fail, for tests/faults.py: it is loaded before the system's library. FAULT_KIND names the calls and
   FAULT_AT which of them fails, counted from 1. A kind that begins with "short-" moves one byte instead, and "stop" ends the
   process before the call. FAULT_COUNT names a file that gets how many such calls were made. */
#define _GNU_SOURCE
#include <errno.h>
#include <fcntl.h>
#include <signal.h>
#include <stdarg.h>
#include <stdlib.h>
#include <string.h>
#include <sys/stat.h>
#include <sys/syscall.h>
#include <sys/types.h>
#include <unistd.h>

static const char *kind;
static long due, made;
static int begun;

static void begin(void) {
    if (begun) return;
    begun = 1;
    kind = getenv("FAULT_KIND");
    due = getenv("FAULT_AT") ? atol(getenv("FAULT_AT")) : -1;
}

/* whether this is the call of that kind that is to fail */
static int is_due(const char *one) {
    begin();
    return kind && !strcmp(kind, one) && ++made == due;
}

/* the same, for calls before which the process may end */
static int strikes(const char *one) {
    if (is_due("stop")) kill(getpid(), SIGKILL);
    return is_due(one);
}

__attribute__((destructor)) static void tell(void) {
    char *name = getenv("FAULT_COUNT"), text[32];
    int length = 0, fd;
    long rest = made;
    if (!name) return;
    fd = syscall(SYS_open, name, O_WRONLY | O_CREAT | O_TRUNC, 0600);
    do { text[31 - length++] = '0' + rest % 10; rest /= 10; } while (rest);
    syscall(SYS_write, fd, text + 32 - length, length);
    syscall(SYS_close, fd);
}

extern void *__libc_malloc(size_t), *__libc_realloc(void *, size_t);

#define FAILS(one, error) if (strikes(one)) { errno = error; return -1; }

void *malloc(size_t size) {
    if (is_due("alloc")) { errno = ENOMEM; return 0; }
    return __libc_malloc(size);
}

void *realloc(void *old, size_t size) {
    if (is_due("alloc")) { errno = ENOMEM; return 0; }
    return __libc_realloc(old, size);
}

int open(const char *name, int flags, ...) {
    va_list rest;
    int mode;
    va_start(rest, flags);
    mode = va_arg(rest, int);
    va_end(rest);
    FAILS("open", EACCES)
    return syscall(SYS_openat, AT_FDCWD, name, flags, mode);
}

off_t lseek(int fd, off_t place, int from) {
    FAILS("seek", EIO)
    return syscall(SYS_lseek, fd, place, from);
}

ssize_t read(int fd, void *bytes, size_t length) {
    FAILS("read", EIO)
    if (length > 1 && is_due("short-read")) length = 1;
    return syscall(SYS_read, fd, bytes, length);
}

ssize_t write(int fd, const void *bytes, size_t length) {
    FAILS("write", ENOSPC)
    if (length > 1 && is_due("short-write")) length = 1;
    return syscall(SYS_write, fd, bytes, length);
}

ssize_t __write(int fd, const void *bytes, size_t length) { return write(fd, bytes, length); }

ssize_t pread(int fd, void *bytes, size_t length, off_t place) {
    FAILS("pread", EIO)
    if (length > 1 && is_due("short-pread")) length = 1;
    return syscall(SYS_pread64, fd, bytes, length, place);
}

ssize_t pwrite(int fd, const void *bytes, size_t length, off_t place) {
    FAILS("pwrite", ENOSPC)
    if (length > 1 && is_due("short-pwrite")) length = 1;
    return syscall(SYS_pwrite64, fd, bytes, length, place);
}

int fsync(int fd) {
    FAILS("sync", EIO)
    return syscall(SYS_fsync, fd);
}

int fdatasync(int fd) {
    FAILS("sync", EIO)
    return syscall(SYS_fdatasync, fd);
}

int ftruncate(int fd, off_t length) {
    FAILS("truncate", ENOSPC)
    return syscall(SYS_ftruncate, fd, length);
}

int fcntl(int fd, int command, ...) {
    va_list rest;
    void *given;
    va_start(rest, command);
    given = va_arg(rest, void *);
    va_end(rest);
    FAILS("lock", EAGAIN)
    return syscall(SYS_fcntl, fd, command, given);
}

int flock(int fd, int how) {
    FAILS("lock", EWOULDBLOCK)
    return syscall(SYS_flock, fd, how);
}

int statx(int folder, const char *name, int flags, unsigned mask, struct statx *into) {
    FAILS("stat", EIO)
    return syscall(SYS_statx, folder, name, flags, mask, into);
}

int fchmod(int fd, mode_t mode) {
    FAILS("mode", EPERM)
    return syscall(SYS_fchmod, fd, mode);
}

int fchown(int fd, uid_t user, gid_t group) {
    FAILS("mode", EPERM)
    return syscall(SYS_fchown, fd, user, group);
}

int getentropy(void *bytes, size_t length) {
    FAILS("random", EIO)
    return syscall(SYS_getrandom, bytes, length, 0) == (long)length ? 0 : -1;
}

int close(int fd) {
    if (strikes("close")) { syscall(SYS_close, fd); errno = EIO; return -1; }
    return syscall(SYS_close, fd);
}

int rename(const char *old, const char *new) {
    FAILS("rename", EACCES)
    return syscall(SYS_rename, old, new);
}

int unlink(const char *name) {
    FAILS("rename", EACCES)
    return syscall(SYS_unlink, name);
}
