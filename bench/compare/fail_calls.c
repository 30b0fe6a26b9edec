/* A library that is loaded before a built `sgt`: one of the calls that it makes of the system fails, and each is told.
 *
 * FAIL_AT     the number of the call that fails; 0: none
 * FAIL_HOW    `error`: it fails with EIO (a write with ENOSPC, a new thread with EAGAIN); then each call is counted.
 *             `memory`: the same with ENOMEM.
 *             `signal`: it fails with EINTR; `short`: it takes or gives one byte. Then reads and writes alone are counted.
 *             `gone`: it fails with EPIPE. Then writes to standard output alone are counted.
 * CALLS_TO    the file to which each call is told, a line each; `!` stands before the one that failed
 *
 * fail_calls.py builds it and looks at what the program does. */
#define _GNU_SOURCE
#include <dlfcn.h>
#include <errno.h>
#include <fcntl.h>
#include <limits.h>
#include <pthread.h>
#include <stdarg.h>
#include <stdio.h>
#include <stdlib.h>
#include <string.h>
#include <sys/file.h>
#include <sys/stat.h>
#include <sys/syscall.h>
#include <unistd.h>

#define REAL(name) ((__typeof__(&name))dlsym(RTLD_NEXT, #name))

enum { LINE = 2 * PATH_MAX };

static long made;

/* Tells a call, by the system's own calls, so that none of it is counted. */
static void tell(int is_failing, const char *name, const char *what) {
    char line[LINE];
    int length = snprintf(line, sizeof line, "%s%s %s\n", is_failing ? "!" : "", name, what);
    long to = syscall(SYS_openat, AT_FDCWD, getenv("CALLS_TO"), O_WRONLY | O_CREAT | O_APPEND, 0600);
    if (syscall(SYS_write, to, line, (size_t)length) != length)
        abort();
    syscall(SYS_close, to);
}

static int is_how(const char *how) {
    return strcmp(getenv("FAIL_HOW"), how) == 0;
}

static int is_error(void) {
    return is_how("error") || is_how("memory");
}

static int is_now(const char *name, const char *what) {
    int is_failing = __sync_add_and_fetch(&made, 1) == atol(getenv("FAIL_AT"));
    tell(is_failing, name, what);
    return is_failing;
}

/* Whether the call fails, of those that are counted where errors are. */
static int fails(const char *name, const char *what, int error) {
    if (!is_error() || !is_now(name, what))
        return 0;
    errno = is_how("memory") ? ENOMEM : error;
    return 1;
}

/* What a descriptor is of. */
static const char *of(int file, char room[LINE]) {
    char link[64];
    snprintf(link, sizeof link, "/proc/self/fd/%d", file);
    ssize_t length = readlink(link, room, LINE - 1);
    room[length < 0 ? 0 : length] = '\0';
    if (file <= 2)
        snprintf(room, LINE, "%d", file);
    return room;
}

#define FAILS_OF(file, error) \
    char room[LINE]; \
    if (fails(__func__, of(file, room), error)) \
        return -1

#define FAILS_AT(path, error) \
    if (fails(__func__, path, error)) \
        return -1

/* What a read or a write does in place of all: -1 where it fails, 0 where it has one byte, 1 where nothing is changed. */
static int moves(const char *name, int file, int error) {
    char room[LINE];
    if (is_error()) {
        if (!fails(name, of(file, room), error))
            return 1;
        return -1;
    }
    if ((is_how("gone") && (file != 1 || strcmp(name, "write"))) || !is_now(name, of(file, room)))
        return 1;
    errno = is_how("gone") ? EPIPE : EINTR;
    return is_how("short") ? 0 : -1;
}

ssize_t read(int file, void *bytes, size_t count) {
    int how = moves(__func__, file, EIO);
    return how < 0 ? -1 : REAL(read)(file, bytes, how || count == 0 ? count : 1);
}

ssize_t write(int file, const void *bytes, size_t count) {
    int how = moves(__func__, file, ENOSPC);
    return how < 0 ? -1 : REAL(write)(file, bytes, how || count == 0 ? count : 1);
}

int open(const char *path, int flags, ...) {
    va_list more;
    va_start(more, flags);
    mode_t mode = flags & (O_CREAT | O_TMPFILE) ? va_arg(more, mode_t) : 0;
    va_end(more);
    FAILS_AT(path, EIO);
    return REAL(open)(path, flags, mode);
}

int openat(int folder, const char *path, int flags, ...) {
    va_list more;
    va_start(more, flags);
    mode_t mode = flags & (O_CREAT | O_TMPFILE) ? va_arg(more, mode_t) : 0;
    va_end(more);
    FAILS_AT(path, EIO);
    return REAL(openat)(folder, path, flags, mode);
}

/* The descriptor is let go also where the close fails, as the system does. */
int close(int file) {
    char room[LINE];
    int is_failing = fails(__func__, of(file, room), EIO), done = REAL(close)(file);
    if (!is_failing)
        return done;
    errno = EIO;
    return -1;
}

int fsync(int file) {
    FAILS_OF(file, EIO);
    return REAL(fsync)(file);
}

int fdatasync(int file) {
    FAILS_OF(file, EIO);
    return REAL(fdatasync)(file);
}

int ftruncate(int file, off_t length) {
    FAILS_OF(file, EIO);
    return REAL(ftruncate)(file, length);
}

int fchmod(int file, mode_t mode) {
    FAILS_OF(file, EIO);
    return REAL(fchmod)(file, mode);
}

int flock(int file, int what) {
    FAILS_OF(file, EIO);
    return REAL(flock)(file, what);
}

ssize_t getdents64(int file, void *entries, size_t count) {
    FAILS_OF(file, EIO);
    return REAL(getdents64)(file, entries, count);
}

int isatty(int file) {
    char room[LINE];
    return fails(__func__, of(file, room), EIO) ? 0 : REAL(isatty)(file);
}

int link(const char *from, const char *to) {
    FAILS_AT(to, EIO);
    return REAL(link)(from, to);
}

int unlink(const char *path) {
    FAILS_AT(path, EIO);
    return REAL(unlink)(path);
}

int mkdir(const char *path, mode_t mode) {
    FAILS_AT(path, EIO);
    return REAL(mkdir)(path, mode);
}

int statx(int folder, const char *restrict path, int flags, unsigned mask, struct statx *restrict found) {
    FAILS_AT(path, EIO);
    return REAL(statx)(folder, path, flags, mask, found);
}

int pthread_create(pthread_t *thread, const pthread_attr_t *how, void *(*body)(void *), void *with) {
    return fails(__func__, "", EAGAIN) ? EAGAIN : REAL(pthread_create)(thread, how, body, with);
}
