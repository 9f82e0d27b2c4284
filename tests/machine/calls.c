// Stands between a program and the C library (by LD_PRELOAD), and keeps a record of what the program asks of the machine. It also makes the machine
// fail, stop the program or answer by halves where it is told to. tests/machine/__init__.py says how it is used.
//
// Numbered, from 1, are the calls that a crash, another process or a full disk can come between: an opening, a lock, a write, a sync, and a piece
// that is said.

#define _GNU_SOURCE
#include <dlfcn.h>
#include <errno.h>
#include <fcntl.h>
#include <signal.h>
#include <stdarg.h>
#include <stdio.h>
#include <stdlib.h>
#include <string.h>
#include <sys/file.h>
#include <sys/stat.h>
#include <unistd.h>

#define MOST 256
#define REAL(name) ((__typeof__(name) *)dlsym(RTLD_NEXT, #name))

static int record = -1;
static long count, fail_at, stop_at, run_at;
static const char *run_what;
static int fail_errno, halves;
static char *names[MOST];

static long number_of(const char *variable) {
    const char *text = getenv(variable);
    return text ? atol(text) : 0;
}

__attribute__((constructor)) static void begin(void) {
    const char *path = getenv("CALLS_RECORD");
    if (path) {
        int opened = REAL(open)(path, O_WRONLY | O_CREAT | O_APPEND | O_CLOEXEC, 0600);
        record = fcntl(opened, F_DUPFD_CLOEXEC, MOST);
        REAL(close)(opened);
    }
    fail_at = number_of("CALLS_FAIL");
    fail_errno = getenv("CALLS_ERRNO") ? number_of("CALLS_ERRNO") : EIO;
    stop_at = number_of("CALLS_STOP");
    run_at = number_of("CALLS_RUN_AT");
    run_what = getenv("CALLS_RUN");
    halves = getenv("CALLS_HALVES") != NULL;
    unsetenv("LD_PRELOAD");
}

static const char *name_of(int fd) {
    return fd >= 0 && fd < MOST && names[fd] ? names[fd] : NULL;
}

static void name(int fd, const char *path) {
    if (fd < 0 || fd >= MOST) return;
    free(names[fd]);
    names[fd] = path ? strdup(path) : NULL;
}

// A line of the record: the words, and behind a tab the bytes in hexadecimal.
static void note(const char *words, const unsigned char *bytes, size_t len) {
    if (record < 0) return;
    size_t at = strlen(words);
    char *line = malloc(at + 2 * len + 3);
    memcpy(line, words, at);
    line[at++] = '\t';
    for (size_t i = 0; i < len; i++) at += sprintf(line + at, "%02x", bytes[i]);
    line[at++] = '\n';
    ssize_t put = REAL(write)(record, line, at);
    (void)put;
    free(line);
}

// Counts a call that is about to be made. It answers whether the machine fails it.
static int is_failed(void) {
    count++;
    if (count == run_at && run_what && system(run_what) == -1) abort();
    if (count == stop_at) kill(getpid(), SIGKILL);
    if (count != fail_at) return 0;
    errno = fail_errno;
    return 1;
}

// Where the machine answers by halves, each second of the calls that move bytes is interrupted, and each other moves about half.
static int is_interrupted(size_t *len) {
    static long moves;
    if (!halves) return 0;
    if (++moves % 2 == 1) {
        errno = EINTR;
        return 1;
    }
    if (*len > 1) *len = (*len + 1) / 2;
    return 0;
}

static const char *ended(int failed) {
    return failed ? " fails" : "";
}

static int opening(int at, const char *path, int flags, mode_t mode) {
    char words[5000];
    int failed = is_failed();
    int fd = failed ? -1 : REAL(openat)(at, path, flags, mode);
    int error = errno;
    const char *how = flags & O_CREAT ? "create" : (flags & O_ACCMODE) == O_RDONLY ? "read" : "write";
    snprintf(words, sizeof words, "open %s %s%s", path, how, ended(fd < 0));
    note(words, NULL, 0);
    name(fd, path);
    errno = error;
    return fd;
}

int open(const char *path, int flags, ...) {
    va_list rest;
    va_start(rest, flags);
    mode_t mode = flags & O_CREAT ? va_arg(rest, int) : 0;
    va_end(rest);
    return opening(AT_FDCWD, path, flags, mode);
}

int open64(const char *path, int flags, ...) {
    va_list rest;
    va_start(rest, flags);
    mode_t mode = flags & O_CREAT ? va_arg(rest, int) : 0;
    va_end(rest);
    return opening(AT_FDCWD, path, flags, mode);
}

int fcntl(int fd, int what, ...) {
    va_list rest;
    va_start(rest, what);
    long argument = va_arg(rest, long);
    va_end(rest);
    int answer = REAL(fcntl)(fd, what, argument);
    if ((what == F_DUPFD || what == F_DUPFD_CLOEXEC) && answer >= 0 && name_of(fd)) name(answer, name_of(fd));
    return answer;
}

int close(int fd) {
    name(fd, NULL);
    return REAL(close)(fd);
}

int flock(int fd, int how) {
    char words[5000];
    int failed = is_failed();
    int answer = failed ? -1 : REAL(flock)(fd, how);
    int error = errno;
    snprintf(words, sizeof words, "lock %s %s%s%s", name_of(fd) ? name_of(fd) : "?", how & LOCK_EX ? "alone" : "shared", how & LOCK_NB ? "" : " waits",
             ended(answer < 0));
    note(words, NULL, 0);
    errno = error;
    return answer;
}

static int syncing(int fd, const char *what, int (*real)(int)) {
    char words[5000];
    int failed = is_failed();
    int answer = failed ? -1 : real(fd);
    int error = errno;
    snprintf(words, sizeof words, "%s %s%s", what, name_of(fd) ? name_of(fd) : "?", ended(answer < 0));
    note(words, NULL, 0);
    errno = error;
    return answer;
}

int fsync(int fd) { return syncing(fd, "sync", REAL(fsync)); }

int fdatasync(int fd) { return syncing(fd, "sync_data", REAL(fdatasync)); }

static ssize_t writing(int fd, const void *from, size_t len, off_t at) {
    char words[5000];
    if (is_interrupted(&len)) return -1;
    int failed = is_failed();
    ssize_t put = failed ? -1 : REAL(pwrite)(fd, from, len, at);
    int error = errno;
    snprintf(words, sizeof words, "write %s %lld %zu%s", name_of(fd) ? name_of(fd) : "?", (long long)at, put < 0 ? len : (size_t)put, ended(put < 0));
    note(words, from, put < 0 ? len : (size_t)put);
    errno = error;
    return put;
}

ssize_t pwrite(int fd, const void *from, size_t len, off_t at) { return writing(fd, from, len, at); }

ssize_t pwrite64(int fd, const void *from, size_t len, off64_t at) { return writing(fd, from, len, at); }

ssize_t write(int fd, const void *from, size_t len) {
    char words[5000];
    if (fd != STDOUT_FILENO && !name_of(fd)) return REAL(write)(fd, from, len);
    if (is_interrupted(&len)) return -1;
    int failed = is_failed();
    ssize_t put = failed ? -1 : REAL(write)(fd, from, len);
    int error = errno;
    if (fd == STDOUT_FILENO) {
        snprintf(words, sizeof words, "say%s", ended(put < 0));
    } else {
        snprintf(words, sizeof words, "write %s onward %zu%s", name_of(fd), len, ended(put < 0));
    }
    note(words, from, put < 0 ? len : (size_t)put);
    errno = error;
    return put;
}

ssize_t read(int fd, void *into, size_t len) {
    if (fd == STDIN_FILENO && is_interrupted(&len)) return -1;
    return REAL(read)(fd, into, len);
}

ssize_t pread(int fd, void *into, size_t len, off_t at) {
    if (is_interrupted(&len)) return -1;
    return REAL(pread)(fd, into, len, at);
}

ssize_t pread64(int fd, void *into, size_t len, off64_t at) {
    if (is_interrupted(&len)) return -1;
    return REAL(pread)(fd, into, len, at);
}
