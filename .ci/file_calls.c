/* Put before the C library (LD_PRELOAD), it notes each call that opens, locks, syncs, renames, links or removes a file, or reads or
   writes at a place of it, a line each, in the file that FILE_CALLS names. A call whose line is REFUSED fails with EIO, and isn't made;
   so does the call of the number REFUSED_CALL, from 1 on. REFUSED_AS changes how: `full` fails with ENOSPC, `interrupted` with EINTR,
   and `short` reads or writes half of the bytes; at `killed` the program is killed there, and at `torn` after half of the bytes. */
#define _GNU_SOURCE
#include <dlfcn.h>
#include <errno.h>
#include <fcntl.h>
#include <signal.h>
#include <stdarg.h>
#include <stdio.h>
#include <stdlib.h>
#include <string.h>
#include <sys/file.h>
#include <unistd.h>

static int is_refused_as(const char *how) {
    const char *as = getenv("REFUSED_AS");
    return as && strcmp(as, how) == 0;
}

/* Notes a call. Says whether it is refused. */
static int is_refused(const char *line) {
    static int calls;
    int (*next_open)(const char *, int, ...) = dlsym(RTLD_NEXT, "open");
    const char *to = getenv("FILE_CALLS"), *refused = getenv("REFUSED"), *number = getenv("REFUSED_CALL");
    int file = to ? next_open(to, O_CREAT | O_WRONLY | O_APPEND, 0600) : -1;
    if (file >= 0) {
        if (write(file, line, strlen(line)) < 0 || write(file, "\n", 1) < 0) abort();
        close(file);
    }
    calls++;
    if (!(refused && strcmp(refused, line) == 0) && !(number && atoi(number) == calls)) return 0;
    if (is_refused_as("killed")) kill(getpid(), SIGKILL);
    errno = is_refused_as("full") ? ENOSPC : is_refused_as("interrupted") ? EINTR : EIO;
    return 1;
}

static int noted_open(const char *path, int flags, mode_t mode) {
    int (*next)(const char *, int, ...) = dlsym(RTLD_NEXT, "open");
    const char *ways[] = {"to read", "to write", "to read and write"};
    char line[512];
    snprintf(line, sizeof line, "open %s %s%s%s", path, ways[flags & O_ACCMODE], flags & O_CREAT ? ", made" : "",
             flags & O_EXCL ? " where nothing is" : "");
    return is_refused(line) ? -1 : next(path, flags, mode);
}

int open(const char *path, int flags, ...) {
    va_list rest;
    va_start(rest, flags);
    mode_t mode = flags & O_CREAT ? va_arg(rest, mode_t) : 0;
    va_end(rest);
    return noted_open(path, flags, mode);
}

int open64(const char *path, int flags, ...) {
    va_list rest;
    va_start(rest, flags);
    mode_t mode = flags & O_CREAT ? va_arg(rest, mode_t) : 0;
    va_end(rest);
    return noted_open(path, flags, mode);
}

/* Notes a call of an open file; of its path only the last name is told. */
static int is_file_refused(const char *what, int file, const char *more) {
    char at[64], path[400], line[512];
    snprintf(at, sizeof at, "/proc/self/fd/%d", file);
    ssize_t len = readlink(at, path, sizeof path - 1);
    path[len < 0 ? 0 : len] = 0;
    const char *last = strrchr(path, '/');
    snprintf(line, sizeof line, "%s %s%s", what, last ? last + 1 : path, more);
    return is_refused(line);
}

static int noted_sync(int file, const char *name) {
    int (*next)(int) = dlsym(RTLD_NEXT, name);
    return is_file_refused("sync", file, "") ? -1 : next(file);
}

int flock(int file, int how) {
    int (*next)(int, int) = dlsym(RTLD_NEXT, "flock");
    return is_file_refused(how == LOCK_UN ? "unlock" : "lock", file, "") ? -1 : next(file, how);
}

ssize_t pread(int file, void *bytes, size_t count, off_t at) {
    ssize_t (*next)(int, void *, size_t, off_t) = dlsym(RTLD_NEXT, "pread");
    char more[64];
    snprintf(more, sizeof more, " %lld+%zu", (long long)at, count);
    if (!is_file_refused("read", file, more)) return next(file, bytes, count, at);
    return is_refused_as("short") ? next(file, bytes, (count + 1) / 2, at) : -1;
}

ssize_t pwrite(int file, const void *bytes, size_t count, off_t at) {
    ssize_t (*next)(int, const void *, size_t, off_t) = dlsym(RTLD_NEXT, "pwrite");
    char more[64];
    snprintf(more, sizeof more, " %lld+%zu", (long long)at, count);
    if (!is_file_refused("write", file, more)) return next(file, bytes, count, at);
    ssize_t half = is_refused_as("short") || is_refused_as("torn") ? next(file, bytes, (count + 1) / 2, at) : -1;
    if (is_refused_as("torn")) kill(getpid(), SIGKILL);
    return half;
}

/* What is printed is noted where FILE_PRINTS is set. */
ssize_t write(int file, const void *bytes, size_t count) {
    ssize_t (*next)(int, const void *, size_t) = dlsym(RTLD_NEXT, "write");
    char line[64];
    snprintf(line, sizeof line, "print %zu", count);
    if (file != 1 || !getenv("FILE_PRINTS") || !is_refused(line)) return next(file, bytes, count);
    return is_refused_as("short") ? next(file, bytes, (count + 1) / 2) : -1;
}

int fsync(int file) { return noted_sync(file, "fsync"); }

int fdatasync(int file) { return noted_sync(file, "fdatasync"); }

static int noted_pair(const char *name, const char *from, const char *to) {
    int (*next)(const char *, const char *) = dlsym(RTLD_NEXT, name);
    char line[512];
    snprintf(line, sizeof line, "%s %s %s", name, from, to);
    return is_refused(line) ? -1 : next(from, to);
}

int rename(const char *from, const char *to) { return noted_pair("rename", from, to); }

int link(const char *from, const char *to) { return noted_pair("link", from, to); }

int unlink(const char *path) {
    int (*next)(const char *) = dlsym(RTLD_NEXT, "unlink");
    char line[512];
    snprintf(line, sizeof line, "unlink %s", path);
    return is_refused(line) ? -1 : next(path);
}
