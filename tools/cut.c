// A library to preload: it has reads of a file, or writes to a descriptor, fail or move less.
//
//   CUT_READ=PATH   the reads of what was opened by this very path
//   CUT_WRITE=FD    or the writes to this descriptor
//   CUT_AT=N        only the Nth such call, counted from 1; each of them where it is absent or 0
//   CUT_AFTER=K     or each call once K bytes were moved, and the one before ends there
//   CUT_HOW=fail    such a call fails, with the error CUT_ERRNO (EIO where that is absent)
//           byte    it moves one byte
//           half    it moves half of what was asked for, and one byte at least
//           more    it claims one byte more than it was given room for
//   CUT_COUNT=FILE  how many such calls were made is written there when the program exits
#define _GNU_SOURCE
#include <errno.h>
#include <fcntl.h>
#include <stdarg.h>
#include <stdio.h>
#include <stdlib.h>
#include <string.h>
#include <sys/syscall.h>
#include <unistd.h>

static const char *path, *how, *count_path;
static int opened = -1, written = -1, error = EIO;
static unsigned long at, made;
static long left = -1;

static long number(const char *name, long otherwise) {
    const char *text = getenv(name);
    return text ? strtol(text, NULL, 10) : otherwise;
}

__attribute__((constructor)) static void begin(void) {
    path = getenv("CUT_READ");
    count_path = getenv("CUT_COUNT");
    how = getenv("CUT_HOW") ? getenv("CUT_HOW") : "";
    written = number("CUT_WRITE", -1);
    at = number("CUT_AT", 0);
    left = number("CUT_AFTER", -1);
    error = number("CUT_ERRNO", EIO);
}

__attribute__((destructor)) static void end(void) {
    FILE *to = count_path ? fopen(count_path, "w") : NULL;
    if (to && (fprintf(to, "%lu\n", made) < 0 || fclose(to))) abort();
}

static ssize_t moved(long call, int fd, void *bytes, size_t size) {
    made++;
    if (left >= 0 ? left == 0 : !strcmp(how, "fail") && (!at || made == at)) {
        errno = error;
        return -1;
    }
    size_t part = size;
    if (left >= 0) part = (size_t)left < size ? (size_t)left : size;
    else if (!at || made == at) {
        if (!strcmp(how, "byte") && size) part = 1;
        if (!strcmp(how, "half") && size > 1) part = size / 2;
    }
    ssize_t got = syscall(call, fd, bytes, part);
    if (left >= 0 && got > 0) left -= got;
    return got >= 0 && !strcmp(how, "more") && (!at || made == at) ? (ssize_t)size + 1 : got;
}

int open(const char *name, int flags, ...) {
    va_list more;
    va_start(more, flags);
    int fd = syscall(SYS_openat, AT_FDCWD, name, flags, flags & O_CREAT ? va_arg(more, int) : 0);
    va_end(more);
    if (path && !strcmp(name, path)) opened = fd;
    return fd;
}

int close(int fd) {
    if (fd == opened) opened = -1;
    return syscall(SYS_close, fd);
}

ssize_t read(int fd, void *to, size_t size) {
    return fd >= 0 && fd == opened ? moved(SYS_read, fd, to, size) : syscall(SYS_read, fd, to, size);
}

ssize_t write(int fd, const void *from, size_t size) {
    return fd >= 0 && fd == written ? moved(SYS_write, fd, (void *)from, size) : syscall(SYS_write, fd, from, size);
}
