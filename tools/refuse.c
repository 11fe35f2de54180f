// A library to preload: it refuses growths of memory, as a system does that has no more.
// Counted, from 1, are the calls of malloc, calloc, realloc, posix_memalign and aligned_alloc while
// `main` runs, so none of those that the C library makes before or after it.
//
//   REFUSE_AT=N        the Nth growth is refused; none where it is absent or 0
//   REFUSE_ALL=1       and so are all behind it
//   REFUSE_COUNT=FILE  how many were asked for is written there when `main` returns
#define _GNU_SOURCE
#include <dlfcn.h>
#include <errno.h>
#include <stdio.h>
#include <stdlib.h>

extern void *__libc_malloc(size_t), *__libc_calloc(size_t, size_t), *__libc_realloc(void *, size_t);
extern void *__libc_memalign(size_t, size_t);

static int (*program)(int, char **, char **);
static int in_main, all;
static unsigned long asked, at;

static int refused(void) {
    if (!in_main) return 0;
    asked++;
    return at && (all ? asked >= at : asked == at);
}

static void *none(void) {
    errno = ENOMEM;
    return NULL;
}

void *malloc(size_t size) { return refused() ? none() : __libc_malloc(size); }
void *calloc(size_t count, size_t size) { return refused() ? none() : __libc_calloc(count, size); }
void *realloc(void *old, size_t size) { return refused() ? none() : __libc_realloc(old, size); }
void *aligned_alloc(size_t align, size_t size) { return refused() ? none() : __libc_memalign(align, size); }
int posix_memalign(void **to, size_t align, size_t size) {
    void *got = refused() ? NULL : __libc_memalign(align, size);
    if (!got) return ENOMEM;
    *to = got;
    return 0;
}

static unsigned long number(const char *name) {
    const char *text = getenv(name);
    return text ? strtoul(text, NULL, 10) : 0;
}

static int counted(int argc, char **argv, char **envp) {
    const char *path = getenv("REFUSE_COUNT");
    at = number("REFUSE_AT");
    all = number("REFUSE_ALL") != 0;
    in_main = 1;
    int status = program(argc, argv, envp);
    in_main = 0;
    FILE *to = path ? fopen(path, "w") : NULL;
    if (to && (fprintf(to, "%lu\n", asked) < 0 || fclose(to))) abort();
    return status;
}

// What starts `main` in a program of the GNU C library.
int __libc_start_main(int (*main)(int, char **, char **), int argc, char **argv, void (*init)(void),
                      void (*fini)(void), void (*rtld_fini)(void), void *stack) {
    int (*start)(int (*)(int, char **, char **), int, char **, void (*)(void), void (*)(void),
                 void (*)(void), void *) = dlsym(RTLD_NEXT, "__libc_start_main");
    program = main;
    return start(counted, argc, argv, init, fini, rtld_fini, stack);
}
