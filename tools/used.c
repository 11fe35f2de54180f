// Runs a program within limits, and prints what it took: its status (128 and the signal, where one
// ended it), the milliseconds of processor time, and the KiB of memory at its peak. It is small
// itself, so that the peak is the program's.
//
//   used SECONDS MEMORY STACK PROGRAM WORDS..    limits in seconds and KiB; 0 is none
#define _GNU_SOURCE
#include <fcntl.h>
#include <stdio.h>
#include <stdlib.h>
#include <sys/resource.h>
#include <sys/wait.h>
#include <unistd.h>

static void limit(int what, const char *text, rlim_t unit) {
    rlim_t most = strtoul(text, NULL, 10) * unit;
    struct rlimit both = {most, most};
    if (most && setrlimit(what, &both)) _exit(127);
}

int main(int count, char **words) {
    if (count < 5) return 2;
    pid_t child = fork();
    if (!child) {
        limit(RLIMIT_CPU, words[1], 1);
        limit(RLIMIT_AS, words[2], 1024);
        limit(RLIMIT_STACK, words[3], 1024);
        struct rlimit none = {0, 0};
        setrlimit(RLIMIT_CORE, &none);
        dup2(open("/dev/null", O_RDWR), 0);
        dup2(open("/dev/null", O_RDWR), 1);
        execv(words[4], words + 4);
        _exit(127);
    }
    int status;
    struct rusage used;
    if (child < 0 || wait4(child, &status, 0, &used) < 0) return 1;
    long milliseconds = (used.ru_utime.tv_sec + used.ru_stime.tv_sec) * 1000
                      + (used.ru_utime.tv_usec + used.ru_stime.tv_usec) / 1000;
    printf("%d %ld %ld\n", WIFSIGNALED(status) ? 128 + WTERMSIG(status) : WEXITSTATUS(status),
           milliseconds, used.ru_maxrss);
    return 0;
}
