// The program's commands over the library for C. It takes the program's words, reads the files, makes one call, writes
// the text and ends with the status, as the program does; tools/over-c.sh runs the rows of rows/ on it. Each call is
// made three times: without room, with three bytes too many, and with one byte too few. Status, size and bytes must
// agree, no byte around the buffer may change, and what a call allocated must be free after it. Where FINTS_REFUSE is
// set, the call is made again with one of its allocations refused, and with all from there on, for some sixty of them:
// it says that memory ran out, or exactly what it says with memory. A message that is judged by itself is judged twice
// in one call, too.
#include "fints.h"
#include <stdio.h>
#include <stdlib.h>
#include <string.h>

struct file { const char *option; uint8_t *bytes; size_t size; int is_there; };
static struct file files[] = {{"--params"}, {"--orders"}, {"--script"}, {"--case"}, {"--cert"}, {"--before"},
                              {"--answer"}, {"--message"}, {"--dialogue"}};
enum { PARAMS, ORDERS, SCRIPT, CASE, CERT, BEFORE, ANSWER, MESSAGE, DIALOGUE, COUNT };
static unsigned long number;
enum { MOST = 16 << 20 };

// The library's memory. The linker puts these in place of malloc, realloc and free (--wrap).
static struct { size_t asked, refused; int all_after; long held; } memory;
void *__real_malloc(size_t size);
void *__real_realloc(void *block, size_t size);
void __real_free(void *block);

static int is_refused(void) {
    memory.asked++;
    return memory.refused && (memory.asked == memory.refused || (memory.all_after && memory.asked > memory.refused));
}

void *__wrap_malloc(size_t size) {
    void *block = is_refused() ? NULL : __real_malloc(size);
    memory.held += block != NULL;
    return block;
}

void *__wrap_realloc(void *old, size_t size) {
    void *block = is_refused() ? NULL : __real_realloc(old, size);
    memory.held += block && !old;
    return block;
}

void __wrap_free(void *block) {
    memory.held -= block != NULL;
    __real_free(block);
}

static void stop(int status, const char *why) { fprintf(stderr, "over_c: %s\n", why); exit(status); }

// The bytes of a file, on the heap and not one byte more, so that valgrind sees a read after their end.
static void load(struct file *file, const char *path) {
    FILE *from = strcmp(path, "-") ? fopen(path, "rb") : stdin;
    if (!from) stop(75, "a file can't be read");
    size_t room = 1 << 16;
    uint8_t *bytes = malloc(room);
    for (size_t n; (n = fread(bytes + file->size, 1, room - file->size, from)) > 0;) {
        file->size += n;
        if (file->size > MOST) stop(75, "a file is too long for this test");
        if (file->size == room) bytes = realloc(bytes, room *= 2);
    }
    if (ferror(from)) stop(75, "a file can't be read");
    if (from != stdin) fclose(from);
    file->bytes = malloc(file->size ? file->size : 1);
    memcpy(file->bytes, bytes, file->size);
    free(bytes);
    file->is_there = 1;
}

#define IN(N) files[N].bytes, files[N].size
#define HAS(N) (files[N].is_there)

static uint32_t call(const char *command, uint8_t *buffer, size_t buffer_size, size_t *size) {
    if (!strcmp(command, "judge"))
        return HAS(BEFORE) ? fints_judge_after(IN(PARAMS), IN(ORDERS), IN(BEFORE), IN(ANSWER), IN(MESSAGE), buffer, buffer_size, size)
                           : fints_judge(IN(PARAMS), IN(ORDERS), IN(MESSAGE), buffer, buffer_size, size);
    if (!strcmp(command, "audit"))
        return HAS(PARAMS) ? fints_audit(IN(PARAMS), IN(ORDERS), IN(DIALOGUE), buffer, buffer_size, size)
                           : fints_audit_own(IN(ORDERS), IN(DIALOGUE), buffer, buffer_size, size);
    if (!strcmp(command, "check")) return fints_check(IN(PARAMS), IN(ORDERS), IN(SCRIPT), buffer, buffer_size, size);
    if (!strcmp(command, "explain"))
        return fints_explain(IN(PARAMS), IN(ORDERS), IN(SCRIPT), (uint32_t)number, buffer, buffer_size, size);
    if (!strcmp(command, "certify")) return fints_certify(IN(PARAMS), IN(ORDERS), IN(SCRIPT), buffer, buffer_size, size);
    if (!strcmp(command, "verify"))
        return fints_verify(IN(PARAMS), IN(ORDERS), IN(SCRIPT), IN(CERT), buffer, buffer_size, size);
    if (!strcmp(command, "run"))
        return fints_run(IN(ORDERS), IN(SCRIPT), IN(CASE), (uint32_t)number, buffer, buffer_size, size);
    if (!strcmp(command, "show"))
        return HAS(PARAMS) ? fints_show(IN(PARAMS), buffer, buffer_size, size)
                           : fints_show_message(IN(MESSAGE), buffer, buffer_size, size);
    stop(77, "no call for this command");
    return 0;
}

enum { MARK = 0xa5, AROUND = 64 };

// Makes the call with a buffer of this size between marked bytes. Nothing that it allocated may be left.
static uint32_t marked(const char *command, uint8_t *all, size_t buffer_size, size_t *size) {
    memset(all, MARK, buffer_size + 2 * AROUND);
    long held = memory.held;
    uint32_t status = call(command, all + AROUND, buffer_size, size);
    if (memory.held != held) stop(70, "a call keeps memory");
    for (size_t i = 0; i < AROUND; i++)
        if (all[i] != MARK || all[AROUND + buffer_size + i] != MARK) stop(70, "a byte around the buffer has changed");
    for (size_t i = *size; i < buffer_size; i++)
        if (all[AROUND + i] != MARK) stop(70, "a byte after the text has changed");
    return status;
}

// The message twice in one call of fints_judge_all: its verdict twice, each after its number, or its refusal.
static void judge_twice(uint32_t status, const uint8_t *text, size_t size) {
    size_t one = files[MESSAGE].size, wanted = 0, again = 0;
    uint8_t *twice = malloc(2 * one + 1), *want = malloc(2 * size + 32), *all = malloc(2 * size + 32);
    memcpy(twice, files[MESSAGE].bytes, one);
    memcpy(twice + one, files[MESSAGE].bytes, one);
    for (int n = 1; n <= 2 && (status < 2 || n == 1); n++) {
        if (status < 2) wanted += (size_t)sprintf((char *)want + wanted, "message %d\n", n);
        memcpy(want + wanted, text, size);
        wanted += size;
    }
    uint32_t other = fints_judge_all(IN(PARAMS), IN(ORDERS), twice, 2 * one, &one, 1, all, 2 * size + 32, &again);
    if (other != status || again != wanted || memcmp(all, want, wanted)) stop(70, "two messages have another answer");
    free(twice);
    free(want);
    free(all);
}

// Makes the call again with allocations refused, and holds what comes of it against the text with memory.
static void refuse(const char *command, uint32_t status, const uint8_t *text, size_t size) {
    static const char OUT[] = "error: memory\n";
    uint8_t *all = malloc(size + sizeof OUT + 2 * AROUND);
    size_t again = 0;
    memory.asked = 0;
    marked(command, all, size, &again);
    size_t count = memory.asked;
    for (size_t n = 1; n <= count; n += n < 20 ? 1 : count / 40 + 1)
        for (memory.all_after = 0; memory.all_after < 2; memory.all_after++) {
            memory.asked = 0;
            memory.refused = n;
            uint32_t other = marked(command, all, size + sizeof OUT, &again);
            memory.refused = 0;
            int ran_out = other == 4 && again == sizeof OUT - 1 && !memcmp(all + AROUND, OUT, again);
            int is_same = other == status && again == size && !memcmp(all + AROUND, text, size);
            if (!ran_out && !is_same) stop(70, "with an allocation refused there is another answer");
        }
    free(all);
}

int main(int argc, char **argv) {
    if (argc < 2) stop(77, "no command");
    const char *command = argv[1];
    for (int i = 2; i < argc; i++) {
        int n = 0;
        if (i + 1 == argc) stop(77, "a word without a value");
        int is_number = !strcmp(argv[i], "--finding") || !strcmp(argv[i], "--number")
                        || (!strcmp(command, "run") && !strcmp(argv[i], "--message"));
        if (is_number) {
            char *end;
            number = strtoul(argv[++i], &end, 10);
            if (*end || end == argv[i] || number == 0 || number > UINT32_MAX) stop(77, "no such number");
            continue;
        }
        while (n < COUNT && strcmp(argv[i], files[n].option)) n++;
        if (n == COUNT || HAS(n)) stop(77, "no call for this word");
        load(&files[n], argv[++i]);
    }
    if (!strcmp(command, "audit") && !HAS(ORDERS)) stop(77, "the program's own order table is in no call");
    for (int n = 0; n < COUNT; n++)
        if (!HAS(n)) files[n].bytes = (uint8_t *)"";
    size_t size = 1, again = 2;
    uint8_t nothing = MARK;
    uint32_t status = call(command, &nothing, 0, &size);
    if (nothing != MARK) stop(70, "a byte was written where there is no room");
    uint8_t *all = malloc(size + 3 + 2 * AROUND), *less = malloc(size + 2 * AROUND);
    if (marked(command, all, size + 3, &again) != status || again != size) stop(70, "with room there is another answer");
    if (size > 0) {
        if (marked(command, less, size - 1, &again) != status || again != size) stop(70, "with less room there is another answer");
        if (memcmp(less + AROUND, all + AROUND, size - 1)) stop(70, "with less room there is another text");
    }
    if (!strcmp(command, "judge") && !HAS(BEFORE)) judge_twice(status, all + AROUND, size);
    if (getenv("FINTS_REFUSE")) refuse(command, status, all + AROUND, size);
    fwrite(all + AROUND, 1, size, status < 2 ? stdout : stderr);
    free(all);
    free(less);
    for (int n = 0; n < COUNT; n++)
        if (HAS(n)) free(files[n].bytes);
    return (int)status;
}
