/* An outbox in C: it judges each message before it is sent, and holds back one that the bank may refuse.
 * Usage: outbox BANK ORDERS MESSAGE [ANSWER MESSAGE]..  with the bank's answer between two messages. */
#include "fints.h"
#include <stdio.h>
#include <stdlib.h>

struct bytes {
    uint8_t *at;
    size_t size;
};

/* The bytes of a file, at most 4 MiB. */
static struct bytes read_file(const char *path) {
    struct bytes file = {malloc(4 << 20), 0};
    FILE *from = fopen(path, "rb");
    if (!from || !file.at) {
        perror(path);
        exit(2);
    }
    file.size = fread(file.at, 1, 4 << 20, from);
    fclose(from);
    return file;
}

/* Judges a message by itself, or after the one before it and the answer to that. Prints why it is held back. */
static int may_be_sent(struct bytes bank, struct bytes orders, const struct bytes *before, struct bytes message) {
    static uint8_t text[1 << 16];
    size_t size;
    uint32_t status;
    if (before)
        status = fints_judge_after(bank.at, bank.size, orders.at, orders.size, before[0].at, before[0].size,
                                   before[1].at, before[1].size, message.at, message.size, text, sizeof text, &size);
    else
        status = fints_judge(bank.at, bank.size, orders.at, orders.size, message.at, message.size,
                             text, sizeof text, &size);
    if (status != 0)
        fwrite(text, 1, size < sizeof text ? size : sizeof text, stdout);
    return status == 0;
}

int main(int argc, char **argv) {
    if (argc < 4 || argc % 2 != 0) {
        fprintf(stderr, "usage: outbox BANK ORDERS MESSAGE [ANSWER MESSAGE]..\n");
        return 2;
    }
    struct bytes bank = read_file(argv[1]), orders = read_file(argv[2]);
    struct bytes before[2] = {{NULL, 0}, {NULL, 0}};
    for (int i = 3; i < argc; i += 2) {
        struct bytes message = read_file(argv[i]);
        if (i > 3)
            before[1] = read_file(argv[i - 1]);
        if (!may_be_sent(bank, orders, i > 3 ? before : NULL, message)) {
            printf("%s: held back\n", argv[i]);
            return 1;
        }
        printf("%s: sent\n", argv[i]);
        before[0] = message;
    }
    return 0;
}
