/* fints: checks of FinTS 3.0 messages and dialogue scripts, as calls for C.
 *
 * Each call takes its inputs as bytes, and returns the status that the program has for the same inputs:
 *   0  permitted, clean, valid, or a text
 *   1  something is broken or found, or a certificate isn't closed; the text says what
 *   2  there is no message or no finding of that number
 *   3  an input is refused
 *   4  memory ran out
 *   5  an input is longer than the program takes: 4,194,304 bytes of a capture, a message, an answer or a recording,
 *      1,048,576 of an order table, a script, a case or a certificate
 * From 2 on the text is the line that the program writes to standard error: "error: ..", with its line feed.
 *
 * The text goes into `buffer` as far as it fits, and *size is the size of the whole text, as of snprintf. There is no zero byte
 * after the text, and the bytes of the buffer after it stay as they were. Where *size is more than buffer_size, call
 * again with a buffer of that size: the same inputs have the same text.
 *
 * What a caller must keep, as with memcpy:
 *   - No pointer is NULL, also where its size is 0. Pass "" for an input that is empty.
 *   - The bytes of an input can be read, and nobody writes to them during the call.
 *   - The bytes of the buffer, and *size, can be written, belong to nobody else during the call, and overlap neither each
 *     other nor an input. They need no value before the call.
 *   - A size is less than 2^63.
 *
 * Threads: a call reads and writes no file and has no state, so any number of threads may call at once. Don't call from a
 * signal handler. Memory: all that a call takes by malloc it has freed when it returns. There is nothing to free and no
 * handle.
 *
 * Stack: captures, messages, answers, recordings, cases and certificates take less than 48 KiB. An order table or a
 * script that was made to do harm takes up to 2.1 MiB, and where there is less the system ends the process: hand in
 * one from elsewhere only on a thread with 4 MiB of stack.
 *
 * An example, whose files read_file reads:
 *
 *   struct bytes { const uint8_t *at; size_t size; };
 *   struct bytes bank = read_file("bank.fints"), orders = read_file("orders.toml"), message = read_file("message");
 *   uint8_t text[4096];
 *   size_t size;
 *   uint32_t status = fints_judge(bank.at, bank.size, orders.at, orders.size, message.at, message.size,
 *                                 text, sizeof text, &size);
 *   if (status == 0)
 *       send(message.at, message.size);
 *   else
 *       fwrite(text, 1, size < sizeof text ? size : sizeof text, stderr);
 */
#ifndef FINTS_H
#define FINTS_H
#include <stddef.h>
#include <stdint.h>
#ifdef __cplusplus
extern "C" {
#endif
#if defined(__GNUC__)
#define FINTS_CALL __attribute__((nonnull))
#else
#define FINTS_CALL
#endif

/* Which rules a message breaks, by a capture of the bank's parameters and an order table: `fints judge`. */
FINTS_CALL uint32_t fints_judge(const uint8_t *params, size_t params_size, const uint8_t *orders, size_t orders_size,
                                const uint8_t *message, size_t message_size,
                                uint8_t *buffer, size_t buffer_size, size_t *size);

/* The same after the message before it and the bank's answer to that: `fints judge --before --answer`. */
FINTS_CALL uint32_t fints_judge_after(const uint8_t *params, size_t params_size,
                                      const uint8_t *orders, size_t orders_size,
                                      const uint8_t *before, size_t before_size,
                                      const uint8_t *answer, size_t answer_size,
                                      const uint8_t *message, size_t message_size,
                                      uint8_t *buffer, size_t buffer_size, size_t *size);

/* The same of several messages, each by itself, with one capture and one order table: before each verdict is the line
 * "message N". They come one after another in `messages`, by their sizes; what is left after the last size is one
 * message more, and all of them together have the limit of one message. Where one is no message, the offset in the
 * line of the refusal is counted from the first. */
FINTS_CALL uint32_t fints_judge_all(const uint8_t *params, size_t params_size,
                                    const uint8_t *orders, size_t orders_size,
                                    const uint8_t *messages, size_t messages_size,
                                    const size_t *sizes, size_t sizes_count,
                                    uint8_t *buffer, size_t buffer_size, size_t *size);

/* Which rules the client's messages of a recording break, by a capture, or by the parameters in the bank's own answers:
 * `fints audit` with and without `--params`. */
FINTS_CALL uint32_t fints_audit(const uint8_t *params, size_t params_size, const uint8_t *orders, size_t orders_size,
                                const uint8_t *dialogue, size_t dialogue_size,
                                uint8_t *buffer, size_t buffer_size, size_t *size);
FINTS_CALL uint32_t fints_audit_own(const uint8_t *orders, size_t orders_size,
                                    const uint8_t *dialogue, size_t dialogue_size,
                                    uint8_t *buffer, size_t buffer_size, size_t *size);

/* The report on a script: `fints check`. */
FINTS_CALL uint32_t fints_check(const uint8_t *params, size_t params_size, const uint8_t *orders, size_t orders_size,
                                const uint8_t *script, size_t script_size,
                                uint8_t *buffer, size_t buffer_size, size_t *size);

/* The report, and a case of each finding, or with `finding` from 1 on only of that one: `fints explain`. */
FINTS_CALL uint32_t fints_explain(const uint8_t *params, size_t params_size, const uint8_t *orders, size_t orders_size,
                                  const uint8_t *script, size_t script_size, uint32_t finding,
                                  uint8_t *buffer, size_t buffer_size, size_t *size);

/* A certificate of a script, and whether one is closed: `fints certify` and `fints verify`. */
FINTS_CALL uint32_t fints_certify(const uint8_t *params, size_t params_size, const uint8_t *orders, size_t orders_size,
                                  const uint8_t *script, size_t script_size,
                                  uint8_t *buffer, size_t buffer_size, size_t *size);
FINTS_CALL uint32_t fints_verify(const uint8_t *params, size_t params_size, const uint8_t *orders, size_t orders_size,
                                 const uint8_t *script, size_t script_size,
                                 const uint8_t *certificate, size_t certificate_size,
                                 uint8_t *buffer, size_t buffer_size, size_t *size);

/* The messages of a script under a case, or with `number` from 1 on only the bytes of that one: `fints run`. */
FINTS_CALL uint32_t fints_run(const uint8_t *orders, size_t orders_size, const uint8_t *script, size_t script_size,
                              const uint8_t *case_text, size_t case_text_size, uint32_t number,
                              uint8_t *buffer, size_t buffer_size, size_t *size);

/* What a capture says, and the segments of a message without its secrets: `fints show`. */
FINTS_CALL uint32_t fints_show(const uint8_t *params, size_t params_size,
                               uint8_t *buffer, size_t buffer_size, size_t *size);
FINTS_CALL uint32_t fints_show_message(const uint8_t *message, size_t message_size,
                                       uint8_t *buffer, size_t buffer_size, size_t *size);

#undef FINTS_CALL
#ifdef __cplusplus
}
#endif
#endif
