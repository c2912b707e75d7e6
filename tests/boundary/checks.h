/* Checks that are counted, and print one line each if they fail. */
#ifndef CHECKS_H
#define CHECKS_H

#include "yenuslap.h"

#ifdef __cplusplus
extern "C" {
#endif

/* An array as two arguments, pointer and length. */
#define BYTES(array) (array), sizeof(array)
/* So many bytes of an output as two arguments, filled anew with its pattern. */
#define LENT(output, len) lend(output, len), (len)

/* Expects an answer with this value. */
#define GIVES(value, answer) check_answer(__FILE__, __LINE__, YENUSLAP_NOT_REFUSED, value, answer)
/* Expects a refusal under this number, with the value 0. */
#define REFUSES(number, answer) check_answer(__FILE__, __LINE__, number, 0, answer)
/* Expects a part of this length. */
#define IS_LONG(expected, length) check_length(__FILE__, __LINE__, expected, length)

/* Expects these bytes at the front of an output, and its pattern everywhere else. */
#define HOLDS(output, array) check_output(__FILE__, __LINE__, output, array, sizeof(array))
#define HOLDS_SOME(output, bytes, len) check_output(__FILE__, __LINE__, output, bytes, len)
/* Expects that no byte of an output has changed. */
#define UNCHANGED(output) check_output(__FILE__, __LINE__, output, (output)->bytes, 0)

/* Bytes on each side of what is lent, and the most that is lent. */
enum { GUARD = 32, ROOM = 20000 };

/* An output in the middle of patterned bytes, so that a byte written beside it shows. */
struct output {
    uint8_t bytes[GUARD + ROOM + GUARD];
};

uint8_t *lend(struct output *output, size_t len);

void check_answer(const char *file, int line, uint64_t refusal, uint64_t value, uint64_t answer);
void check_length(const char *file, int line, size_t expected, size_t length);
void check_output(const char *file, int line, const struct output *output, const uint8_t *expected, size_t len);
void check_lines(const char *file, int line, struct yenuslap_lines expected, struct yenuslap_lines answer);

/* Prints how many checks passed and failed; 0 if none failed. */
int print_summary(void);

#ifdef __cplusplus
}
#endif

#endif
