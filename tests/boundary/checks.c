#include "checks.h"

#include <stdio.h>
#include <stdlib.h>

static unsigned long passed = 0;
static unsigned long failed = 0;

/* The pattern's byte at a place; neighbours differ. */
static uint8_t pattern(size_t at)
{
    return (uint8_t)(at * 167 + 91);
}

uint8_t *lend(struct output *output, size_t len)
{
    if (len > ROOM) {
        printf("no output has %lu bytes\n", (unsigned long)len);
        exit(1);
    }
    for (size_t at = 0; at < sizeof(output->bytes); at++)
        output->bytes[at] = pattern(at);
    return output->bytes + GUARD;
}

/* Counts a check, and begins the line of one that failed. */
static int fails(const char *file, int line, int good)
{
    if (good) {
        passed++;
        return 0;
    }
    failed++;
    printf("%s:%d: ", file, line);
    return 1;
}

void check_answer(const char *file, int line, uint64_t refusal, uint64_t value, uint64_t answer)
{
    uint32_t number = yenuslap_refusal(answer);
    uint32_t given = yenuslap_value(answer);
    if (fails(file, line, number == refusal && given == value))
        printf("refusal %lu value %lu, expected refusal %lu value %lu\n",
               (unsigned long)number, (unsigned long)given, (unsigned long)refusal, (unsigned long)value);
}

void check_length(const char *file, int line, size_t expected, size_t length)
{
    if (fails(file, line, length == expected))
        printf("length %lu, expected length %lu\n", (unsigned long)length, (unsigned long)expected);
}

void check_output(const char *file, int line, const struct output *output, const uint8_t *expected, size_t len)
{
    size_t at = 0;
    while (at < sizeof(output->bytes)) {
        int written = at >= GUARD && at - GUARD < len;
        if (output->bytes[at] != (written ? expected[at - GUARD] : pattern(at)))
            break;
        at++;
    }
    if (fails(file, line, at == sizeof(output->bytes)))
        printf("byte %ld of the output, of which %lu are expected to be written, is %02x\n",
               (long)at - GUARD, (unsigned long)len, output->bytes[at]);
}

void check_lines(const char *file, int line, struct yenuslap_lines expected, struct yenuslap_lines answer)
{
    int good = answer.refusal == expected.refusal && answer.lines == expected.lines && answer.bytes == expected.bytes;
    if (fails(file, line, good))
        printf("refusal %lu lines %lu bytes %lu, expected refusal %lu lines %lu bytes %lu\n",
               (unsigned long)answer.refusal, (unsigned long)answer.lines, (unsigned long)answer.bytes,
               (unsigned long)expected.refusal, (unsigned long)expected.lines, (unsigned long)expected.bytes);
}

int print_summary(void)
{
    printf("%lu passed, %lu failed\n", passed, failed);
    return failed == 0 && passed > 0 ? 0 : 1;
}
