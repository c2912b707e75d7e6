/* Lines of sheets. */
#include "checks.h"
#include "document.h"
#include "suites.h"

#include <string.h>

static struct output out;

/* Case A's sheet: two lines of 13 bytes, two of 17. */
static const char A_SHEET[] = "0 0 F 0100 F\n0 1 F 0100 F\n1 0 T 06010000 T\n1 1 T 06030000 T\n";
enum { A_SHEET_LEN = 60 };

/* Expects so many lines, and this text at the output's front. */
#define WRITES(count, text, text_len, answer) check_written(__LINE__, count, text, text_len, answer)
/* Expects 18, and that no byte of the output has changed. */
#define TOO_SHORT(answer) check_too_short(__LINE__, answer)

static void check_written(int line, uint64_t count, const char *text, size_t len, struct yenuslap_lines answer)
{
    struct yenuslap_lines expected = {YENUSLAP_NOT_REFUSED, 0, 0};
    expected.lines = count;
    expected.bytes = len;
    check_lines(__FILE__, line, expected, answer);
    check_output(__FILE__, line, &out, (const uint8_t *)text, len);
}

static void check_too_short(int line, struct yenuslap_lines answer)
{
    struct yenuslap_lines expected = {YENUSLAP_REFUSED_OUTPUT_TOO_SHORT, 0, 0};
    check_lines(__FILE__, line, expected, answer);
    check_output(__FILE__, line, &out, out.bytes, 0);
}

/* Lines of case A's sheet. */
static struct yenuslap_lines lines_a(size_t first, size_t most, size_t room)
{
    return yenuslap_sheet_lines(BYTES(A_CASEBOOK), first, most, LENT(&out, room));
}

static void lines_of_case_a(void)
{
    WRITES(4, A_SHEET, A_SHEET_LEN, lines_a(0, 4, A_SHEET_LEN));
    WRITES(4, A_SHEET, A_SHEET_LEN, lines_a(0, SIZE_MAX, YENUSLAP_MOST_LINE));
    WRITES(3, A_SHEET, 43, lines_a(0, 4, A_SHEET_LEN - 1));
    WRITES(2, A_SHEET, 26, lines_a(0, 2, 99));
    WRITES(2, A_SHEET + 13, 30, lines_a(1, 2, 99));
    WRITES(1, A_SHEET + 13, 13, lines_a(1, 2, 29));
    WRITES(1, A_SHEET + 26, 17, lines_a(2, 1, 17));
    WRITES(1, A_SHEET + 43, 17, lines_a(3, 7, 17));
}

/* Past the end, and with no lines asked for, nothing is due, whatever the output. */
static void no_lines_due(void)
{
    WRITES(0, "", 0, lines_a(4, 4, 99));
    WRITES(0, "", 0, lines_a(SIZE_MAX, SIZE_MAX, 99));
    WRITES(0, "", 0, lines_a(4, 1, 0));
    WRITES(0, "", 0, lines_a(0, 0, 99));
    WRITES(0, "", 0, lines_a(0, 0, 0));
}

static void lines_that_do_not_fit(void)
{
    TOO_SHORT(lines_a(0, 4, 12));
    TOO_SHORT(lines_a(0, 1, 0));
    TOO_SHORT(lines_a(2, 1, 16));
    TOO_SHORT(lines_a(3, SIZE_MAX, 16));
}

/* Case A with a step that is not real has a sheet of one line. */
static void refused_casebook(void)
{
    uint8_t casebook[sizeof(A_CASEBOOK)];
    memcpy(casebook, A_CASEBOOK, sizeof(casebook));
    casebook[35] = 0;
    WRITES(1, "R 8\n", 4, yenuslap_sheet_lines(BYTES(casebook), 0, 9, LENT(&out, 4)));
    WRITES(0, "", 0, yenuslap_sheet_lines(BYTES(casebook), 1, 9, LENT(&out, 99)));
    WRITES(0, "", 0, yenuslap_sheet_lines(BYTES(casebook), 0, 0, LENT(&out, 99)));
    TOO_SHORT(yenuslap_sheet_lines(BYTES(casebook), 0, 9, LENT(&out, 3)));
    WRITES(1, "R 1\n", 4, yenuslap_sheet_lines(casebook, 0, 0, 1, LENT(&out, 99)));
    WRITES(1, "R 1\n", 4, yenuslap_sheet_lines(A_CASEBOOK, 43, 0, 1, LENT(&out, 99)));
}

/* Lines of a run of the two loops, with the question "back by 1 over true". */
static struct yenuslap_lines lines_of_loops(const uint8_t *run, size_t run_len, size_t first, size_t room)
{
    uint8_t casebook[YENUSLAP_MOST_CASEBOOK];
    uint64_t answer = yenuslap_casebook_write(LOOP_K, BYTES(LOOP), BYTES(LOOP), run, run_len, BYTES(BACK_BY_1),
                                              BYTES(casebook));
    return yenuslap_sheet_lines(casebook, yenuslap_value(answer), first, SIZE_MAX, LENT(&out, room));
}

static void lines_of_the_loops(void)
{
    WRITES(4, "0 0 F 0100 F\n0 1 F 0100 F\n1 0 T 06010000 T\n1 1 T 08000000 T\n", 60,
           lines_of_loops(BYTES(LOOP_RUN), 0, 99));
    /* 13 is the whole sheet. */
    WRITES(1, "R 13\n", 5, lines_of_loops(BYTES(SIXTEEN_STEPS), 0, 5));
    TOO_SHORT(lines_of_loops(BYTES(SIXTEEN_STEPS), 0, 4));
    /* 15 steps have 16 points and 32,768 splittings: the last line, at whose end the right moves alone. */
    WRITES(1, "15 32767 T 08000000 T\n", 22, lines_of_loops(SIXTEEN_STEPS, FIFTEEN_STEPS_LEN, 524287, 99));
    WRITES(0, "", 0, lines_of_loops(SIXTEEN_STEPS, FIFTEEN_STEPS_LEN, 524288, 99));
}

/* The line of a quotient that is too large. */
static void line_with_17(void)
{
    uint8_t casebook[YENUSLAP_MOST_CASEBOOK];
    uint64_t answer = yenuslap_casebook_write(EIGHT_K, BYTES(NO_ROWS), BYTES(EIGHT_ROWS), BYTES(NO_STEPS),
                                              BYTES(TOO_LARGE), BYTES(casebook));
    size_t len = yenuslap_value(answer);
    WRITES(1, "0 0 F 17 -\n", 11, yenuslap_sheet_lines(casebook, len, 0, 1, LENT(&out, 11)));
    TOO_SHORT(yenuslap_sheet_lines(casebook, len, 0, 1, LENT(&out, 10)));
}

void check_sheets(void)
{
    lines_of_case_a();
    no_lines_due();
    lines_that_do_not_fit();
    refused_casebook();
    lines_of_the_loops();
    line_with_17();
}
