/* The line office: the whole line's verdict and one machine's. */
#include "checks.h"
#include "document.h"
#include "suites.h"

/* Puts a question to case A's line and to one machine, by splitting 0. */
static uint64_t ask_a(const uint8_t *question, size_t question_len, uint8_t side, size_t point)
{
    return yenuslap_line_office(A_K, BYTES(A_LEFT), BYTES(A_RIGHT), BYTES(A_LEFT_HALF_0), BYTES(A_RIGHT_HALF_0),
                                question, question_len, side, point);
}

/* Puts case A's question to two halves, at point 1, with one of them known. */
static uint64_t ask_known(uint8_t side, const uint8_t *left_half, size_t left_len, const uint8_t *right_half,
                          size_t right_len)
{
    return yenuslap_line_office(A_K, BYTES(A_LEFT), BYTES(A_RIGHT), left_half, left_len, right_half, right_len,
                                BYTES(A_QUESTION), side, 1);
}

/* The same with the right one known. */
static uint64_t ask_halves(const uint8_t *left_half, size_t left_len, const uint8_t *right_half, size_t right_len)
{
    return ask_known(YENUSLAP_RIGHT, left_half, left_len, right_half, right_len);
}

/* Both verdicts hold, or both fail. */
static void verdicts(void)
{
    GIVES(0, ask_a(BYTES(A_QUESTION), YENUSLAP_RIGHT, 0));
    GIVES(3, ask_a(BYTES(A_QUESTION), YENUSLAP_RIGHT, 1));
    GIVES(3, ask_a(BYTES(A_QUESTION), YENUSLAP_LEFT, 1));
    GIVES(0, ask_a(BYTES(BACK_BY_1), YENUSLAP_RIGHT, 1));
    GIVES(3, ask_a(BYTES(FORWARD_BY_0), YENUSLAP_LEFT, 0));
    GIVES(3, ask_a(BYTES(FORWARD_BY_2), YENUSLAP_RIGHT, 0));
}

static void refused_verdicts(void)
{
    REFUSES(YENUSLAP_REFUSED_POINT_BEYOND, ask_a(BYTES(A_QUESTION), YENUSLAP_RIGHT, 2));
    REFUSES(YENUSLAP_REFUSED_NOT_A_TREE, ask_a(BYTES(NOT_A_TREE), YENUSLAP_RIGHT, 2));
    REFUSES(YENUSLAP_REFUSED_NESTED_TOO_DEEP, ask_a(BYTES(FIVE_AHEAD), YENUSLAP_RIGHT, 2));
    REFUSES(YENUSLAP_REFUSED_NOT_A_RUN, ask_halves(BYTES(A_RIGHT_HALF_0), BYTES(A_RIGHT_HALF_1)));
    REFUSES(YENUSLAP_REFUSED_HALVES_DO_NOT_MATCH, ask_halves(BYTES(A_LEFT_HALF_0), BYTES(A_RIGHT_HALF_1)));
    REFUSES(YENUSLAP_REFUSED_POINT_BEYOND, ask_halves(BYTES(A_LEFT_HALF_0), BYTES(EVEN_HALF)));
    REFUSES(YENUSLAP_REFUSED_QUOTIENT_TOO_LARGE,
            yenuslap_line_office(EIGHT_K, BYTES(NO_ROWS), BYTES(EIGHT_ROWS), BYTES(NO_HALF_STEPS),
                                 BYTES(NO_HALF_STEPS), BYTES(TOO_LARGE), YENUSLAP_RIGHT, 0));
    REFUSES(YENUSLAP_REFUSED_TOO_MANY_PAIRS,
            yenuslap_line_office(16, BYTES(NO_STATE), BYTES(A_RIGHT), BYTES(A_LEFT_HALF_0), BYTES(A_RIGHT_HALF_0),
                                 BYTES(A_QUESTION), YENUSLAP_RIGHT, 1));
}

/* Unnamed, the left half is known: 12 is judged on it, and 17 is about the quotient by it. */
static void unnamed_side(void)
{
    GIVES(3, ask_a(BYTES(A_QUESTION), YENUSLAP_UNNAMED, 1));
    REFUSES(YENUSLAP_REFUSED_NOT_A_RUN, ask_known(YENUSLAP_UNNAMED, BYTES(A_LEFT_HALF_0), BYTES(EVEN_HALF)));
    REFUSES(YENUSLAP_REFUSED_POINT_BEYOND, ask_known(YENUSLAP_UNNAMED, BYTES(EVEN_HALF), BYTES(A_RIGHT_HALF_0)));
    GIVES(0, yenuslap_line_office(EIGHT_K, BYTES(NO_ROWS), BYTES(EIGHT_ROWS), BYTES(NO_HALF_STEPS),
                                  BYTES(NO_HALF_STEPS), BYTES(TOO_LARGE), YENUSLAP_UNNAMED, 0));
    REFUSES(YENUSLAP_REFUSED_QUOTIENT_TOO_LARGE,
            yenuslap_line_office(EIGHT_K, BYTES(EIGHT_ROWS), BYTES(NO_ROWS), BYTES(NO_HALF_STEPS),
                                 BYTES(NO_HALF_STEPS), BYTES(TOO_LARGE), YENUSLAP_UNNAMED, 0));
}

void check_line_office(void)
{
    verdicts();
    refused_verdicts();
    unnamed_side();
}
