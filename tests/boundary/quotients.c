/* Quotients by the known one of two halves, and by the number of a splitting. */
#include "checks.h"
#include "document.h"
#include "suites.h"

#include <string.h>

static struct output out;

/* Quotients that document 01 states or implies. */
static const uint8_t FALSE[] = {1, 0};
static const uint8_t BACK_BY_2[] = {6, 2, 0, 0};
static const uint8_t BACK_BY_3[] = {6, 3, 0, 0};
static const uint8_t BACK_BY_4[] = {6, 4, 0, 0};
static const uint8_t AHEAD_BY_0_RIGHT[] = {4, 0, 5, 0, 0, 0, 4, 0, 5, 1, 0, 0, 5, 3, 0, 0};
static const uint8_t AHEAD_BY_0_LEFT[] = {4, 0, 5, 0, 0, 0, 4, 0, 5, 2, 0, 0, 5, 4, 0, 0};
static const uint8_t AHEAD_BY_2_RIGHT[] = {4, 0, 5, 2, 0, 0, 7, 0, 0, 0};
static const uint8_t AHEAD_BY_2_LEFT[] = {5, 2, 0, 0};

/* Divides a question by a half of case A's splitting 0. */
static uint64_t divide_a(const uint8_t *question, size_t question_len, uint8_t side, size_t point, size_t room)
{
    return yenuslap_quotient(A_K, BYTES(A_LEFT), BYTES(A_RIGHT), BYTES(A_LEFT_HALF_0), BYTES(A_RIGHT_HALF_0),
                             question, question_len, side, point, LENT(&out, room));
}

static void by_halves(void)
{
    GIVES(2, divide_a(BYTES(A_QUESTION), YENUSLAP_RIGHT, 0, YENUSLAP_MOST_QUOTIENT));
    HOLDS(&out, FALSE);
    GIVES(4, divide_a(BYTES(A_QUESTION), YENUSLAP_RIGHT, 1, 4));
    HOLDS(&out, BACK_BY_1);
    GIVES(4, divide_a(BYTES(A_QUESTION), YENUSLAP_LEFT, 1, 9));
    HOLDS(&out, BACK_BY_2);
    GIVES(2, divide_a(BYTES(BACK_BY_1), YENUSLAP_RIGHT, 1, 9));
    HOLDS(&out, FALSE);
    GIVES(16, divide_a(BYTES(FORWARD_BY_0), YENUSLAP_RIGHT, 0, 99));
    HOLDS(&out, AHEAD_BY_0_RIGHT);
    GIVES(16, divide_a(BYTES(FORWARD_BY_0), YENUSLAP_LEFT, 0, 99));
    HOLDS(&out, AHEAD_BY_0_LEFT);
    GIVES(10, divide_a(BYTES(FORWARD_BY_2), YENUSLAP_RIGHT, 0, 10));
    HOLDS(&out, AHEAD_BY_2_RIGHT);
    GIVES(4, divide_a(BYTES(FORWARD_BY_2), YENUSLAP_LEFT, 0, 10));
    HOLDS(&out, AHEAD_BY_2_LEFT);
}

/* Unnamed, the known side is the left. */
static void by_unnamed_side(void)
{
    static const uint8_t unnamed[] = {YENUSLAP_UNNAMED, 3, 255};
    for (size_t at = 0; at < sizeof(unnamed); at++) {
        GIVES(4, divide_a(BYTES(A_QUESTION), unnamed[at], 1, 4));
        HOLDS(&out, BACK_BY_2);
        GIVES(16, divide_a(BYTES(FORWARD_BY_0), unnamed[at], 0, 16));
        HOLDS(&out, AHEAD_BY_0_LEFT);
    }
}

static void refused_questions(void)
{
    REFUSES(YENUSLAP_REFUSED_OUTPUT_TOO_SHORT, divide_a(BYTES(A_QUESTION), YENUSLAP_RIGHT, 1, 3));
    UNCHANGED(&out);
    REFUSES(YENUSLAP_REFUSED_OUTPUT_TOO_SHORT, divide_a(BYTES(FORWARD_BY_0), YENUSLAP_RIGHT, 0, 15));
    UNCHANGED(&out);
    REFUSES(YENUSLAP_REFUSED_POINT_BEYOND, divide_a(BYTES(A_QUESTION), YENUSLAP_RIGHT, 2, 0));
    UNCHANGED(&out);
    REFUSES(YENUSLAP_REFUSED_NOT_A_TREE, divide_a(BYTES(NOT_A_TREE), YENUSLAP_RIGHT, 2, 9));
    UNCHANGED(&out);
    REFUSES(YENUSLAP_REFUSED_NESTED_TOO_DEEP, divide_a(BYTES(FIVE_AHEAD), YENUSLAP_RIGHT, 2, 9));
    UNCHANGED(&out);
}

/* Divides case A's question by the known one of two halves, at point 1. */
static uint64_t divide_known(uint8_t side, const uint8_t *left_half, size_t left_len, const uint8_t *right_half,
                             size_t right_len)
{
    return yenuslap_quotient(A_K, BYTES(A_LEFT), BYTES(A_RIGHT), left_half, left_len, right_half, right_len,
                             BYTES(A_QUESTION), side, 1, LENT(&out, 9));
}

/* The same by the right one. */
static uint64_t divide_halves(const uint8_t *left_half, size_t left_len, const uint8_t *right_half, size_t right_len)
{
    return divide_known(YENUSLAP_RIGHT, left_half, left_len, right_half, right_len);
}

static void refused_halves(void)
{
    REFUSES(YENUSLAP_REFUSED_NOT_A_RUN, divide_halves(BYTES(A_RIGHT_HALF_0), BYTES(A_RIGHT_HALF_1)));
    UNCHANGED(&out);
    REFUSES(YENUSLAP_REFUSED_NOT_A_RUN, divide_halves(BYTES(EVEN_HALF), BYTES(A_RIGHT_HALF_0)));
    UNCHANGED(&out);
    REFUSES(YENUSLAP_REFUSED_NOT_A_RUN, divide_halves(BYTES(A_LEFT_HALF_0), BYTES(A_LEFT_HALF_0)));
    UNCHANGED(&out);
    REFUSES(YENUSLAP_REFUSED_POINT_BEYOND, divide_halves(BYTES(A_RIGHT_HALF_0), BYTES(EVEN_HALF)));
    UNCHANGED(&out);
    REFUSES(YENUSLAP_REFUSED_HALVES_DO_NOT_MATCH, divide_halves(BYTES(A_LEFT_HALF_0), BYTES(A_RIGHT_HALF_1)));
    UNCHANGED(&out);
    REFUSES(YENUSLAP_REFUSED_HALVES_DO_NOT_MATCH, divide_halves(BYTES(NO_HALF_STEPS), BYTES(A_RIGHT_HALF_0)));
    UNCHANGED(&out);
}

/* Unnamed, 12 is judged on the left half alone; a fault of the right one is 15 or 16. */
static void refused_unnamed(void)
{
    REFUSES(YENUSLAP_REFUSED_POINT_BEYOND, divide_known(YENUSLAP_UNNAMED, BYTES(EVEN_HALF), BYTES(A_RIGHT_HALF_0)));
    UNCHANGED(&out);
    REFUSES(YENUSLAP_REFUSED_NOT_A_RUN, divide_known(YENUSLAP_UNNAMED, BYTES(A_LEFT_HALF_0), BYTES(EVEN_HALF)));
    UNCHANGED(&out);
    REFUSES(YENUSLAP_REFUSED_POINT_BEYOND,
            divide_known(YENUSLAP_UNNAMED, BYTES(NO_HALF_STEPS), BYTES(A_RIGHT_HALF_0)));
    UNCHANGED(&out);
    REFUSES(YENUSLAP_REFUSED_HALVES_DO_NOT_MATCH,
            divide_known(YENUSLAP_UNNAMED, BYTES(A_LEFT_HALF_0), BYTES(NO_HALF_STEPS)));
    UNCHANGED(&out);
}

/* Forward by 0 over a text, as its quotient by eight loops: nine disjuncts, the silent one and the labels' partners. */
static size_t nine_disjuncts(uint8_t *quotient, const uint8_t *text, size_t len)
{
    static const uint8_t labels[] = {0, 2, 1, 4, 3, 6, 5, 8, 7};
    size_t at = 0;
    for (size_t label = 0; label < sizeof(labels); label++) {
        if (label + 1 < sizeof(labels)) {
            quotient[at++] = 4;
            quotient[at++] = 0;
        }
        quotient[at++] = 5;
        quotient[at++] = labels[label];
        memcpy(quotient + at, text, len);
        at += len;
    }
    return at;
}

/* Divides a question by the half without steps of the machine with eight rows. */
static uint64_t divide_eight(const uint8_t *question, size_t question_len, size_t room)
{
    return yenuslap_quotient(EIGHT_K, BYTES(NO_ROWS), BYTES(EIGHT_ROWS), BYTES(NO_HALF_STEPS), BYTES(NO_HALF_STEPS),
                             question, question_len, YENUSLAP_RIGHT, 0, LENT(&out, room));
}

/* 3,734 nodes are given, 4,463 are refused whatever output is lent. */
static void large_quotients(void)
{
    static uint8_t once[2 * 44], twice[2 * 413], thrice[2 * 3734];
    size_t len = nine_disjuncts(once, THREE_AHEAD + 6, 6);
    len = nine_disjuncts(twice, once, len);
    len = nine_disjuncts(thrice, twice, len);
    GIVES(7468, divide_eight(BYTES(THREE_AHEAD), YENUSLAP_MOST_QUOTIENT));
    HOLDS_SOME(&out, thrice, len);
    GIVES(7468, divide_eight(BYTES(THREE_AHEAD), 7468));
    HOLDS(&out, thrice);
    REFUSES(YENUSLAP_REFUSED_OUTPUT_TOO_SHORT, divide_eight(BYTES(THREE_AHEAD), 7467));
    UNCHANGED(&out);
    REFUSES(YENUSLAP_REFUSED_QUOTIENT_TOO_LARGE, divide_eight(BYTES(TOO_LARGE), YENUSLAP_MOST_QUOTIENT));
    UNCHANGED(&out);
    REFUSES(YENUSLAP_REFUSED_QUOTIENT_TOO_LARGE, divide_eight(BYTES(TOO_LARGE), 0));
    UNCHANGED(&out);
}

/* Divides case A's question by a half of the splitting of this number. */
static uint64_t number_a(size_t number, uint8_t side, size_t point, size_t room)
{
    return yenuslap_quotient_of_splitting(A_K, BYTES(A_LEFT), BYTES(A_RIGHT), BYTES(A_RUN), BYTES(A_QUESTION), number,
                                          side, point, LENT(&out, room));
}

/* Divides "back by 1 over true" by the right half of a splitting of a run of the two loops. */
static uint64_t number_loops(const uint8_t *run, size_t run_len, size_t number, size_t point)
{
    return yenuslap_quotient_of_splitting(LOOP_K, BYTES(LOOP), BYTES(LOOP), run, run_len, BYTES(BACK_BY_1), number,
                                          YENUSLAP_RIGHT, point, LENT(&out, 9));
}

static void by_number(void)
{
    GIVES(2, number_a(1, YENUSLAP_RIGHT, 0, 2));
    HOLDS(&out, FALSE);
    GIVES(4, number_a(0, YENUSLAP_RIGHT, 1, YENUSLAP_MOST_QUOTIENT));
    HOLDS(&out, BACK_BY_1);
    GIVES(4, number_a(1, YENUSLAP_RIGHT, 1, 4));
    HOLDS(&out, BACK_BY_3);
    GIVES(4, number_a(1, YENUSLAP_LEFT, 1, 4));
    HOLDS(&out, BACK_BY_4);
    GIVES(4, number_a(1, YENUSLAP_UNNAMED, 1, 4));
    HOLDS(&out, BACK_BY_4);
    GIVES(4, number_loops(BYTES(LOOP_RUN), 0, 1));
    HOLDS(&out, BACK_BY_1);
    GIVES(4, number_loops(BYTES(LOOP_RUN), 1, 1));
    HOLDS(&out, BACK_BY_IDLE);
    GIVES(4, number_loops(SIXTEEN_STEPS, FIFTEEN_STEPS_LEN, 32767, 15));
    HOLDS(&out, BACK_BY_IDLE);
}

static void refused_numbers(void)
{
    REFUSES(YENUSLAP_REFUSED_OUTPUT_TOO_SHORT, number_a(0, YENUSLAP_RIGHT, 1, 3));
    UNCHANGED(&out);
    REFUSES(YENUSLAP_REFUSED_NO_SUCH_SPLITTING, number_a(2, YENUSLAP_RIGHT, 1, 0));
    UNCHANGED(&out);
    REFUSES(YENUSLAP_REFUSED_POINT_BEYOND, number_a(2, YENUSLAP_RIGHT, 2, 9));
    UNCHANGED(&out);
    REFUSES(YENUSLAP_REFUSED_NO_SUCH_SPLITTING, number_loops(SIXTEEN_STEPS, FIFTEEN_STEPS_LEN, 32768, 15));
    UNCHANGED(&out);
    REFUSES(YENUSLAP_REFUSED_TOO_MANY_SPLITTINGS, number_loops(BYTES(SIXTEEN_STEPS), 0, 16));
    UNCHANGED(&out);
    REFUSES(YENUSLAP_REFUSED_POINT_BEYOND, number_loops(BYTES(SIXTEEN_STEPS), 0, 17));
    UNCHANGED(&out);
    REFUSES(YENUSLAP_REFUSED_NOT_REAL, number_loops(BYTES(NOT_REAL), 0, 9));
    UNCHANGED(&out);
    REFUSES(YENUSLAP_REFUSED_QUOTIENT_TOO_LARGE,
            yenuslap_quotient_of_splitting(EIGHT_K, BYTES(NO_ROWS), BYTES(EIGHT_ROWS), BYTES(NO_STEPS),
                                           BYTES(TOO_LARGE), 0, YENUSLAP_RIGHT, 0, LENT(&out, 0)));
    UNCHANGED(&out);
}

void check_quotients(void)
{
    by_halves();
    by_unnamed_side();
    refused_questions();
    refused_halves();
    refused_unnamed();
    large_quotients();
    by_number();
    refused_numbers();
}
