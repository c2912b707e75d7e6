/* Verdicts on joint runs and on half runs. */
#include "checks.h"
#include "document.h"
#include "suites.h"

/* Judges a formula on case A's run. */
static uint64_t judge_a(const uint8_t *formula, size_t formula_len, size_t point)
{
    return yenuslap_joint_verdict(A_K, BYTES(A_LEFT), BYTES(A_RIGHT), BYTES(A_RUN), formula, formula_len, point);
}

/* The same with other tables and another run. */
static uint64_t judge_run(uint8_t k, const uint8_t *left, size_t left_len, const uint8_t *right, size_t right_len,
                          const uint8_t *run, size_t run_len)
{
    return yenuslap_joint_verdict(k, left, left_len, right, right_len, run, run_len, BYTES(A_QUESTION), 2);
}

static void joint_verdicts(void)
{
    GIVES(0, judge_a(BYTES(A_QUESTION), 0));
    GIVES(1, judge_a(BYTES(A_QUESTION), 1));
    GIVES(0, judge_a(BYTES(BACK_BY_1), 1));
    GIVES(1, judge_a(BYTES(FORWARD_BY_0), 0));
    GIVES(0, judge_a(BYTES(FORWARD_BY_0), 1));
    GIVES(1, judge_a(BYTES(FORWARD_BY_2), 0));
}

static void refused_joint_verdicts(void)
{
    REFUSES(YENUSLAP_REFUSED_POINT_BEYOND, judge_a(BYTES(A_QUESTION), 2));
    REFUSES(YENUSLAP_REFUSED_POINT_BEYOND, judge_a(BYTES(A_QUESTION), SIZE_MAX));
    REFUSES(YENUSLAP_REFUSED_NOT_A_TREE, judge_a(BYTES(NOT_A_TREE), 2));
    REFUSES(YENUSLAP_REFUSED_NOT_A_TREE, judge_a(A_QUESTION, 0, 0));
    REFUSES(YENUSLAP_REFUSED_NESTED_TOO_DEEP, judge_a(BYTES(FIVE_AHEAD), 2));
    REFUSES(YENUSLAP_REFUSED_TOO_MANY_PAIRS, judge_run(16, BYTES(NO_STATE), BYTES(A_RIGHT), BYTES(A_RUN)));
    REFUSES(YENUSLAP_REFUSED_WRONG_LENGTH, judge_run(A_K, BYTES(UNFIT_TABLE), BYTES(NO_STATE), BYTES(A_RUN)));
    REFUSES(YENUSLAP_REFUSED_OUT_OF_RANGE, judge_run(A_K, BYTES(A_LEFT), BYTES(NO_STATE), BYTES(UNFIT_RUN)));
    REFUSES(YENUSLAP_REFUSED_ROW_NOT_ABOVE, judge_run(A_K, BYTES(ROW_TWICE), BYTES(NO_STATE), BYTES(A_RUN)));
    REFUSES(YENUSLAP_REFUSED_NINTH_ROW, judge_run(EIGHT_K, BYTES(A_LEFT), BYTES(NINE_ROWS), BYTES(A_RUN)));
    REFUSES(YENUSLAP_REFUSED_WRONG_LENGTH, judge_run(A_K, BYTES(A_LEFT), BYTES(A_RIGHT), BYTES(UNFIT_RUN)));
    REFUSES(YENUSLAP_REFUSED_NOT_REAL, judge_run(A_K, BYTES(A_LEFT), BYTES(A_RIGHT), BYTES(NOT_REAL)));
}

/* Judges a formula on a half run of case A's left machine. */
static uint64_t judge_half(const uint8_t *half, size_t half_len, const uint8_t *formula, size_t formula_len,
                           size_t point)
{
    return yenuslap_half_verdict(A_K, BYTES(A_LEFT), half, half_len, formula, formula_len, point);
}

static void half_verdicts(void)
{
    GIVES(0, judge_half(BYTES(A_LEFT_HALF_0), BYTES(BACK_BY_1), 0));
    GIVES(1, judge_half(BYTES(A_LEFT_HALF_0), BYTES(BACK_BY_1), 1));
    GIVES(0, judge_half(BYTES(A_LEFT_HALF_1), BYTES(BACK_BY_1), 1));
    GIVES(1, judge_half(BYTES(A_LEFT_HALF_0), BYTES(FORWARD_BY_1), 0));
    /* A handshake is no step of one machine alone. */
    GIVES(0, judge_half(BYTES(A_LEFT_HALF_0), BYTES(FORWARD_BY_0), 0));
    GIVES(1, judge_half(BYTES(LOOP_IDLE), BYTES(BACK_BY_IDLE), 1));
    /* A loop is no idle. */
    GIVES(0, yenuslap_half_verdict(LOOP_K, BYTES(LOOP), BYTES(LOOP_MOVE), BYTES(BACK_BY_IDLE), 1));
}

static void refused_half_verdicts(void)
{
    REFUSES(YENUSLAP_REFUSED_POINT_BEYOND, judge_half(BYTES(A_LEFT_HALF_0), BYTES(BACK_BY_1), 2));
    REFUSES(YENUSLAP_REFUSED_POINT_BEYOND, judge_half(BYTES(EVEN_HALF), BYTES(BACK_BY_1), 0));
    REFUSES(YENUSLAP_REFUSED_POINT_BEYOND, judge_half(BYTES(NO_SUCH_STATE), BYTES(BACK_BY_1), 1));
    REFUSES(YENUSLAP_REFUSED_NOT_A_RUN, judge_half(BYTES(NO_SUCH_STATE), BYTES(BACK_BY_1), 0));
    REFUSES(YENUSLAP_REFUSED_NOT_A_RUN, judge_half(BYTES(A_RIGHT_HALF_0), BYTES(BACK_BY_1), 1));
    REFUSES(YENUSLAP_REFUSED_NOT_A_TREE, judge_half(BYTES(EVEN_HALF), BYTES(NOT_A_TREE), 0));
    REFUSES(YENUSLAP_REFUSED_NESTED_TOO_DEEP, judge_half(BYTES(EVEN_HALF), BYTES(FIVE_AHEAD), 0));
    REFUSES(YENUSLAP_REFUSED_TOO_MANY_PAIRS,
            yenuslap_half_verdict(16, BYTES(A_LEFT), BYTES(A_LEFT_HALF_0), BYTES(BACK_BY_1), 1));
    REFUSES(YENUSLAP_REFUSED_WRONG_LENGTH,
            yenuslap_half_verdict(A_K, BYTES(UNFIT_TABLE), BYTES(EVEN_HALF), BYTES(NOT_A_TREE), 1));
    REFUSES(YENUSLAP_REFUSED_NINTH_ROW,
            yenuslap_half_verdict(EIGHT_K, BYTES(NINE_ROWS), BYTES(EVEN_HALF), BYTES(NOT_A_TREE), 1));
}

/* 200 idles are a half run, 201 are none; 4,096 nodes are a formula, 4,097 are none. */
static void limits(void)
{
    static uint8_t idles[1 + 2 * 201];
    static uint8_t nots[2 * 4097];
    for (size_t at = 1; at < sizeof(idles); at += 2)
        idles[at] = 255;
    /* The last node is true; 4,095 times "not" turn it. */
    for (size_t at = 0; at < sizeof(nots) - 2; at += 2)
        nots[at] = 2;
    GIVES(1, judge_half(idles, YENUSLAP_MOST_HALF, BYTES(BACK_BY_IDLE), 200));
    REFUSES(YENUSLAP_REFUSED_NOT_A_RUN, judge_half(BYTES(idles), BYTES(BACK_BY_IDLE), 200));
    GIVES(0, judge_a(nots + 2, YENUSLAP_MOST_QUOTIENT, 0));
    REFUSES(YENUSLAP_REFUSED_NOT_A_TREE, judge_a(BYTES(nots), 0));
}

void check_verdicts(void)
{
    joint_verdicts();
    refused_joint_verdicts();
    half_verdicts();
    refused_half_verdicts();
    limits();
}
