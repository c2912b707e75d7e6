/* Counting splittings, writing their halves, and joining halves. */
#include "checks.h"
#include "document.h"
#include "suites.h"

static struct output out;
static struct output left_out;
static struct output right_out;

/* Counts the splittings of a run of the two loops. */
static uint64_t count_loops(const uint8_t *run, size_t run_len)
{
    return yenuslap_count_splittings(LOOP_K, BYTES(LOOP), BYTES(LOOP), run, run_len);
}

static void count(void)
{
    GIVES(2, yenuslap_count_splittings(A_K, BYTES(A_LEFT), BYTES(A_RIGHT), BYTES(A_RUN)));
    GIVES(1, yenuslap_count_splittings(A_K, BYTES(A_LEFT), BYTES(A_RIGHT), BYTES(NO_STEPS)));
    GIVES(2, count_loops(BYTES(LOOP_RUN)));
    GIVES(32768, count_loops(SIXTEEN_STEPS, FIFTEEN_STEPS_LEN));
    REFUSES(YENUSLAP_REFUSED_TOO_MANY_SPLITTINGS, count_loops(BYTES(SIXTEEN_STEPS)));
    REFUSES(YENUSLAP_REFUSED_WRONG_LENGTH, count_loops(BYTES(UNFIT_RUN)));
    REFUSES(YENUSLAP_REFUSED_NOT_REAL, yenuslap_count_splittings(A_K, BYTES(A_LEFT), BYTES(A_RIGHT), BYTES(NOT_REAL)));
    REFUSES(YENUSLAP_REFUSED_TOO_MANY_PAIRS,
            yenuslap_count_splittings(16, BYTES(A_LEFT), BYTES(A_RIGHT), BYTES(A_RUN)));
    REFUSES(YENUSLAP_REFUSED_OUT_OF_RANGE,
            yenuslap_count_splittings(A_K, BYTES(A_LEFT), BYTES(NO_STATE), BYTES(NOT_REAL)));
}

/* Writes a splitting of case A into outputs of these lengths. */
static uint64_t split_a(size_t number, size_t left_room, size_t right_room)
{
    return yenuslap_split(A_K, BYTES(A_LEFT), BYTES(A_RIGHT), BYTES(A_RUN), number,
                          LENT(&left_out, left_room), LENT(&right_out, right_room));
}

/* Writes a splitting of a run of the two loops. */
static uint64_t split_loops(const uint8_t *run, size_t run_len, size_t number)
{
    return yenuslap_split(LOOP_K, BYTES(LOOP), BYTES(LOOP), run, run_len, number,
                          LENT(&left_out, YENUSLAP_MOST_HALF), LENT(&right_out, YENUSLAP_MOST_HALF));
}

static void split(void)
{
    GIVES(3, split_a(0, YENUSLAP_MOST_HALF, YENUSLAP_MOST_HALF));
    HOLDS(&left_out, A_LEFT_HALF_0);
    HOLDS(&right_out, A_RIGHT_HALF_0);
    GIVES(3, split_a(1, 3, 3));
    HOLDS(&left_out, A_LEFT_HALF_1);
    HOLDS(&right_out, A_RIGHT_HALF_1);
    GIVES(3, split_loops(BYTES(LOOP_RUN), 0));
    HOLDS(&left_out, LOOP_MOVE);
    HOLDS(&right_out, LOOP_IDLE);
    GIVES(3, split_loops(BYTES(LOOP_RUN), 1));
    HOLDS(&left_out, LOOP_IDLE);
    HOLDS(&right_out, LOOP_MOVE);
}

/* Expects that neither output has changed. */
static void neither_changed(void)
{
    UNCHANGED(&left_out);
    UNCHANGED(&right_out);
}

static void refused_splits(void)
{
    REFUSES(YENUSLAP_REFUSED_OUTPUT_TOO_SHORT, split_a(0, 2, 3));
    neither_changed();
    REFUSES(YENUSLAP_REFUSED_OUTPUT_TOO_SHORT, split_a(0, 3, 2));
    neither_changed();
    REFUSES(YENUSLAP_REFUSED_OUTPUT_TOO_SHORT, split_a(0, 0, 0));
    neither_changed();
    REFUSES(YENUSLAP_REFUSED_NO_SUCH_SPLITTING, split_a(2, 0, 0));
    neither_changed();
    REFUSES(YENUSLAP_REFUSED_NO_SUCH_SPLITTING, split_a(SIZE_MAX, 3, 3));
    neither_changed();
    REFUSES(YENUSLAP_REFUSED_TOO_MANY_SPLITTINGS, split_loops(BYTES(SIXTEEN_STEPS), 0));
    neither_changed();
    REFUSES(YENUSLAP_REFUSED_TOO_MANY_SPLITTINGS, split_loops(BYTES(SIXTEEN_STEPS), SIZE_MAX));
    neither_changed();
    REFUSES(YENUSLAP_REFUSED_WRONG_LENGTH, split_loops(BYTES(UNFIT_RUN), 0));
    neither_changed();
    REFUSES(YENUSLAP_REFUSED_NOT_REAL, split_loops(BYTES(NOT_REAL), 0));
    neither_changed();
}

/* Joins two halves of case A's machines into an output of this length. */
static uint64_t join_a(const uint8_t *left_half, size_t left_len, const uint8_t *right_half, size_t right_len,
                       size_t room)
{
    return yenuslap_join(A_K, BYTES(A_LEFT), BYTES(A_RIGHT), left_half, left_len, right_half, right_len,
                         LENT(&out, room));
}

static void join(void)
{
    GIVES(5, join_a(BYTES(A_LEFT_HALF_0), BYTES(A_RIGHT_HALF_0), YENUSLAP_MOST_RUN));
    HOLDS(&out, A_RUN);
    GIVES(5, join_a(BYTES(A_LEFT_HALF_1), BYTES(A_RIGHT_HALF_1), 5));
    HOLDS(&out, A_RUN);
    GIVES(2, join_a(BYTES(NO_HALF_STEPS), BYTES(NO_HALF_STEPS), 2));
    HOLDS(&out, NO_STEPS);
    GIVES(5, yenuslap_join(LOOP_K, BYTES(LOOP), BYTES(LOOP), BYTES(LOOP_IDLE), BYTES(LOOP_MOVE), LENT(&out, 9)));
    HOLDS(&out, LOOP_RUN);
}

static void refused_joins(void)
{
    REFUSES(YENUSLAP_REFUSED_OUTPUT_TOO_SHORT, join_a(BYTES(A_LEFT_HALF_0), BYTES(A_RIGHT_HALF_0), 4));
    UNCHANGED(&out);
    REFUSES(YENUSLAP_REFUSED_HALVES_DO_NOT_MATCH, join_a(BYTES(A_LEFT_HALF_0), BYTES(A_RIGHT_HALF_1), 0));
    UNCHANGED(&out);
    REFUSES(YENUSLAP_REFUSED_HALVES_DO_NOT_MATCH, join_a(BYTES(A_LEFT_HALF_0), BYTES(NO_HALF_STEPS), 9));
    UNCHANGED(&out);
    REFUSES(YENUSLAP_REFUSED_NOT_A_RUN, join_a(BYTES(A_RIGHT_HALF_0), BYTES(NO_HALF_STEPS), 9));
    UNCHANGED(&out);
    REFUSES(YENUSLAP_REFUSED_NOT_A_RUN, join_a(BYTES(NO_HALF_STEPS), BYTES(EVEN_HALF), 9));
    UNCHANGED(&out);
    REFUSES(YENUSLAP_REFUSED_ROW_NOT_ABOVE, yenuslap_join(A_K, BYTES(ROW_TWICE), BYTES(NO_STATE), BYTES(EVEN_HALF),
                                                          BYTES(EVEN_HALF), LENT(&out, 9)));
    UNCHANGED(&out);
}

/* A call that is given halves never gives 13. */
static void join_sixteen_steps(void)
{
    uint8_t moves[1 + 2 * 16] = {0};
    uint8_t idles[1 + 2 * 16] = {0};
    for (size_t at = 1; at < sizeof(moves); at += 2) {
        moves[at] = 1;
        idles[at] = 255;
    }
    GIVES(50, yenuslap_join(LOOP_K, BYTES(LOOP), BYTES(LOOP), BYTES(moves), BYTES(idles), LENT(&out, 50)));
    HOLDS(&out, SIXTEEN_STEPS);
}

void check_splittings(void)
{
    count();
    split();
    refused_splits();
    join();
    refused_joins();
    join_sixteen_steps();
}
