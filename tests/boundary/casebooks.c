/* Reading casebooks, finding their parts, and writing them. */
#include "checks.h"
#include "document.h"
#include "suites.h"

#include <string.h>

static struct output out;

/* Case A with one byte changed. */
static const uint8_t *changed(size_t at, uint8_t byte)
{
    static uint8_t casebook[sizeof(A_CASEBOOK)];
    memcpy(casebook, A_CASEBOOK, sizeof(casebook));
    casebook[at] = byte;
    return casebook;
}

static uint64_t read_changed(size_t at, uint8_t byte)
{
    return yenuslap_casebook_read(changed(at, byte), sizeof(A_CASEBOOK));
}

static void read_case_a(void)
{
    static const uint8_t after[sizeof(A_CASEBOOK) + 1] = {
        3, 0, 1, 0, 2, 9, 0, 2, 0, 2, 0, 1, 1, 0, 3, 1, 9, 0, 3, 0, 2, 0, 2, 1, 0, 4, 1,
        7, 0, 4, 0, 0, 0, 0, 1, 1, 6, 0, 5, 0, 6, 0, 0, 0, 0,
    };
    GIVES(0, yenuslap_casebook_read(BYTES(A_CASEBOOK)));
    REFUSES(YENUSLAP_REFUSED_TRUNCATED, yenuslap_casebook_read(A_CASEBOOK, sizeof(A_CASEBOOK) - 1));
    REFUSES(YENUSLAP_REFUSED_TRUNCATED, yenuslap_casebook_read(A_CASEBOOK, 0));
    REFUSES(YENUSLAP_REFUSED_BYTES_AFTER, yenuslap_casebook_read(BYTES(after)));
}

/* Each number that one changed byte of case A can have. */
static void read_changed_bytes(void)
{
    REFUSES(YENUSLAP_REFUSED_WRONG_KIND, read_changed(2, 2));
    REFUSES(YENUSLAP_REFUSED_WRONG_LENGTH, read_changed(0, 4));
    REFUSES(YENUSLAP_REFUSED_TOO_MANY_PAIRS, read_changed(4, 16));
    REFUSES(YENUSLAP_REFUSED_OUT_OF_RANGE, read_changed(9, 0));
    REFUSES(YENUSLAP_REFUSED_OUT_OF_RANGE, read_changed(11, 5));
    REFUSES(YENUSLAP_REFUSED_ROW_NOT_ABOVE, read_changed(14, 1));
    REFUSES(YENUSLAP_REFUSED_NOT_REAL, read_changed(35, 0));
    REFUSES(YENUSLAP_REFUSED_NOT_A_TREE, read_changed(40, 9));
}

/* A ninth row, and a fifth nested forward, need casebooks of their own. */
static void read_long_records(void)
{
    static const uint8_t nine_rows[] = {
        3, 0, 1, 0, 4,
        30, 0, 2, 0, 1, 0, 0, 0, 0, 1, 0, 0, 2, 0, 0, 3, 0, 0, 4, 0, 0, 5, 0, 0, 6, 0, 0, 7, 0, 0, 8, 0,
    };
    static const uint8_t five_ahead[] = {
        3, 0, 1, 0, 0,
        3, 0, 2, 0, 1,
        3, 0, 3, 0, 1,
        4, 0, 4, 0, 0, 0,
        14, 0, 5, 0, 5, 0, 5, 0, 5, 0, 5, 0, 5, 0, 0, 0,
    };
    REFUSES(YENUSLAP_REFUSED_NINTH_ROW, yenuslap_casebook_read(BYTES(nine_rows)));
    REFUSES(YENUSLAP_REFUSED_NESTED_TOO_DEEP, yenuslap_casebook_read(BYTES(five_ahead)));
}

static void find_parts(void)
{
    GIVES(4 * 65536 + 1, yenuslap_casebook_part(BYTES(A_CASEBOOK), YENUSLAP_KIND_PAIRS));
    GIVES(9 * 65536 + 7, yenuslap_casebook_part(BYTES(A_CASEBOOK), YENUSLAP_KIND_LEFT));
    GIVES(20 * 65536 + 7, yenuslap_casebook_part(BYTES(A_CASEBOOK), YENUSLAP_KIND_RIGHT));
    GIVES(31 * 65536 + 5, yenuslap_casebook_part(BYTES(A_CASEBOOK), YENUSLAP_KIND_RUN));
    GIVES(40 * 65536 + 4, yenuslap_casebook_part(BYTES(A_CASEBOOK), YENUSLAP_KIND_QUESTION));
    GIVES(0, yenuslap_casebook_part(BYTES(A_CASEBOOK), 0));
    GIVES(0, yenuslap_casebook_part(BYTES(A_CASEBOOK), 6));
    REFUSES(YENUSLAP_REFUSED_NOT_REAL, yenuslap_casebook_part(changed(35, 0), sizeof(A_CASEBOOK), YENUSLAP_KIND_LEFT));
    REFUSES(YENUSLAP_REFUSED_TRUNCATED, yenuslap_casebook_part(A_CASEBOOK, 3, 6));
}

/* Writes case A with another run and question. */
static uint64_t write(const uint8_t *run, size_t run_len, const uint8_t *question, size_t question_len, size_t room)
{
    return yenuslap_casebook_write(A_K, BYTES(A_LEFT), BYTES(A_RIGHT), run, run_len, question, question_len,
                                   LENT(&out, room));
}

/* Writes case A with other tables. */
static uint64_t write_tables(uint8_t k, const uint8_t *left, size_t left_len, const uint8_t *right, size_t right_len)
{
    return yenuslap_casebook_write(k, left, left_len, right, right_len, BYTES(A_RUN), BYTES(A_QUESTION),
                                   LENT(&out, 100));
}

static void write_case_a(void)
{
    GIVES(44, write(BYTES(A_RUN), BYTES(A_QUESTION), YENUSLAP_MOST_CASEBOOK));
    HOLDS(&out, A_CASEBOOK);
    GIVES(44, write(BYTES(A_RUN), BYTES(A_QUESTION), 44));
    HOLDS(&out, A_CASEBOOK);
    REFUSES(YENUSLAP_REFUSED_OUTPUT_TOO_SHORT, write(BYTES(A_RUN), BYTES(A_QUESTION), 43));
    UNCHANGED(&out);
    REFUSES(YENUSLAP_REFUSED_OUTPUT_TOO_SHORT, write(BYTES(A_RUN), BYTES(A_QUESTION), 0));
    UNCHANGED(&out);
}

static void write_refused_parts(void)
{
    REFUSES(YENUSLAP_REFUSED_TOO_MANY_PAIRS, write_tables(16, BYTES(NO_STATE), BYTES(A_RIGHT)));
    UNCHANGED(&out);
    REFUSES(YENUSLAP_REFUSED_WRONG_LENGTH, write_tables(A_K, BYTES(UNFIT_TABLE), BYTES(NO_STATE)));
    UNCHANGED(&out);
    REFUSES(YENUSLAP_REFUSED_OUT_OF_RANGE, write_tables(A_K, BYTES(A_LEFT), BYTES(NO_STATE)));
    UNCHANGED(&out);
    REFUSES(YENUSLAP_REFUSED_ROW_NOT_ABOVE, write_tables(A_K, BYTES(ROW_TWICE), BYTES(NO_STATE)));
    UNCHANGED(&out);
    REFUSES(YENUSLAP_REFUSED_NINTH_ROW, write_tables(EIGHT_K, BYTES(A_LEFT), BYTES(NINE_ROWS)));
    UNCHANGED(&out);
    REFUSES(YENUSLAP_REFUSED_WRONG_LENGTH, write(BYTES(UNFIT_RUN), BYTES(NOT_A_TREE), 100));
    UNCHANGED(&out);
    REFUSES(YENUSLAP_REFUSED_NOT_REAL, write(BYTES(NOT_REAL), BYTES(NOT_A_TREE), 100));
    UNCHANGED(&out);
    REFUSES(YENUSLAP_REFUSED_NOT_A_TREE, write(BYTES(A_RUN), BYTES(NOT_A_TREE), 0));
    UNCHANGED(&out);
    REFUSES(YENUSLAP_REFUSED_NESTED_TOO_DEEP, write(BYTES(A_RUN), BYTES(FIVE_AHEAD), 0));
    UNCHANGED(&out);
}

/* The longest table and run, each with a row or step too many behind it, and the longest question. */
enum { STATES = 64, ROWS = 8, STEPS = 200, NODES = 64 };
enum { TABLE_LEN = 1 + 3 * STATES * ROWS, RUN_LEN = 2 + 3 * STEPS, QUESTION_LEN = 2 * NODES };
static uint8_t long_table[TABLE_LEN + 3], long_run[RUN_LEN + 3], long_question[QUESTION_LEN];

/* From each state a row by each of the labels 0 to 7 back to it; a run of joint idles; a question of nots over true. */
static void fill_long_parts(void)
{
    int i;
    long_table[0] = STATES;
    for (i = 0; i <= STATES * ROWS; i++) {
        long_table[1 + 3 * i] = (uint8_t)(i / ROWS);
        long_table[2 + 3 * i] = (uint8_t)(i % ROWS);
        long_table[3 + 3 * i] = (uint8_t)(i / ROWS);
    }
    for (i = 0; i <= STEPS; i++)
        long_run[2 + 3 * i] = 255;
    for (i = 0; i < NODES - 1; i++)
        long_question[2 * i] = 2;
}

static uint64_t write_long(size_t table_len, size_t run_len, const uint8_t *question, size_t question_len, size_t room)
{
    return yenuslap_casebook_write(15, long_table, table_len, long_table, table_len, long_run, run_len, question,
                                   question_len, LENT(&out, room));
}

/* The longest casebook has YENUSLAP_MOST_CASEBOOK bytes: so many are written and read, and no part can be longer. */
static void longest_casebook(void)
{
    static uint8_t casebook[YENUSLAP_MOST_CASEBOOK + 1], question[QUESTION_LEN + 2];
    fill_long_parts();
    GIVES(YENUSLAP_MOST_CASEBOOK,
          write_long(TABLE_LEN, RUN_LEN, long_question, QUESTION_LEN, YENUSLAP_MOST_CASEBOOK));
    memcpy(casebook, out.bytes + GUARD, YENUSLAP_MOST_CASEBOOK);
    GIVES(0, yenuslap_casebook_read(casebook, YENUSLAP_MOST_CASEBOOK));
    REFUSES(YENUSLAP_REFUSED_TRUNCATED, yenuslap_casebook_read(casebook, YENUSLAP_MOST_CASEBOOK - 1));
    REFUSES(YENUSLAP_REFUSED_BYTES_AFTER, yenuslap_casebook_read(casebook, YENUSLAP_MOST_CASEBOOK + 1));
    REFUSES(YENUSLAP_REFUSED_OUTPUT_TOO_SHORT,
            write_long(TABLE_LEN, RUN_LEN, long_question, QUESTION_LEN, YENUSLAP_MOST_CASEBOOK - 1));
    REFUSES(YENUSLAP_REFUSED_WRONG_LENGTH, write_long(TABLE_LEN + 3, RUN_LEN, long_question, QUESTION_LEN, ROOM));
    REFUSES(YENUSLAP_REFUSED_WRONG_LENGTH, write_long(TABLE_LEN, RUN_LEN + 3, long_question, QUESTION_LEN, ROOM));
    question[0] = 2;
    memcpy(question + 2, long_question, QUESTION_LEN);
    REFUSES(YENUSLAP_REFUSED_NOT_A_TREE, write_long(TABLE_LEN, RUN_LEN, question, QUESTION_LEN + 2, ROOM));
}

void check_casebooks(void)
{
    read_case_a();
    read_changed_bytes();
    read_long_records();
    find_parts();
    write_case_a();
    write_refused_parts();
    longest_casebook();
}
