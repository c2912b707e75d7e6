/* Reading Aldebaran texts into tables, and writing them. */
#include "checks.h"
#include "document.h"
#include "suites.h"

#include <stdio.h>
#include <string.h>

static struct output out;

/* A text as two arguments, without the zero byte behind it. */
#define TEXT(string) (const uint8_t *)(string), sizeof(string) - 1
/* Expects this text at the front of the output, and its pattern everywhere else. */
#define HOLDS_TEXT(string) check_output(__FILE__, __LINE__, &out, TEXT(string))

/* Case A's left machine, from state 1. */
static const char A_TEXT[] = "des (1,2,2)\n(0,\"a1!\",1)\n(0,\"a2!\",1)\n";
/* Its first state, 1, and its seven bytes. */
enum { A_VALUE = 1 * 65536 + 7 };

/* Reads a text into an output of this length. */
static uint64_t read_into(const uint8_t *text, size_t text_len, size_t room)
{
    return yenuslap_aldebaran_read(text, text_len, LENT(&out, room));
}

static void read_sound_texts(void)
{
    static const uint8_t silent[] = {1, 0, 0, 0};
    static const uint8_t ends[] = {64, 0, 1, 63, 0, 30, 63, 63, 0, 0, 63, 29, 0};
    GIVES(A_VALUE, read_into(TEXT(A_TEXT), YENUSLAP_MOST_TABLE));
    HOLDS(&out, A_LEFT);
    GIVES(A_VALUE, read_into(TEXT(A_TEXT), 7));
    HOLDS(&out, A_LEFT);
    GIVES(A_VALUE, read_into(TEXT("des (1,2,2)\n(0,\"a2!\",1)\n(0,\"a1!\",1)\n"), 7));
    HOLDS(&out, A_LEFT);
    GIVES(1, read_into(TEXT("des (0,0,1)\n"), 1));
    HOLDS(&out, NO_ROWS);
    GIVES(4, read_into(TEXT("des (0,1,1)\n(0,\"i\",0)\n"), 9));
    HOLDS(&out, silent);
    GIVES(63 * 65536 + 13,
          read_into(TEXT("des (63,4,64)\n(63,\"a15!\",0)\n(63,\"i\",0)\n(0,\"a15?\",63)\n(0,\"a1!\",63)\n"), 13));
    HOLDS(&out, ends);
}

/* Each spelling, by itself, on a loop. */
static void read_labels(void)
{
    uint8_t table[] = {1, 0, 0, 0};
    char text[64];
    for (int label = 1; label <= 30; label++) {
        snprintf(text, sizeof(text), "des (0,1,1)\n(0,\"a%d%c\",0)\n", (label + 1) / 2, label % 2 == 1 ? '!' : '?');
        table[2] = (uint8_t)label;
        GIVES(4, read_into((const uint8_t *)text, strlen(text), 4));
        HOLDS(&out, table);
    }
}

/* Expects that a text is refused under this number, whatever the output, of which no byte changes. */
#define REFUSED_TEXT(number, string) refused_text(__LINE__, number, TEXT(string))

static void refused_text(int line, uint64_t number, const uint8_t *text, size_t text_len)
{
    static const size_t rooms[] = {0, YENUSLAP_MOST_TABLE};
    for (size_t at = 0; at < 2; at++) {
        check_answer(__FILE__, line, number, 0, read_into(text, text_len, rooms[at]));
        check_output(__FILE__, line, &out, out.bytes, 0);
    }
}

static void texts_not_of_form(void)
{
    REFUSED_TEXT(YENUSLAP_REFUSED_NOT_OF_FORM, "");
    REFUSED_TEXT(YENUSLAP_REFUSED_NOT_OF_FORM, "\n");
    REFUSED_TEXT(YENUSLAP_REFUSED_NOT_OF_FORM, "(0,\"i\",0)\n");
    REFUSED_TEXT(YENUSLAP_REFUSED_NOT_OF_FORM, "des (0,0,1)");
    REFUSED_TEXT(YENUSLAP_REFUSED_NOT_OF_FORM, "des (0,0,1)\n\n");
    REFUSED_TEXT(YENUSLAP_REFUSED_NOT_OF_FORM, "des (0,0,1)\r\n");
    REFUSED_TEXT(YENUSLAP_REFUSED_NOT_OF_FORM, "des(0,0,1)\n");
    REFUSED_TEXT(YENUSLAP_REFUSED_NOT_OF_FORM, "des  (0,0,1)\n");
    REFUSED_TEXT(YENUSLAP_REFUSED_NOT_OF_FORM, "des (0, 0,1)\n");
    REFUSED_TEXT(YENUSLAP_REFUSED_NOT_OF_FORM, "des (00,0,1)\n");
    REFUSED_TEXT(YENUSLAP_REFUSED_NOT_OF_FORM, "des (0,0,01)\n");
    REFUSED_TEXT(YENUSLAP_REFUSED_NOT_OF_FORM, "des (0,0,100000)\n");
    REFUSED_TEXT(YENUSLAP_REFUSED_NOT_OF_FORM, "des (0,1,1)\n(0,\"i\",0)");
    REFUSED_TEXT(YENUSLAP_REFUSED_NOT_OF_FORM, "des (0,1,1)\n(0,i,0)\n");
    REFUSED_TEXT(YENUSLAP_REFUSED_NOT_OF_FORM, "des (0,1,1)\n(0,\"i\"\",0)\n");
    REFUSED_TEXT(YENUSLAP_REFUSED_NOT_OF_FORM, "des (0,1,1)\n(0,\"i\",0) \n");
    REFUSED_TEXT(YENUSLAP_REFUSED_NOT_OF_FORM, "des (0,1,1)\n(,\"i\",0)\n");
}

static void texts_with_other_faults(void)
{
    REFUSED_TEXT(YENUSLAP_REFUSED_WRONG_HEADER, "des (0,1,1)\n");
    REFUSED_TEXT(YENUSLAP_REFUSED_WRONG_HEADER, "des (0,0,1)\n(0,\"i\",0)\n");
    REFUSED_TEXT(YENUSLAP_REFUSED_WRONG_HEADER, "des (1,0,1)\n");
    REFUSED_TEXT(YENUSLAP_REFUSED_WRONG_HEADER, "des (0,0,0)\n");
    REFUSED_TEXT(YENUSLAP_REFUSED_WRONG_HEADER, "des (99999,0,99999)\n");
    REFUSED_TEXT(YENUSLAP_REFUSED_UNKNOWN_LABEL, "des (0,1,1)\n(0,\"\",0)\n");
    REFUSED_TEXT(YENUSLAP_REFUSED_UNKNOWN_LABEL, "des (0,1,1)\n(0,\"tau\",0)\n");
    REFUSED_TEXT(YENUSLAP_REFUSED_UNKNOWN_LABEL, "des (0,1,1)\n(0,\"a0!\",0)\n");
    REFUSED_TEXT(YENUSLAP_REFUSED_UNKNOWN_LABEL, "des (0,1,1)\n(0,\"a16?\",0)\n");
    REFUSED_TEXT(YENUSLAP_REFUSED_UNKNOWN_LABEL, "des (0,1,1)\n(0,\"a01!\",0)\n");
    REFUSED_TEXT(YENUSLAP_REFUSED_UNKNOWN_LABEL, "des (0,1,1)\n(0,\"a1\",0)\n");
    REFUSED_TEXT(YENUSLAP_REFUSED_UNKNOWN_LABEL, "des (0,1,1)\n(0,\"i\0\",0)\n");
    REFUSED_TEXT(YENUSLAP_REFUSED_UNKNOWN_LABEL, "des (0,1,1)\n(0,\") (,\xff\r\",0)\n");
    REFUSED_TEXT(YENUSLAP_REFUSED_OUT_OF_RANGE, "des (0,0,65)\n");
    REFUSED_TEXT(YENUSLAP_REFUSED_OUT_OF_RANGE, "des (0,0,257)\n");
    REFUSED_TEXT(YENUSLAP_REFUSED_OUT_OF_RANGE, "des (0,1,2)\n(2,\"i\",0)\n");
    REFUSED_TEXT(YENUSLAP_REFUSED_OUT_OF_RANGE, "des (0,1,2)\n(0,\"i\",256)\n");
    REFUSED_TEXT(YENUSLAP_REFUSED_OUT_OF_RANGE, "des (0,1,2)\n(65536,\"i\",0)\n");
    REFUSED_TEXT(YENUSLAP_REFUSED_ROW_NOT_ABOVE, "des (0,3,1)\n(0,\"i\",0)\n(0,\"a1!\",0)\n(0,\"i\",0)\n");
    REFUSED_TEXT(YENUSLAP_REFUSED_NINTH_ROW,
                 "des (0,9,1)\n(0,\"i\",0)\n(0,\"a1!\",0)\n(0,\"a1?\",0)\n(0,\"a2!\",0)\n(0,\"a2?\",0)\n"
                 "(0,\"a3!\",0)\n(0,\"a3?\",0)\n(0,\"a4!\",0)\n(0,\"a4?\",0)\n");
}

/* Each number is sought in the whole text before the next: the later fault stands in front. */
static void which_fault_counts(void)
{
    REFUSED_TEXT(YENUSLAP_REFUSED_NOT_OF_FORM, "des (1,3,1)\n(0,\"i\",0)\n(0,\"i\",0) \n");
    REFUSED_TEXT(YENUSLAP_REFUSED_WRONG_HEADER, "des (0,2,1)\n(0,\"j\",0)\n");
    REFUSED_TEXT(YENUSLAP_REFUSED_UNKNOWN_LABEL, "des (0,2,65)\n(99,\"i\",0)\n(0,\"j\",0)\n");
    REFUSED_TEXT(YENUSLAP_REFUSED_OUT_OF_RANGE, "des (0,3,1)\n(0,\"i\",0)\n(0,\"i\",0)\n(0,\"i\",1)\n");
    REFUSED_TEXT(YENUSLAP_REFUSED_ROW_NOT_ABOVE,
                 "des (0,10,1)\n(0,\"i\",0)\n(0,\"a1!\",0)\n(0,\"a1?\",0)\n(0,\"a2!\",0)\n(0,\"a2?\",0)\n"
                 "(0,\"a3!\",0)\n(0,\"a3?\",0)\n(0,\"a4!\",0)\n(0,\"a4?\",0)\n(0,\"i\",0)\n");
}

static void short_tables(void)
{
    REFUSES(YENUSLAP_REFUSED_OUTPUT_TOO_SHORT, read_into(TEXT(A_TEXT), 6));
    UNCHANGED(&out);
    REFUSES(YENUSLAP_REFUSED_OUTPUT_TOO_SHORT, read_into(TEXT("des (0,0,1)\n"), 0));
    UNCHANGED(&out);
}

/* Writes the text of a table and a first state into an output of this length. */
static uint64_t write_into(const uint8_t *table, size_t table_len, size_t first, size_t room)
{
    return yenuslap_aldebaran_write(table, table_len, first, LENT(&out, room));
}

static void write_texts(void)
{
    static const uint8_t table[] = {2, 0, 0, 1, 1, 29, 0, 1, 30, 1};
    static const char text[] = "des (0,3,2)\n(0,\"i\",1)\n(1,\"a15!\",0)\n(1,\"a15?\",1)\n";
    GIVES(sizeof(A_TEXT) - 1, write_into(BYTES(A_LEFT), 1, YENUSLAP_MOST_TEXT));
    HOLDS_TEXT(A_TEXT);
    GIVES(sizeof(A_TEXT) - 1, write_into(BYTES(A_LEFT), 1, sizeof(A_TEXT) - 1));
    HOLDS_TEXT(A_TEXT);
    GIVES(12, write_into(BYTES(NO_ROWS), 0, 12));
    HOLDS_TEXT("des (0,0,1)\n");
    GIVES(sizeof(text) - 1, write_into(BYTES(table), 0, 100));
    HOLDS_TEXT(text);
}

/* The largest table, eight rows from each of 64 states: 10 states have one digit, so 80 rows are a byte shorter. */
static void write_largest(void)
{
    static uint8_t table[YENUSLAP_MOST_TABLE];
    static uint8_t text[YENUSLAP_MOST_TEXT];
    table[0] = 64;
    for (size_t row = 0; row < 512; row++) {
        table[1 + 3 * row] = (uint8_t)(row / 8);
        table[2 + 3 * row] = (uint8_t)(19 + row % 8);
        table[3 + 3 * row] = 63;
    }
    GIVES(16 + 432 * 15 + 80 * 14, write_into(BYTES(table), 63, YENUSLAP_MOST_TEXT));
    memcpy(text, out.bytes + GUARD, 7616);
    GIVES(63 * 65536 + 1537, read_into(text, 7616, YENUSLAP_MOST_TABLE));
    HOLDS(&out, table);
}

/* Expects that a table and a first state are refused under this number, whatever the output. */
static void refused_table(int line, uint64_t number, const uint8_t *table, size_t table_len, size_t first)
{
    static const size_t rooms[] = {0, YENUSLAP_MOST_TEXT};
    for (size_t at = 0; at < 2; at++) {
        check_answer(__FILE__, line, number, 0, write_into(table, table_len, first, rooms[at]));
        check_output(__FILE__, line, &out, out.bytes, 0);
    }
}

static void refused_writes(void)
{
    static const uint8_t too_many_states[] = {65};
    static const uint8_t no_such_label[] = {1, 0, 31, 0};
    static const uint8_t no_such_state[] = {1, 0, 0, 1};
    refused_table(__LINE__, YENUSLAP_REFUSED_WRONG_LENGTH, BYTES(UNFIT_TABLE), 9);
    refused_table(__LINE__, YENUSLAP_REFUSED_WRONG_LENGTH, A_LEFT, 0, 0);
    refused_table(__LINE__, YENUSLAP_REFUSED_OUT_OF_RANGE, BYTES(NO_STATE), 0);
    refused_table(__LINE__, YENUSLAP_REFUSED_OUT_OF_RANGE, BYTES(too_many_states), 65);
    refused_table(__LINE__, YENUSLAP_REFUSED_OUT_OF_RANGE, BYTES(no_such_label), 0);
    refused_table(__LINE__, YENUSLAP_REFUSED_OUT_OF_RANGE, BYTES(no_such_state), 1);
    refused_table(__LINE__, YENUSLAP_REFUSED_ROW_NOT_ABOVE, BYTES(ROW_TWICE), 2);
    refused_table(__LINE__, YENUSLAP_REFUSED_NINTH_ROW, BYTES(NINE_ROWS), 1);
    refused_table(__LINE__, YENUSLAP_REFUSED_WRONG_HEADER, BYTES(A_LEFT), 2);
    refused_table(__LINE__, YENUSLAP_REFUSED_WRONG_HEADER, BYTES(A_LEFT), 256);
    refused_table(__LINE__, YENUSLAP_REFUSED_WRONG_HEADER, BYTES(A_LEFT), SIZE_MAX);
    REFUSES(YENUSLAP_REFUSED_OUTPUT_TOO_SHORT, write_into(BYTES(A_LEFT), 1, sizeof(A_TEXT) - 2));
    UNCHANGED(&out);
    REFUSES(YENUSLAP_REFUSED_OUTPUT_TOO_SHORT, write_into(BYTES(NO_ROWS), 0, 0));
    UNCHANGED(&out);
}

void check_aldebaran(void)
{
    read_sound_texts();
    read_labels();
    texts_not_of_form();
    texts_with_other_faults();
    which_fault_counts();
    short_tables();
    write_texts();
    write_largest();
    refused_writes();
}
