/* Calls into the proved engine of a line setter's casebook. Link libengine.a; this header is C99 and C++.
 *
 * What the bytes are. Two machines, left and right, have tables; a log is a joint run of both; a question is
 * a formula about a run. Bytes are lent as a pointer and a length, each as in the body of its casebook record:
 *
 *   k           the number of handshake pairs, 0 to 15: the labels are 0 (the silent step) to 2k, and the
 *               partner of an odd label is the next number, of an even one from 2 the number before
 *   table       n, 1 to 64 states, then its rows, three bytes each: from, label, to; rows rise strictly
 *   joint run   left and right start state, then 0 to 200 steps, three bytes each: label, left target, right
 *               target; label 255 is an idle of both
 *   half run    start state, then 0 to 200 steps, two bytes each: label, target; 255 and the kept state
 *               for an idle
 *   formula     its nodes in prefix order, two bytes each: operator, label (0 where it has none); a question
 *               has 1 to 64 nodes, a formula to be judged 1 to 4,096
 *   casebook    k, left table, right table, joint run and question, each as one record
 *   text        a table with a first state in the Aldebaran text form, as other tools save machines: see
 *               yenuslap_aldebaran_read
 *
 * A run stopped at a point p, from 0 to its number of steps, is its start and its first p steps.
 *
 * What is lent. A call reads its inputs and writes its outputs, and nothing else; it keeps no pointer and
 * remembers nothing, so calls on different threads need no lock. When refused, no byte of an output changes.
 * After an answer, which stands at the output's front, the bytes of the output past it keep their values. An
 * output must not overlap an input or another output; inputs may overlap each other. A pointer must not be
 * null, also where the length is 0: lend the address of some byte of yours then, none is read or written.
 *
 * The stack. Each call works on the stack of its thread alone. The most that was measured, on x86-64, is 0.6 MiB
 * for a verdict on a formula of 4,096 nodes, and 1.1 MiB for yenuslap_sheet_lines. yenuslap_aldebaran_read takes
 * under 200 KiB, however long the text is.
 *
 * Answers. A call answers one uint64_t: take it apart by yenuslap_refusal and yenuslap_value below, which is
 * proved to give number and value of every answer. Two calls answer otherwise: yenuslap_cut a length alone, since
 * a half that is cut may have any length, and yenuslap_sheet_lines a struct.
 *
 *   uint64_t answer = yenuslap_count_splittings(k, left, left_len, right, right_len, run, run_len);
 *   if (yenuslap_refusal(answer) == YENUSLAP_NOT_REFUSED)
 *       printf("%lu splittings\n", (unsigned long)yenuslap_value(answer));
 *
 * Every input has an answer. Refusals are listed with each call in the order in which they are judged: the
 * first that applies is given. "3, 5 to 7 (left, then right)" means all four of the left table, then all four
 * of the right.
 */
#ifndef YENUSLAP_H
#define YENUSLAP_H

#include <stddef.h>
#include <stdint.h>

#ifdef __cplusplus
extern "C" {
#endif

/* Why a call is refused: 1 to 18 are document 01's numbers, 19 to 21 document 02's. */
enum yenuslap_refusal_number {
    YENUSLAP_NOT_REFUSED = 0,

    /* 1 to 11: a fault in the bytes. */
    YENUSLAP_REFUSED_TRUNCATED = 1,            /* the bytes end before the question record is complete */
    YENUSLAP_REFUSED_WRONG_KIND = 2,           /* not the kind of record that is due */
    YENUSLAP_REFUSED_WRONG_LENGTH = 3,         /* a length that the record, or the part, cannot have */
    YENUSLAP_REFUSED_TOO_MANY_PAIRS = 4,       /* k over 15 */
    YENUSLAP_REFUSED_OUT_OF_RANGE = 5,         /* n is 0 or over 64, or a row's state or label out of range */
    YENUSLAP_REFUSED_ROW_NOT_ABOVE = 6,        /* a row not above the one before; in a text, a row given twice */
    YENUSLAP_REFUSED_NINTH_ROW = 7,            /* a ninth row from one state */
    YENUSLAP_REFUSED_NOT_REAL = 8,             /* a start state out of range, or a step not real */
    YENUSLAP_REFUSED_NOT_A_TREE = 9,           /* a formula that is not one whole tree of its nodes */
    YENUSLAP_REFUSED_NESTED_TOO_DEEP = 10,     /* forward modalities nested over 4 deep */
    YENUSLAP_REFUSED_BYTES_AFTER = 11,         /* bytes after the question record */

    /* 12, 14 to 16, 18: a fault of the caller; 13 and 17: a sound case that is too large. */
    YENUSLAP_REFUSED_POINT_BEYOND = 12,        /* a point beyond the run */
    YENUSLAP_REFUSED_TOO_MANY_SPLITTINGS = 13, /* over 65,535 splittings */
    YENUSLAP_REFUSED_NO_SUCH_SPLITTING = 14,   /* a splitting number not below the count */
    YENUSLAP_REFUSED_NOT_A_RUN = 15,           /* a half that is no run of its table, or over 200 steps */
    YENUSLAP_REFUSED_HALVES_DO_NOT_MATCH = 16, /* halves that do not match, unequal lengths included */
    YENUSLAP_REFUSED_QUOTIENT_TOO_LARGE = 17,  /* a quotient of over 4,096 nodes */
    YENUSLAP_REFUSED_OUTPUT_TOO_SHORT = 18,    /* an output shorter than the answer; judged last */

    /* 19 to 21: a fault in an Aldebaran text; 20 also a fault of the caller who writes one. */
    YENUSLAP_REFUSED_NOT_OF_FORM = 19,         /* a missing header, or a line not of the form */
    YENUSLAP_REFUSED_WRONG_HEADER = 20,        /* a row count other than the lines, or a first state not below n */
    YENUSLAP_REFUSED_UNKNOWN_LABEL = 21        /* a label that is not spelled as one */
};

/* The refusal's number in an answer of one uint64_t, YENUSLAP_NOT_REFUSED if there is none. */
static inline uint32_t yenuslap_refusal(uint64_t answer)
{
    return (uint32_t)(answer >> 32);
}

/* The value in such an answer, 0 when refused. */
static inline uint32_t yenuslap_value(uint64_t answer)
{
    return (uint32_t)(answer & 0xffffffffu);
}

/* The known side of two halves. Every byte but 1 and 2 names none, and then the left half is known: document 02's
 * rule; document 01's was the right, so whoever relied on that names YENUSLAP_RIGHT. */
#define YENUSLAP_UNNAMED 0
#define YENUSLAP_LEFT 1
#define YENUSLAP_RIGHT 2

/* The kinds of records. */
#define YENUSLAP_KIND_PAIRS 1
#define YENUSLAP_KIND_LEFT 2
#define YENUSLAP_KIND_RIGHT 3
#define YENUSLAP_KIND_RUN 4
#define YENUSLAP_KIND_QUESTION 5

/* No answer is longer: an output of so many bytes is never refused as too short. */
#define YENUSLAP_MOST_CASEBOOK 3825
#define YENUSLAP_MOST_HALF 401
#define YENUSLAP_MOST_RUN 602
#define YENUSLAP_MOST_QUOTIENT 8192
/* One line of a sheet, its line feed included. */
#define YENUSLAP_MOST_LINE 16399
/* A table that is read, and an Aldebaran text that is written. */
#define YENUSLAP_MOST_TABLE 1537
#define YENUSLAP_MOST_TEXT 7696

/* Judges whether bytes are a sound casebook.
 *   value    0
 *   refused  1 to 11, record by record
 *   lent     bytes is only read */
uint64_t yenuslap_casebook_read(const uint8_t *bytes, size_t bytes_len);

/* Says where the body of the record of a kind lies in a casebook.
 *   value    start * 65536 + length, both counted in bytes; 0 for a kind outside 1 to 5
 *   refused  1 to 11, as yenuslap_casebook_read
 *   lent     bytes is only read */
uint64_t yenuslap_casebook_part(const uint8_t *bytes, size_t bytes_len, uint8_t kind);

/* Writes the casebook of these parts into out.
 *   value    the bytes written, at most YENUSLAP_MOST_CASEBOOK
 *   refused  4; 3, 5 to 7 (left, then right); 3, 8 (run); 9, 10 (question); 18
 *   lent     the parts are only read; out changes only where the casebook is written */
uint64_t yenuslap_casebook_write(uint8_t k,
                                 const uint8_t *left, size_t left_len,
                                 const uint8_t *right, size_t right_len,
                                 const uint8_t *run, size_t run_len,
                                 const uint8_t *question, size_t question_len,
                                 uint8_t *out, size_t out_len);

/* Judges a formula of 1 to 4,096 nodes on the joint run stopped at a point.
 *   value    1 if it holds, 0 if it fails
 *   refused  4; 3, 5 to 7 (left, then right); 3, 8 (run, also behind the point); 9, 10 (formula); 12
 *   lent     all is only read */
uint64_t yenuslap_joint_verdict(uint8_t k,
                                const uint8_t *left, size_t left_len,
                                const uint8_t *right, size_t right_len,
                                const uint8_t *run, size_t run_len,
                                const uint8_t *formula, size_t formula_len,
                                size_t point);

/* Judges a formula of 1 to 4,096 nodes on the half run of a table stopped at a point.
 *   value    1 if it holds, 0 if it fails
 *   refused  4; 3, 5 to 7 (table); 9, 10 (formula); 12 (at every point if the half has an even length); 15
 *   lent     all is only read */
uint64_t yenuslap_half_verdict(uint8_t k,
                               const uint8_t *table, size_t table_len,
                               const uint8_t *half, size_t half_len,
                               const uint8_t *formula, size_t formula_len,
                               size_t point);

/* Counts the splittings of the joint run: the pairs of halves that join to it.
 *   value    how many, 1 to 65,535
 *   refused  4; 3, 5 to 7 (left, then right); 3, 8 (run); 13
 *   lent     all is only read */
uint64_t yenuslap_count_splittings(uint8_t k,
                                   const uint8_t *left, size_t left_len,
                                   const uint8_t *right, size_t right_len,
                                   const uint8_t *run, size_t run_len);

/* Writes the two halves of the splitting that has this number, counted from 0.
 *   value    the length of each half, at most YENUSLAP_MOST_HALF
 *   refused  4; 3, 5 to 7 (left, then right); 3, 8 (run); 13; 14; 18 if either output is shorter than a half
 *   lent     the parts are only read; left_out and right_out change only where their halves are written, and
 *            neither does when refused */
uint64_t yenuslap_split(uint8_t k,
                        const uint8_t *left, size_t left_len,
                        const uint8_t *right, size_t right_len,
                        const uint8_t *run, size_t run_len,
                        size_t number,
                        uint8_t *left_out, size_t left_out_len,
                        uint8_t *right_out, size_t right_out_len);

/* Writes the joint run of two matching halves into out.
 *   value    the bytes written, at most YENUSLAP_MOST_RUN
 *   refused  4; 3, 5 to 7 (left, then right); 15 (either half); 16; 18; never 13
 *   lent     the parts are only read; out changes only where the run is written */
uint64_t yenuslap_join(uint8_t k,
                       const uint8_t *left, size_t left_len,
                       const uint8_t *right, size_t right_len,
                       const uint8_t *left_half, size_t left_half_len,
                       const uint8_t *right_half, size_t right_half_len,
                       uint8_t *out, size_t out_len);

/* Cuts the known half at a point: the part is that half's beginning, where it lies. Looks at the known half's
 * length alone, whatever it is. Answers the part's length itself: do not take it apart.
 *   length   of the part, at least 1; 0 when refused
 *   refused  12 (at every point if the known half has an even length), its only refusal
 *   lent     all is only read */
size_t yenuslap_cut(const uint8_t *left_half, size_t left_half_len,
                    const uint8_t *right_half, size_t right_half_len,
                    uint8_t side, size_t point);

/* Writes the quotient of a question of 1 to 64 nodes by the known half stopped at a point into out: what the
 * question demands of the other half.
 *   value    the bytes written, two a node, at most YENUSLAP_MOST_QUOTIENT
 *   refused  4; 3, 5 to 7 (left, then right); 9, 10 (question); 12 (by the known half's length alone; at every
 *            point if it has an even length); 15 (either half); 16; 17 (whatever out is); 18; never 13
 *   lent     the parts are only read; out changes only where the quotient is written */
uint64_t yenuslap_quotient(uint8_t k,
                           const uint8_t *left, size_t left_len,
                           const uint8_t *right, size_t right_len,
                           const uint8_t *left_half, size_t left_half_len,
                           const uint8_t *right_half, size_t right_half_len,
                           const uint8_t *question, size_t question_len,
                           uint8_t side, size_t point,
                           uint8_t *out, size_t out_len);

/* The same by the known half of the splitting of the whole joint run that has this number, counted from 0.
 *   value    the bytes written, two a node, at most YENUSLAP_MOST_QUOTIENT
 *   refused  4; 3, 5 to 7 (left, then right); 3, 8 (run); 9, 10 (question); 12; 13; 14; 17 (whatever out is); 18
 *   lent     the parts are only read; out changes only where the quotient is written */
uint64_t yenuslap_quotient_of_splitting(uint8_t k,
                                        const uint8_t *left, size_t left_len,
                                        const uint8_t *right, size_t right_len,
                                        const uint8_t *run, size_t run_len,
                                        const uint8_t *question, size_t question_len,
                                        size_t number, uint8_t side, size_t point,
                                        uint8_t *out, size_t out_len);

/* Judges a question of 1 to 64 nodes on the joint run of two halves, and its quotient by the known half on the
 * other half (the right one if no side is named), all stopped at a point. The two verdicts are proved to be the same.
 *   value    2 * joint verdict + half verdict (1 holds, 0 fails), so 3 or 0
 *   refused  as yenuslap_quotient, 18 aside
 *   lent     all is only read */
uint64_t yenuslap_line_office(uint8_t k,
                              const uint8_t *left, size_t left_len,
                              const uint8_t *right, size_t right_len,
                              const uint8_t *left_half, size_t left_half_len,
                              const uint8_t *right_half, size_t right_half_len,
                              const uint8_t *question, size_t question_len,
                              uint8_t side, size_t point);

/* The answer of yenuslap_sheet_lines. */
struct yenuslap_lines {
    uint64_t refusal; /* the number, YENUSLAP_NOT_REFUSED if not refused */
    uint64_t lines;   /* how many lines were written, 0 when refused */
    uint64_t bytes;   /* how many bytes they are, 0 when refused */
};

/* Writes lines of a casebook's sheet into out: from line first on, counted from 0, at most so many as most
 * says, and no more than fit whole. The sheet has a line for each point from 0, and within it for each
 * splitting of the joint run, as "1 0 T 06010000 T\n": point, splitting number, joint verdict, quotient by
 * the right half in hexadecimal (or 17), left half's verdict (or -). Bytes that are no sound casebook, or one
 * with over 65,535 splittings, have a sheet of one line with the number, as "R 8\n": that is no refusal.
 * Past the sheet's end, and with most 0, no line is written; that is no refusal either. So a whole sheet is
 * printed by calls that add the lines written to first, until none is written.
 *   refused  18, if a line is due and the first one does not fit; never with YENUSLAP_MOST_LINE bytes
 *   lent     casebook is only read; out changes only where the lines are written */
struct yenuslap_lines yenuslap_sheet_lines(const uint8_t *casebook, size_t casebook_len,
                                           size_t first, size_t most,
                                           uint8_t *out, size_t out_len);

/* Reads an Aldebaran text of any length into a table, and gives its first state. The form, line by line, each
 * line ended by a line feed:
 *
 *   des (first,rows,states)
 *   (from,"label",to)          as many lines as rows says, in any order
 *
 * with no blank outside labels but the one after des, and numbers of at most five digits without leading zeros. A
 * label is any bytes, or none, but double quotes and line feeds; the labels 0 to 30 are spelled i, a1!, a1?, a2!,
 * a2? and so on to a15!, a15?, so k is taken as 15. The table has the text's rows in rising order.
 *   value    first * 65536 + length: the first state, and the table's bytes, at most YENUSLAP_MOST_TABLE
 *   refused  19; 20; 21; 5; 6 (a row given twice, wherever); 7; 18; each sought in the whole text before the next
 *   lent     text is only read; table_out changes only where the table is written */
uint64_t yenuslap_aldebaran_read(const uint8_t *text, size_t text_len,
                                 uint8_t *table_out, size_t table_out_len);

/* Writes the Aldebaran text of a table and a first state into out, the rows in the table's order. Reading it
 * gives the same table and first state. k is taken as 15, whatever casebook the table is from.
 *   value    the bytes written, at most YENUSLAP_MOST_TEXT
 *   refused  3, 5 to 7 (table); 20 (first not below n); 18
 *   lent     table is only read; out changes only where the text is written */
uint64_t yenuslap_aldebaran_write(const uint8_t *table, size_t table_len, size_t first,
                                  uint8_t *out, size_t out_len);

#ifdef __cplusplus
}
#endif

#endif
