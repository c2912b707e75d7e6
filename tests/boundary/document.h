/* Machines, logs, halves and questions of document 01, and parts that are refused. They are constants: a call that
 * wrote into one would end the program. */
#ifndef DOCUMENT_H
#define DOCUMENT_H

#include <stdint.h>

/* Case A. */
enum { A_K = 2 };
static const uint8_t A_LEFT[] = {2, 0, 1, 1, 0, 3, 1};
static const uint8_t A_RIGHT[] = {2, 0, 2, 1, 0, 4, 1};
static const uint8_t A_RUN[] = {0, 0, 0, 1, 1};
static const uint8_t A_QUESTION[] = {6, 0, 0, 0};
static const uint8_t A_CASEBOOK[] = {
    3, 0, 1, 0, 2,
    9, 0, 2, 0, 2, 0, 1, 1, 0, 3, 1,
    9, 0, 3, 0, 2, 0, 2, 1, 0, 4, 1,
    7, 0, 4, 0, 0, 0, 0, 1, 1,
    6, 0, 5, 0, 6, 0, 0, 0,
};

/* Its splittings: handshakes on 1 and 2, then on 3 and 4. */
static const uint8_t A_LEFT_HALF_0[] = {0, 1, 1};
static const uint8_t A_RIGHT_HALF_0[] = {0, 2, 1};
static const uint8_t A_LEFT_HALF_1[] = {0, 3, 1};
static const uint8_t A_RIGHT_HALF_1[] = {0, 4, 1};

/* One state each, k 1, both with a loop of label 1, and one step of label 1. */
enum { LOOP_K = 1 };
static const uint8_t LOOP[] = {1, 0, 1, 0};
static const uint8_t LOOP_RUN[] = {0, 0, 1, 0, 0};
static const uint8_t LOOP_MOVE[] = {0, 1, 0};
static const uint8_t LOOP_IDLE[] = {0, 255, 0};

/* The same with 16 two-way steps; the first 47 bytes are 15 of them. */
static const uint8_t SIXTEEN_STEPS[] = {
    0, 0,
    1, 0, 0, 1, 0, 0, 1, 0, 0, 1, 0, 0, 1, 0, 0, 1, 0, 0, 1, 0, 0, 1, 0, 0,
    1, 0, 0, 1, 0, 0, 1, 0, 0, 1, 0, 0, 1, 0, 0, 1, 0, 0, 1, 0, 0, 1, 0, 0,
};
enum { FIFTEEN_STEPS_LEN = 2 + 3 * 15 };

/* k 4: one state without rows, and one with loops of the labels 1 to 8; a log of no steps, and a half of none. */
enum { EIGHT_K = 4 };
static const uint8_t NO_ROWS[] = {1};
static const uint8_t EIGHT_ROWS[] = {1, 0, 1, 0, 0, 2, 0, 0, 3, 0, 0, 4, 0, 0, 5, 0, 0, 6, 0, 0, 7, 0, 0, 8, 0};
static const uint8_t NO_STEPS[] = {0, 0};
static const uint8_t NO_HALF_STEPS[] = {0};

/* Three nested forward by 0 over "not not true" (3,734 nodes by the right), and over "not not not true" (4,463). */
static const uint8_t THREE_AHEAD[] = {5, 0, 5, 0, 5, 0, 2, 0, 2, 0, 0, 0};
static const uint8_t TOO_LARGE[] = {5, 0, 5, 0, 5, 0, 2, 0, 2, 0, 2, 0, 0, 0};

/* Questions over true. */
static const uint8_t BACK_BY_1[] = {6, 1, 0, 0};
static const uint8_t BACK_BY_IDLE[] = {8, 0, 0, 0};
static const uint8_t FORWARD_BY_0[] = {5, 0, 0, 0};
static const uint8_t FORWARD_BY_1[] = {5, 1, 0, 0};
static const uint8_t FORWARD_BY_2[] = {5, 2, 0, 0};

/* Parts that are refused: 3 by their length. */
static const uint8_t UNFIT_TABLE[] = {2, 0, 1};
static const uint8_t UNFIT_RUN[] = {0, 0, 0};
/* 5: no state; 6: a row twice; 7: nine rows, with k 4. */
static const uint8_t NO_STATE[] = {0};
static const uint8_t ROW_TWICE[] = {2, 0, 1, 1, 0, 1, 1};
static const uint8_t NINE_ROWS[] = {
    1, 0, 0, 0, 0, 1, 0, 0, 2, 0, 0, 3, 0, 0, 4, 0, 0, 5, 0, 0, 6, 0, 0, 7, 0, 0, 8, 0,
};
/* 8: the right does not move. */
static const uint8_t NOT_REAL[] = {0, 0, 0, 1, 0};
/* 9: operator 9; 10: five nested forwards. */
static const uint8_t NOT_A_TREE[] = {9, 0};
static const uint8_t FIVE_AHEAD[] = {5, 0, 5, 0, 5, 0, 5, 0, 5, 0, 0, 0};
/* 15: a state without steps, which case A does not have; even length. */
static const uint8_t NO_SUCH_STATE[] = {2};
static const uint8_t EVEN_HALF[] = {0, 1};

#endif
