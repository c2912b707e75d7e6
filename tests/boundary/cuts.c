/* Cutting the known half. */
#include "checks.h"
#include "document.h"
#include "suites.h"

#include <stdio.h>
#include <stdlib.h>

/* Cuts a half of one step on the left and one of none on the right. */
static size_t cut(uint8_t side, size_t point)
{
    return yenuslap_cut(BYTES(A_LEFT_HALF_0), BYTES(NO_HALF_STEPS), side, point);
}

/* A half has any length, also one that no uint32_t holds. Its bytes are never touched, so that no memory is taken. */
static void check_longest(void)
{
    const size_t len = (size_t)4294967297u;
    uint8_t *half = calloc(len, 1);
    if (half == NULL) {
        puts("no half of 2^32 + 1 bytes to be had: not tried");
        return;
    }
    IS_LONG(len, yenuslap_cut(half, len, half, 1, YENUSLAP_LEFT, len / 2));
    IS_LONG(len - 2, yenuslap_cut(half, 1, half, len, YENUSLAP_RIGHT, len / 2 - 1));
    IS_LONG(0, yenuslap_cut(half, len, half, len, YENUSLAP_LEFT, len / 2 + 1));
    free(half);
}

/* A refused cut is an empty part; 12 is its only refusal. */
void check_cuts(void)
{
    IS_LONG(1, cut(YENUSLAP_LEFT, 0));
    IS_LONG(3, cut(YENUSLAP_LEFT, 1));
    IS_LONG(0, cut(YENUSLAP_LEFT, 2));
    IS_LONG(0, cut(YENUSLAP_LEFT, SIZE_MAX));
    IS_LONG(1, cut(YENUSLAP_RIGHT, 0));
    IS_LONG(0, cut(YENUSLAP_RIGHT, 1));
    /* Unnamed, it is the left. */
    IS_LONG(1, cut(YENUSLAP_UNNAMED, 0));
    IS_LONG(3, cut(YENUSLAP_UNNAMED, 1));
    IS_LONG(0, cut(YENUSLAP_UNNAMED, 2));
    IS_LONG(3, cut(3, 1));
    IS_LONG(3, cut(255, 1));
    /* A half of even length has no points, and no other half is looked at. */
    IS_LONG(0, yenuslap_cut(BYTES(EVEN_HALF), BYTES(A_RIGHT_HALF_0), YENUSLAP_LEFT, 0));
    IS_LONG(0, yenuslap_cut(BYTES(EVEN_HALF), BYTES(A_RIGHT_HALF_0), YENUSLAP_UNNAMED, 0));
    IS_LONG(3, yenuslap_cut(BYTES(EVEN_HALF), BYTES(A_RIGHT_HALF_0), YENUSLAP_RIGHT, 1));
    IS_LONG(0, yenuslap_cut(A_LEFT, 0, A_RIGHT, 0, YENUSLAP_RIGHT, 0));
    check_longest();
}
