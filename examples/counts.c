/* What the library's functions cost, in processor instructions: each row is a program that is run, or an instruction that is done again and again. Under
 * valgrind's callgrind only `measured` is counted, and each row is written out by itself when `row_end` returns (examples/counts).
 *
 *     counts            do all rows, and say their names, one a line, with how many MMIX instructions each did
 */
#include <inttypes.h>
#include <stdio.h>
#include <stdlib.h>
#include <string.h>

#include "mmix.h"

#define TETRA(op, x, y, z) ((uint32_t)(op) << 24 | (uint32_t)(x) << 16 | (uint32_t)(y) << 8 | (uint32_t)(z))
#define BACK(tetras) TETRA(MMIX_OP_JMPB, 0xFF, 0xFF, 0x100 - (tetras))
/* The same seven times, and back to the first. */
#define SEVEN(tetra) tetra, tetra, tetra, tetra, tetra, tetra, tetra, BACK(7)

enum { TETRAS_MAX = 8, A_LEN = 0x800, B_LEN = 0x2000, RUN = 20000, STEPS = 1000 };
enum how { IN_A_RUN, IN_PARTS, ON_AN_IMAGE };

struct row {
    enum how how;
    const char *name;
    uint32_t tetras[TETRAS_MAX]; /* Up to the first 0. */
};

/* $4 is 800, $5 0x400, $6 the stack's start and 0x400. */
static const struct row rows[] = {
    {IN_A_RUN, "SWYM", {SEVEN(TETRA(MMIX_OP_SWYM, 0, 0, 0))}},
    {IN_A_RUN, "branch not taken", {SEVEN(TETRA(MMIX_OP_BZ, 4, 0, 2))}},
    {IN_A_RUN, "PUT rD", {SEVEN(TETRA(MMIX_OP_PUT, MMIX_RD, 0, 3))}},
    {IN_A_RUN, "GET rJ", {SEVEN(TETRA(MMIX_OP_GET, 3, 0, MMIX_RJ))}},
    {IN_A_RUN, "PUSHJ and POP", {TETRA(MMIX_OP_PUSHJ, 2, 0, 5), TETRA(MMIX_OP_PUSHJ, 2, 0, 4), TETRA(MMIX_OP_PUSHJ, 2, 0, 3),
                                 TETRA(MMIX_OP_PUSHJ, 2, 0, 2), BACK(4), TETRA(MMIX_OP_POP, 0, 0, 0)}},
    {IN_A_RUN, "counted loop", {TETRA(MMIX_OP_NEGUI, 1, 0, 0), TETRA(MMIX_OP_ADDI, 1, 1, 1), TETRA(MMIX_OP_CMP, 3, 1, 4), TETRA(MMIX_OP_PBNB, 3, 0xFF, 0xFE),
                                BACK(4)}},
    {IN_A_RUN, "copy from A to B", {TETRA(MMIX_OP_NEGUI, 1, 0, 0), TETRA(MMIX_OP_LDO, 2, 5, 1), TETRA(MMIX_OP_STO, 2, 6, 1), TETRA(MMIX_OP_ADDUI, 1, 1, 8),
                                    TETRA(MMIX_OP_CMP, 3, 1, 4), TETRA(MMIX_OP_PBNB, 3, 0xFF, 0xFC), BACK(6)}},
    {IN_A_RUN, "table of divisions", {TETRA(MMIX_OP_NEGUI, 1, 1, 0), TETRA(MMIX_OP_DIVU, 2, 5, 1), TETRA(MMIX_OP_8ADDU, 7, 1, 6), TETRA(MMIX_OP_STOI, 2, 7, 0),
                                      TETRA(MMIX_OP_ADDUI, 1, 1, 1), TETRA(MMIX_OP_CMP, 3, 1, 4), TETRA(MMIX_OP_PBNB, 3, 0xFF, 0xFB), BACK(7)}},
    {IN_PARTS, "SWYM", {TETRA(MMIX_OP_SWYM, 0, 0, 0)}},
    {IN_PARTS, "branch not taken", {TETRA(MMIX_OP_BN, 4, 0, 2)}},
    {IN_PARTS, "ADD", {TETRA(MMIX_OP_ADD, 1, 4, 5)}},
    {IN_PARTS, "MUL", {TETRA(MMIX_OP_MUL, 1, 4, 5)}},
    {IN_PARTS, "LDO", {TETRA(MMIX_OP_LDO, 1, 6, 7)}},
    {IN_PARTS, "STO", {TETRA(MMIX_OP_STO, 1, 6, 7)}},
    {IN_PARTS, "PUT rD", {TETRA(MMIX_OP_PUT, MMIX_RD, 0, 3)}},
    {IN_PARTS, "GET rJ", {TETRA(MMIX_OP_GET, 3, 0, MMIX_RJ)}},
    {IN_PARTS, "PUSHJ and POP", {TETRA(MMIX_OP_PUSHJ, 2, 0, 5), TETRA(MMIX_OP_POP, 0, 0, 0)}},
    {ON_AN_IMAGE, "SWYM", {TETRA(MMIX_OP_SWYM, 0, 0, 0)}},
    {ON_AN_IMAGE, "branch not taken", {TETRA(MMIX_OP_BN, 4, 0, 2)}},
    {ON_AN_IMAGE, "ADD", {TETRA(MMIX_OP_ADD, 1, 4, 5)}},
    {ON_AN_IMAGE, "LDO", {TETRA(MMIX_OP_LDO, 1, 6, 7)}},
    {ON_AN_IMAGE, "STO", {TETRA(MMIX_OP_STO, 1, 6, 7)}},
    {ON_AN_IMAGE, "PUSHJ and POP", {TETRA(MMIX_OP_PUSHJ, 2, 0, 5), TETRA(MMIX_OP_POP, 0, 0, 0)}},
};

static const char *const hows[] = {"run", "step", "image"};
static uint8_t a[A_LEN], b[B_LEN], image[MMIX_IMAGE_LEN];
static struct mmix_state state;

static void start(const struct row *row)
{
    memset(a, 0x3C, sizeof a);
    memset(b, 0, sizeof b);
    for (int k = 0; k < TETRAS_MAX && row->tetras[k] != 0; k++)
        for (int i = 0; i < 4; i++)
            a[4 * k + i] = (uint8_t)(row->tetras[k] >> (24 - 8 * i));
    memset(&state, 0, sizeof state);
    state.special[MMIX_RG] = 32;
    state.special[MMIX_RL] = 10;
    state.special[MMIX_RO] = state.special[MMIX_RS] = MMIX_STACK_START + 0x100;
    state.marks = 0x1FF;
    state.general[4] = 800;
    state.general[5] = 0x400;
    state.general[6] = MMIX_STACK_START + 0x400;
    if (mmix_encode(&state, image, sizeof image) != MMIX_DONE)
        exit(1);
}

/* Counted: what the row says, up to n instructions. Gives the last reply. */
__attribute__((noinline)) uint64_t measured(const struct row *row, int tetras, uint64_t n, uint64_t *done)
{
    uint64_t reply = 0;

    if (row->how == IN_A_RUN)
        return mmix_run_parts(0, MMIX_STACK_START, n, state.general, state.special, &state.pc, &state.halt, state.marks, state.mask,
                              a, sizeof a, b, sizeof b, done);
    for (*done = 0; *done < n && reply == 0; ++*done) {
        uint32_t t = row->tetras[*done % (uint64_t)tetras];
        uint8_t op = (uint8_t)(t >> 24), x = (uint8_t)(t >> 16), y = (uint8_t)(t >> 8), z = (uint8_t)t;
        if (row->how == IN_PARTS)
            reply = mmix_step_parts(0, MMIX_STACK_START, op, x, y, z, state.general, state.special, &state.pc, &state.halt, state.marks, state.mask,
                                    a, sizeof a, b, sizeof b);
        else
            reply = mmix_step(0, MMIX_STACK_START, op, x, y, z, image, sizeof image, a, sizeof a, b, sizeof b);
    }
    return reply;
}

/* Callgrind writes out what was counted when this returns. */
__attribute__((noinline)) void row_end(const struct row *row, uint64_t done)
{
    printf("%s %s: %" PRIu64 "\n", hows[row->how], row->name, done);
    fflush(stdout);
}

int main(void)
{
    for (size_t k = 0; k < sizeof rows / sizeof *rows; k++) {
        uint64_t done = 0, n = rows[k].how == IN_A_RUN ? RUN : STEPS;
        int tetras = 0;

        while (tetras < TETRAS_MAX && rows[k].tetras[tetras] != 0)
            tetras++;
        start(&rows[k]);
        if (measured(&rows[k], tetras, n, &done) != MMIX_DONE || done != n) {
            printf("%s %s: refused after %" PRIu64 "\n", hows[rows[k].how], rows[k].name, done);
            return 1;
        }
        row_end(&rows[k], done);
    }
    return 0;
}
