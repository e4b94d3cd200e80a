/* README's 'What a host should know', and what it says of a claim, tried on the library, fact by fact. Where README names values (the fresh state, a context's order, the store's size) they are
 * put into words from what the library does, and the words are looked for in README.
 *
 *     facts_test README      make host-test
 */
#include <inttypes.h>
#include <stdarg.h>
#include <stdio.h>
#include <stdlib.h>
#include <string.h>

#include "mmix.h"
#include "mmix_text.h"

enum { A_AT = 0x1000, A_LEN = 4096, B_LEN = 4096, MARK = 0x100, PART = 256 };

static uint8_t image[MMIX_IMAGE_LEN], low[A_LEN], stack[B_LEN], store[MMIX_STORE_LEN];
static const struct mmix_windows lent = { A_AT, MMIX_STACK_START, low, A_LEN, stack, B_LEN };
static char readme[1 << 17];
static int failed;

static void is(const char *what, uint64_t value, uint64_t should)
{
    if (value == should)
        return;
    printf("facts_test: %s: %" PRIu64 " (0x%" PRIx64 ") where %" PRIu64 " (0x%" PRIx64 ") should be\n", what, value, value, should, should);
    failed = 1;
}

/* The words stand in README. */
static void says(const char *form, ...)
{
    char words[512];
    va_list values;

    va_start(values, form);
    vsnprintf(words, sizeof words, form, values);
    va_end(values);
    if (strstr(readme, words) != NULL)
        return;
    printf("facts_test: README does not say: %s\n", words);
    failed = 1;
}

static uint64_t general(size_t k)
{
    return mmix_octabyte(image, MMIX_AT_GENERAL(k));
}

static uint64_t special(size_t k)
{
    return mmix_octabyte(image, MMIX_AT_SPECIAL(k));
}

static void set_general(size_t k, uint64_t value)
{
    mmix_set_octabyte(image, MMIX_AT_GENERAL(k), value);
}

static void set_special(size_t k, uint64_t value)
{
    mmix_set_octabyte(image, MMIX_AT_SPECIAL(k), value);
}

/* The fresh state with PC at A, and windows of zeros. */
static void fresh(void)
{
    memset(low, 0, sizeof low);
    memset(stack, 0, sizeof stack);
    is("mmix_initialize", mmix_initialize(image, sizeof image), MMIX_DONE);
    mmix_set_octabyte(image, MMIX_AT_PC, A_AT);
}

/* ---- the facts, in README's order */

static void try_fresh_state(void)
{
    static const uint8_t named[] = { MMIX_RG, MMIX_RO, MMIX_RS, MMIX_RN, MMIX_RK, MMIX_RT, MMIX_RTT, MMIX_RV };

    memset(image, 0xEE, sizeof image);
    is("mmix_initialize", mmix_initialize(image, sizeof image), MMIX_DONE);
    is("rS of a fresh state", special(MMIX_RS), special(MMIX_RO));
    says("A fresh state has PC %" PRIu64 ", halt code %" PRIu64 ", no vector loaded and no mask; rG %" PRIu64 ", rO and rS 0x%" PRIX64 ", rN %" PRIu64 ", rK 0x%" PRIX64
         ", rT 0x%" PRIX64 ", rTT 0x%" PRIX64 ", rV 0x%" PRIX64 "; all else is 0.", mmix_octabyte(image, MMIX_AT_PC), mmix_octabyte(image, MMIX_AT_HALT),
         special(MMIX_RG), special(MMIX_RO), special(MMIX_RN), special(MMIX_RK), special(MMIX_RT), special(MMIX_RTT), special(MMIX_RV));
    for (size_t k = 0; k < sizeof named; k++)
        set_special(named[k], 0);
    for (size_t k = 0; k < sizeof image; k++)
        is("all else of a fresh state", image[k], 0);
}

/* A program that ends, and one that runs into memory that nothing was written to. */
static void try_empty_memory(void)
{
    static const uint8_t swym_halt[] = { MMIX_OP_SWYM, 0, 0, 0, MMIX_OP_TRAP, 0, MMIX_TRAP_HALT, 0 };
    uint64_t done;

    fresh();
    memcpy(low, swym_halt, sizeof swym_halt);
    is("a program that ends", mmix_run_in(&lent, 10, image, sizeof image, &done), MMIX_NAMED_TRAP);
    is("where it ends", mmix_octabyte(image, MMIX_AT_PC), A_AT + 4);
    fresh();
    low[0] = low[4] = MMIX_OP_SWYM;
    is("a run into empty memory", mmix_run_in(&lent, 10, image, sizeof image, &done), MMIX_NAMED_TRAP);
    is("where it stops", mmix_octabyte(image, MMIX_AT_PC), A_AT + 8);
}

/* mmix_put_set refuses rK and rO; written in the image, GET reads them. */
static void try_kernel_registers(void)
{
    static const struct { uint8_t which; uint64_t reply; const char *words; } refused[] = {
        { MMIX_RK, MMIX_PUT_PRIVILEGED, "rK is refused by %" PRIu64 }, { MMIX_RO, MMIX_PUT_ILLEGAL, "rO by %" PRIu64 }
    };

    for (size_t k = 0; k < sizeof refused / sizeof *refused; k++) {
        uint8_t which = refused[k].which, pair[16];
        uint64_t place, value = MMIX_STACK_START + 8;

        fresh();
        mmix_set_octabyte(pair, 0, which);
        mmix_set_octabyte(pair, 8, value);
        uint64_t reply = mmix_put_set(image, sizeof image, pair, sizeof pair, &place);
        is(mmix_special_name(which), reply, refused[k].reply);
        says(refused[k].words, reply);
        fresh();
        for (size_t j = 0; j < 8; j++)
            image[8 * (256 + which) + j] = (uint8_t)(value >> (56 - 8 * j));
        is(mmix_special_name(which), mmix_step_in(&lent, MMIX_OP_GET, 255, 0, which, image, sizeof image), MMIX_DONE);
        is(mmix_special_name(which), general(255), value);
    }
}

/* One task alone: what its program, at A, is stopped by. Its part has `length` bytes from `start` of B on, and B begins at `base_b`. */
static uint64_t task(uint64_t base_b, uint64_t start, uint64_t length)
{
    const struct mmix_windows here = { A_AT, base_b, low, A_LEN, stack, B_LEN };
    const uint64_t parts[2] = { start, length };
    uint64_t counts[8], refusals[8];

    is("mmix_tasks", mmix_tasks_in(&here, 10, 100, image, sizeof image, parts, 2, counts, refusals), MMIX_DONE);
    return refusals[0];
}

/* A call and a return, and then the last return, of a task whose rO is an address; rS is a fresh state's. */
static uint64_t task_that_returns(uint64_t base_b, uint64_t start, uint64_t stack_at)
{
    static const uint8_t call_return[] = { MMIX_OP_PUSHJ, 0, 0, 2, MMIX_OP_POP, 0, 0, 0, MMIX_OP_POP, 0, 0, 0 };

    fresh();
    memcpy(low, call_return, sizeof call_return);
    set_special(MMIX_RO, stack_at);
    return task(base_b, start, PART);
}

static void try_tasks(void)
{
    const uint64_t start = MMIX_STACK_START, elsewhere = MMIX_STACK_START + 65536;

    is("a fresh rO, the part is elsewhere in B", task_that_returns(start, PART, start), MMIX_FOREIGN);
    is("where it stops", mmix_octabyte(image, MMIX_AT_PC), A_AT);
    is("a fresh rO, outside B", task_that_returns(elsewhere, 0, start), MMIX_MISSING);
    is("where it stops", mmix_octabyte(image, MMIX_AT_PC), A_AT);
    is("rO in A, which all share", task_that_returns(start, 0, A_AT + 2048), MMIX_NO_FRAME);
    is("rO in A, the call is done", special(MMIX_RO), A_AT + 2056);
    is("rO in A, where it stops", mmix_octabyte(image, MMIX_AT_PC), A_AT + 8);
    is("the last POP, the part begins at the stack's start", task_that_returns(start, 0, start), MMIX_NO_FRAME);
    is("where it stops", mmix_octabyte(image, MMIX_AT_PC), A_AT + 4);
    is("the last POP, the part begins elsewhere in B", task_that_returns(start, PART, start + PART), MMIX_FOREIGN);
    is("where it stops", mmix_octabyte(image, MMIX_AT_PC), A_AT + 4);
    is("the last POP, B begins with the part", task_that_returns(elsewhere, 0, elsewhere), MMIX_MISSING);
    is("where it stops", mmix_octabyte(image, MMIX_AT_PC), A_AT + 4);
}

/* The instruction needs just the `count` octabytes from an address on: lent alone it is done, with the first or the last one left out it is 6, and so
 * it is 32 where a task's part leaves one out. `image` is the state before, and so are low and stack. */
static void needs(const char *what, const uint8_t instruction[4], uint64_t from, size_t count)
{
    static uint8_t before[MMIX_IMAGE_LEN], stack_before[B_LEN];
    uint8_t op = instruction[0], x = instruction[1], y = instruction[2], z = instruction[3], *at = stack + (from - MMIX_STACK_START);

    memcpy(before, image, sizeof image);
    memcpy(stack_before, stack, sizeof stack);
    memcpy(low, instruction, 4);
    for (unsigned left_out = 0; left_out < 3; left_out++) {         /* none, the first, the last */
        size_t skipped = left_out == 1 ? 8 : 0, length = 8 * count - (left_out > 0 ? 8 : 0);
        struct mmix_windows just = mmix_one_window(from + skipped, length > 0 ? at + skipped : NULL, length);

        is(what, mmix_step_in(&just, op, x, y, z, image, sizeof image), left_out == 0 ? MMIX_DONE : MMIX_MISSING);
        if (left_out > 0)
            is("PC of what is refused", mmix_octabyte(image, MMIX_AT_PC), A_AT);
        memcpy(image, before, sizeof image);
        memcpy(stack, stack_before, sizeof stack);
        if (left_out > 0)
            is(what, task(MMIX_STACK_START, from + skipped - MMIX_STACK_START, length), MMIX_FOREIGN);
        else
            is(what, task(MMIX_STACK_START, from - MMIX_STACK_START, length) == MMIX_FOREIGN && mmix_octabyte(image, MMIX_AT_PC) == A_AT, 0);
        memcpy(image, before, sizeof image);
        memcpy(stack, stack_before, sizeof stack);
    }
}

/* rL 3, and rO 512 bytes above the stack's start. */
static void with_locals(void)
{
    fresh();
    set_special(MMIX_RL, 3);
    set_special(MMIX_RO, MMIX_STACK_START + 512);
    set_special(MMIX_RS, MMIX_STACK_START + 512);
    set_general(255, MMIX_STACK_START + 256);
}

static void try_octabytes(void)
{
    static const uint8_t load[] = { MMIX_OP_LDBI, 254, 255, 5 }, keep[] = { MMIX_OP_STOI, 254, 255, 8 }, pushj[] = { MMIX_OP_PUSHJ, 2, 0, 5 },
        pushgo[] = { MMIX_OP_PUSHGOI, 1, 254, 0 }, pop[] = { MMIX_OP_POP, 0, 0, 0 }, save[] = { MMIX_OP_SAVE, 255, 0, 0 }, unsave[] = { MMIX_OP_UNSAVE, 0, 0, 255 };
    const uint64_t ro = MMIX_STACK_START + 512, context = 3 + 1 + 224 + 12 + 1;
    uint64_t done;

    with_locals();
    needs("a load", load, MMIX_STACK_START + 256, 1);
    needs("a store", keep, MMIX_STACK_START + 264, 1);
    needs("PUSHJ", pushj, ro, 3);
    needs("PUSHGO", pushgo, ro, 2);
    mmix_set_octabyte(stack, 512 - 8, 2);
    needs("POP", pop, ro - 24, 3);
    needs("SAVE", save, ro, context);
    is("SAVE", mmix_step_in(&lent, MMIX_OP_SAVE, 255, 0, 0, image, sizeof image), MMIX_DONE);
    is("$X of SAVE", general(255), ro + 8 * (context - 1));
    mmix_set_octabyte(image, MMIX_AT_PC, A_AT);
    needs("UNSAVE", unsave, ro, context);
    fresh();
    low[A_LEN - 8] = low[A_LEN - 4] = MMIX_OP_SWYM;
    mmix_set_octabyte(image, MMIX_AT_PC, MMIX_STACK_START + PART);
    is("a tetra of B outside the part", task(MMIX_STACK_START, 0, PART), MMIX_FOREIGN);
    is("its PC", mmix_octabyte(image, MMIX_AT_PC), MMIX_STACK_START + PART);
    mmix_set_octabyte(image, MMIX_AT_PC, A_AT + A_LEN - 8);
    is("a run out of A", mmix_run_in(&lent, 10, image, sizeof image, &done), MMIX_NOT_FETCHED);
    is("PC of the tetra that is not there", mmix_octabyte(image, MMIX_AT_PC), A_AT + A_LEN);
}

/* Each octabyte of a context, by a value that only one register has. */
static void try_context(void)
{
    const uint8_t *context;
    size_t length;
    char order[128] = "";

    with_locals();
    for (size_t k = 0; k < 256; k++)
        set_general(k, k < 3 || k >= 32 ? MARK + k : 0);
    for (size_t k = 0; k < 32; k++)
        if (k != MMIX_RG && k != MMIX_RL && k != MMIX_RO && k != MMIX_RS)
            set_special(k, 2 * MARK + k);
    is("SAVE", mmix_step_in(&lent, MMIX_OP_SAVE, 254, 0, 0, image, sizeof image), MMIX_DONE);
    is("mmix_context", mmix_context_in(&lent, general(254), &context, &length), MMIX_DONE);
    is("a context's length", length, 8 * (3 + 1 + 224 + 12 + 1));
    for (size_t k = 0; k < 3; k++)
        is("a local of the context", mmix_octabyte(context, 8 * k), MARK + k);
    is("the count of locals", mmix_octabyte(context, 24), 3);
    for (size_t k = 32; k < 256; k++)
        is("a global of the context", mmix_octabyte(context, 8 * (4 + k - 32)), MARK + k);
    for (size_t k = 0; k < 12; k++) {
        strcat(order, mmix_special_name((unsigned)(mmix_octabyte(context, 8 * (228 + k)) - 2 * MARK)));
        strcat(order, ", ");
    }
    says("its locals, their count, its globals, then %sand rG × 2^56 + rA", order);
    is("rG and rA packed", mmix_octabyte(context, 8 * 240), UINT64_C(32) << 56 | (2 * MARK + MMIX_RA));
}

/* In bytes: pairs of mmix_put_set, starts and lengths of parts. Numbers: pairs of mmix_put_set_parts, parts_len. */
static void try_units(void)
{
    static const uint8_t call[] = { MMIX_OP_PUSHJ, 0, 0, 1 };
    uint8_t pairs[16] = { 0 };
    uint64_t numbers[2] = { MMIX_RB, 7 }, parts[2] = { 8, 8 }, place, counts[8], refusals[8];
    struct mmix_state state;

    fresh();
    pairs[7] = MMIX_RB, pairs[15] = 7;
    is("a pair less a byte", mmix_put_set(image, sizeof image, pairs, 15, &place), MMIX_DONE);
    is("a pair less a byte, rB", special(MMIX_RB), 0);
    is("a pair of 16 bytes", mmix_put_set(image, sizeof image, pairs, 16, &place), MMIX_DONE);
    is("a pair of 16 bytes, rB", special(MMIX_RB), 7);
    fresh();
    is("mmix_decode", mmix_decode(image, sizeof image, &state), MMIX_DONE);
    is("a pair of 2 numbers", mmix_put_set_parts(state.general, state.special, &state.pc, &state.halt, 0, 0, numbers, 2, &place), MMIX_DONE);
    is("a pair of 2 numbers, rB", state.special[MMIX_RB], 7);
    memcpy(low, call, sizeof call);
    set_special(MMIX_RO, MMIX_STACK_START + 8);
    is("one task has 2 numbers", mmix_tasks_in(&lent, 1, 1, image, sizeof image, parts, 2, counts, refusals), MMIX_DONE);
    is("a frame in a part of bytes 8 to 15", refusals[0], MMIX_DONE);
    is("its count of instructions", counts[0], 1);
    mmix_set_octabyte(image, MMIX_AT_PC, A_AT);
    is("q above 1,000, as where q and grant are exchanged", mmix_tasks_in(&lent, 5000, 5, image, sizeof image, parts, 2, counts, refusals), MMIX_TASKS_RULE);
    low[0] = MMIX_OP_JMP, low[3] = 0;
    is("q and grant exchanged", mmix_tasks_in(&lent, 900, 5, image, sizeof image, parts, 2, counts, refusals), MMIX_DONE);
    is("so few instructions are done then", counts[0], 5);
    is("one number of parts", mmix_tasks_in(&lent, 1, 1, image, sizeof image, parts, 1, counts, refusals), MMIX_TASKS_RULE);
    parts[1] = 1;
    is("a part of one byte", mmix_tasks_in(&lent, 1, 1, image, sizeof image, parts, 2, counts, refusals), MMIX_TASKS_RULE);
}

/* In a run an instruction that writes $X claims it: the marginal registers up to $X become locals, 0, and rL is X + 1. */
static void try_claim(void)
{
    static const uint8_t copy[] = { MMIX_OP_NEGUI, 5, 7, 0 };
    uint64_t done;

    fresh();
    memcpy(low, copy, sizeof copy);
    set_special(MMIX_RL, 2);
    for (size_t k = 0; k < 10; k++)
        set_general(k, MARK + k);
    is("a claim", mmix_run_in(&lent, 1, image, sizeof image, &done), MMIX_DONE);
    is("a claim, rL", special(MMIX_RL), 6);
    for (size_t k = 0; k < 5; k++)
        is("a claim, the registers below", general(k), k < 2 ? MARK + k : 0);
    is("a claim, $X", general(5), 7);
}

static void try_store(void)
{
    size_t length = sizeof store;

    fresh();
    is("a store", mmix_take_in(&lent, 15, image, sizeof image, store, length), MMIX_DONE);
    is("a store less a byte", mmix_take_in(&lent, 15, image, sizeof image, store, length - 1), MMIX_STORE_TOO_SHORT);
    says("A store of points is %zu,%03zu,%03zu bytes.", length / 1000000, length / 1000 % 1000, length % 1000);
}

int main(int count, char **words)
{
    FILE *file = count == 2 ? fopen(words[1], "r") : NULL;

    if (file == NULL || fread(readme, 1, sizeof readme - 1, file) == 0) {
        printf("facts_test README: README is needed\n");
        return EXIT_FAILURE;
    }
    fclose(file);
    try_fresh_state();
    try_empty_memory();
    try_kernel_registers();
    try_tasks();
    try_octabytes();
    try_context();
    try_units();
    try_store();
    try_claim();
    if (failed)
        return EXIT_FAILURE;
    printf("facts_test: what README tells a host is so\n");
    return EXIT_SUCCESS;
}
