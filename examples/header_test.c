/* The names and the inline functions of the headers: each name is compared with its number and, where a call can tell, with what the library
 * does; each inline function with the plain one (header_inline.c), with what it should write (header_text.c, header_points.c) and with another
 * way to the same lines (header_disassemble.c); the version, and an image with its stack anywhere (header_start.c). examples/header_names looks
 * that none is left out.
 *
 *     header_test LISTING      make host-test
 */
#include <inttypes.h>
#include <stdio.h>
#include <stdlib.h>
#include <string.h>

#include "header_numbers.h"
#include "header_test.h"

static int failed;

void is(const char *what, uint64_t value, uint64_t should)
{
    if (value == should)
        return;
    printf("header_test: %s: %" PRIu64 " (0x%" PRIx64 ") where %" PRIu64 " (0x%" PRIx64 ") should be\n", what, value, value, should, should);
    failed = 1;
}

void holds(const char *what, int condition, const char *otherwise)
{
    if (condition)
        return;
    printf("header_test: %s: %s\n", what, otherwise);
    failed = 1;
}

/* ---- a state and two windows, on which names are tried */

enum { A_AT = 0x1000, A_LEN = 4096, B_LEN = 3072 };

static uint8_t image[MMIX_IMAGE_LEN + 16], low[A_LEN], stack[B_LEN], large[MMIX_WINDOW_MAX + 8], store[MMIX_STORE_LEN];
static uint8_t images[9 * 2336];
static struct mmix_state s;
static uint64_t out, counts[8], refusals[8];

uint64_t octabyte(const uint8_t *at)
{
    uint64_t value = 0;
    for (size_t k = 0; k < 8; k++)
        value = value << 8 | at[k];
    return value;
}

void set_octabyte(uint8_t *at, uint64_t value)
{
    for (size_t k = 0; k < 8; k++)
        at[k] = (uint8_t)(value >> (56 - 8 * k));
}

/* The fresh state, in the image and in the struct, and windows of zeros. */
static void fresh(void)
{
    memset(low, 0, sizeof low);
    memset(stack, 0, sizeof stack);
    if (mmix_initialize(image, 2336) != 0 || mmix_decode(image, 2336, &s) != 0)
        exit(EXIT_FAILURE);
}

static uint64_t step(uint8_t op, uint8_t x, uint8_t y, uint8_t z)
{
    return mmix_step_lent(A_AT, MMIX_STACK_START, op, x, y, z, &s, low, sizeof low, stack, sizeof stack);
}

static uint64_t run(uint64_t grant)
{
    return mmix_run(A_AT, MMIX_STACK_START, grant, image, 2336, low, sizeof low, stack, sizeof stack, &out);
}

static uint64_t take(uint64_t name, size_t store_len)
{
    return mmix_take(A_AT, MMIX_STACK_START, name, image, 2336, low, sizeof low, stack, sizeof stack, store, store_len);
}

static uint64_t go_back(uint64_t base_a, uint64_t name)
{
    return mmix_go_back(base_a, MMIX_STACK_START, name, image, 2336, low, sizeof low, stack, sizeof stack, store, sizeof store);
}

/* So many tasks of the fresh state, each with one octabyte of B. */
static uint64_t tasks(size_t n, uint64_t q)
{
    uint64_t parts[2 * 9];

    for (size_t k = 0; k < n; k++) {
        memcpy(images + 2336 * k, image, 2336);
        parts[2 * k] = 8 * k;
        parts[2 * k + 1] = 8;
    }
    return mmix_tasks(A_AT, MMIX_STACK_START, q, 10, images, 2336 * n, parts, 2 * n, low, sizeof low, stack, sizeof stack, counts, refusals);
}

/* So many pairs, each rB and 7. */
static uint64_t put_set(size_t n)
{
    uint64_t pairs[2 * 33];

    for (size_t k = 0; k < n; k++) {
        pairs[2 * k] = 0;
        pairs[2 * k + 1] = 7;
    }
    return mmix_put_set_parts(s.general, s.special, &s.pc, &s.halt, s.marks, s.mask, pairs, 2 * n, &out);
}

/* UNSAVE of a context with no more than a packed octabyte and, where rG is 32, a count of locals. */
static uint64_t unsave(uint64_t packed, uint64_t count)
{
    set_octabyte(stack, count);
    set_octabyte(stack + 8 * 237, packed);
    s.general[255] = MMIX_STACK_START + 8 * 237;
    return step(MMIX_OP_UNSAVE, 0, 0, 255);
}

static uint64_t read_across(void)
{
    uint64_t which;
    size_t start, length;

    step(MMIX_OP_SAVE, 255, 0, 0);
    return mmix_context(MMIX_STACK_START, MMIX_STACK_START + 64, s.general[255], stack, 64, stack + 64, B_LEN - 64, &which, &start, &length);
}

/* A task that loads from B outside its part. */
static uint64_t reach_out(void)
{
    static const uint8_t load[] = { MMIX_OP_LDOI, 254, 255, 0 };

    memcpy(low, load, sizeof load);
    set_octabyte(image + 8 * 255, MMIX_STACK_START + 64);
    set_octabyte(image + 2304, A_AT);
    tasks(1, 1);
    return refusals[0];
}

/* ---- the names */

static void try_numbers(const struct named *table, size_t count)
{
    for (size_t k = 0; k < count; k++)
        is(table[k].name, table[k].value, table[k].number);
}

/* What is named has an arm, and no other byte has. */
static void try_opcodes(void)
{
    for (unsigned op = 0; op < 256; op++) {
        const char *name = NULL;
        for (size_t k = 0; k < COUNT(opcodes); k++)
            if (opcodes[k].value == op)
                name = opcodes[k].name;
        fresh();
        uint64_t reply = step((uint8_t)op, 0, 0, 0);
        if (name == NULL)
            is("MMIX_NO_ARM, of an opcode without a name", reply, 3);
        else
            holds(name, reply != 3, "it has no arm");
    }
}

/* TRAP 0,Y,Z is a system call where Y is named, and no other TRAP is. */
static void try_traps(void)
{
    for (unsigned y = 0; y < 256; y++) {
        const char *name = NULL;
        for (size_t k = 0; k < COUNT(traps); k++)
            if (traps[k].value == y)
                name = traps[k].name;
        for (unsigned x = 0; x < 256; x++) {
            fresh();
            is(name == NULL ? "TRAP without a name" : name, step(MMIX_OP_TRAP, (uint8_t)x, (uint8_t)y, (uint8_t)(x + y)), x == 0 && name != NULL ? 4 : 20);
        }
    }
}

/* GET reads the register that the image has at that number, which has that name. */
static void try_specials(void)
{
    for (size_t k = 0; k < 32; k++) {
        char name[8] = "r";
        fresh();
        for (uint64_t j = 0; j < 32; j++)
            set_octabyte(image + 2048 + 8 * j, j == 19 ? 200 : 20 + j);
        is(specials[k].name, mmix_step(0, 0, MMIX_OP_GET, 255, 0, (uint8_t)specials[k].value, image, 2336, NULL, 0, NULL, 0), 0);
        is(specials[k].name, octabyte(image + 8 * 255), k == 19 ? 200 : 20 + k);
        holds("mmix_special_name", strcmp(strcat(name, specials[k].name + 6), mmix_special_name((unsigned)k)) == 0, specials[k].name);
    }
    holds("mmix_special_name", strcmp(mmix_special_name(32), "r?") == 0 && strcmp(mmix_special_name(UINT32_MAX), "r?") == 0, "of a number above 31");
}

/* A flag is added to rA, or taken where rA enables it. */
static void try_flags(void)
{
    for (size_t k = 0; k < COUNT(flags); k++) {
        uint8_t flag = (uint8_t)flags[k].value;
        fresh();
        is(flags[k].name, mmix_exceptions(flag, 0x20, 1, 2, 3, 7, 9, image, 2336), 0);
        is(flags[k].name, octabyte(image + 2048 + 8 * 21), 0x80 >> k);
        fresh();
        set_octabyte(image + 2048 + 8 * 21, flags[k].value * 256);
        set_octabyte(image + 2320, 0x1FF);
        is(flags[k].name, mmix_exceptions(flag, 0x20, 1, 2, 3, 7, 9, image, 2336), 0);
        is(flags[k].name, octabyte(image + 2304), 16 * (k + 1));
    }
}

/* A struct with distinct values, encoded; and every length of an image. */
static void try_offsets(void)
{
    for (unsigned k = 0; k < 256; k++)
        s.general[k] = 1000 + k;
    for (unsigned k = 0; k < 32; k++)
        s.special[k] = 2000 + k;
    s.pc = 3000, s.halt = 3001, s.marks = 3002, s.mask = 3003;
    is("MMIX_IMAGE_LEN", mmix_encode(&s, image, MMIX_IMAGE_LEN), 0);
    for (unsigned k = 0; k < 256; k++)
        is("MMIX_AT_GENERAL", octabyte(image + MMIX_AT_GENERAL(k)), 1000 + k);
    for (unsigned k = 0; k < 32; k++)
        is("MMIX_AT_SPECIAL", octabyte(image + MMIX_AT_SPECIAL(k)), 2000 + k);
    is("MMIX_AT_PC", octabyte(image + MMIX_AT_PC), 3000);
    is("MMIX_AT_HALT", octabyte(image + MMIX_AT_HALT), 3001);
    is("MMIX_AT_MARKS", octabyte(image + MMIX_AT_MARKS), 3002);
    is("MMIX_AT_MASK", octabyte(image + MMIX_AT_MASK), 3003);
    for (size_t n = 0; n <= sizeof image; n++)
        is("MMIX_IMAGE_LEN, MMIX_OLD_IMAGE_LEN", mmix_initialize(image, n), n == MMIX_IMAGE_LEN || n == MMIX_OLD_IMAGE_LEN ? 0 : 1);
}

/* Each limit, and one beyond it. */
static void try_limits(void)
{
    for (unsigned k = 0; k < 64; k++) {
        fresh();
        s.mask = UINT64_C(1) << k;
        is("MMIX_HIDEABLE", step(MMIX_OP_SWYM, 0, 0, 0), MMIX_HIDEABLE >> k & 1 ? 0 : 1);
    }
    fresh();
    for (size_t more = 0; more <= 8; more += 8) {
        is("MMIX_WINDOW_MAX, A", mmix_step_lent(0, 0, MMIX_OP_SWYM, 0, 0, 0, &s, large, MMIX_WINDOW_MAX + more, NULL, 0), more == 0 ? 0 : 2);
        is("MMIX_WINDOW_MAX, B", mmix_step_lent(0, 0, MMIX_OP_SWYM, 0, 0, 0, &s, NULL, 0, large, MMIX_WINDOW_MAX + more), more == 0 ? 0 : 2);
    }
    is("MMIX_STACK_START, rO", s.special[10], MMIX_STACK_START);
    is("MMIX_STACK_START, rS", s.special[11], MMIX_STACK_START);
    low[0] = MMIX_OP_JMP;
    set_octabyte(image + 2304, A_AT);
    is("MMIX_GRANT_MAX", run(MMIX_GRANT_MAX), 0);
    is("MMIX_GRANT_MAX, done", out, MMIX_GRANT_MAX);
    is("MMIX_GRANT_MAX, one more", run(MMIX_GRANT_MAX + 1), 25);
    is("MMIX_TASKS_MAX", tasks(MMIX_TASKS_MAX, 1), 0);
    is("MMIX_TASKS_MAX, one more", tasks(MMIX_TASKS_MAX + 1, 1), 33);
    is("MMIX_TURN_MAX", tasks(1, MMIX_TURN_MAX), 0);
    is("MMIX_TURN_MAX, one more", tasks(1, MMIX_TURN_MAX + 1), 33);
    is("MMIX_PAIRS_MAX", put_set(MMIX_PAIRS_MAX), 0);
    is("MMIX_PAIRS_MAX, one more", put_set(MMIX_PAIRS_MAX + 1), 30);
    is("MMIX_POINTS", take(MMIX_POINTS - 1, sizeof store), 0);
    is("MMIX_POINTS, one more", take(MMIX_POINTS, sizeof store), 27);
    is("MMIX_STORE_LEN, one less", take(0, MMIX_STORE_LEN - 1), 26);
    holds("MMIX_ROOM_LEN", memcmp(store + (MMIX_POINTS - 1) * MMIX_ROOM_LEN, image, 2336) == 0, "the last point is elsewhere");
}

/* That a reply is met; and what a host does next says whether the halt code is 1. */
#define MEET(reply, call) (fresh(), is(#reply, call, reply), met[reply] = 1, \
                           is("mmix_reply_next of " #reply ", halt code", s.halt, strstr(mmix_reply_next(reply), "the halt code is 1") != NULL))

/* Every reply is met. */
static void try_replies(void)
{
    static int met[256];
    uint8_t backward;
    uint32_t field;

    MEET(MMIX_DONE, step(MMIX_OP_SWYM, 0, 0, 0));
    MEET(MMIX_NOT_ADMISSIBLE, (s.special[MMIX_RG] = 31, step(MMIX_OP_SWYM, 0, 0, 0)));
    MEET(MMIX_WINDOW_RULE, mmix_step_lent(0, 0, MMIX_OP_SWYM, 0, 0, 0, &s, NULL, 0, stack, 7));
    MEET(MMIX_NO_ARM, step(0xF9, 0, 0, 0));
    MEET(MMIX_NAMED_TRAP, step(MMIX_OP_TRAP, 0, 1, 0));
    MEET(MMIX_NO_SPECIAL, step(MMIX_OP_GET, 255, 0, 32));
    MEET(MMIX_MISSING, step(MMIX_OP_LDOI, 255, 255, 0));
    MEET(MMIX_PUT_UNKNOWN, step(MMIX_OP_PUTI, 32, 0, 1));
    MEET(MMIX_PUT_PRIVILEGED, step(MMIX_OP_PUTI, MMIX_RK, 0, 1));
    MEET(MMIX_PUT_ILLEGAL, step(MMIX_OP_PUTI, MMIX_RS, 0, 1));
    MEET(MMIX_PUT_THRESHOLD, step(MMIX_OP_PUTI, MMIX_RG, 0, 31));
    MEET(MMIX_PUT_STATUS, (s.general[255] = 0x40000, step(MMIX_OP_PUT, MMIX_RA, 0, 255)));
    MEET(MMIX_MISPLACED, (s.special[MMIX_RO] += 4, step(MMIX_OP_POP, 0, 0, 0)));
    MEET(MMIX_SAVE_LOCAL, step(MMIX_OP_SAVE, 31, 0, 0));
    MEET(MMIX_SAVED_THRESHOLD, unsave(UINT64_C(31) << 56, 0));
    MEET(MMIX_SAVED_STATUS, unsave(UINT64_C(32) << 56 | 0x40000, 0));
    MEET(MMIX_SAVED_COUNT, unsave(UINT64_C(32) << 56, 33));
    MEET(MMIX_SYNC_PRIVILEGED, step(MMIX_OP_SYNC, 0, 0, 4));
    MEET(MMIX_SYNC_ILLEGAL, step(MMIX_OP_SYNC, 0, 0, 8));
    MEET(MMIX_NOT_LOADED, step(MMIX_OP_TRIP, 0, 0, 0));
    MEET(MMIX_TRAPPED, step(MMIX_OP_TRAP, 1, 0, 0));
    MEET(MMIX_OUT_OF_REACH, mmix_branch_field(0, 4 * 65536, &backward, &field));
    MEET(MMIX_SHARED, mmix_step_lent(8, 8, MMIX_OP_SWYM, 0, 0, 0, &s, low, 8, stack, 8));
    MEET(MMIX_ACROSS, read_across());
    MEET(MMIX_NOT_FETCHED, run(1));
    MEET(MMIX_GRANT_TOO_LARGE, run(1000001));
    MEET(MMIX_STORE_TOO_SHORT, take(0, sizeof store - 1));
    MEET(MMIX_NO_POINT, go_back(A_AT, 1));
    MEET(MMIX_OTHER_POINT, (take(2, sizeof store), go_back(A_AT + 8, 2)));
    MEET(MMIX_NO_FRAME, step(MMIX_OP_POP, 0, 0, 0));
    MEET(MMIX_TOO_MANY_PAIRS, put_set(33));
    MEET(MMIX_HIDDEN, (s.mask = UINT64_C(1) << MMIX_RK, step(MMIX_OP_GET, 255, 0, MMIX_RK)));
    MEET(MMIX_FOREIGN, reach_out());
    MEET(MMIX_TASKS_RULE, tasks(1, 0));
    for (size_t k = 0; k < COUNT(replies); k++)
        holds(replies[k].reply.name, met[k], "it was not met");
}

int main(int count, char **words)
{
    if (count != 2) {
        printf("header_test LISTING: a listing is needed\n");
        return EXIT_FAILURE;
    }
    try_numbers(opcodes, COUNT(opcodes));
    try_numbers(traps, COUNT(traps));
    try_numbers(specials, COUNT(specials));
    try_numbers(flags, COUNT(flags));
    try_numbers(others, COUNT(others));
    for (size_t k = 0; k < COUNT(replies); k++)
        try_numbers(&replies[k].reply, 1);
    if (failed)
        return EXIT_FAILURE;        /* what follows rests on lengths and limits */
    try_opcodes();
    try_traps();
    try_specials();
    try_flags();
    try_offsets();
    try_limits();
    try_replies();
    try_inline();
    try_start();
    try_texts();
    try_disassembly(words[1]);
    try_points();
    if (failed)
        return EXIT_FAILURE;
    printf("header_test: every name and every inline function is as it should be\n");
    return EXIT_SUCCESS;
}
