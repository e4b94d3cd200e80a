/* The inline functions of mmix.h: each is called on one of two copies of the same data, the plain function on the other, and the copies must be the same
 * afterwards. A and B have different contents, bases and lengths, so that two arguments exchanged are noticed.
 */
#include <string.h>

#include "header_test.h"

enum { A_AT = 0x2000, A_LEN = 4104, B_LEN = 3080, TASKS = 2, POINT = 5, CONTEXT_LEN = 8 * (1 + 224 + 12 + 1) };     /* no locals, rG 32 */

/* All that one call may write to. It has no padding. */
struct data {
    struct mmix_state state;
    uint8_t image[MMIX_IMAGE_LEN], images[TASKS * MMIX_IMAGE_LEN], a[A_LEN], b[B_LEN];
    uint64_t reply, done, counts[8], refusals[8];
};

static struct data start, plain, in;
static uint8_t store_plain[MMIX_STORE_LEN + 8], store_in[MMIX_STORE_LEN + 8];
static const uint64_t B_AT = MMIX_STACK_START;
static const struct mmix_windows lent = { A_AT, MMIX_STACK_START, in.a, A_LEN, in.b, B_LEN };

/* $200 and $201 are addresses in A, at its end, and in B. The program stores $203 in B, loads $202 from A and goes round. */
static void set_start(void)
{
    static const uint8_t program[] = { MMIX_OP_STOI, 203, 201, 16, MMIX_OP_LDOI, 202, 200, 24, MMIX_OP_ADDUI, 203, 203, 1,
                                       MMIX_OP_JMPB, 0xFF, 0xFF, 0xFD };

    for (size_t k = 0; k < sizeof start.a; k++)
        start.a[k] = (uint8_t)(3 * k + 1);
    for (size_t k = 0; k < sizeof start.b; k++)
        start.b[k] = (uint8_t)(7 * k + 2);
    memcpy(start.a, program, sizeof program);
    is("mmix_initialize", mmix_initialize(start.image, sizeof start.image), MMIX_DONE);
    is("mmix_decode", mmix_decode(start.image, sizeof start.image, &start.state), MMIX_DONE);
    start.state.general[200] = A_AT + A_LEN - 48;
    start.state.general[201] = B_AT;
    start.state.general[203] = UINT64_C(0x0123456789ABCDEF);
    start.state.pc = A_AT;
    start.state.marks = 0x101;
    start.state.mask = UINT64_C(1) << MMIX_RK;
    for (uint64_t k = 0; k < TASKS; k++) {
        start.state.general[201] = B_AT + 64 * k;
        is("mmix_encode", mmix_encode(&start.state, start.images + k * MMIX_IMAGE_LEN, MMIX_IMAGE_LEN), MMIX_DONE);
    }
    start.state.general[201] = B_AT;
    is("mmix_encode", mmix_encode(&start.state, start.image, sizeof start.image), MMIX_DONE);
}

static void again(void)
{
    plain = in = start;
}

/* Both have done the same. */
static void same(const char *function)
{
    is(function, in.reply, plain.reply);
    is(function, plain.reply, MMIX_DONE);
    holds(function, memcmp(&plain, &in, sizeof in) == 0, "it does something else than the plain function");
}

/* A load from A, a store to B and one to A, a call, a trip. */
static void try_steps(void)
{
    static const uint8_t steps[][4] = {
        { MMIX_OP_LDOI, 202, 200, 24 }, { MMIX_OP_STOI, 203, 201, 16 }, { MMIX_OP_STOI, 203, 200, 40 }, { MMIX_OP_PUSHJ, 3, 1, 2 },
        { MMIX_OP_TRIP, 1, 2, 3 }
    };

    for (size_t k = 0; k < sizeof steps / sizeof *steps; k++) {
        uint8_t op = steps[k][0], x = steps[k][1], y = steps[k][2], z = steps[k][3];
        struct mmix_state *s = &plain.state, *t = &in.state;

        again();
        plain.reply = mmix_step(A_AT, B_AT, op, x, y, z, plain.image, MMIX_IMAGE_LEN, plain.a, A_LEN, plain.b, B_LEN);
        in.reply = mmix_step_in(&lent, op, x, y, z, in.image, MMIX_IMAGE_LEN);
        same("mmix_step_in");
        again();
        plain.reply = mmix_step_lent(A_AT, B_AT, op, x, y, z, s, plain.a, A_LEN, plain.b, B_LEN);
        in.reply = mmix_step_lent_in(&lent, op, x, y, z, t);
        same("mmix_step_lent_in");
        again();
        plain.reply = mmix_step_parts(A_AT, B_AT, op, x, y, z, s->general, s->special, &s->pc, &s->halt, s->marks, s->mask, plain.a, A_LEN,
                                      plain.b, B_LEN);
        in.reply = mmix_step_parts_in(&lent, op, x, y, z, t->general, t->special, &t->pc, &t->halt, t->marks, t->mask);
        same("mmix_step_parts_in");
    }
}

static void try_runs(void)
{
    static const uint64_t parts[] = { 0, 64, 64, 128 };
    struct mmix_state *s = &plain.state, *t = &in.state;

    again();
    plain.reply = mmix_run(A_AT, B_AT, 10, plain.image, MMIX_IMAGE_LEN, plain.a, A_LEN, plain.b, B_LEN, &plain.done);
    in.reply = mmix_run_in(&lent, 10, in.image, MMIX_IMAGE_LEN, &in.done);
    same("mmix_run_in");
    is("mmix_run_in, done", in.done, 10);
    again();
    plain.reply = mmix_run_parts(A_AT, B_AT, 10, s->general, s->special, &s->pc, &s->halt, s->marks, s->mask, plain.a, A_LEN, plain.b, B_LEN,
                                 &plain.done);
    in.reply = mmix_run_parts_in(&lent, 10, t->general, t->special, &t->pc, &t->halt, t->marks, t->mask, &in.done);
    same("mmix_run_parts_in");
    is("mmix_run_parts_in, done", in.done, 10);
    again();
    plain.reply = mmix_tasks(A_AT, B_AT, 3, 10, plain.images, sizeof plain.images, parts, 2 * TASKS, plain.a, A_LEN, plain.b, B_LEN, plain.counts,
                             plain.refusals);
    in.reply = mmix_tasks_in(&lent, 3, 10, in.images, sizeof in.images, parts, 2 * TASKS, in.counts, in.refusals);
    same("mmix_tasks_in");
    is("mmix_tasks_in, instructions of task 0", in.counts[0], 6);
    is("mmix_tasks_in, instructions of task 1", in.counts[1], 4);
}

/* A point taken, all overwritten, and the point gone back to; the store is longer than it need be. */
static void try_stores(void)
{
    again();
    plain.reply = mmix_take(A_AT, B_AT, POINT, plain.image, MMIX_IMAGE_LEN, plain.a, A_LEN, plain.b, B_LEN, store_plain, sizeof store_plain);
    in.reply = mmix_take_in(&lent, POINT, in.image, MMIX_IMAGE_LEN, store_in, sizeof store_in);
    same("mmix_take_in");
    holds("mmix_take_in", memcmp(&start, &in, sizeof in) == 0, "it changes what it keeps");
    holds("mmix_take_in", memcmp(store_plain, store_in, sizeof store_in) == 0, "it keeps something else than mmix_take");
    holds("mmix_take_in", octabyte(store_in + POINT * MMIX_ROOM_LEN + MMIX_IMAGE_LEN + 32) == 1, "no point is taken under that name");

    memset(in.image, 0x55, sizeof in.image);
    memset(in.a, 0x66, sizeof in.a);
    memset(in.b, 0x77, sizeof in.b);
    plain = in;
    plain.reply = mmix_go_back(A_AT, B_AT, POINT, plain.image, MMIX_IMAGE_LEN, plain.a, A_LEN, plain.b, B_LEN, store_plain, sizeof store_plain);
    in.reply = mmix_go_back_in(&lent, POINT, in.image, MMIX_IMAGE_LEN, store_plain, sizeof store_plain);
    same("mmix_go_back_in");
    holds("mmix_go_back_in", memcmp(in.image, start.image, sizeof in.image) == 0 && memcmp(in.a, start.a, A_LEN) == 0
          && memcmp(in.b, start.b, B_LEN) == 0, "it does not give back what was taken");
}

/* A context in A and one in B, each at a place of its own. */
static void try_contexts(void)
{
    for (unsigned in_b = 0; in_b < 2; in_b++) {
        const uint8_t *context = NULL, *window = in_b ? in.b : in.a;
        size_t at = in_b ? 8 : A_LEN - CONTEXT_LEN, length = 0, plain_start, plain_length;
        uint64_t which;

        again();
        in.state.special[MMIX_RO] = in.state.special[MMIX_RS] = (in_b ? B_AT : A_AT) + at;
        is("mmix_context_in, SAVE", mmix_step_lent(A_AT, B_AT, MMIX_OP_SAVE, 255, 0, 0, &in.state, in.a, A_LEN, in.b, B_LEN), MMIX_DONE);
        is("mmix_context", mmix_context(A_AT, B_AT, in.state.general[255], in.a, A_LEN, in.b, B_LEN, &which, &plain_start, &plain_length), MMIX_DONE);
        is("mmix_context, which", which, in_b);
        is("mmix_context_in", mmix_context_in(&lent, in.state.general[255], &context, &length), MMIX_DONE);
        is("mmix_context_in, where", (uintptr_t)context, (uintptr_t)(window + at));
        is("mmix_context_in, start", (uintptr_t)context, (uintptr_t)(window + plain_start));
        is("mmix_context_in, length", length, plain_length);
        is("mmix_context_in, length", length, CONTEXT_LEN);

        is("mmix_context_in, refused", mmix_context_in(&lent, A_AT - 8, &context, &length), MMIX_MISSING);
        holds("mmix_context_in, refused", context == NULL && length == 0, "there is a context all the same");
    }
}

static void try_one_window(void)
{
    struct mmix_windows one = mmix_one_window(0x4000, in.b, 48);

    is("mmix_one_window, base_a", one.base_a, 0);
    is("mmix_one_window, base_b", one.base_b, 0x4000);
    is("mmix_one_window, a_len", one.a_len, 0);
    is("mmix_one_window, b_len", one.b_len, 48);
    holds("mmix_one_window", one.a == NULL && one.b == in.b, "the window is not B");
}

/* An octabyte at every place of an array, and one that has been put there; its neighbours stay. */
static void try_octabytes(void)
{
    static uint8_t bytes[40], should[40];

    for (size_t at = 0; at + 8 <= sizeof bytes; at++) {
        for (size_t k = 0; k < sizeof bytes; k++)
            bytes[k] = should[k] = (uint8_t)(201 * k + 170);
        is("mmix_octabyte", mmix_octabyte(bytes, at), octabyte(bytes + at));
        mmix_set_octabyte(bytes, at, UINT64_C(0xFEDCBA9876543210));
        set_octabyte(should + at, UINT64_C(0xFEDCBA9876543210));
        holds("mmix_set_octabyte", memcmp(bytes, should, sizeof bytes) == 0, "it writes something else, or elsewhere");
        is("mmix_octabyte, put there", mmix_octabyte(bytes, at), UINT64_C(0xFEDCBA9876543210));
    }
    is("mmix_octabyte, rV of a fresh state", mmix_octabyte(start.image, MMIX_AT_SPECIAL(MMIX_RV)), UINT64_C(0x369C200400000000));
}

void try_inline(void)
{
    set_start();
    try_steps();
    try_runs();
    try_stores();
    try_contexts();
    try_one_window();
    try_octabytes();
}
