/* Takes three points of a small program's run, and prints each as a line: what examples/points/first.points has.
 *
 *     take_points > examples/points/first.points      make points-test compares the two
 *
 * The program calls a routine, which answers 42, and halts. Point 0 is taken before it starts, with no window lent; f inside the routine, with the program in
 * A and its frame in B; 9 after the halt and a call more by the host itself, with three octabytes of stack.
 */
#include <stdio.h>
#include <stdlib.h>

#include "mmix.h"
#include "mmix_points.h"
#include "mmix_text.h"

enum { PROGRAM_AT = 0x1000 };

static uint8_t program[] = {
    MMIX_OP_PUSHJ, 0, 0, 2,                     /* 1000: the frame is the hole's number alone */
    MMIX_OP_TRAP, 0, MMIX_TRAP_HALT, 0,
    MMIX_OP_NEGUI, 0, 42, 0,                    /* 1008: the routine */
    MMIX_OP_POP, 1, 0, 0
};
static uint8_t image[MMIX_IMAGE_LEN], stack[24], store[MMIX_STORE_LEN];

/* Ends unless the reply is the one that is expected. */
static void expect(const char *what, uint64_t reply, uint64_t expected)
{
    if (reply == expected)
        return;
    fprintf(stderr, "take_points: %s: %s\n", what, mmix_reply_text(reply));
    exit(EXIT_FAILURE);
}

static void take(uint64_t name, const struct mmix_windows *lent)
{
    expect("a point", mmix_take_in(lent, name, image, sizeof image, store, sizeof store), MMIX_DONE);
    if (mmix_print_point(stdout, name, store + name * MMIX_ROOM_LEN, MMIX_ROOM_LEN) != MMIX_LINE_DONE)
        expect("a line", MMIX_NO_POINT, MMIX_DONE);
}

int main(void)
{
    const struct mmix_windows none = mmix_one_window(0, NULL, 0), after = mmix_one_window(MMIX_STACK_START, stack, sizeof stack);
    const struct mmix_windows lent = { PROGRAM_AT, MMIX_STACK_START, program, sizeof program, stack, 8 };
    uint64_t done;

    expect("a fresh state", mmix_initialize(image, sizeof image), MMIX_DONE);
    mmix_set_octabyte(image, MMIX_AT_PC, PROGRAM_AT);
    take(0, &none);
    expect("the call", mmix_run_in(&lent, 2, image, sizeof image, &done), MMIX_DONE);
    take(15, &lent);
    expect("the halt", mmix_run_in(&lent, 10, image, sizeof image, &done), MMIX_NAMED_TRAP);
    expect("one more call", mmix_step_in(&after, MMIX_OP_PUSHJ, 2, 0, 2, image, sizeof image), MMIX_DONE);
    take(9, &after);
    return fflush(stdout) == 0 ? EXIT_SUCCESS : EXIT_FAILURE;
}
