/* What a host starts with: the library's version, an image by mmix_initialize_at, and a task whose part of B lies anywhere.
 */
#include <string.h>

#include "header_test.h"

enum { A_AT = 0x1000, A_LEN = 16, PART_LEN = 64 };

/* Header and library were raised together. */
static void try_version(void)
{
    is("mmix_version, MMIX_VERSION_MAJOR, MMIX_VERSION_MINOR", mmix_version(), UINT64_C(65536) * MMIX_VERSION_MAJOR + MMIX_VERSION_MINOR);
}

/* It is mmix_initialize but for rO and rS: at every length, into bytes that differ from what is written, with bytes behind the image. */
static void try_image(uint64_t at)
{
    uint8_t plain[MMIX_IMAGE_LEN + 16], there[sizeof plain];

    for (size_t n = 0; n <= sizeof plain; n++) {
        memset(plain, 0xA5, sizeof plain);
        memset(there, 0xA5, sizeof there);
        uint64_t reply = mmix_initialize(plain, n);
        is("mmix_initialize_at", mmix_initialize_at(there, n, at), reply);
        if (reply == MMIX_DONE) {
            set_octabyte(plain + MMIX_AT_SPECIAL(MMIX_RO), at);
            set_octabyte(plain + MMIX_AT_SPECIAL(MMIX_RS), at);
        }
        holds("mmix_initialize_at", memcmp(there, plain, sizeof there) == 0, "another image than mmix_initialize with rO and rS set");
    }
}

/* A task calls, returns and returns once more: what stops it, and how many instructions it did. Its part starts at that byte of B, its stack at that address. */
static void try_task_beside(const char *what, uint64_t base_a, uint64_t base_b, uint64_t start, uint64_t stack_start, uint64_t refusal, uint64_t count)
{
    static uint8_t a[A_LEN] = { MMIX_OP_PUSHJ, 0, 0, 2, MMIX_OP_POP, 0, 0, 0, MMIX_OP_POP, 0, 0, 0, MMIX_OP_SWYM, 0, 0, 0 };
    uint8_t image[MMIX_IMAGE_LEN], b[2 * PART_LEN] = { 0 };
    uint64_t parts[2] = { start, PART_LEN }, counts[8], refusals[8];

    is(what, mmix_initialize_at(image, sizeof image, stack_start), MMIX_DONE);
    set_octabyte(image + MMIX_AT_PC, base_a);
    is(what, mmix_tasks(base_a, base_b, 1, 10, image, sizeof image, parts, 2, a, sizeof a, b, sizeof b, counts, refusals), MMIX_DONE);
    is(what, refusals[0], refusal);
    is(what, counts[0], count);
}

static void try_task(const char *what, uint64_t base_b, uint64_t start, uint64_t stack_start, uint64_t refusal, uint64_t count)
{
    try_task_beside(what, A_AT, base_b, start, stack_start, refusal, count);
}

void try_start(void)
{
    const uint64_t later = MMIX_STACK_START + PART_LEN, high = UINT64_C(1) << 63;
    static const uint64_t addresses[] = { 0, 8, MMIX_STACK_START, MMIX_STACK_START + 64, UINT64_C(0x0123456789ABCDEF), UINT64_MAX };

    try_version();
    for (size_t k = 0; k < sizeof addresses / sizeof *addresses; k++)
        try_image(addresses[k]);
    try_task("a task's last POP, at the stack's start", MMIX_STACK_START, 0, MMIX_STACK_START, MMIX_NO_FRAME, 2);
    try_task("a task's last POP, in a later part", MMIX_STACK_START, PART_LEN, later, MMIX_FOREIGN, 2);
    try_task("a task's last POP, B begins with the part", later, 0, later, MMIX_MISSING, 2);
    try_task_beside("a task's last POP, A ends there: its two octabytes are taken for frames", later - A_LEN, later, 0, later, MMIX_MISSING, 4);
    try_task("a task's first POP, its stack below the usual start", 0x2000, PART_LEN, 0x2000 + PART_LEN, MMIX_NO_FRAME, 1);
    try_task("a task's first POP, its stack too high", high, PART_LEN, high + PART_LEN, MMIX_MISPLACED, 1);
    try_task("a task's first POP, its stack at no multiple of 8", MMIX_STACK_START, PART_LEN, later + 4, MMIX_MISPLACED, 1);
    try_task("a task's first call, rO outside its part", MMIX_STACK_START, PART_LEN, MMIX_STACK_START, MMIX_FOREIGN, 0);
}
