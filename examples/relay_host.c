/* A relay host. It keeps the direction of feed in a local of the caller, calls the feed routine some levels deep, parks the
 * whole context while a case is worked, comes back, and shows that the direction is as it was. Its curves and texts live low
 * in memory, in window A, and the calls' stack in window B. It loads a study's registers in one call, hides the kernel's from
 * it, takes a point, tries an alternative and returns to it, and runs eight studies by turns while its own context is parked. On the way it
 * meets what a host meets: a curve kept in A, a trip, a system call to serve, a halt, a jump to patch, a window too small, windows that share,
 * steps in place.
 *
 *     make host
 */
#include <inttypes.h>
#include <stdio.h>
#include <stdlib.h>
#include <string.h>

#include "mmix.h"
#include "mmix_text.h"

enum { LOW_LEN = 2048, STACK_LEN = 8192, CURVE_AT = 0x400, MESSAGE_AT = 0x500, DEPTH = 5 };   /* A starts at address 0 */

static const uint64_t FORWARD = 0xF0;   /* direction markers: feed forward, feed reversed */
static const uint64_t REVERSED = 0x0F;

static uint8_t image[MMIX_IMAGE_LEN];
static uint8_t low[LOW_LEN], stack[STACK_LEN];
static uint8_t store[MMIX_STORE_LEN];   /* of zeros: no point is taken */
static const struct mmix_windows lent = { 0, MMIX_STACK_START, low, LOW_LEN, stack, STACK_LEN };

/* The octabyte that starts at a byte of the image. */
static uint64_t octabyte(size_t at)
{
    return mmix_octabyte(image, at);
}

static void set_octabyte(size_t at, uint64_t value)
{
    mmix_set_octabyte(image, at, value);
}

static uint64_t general(size_t k)
{
    return octabyte(MMIX_AT_GENERAL(k));
}

static uint64_t special(enum mmix_special which)
{
    return octabyte(MMIX_AT_SPECIAL((size_t)which));
}

static void show(const char *what, uint64_t reply)
{
    printf("%-28s reply %2" PRIu64 "  rO %016" PRIx64 "  rL %2" PRIu64 "  $0 %02" PRIx64 "\n", what, reply, special(MMIX_RO),
           special(MMIX_RL), general(0));
}

/* Says why the host ends, and ends. */
static void end(const char *why)
{
    printf("relay_host ends: %s\n", why);
    exit(EXIT_FAILURE);
}

static uint64_t ask(uint8_t op, uint8_t x, uint8_t y, uint8_t z)
{
    return mmix_step_in(&lent, op, x, y, z, image, sizeof image);
}

/* One step that has to be done. */
static void step(const char *what, uint8_t op, uint8_t x, uint8_t y, uint8_t z)
{
    uint64_t reply = ask(op, x, y, z);
    show(what, reply);
    if (reply != MMIX_DONE)
        end(mmix_reply_text(reply));
}

/* One call that has to be refused by a number. */
static void refused(const char *what, uint64_t reply, uint64_t expected)
{
    show(what, reply);
    printf("%-28s %s\n", "", mmix_reply_text(reply));
    if (reply != expected)
        end("that is another reply than expected");
}

/* One set of special registers: numbers, each with its value behind it, as bytes. */
static uint64_t put_set(const uint64_t *numbers, size_t count, uint64_t *place)
{
    uint8_t pairs[16 * MMIX_PAIRS_MAX];

    for (size_t k = 0; k < count; k++)
        mmix_set_octabyte(pairs, 8 * k, numbers[k]);
    return mmix_put_set(image, sizeof image, pairs, 8 * count, place);
}

/* A study's registers, all or none: a wrong one, of which nothing is loaded, and the right one. */
static void load_a_study(void)
{
    static const uint64_t wrong[] = { MMIX_RA, MMIX_FLAG_V * 256, MMIX_RM, 0xFF, MMIX_RG, 300 };
    static const uint64_t study[] = { MMIX_RL, 0, MMIX_RG, 48, MMIX_RA, MMIX_FLAG_V * 256, MMIX_RM, 0xFF };
    uint64_t place;

    refused("a study with rG 300", put_set(wrong, sizeof wrong / sizeof *wrong, &place), MMIX_PUT_THRESHOLD);
    printf("%-28s %" PRIu64 ", halt code %" PRIu64 ", rA %" PRIx64 "\n", "the failing pair's place", place,
           octabyte(MMIX_AT_HALT), special(MMIX_RA));
    if (special(MMIX_RA) != 0 || special(MMIX_RM) != 0)
        end("half a study is loaded");
    set_octabyte(MMIX_AT_HALT, 0);

    uint64_t reply = put_set(study, sizeof study / sizeof *study, &place);
    if (reply != MMIX_DONE)
        end(mmix_reply_text(reply));
    printf("%-28s reply %2" PRIu64 "  rG %" PRIu64 "  rL %" PRIu64 "  rA %" PRIx64 "  rM %" PRIx64 "\n", "the study in one call",
           reply, special(MMIX_RG), special(MMIX_RL), special(MMIX_RA), special(MMIX_RM));
}

/* From here on the study does not see the kernel's registers: a GET is refused and tells nothing of what it asked for. */
static void hide_the_kernel(void)
{
    set_octabyte(MMIX_AT_MASK, MMIX_HIDEABLE);
    refused("GET $254,rK: hidden", ask(MMIX_OP_GET, 254, 0, MMIX_RK), MMIX_HIDDEN);
    if (general(254) != 0)
        end("a hidden register is SEEN");
    set_octabyte(MMIX_AT_HALT, 0);
}

/* Ends unless every register is as it was. */
static void as_before(const uint8_t before[MMIX_IMAGE_LEN])
{
    for (unsigned k = 0; k < 256; k++)
        if (memcmp(before + MMIX_AT_GENERAL(k), image + MMIX_AT_GENERAL(k), 8) != 0)
            end("a general register is not as it was");
    for (unsigned k = 0; k < 32; k++)
        if (memcmp(before + MMIX_AT_SPECIAL(k), image + MMIX_AT_SPECIAL(k), 8) != 0)
            end(mmix_special_name(k));
    printf("%-28s all 256 general and 32 special ones\n", "registers as before");
}

/* Parks the context at the top of the stack in $255, works another case, and takes the context up again. */
static void work_another_case(void)
{
    const struct mmix_windows halves = { MMIX_STACK_START, MMIX_STACK_START + 1024, stack, 1024, stack + 1024, STACK_LEN - 1024 };
    uint8_t before[MMIX_IMAGE_LEN];
    const uint8_t *context;
    size_t length;

    memcpy(before, image, sizeof image);
    step("SAVE $255: park", MMIX_OP_SAVE, 255, 0, 0);
    uint64_t reply = mmix_context_in(&lent, general(255), &context, &length);
    if (reply != MMIX_DONE)
        end(mmix_reply_text(reply));
    size_t start = (size_t)(context - stack);       /* the stack is in B, and so is what SAVE puts there */
    printf("%-28s reply %2" PRIu64 "  window B, bytes %zu to %zu\n", "the parked context", reply, start, start + length);
    refused("read in two windows", mmix_context_in(&halves, general(255), &context, &length), MMIX_ACROSS);

    step("the other case: GETA $0", MMIX_OP_GETA, 0, 0x40, 0);
    step("the other case: PUSHJ $1", MMIX_OP_PUSHJ, 1, 0, 8);
    step("the other case: POP", MMIX_OP_POP, 0, 0, 0);

    step("UNSAVE $255: take up", MMIX_OP_UNSAVE, 0, 0, 255);
    as_before(before);
}

/* A margin of a relay's curve, kept in A as a tetra and read back with its sign; and a seventh of it. */
static void keep_a_margin(void)
{
    set_octabyte(MMIX_AT_GENERAL(253), CURVE_AT);
    set_octabyte(MMIX_AT_GENERAL(254), (uint64_t)-40);
    step("STT $254,$253,4: a margin", MMIX_OP_STTI, 254, 253, 4);
    step("LDT $252,$253,4: read back", MMIX_OP_LDTI, 252, 253, 4);
    printf("%-28s %" PRId64 ", bytes", "the margin", (int64_t)general(252));
    for (size_t k = 4; k < 8; k++)
        printf(" %02x", low[CURVE_AT + k]);
    printf("\n");
    if (general(252) != general(254))
        end("the margin is CHANGED");
    step("DIV $251,$252,7: a seventh", MMIX_OP_DIVI, 251, 252, 7);
    printf("%-28s %" PRId64 ", remainder %" PRId64 "\n", "rounded down", (int64_t)general(251), (int64_t)special(MMIX_RR));
}

/* What if the margin were 40 wider? The point is taken, the alternative is tried with a call more, and the host returns: state,
 * curve and stack are as they were. Protection of a frame starts anew with the calls that follow the return. */
static void try_an_alternative(void)
{
    enum { BEFORE = 3 };                    /* the point's name */
    uint8_t image_before[MMIX_IMAGE_LEN], low_before[LOW_LEN], stack_before[STACK_LEN];

    memcpy(image_before, image, sizeof image);
    memcpy(low_before, low, sizeof low);
    memcpy(stack_before, stack, sizeof stack);
    refused("back to a point not taken", mmix_go_back_in(&lent, BEFORE, image, sizeof image, store, sizeof store),
            MMIX_NO_POINT);
    uint64_t reply = mmix_take_in(&lent, BEFORE, image, sizeof image, store, sizeof store);
    show("take point 3", reply);
    if (reply != MMIX_DONE)
        end(mmix_reply_text(reply));

    step("PUSHJ $1: an alternative", MMIX_OP_PUSHJ, 1, 0, 16);
    set_octabyte(MMIX_AT_GENERAL(254), (uint64_t)-80);
    step("STT $254,$253,4: wider", MMIX_OP_STTI, 254, 253, 4);
    step("LDT $252,$253,4: read back", MMIX_OP_LDTI, 252, 253, 4);
    printf("%-28s %" PRId64 "\n", "the margin", (int64_t)general(252));

    struct mmix_windows shorter = lent;
    shorter.a_len -= 8;
    refused("back with A shorter", mmix_go_back_in(&shorter, BEFORE, image, sizeof image, store, sizeof store),
            MMIX_OTHER_POINT);
    reply = mmix_go_back_in(&lent, BEFORE, image, sizeof image, store, sizeof store);
    show("back to point 3", reply);
    if (reply != MMIX_DONE)
        end(mmix_reply_text(reply));
    if (memcmp(image_before, image, sizeof image) != 0 || memcmp(low_before, low, sizeof low) != 0
        || memcmp(stack_before, stack, sizeof stack) != 0)
        end("the point is CHANGED");
    printf("%-28s %" PRId64 "\n", "the margin", (int64_t)general(252));
}

/* Integer overflow, which the study enables in rA: a trip through the vector at 32. There is no RESUME, so the host goes back itself. */
static void take_a_trip(void)
{
    set_octabyte(MMIX_AT_MARKS, 0x1FF);
    uint64_t at_255 = general(255);
    uint64_t reply = mmix_exceptions(MMIX_FLAG_V | MMIX_FLAG_X, 0x20, 1, 2, 3, 7, 9, image, sizeof image);
    if (reply != MMIX_DONE)
        end(mmix_reply_text(reply));
    printf("%-28s reply %2" PRIu64 "  PC %" PRIx64 "  rW %" PRIx64 "  rX %" PRIx64 "  rA %" PRIx64 "\n", "overflow: a trip",
           reply, octabyte(MMIX_AT_PC), special(MMIX_RW), special(MMIX_RX), special(MMIX_RA));

    set_octabyte(MMIX_AT_GENERAL(255), at_255);
    set_octabyte(MMIX_AT_PC, special(MMIX_RW));
}

/* TRAP 0,Fputs,1 writes the bytes from address $255 on up to a zero one. The step changes nothing; the host does the call,
 * writes how many there were into $255 and moves PC. */
static void serve_a_call(void)
{
    static const char message[] = "served: feed held";

    memcpy(low + MESSAGE_AT, message, sizeof message);
    set_octabyte(MMIX_AT_GENERAL(255), MESSAGE_AT);
    refused("TRAP 0,Fputs,1", ask(MMIX_OP_TRAP, 0, MMIX_TRAP_FPUTS, 1), MMIX_NAMED_TRAP);

    uint64_t from = general(255);
    const char *zero = from < sizeof low ? memchr(low + from, 0, sizeof low - from) : NULL;
    if (zero == NULL)
        end("the text of Fputs is not in window A");
    printf("%-28s %s\n", "", (const char *)low + from);
    set_octabyte(MMIX_AT_GENERAL(255), (uint64_t)(zero - (const char *)(low + from)));
    set_octabyte(MMIX_AT_PC, octabyte(MMIX_AT_PC) + 4);
}

/* A PUT that is refused sets the halt code; a host that would not look at it could go on stepping. */
static void look_at_a_halt(void)
{
    refused("PUT rO, 1", ask(MMIX_OP_PUTI, MMIX_RO, 0, 1), MMIX_PUT_ILLEGAL);
    printf("%-28s %" PRIu64 ", PC %" PRIx64 "\n", "halt code", octabyte(MMIX_AT_HALT), octabyte(MMIX_AT_PC));
    step("SWYM: done all the same", MMIX_OP_SWYM, 0, 0, 0);
    set_octabyte(MMIX_AT_HALT, 0);
}

/* The patch desk: the jump at PC is to go ten instructions back. No branch reaches what lies 65,536 tetras ahead. */
static void patch_a_jump(void)
{
    uint64_t from = octabyte(MMIX_AT_PC), to = from - 40;
    uint8_t backward;
    uint32_t field;

    uint64_t reply = mmix_jump_field(from, to, &backward, &field);
    if (reply != MMIX_DONE)
        end(mmix_reply_text(reply));
    printf("%-28s from %" PRIx64 " to %" PRIx64 ": backward %u, field %06" PRIx32 "\n", "a jump to patch", from, to,
           (unsigned)backward, field);
    step("JMPB: patched", (uint8_t)(MMIX_OP_JMP + backward), (uint8_t)(field >> 16), (uint8_t)(field >> 8), (uint8_t)field);
    if (octabyte(MMIX_AT_PC) != to)
        end("the jump goes elsewhere");
    refused("a branch to patch", mmix_branch_field(to, to + 4 * UINT64_C(65536), &backward, &field), MMIX_OUT_OF_REACH);
}

/* Eight studies on one machine: the program, in A, sums the margins 1 to $0 of a study by a routine that calls itself, and each study has its
 * calls' stack in a part at the end of B. One study goes too deep and asks for its neighbour's part: it is stopped, and the others are not touched. */
enum { STUDIES = MMIX_TASKS_MAX, PROGRAM_AT = 0x600, PART_LEN = 256, STUDIES_AT = STACK_LEN - STUDIES * PART_LEN, TURN = 5, GRANT = 1000 };

static const uint64_t margins[STUDIES] = { 1, 2, 3, 30, 5, 6, 7, 8 };
static uint8_t studies[STUDIES * MMIX_IMAGE_LEN];
static uint64_t parts[2 * STUDIES], counts[STUDIES], refusals[STUDIES];

static void load_eight_studies(void)
{
    static const uint8_t program[] = {
        MMIX_OP_ADDUI, 2, 0, 0,            /* 600: the routine's argument */
        MMIX_OP_PUSHJ, 1, 0, 2,            /* 604: $0 is kept below the hole */
        MMIX_OP_TRAP, 0, MMIX_TRAP_HALT, 0,  /* 608: the host's */
        MMIX_OP_BZ, 0, 0, 6,               /* 60c: the sum up to 0 is 0 */
        MMIX_OP_GET, 1, 0, MMIX_RJ,
        MMIX_OP_SUBUI, 3, 0, 1,
        MMIX_OP_PUSHJB, 2, 0xFF, 0xFD,     /* 618: the sum up to $0 - 1 */
        MMIX_OP_PUT, MMIX_RJ, 0, 1,
        MMIX_OP_ADDU, 0, 0, 2,
        MMIX_OP_POP, 1, 0, 0               /* 624 */
    };
    struct mmix_state study;

    memcpy(low + PROGRAM_AT, program, sizeof program);
    for (size_t k = 0; k < STUDIES; k++) {
        uint8_t *at = studies + k * MMIX_IMAGE_LEN;
        parts[2 * k] = STUDIES_AT + k * PART_LEN;
        parts[2 * k + 1] = PART_LEN;
        if (mmix_initialize_at(at, MMIX_IMAGE_LEN, MMIX_STACK_START + parts[2 * k]) != MMIX_DONE
            || mmix_decode(at, MMIX_IMAGE_LEN, &study) != MMIX_DONE)
            end("no image of a study");
        study.general[0] = margins[k];
        study.special[MMIX_RL] = 1;
        study.pc = PROGRAM_AT;
        if (mmix_encode(&study, at, MMIX_IMAGE_LEN) != MMIX_DONE)
            end("no image of a study");
    }
}

static uint64_t run_eight_studies(void)
{
    return mmix_tasks_in(&lent, TURN, GRANT, studies, sizeof studies, parts, 2 * STUDIES, counts, refusals);
}

static void show_eight_studies(void)
{
    struct mmix_state study;
    uint64_t total = 0;

    for (size_t k = 0; k < STUDIES; k++) {
        if (mmix_decode(studies + k * MMIX_IMAGE_LEN, MMIX_IMAGE_LEN, &study) != MMIX_DONE)
            end("no study in an image");
        printf("study %zu, margins 1 to %-2" PRIu64 "      done %3" PRIu64 "  stopped by %2" PRIu64 "  sum %2" PRIu64 "  $0 %2" PRIu64 "\n", k, margins[k],
               counts[k], refusals[k], refusals[k] == MMIX_NAMED_TRAP ? study.general[1] : 0, study.general[0]);
        total += counts[k];
        if (refusals[k] == MMIX_NAMED_TRAP && study.general[1] != margins[k] * (margins[k] + 1) / 2)
            end("a sum is wrong");
    }
    printf("%-28s %s\n", "study 3", mmix_reply_text(refusals[3]));
    printf("%-28s %" PRIu64 " instructions, %d a turn\n", "eight studies", total, TURN);
    if (refusals[3] != MMIX_FOREIGN)
        end("a study reached into another's part");
}

/* Parks the context while eight studies run in the rest of B: none of them needs an octabyte of it, so it is taken up again as it was. All is loaded
 * before SAVE: between SAVE and UNSAVE the library alone writes the windows. */
static void park_during_studies(void)
{
    uint8_t before[MMIX_IMAGE_LEN];

    load_eight_studies();
    memcpy(before, image, sizeof image);
    step("SAVE $255: park", MMIX_OP_SAVE, 255, 0, 0);
    uint64_t parked = special(MMIX_RO) - MMIX_STACK_START;
    printf("%-28s window B, bytes 0 to %" PRIu64 "\n", "parked while studies run", parked);
    if (parked > STUDIES_AT)
        end("the parked context lies in a study's part");
    parts[1] += 8;
    refused("eight studies, parts overlap", run_eight_studies(), MMIX_TASKS_RULE);
    parts[1] -= 8;
    uint64_t reply = run_eight_studies();
    if (reply != MMIX_DONE)
        end(mmix_reply_text(reply));
    step("UNSAVE $255: take up", MMIX_OP_UNSAVE, 0, 0, 255);
    as_before(before);
    show_eight_studies();
}

/* Calls and returns on numbers of the host: the struct lent whole, then its parts. */
static void step_in_place(void)
{
    struct mmix_state state;

    if (mmix_decode(image, sizeof image, &state) != MMIX_DONE)
        end("no state in an image");
    uint64_t called = mmix_step_lent_in(&lent, MMIX_OP_PUSHJ, 1, 0, 16, &state);
    uint64_t back = mmix_step_parts_in(&lent, MMIX_OP_POP, 0, 0, 0, state.general, state.special, &state.pc, &state.halt,
                                       state.marks, state.mask);
    uint64_t raised = mmix_exceptions_parts(MMIX_FLAG_X, 0x04, 1, 2, 3, 7, 9, state.general, state.special, &state.pc,
                                            &state.halt, state.marks, state.mask);
    printf("%-28s replies %" PRIu64 ", %" PRIu64 ", %" PRIu64 "; the state then:\n", "PUSHJ, POP, inexact in place", called,
           back, raised);
    if (called != MMIX_DONE || back != MMIX_DONE || raised != MMIX_DONE)
        end("a step in place was refused");
    mmix_print_state(stdout, &state);
    if (mmix_encode(&state, image, sizeof image) != MMIX_DONE)
        end("no image of a state");
    show("back in the image", MMIX_DONE);
}

int main(void)
{
    if (mmix_initialize(image, sizeof image) != MMIX_DONE)
        end("the image has the wrong length");
    show("fresh state", MMIX_DONE);
    load_a_study();
    hide_the_kernel();

    /* the caller's direction marker is in its $0, the argument of each call in $1 */
    step("PUT rL, 2: no more than rL", MMIX_OP_PUTI, MMIX_RL, 0, 2);
    step("GETA $1: two locals", MMIX_OP_GETA, 1, 0, 4);
    set_octabyte(MMIX_AT_GENERAL(0), REVERSED);
    show("the marker is set", MMIX_DONE);

    for (int level = 1; level <= DEPTH; level++) {
        step("PUSHJ $1", MMIX_OP_PUSHJ, 1, 0, 16);
        step("GETA $1: its locals", MMIX_OP_GETA, 1, 0, 4);
        set_octabyte(MMIX_AT_GENERAL(0), FORWARD);
    }
    work_another_case();
    keep_a_margin();
    try_an_alternative();
    take_a_trip();
    serve_a_call();
    look_at_a_halt();
    patch_a_jump();
    for (int level = DEPTH; level >= 1; level--)
        step("POP", MMIX_OP_POP, 0, 0, 0);
    step_in_place();
    park_during_studies();

    /* what a host meets when it asks for what is not there */
    struct mmix_windows small = mmix_one_window(MMIX_STACK_START, stack, 8), sharing = lent;
    sharing.base_a = MMIX_STACK_START + STACK_LEN - 8;
    refused("PUSHJ $1, window too small", mmix_step_in(&small, MMIX_OP_PUSHJ, 1, 0, 16, image, sizeof image), MMIX_MISSING);
    refused("PUSHJ $1, windows that share", mmix_step_in(&sharing, MMIX_OP_PUSHJ, 1, 0, 16, image, sizeof image), MMIX_SHARED);
    refused("an image cut short", mmix_step_in(&lent, MMIX_OP_TRIP, 0, 0, 0, image, sizeof image - 1), MMIX_NOT_ADMISSIBLE);

    if (general(0) != REVERSED || special(MMIX_RO) != MMIX_STACK_START)
        end("the direction marker is CHANGED");
    printf("relay_host ends: all done, direction marker intact\n");
    return EXIT_SUCCESS;
}
