/* mmix_text.h: the machine in words, for people. Replies and states are here, instructions in mmix_disassemble.h, points in mmix_points.h; this
 * header brings all.
 *
 * Unlike the library, nothing here is proved: it prints what mmix.h names, and no function of the library calls it.
 */
#ifndef MMIX_TEXT_H
#define MMIX_TEXT_H

#include <inttypes.h>
#include <stdio.h>

#include "mmix.h"
#include "mmix_disassemble.h"
#include "mmix_points.h"

/* The sentence of a reply. */
static inline const char *mmix_reply_text(uint64_t reply)
{
    switch (reply) {
    case MMIX_DONE: return "done";
    case MMIX_NOT_ADMISSIBLE: return "the state is not admissible, or the image has the wrong length";
    case MMIX_WINDOW_RULE: return "a window breaks its rule";
    case MMIX_NO_ARM: return "this library does not do that instruction";
    case MMIX_NAMED_TRAP: return "TRAP names a system call, which the host must serve";
    case MMIX_NO_SPECIAL: return "GET of a special register above 31";
    case MMIX_MISSING: return "a needed octabyte lies in neither window";
    case MMIX_PUT_UNKNOWN: return "PUT to a special register above 31";
    case MMIX_PUT_PRIVILEGED: return "PUT to a privileged register";
    case MMIX_PUT_ILLEGAL: return "PUT to rN, rO or rS";
    case MMIX_PUT_THRESHOLD: return "PUT to rG out of range";
    case MMIX_PUT_STATUS: return "PUT to rA out of range";
    case MMIX_MISPLACED: return "POP where rO can hold no frame";
    case MMIX_SAVE_LOCAL: return "SAVE into a register below rG";
    case MMIX_SAVED_THRESHOLD: return "UNSAVE of a context whose rG is out of range";
    case MMIX_SAVED_STATUS: return "UNSAVE of a context whose rA is out of range";
    case MMIX_SAVED_COUNT: return "UNSAVE of a context with more locals than its rG";
    case MMIX_SYNC_PRIVILEGED: return "SYNC 4 to 7 is privileged";
    case MMIX_SYNC_ILLEGAL: return "SYNC above 7";
    case MMIX_NOT_LOADED: return "a trip to a vector that is not loaded";
    case MMIX_TRAPPED: return "TRAP that names no system call";
    case MMIX_OUT_OF_REACH: return "no field of either direction reaches that address";
    case MMIX_SHARED: return "the two windows share an octabyte";
    case MMIX_ACROSS: return "the context lies across both windows";
    case MMIX_NOT_FETCHED: return "the tetra at PC lies in neither window";
    case MMIX_GRANT_TOO_LARGE: return "more than 1,000,000 instructions are granted";
    case MMIX_STORE_TOO_SHORT: return "the store is shorter than sixteen rooms";
    case MMIX_NO_POINT: return "no point is kept under that name";
    case MMIX_OTHER_POINT: return "the point has other bases or lengths, or no admissible state";
    case MMIX_NO_FRAME: return "POP where no frame is left";
    case MMIX_TOO_MANY_PAIRS: return "a set of more than 32 pairs";
    case MMIX_HIDDEN: return "GET or PUT of a register that the mask hides";
    case MMIX_FOREIGN: return "an octabyte of B outside the task's own part";
    case MMIX_TASKS_RULE: return "tasks, their parts or their turns break a rule";
    default: return "no reply of this version";
    }
}

/* What a host does next. Where the halt code has become 1, it says so. */
static inline const char *mmix_reply_next(uint64_t reply)
{
    switch (reply) {
    case MMIX_DONE: return "go on";
    case MMIX_NOT_ADMISSIBLE: return "mend rG, rL, rA, the marks or the mask, or give an image of 2,336 or 2,328 bytes, and ask again";
    case MMIX_WINDOW_RULE: return "lend windows of at most 1,048,576 bytes, whose lengths and bases are multiples of 8, and ask again";
    case MMIX_NO_ARM: return "do the instruction at PC yourself and move PC to @ + 4, or report it";
    case MMIX_NAMED_TRAP: return "Y 0 is Halt: the program has ended; any other: serve it, write $255 and move PC to @ + 4";
    case MMIX_NO_SPECIAL: return "report the program's fault at PC";
    case MMIX_MISSING: return "lend a window that has the octabyte and ask again, or report a bad address";
    case MMIX_PUT_UNKNOWN: case MMIX_PUT_PRIVILEGED: case MMIX_PUT_ILLEGAL: case MMIX_PUT_THRESHOLD: case MMIX_PUT_STATUS:
        return "report the program's fault at PC, of a set the pair's place; the halt code is 1. A host writes such a register in the image";
    case MMIX_MISPLACED: return "report the program's fault at PC: rO has been moved; the halt code is 1";
    case MMIX_SAVE_LOCAL: return "report the program's fault at PC: SAVE takes a global register; the halt code is 1";
    case MMIX_SAVED_THRESHOLD: case MMIX_SAVED_STATUS: case MMIX_SAVED_COUNT:
        return "report it: no context is there, or it has been written over; the halt code is 1 after UNSAVE";
    case MMIX_SYNC_PRIVILEGED: case MMIX_SYNC_ILLEGAL: return "report the program's fault at PC; the halt code is 1";
    case MMIX_NOT_LOADED: return "report the trip, or pass over it: $255 as in rB, PC as in rW; the halt code is 1, and rX has the instruction";
    case MMIX_TRAPPED: return "report the trap, or pass over it: $255 as in rBB, PC as in rWW; the halt code is 1, and rXX has the instruction";
    case MMIX_OUT_OF_REACH: return "place the code nearer, or go there by GO or PUSHGO";
    case MMIX_SHARED: return "lend windows that are apart, and ask again";
    case MMIX_ACROSS: return "lend one window that has the whole context, and ask again";
    case MMIX_NOT_FETCHED: return "lend a window that has the tetra at PC and run on, or report a jump to nowhere";
    case MMIX_GRANT_TOO_LARGE: return "grant at most 1,000,000, and more in the next call";
    case MMIX_STORE_TOO_SHORT: return "lend a store of 33,592,448 bytes, and ask again";
    case MMIX_NO_POINT: return "take a point under that name first; names are 0 to 15";
    case MMIX_OTHER_POINT: return "lend windows with the bases and lengths at which the point was taken, and ask again";
    case MMIX_NO_FRAME: return "the outermost routine has returned: end the program, or report it; the halt code is 1";
    case MMIX_TOO_MANY_PAIRS: return "put at most 32 pairs a call";
    case MMIX_HIDDEN: return "report the program's fault at PC, or take the register out of the mask; the halt code is 1";
    case MMIX_FOREIGN: return "report the task, or give it a part that has the octabyte; its rO must lie in its part";
    case MMIX_TASKS_RULE: return "give 1 to 8 tasks, turns of 1 to 1,000, and parts that are apart, inside B and of whole octabytes";
    default: return "look for a newer mmix_text.h";
    }
}

/* PC, halt code, marks and mask in a line, then each special register and each general one that is not 0, four in a line. */
static inline void mmix_print_state(FILE *out, const struct mmix_state *state)
{
    unsigned printed = 0;

    fprintf(out, "PC %" PRIx64 "  halt code %" PRIu64 "  marks %03" PRIx64 "  mask %08" PRIx64, state->pc, state->halt, state->marks,
            state->mask);
    for (unsigned k = 0; k < 32; k++)
        if (state->special[k] != 0)
            fprintf(out, "%s%3s %016" PRIx64, printed++ % 4 == 0 ? "\n  " : "  ", mmix_special_name(k), state->special[k]);
    printed = 0;
    for (unsigned k = 0; k < 256; k++)
        if (state->general[k] != 0)
            fprintf(out, "%s$%-3u %016" PRIx64, printed++ % 4 == 0 ? "\n  " : "  ", k, state->general[k]);
    fputc('\n', out);
}

#endif
