/* The names of the headers, each with its number; the replies with their sentences too. For header_test.c and its parts. */
#ifndef HEADER_NUMBERS_H
#define HEADER_NUMBERS_H

#include "mmix.h"
#include "mmix_text.h"

struct named {
    const char *name;
    uint64_t value, number;     /* what the header says, and what it should say */
};

#define NAMED(name, number) { #name, name, number }
#define COUNT(table) (sizeof (table) / sizeof *(table))

/* The opcodes, which examples/header_opcodes prints. */
static const struct named opcodes[] = {
#include "header_opcodes.h"
};

/* The system calls. */
static const struct named traps[] = {
    NAMED(MMIX_TRAP_HALT, 0), NAMED(MMIX_TRAP_FOPEN, 1), NAMED(MMIX_TRAP_FCLOSE, 2), NAMED(MMIX_TRAP_FREAD, 3), NAMED(MMIX_TRAP_FGETS, 4),
    NAMED(MMIX_TRAP_FGETWS, 5), NAMED(MMIX_TRAP_FWRITE, 6), NAMED(MMIX_TRAP_FPUTS, 7), NAMED(MMIX_TRAP_FPUTWS, 8), NAMED(MMIX_TRAP_FSEEK, 9),
    NAMED(MMIX_TRAP_FTELL, 10), NAMED(MMIX_TRAP_FPUTC, 0x80), NAMED(MMIX_TRAP_TIME, 0x81), NAMED(MMIX_TRAP_DEBUG, 0x82)
};

static const struct named specials[] = {
    NAMED(MMIX_RB, 0), NAMED(MMIX_RD, 1), NAMED(MMIX_RE, 2), NAMED(MMIX_RH, 3), NAMED(MMIX_RJ, 4), NAMED(MMIX_RM, 5),
    NAMED(MMIX_RR, 6), NAMED(MMIX_RBB, 7), NAMED(MMIX_RC, 8), NAMED(MMIX_RN, 9), NAMED(MMIX_RO, 10), NAMED(MMIX_RS, 11),
    NAMED(MMIX_RI, 12), NAMED(MMIX_RT, 13), NAMED(MMIX_RTT, 14), NAMED(MMIX_RK, 15), NAMED(MMIX_RQ, 16), NAMED(MMIX_RU, 17),
    NAMED(MMIX_RV, 18), NAMED(MMIX_RG, 19), NAMED(MMIX_RL, 20), NAMED(MMIX_RA, 21), NAMED(MMIX_RF, 22), NAMED(MMIX_RP, 23),
    NAMED(MMIX_RW, 24), NAMED(MMIX_RX, 25), NAMED(MMIX_RY, 26), NAMED(MMIX_RZ, 27), NAMED(MMIX_RWW, 28), NAMED(MMIX_RXX, 29),
    NAMED(MMIX_RYY, 30), NAMED(MMIX_RZZ, 31)
};

/* From left to right: the vector of number k is at address 16 * (k + 1). */
static const struct named flags[] = {
    NAMED(MMIX_FLAG_D, 0x80), NAMED(MMIX_FLAG_V, 0x40), NAMED(MMIX_FLAG_W, 0x20), NAMED(MMIX_FLAG_I, 0x10),
    NAMED(MMIX_FLAG_O, 0x08), NAMED(MMIX_FLAG_U, 0x04), NAMED(MMIX_FLAG_Z, 0x02), NAMED(MMIX_FLAG_X, 0x01)
};

static const struct named others[] = {
    NAMED(MMIX_VERSION_MAJOR, 6), NAMED(MMIX_VERSION_MINOR, 1), NAMED(MMIX_IMAGE_LEN, 2336), NAMED(MMIX_OLD_IMAGE_LEN, 2328),
    NAMED(MMIX_AT_GENERAL(255), 2040), NAMED(MMIX_AT_SPECIAL(31), 2296), NAMED(MMIX_AT_PC, 2304), NAMED(MMIX_AT_HALT, 2312),
    NAMED(MMIX_AT_MARKS, 2320), NAMED(MMIX_AT_MASK, 2328), NAMED(MMIX_HIDEABLE, 0xF047F380), NAMED(MMIX_WINDOW_MAX, 1048576),
    NAMED(MMIX_POINTS, 16), NAMED(MMIX_ROOM_LEN, 2099528), NAMED(MMIX_STORE_LEN, 33592448), NAMED(MMIX_GRANT_MAX, 1000000),
    NAMED(MMIX_TASKS_MAX, 8), NAMED(MMIX_TURN_MAX, 1000), NAMED(MMIX_PAIRS_MAX, 32), NAMED(MMIX_STACK_START, 0x6000000000000000),
    NAMED(sizeof(struct mmix_state), 2336), NAMED(MMIX_DISASSEMBLY_LEN, 32), NAMED(MMIX_OLD_WINDOW_MAX, 65536),
    NAMED(MMIX_ROOM_LEN_4, 133440), NAMED(MMIX_ROOM_LEN_5, 133448), NAMED(MMIX_LINE_DONE, 0), NAMED(MMIX_LINE_NONE, 1),
    NAMED(MMIX_LINE_BAD, 2), NAMED(MMIX_LINE_FAILED, 3)
};

static const struct {
    struct named reply;
    const char *text;
} replies[] = {
    { NAMED(MMIX_DONE, 0), "done" },
    { NAMED(MMIX_NOT_ADMISSIBLE, 1), "the state is not admissible, or the image has the wrong length" },
    { NAMED(MMIX_WINDOW_RULE, 2), "a window breaks its rule" },
    { NAMED(MMIX_NO_ARM, 3), "this library does not do that instruction" },
    { NAMED(MMIX_NAMED_TRAP, 4), "TRAP names a system call, which the host must serve" },
    { NAMED(MMIX_NO_SPECIAL, 5), "GET of a special register above 31" },
    { NAMED(MMIX_MISSING, 6), "a needed octabyte lies in neither window" },
    { NAMED(MMIX_PUT_UNKNOWN, 7), "PUT to a special register above 31" },
    { NAMED(MMIX_PUT_PRIVILEGED, 8), "PUT to a privileged register" },
    { NAMED(MMIX_PUT_ILLEGAL, 9), "PUT to rN, rO or rS" },
    { NAMED(MMIX_PUT_THRESHOLD, 10), "PUT to rG out of range" },
    { NAMED(MMIX_PUT_STATUS, 11), "PUT to rA out of range" },
    { NAMED(MMIX_MISPLACED, 12), "POP where rO can hold no frame" },
    { NAMED(MMIX_SAVE_LOCAL, 13), "SAVE into a register below rG" },
    { NAMED(MMIX_SAVED_THRESHOLD, 14), "UNSAVE of a context whose rG is out of range" },
    { NAMED(MMIX_SAVED_STATUS, 15), "UNSAVE of a context whose rA is out of range" },
    { NAMED(MMIX_SAVED_COUNT, 16), "UNSAVE of a context with more locals than its rG" },
    { NAMED(MMIX_SYNC_PRIVILEGED, 17), "SYNC 4 to 7 is privileged" },
    { NAMED(MMIX_SYNC_ILLEGAL, 18), "SYNC above 7" },
    { NAMED(MMIX_NOT_LOADED, 19), "a trip to a vector that is not loaded" },
    { NAMED(MMIX_TRAPPED, 20), "TRAP that names no system call" },
    { NAMED(MMIX_OUT_OF_REACH, 21), "no field of either direction reaches that address" },
    { NAMED(MMIX_SHARED, 22), "the two windows share an octabyte" },
    { NAMED(MMIX_ACROSS, 23), "the context lies across both windows" },
    { NAMED(MMIX_NOT_FETCHED, 24), "the tetra at PC lies in neither window" },
    { NAMED(MMIX_GRANT_TOO_LARGE, 25), "more than 1,000,000 instructions are granted" },
    { NAMED(MMIX_STORE_TOO_SHORT, 26), "the store is shorter than sixteen rooms" },
    { NAMED(MMIX_NO_POINT, 27), "no point is kept under that name" },
    { NAMED(MMIX_OTHER_POINT, 28), "the point has other bases or lengths, or no admissible state" },
    { NAMED(MMIX_NO_FRAME, 29), "POP where no frame is left" },
    { NAMED(MMIX_TOO_MANY_PAIRS, 30), "a set of more than 32 pairs" },
    { NAMED(MMIX_HIDDEN, 31), "GET or PUT of a register that the mask hides" },
    { NAMED(MMIX_FOREIGN, 32), "an octabyte of B outside the task's own part" },
    { NAMED(MMIX_TASKS_RULE, 33), "tasks, their parts or their turns break a rule" }
};

#endif
