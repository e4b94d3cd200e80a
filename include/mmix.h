/* mmix.h: the MMIX register machine, a program or one step at a time.
 *
 * The library keeps nothing between calls, allocates nothing and calls nothing but memcpy and memset. Every function
 * takes any values, ends, and returns MMIX_DONE (0) or the number of a refusal (1 to 33); mmix_version alone returns another
 * number. That each function does what it should is proved; README.md says what that means.
 *
 * What the caller owes:
 *  - a pointer is to as many bytes as the length beside it says, or to an object of its type; it may be null only where
 *    that length is 0. It is aligned as C demands of its type;
 *  - no two objects that one call may write to overlap, and none that it writes to overlaps one that it reads: image,
 *    images, windows a and b, store, state, parts, pairs, place, done, counts, refusals, which, start, length, backward and field are
 *    apart from each other;
 *  - nothing else reads or writes them during the call.
 *
 * Units:
 *   bytes          image_len, images_len, a_len, b_len, store_len; pairs_len of mmix_put_set; starts and lengths in `parts`; *start
 *                  and *length of mmix_context; MMIX_AT_.., MMIX_.._LEN, MMIX_WINDOW_MAX; `at` of mmix_octabyte
 *   octabytes      the two lengths that a room of a store keeps, and nothing else
 *   numbers        parts_len, two a task; pairs_len of mmix_put_set_parts, two a pair
 *   instructions   grant, q, *done, counts
 *   tetras         *field of mmix_branch_field and mmix_jump_field
 *
 * What can hurt:
 *  - A run stops at a refusal, never at the halt code: a host that calls mmix_run again after 7 to 20, 29 or 31 comes to the
 *    same instruction again, or to the next one if it has moved PC.
 *  - The halt code stops nothing by itself. After a refusal by 7 to 20, 29 or 31 it is 1, and the next step is done if the
 *    host asks for it. So a host looks at the reply of each call, or at the halt code, and decides whether to go on; no step and no
 *    exception sets the halt code back to 0.
 *  - A system call is the host's. On MMIX_NAMED_TRAP nothing has changed: the host does what TRAP 0,Y,Z names, writes the
 *    registers that it is to leave ($255, as a rule) and moves PC to @ + 4 itself, or the same TRAP comes again.
 *  - There is no RESUME. A host that has taken a trip goes back by setting PC to rW itself, and what rB and $255 hold is
 *    its own to put back.
 *  - A mask hides registers from GET and PUT, and so from what a program can tell apart, but not from the host: image, struct,
 *    points and mmix_put_set have them all. Going back to a point brings back its registers and its mask.
 *  - Tasks share window A: what one writes there the others read. What a task keeps in its own part of B no other reaches, as long
 *    as the host gives the same parts in each call. A task that has stopped runs again in the next call, unless the host leaves it out.
 *  - Going back to a point rewinds history: what was called before the return is not undone or finished but gone, frames
 *    with it. That a caller's locals are protected then holds of the calls made after the return.
 *
 * Platform: the library is built for x86-64 and the C conventions of Linux there (System V), and for no other.
 *
 * Threads: a function touches only what it is handed, so threads may call any of them at the same time, each on objects of
 * its own.
 *
 * Stack, most that was measured, in bytes (docs/SPEED.md): mmix_tasks 7,736; mmix_step_lent 5,272; mmix_run 5,128; mmix_decode 4,680;
 * mmix_step 3,064; mmix_put_set 2,992; mmix_run_parts 2,776; mmix_exceptions 2,528; mmix_initialize_at 2,384; mmix_initialize 2,368;
 * mmix_step_parts 600; mmix_take 480; mmix_context 248; mmix_go_back 153; mmix_put_set_parts 128; mmix_exceptions_parts 120; mmix_encode
 * 16; mmix_branch_field, mmix_jump_field and mmix_version none. There is no recursion.
 */
#ifndef MMIX_H
#define MMIX_H

#include <stddef.h>
#include <stdint.h>

#ifdef __cplusplus
extern "C" {
#endif

/* What a change of the version promises. Minor: something was added, as a function, a name or a reply above the last; what
 * was written for an earlier minor version compiles, links and means the same. Major: a function, a struct, the image or a
 * number has another meaning; look before you link.
 *
 * 2.0: two windows are lent, a and b, each with its base, where 1 had one: mmix_step, mmix_step_lent, mmix_step_parts and
 * mmix_context take both, and mmix_context tells by *which where the context lies. A host with one window lends it as b, and
 * null with length 0 (base 0) as a; its steps then do what they did. MMIX_SHARED and MMIX_ACROSS are new.
 * 2.1: mmix_run and mmix_run_parts, with MMIX_NOT_FETCHED and MMIX_GRANT_TOO_LARGE.
 * 3.0: mmix_exceptions and mmix_exceptions_parts add to rA also the flags that rA enables and that are not taken: these are all
 * but the leftmost one. Flags of which rA enables at most one, and all steps and runs, do what they did.
 * 3.1: mmix_take and mmix_go_back, with MMIX_STORE_TOO_SHORT, MMIX_NO_POINT and MMIX_OTHER_POINT.
 * 4.0: POP where rO is at or below MMIX_STACK_START is refused, by MMIX_NO_FRAME, where it went on to rJ + 4 * YZ: a program whose
 * last return is such a POP stops there. Every other step does what it did; images, stores and points are what they were.
 * 4.1: mmix_put_set and mmix_put_set_parts, with MMIX_TOO_MANY_PAIRS.
 * 5.0: the state has a mask of hidden registers, its last field: GET and PUT of one are MMIX_HIDDEN. struct mmix_state and the
 * image have it at the end, and the functions on parts take it after the marks. A host gives 0 there, sets the mask of a struct
 * that it fills itself to 0, and all steps do what they did. Images of 4, MMIX_OLD_IMAGE_LEN bytes, are still taken by every
 * function, as states with mask 0, and keep their length. MMIX_IMAGE_LEN has grown, and with it the rooms, so a store of 4 is
 * none of 5: its points move over as lines (README.md, 'Points as lines').
 * 5.1: mmix_tasks, with MMIX_FOREIGN and MMIX_TASKS_RULE.
 * 6.0: a window may have 1,048,576 bytes, where it had 65,536: a longer one was refused, and all else does what it did. MMIX_WINDOW_MAX
 * has grown, and with it the rooms, to 2,099,528 bytes, and MMIX_STORE_LEN, to 33,592,448: a store of 5 is none of 6, and its points
 * move over as lines.
 * 6.1: mmix_initialize_at and mmix_version; enum mmix_trap, mmix_octabyte and mmix_set_octabyte. Beside mmix_text.h stand mmix_disassemble.h and
 * mmix_points.h. */
#define MMIX_VERSION_MAJOR 6
#define MMIX_VERSION_MINOR 1

/* The version of the library that is linked, 65536 * major + minor, for a host to compare with the header's two numbers. */
uint64_t mmix_version(void);

/* The replies. 1 to 6, 22, 24 to 28, 30, 32 and 33 leave every byte as it was; 7 to 18, 29 and 31 set the halt code to 1 and leave all
 * else; 19 and 20 set the halt code to 1 and the trip or trap registers, with PC where it was (an exception refused by 19 has also added to
 * rA; a store refused by 19 is made, and $X, rH and rR of an operation are written). 21 is the number of mmix_branch_field and
 * mmix_jump_field alone, and 23 that of mmix_context alone, which are given no state; 24 and 25 are those of mmix_run,
 * mmix_run_parts and mmix_tasks alone, 26 to 28 those of mmix_take and mmix_go_back, 30 that of mmix_put_set and mmix_put_set_parts,
 * 32 and 33 those of mmix_tasks. What a reply leaves of a run, it leaves of the instruction at which the run stopped. */
enum mmix_reply {
    MMIX_DONE = 0,                /* The step or the exception was done. */
    MMIX_NOT_ADMISSIBLE = 1,      /* rG, rL, rA, the marks or the mask are out of range, or the image has another length. */
    MMIX_WINDOW_RULE = 2,         /* A window's length or base is no multiple of 8, or it is longer than MMIX_WINDOW_MAX. */
    MMIX_NO_ARM = 3,              /* This library does not do that instruction (below, enum mmix_opcode). */
    MMIX_NAMED_TRAP = 4,          /* TRAP 0 that names a system call, which the host must serve. */
    MMIX_NO_SPECIAL = 5,          /* GET of a special register above 31. */
    MMIX_MISSING = 6,             /* An octabyte that the step needs lies in neither window: lend more, and ask again. */
    MMIX_PUT_UNKNOWN = 7,         /* PUT to a special register above 31. */
    MMIX_PUT_PRIVILEGED = 8,      /* PUT to rC, rI, rK, rQ, rT, rU, rV or rTT. */
    MMIX_PUT_ILLEGAL = 9,         /* PUT to rN, rO or rS. */
    MMIX_PUT_THRESHOLD = 10,      /* PUT to rG of a value below 32, below rL or above 255. */
    MMIX_PUT_STATUS = 11,         /* PUT to rA of a value above 0x3FFFF. */
    MMIX_MISPLACED = 12,          /* POP where rO can hold no frame: not a multiple of 8, or 0x8000000000000000 or more. */
    MMIX_SAVE_LOCAL = 13,         /* SAVE into a register below rG. */
    MMIX_SAVED_THRESHOLD = 14,    /* UNSAVE of a context whose rG is not 32 to 255. */
    MMIX_SAVED_STATUS = 15,       /* UNSAVE of a context whose rA is above 0x3FFFF. */
    MMIX_SAVED_COUNT = 16,        /* UNSAVE of a context with more locals than its rG. */
    MMIX_SYNC_PRIVILEGED = 17,    /* SYNC 4 to 7. */
    MMIX_SYNC_ILLEGAL = 18,       /* SYNC above 7. */
    MMIX_NOT_LOADED = 19,         /* A trip whose vector is not marked loaded: of TRIP, an exception, a store or an operation. */
    MMIX_TRAPPED = 20,            /* TRAP that names no system call. */
    MMIX_OUT_OF_REACH = 21,       /* No field of either direction leads from the one address to the other. */
    MMIX_SHARED = 22,             /* The two windows share an octabyte. An empty one shares none. */
    MMIX_ACROSS = 23,             /* mmix_context: the context lies partly in one window and partly in the other. */
    MMIX_NOT_FETCHED = 24,        /* mmix_run: the tetra at PC lies in neither window: lend more, and run on. */
    MMIX_GRANT_TOO_LARGE = 25,    /* mmix_run: more than MMIX_GRANT_MAX instructions are granted. */
    MMIX_STORE_TOO_SHORT = 26,    /* mmix_take, mmix_go_back: the store is shorter than MMIX_STORE_LEN. */
    MMIX_NO_POINT = 27,           /* A name above 15; mmix_go_back: no point is taken under that name. */
    MMIX_OTHER_POINT = 28,        /* mmix_go_back: the point has other bases or lengths, or its state is not admissible. */
    MMIX_NO_FRAME = 29,           /* POP where rO is MMIX_STACK_START or less: no frame is left. Judged before 12. */
    MMIX_TOO_MANY_PAIRS = 30,     /* mmix_put_set: a set of more than MMIX_PAIRS_MAX pairs. Judged after 1. */
    MMIX_HIDDEN = 31,             /* GET or PUT of a register that the mask hides. Judged after 5, and before 7 to 11. */
    MMIX_FOREIGN = 32,            /* A task's instruction needs, or its tetra is, an octabyte of B outside its part. Before 6 and 24. */
    MMIX_TASKS_RULE = 33          /* mmix_tasks: not 1 to 8 tasks, q not 1 to 1,000, or parts that break their rule. Judged after 25. */
};

/* The opcodes that have an arm. Of a pair with B at the end, that one goes backward; with I at the end, the last operand is Z itself.
 * The other 132 are MMIX_NO_ARM: floating point (0x01 to 0x17), conditional set and zero or set (0x60 to 0x7F), LDSF to PREGO (0x90 to
 * 0x9D), STSF to SYNCID (0xB0 to 0xBD), OR to NXOR and BDIF to MXOR (0xC0 to 0xDF), SETH to ANDNL (0xE0 to 0xEF), RESUME (0xF9). A program does without
 * SET by ADDU $X,$Y,0, and without SETL by NEGU $X,c,0 for a constant up to 255. */
enum mmix_opcode {
    MMIX_OP_TRAP = 0x00,
    MMIX_OP_MUL = 0x18, MMIX_OP_MULI, MMIX_OP_MULU, MMIX_OP_MULUI, MMIX_OP_DIV, MMIX_OP_DIVI, MMIX_OP_DIVU, MMIX_OP_DIVUI,
    MMIX_OP_ADD, MMIX_OP_ADDI, MMIX_OP_ADDU, MMIX_OP_ADDUI, MMIX_OP_SUB, MMIX_OP_SUBI, MMIX_OP_SUBU, MMIX_OP_SUBUI,
    MMIX_OP_2ADDU, MMIX_OP_2ADDUI, MMIX_OP_4ADDU, MMIX_OP_4ADDUI, MMIX_OP_8ADDU, MMIX_OP_8ADDUI, MMIX_OP_16ADDU, MMIX_OP_16ADDUI,
    MMIX_OP_CMP, MMIX_OP_CMPI, MMIX_OP_CMPU, MMIX_OP_CMPUI, MMIX_OP_NEG, MMIX_OP_NEGI, MMIX_OP_NEGU, MMIX_OP_NEGUI,
    MMIX_OP_SL, MMIX_OP_SLI, MMIX_OP_SLU, MMIX_OP_SLUI, MMIX_OP_SR, MMIX_OP_SRI, MMIX_OP_SRU, MMIX_OP_SRUI,
    MMIX_OP_BN = 0x40, MMIX_OP_BNB, MMIX_OP_BZ, MMIX_OP_BZB, MMIX_OP_BP, MMIX_OP_BPB, MMIX_OP_BOD, MMIX_OP_BODB,
    MMIX_OP_BNN, MMIX_OP_BNNB, MMIX_OP_BNZ, MMIX_OP_BNZB, MMIX_OP_BNP, MMIX_OP_BNPB, MMIX_OP_BEV, MMIX_OP_BEVB,
    MMIX_OP_PBN, MMIX_OP_PBNB, MMIX_OP_PBZ, MMIX_OP_PBZB, MMIX_OP_PBP, MMIX_OP_PBPB, MMIX_OP_PBOD, MMIX_OP_PBODB,
    MMIX_OP_PBNN, MMIX_OP_PBNNB, MMIX_OP_PBNZ, MMIX_OP_PBNZB, MMIX_OP_PBNP, MMIX_OP_PBNPB, MMIX_OP_PBEV, MMIX_OP_PBEVB,
    MMIX_OP_LDB = 0x80, MMIX_OP_LDBI, MMIX_OP_LDBU, MMIX_OP_LDBUI, MMIX_OP_LDW, MMIX_OP_LDWI, MMIX_OP_LDWU, MMIX_OP_LDWUI,
    MMIX_OP_LDT, MMIX_OP_LDTI, MMIX_OP_LDTU, MMIX_OP_LDTUI, MMIX_OP_LDO, MMIX_OP_LDOI, MMIX_OP_LDOU, MMIX_OP_LDOUI,
    MMIX_OP_GO = 0x9E, MMIX_OP_GOI,
    MMIX_OP_STB = 0xA0, MMIX_OP_STBI, MMIX_OP_STBU, MMIX_OP_STBUI, MMIX_OP_STW, MMIX_OP_STWI, MMIX_OP_STWU, MMIX_OP_STWUI,
    MMIX_OP_STT, MMIX_OP_STTI, MMIX_OP_STTU, MMIX_OP_STTUI, MMIX_OP_STO, MMIX_OP_STOI, MMIX_OP_STOU, MMIX_OP_STOUI,
    MMIX_OP_PUSHGO = 0xBE, MMIX_OP_PUSHGOI,
    MMIX_OP_JMP = 0xF0, MMIX_OP_JMPB, MMIX_OP_PUSHJ, MMIX_OP_PUSHJB, MMIX_OP_GETA, MMIX_OP_GETAB, MMIX_OP_PUT, MMIX_OP_PUTI,
    MMIX_OP_POP = 0xF8,
    MMIX_OP_SAVE = 0xFA, MMIX_OP_UNSAVE, MMIX_OP_SYNC, MMIX_OP_SWYM, MMIX_OP_GET, MMIX_OP_TRIP
};

/* The system calls: the Y of TRAP 0,Y,Z that are MMIX_NAMED_TRAP, which the host serves. Any other Y, and any X but 0, is MMIX_TRAPPED.
 * HALT ends a program. Z is a file's handle, of TIME a unit, of DEBUG a text's number; a further argument is in $255, or, where there are two,
 * they are in memory from the address in $255 on. The first eleven are Knuth's; FPUTC, TIME and DEBUG the ported simulator's own. */
enum mmix_trap {
    MMIX_TRAP_HALT = 0x00, MMIX_TRAP_FOPEN, MMIX_TRAP_FCLOSE, MMIX_TRAP_FREAD, MMIX_TRAP_FGETS, MMIX_TRAP_FGETWS, MMIX_TRAP_FWRITE,
    MMIX_TRAP_FPUTS, MMIX_TRAP_FPUTWS, MMIX_TRAP_FSEEK, MMIX_TRAP_FTELL,
    MMIX_TRAP_FPUTC = 0x80, MMIX_TRAP_TIME, MMIX_TRAP_DEBUG
};

/* The special registers, as indices. */
enum mmix_special {
    MMIX_RB = 0, MMIX_RD, MMIX_RE, MMIX_RH, MMIX_RJ, MMIX_RM, MMIX_RR, MMIX_RBB,
    MMIX_RC, MMIX_RN, MMIX_RO, MMIX_RS, MMIX_RI, MMIX_RT, MMIX_RTT, MMIX_RK,
    MMIX_RQ, MMIX_RU, MMIX_RV, MMIX_RG, MMIX_RL, MMIX_RA, MMIX_RF, MMIX_RP,
    MMIX_RW, MMIX_RX, MMIX_RY, MMIX_RZ, MMIX_RWW, MMIX_RXX, MMIX_RYY, MMIX_RZZ
};

/* The flags of mmix_exceptions. rA enables each by the same bit times 256. */
enum mmix_flag {
    MMIX_FLAG_D = 0x80,    /* integer divide check; vector at address 16 */
    MMIX_FLAG_V = 0x40,    /* integer overflow; 32, and so on */
    MMIX_FLAG_W = 0x20,    /* float-to-fix overflow */
    MMIX_FLAG_I = 0x10,    /* invalid floating operation */
    MMIX_FLAG_O = 0x08,    /* floating overflow */
    MMIX_FLAG_U = 0x04,    /* floating underflow */
    MMIX_FLAG_Z = 0x02,    /* floating division by zero */
    MMIX_FLAG_X = 0x01     /* floating inexact; 128 */
};

/* A state image is 292 octabytes, each with its high byte first, in the order of struct mmix_state; these are the bytes at
 * which they start. An old image, of a version before 5, has no mask, which is then 0. Every function that takes an image takes
 * either length, and leaves it as it is; any other is MMIX_NOT_ADMISSIBLE, and no byte is changed. */
#define MMIX_IMAGE_LEN 2336
#define MMIX_OLD_IMAGE_LEN 2328
#define MMIX_AT_GENERAL(k) (8 * (k))
#define MMIX_AT_SPECIAL(k) (2048 + 8 * (k))
#define MMIX_AT_PC 2304
#define MMIX_AT_HALT 2312
#define MMIX_AT_MARKS 2320
#define MMIX_AT_MASK 2328

/* The bits that a mask may have, bit k for special register k: rBB, rC, rN, rI, rT, rTT, rK, rQ, rU, rV, rF, rWW, rXX, rYY and rZZ.
 * Any other makes the state MMIX_NOT_ADMISSIBLE. No step changes the mask; trips and traps write hidden registers all the same. */
#define MMIX_HIDEABLE UINT64_C(0xF047F380)

/* The longest window, 1 MiB; each of the two may be so long. */
#define MMIX_WINDOW_MAX 1048576

/* A store keeps MMIX_POINTS points, each in a room, in order of name; bytes behind the last room are not touched. A room is an
 * image, five octabytes (base of A, base of B, lengths of A and B in octabytes, one that is 0 until a point is taken and then
 * 1), and a place of MMIX_WINDOW_MAX bytes for each window, filled from the front. A store of zeros keeps no point. */
#define MMIX_POINTS 16
#define MMIX_ROOM_LEN (MMIX_IMAGE_LEN + 40 + 2 * MMIX_WINDOW_MAX)
#define MMIX_STORE_LEN (MMIX_POINTS * MMIX_ROOM_LEN)

/* The most instructions that one run may be granted. */
#define MMIX_GRANT_MAX 1000000

/* The most tasks of one call, and the most instructions a turn. */
#define MMIX_TASKS_MAX 8
#define MMIX_TURN_MAX 1000

/* The most pairs that one set may have. */
#define MMIX_PAIRS_MAX 32

/* Where the register stack starts: rO and rS of a fresh state. */
#define MMIX_STACK_START UINT64_C(0x6000000000000000)

/* A state as numbers of the host; it has no padding. */
struct mmix_state {
    uint64_t general[256];
    uint64_t special[32];
    uint64_t pc;
    uint64_t halt;     /* the halt code */
    uint64_t marks;    /* bit k, k from 0 to 8: the trip vector at address 16 * k is loaded */
    uint64_t mask;     /* bit k: special register k is hidden from GET and PUT; of MMIX_HIDEABLE alone */
};

/* The two windows are the parts of MMIX's memory that the host lends: `a_len` bytes from address `base_a` up, and `b_len` bytes
 * from `base_b` up, octabytes with their high byte first. Addresses wrap at 2^64, so a window may cross the end of memory. As
 * a rule A holds programs and curves, low in memory, and B is the stack's window; any octabyte may lie in either, one step
 * may use both, and a frame or a context may lie across two windows that touch. A host with one window lends it as B, and
 * null with length 0 (base 0) as A. */

/* ---- on an image */

/* Makes the image, of either length, that of the fresh state: rG 32, rL 0, rO and rS at the stack's start, no vector loaded,
 * nothing hidden. */
uint64_t mmix_initialize(uint8_t *image, size_t image_len);

/* As mmix_initialize, with the stack elsewhere: rO and rS are `stack_start`, any number. So a task starts whose part of B does not
 * begin at MMIX_STACK_START. A stack that lies below MMIX_STACK_START takes calls and no return, since every POP is then
 * MMIX_NO_FRAME; so it is with one that is no multiple of 8, or 0x8000000000000000 or more: MMIX_MISPLACED. With no frame left, a
 * task's last POP is MMIX_NO_FRAME where `stack_start` is MMIX_STACK_START; above, it is MMIX_FOREIGN where the octabyte before
 * `stack_start` lies in B outside the task's part, and MMIX_MISSING where it lies in neither window. One in A is taken for a
 * frame's. */
uint64_t mmix_initialize_at(uint8_t *image, size_t image_len, uint64_t stack_start);

/* One step: the instruction with bytes op, x, y, z, at the image's PC, on image and windows. */
uint64_t mmix_step(uint64_t base_a, uint64_t base_b, uint8_t op, uint8_t x, uint8_t y, uint8_t z,
                   uint8_t *image, size_t image_len, uint8_t *a, size_t a_len, uint8_t *b, size_t b_len);

/* Runs a program: up to `grant` instructions, one after the other, each fetched from the tetra at PC (whose low two bits are
 * dropped for that alone). Each is a step, with one difference: an instruction that writes $X claims it before it reads its
 * operands, and takes the claim back where it is refused by any number but 19.
 *
 * MMIX_DONE is the reply where the grant is spent: exactly `grant` instructions were done. Otherwise the reply is the number by
 * which an instruction was refused, and PC is at it. *done is how many were done before, the refused one not among them. A
 * program that ends by TRAP 0,Halt,0 is MMIX_NAMED_TRAP. Where 1, 2, 22 or 25 refuses the call as a whole, *done is 0. */
uint64_t mmix_run(uint64_t base_a, uint64_t base_b, uint64_t grant, uint8_t *image, size_t image_len,
                  uint8_t *a, size_t a_len, uint8_t *b, size_t b_len, uint64_t *done);

/* The arithmetic exceptions that the instruction with bytes op, x, y, z raised: flags are those of enum mmix_flag, y_val and
 * z_val its operands. The leftmost one that rA enables is taken, a trip; all others are added to rA, enabled or not. With
 * none taken, all are added and PC moves to @ + 4. It needs no window. */
uint64_t mmix_exceptions(uint8_t flags, uint8_t op, uint8_t x, uint8_t y, uint8_t z, uint64_t y_val, uint64_t z_val,
                         uint8_t *image, size_t image_len);

/* PUT for a whole set of special registers: a pair is 16 bytes, the register's number and then its value, each with its high
 * byte first; a part of a pair at the end is not looked at. Each pair is judged as PUT would judge it in the state that the
 * earlier ones leave (so rL may be lowered before rG is), and all take effect or none does. PC does not move, and no pairs at
 * all are done. The mask is not looked at: this is the host's own PUT.
 *
 * Refused by 7 to 11, the halt code is 1 and nothing else has changed, and *place is that of the first pair that fails, from
 * 0: its number is the reply. 1 comes first, then 30. *place is written at every reply, 0 unless a pair fails. */
uint64_t mmix_put_set(uint8_t *image, size_t image_len, const uint8_t *pairs, size_t pairs_len, uint64_t *place);

/* ---- on a state of the host's numbers, changed in place */

/* Makes the struct the state of the image, of an old one with mask 0. MMIX_NOT_ADMISSIBLE, and the struct left as it was, where
 * image_len is neither length. The state is not judged here: the first step judges it. */
uint64_t mmix_decode(const uint8_t *image, size_t image_len, struct mmix_state *state);

/* Makes the image that of the struct. MMIX_NOT_ADMISSIBLE, and no byte changed, where image_len is neither length, or the image is
 * an old one and the mask is not 0. */
uint64_t mmix_encode(const struct mmix_state *state, uint8_t *image, size_t image_len);

/* As mmix_step. */
uint64_t mmix_step_lent(uint64_t base_a, uint64_t base_b, uint8_t op, uint8_t x, uint8_t y, uint8_t z,
                        struct mmix_state *state, uint8_t *a, size_t a_len, uint8_t *b, size_t b_len);

/* As mmix_step and mmix_exceptions, on the parts of a state: the fastest, for a host that steps millions of times. The parts
 * may be those of a struct mmix_state. Marks and mask do not change. */
uint64_t mmix_step_parts(uint64_t base_a, uint64_t base_b, uint8_t op, uint8_t x, uint8_t y, uint8_t z,
                         uint64_t general[256], uint64_t special[32], uint64_t *pc, uint64_t *halt, uint64_t marks,
                         uint64_t mask, uint8_t *a, size_t a_len, uint8_t *b, size_t b_len);
uint64_t mmix_exceptions_parts(uint8_t flags, uint8_t op, uint8_t x, uint8_t y, uint8_t z, uint64_t y_val, uint64_t z_val,
                               uint64_t general[256], uint64_t special[32], uint64_t *pc, uint64_t *halt, uint64_t marks,
                               uint64_t mask);

/* As mmix_run, on the parts of a state: the fastest way to run a program. */
uint64_t mmix_run_parts(uint64_t base_a, uint64_t base_b, uint64_t grant, uint64_t general[256], uint64_t special[32],
                        uint64_t *pc, uint64_t *halt, uint64_t marks, uint64_t mask, uint8_t *a, size_t a_len,
                        uint8_t *b, size_t b_len, uint64_t *done);

/* As mmix_put_set, on the parts of a state. `pairs_len` counts the numbers in `pairs`, two a pair; an odd last one is not looked
 * at. *pc is left as it is. */
uint64_t mmix_put_set_parts(uint64_t general[256], uint64_t special[32], uint64_t *pc, uint64_t *halt, uint64_t marks,
                            uint64_t mask, const uint64_t *pairs, size_t pairs_len, uint64_t *place);

/* ---- several tasks */

/* Runs up to 8 programs by turns. They share window A; each has a part of window B: `parts` has start and length of each, in bytes from
 * B's base, so parts_len is twice the number n of tasks. `images` has their n states one after another, all of MMIX_IMAGE_LEN or all of
 * MMIX_OLD_IMAGE_LEN bytes. Each call starts with task 0, all running, and goes on in order of number, `q` instructions a turn as mmix_run
 * does them, until `grant` instructions are done in all or every task has stopped. A task that is refused stops, and is passed over.
 *
 * `q` comes before `grant`, and no compiler notices where they are exchanged: such a call is 33 where the grant was above MMIX_TURN_MAX,
 * and otherwise stops too soon. With names for both, and the windows in a struct (below):
 *
 *     mmix_tasks_in(&lent, TURN, GRANT, images, sizeof images, parts, sizeof parts / sizeof *parts, counts, refusals);
 *
 * MMIX_DONE, whatever became of the tasks: counts[k] is how many instructions task k did, refusals[k] the number that stopped it, or 0
 * where the grant was spent first. An instruction that needs an octabyte of B outside its task's part, or lies there, is refused by
 * MMIX_FOREIGN; octabytes of B that are in no part are so for all. Within a call a task still running waits for at most 7 * q
 * instructions of others between its turns, and no task changes another's part or state.
 *
 * Refused whole, in this order, by 2, 22, 25, 33 (parts_len odd, not 1 to MMIX_TASKS_MAX tasks, q not 1 to MMIX_TURN_MAX; a start or a
 * length that is no multiple of 8, a part that leaves B, parts that overlap: an empty one overlaps none) or 1 (images_len, or a state
 * that is not admissible), it leaves every byte of images and windows. counts and refusals are written at every reply, and are 0 from n on and
 * where the call is refused whole. */
uint64_t mmix_tasks(uint64_t base_a, uint64_t base_b, uint64_t q, uint64_t grant, uint8_t *images, size_t images_len,
                    const uint64_t *parts, size_t parts_len, uint8_t *a, size_t a_len, uint8_t *b, size_t b_len,
                    uint64_t counts[8], uint64_t refusals[8]);

/* ---- saved contexts */

/* Finds the context that SAVE put in a window; `address` is what SAVE left in $X. Done, *which is 0 for A and 1 for B, and the
 * context is the *length bytes of that window from index *start on: its locals, their count, its globals, twelve special
 * registers, rG and rA packed. Refused by 2, 22, 6, 14, 15 or 16, as UNSAVE of it would be, or by 23 where UNSAVE of it would
 * be done and it lies across both windows, *which, *start and *length are 0. No byte of a window is changed. */
uint64_t mmix_context(uint64_t base_a, uint64_t base_b, uint64_t address, const uint8_t *a, size_t a_len,
                      const uint8_t *b, size_t b_len, uint64_t *which, size_t *start, size_t *length);

/* ---- points to return to */

/* Keeps the state and both windows under a name, 0 to 15; what the name had before is lost. Of an old image mask 0 is kept.
 * Refused by 1, 2, 22, 26 or 27, in that order, it leaves every byte of the store. */
uint64_t mmix_take(uint64_t base_a, uint64_t base_b, uint64_t name, const uint8_t *image, size_t image_len,
                   const uint8_t *a, size_t a_len, const uint8_t *b, size_t b_len, uint8_t *store, size_t store_len);

/* Makes image and windows what was taken last under a name, byte for byte, whatever they hold; bases and lengths are those at
 * which it was taken. The image keeps its length, which need not be that of the image that was taken. Refused by 1 (an image of
 * neither length; no state is judged), 2, 22, 26, 27, 28 or by 1 (an old image, and the point's mask is not 0), in that order, it
 * leaves every byte. It holds as long as nothing but mmix_take writes the store. */
uint64_t mmix_go_back(uint64_t base_a, uint64_t base_b, uint64_t name, uint8_t *image, size_t image_len,
                      uint8_t *a, size_t a_len, uint8_t *b, size_t b_len, const uint8_t *store, size_t store_len);

/* ---- patching */

/* Finds the direction and the field by which an instruction at address `from` goes to address `to`, modulo 2^64: there is
 * never more than one such pair. Done, *backward is 0 or 1, which is to be added to the opcode of the forward instruction,
 * and *field is its YZ (mmix_branch_field: a branch, PUSHJ, GETA) or its XYZ (mmix_jump_field: JMP): Z is *field & 0xFF, Y
 * *field >> 8 & 0xFF, X *field >> 16. MMIX_OUT_OF_REACH, and both 0, where no field of either direction does. Any addresses
 * may be given; misaligned ones too, since their difference counts. */
uint64_t mmix_branch_field(uint64_t from, uint64_t to, uint8_t *backward, uint32_t *field);
uint64_t mmix_jump_field(uint64_t from, uint64_t to, uint8_t *backward, uint32_t *field);

/* ---- octabytes in bytes, for images, pairs, stores and windows: not proved and in no library */

/* The octabyte whose high byte is bytes[at]: `at` counts bytes, as MMIX_AT_PC and its like do and as address - base does in a window. It
 * takes the array and the place apart, so that a call reads like the names: mmix_octabyte(image, MMIX_AT_SPECIAL(MMIX_RO)). All of bytes[at]
 * to bytes[at + 7] must be in the array; `at` need not be a multiple of 8. */
static inline uint64_t mmix_octabyte(const uint8_t *bytes, size_t at)
{
    uint64_t value = 0;

    for (size_t k = 0; k < 8; k++)
        value = value << 8 | bytes[at + k];
    return value;
}

static inline void mmix_set_octabyte(uint8_t *bytes, size_t at, uint64_t value)
{
    for (size_t k = 0; k < 8; k++)
        bytes[at + k] = (uint8_t)(value >> (56 - 8 * k));
}

/* ---- the two windows in a struct, for people: the functions above under shorter calls, not proved and in no library */

struct mmix_windows {
    uint64_t base_a;
    uint64_t base_b;
    uint8_t *a;
    size_t a_len;
    uint8_t *b;
    size_t b_len;
};

/* One window alone, the stack's. */
static inline struct mmix_windows mmix_one_window(uint64_t base, uint8_t *window, size_t window_len)
{
    struct mmix_windows lent = { 0, 0, NULL, 0, NULL, 0 };

    lent.base_b = base;
    lent.b = window;
    lent.b_len = window_len;
    return lent;
}

static inline uint64_t mmix_step_in(const struct mmix_windows *lent, uint8_t op, uint8_t x, uint8_t y, uint8_t z,
                                    uint8_t *image, size_t image_len)
{
    return mmix_step(lent->base_a, lent->base_b, op, x, y, z, image, image_len, lent->a, lent->a_len, lent->b, lent->b_len);
}

static inline uint64_t mmix_step_lent_in(const struct mmix_windows *lent, uint8_t op, uint8_t x, uint8_t y, uint8_t z,
                                         struct mmix_state *state)
{
    return mmix_step_lent(lent->base_a, lent->base_b, op, x, y, z, state, lent->a, lent->a_len, lent->b, lent->b_len);
}

static inline uint64_t mmix_step_parts_in(const struct mmix_windows *lent, uint8_t op, uint8_t x, uint8_t y, uint8_t z,
                                          uint64_t general[256], uint64_t special[32], uint64_t *pc, uint64_t *halt,
                                          uint64_t marks, uint64_t mask)
{
    return mmix_step_parts(lent->base_a, lent->base_b, op, x, y, z, general, special, pc, halt, marks, mask,
                           lent->a, lent->a_len, lent->b, lent->b_len);
}

static inline uint64_t mmix_run_in(const struct mmix_windows *lent, uint64_t grant, uint8_t *image, size_t image_len,
                                   uint64_t *done)
{
    return mmix_run(lent->base_a, lent->base_b, grant, image, image_len, lent->a, lent->a_len, lent->b, lent->b_len, done);
}

static inline uint64_t mmix_run_parts_in(const struct mmix_windows *lent, uint64_t grant, uint64_t general[256],
                                         uint64_t special[32], uint64_t *pc, uint64_t *halt, uint64_t marks, uint64_t mask,
                                         uint64_t *done)
{
    return mmix_run_parts(lent->base_a, lent->base_b, grant, general, special, pc, halt, marks, mask,
                          lent->a, lent->a_len, lent->b, lent->b_len, done);
}

static inline uint64_t mmix_tasks_in(const struct mmix_windows *lent, uint64_t q, uint64_t grant, uint8_t *images,
                                     size_t images_len, const uint64_t *parts, size_t parts_len, uint64_t counts[8],
                                     uint64_t refusals[8])
{
    return mmix_tasks(lent->base_a, lent->base_b, q, grant, images, images_len, parts, parts_len,
                      lent->a, lent->a_len, lent->b, lent->b_len, counts, refusals);
}

static inline uint64_t mmix_take_in(const struct mmix_windows *lent, uint64_t name, const uint8_t *image, size_t image_len,
                                    uint8_t *store, size_t store_len)
{
    return mmix_take(lent->base_a, lent->base_b, name, image, image_len, lent->a, lent->a_len, lent->b, lent->b_len,
                     store, store_len);
}

static inline uint64_t mmix_go_back_in(const struct mmix_windows *lent, uint64_t name, uint8_t *image, size_t image_len,
                                       const uint8_t *store, size_t store_len)
{
    return mmix_go_back(lent->base_a, lent->base_b, name, image, image_len, lent->a, lent->a_len, lent->b, lent->b_len,
                        store, store_len);
}

/* Done, *context is the first of the *length bytes of the context; refused, it is null and *length is 0. */
static inline uint64_t mmix_context_in(const struct mmix_windows *lent, uint64_t address, const uint8_t **context,
                                       size_t *length)
{
    uint64_t which;
    size_t start;
    uint64_t reply = mmix_context(lent->base_a, lent->base_b, address, lent->a, lent->a_len, lent->b, lent->b_len,
                                  &which, &start, length);

    *context = reply != MMIX_DONE ? NULL : (which == 1 ? lent->b : lent->a) + start;
    return reply;
}

#ifdef __cplusplus
}
#endif

#endif
