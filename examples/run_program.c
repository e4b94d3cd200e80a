/* Runs programs that GCC compiled for MMIX, by grants, by mmix_run_parts_in, the fastest way, and compares what they leave with
 * what they should.
 *
 *     run_program FOLDER [NAME]      make programs
 *
 * FOLDER has manifest.json and an image NAME.bin for each program that it lists. An image stands at address 0 in window A; B is
 * the stack's window. A program ends by TRAP 0,Halt,0, its answer in $0. What the library lacks (MMIX_NO_ARM) this host does
 * itself, in `serve` below: that part is the host's own and is not proved.
 */
#define _POSIX_C_SOURCE 199309L
#include <inttypes.h>
#include <stdio.h>
#include <stdlib.h>
#include <string.h>
#include <time.h>

#include "mmix.h"
#include "mmix_text.h"

enum { GRANT = 10000, REPEATS = 5, GLOBALS = 16, NAME_LEN = 64 };

/* What manifest.json says of a program. */
struct program {
    char name[NAME_LEN];
    uint64_t entry, answer, done, reply, served;
    unsigned globals;
    struct { uint64_t number, value; } global[GLOBALS];
};

static uint8_t low[MMIX_WINDOW_MAX], stack[MMIX_WINDOW_MAX];
static const struct mmix_windows lent = { 0, MMIX_STACK_START, low, sizeof low, stack, sizeof stack };
static struct mmix_state state;

/* ---- what the host does itself: Fascicle 1's instructions that the library has no arm for. Not proved. */

/* The octabyte of an address, in the window that has it; null where none has. */
static uint8_t *octabyte_at(uint64_t address)
{
    uint64_t octabyte = address & ~UINT64_C(7);

    if (octabyte - lent.base_a < lent.a_len)
        return lent.a + (octabyte - lent.base_a);
    return octabyte - lent.base_b < lent.b_len ? lent.b + (octabyte - lent.base_b) : NULL;
}

/* The tetra at PC, whose low two bits are dropped; all ones where no window has it. */
static uint32_t tetra_at_pc(void)
{
    const uint8_t *at = octabyte_at(state.pc);

    if (at == NULL)
        return UINT32_MAX;
    at += state.pc & 4;
    return (uint32_t)at[0] << 24 | (uint32_t)at[1] << 16 | (uint32_t)at[2] << 8 | at[3];
}

/* A marginal $X becomes a local register, and those below it that are marginal too; they become 0. */
static void claim(uint8_t x)
{
    if (x >= state.special[MMIX_RG])
        return;
    while (state.special[MMIX_RL] <= x)
        state.general[state.special[MMIX_RL]++] = 0;
}

/* The eight conditions of CSxx and ZSxx, in the order of their opcodes. */
static int holds(unsigned condition, uint64_t value)
{
    switch (condition) {
    case 0: return value >> 63 == 1;                  /* negative */
    case 1: return value == 0;
    case 2: return value >> 63 == 0 && value != 0;    /* positive */
    case 3: return value % 2 == 1;
    case 4: return value >> 63 == 0;
    case 5: return value != 0;
    case 6: return value >> 63 == 1 || value == 0;
    default: return value % 2 == 0;
    }
}

/* OR, ORN, NOR, XOR, AND, ANDN, NAND, NXOR, in the order of their opcodes. */
static uint64_t bitwise(unsigned operation, uint64_t y, uint64_t z)
{
    switch (operation) {
    case 0: return y | z;
    case 1: return y | ~z;
    case 2: return ~(y | z);
    case 3: return y ^ z;
    case 4: return y & z;
    case 5: return y & ~z;
    case 6: return ~(y & z);
    default: return ~(y ^ z);
    }
}

/* An octabyte into the window that has its address; whether one has. */
static int store(uint64_t address, uint64_t value)
{
    uint8_t *at = octabyte_at(address);

    if (at == NULL)
        return 0;
    mmix_set_octabyte(at, 0, value);
    return 1;
}

/* Does the instruction at PC, which the library refused by MMIX_NO_ARM; whether it is one of those that this host does. $X is
 * claimed before operands are read, as a run claims it; STCO claims nothing. */
static int serve(void)
{
    uint32_t tetra = tetra_at_pc();
    uint8_t op = (uint8_t)(tetra >> 24), x = (uint8_t)(tetra >> 16), y = (uint8_t)(tetra >> 8), z = (uint8_t)tetra;
    uint64_t *general = state.general;

    if (op == 0xB4 || op == 0xB5) {                            /* STCO: X itself into M8[$Y + $Z] */
        if (!store(general[y] + (op & 1 ? z : general[z]), x))
            return 0;
    } else if (op >= 0x60 && op <= 0x7F) {                     /* CSN to CSEV, ZSN to ZSEV */
        claim(x);
        uint64_t chosen = op & 1 ? z : general[z];
        if (holds(op >> 1 & 7, general[y]))
            general[x] = chosen;
        else if (op >= 0x70)
            general[x] = 0;
    } else if (op >= 0xC0 && op <= 0xCF) {                     /* OR to NXOR */
        claim(x);
        general[x] = bitwise(op >> 1 & 7, general[y], op & 1 ? z : general[z]);
    } else if (op >= 0xE0 && op <= 0xEF) {                     /* SETH to ANDNL */
        uint64_t wyde = (uint64_t)(y << 8 | z) << (48 - 16 * (op & 3));
        claim(x);
        switch (op >> 2 & 3) {
        case 0: general[x] = wyde; break;
        case 1: general[x] += wyde; break;
        case 2: general[x] |= wyde; break;
        default: general[x] &= ~wyde; break;
        }
    } else {
        return 0;
    }
    state.pc += 4;
    return 1;
}

/* ---- a program */

/* Says why the host ends, and ends. */
static void end(const char *what, const char *why)
{
    fflush(stdout);
    fprintf(stderr, "run_program: %s: %s\n", what, why);
    exit(EXIT_FAILURE);
}

/* The image at 0 in A, zeros behind it, and the state from which programs start. */
static void load(const char *folder, const struct program *program)
{
    static uint8_t image[MMIX_IMAGE_LEN];
    char path[4096];
    FILE *file;

    if (snprintf(path, sizeof path, "%s/%s.bin", folder, program->name) >= (int)sizeof path)
        end(folder, "the path is too long");
    file = fopen(path, "rb");
    if (file == NULL)
        end(path, "can't be read");
    memset(low, 0, sizeof low);
    memset(stack, 0, sizeof stack);
    if (fread(low, 1, sizeof low, file) == 0 || ferror(file) || fgetc(file) != EOF)
        end(path, "is empty, can't be read or is longer than a window");
    fclose(file);

    if (mmix_initialize(image, sizeof image) != MMIX_DONE || mmix_decode(image, sizeof image, &state) != MMIX_DONE)
        end(path, "no fresh state");
    state.marks = 0x1FF;
    state.pc = program->entry;
    state.general[254] = MMIX_STACK_START + sizeof stack;
    for (unsigned k = 0; k < program->globals; k++)
        state.general[program->global[k].number] = program->global[k].value;
}

/* Runs what is loaded, grant after grant, to the end, or for more than `most` instructions: the reply; how many were done, and
 * how many served. */
static uint64_t run(uint64_t most, uint64_t *done, uint64_t *served)
{
    uint64_t reply = MMIX_DONE;

    *done = *served = 0;
    while (*done <= most && (reply == MMIX_DONE || reply == MMIX_NO_ARM)) {
        uint64_t count;

        reply = mmix_run_parts_in(&lent, GRANT, state.general, state.special, &state.pc, &state.halt, state.marks, state.mask,
                                  &count);
        *done += count;
        if (reply == MMIX_NO_ARM) {
            if (!serve())
                break;
            ++*served;
        }
    }
    return reply;
}

static double seconds(void)
{
    struct timespec now;

    clock_gettime(CLOCK_MONOTONIC, &now);
    return (double)now.tv_sec + (double)now.tv_nsec * 1e-9;
}

/* Runs a program some times, and prints what the runs left and the time of the quickest; whether it is what it should be. */
static int check(const char *folder, const struct program *program)
{
    uint64_t reply = 0, done = 0, served = 0;
    double least = 1e9;
    int halts, same;

    for (unsigned k = 0; k < REPEATS; k++) {
        load(folder, program);
        double began = seconds();
        reply = run(program->done, &done, &served);
        double took = seconds() - began;
        least = took < least ? took : least;
    }
    halts = reply == MMIX_NAMED_TRAP && tetra_at_pc() == 0;
    same = halts && reply == program->reply && state.general[0] == program->answer && done == program->done
        && served == program->served;
    printf("%-14s %016" PRIx64 " %9" PRIu64 " %7" PRIu64 " %8.1f %6.1f  %s\n", program->name, state.general[0], done, served,
           (double)(done + served) / least * 1e-6, least * 1e9 / (double)(done + served), same ? "as it should" : "DIFFERS");
    if (!halts) {
        char line[MMIX_DISASSEMBLY_LEN];

        mmix_disassemble(line, sizeof line, state.pc, tetra_at_pc());
        printf("  stopped at %" PRIx64 ", %s: %s: %s\n", state.pc, line, mmix_reply_text(reply), mmix_reply_next(reply));
    }
    if (!same)
        printf("  should be: answer %016" PRIx64 ", done %" PRIu64 ", served %" PRIu64 "\n", program->answer, program->done,
               program->served);
    return same;
}

/* ---- manifest.json: an object of objects, whose values are strings, numbers and one object of strings */

static FILE *manifest;
static char word[NAME_LEN];

/* The next character that is no white space and separates nothing. */
static int next(void)
{
    int c;

    do
        c = fgetc(manifest);
    while (c == ' ' || c == '\n' || c == '\r' || c == '\t' || c == ',' || c == ':');
    return c;
}

/* The string or number that begins with c, into `word`. */
static void read_word(int c)
{
    size_t n = 0;
    int quoted = c == '"';

    if (quoted)
        c = fgetc(manifest);
    while (c != EOF && (quoted ? c != '"' : c >= '0' && c <= '9')) {
        if (n + 1 == sizeof word)
            end("manifest.json", "a word is too long");
        word[n++] = (char)c;
        c = fgetc(manifest);
    }
    if (!quoted)
        ungetc(c, manifest);
    word[n] = '\0';
}

static uint64_t number(int base)
{
    char *rest;
    uint64_t value = strtoull(word, &rest, base);

    if (rest == word || *rest != '\0')
        end("manifest.json", "a number is expected");
    return value;
}

/* The next program listed; 0 after the last. */
static int read_program(struct program *program)
{
    int c = next();

    memset(program, 0, sizeof *program);
    if (c != '"')
        return 0;
    read_word(c);
    strcpy(program->name, word);
    if (next() != '{')
        end(program->name, "an object is expected");
    while ((c = next()) == '"') {
        char field[NAME_LEN];

        read_word(c);
        strcpy(field, word);
        c = next();
        if (strcmp(field, "globals") == 0) {
            if (c != '{')
                end(program->name, "globals are an object");
            while ((c = next()) == '"') {
                if (program->globals == GLOBALS)
                    end(program->name, "too many globals");
                read_word(c);
                program->global[program->globals].number = number(10) & 0xFF;
                read_word(next());
                program->global[program->globals++].value = number(0);
            }
            continue;
        }
        read_word(c);
        if (strcmp(field, "answer") == 0)
            program->answer = number(16);
        else if (strcmp(field, "entry") == 0)
            program->entry = number(0);
        else if (strcmp(field, "done") == 0)
            program->done = number(10);
        else if (strcmp(field, "reply") == 0)
            program->reply = number(10);
        else if (strcmp(field, "served") == 0)
            program->served = number(10);
    }
    return 1;
}

int main(int count, char **words)
{
    struct program program;
    char path[4096];
    unsigned programs = 0, same = 0;

    if (count < 2 || snprintf(path, sizeof path, "%s/manifest.json", words[1]) >= (int)sizeof path)
        end("run_program FOLDER [NAME]", "a folder is needed");
    manifest = fopen(path, "r");
    if (manifest == NULL || next() != '{')
        end(path, "can't be read");
    printf("%-14s %-16s %9s %7s %8s %6s\n", "program", "answer", "done", "served", "M/s", "ns");
    while (read_program(&program)) {
        if (count > 2 && strcmp(words[2], program.name) != 0)
            continue;
        programs++;
        same += (unsigned)check(words[1], &program);
    }
    fclose(manifest);
    printf("%u programs, %u as they should be\n", programs, same);
    return programs > 0 && same == programs && fflush(stdout) == 0 ? EXIT_SUCCESS : EXIT_FAILURE;
}
