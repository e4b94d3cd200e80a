/* mmix_disassemble.h: the names of all 256 opcodes, against Knuth's table; lines of disassembly, against lines written down, against the assembler of
 * header_assemble.c, and against a listing.
 */
#include <stdio.h>
#include <stdlib.h>
#include <string.h>

#include "header_assemble.h"
#include "header_numbers.h"
#include "header_test.h"

static void try_names(void)
{
    for (unsigned op = 0; op < 256; op++)
        holds("mmix_mnemonic", strcmp(mmix_mnemonic((uint8_t)op), names[op]) == 0, names[op]);
    for (size_t k = 0; k < COUNT(opcodes); k++)
        holds("mmix_mnemonic", strcmp(mmix_mnemonic((uint8_t)opcodes[k].number), opcodes[k].name + strlen("MMIX_OP_")) == 0, opcodes[k].name);
}

/* Every opcode, with small and large bytes, at several addresses: the line is the tetra's, and fits. */
static void try_assembling(void)
{
    static const uint8_t bytes[] = { 0, 1, 4, 31, 32, 127, 128, 255 };
    static const uint64_t addresses[] = { 0, 0x1000, UINT64_C(0x6000000000000000), UINT64_MAX - 3 };
    unsigned count = COUNT(bytes) * COUNT(bytes) * COUNT(bytes);

    for (uint32_t op = 0; op < 256; op++)
        for (unsigned k = 0; k < count * COUNT(addresses); k++) {
            uint64_t address = addresses[k / count];
            uint32_t tetra = op << 24 | (uint32_t)bytes[k / 64 % 8] << 16 | (uint32_t)bytes[k / 8 % 8] << 8 | bytes[k % 8], back = ~tetra;
            char line[MMIX_DISASSEMBLY_LEN];
            size_t length = mmix_disassemble(line, sizeof line, address, tetra);

            holds("mmix_disassemble, length", length == strlen(line) && length < sizeof line, line);
            holds("mmix_disassemble, assembled", assemble(line, address, &back), line);
            if (back != tetra)
                is(line, back, tetra);
        }
}

/* ---- lines written down */

static void try_lines(void)
{
    static const struct { uint64_t address; uint32_t tetra; const char *line; } lines[] = {
        { 0, 0x00000000, "TRAP 0,0,0" }, { 0, 0x00000701, "TRAP 0,7,1" }, { 0, 0xFF010203, "TRIP 1,2,3" }, { 0, 0xFD0000FF, "SWYM 0,0,255" },
        { 0, 0xE301002A, "SETL $1,#2A" }, { 0, 0xE5FFABCD, "INCMH $255,#ABCD" }, { 0, 0x20010203, "ADD $1,$2,$3" }, { 0, 0x23010205, "ADDU $1,$2,5" },
        { 0, 0x2FFF00FF, "16ADDU $255,$0,255" }, { 0, 0x3701F000, "NEGU $1,240,0" }, { 0, 0x34010203, "NEG $1,2,$3" }, { 0, 0xC1050600, "OR $5,$6,0" },
        { 0x100, 0xF2010005, "PUSHJ $1,#114" }, { 0x100, 0xF301FFFF, "PUSHJ $1,#FC" }, { 0x15C, 0xF1FFFFEB, "JMP #108" }, { 0, 0xF0FFFFFF, "JMP #3FFFFFC" },
        { 0, 0xF1000000, "JMP #FFFFFFFFFC000000" }, { 0x100, 0xF40100BF, "GETA $1,#3FC" }, { 0x150, 0x4A020004, "BNZ $2,#160" },
        { UINT64_MAX - 3, 0x5FFF0000, "PBEV $255,#FFFFFFFFFFFBFFFC" }, { UINT64_MAX - 3, 0x40000001, "BN $0,#0" }, { 0, 0xF6040001, "PUT rJ,$1" },
        { 0, 0xF7140002, "PUT rL,2" }, { 0, 0xF7200002, "PUT 32,2" }, { 0, 0xF6040301, "PUT rJ,3,$1" }, { 0, 0xFE010004, "GET $1,rJ" },
        { 0, 0xFE0100FF, "GET $1,255" }, { 0, 0xF8010000, "POP 1,0" }, { 0, 0xF802FFFF, "POP 2,65535" }, { 0, 0xFAFF0000, "SAVE $255,0" },
        { 0, 0xFAFF0001, "SAVE $255,1" }, { 0, 0xFB0000FF, "UNSAVE 0,$255" }, { 0, 0xFC000004, "SYNC 4" }, { 0, 0xF9000001, "RESUME 1" },
        { 0, 0x8D010208, "LDO $1,$2,8" }, { 0, 0x8C010208, "LDO $1,$2,$8" }, { 0, 0xB5070100, "STCO 7,$1,0" }, { 0, 0x9B3F0100, "PRELD 63,$1,0" },
        { 0, 0xBF030405, "PUSHGO $3,$4,5" }, { 0, 0x9E030405, "GO $3,$4,$5" }, { 0, 0x05010003, "FIX $1,$3" }, { 0, 0x05010203, "FIX $1,2,$3" },
        { 0, 0x09010003, "FLOT $1,3" }, { 0, 0x01010203, "FCMP $1,$2,$3" }, { 0, 0x61010203, "CSN $1,$2,3" }
    };
    char line[MMIX_DISASSEMBLY_LEN];

    for (size_t k = 0; k < COUNT(lines); k++) {
        mmix_disassemble(line, sizeof line, lines[k].address, lines[k].tetra);
        holds(lines[k].line, strcmp(line, lines[k].line) == 0, line);
    }
    is("mmix_target, a branch", mmix_target(0x1000, 0x40000002), 0x1008);
    is("mmix_target, a branch backward", mmix_target(0x1000, 0x4100FFFF), 0xFFC);
    is("mmix_target, JMP", mmix_target(0x1000, 0xF0010000), 0x41000);
    is("mmix_target, JMP backward", mmix_target(0x1000, 0xF1FFFFFE), 0xFF8);
    holds("mmix_operands", strcmp(mmix_operands(0x21), "XYz") == 0 && strcmp(mmix_operands(0xF8), "xv") == 0, "of ADDI, of POP");
    is("mmix_operand, its length", (uint64_t)mmix_operand(line, sizeof line, 'Y', 0, 0x20010203), 2);
    holds("mmix_operand", strcmp(line, "$2") == 0, line);
}

/* A buffer of every size: no byte is written behind it, the last one is 0, and the length is the whole line's. */
static void try_sizes(void)
{
    static const char whole[] = "PUSHJ $255,#114";
    char text[40];

    is("mmix_disassemble, no buffer", mmix_disassemble(NULL, 0, 0x100, 0xF2FF0005), strlen(whole));
    for (size_t size = 0; size <= sizeof text; size++) {
        size_t kept = size == 0 ? 0 : size - 1 < strlen(whole) ? size - 1 : strlen(whole);

        memset(text, '~', sizeof text);
        is("mmix_disassemble, length", mmix_disassemble(text, size, 0x100, 0xF2FF0005), strlen(whole));
        holds("mmix_disassemble, cut", memcmp(text, whole, kept) == 0 && (size == 0 || text[kept] == '\0'), "it writes something else");
        for (size_t k = size == 0 ? 0 : kept + 1; k < sizeof text; k++)
            holds("mmix_disassemble, size", text[k] == '~', "it writes behind what it may");
    }
}

/* ---- a listing: address, four bytes, label, name, operands, in columns */

enum { LABEL = 19, NAME = 27, OPERANDS = 35, LINES = 256 };

static struct { unsigned address; uint32_t tetra; char label[9], name[9], operands[32]; } listed[LINES];

static unsigned read_listing(const char *path)
{
    FILE *file = fopen(path, "r");
    char line[256];
    unsigned n = 0, b[4];

    while (file != NULL && n < LINES && fgets(line, sizeof line, file) != NULL) {
        if (line[0] == '*' || line[0] == '\n' || strlen(line) <= OPERANDS)
            continue;
        if (sscanf(line, "%x %2x %2x %2x %2x", &listed[n].address, &b[0], &b[1], &b[2], &b[3]) != 5)
            continue;
        listed[n].tetra = b[0] << 24 | b[1] << 16 | b[2] << 8 | b[3];
        if (line[LABEL] != ' ')
            sscanf(line + LABEL, "%8s", listed[n].label);
        if (sscanf(line + NAME, "%8s", listed[n].name) == 1 && sscanf(line + OPERANDS, "%31s", listed[n].operands) == 1)
            n++;
    }
    holds(path, file != NULL && n > 0 && n < LINES, "no listing, or one too long");
    if (file != NULL)
        fclose(file);
    return n;
}

/* What the listing has as an operand is the operand of the disassembly: a label its address, a number in either base. */
static int same_operands(unsigned n, const char *listing, const char *line)
{
    char copy[64];
    struct operand ours[3], theirs;
    int count = read_operands(line, ours), k = 0;

    snprintf(copy, sizeof copy, "%s", listing);
    for (char *word = strtok(copy, ","); word != NULL; word = strtok(NULL, ","), k++) {
        unsigned j = 0;

        while (j < n && strcmp(listed[j].label, word) != 0)
            j++;
        theirs.kind = '0';
        if (j < n)
            theirs.value = listed[j].address;
        else if (!read_operand(word, &theirs))
            return 0;
        if (k >= count || theirs.kind != ours[k].kind || theirs.value != ours[k].value)
            return 0;
    }
    return k == count;
}

static void try_listing(const char *path)
{
    unsigned n = read_listing(path);

    for (unsigned k = 0; k < n; k++) {
        char line[MMIX_DISASSEMBLY_LEN];
        size_t length = strlen(listed[k].name);

        mmix_disassemble(line, sizeof line, listed[k].address, listed[k].tetra);
        holds(listed[k].operands, strncmp(line, listed[k].name, length) == 0 && line[length] == ' ' && same_operands(n, listed[k].operands, line + length + 1),
              line);
    }
    is("lines of the listing", n, 74);
}

void try_disassembly(const char *listing)
{
    read_table();
    try_names();
    try_lines();
    try_sizes();
    try_assembling();
    try_listing(listing);
}
