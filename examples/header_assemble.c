/* An assembler for header_disassemble.c: it knows MMIX by Knuth's table and by what kind each operand is, and has the library find the fields of branches
 * and jumps, by mmix_branch_field and mmix_jump_field.
 */
#include <stdio.h>
#include <stdlib.h>
#include <string.h>

#include "header_assemble.h"
#include "header_numbers.h"
#include "header_test.h"

/* Fascicle 1, table of opcodes, row by row: NAME[I] and NAME[B] are two opcodes. */
static const char table[] =
    "TRAP FCMP FUN FEQL FADD FIX FSUB FIXU FLOT[I] FLOTU[I] SFLOT[I] SFLOTU[I] "
    "FMUL FCMPE FUNE FEQLE FDIV FSQRT FREM FINT MUL[I] MULU[I] DIV[I] DIVU[I] "
    "ADD[I] ADDU[I] SUB[I] SUBU[I] 2ADDU[I] 4ADDU[I] 8ADDU[I] 16ADDU[I] "
    "CMP[I] CMPU[I] NEG[I] NEGU[I] SL[I] SLU[I] SR[I] SRU[I] "
    "BN[B] BZ[B] BP[B] BOD[B] BNN[B] BNZ[B] BNP[B] BEV[B] "
    "PBN[B] PBZ[B] PBP[B] PBOD[B] PBNN[B] PBNZ[B] PBNP[B] PBEV[B] "
    "CSN[I] CSZ[I] CSP[I] CSOD[I] CSNN[I] CSNZ[I] CSNP[I] CSEV[I] "
    "ZSN[I] ZSZ[I] ZSP[I] ZSOD[I] ZSNN[I] ZSNZ[I] ZSNP[I] ZSEV[I] "
    "LDB[I] LDBU[I] LDW[I] LDWU[I] LDT[I] LDTU[I] LDO[I] LDOU[I] "
    "LDSF[I] LDHT[I] CSWAP[I] LDUNC[I] LDVTS[I] PRELD[I] PREGO[I] GO[I] "
    "STB[I] STBU[I] STW[I] STWU[I] STT[I] STTU[I] STO[I] STOU[I] "
    "STSF[I] STHT[I] STCO[I] STUNC[I] SYNCD[I] PREST[I] SYNCID[I] PUSHGO[I] "
    "OR[I] ORN[I] NOR[I] XOR[I] AND[I] ANDN[I] NAND[I] NXOR[I] "
    "BDIF[I] WDIF[I] TDIF[I] ODIF[I] MUX[I] SADD[I] MOR[I] MXOR[I] "
    "SETH SETMH SETML SETL INCH INCMH INCML INCL ORH ORMH ORML ORL ANDNH ANDNMH ANDNML ANDNL "
    "JMP[B] PUSHJ[B] GETA[B] PUT[I] POP RESUME SAVE UNSAVE SYNC SWYM GET TRIP ";

char names[256][8], plain[256][8];
static uint8_t paired[256];         /* whether the opcode is one of a pair */

void read_table(void)
{
    unsigned op = 0;

    for (const char *at = table; *at != '\0' && op < 256; at = strchr(at, ' ') + 1) {
        int n = (int)strcspn(at, " ["), pair = at[n] == '[';

        for (int k = 0; k <= pair; k++, op++) {
            snprintf(plain[op], sizeof plain[op], "%.*s", n, at);
            snprintf(names[op], sizeof names[op], "%.*s%.*s", n, at, k, at + n + 1);
            paired[op] = (uint8_t)pair;
        }
    }
    is("opcodes in Knuth's table", op, 256);
}

int read_operand(const char *text, struct operand *operand)
{
    char *rest;

    operand->kind = *text == '$' || *text == 'r' ? *text : '0';
    if (*text == 'r') {
        for (operand->value = 0; operand->value < 32; operand->value++)
            if (strcmp(specials[operand->value].name + strlen("MMIX_R"), text + 1) == 0)
                return 1;
        return 0;
    }
    operand->value = strtoull(text + (*text == '$' || *text == '#'), &rest, *text == '#' ? 16 : 10);
    return *rest == '\0';
}

/* The operands of a line, at most three; -1 where one is none. */
int read_operands(const char *text, struct operand operands[3])
{
    char copy[64];
    int n = 0;

    snprintf(copy, sizeof copy, "%s", text);
    for (char *word = strtok(copy, ","); word != NULL; word = strtok(NULL, ","))
        if (n == 3 || !read_operand(word, &operands[n++]))
            return -1;
    return n;
}

/* One of the opcodes that have X, or Y, as a number, whatever the others are. */
static int among(unsigned op, const char *list)
{
    char word[16];

    snprintf(word, sizeof word, " %s ", plain[op]);
    return strstr(list, word) != NULL;
}

/* The three bytes of operands X, Y, Z, each of its kind; of those that may go without Y it is 0 there. */
static int assemble_bytes(unsigned op, int n, const struct operand *operands, uint32_t *tetra)
{
    struct operand x = operands[0], y = { '0', 0 }, z = operands[n - 1];
    char first = among(op, " TRAP SWYM TRIP PRELD PREGO STCO SYNCD PREST SYNCID UNSAVE ") ? '0' : strcmp(plain[op], "PUT") == 0 ? 'r' : '$';
    int shorter = among(op, " FIX FIXU FSQRT FINT FLOT FLOTU SFLOT SFLOTU PUT SAVE UNSAVE GET ");
    char second = shorter || among(op, " TRAP SWYM TRIP NEG NEGU ") ? '0' : '$', last = '$';

    if (n == 3)
        y = operands[1];
    else if (n != 2 || !shorter)
        return 0;
    if (among(op, " TRAP SWYM TRIP SAVE "))
        last = '0';
    else if (strcmp(plain[op], "GET") == 0)
        last = 'r';
    else if (paired[op] && z.kind == '0')
        op++, last = '0';
    /* a special register above 31 has no name */
    if ((x.kind != first && !(first == 'r' && x.kind == '0' && x.value > 31)) || y.kind != second
        || (z.kind != last && !(last == 'r' && z.kind == '0' && z.value > 31)) || x.value > 255 || y.value > 255 || z.value > 255)
        return 0;
    *tetra = (uint32_t)(op << 24 | x.value << 16 | y.value << 8 | z.value);
    return 1;
}

/* The tetra that a line is at an address. */
int assemble(const char *line, uint64_t address, uint32_t *tetra)
{
    struct operand operands[3];
    size_t length = strcspn(line, " ");
    int n = line[length] == ' ' ? read_operands(line + length + 1, operands) : -1;
    unsigned op = 0;
    uint8_t backward;
    uint32_t field;

    while (op < 256 && (strlen(plain[op]) != length || memcmp(plain[op], line, length) != 0))
        op++;
    if (op == 256 || n < 1)
        return 0;
    if (op == MMIX_OP_JMP) {
        *tetra = mmix_jump_field(address, operands[0].value, &backward, &field) == MMIX_DONE ? (op + backward) << 24 | field : 0;
        return n == 1 && *tetra != 0;
    }
    if ((op >= MMIX_OP_BN && op <= MMIX_OP_PBEVB) || op == MMIX_OP_PUSHJ || op == MMIX_OP_GETA) {
        *tetra = mmix_branch_field(address, operands[1].value, &backward, &field) == MMIX_DONE
            ? (op + backward) << 24 | (uint32_t)operands[0].value << 16 | field : 0;
        return n == 2 && operands[0].kind == '$' && *tetra != 0;
    }
    if ((op >= 0xE0 && op <= 0xEF) || op == MMIX_OP_POP) {
        *tetra = op << 24 | (uint32_t)operands[0].value << 16 | (uint32_t)operands[1].value;
        return n == 2 && operands[0].kind == (op == MMIX_OP_POP ? '0' : '$') && operands[1].kind == '0' && operands[1].value < 65536;
    }
    if (strcmp(plain[op], "RESUME") == 0 || op == MMIX_OP_SYNC) {
        *tetra = op << 24 | (uint32_t)operands[0].value;
        return n == 1 && operands[0].kind == '0';
    }
    return assemble_bytes(op, n, operands, tetra);
}
