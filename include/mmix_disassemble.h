/* mmix_disassemble.h: instructions of MMIX in words, for people: the names of all 256 opcodes and of the special registers, and a line of
 * disassembly for a tetra.
 *
 * Unlike the library, nothing here is proved, and no function of the library calls it. Instructions that the library does not do have their
 * names and lines too.
 */
#ifndef MMIX_DISASSEMBLE_H
#define MMIX_DISASSEMBLE_H

#include <inttypes.h>
#include <stddef.h>
#include <stdint.h>
#include <stdio.h>

/* Room for any line of disassembly, its zero byte included. */
#define MMIX_DISASSEMBLY_LEN 32

/* The name of special register k, "r?" above 31. */
static inline const char *mmix_special_name(unsigned k)
{
    static const char *const names[32] = {
        "rB", "rD", "rE", "rH", "rJ", "rM", "rR", "rBB", "rC", "rN", "rO", "rS", "rI", "rT", "rTT", "rK",
        "rQ", "rU", "rV", "rG", "rL", "rA", "rF", "rP", "rW", "rX", "rY", "rZ", "rWW", "rXX", "rYY", "rZZ"
    };

    return k < 32 ? names[k] : "r?";
}

/* The name of an opcode, as Knuth's table has it: with I at the end where the last operand is Z itself, with B where a branch or a jump
 * goes backward. enum mmix_opcode has the same names for what the library does. */
static inline const char *mmix_mnemonic(uint8_t op)
{
    static const char *const names[256] = {
        "TRAP", "FCMP", "FUN", "FEQL", "FADD", "FIX", "FSUB", "FIXU", "FLOT", "FLOTI", "FLOTU", "FLOTUI", "SFLOT", "SFLOTI", "SFLOTU", "SFLOTUI",
        "FMUL", "FCMPE", "FUNE", "FEQLE", "FDIV", "FSQRT", "FREM", "FINT", "MUL", "MULI", "MULU", "MULUI", "DIV", "DIVI", "DIVU", "DIVUI",
        "ADD", "ADDI", "ADDU", "ADDUI", "SUB", "SUBI", "SUBU", "SUBUI", "2ADDU", "2ADDUI", "4ADDU", "4ADDUI", "8ADDU", "8ADDUI", "16ADDU", "16ADDUI",
        "CMP", "CMPI", "CMPU", "CMPUI", "NEG", "NEGI", "NEGU", "NEGUI", "SL", "SLI", "SLU", "SLUI", "SR", "SRI", "SRU", "SRUI",
        "BN", "BNB", "BZ", "BZB", "BP", "BPB", "BOD", "BODB", "BNN", "BNNB", "BNZ", "BNZB", "BNP", "BNPB", "BEV", "BEVB",
        "PBN", "PBNB", "PBZ", "PBZB", "PBP", "PBPB", "PBOD", "PBODB", "PBNN", "PBNNB", "PBNZ", "PBNZB", "PBNP", "PBNPB", "PBEV", "PBEVB",
        "CSN", "CSNI", "CSZ", "CSZI", "CSP", "CSPI", "CSOD", "CSODI", "CSNN", "CSNNI", "CSNZ", "CSNZI", "CSNP", "CSNPI", "CSEV", "CSEVI",
        "ZSN", "ZSNI", "ZSZ", "ZSZI", "ZSP", "ZSPI", "ZSOD", "ZSODI", "ZSNN", "ZSNNI", "ZSNZ", "ZSNZI", "ZSNP", "ZSNPI", "ZSEV", "ZSEVI",
        "LDB", "LDBI", "LDBU", "LDBUI", "LDW", "LDWI", "LDWU", "LDWUI", "LDT", "LDTI", "LDTU", "LDTUI", "LDO", "LDOI", "LDOU", "LDOUI",
        "LDSF", "LDSFI", "LDHT", "LDHTI", "CSWAP", "CSWAPI", "LDUNC", "LDUNCI", "LDVTS", "LDVTSI", "PRELD", "PRELDI", "PREGO", "PREGOI", "GO", "GOI",
        "STB", "STBI", "STBU", "STBUI", "STW", "STWI", "STWU", "STWUI", "STT", "STTI", "STTU", "STTUI", "STO", "STOI", "STOU", "STOUI",
        "STSF", "STSFI", "STHT", "STHTI", "STCO", "STCOI", "STUNC", "STUNCI", "SYNCD", "SYNCDI", "PREST", "PRESTI", "SYNCID", "SYNCIDI", "PUSHGO", "PUSHGOI",
        "OR", "ORI", "ORN", "ORNI", "NOR", "NORI", "XOR", "XORI", "AND", "ANDI", "ANDN", "ANDNI", "NAND", "NANDI", "NXOR", "NXORI",
        "BDIF", "BDIFI", "WDIF", "WDIFI", "TDIF", "TDIFI", "ODIF", "ODIFI", "MUX", "MUXI", "SADD", "SADDI", "MOR", "MORI", "MXOR", "MXORI",
        "SETH", "SETMH", "SETML", "SETL", "INCH", "INCMH", "INCML", "INCL", "ORH", "ORMH", "ORML", "ORL", "ANDNH", "ANDNMH", "ANDNML", "ANDNL",
        "JMP", "JMPB", "PUSHJ", "PUSHJB", "GETA", "GETAB", "PUT", "PUTI", "POP", "RESUME", "SAVE", "UNSAVE", "SYNC", "SWYM", "GET", "TRIP"
    };

    return names[op];
}

/* What an instruction's operands are, one letter each. X, Y, Z: the register of that number. x, y, z: the byte itself. ?: the byte Y, left out
 * where it is 0. s, t: the special register X, Z. w: YZ. v: YZ in decimal. n: XYZ. b, j: the address to which YZ, XYZ leads. */
static inline const char *mmix_operands(uint8_t op)
{
    unsigned i = op & 1;        /* the last operand is Z itself, of most */

    switch (op) {
    case 0x00: case 0xFD: case 0xFF: return "xyz";      /* TRAP, SWYM, TRIP */
    case 0x05: case 0x07: case 0x15: case 0x17: return "X?Z";       /* FIX, FIXU, FSQRT, FINT: Y is the rounding */
    case 0x34: case 0x35: case 0x36: case 0x37: return i ? "Xyz" : "XyZ";       /* NEG, NEGU */
    case 0x9A: case 0x9B: case 0x9C: case 0x9D: return i ? "xYz" : "xYZ";       /* PRELD, PREGO */
    case 0xB4: case 0xB5: case 0xB8: case 0xB9: case 0xBA: case 0xBB: case 0xBC: case 0xBD: return i ? "xYz" : "xYZ";   /* STCO, SYNCD, PREST, SYNCID */
    case 0xF0: case 0xF1: return "j";
    case 0xF2: case 0xF3: case 0xF4: case 0xF5: return "Xb";
    case 0xF6: case 0xF7: return i ? "s?z" : "s?Z";     /* PUT */
    case 0xF8: return "xv";         /* POP */
    case 0xF9: case 0xFC: return "n";       /* RESUME, SYNC */
    case 0xFA: return "X?z";        /* SAVE */
    case 0xFB: return "x?Z";        /* UNSAVE */
    case 0xFE: return "X?t";        /* GET */
    default: break;
    }
    if (op >= 0x08 && op <= 0x0F)
        return i ? "X?z" : "X?Z";       /* FLOT to SFLOTU */
    if (op < 0x18)
        return "XYZ";
    if (op >= 0x40 && op <= 0x5F)
        return "Xb";
    return op >= 0xE0 ? "Xw" : i ? "XYz" : "XYZ";
}

/* The address to which the instruction at an address leads: a branch, PUSHJ and GETA by YZ, JMP by XYZ. */
static inline uint64_t mmix_target(uint64_t address, uint32_t tetra)
{
    unsigned bits = tetra >> 25 == 0x78 ? 24 : 16;      /* JMP, forward and backward */
    uint64_t field = tetra & ((UINT32_C(1) << bits) - 1);

    if (tetra >> 24 & 1)
        field -= UINT64_C(1) << bits;
    return address + 4 * field;
}

/* One operand, as a letter of mmix_operands has it, into a text of `size` bytes; its length. */
static inline int mmix_operand(char *text, size_t size, char letter, uint64_t address, uint32_t tetra)
{
    unsigned x = tetra >> 16 & 0xFF, y = tetra >> 8 & 0xFF, z = tetra & 0xFF;

    switch (letter) {
    case 'X': return snprintf(text, size, "$%u", x);
    case 'Y': return snprintf(text, size, "$%u", y);
    case 'Z': return snprintf(text, size, "$%u", z);
    case 'x': return snprintf(text, size, "%u", x);
    case 'y': case '?': return snprintf(text, size, "%u", y);
    case 'z': return snprintf(text, size, "%u", z);
    case 's': return x < 32 ? snprintf(text, size, "%s", mmix_special_name(x)) : snprintf(text, size, "%u", x);
    case 't': return z < 32 ? snprintf(text, size, "%s", mmix_special_name(z)) : snprintf(text, size, "%u", z);
    case 'w': return snprintf(text, size, "#%X", y << 8 | z);
    case 'v': return snprintf(text, size, "%u", y << 8 | z);
    case 'n': return snprintf(text, size, "%u", x << 16 | y << 8 | z);
    default: return snprintf(text, size, "#%" PRIX64, mmix_target(address, tetra));
    }
}

/* The line of disassembly of a tetra at an address, as an assembler takes it: `ADDU $1,$2,5`, `SETL $1,#2A`, `PUT rJ,$1`, `POP 1,0`; where a
 * branch, PUSHJ, GETA or JMP leads, as an address: `BNZ $2,#160`. # is hexadecimal. A byte that should be 0 and is not is shown too, so line and
 * address say which tetra it is. As snprintf, it writes at most `size` bytes, the last one 0, and none where `size` is 0 (`text` may be null then),
 * and answers the length of the whole line: less than MMIX_DISASSEMBLY_LEN. */
static inline size_t mmix_disassemble(char *text, size_t size, uint64_t address, uint32_t tetra)
{
    uint8_t op = (uint8_t)(tetra >> 24);
    const char *name = mmix_mnemonic(op), *letters = mmix_operands(op);
    char line[MMIX_DISASSEMBLY_LEN];
    int n = snprintf(line, sizeof line, "%s", name), first = 1;

    /* the I or the B at the end of a name says what the operands say too */
    if ((op & 1) != 0 && ((op >= 0x08 && op <= 0x0F) || (op >= 0x18 && op <= 0xDF) || (op >= 0xF0 && op <= 0xF7)))
        n--;
    for (; *letters != '\0'; letters++) {
        if (*letters == '?' && (tetra >> 8 & 0xFF) == 0)
            continue;
        line[n++] = first ? ' ' : ',';
        n += mmix_operand(line + n, sizeof line - (size_t)n, *letters, address, tetra);
        first = 0;
    }
    return (size_t)snprintf(text, size, "%s", line);
}

#endif
