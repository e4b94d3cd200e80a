/* Knuth's table of opcodes and an assembler (header_assemble.c), for header_disassemble.c. */
#ifndef HEADER_ASSEMBLE_H
#define HEADER_ASSEMBLE_H

#include <stdint.h>

struct operand {
    char kind;          /* $ a general register, r a special one, 0 a number */
    uint64_t value;
};

/* The name of each opcode, with the I or the B, and as an assembler takes it; read_table fills them. */
extern char names[256][8], plain[256][8];
void read_table(void);

/* One operand, and all of a text, at most three: how many. 0, and -1, where one is none. */
int read_operand(const char *text, struct operand *operand);
int read_operands(const char *text, struct operand operands[3]);

/* The tetra that a line is at an address; 0 where it is none. */
int assemble(const char *line, uint64_t address, uint32_t *tetra);

#endif
