/* What the parts of header_test share. */
#ifndef HEADER_TEST_H
#define HEADER_TEST_H

#include "mmix.h"
#include "mmix_text.h"

/* A value that has to be what it should be, and a condition that has to hold; otherwise a line is printed, and the test fails in the end. */
void is(const char *what, uint64_t value, uint64_t should);
void holds(const char *what, int condition, const char *otherwise);

uint64_t octabyte(const uint8_t *at);
void set_octabyte(uint8_t *at, uint64_t value);

/* The inline functions of mmix.h (header_inline.c), the texts of mmix_text.h (header_text.c), mmix_disassemble.h, the listing of a program beside it
 * (header_disassemble.c), and mmix_points.h (header_points.c). */
void try_inline(void);
void try_texts(void);
void try_disassembly(const char *listing);
void try_points(void);

/* The version, mmix_initialize_at and where a task's stack starts (header_start.c). */
void try_start(void);

#endif
