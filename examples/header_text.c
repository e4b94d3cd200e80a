/* The texts of mmix_text.h: the sentences of replies, what a host does next, a state printed.
 */
#include <stdio.h>
#include <stdlib.h>
#include <string.h>

#include "header_numbers.h"
#include "header_test.h"

/* A number as people write it: 1,048,576. */
static const char *grouped(uint64_t number)
{
    static char text[32];
    char digits[24];
    int n = snprintf(digits, sizeof digits, "%" PRIu64, number), at = 0;

    for (int k = 0; k < n; k++) {
        text[at++] = digits[k];
        if (k + 1 < n && (n - 1 - k) % 3 == 0)
            text[at++] = ',';
    }
    text[at] = '\0';
    return text;
}

static void try_sentences(void)
{
    for (size_t k = 0; k < COUNT(replies); k++) {
        const char *text = mmix_reply_text(k);
        holds("mmix_reply_text", strcmp(text, replies[k].text) == 0, replies[k].reply.name);
        for (size_t j = 0; j < k; j++)
            holds("mmix_reply_text", strcmp(text, mmix_reply_text(j)) != 0, "two replies have one sentence");
        holds("mmix_reply_next", strcmp(mmix_reply_next(k), mmix_reply_next(34)) != 0, replies[k].reply.name);
    }
    holds("mmix_reply_text", strcmp(mmix_reply_text(34), "no reply of this version") == 0, "34 has a sentence");
    holds("mmix_reply_text", strcmp(mmix_reply_text(UINT64_MAX), "no reply of this version") == 0, "all ones have a sentence");
    holds("mmix_reply_next", strcmp(mmix_reply_next(34), "look for a newer mmix_text.h") == 0, "34 has a sentence");
    holds("mmix_reply_next", strcmp(mmix_reply_next(UINT64_MAX), mmix_reply_next(34)) == 0, "all ones have a sentence");
}

/* The limits that a sentence names are those of mmix.h. */
static void try_limits(void)
{
    static const struct { uint64_t reply, limit; } limits[] = {
        { MMIX_NOT_ADMISSIBLE, MMIX_IMAGE_LEN }, { MMIX_NOT_ADMISSIBLE, MMIX_OLD_IMAGE_LEN }, { MMIX_WINDOW_RULE, MMIX_WINDOW_MAX },
        { MMIX_GRANT_TOO_LARGE, MMIX_GRANT_MAX }, { MMIX_STORE_TOO_SHORT, MMIX_STORE_LEN }, { MMIX_NO_POINT, MMIX_POINTS - 1 },
        { MMIX_TOO_MANY_PAIRS, MMIX_PAIRS_MAX }, { MMIX_TASKS_RULE, MMIX_TASKS_MAX }, { MMIX_TASKS_RULE, MMIX_TURN_MAX }
    };

    for (size_t k = 0; k < COUNT(limits); k++)
        holds("mmix_reply_next, limit", strstr(mmix_reply_next(limits[k].reply), grouped(limits[k].limit)) != NULL, grouped(limits[k].limit));
}

static void try_print(void)
{
    static const char should[] =
        "PC 1f0  halt code 12  marks 00a  mask 00008000\n"
        "   rB 0000000000000007   rN 00000000000007d9   rO 6000000000000000   rS 6000000000000000\n"
        "   rT 8000000500000000  rTT 8000000600000000   rK ffffffffffffffff   rV 369c200400000000\n"
        "   rG 0000000000000020  rZZ fedcba9876543210\n"
        "  $0   0000000000000001  $9   0000000000000002  $10  0000000000000003  $99  0000000000000004\n"
        "  $255 0123456789abcdef\n";
    static uint8_t image[MMIX_IMAGE_LEN];
    struct mmix_state s;
    char text[1024];
    FILE *file = tmpfile();

    if (file == NULL || mmix_initialize(image, sizeof image) != MMIX_DONE || mmix_decode(image, sizeof image, &s) != MMIX_DONE) {
        perror("header_test: tmpfile, or no fresh state");
        exit(EXIT_FAILURE);
    }
    s.pc = 0x1F0, s.halt = 12, s.marks = 10, s.mask = 0x8000, s.special[0] = 7, s.special[31] = UINT64_C(0xFEDCBA9876543210);
    s.general[0] = 1, s.general[9] = 2, s.general[10] = 3, s.general[99] = 4, s.general[255] = UINT64_C(0x0123456789ABCDEF);
    mmix_print_state(file, &s);
    rewind(file);
    text[fread(text, 1, sizeof text - 1, file)] = 0;
    fclose(file);
    holds("mmix_print_state", strcmp(text, should) == 0, text);
}

void try_texts(void)
{
    try_sentences();
    try_limits();
    try_print();
}
