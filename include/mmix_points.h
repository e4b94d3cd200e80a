/* mmix_points.h: a point's room as a line of text and back, to look at points and to move them from one store to another.
 *
 *     (point (name 3) (octas 00000100 00000010) (bases 0000000000000000 6000000000000000) (state ..) (windows ..))
 *
 * A line has the name, the lengths of A and B in octabytes, their bases, the image, and the bytes of A and then of B, all in lower-case
 * hexadecimal; a newline ends it. The program points reads and writes just these lines, and of that program it is proved. Unlike it and the
 * library, nothing here is proved, and no function of the library calls it.
 *
 * A store of version 3.1 or 4, or of 5, is none of 6: its points move over as lines.
 *
 *     for (uint64_t name = 0; name < MMIX_POINTS; name++)
 *         mmix_print_point(lines, name, old_store + name * MMIX_ROOM_LEN_5, MMIX_ROOM_LEN_5);
 *     rewind(lines);
 *     while (mmix_read_point(lines, &name, room, sizeof room) == MMIX_LINE_DONE)
 *         memcpy(store + name * MMIX_ROOM_LEN, room, sizeof room);
 */
#ifndef MMIX_POINTS_H
#define MMIX_POINTS_H

#include <inttypes.h>
#include <stdio.h>
#include <string.h>

#include "mmix.h"

/* The rooms of older stores: before 6 a window had at most MMIX_OLD_WINDOW_MAX bytes, before 5 an image had MMIX_OLD_IMAGE_LEN. Both keep the order
 * of a room of today (mmix.h, MMIX_ROOM_LEN); sixteen are a store. */
#define MMIX_OLD_WINDOW_MAX 65536
#define MMIX_ROOM_LEN_4 (MMIX_OLD_IMAGE_LEN + 40 + 2 * MMIX_OLD_WINDOW_MAX)
#define MMIX_ROOM_LEN_5 (MMIX_IMAGE_LEN + 40 + 2 * MMIX_OLD_WINDOW_MAX)

/* What became of a line. */
enum mmix_line {
    MMIX_LINE_DONE = 0,     /* It was written, or read. */
    MMIX_LINE_NONE = 1,     /* There is none: the room keeps no point, or the text has ended. */
    MMIX_LINE_BAD = 2,      /* No point's: a name above 15, a room of no such length, a window longer than the longest; a line of another form. */
    MMIX_LINE_FAILED = 3    /* Reading or writing failed; errno says why. */
};

static inline void mmix_print_bytes(FILE *out, const uint8_t *bytes, size_t count)
{
    for (size_t k = 0; k < count; k++) {
        putc("0123456789abcdef"[bytes[k] >> 4], out);
        putc("0123456789abcdef"[bytes[k] & 15], out);
    }
}

/* Writes the line of the point in a room; room_len says of which version the room is: MMIX_ROOM_LEN, MMIX_ROOM_LEN_5 or MMIX_ROOM_LEN_4. A state
 * of 4 is written with an empty mask, and all in the form of today. Nothing is written at NONE and BAD. As with fprintf, a write
 * that fails may show only when the stream is flushed. */
static inline enum mmix_line mmix_print_point(FILE *out, uint64_t name, const uint8_t *room, size_t room_len)
{
    size_t image_len = room_len == MMIX_ROOM_LEN_4 ? MMIX_OLD_IMAGE_LEN : MMIX_IMAGE_LEN;
    size_t most = room_len == MMIX_ROOM_LEN ? MMIX_WINDOW_MAX : MMIX_OLD_WINDOW_MAX;
    const uint8_t *numbers;
    uint64_t a, b;

    if (name >= MMIX_POINTS || (room_len != MMIX_ROOM_LEN && room_len != MMIX_ROOM_LEN_5 && room_len != MMIX_ROOM_LEN_4))
        return MMIX_LINE_BAD;
    numbers = room + image_len;
    if (mmix_octabyte(numbers, 32) == 0)
        return MMIX_LINE_NONE;
    a = mmix_octabyte(numbers, 16);
    b = mmix_octabyte(numbers, 24);
    if (a > most / 8 || b > most / 8)
        return MMIX_LINE_BAD;
    fprintf(out, "(point (name %" PRIx64 ") (octas %08" PRIx64 " %08" PRIx64 ") (bases %016" PRIx64 " %016" PRIx64 ") (state ", name, a, b,
            mmix_octabyte(numbers, 0), mmix_octabyte(numbers, 8));
    mmix_print_bytes(out, room, image_len);
    fputs(image_len == MMIX_OLD_IMAGE_LEN ? "0000000000000000) (windows " : ") (windows ", out);
    mmix_print_bytes(out, numbers + 40, 8 * (size_t)a);
    mmix_print_bytes(out, numbers + 40 + most, 8 * (size_t)b);
    fputs("))\n", out);
    return ferror(out) ? MMIX_LINE_FAILED : MMIX_LINE_DONE;
}

/* Each of these is 0 where the text goes on otherwise. */
static inline int mmix_read_words(FILE *in, const char *words)
{
    for (; *words != '\0'; words++)
        if (getc(in) != *words)
            return 0;
    return 1;
}

static inline int mmix_read_number(FILE *in, unsigned digits, uint64_t *value)
{
    for (*value = 0; digits > 0; digits--) {
        int c = getc(in);

        if (c >= '0' && c <= '9')
            *value = *value << 4 | (uint64_t)(c - '0');
        else if (c >= 'a' && c <= 'f')
            *value = *value << 4 | (uint64_t)(c - 'a' + 10);
        else
            return 0;
    }
    return 1;
}

static inline int mmix_read_bytes(FILE *in, uint8_t *bytes, size_t count)
{
    uint64_t byte;

    for (size_t k = 0; k < count; k++) {
        if (!mmix_read_number(in, 2, &byte))
            return 0;
        bytes[k] = (uint8_t)byte;
    }
    return 1;
}

/* Both lengths, of eight digits each, or of four each in an older line. */
static inline int mmix_read_lengths(FILE *in, uint64_t *a, uint64_t *b)
{
    uint64_t most = MMIX_WINDOW_MAX / 8, low;
    unsigned digits = 8;
    int c;

    if (!mmix_read_number(in, 4, a))
        return 0;
    c = getc(in);
    if (c == ' ') {
        most = MMIX_OLD_WINDOW_MAX / 8;
        digits = 4;
    } else {
        ungetc(c, in);
        if (!mmix_read_number(in, 4, &low) || !mmix_read_words(in, " "))
            return 0;
        *a = *a << 16 | low;
    }
    return mmix_read_number(in, digits, b) && *a <= most && *b <= most;
}

/* The image and what closes it; the mask is empty where an older line has none. */
static inline int mmix_read_image(FILE *in, uint8_t *image)
{
    int c;

    if (!mmix_read_bytes(in, image, MMIX_OLD_IMAGE_LEN))
        return 0;
    c = getc(in);
    if (c == ')') {
        mmix_set_octabyte(image, MMIX_AT_MASK, 0);
        return 1;
    }
    ungetc(c, in);
    return mmix_read_bytes(in, image + MMIX_OLD_IMAGE_LEN, MMIX_IMAGE_LEN - MMIX_OLD_IMAGE_LEN) && mmix_read_words(in, ")");
}

/* Reads a line, of today's form or an older one, and makes a room of today, of MMIX_ROOM_LEN bytes, that of its point; *name is where in a store
 * it belongs. What lies behind a window in its place stays as it was. At BAD and FAILED the room keeps no point, and the rest of the line is
 * not read; at NONE, and where room_len is another, no byte of it is changed. */
static inline enum mmix_line mmix_read_point(FILE *in, uint64_t *name, uint8_t *room, size_t room_len)
{
    uint8_t *numbers, *windows;
    uint64_t a, b, base_a, base_b;
    int c;

    if (room_len != MMIX_ROOM_LEN)
        return MMIX_LINE_BAD;
    numbers = room + MMIX_IMAGE_LEN;
    windows = numbers + 40;
    c = getc(in);
    if (c == EOF)
        return ferror(in) ? MMIX_LINE_FAILED : MMIX_LINE_NONE;
    ungetc(c, in);
    memset(numbers, 0, 40);
    if (!mmix_read_words(in, "(point (name ") || !mmix_read_number(in, 1, name) || !mmix_read_words(in, ") (octas ")
        || !mmix_read_lengths(in, &a, &b) || !mmix_read_words(in, ") (bases ") || !mmix_read_number(in, 16, &base_a)
        || !mmix_read_words(in, " ") || !mmix_read_number(in, 16, &base_b) || !mmix_read_words(in, ") (state ")
        || !mmix_read_image(in, room) || !mmix_read_words(in, " (windows ") || !mmix_read_bytes(in, windows, 8 * (size_t)a)
        || !mmix_read_bytes(in, windows + MMIX_WINDOW_MAX, 8 * (size_t)b) || !mmix_read_words(in, "))\n"))
        return ferror(in) ? MMIX_LINE_FAILED : MMIX_LINE_BAD;
    mmix_set_octabyte(numbers, 0, base_a);
    mmix_set_octabyte(numbers, 8, base_b);
    mmix_set_octabyte(numbers, 16, a);
    mmix_set_octabyte(numbers, 24, b);
    mmix_set_octabyte(numbers, 32, 1);
    return MMIX_LINE_DONE;
}

#endif
