/* mmix_points.h: points taken by the library, as lines and back; rooms of versions 4 and 5; lines of older forms, and bad ones. The program points is
 * held beside it in examples/points/test_store.
 */
#include <stdio.h>
#include <stdlib.h>
#include <string.h>

#include "header_numbers.h"
#include "header_test.h"

enum { NAME = 11, A_OCTAS = 3, B_OCTAS = 2, LINE_LEN = 16384 };

static const uint64_t A_AT = 0x1230, B_AT = MMIX_STACK_START;

static uint8_t store[MMIX_STORE_LEN], room[MMIX_ROOM_LEN], image[MMIX_IMAGE_LEN], a[8 * A_OCTAS], b[8 * B_OCTAS];
static const struct mmix_windows lent = { 0x1230, MMIX_STACK_START, a, sizeof a, b, sizeof b };

static FILE *open_text(const char *text)
{
    FILE *file = tmpfile();

    if (file == NULL || fputs(text, file) < 0) {
        perror("header_test: tmpfile");
        exit(EXIT_FAILURE);
    }
    rewind(file);
    return file;
}

/* What a room's point is written as. */
static enum mmix_line print(uint64_t name, const uint8_t *from, size_t from_len, char text[LINE_LEN])
{
    FILE *file = open_text("");
    enum mmix_line answer = mmix_print_point(file, name, from, from_len);

    rewind(file);
    text[fread(text, 1, LINE_LEN - 1, file)] = '\0';
    fclose(file);
    return answer;
}

/* What a text is read as, into a room that is full of other bytes. */
static enum mmix_line read_text(const char *text, uint64_t *name)
{
    FILE *file = open_text(text);
    enum mmix_line answer;

    memset(room, 0xEE, sizeof room);
    answer = mmix_read_point(file, name, room, sizeof room);
    fclose(file);
    return answer;
}

/* A point's line, put together by octabytes: `digits` for a length, and the mask or none. */
static void write_line(char text[LINE_LEN], int digits, int mask)
{
    int n = sprintf(text, "(point (name b) (octas %0*x %0*x) (bases %016" PRIx64 " %016" PRIx64 ") (state ", digits, A_OCTAS, digits, B_OCTAS, A_AT, B_AT);

    for (int k = 0; k < 291 + mask; k++)
        n += sprintf(text + n, "%016" PRIx64, octabyte(image + 8 * k));
    n += sprintf(text + n, ") (windows ");
    for (int k = 0; k < A_OCTAS + B_OCTAS; k++)
        n += sprintf(text + n, "%016" PRIx64, k < A_OCTAS ? octabyte(a + 8 * k) : octabyte(b + 8 * (k - A_OCTAS)));
    sprintf(text + n, "))\n");
}

/* The state and the windows of which points are taken. */
static void set_start(uint64_t mask)
{
    is("mmix_initialize", mmix_initialize(image, sizeof image), MMIX_DONE);
    for (size_t k = 0; k < 32; k++)
        set_octabyte(image + 8 * k, UINT64_C(0x0123456789ABCDEF) * (k + 1));
    set_octabyte(image + MMIX_AT_PC, 0xFEDC);
    set_octabyte(image + MMIX_AT_MASK, mask);
    for (size_t k = 0; k < sizeof a; k++)
        a[k] = (uint8_t)(17 * k + 1);
    for (size_t k = 0; k < sizeof b; k++)
        b[k] = (uint8_t)(255 - 31 * k);
}

/* The room has the point, and what lies behind a window in its place is as it was. */
static void room_is(const char *what)
{
    const uint8_t *numbers = room + 2336, *place_a = numbers + 40, *place_b = place_a + 1048576;

    holds(what, memcmp(room, image, sizeof image) == 0, "another image");
    holds(what, octabyte(numbers) == A_AT && octabyte(numbers + 8) == B_AT, "other bases");
    holds(what, octabyte(numbers + 16) == A_OCTAS && octabyte(numbers + 24) == B_OCTAS && octabyte(numbers + 32) == 1, "other lengths, or not taken");
    holds(what, memcmp(place_a, a, sizeof a) == 0 && memcmp(place_b, b, sizeof b) == 0, "other windows");
    for (size_t k = sizeof a; k < 1048576; k += 4093)
        holds(what, place_a[k] == 0xEE && (k < sizeof b || place_b[k] == 0xEE), "it writes behind a window");
    holds(what, place_a[sizeof a] == 0xEE && place_b[sizeof b] == 0xEE && place_b[1048575] == 0xEE, "it writes behind a window");
}

/* A point is taken, written, read into another store, and gone back to. */
static void try_taken(void)
{
    static char text[LINE_LEN], should[LINE_LEN];
    static uint8_t other[MMIX_STORE_LEN], before[MMIX_IMAGE_LEN];
    uint64_t name = 99;

    set_start(UINT64_C(1) << MMIX_RK);
    memcpy(before, image, sizeof image);
    is("mmix_take_in", mmix_take_in(&lent, NAME, image, sizeof image, store, sizeof store), MMIX_DONE);
    is("mmix_print_point", print(NAME, store + NAME * MMIX_ROOM_LEN, MMIX_ROOM_LEN, text), MMIX_LINE_DONE);
    write_line(should, 8, 1);
    holds("mmix_print_point", strcmp(text, should) == 0, "another line");
    is("mmix_read_point", read_text(text, &name), MMIX_LINE_DONE);
    is("mmix_read_point, name", name, NAME);
    room_is("mmix_read_point");
    memcpy(other + name * MMIX_ROOM_LEN, room, sizeof room);
    memset(image, 0x55, sizeof image);
    memset(a, 0, sizeof a);
    memset(b, 0, sizeof b);
    is("mmix_go_back_in, to a point that was read", mmix_go_back_in(&lent, NAME, image, sizeof image, other, sizeof other), MMIX_DONE);
    holds("mmix_go_back_in, to a point that was read", memcmp(image, before, sizeof image) == 0 && a[1] == 18 && b[1] == 224, "another state or window");
}

/* Rooms as versions 4 and 5 laid them out: an image, five octabytes, two places of 65,536 bytes. */
static void try_old_rooms(void)
{
    static uint8_t old[133448];
    static char text[LINE_LEN], should[LINE_LEN];

    for (size_t version = 4; version <= 5; version++) {
        size_t image_len = version == 4 ? 2328 : 2336, room_len = image_len + 40 + 2 * 65536;
        const uint64_t numbers[5] = { A_AT, B_AT, A_OCTAS, B_OCTAS, 1 };
        uint64_t name;

        set_start(version == 4 ? 0 : UINT64_C(1) << MMIX_RK);
        memset(old, 0xEE, sizeof old);
        memcpy(old, image, image_len);
        for (size_t k = 0; k < 5; k++)
            set_octabyte(old + image_len + 8 * k, numbers[k]);
        memcpy(old + image_len + 40, a, sizeof a);
        memcpy(old + image_len + 40 + 65536, b, sizeof b);
        is("MMIX_ROOM_LEN_4, MMIX_ROOM_LEN_5", room_len, version == 4 ? MMIX_ROOM_LEN_4 : MMIX_ROOM_LEN_5);
        is("mmix_print_point, an old room", print(NAME, old, room_len, text), MMIX_LINE_DONE);
        write_line(should, 8, 1);
        holds("mmix_print_point, an old room", strcmp(text, should) == 0, "another line");
        is("mmix_read_point, of an old room", read_text(text, &name), MMIX_LINE_DONE);
        room_is("mmix_read_point, of an old room");
        set_octabyte(old + image_len + 24, 65536 / 8 + 1);
        is("MMIX_OLD_WINDOW_MAX, one octabyte more", print(NAME, old, room_len, text), MMIX_LINE_BAD);
        set_octabyte(old + image_len + 24, 65536 / 8);
        set_octabyte(old + image_len + 16, 0);
        is("MMIX_OLD_WINDOW_MAX", print(NAME, old, room_len, text), MMIX_LINE_DONE);
    }
}

/* Lines with four digits for a length, without a mask, and both. */
static void try_old_lines(void)
{
    static char text[LINE_LEN];

    for (int form = 0; form < 4; form++) {
        uint64_t name = 99;

        set_start(form % 2 == 1 ? UINT64_C(1) << MMIX_RK : 0);
        write_line(text, form < 2 ? 4 : 8, form % 2);
        is("mmix_read_point, an older line", read_text(text, &name), MMIX_LINE_DONE);
        is("mmix_read_point, an older line's name", name, NAME);
        room_is("mmix_read_point, an older line");
    }
}

/* A good line with some of its text replaced is bad, and the room keeps no point. */
static void try_bad_lines(void)
{
    static const char *const edits[][2] = {
        { "(point", " (point" }, { "(point", "(Point" }, { "(name b)", "(name B)" }, { "(name b)", "(name 0b)" }, { "(name b)", "(name g)" },
        { "(name b)", "(name )" },
        { "(octas 00000003 ", "(octas 0003 " }, { " 00000002)", " 0002)" }, { "(octas 00000003 00000002", "(octas 0003 00000002" }, { "00000003", "0000003" },
        { "00000003", "000000003" }, { "00000003", "00000004" }, { "00000002)", "00000001)" }, { "00000003", "00020001" }, { "00000003", "0000000A" },
        { "(octas 00000003 00000002)", "(octas 2001 0002)" }, { "(bases 0", "(bases " }, { "(bases 0", "(bases 00" }, { "(bases ", "(bases  " },
        { "(state ", "(state 0" }, { "(state 0", "(state " }, { "(state 0", "(state A" }, { "(state 0", "(state #" }, { ") (windows", "00) (windows" },
        { "00) (windows", ") (windows" }, { "00000000000000) (windows", ") (windows" }, { "(windows ", "(windows 0" }, { "(windows ", "(windows" },
        { "(windows 0", "(windows :" }, { "(windows 0", "(windows `" }, { "))\n", "))" }, { "))\n", ")) \n" }, { "))\n", "))\r\n" },
        { "))\n", ")\n" }, { "))\n", ")))\n" }
    };
    static char text[LINE_LEN], edited[2 * LINE_LEN];

    set_start(0);
    write_line(text, 8, 1);
    for (size_t k = 0; k < COUNT(edits); k++) {
        const char *at = strstr(text, edits[k][0]);
        uint64_t name;

        if (at == NULL) {
            holds("a bad line", 0, edits[k][0]);
            continue;
        }
        sprintf(edited, "%.*s%s%s", (int)(at - text), text, edits[k][1], at + strlen(edits[k][0]));
        holds("a bad line", read_text(edited, &name) == MMIX_LINE_BAD && octabyte(room + 2336 + 32) == 0, edits[k][1]);
    }
    for (size_t n = 1; n < strlen(text); n += n < 100 || n > 4740 ? 1 : 97) {
        uint64_t name;

        sprintf(edited, "%.*s", (int)n, text);
        holds("a line cut short", read_text(edited, &name) == MMIX_LINE_BAD && octabyte(room + 2336 + 32) == 0, "it is read");
    }
}

/* No point, no room, no line, and streams that fail. */
static void try_none(void)
{
    static char text[LINE_LEN];
    FILE *folder = fopen(".", "r"), *closed = fopen("/dev/null", "r");
    uint64_t name;

    is("mmix_print_point, nothing taken", print(1, store + MMIX_ROOM_LEN, MMIX_ROOM_LEN, text), MMIX_LINE_NONE);
    set_octabyte(store + NAME * MMIX_ROOM_LEN + 2336 + 32, 0);
    is("mmix_print_point, not taken any more", print(NAME, store + NAME * MMIX_ROOM_LEN, MMIX_ROOM_LEN, text), MMIX_LINE_NONE);
    set_octabyte(store + NAME * MMIX_ROOM_LEN + 2336 + 32, 1);
    is("mmix_print_point, a name above 15", print(16, store + NAME * MMIX_ROOM_LEN, MMIX_ROOM_LEN, text), MMIX_LINE_BAD);
    is("mmix_print_point, a room cut short", print(NAME, store + NAME * MMIX_ROOM_LEN, MMIX_ROOM_LEN - 8, text), MMIX_LINE_BAD);
    set_octabyte(store + NAME * MMIX_ROOM_LEN + 2336 + 16, MMIX_WINDOW_MAX / 8 + 1);
    is("mmix_print_point, A too long", print(NAME, store + NAME * MMIX_ROOM_LEN, MMIX_ROOM_LEN, text), MMIX_LINE_BAD);
    holds("mmix_print_point", text[0] == '\0', "something is written of what is bad");
    set_octabyte(store + NAME * MMIX_ROOM_LEN + 2336 + 16, A_OCTAS);
    is("mmix_read_point, the end", read_text("", &name), MMIX_LINE_NONE);
    holds("mmix_read_point, the end", room[0] == 0xEE && room[2336] == 0xEE, "the room is changed");
    holds("streams that fail", folder != NULL && closed != NULL, "can't be opened");
    if (folder == NULL || closed == NULL)
        return;
    is("mmix_read_point, of a folder", mmix_read_point(folder, &name, room, sizeof room), MMIX_LINE_FAILED);
    is("mmix_read_point, a room cut short", mmix_read_point(closed, &name, room, sizeof room - 1), MMIX_LINE_BAD);
    is("mmix_print_point, to a stream for reading", mmix_print_point(closed, NAME, store + NAME * MMIX_ROOM_LEN, MMIX_ROOM_LEN), MMIX_LINE_FAILED);
    fclose(folder);
    fclose(closed);
}

/* Both lengths have a limit, by eight digits and by four. */
static void try_lengths(void)
{
    static const struct { const char *text; int read; } lengths[] = {
        { "00020000 00020000", 1 }, { "00020001 00000000", 0 }, { "00000000 00020001", 0 }, { "2000 2000", 1 }, { "2001 0000", 0 }, { "0000 2001", 0 }
    };

    for (size_t k = 0; k < COUNT(lengths); k++) {
        FILE *file = open_text(lengths[k].text);
        uint64_t first, second;

        is(lengths[k].text, (uint64_t)mmix_read_lengths(file, &first, &second), (uint64_t)lengths[k].read);
        fclose(file);
    }
}

/* The parts of which a line is read and written. */
static void try_parts(void)
{
    FILE *file = open_text("ab 00ff0G 0003 0002 00000003 0002 ");
    uint64_t value = 1, other = 1;
    uint8_t bytes[2] = { 1, 1 };

    holds("mmix_read_words", mmix_read_words(file, "ab ") && !mmix_read_words(file, "1"), "it reads something else");
    fseek(file, 3, SEEK_SET);
    holds("mmix_read_bytes", mmix_read_bytes(file, bytes, 2) && bytes[0] == 0 && bytes[1] == 0xFF, "it reads something else");
    holds("mmix_read_number", !mmix_read_number(file, 2, &value), "a capital digit is read");
    fseek(file, 10, SEEK_SET);
    holds("mmix_read_lengths", mmix_read_lengths(file, &value, &other) && value == 3 && other == 2, "lengths of four digits");
    fseek(file, 20, SEEK_SET);
    holds("mmix_read_lengths", !mmix_read_lengths(file, &value, &other), "lengths of eight and four digits");
    holds("mmix_read_image", !mmix_read_image(file, room), "an image at the text's end");
    rewind(file);
    mmix_print_bytes(file, (const uint8_t *)"\x0A\xBC", 2);
    rewind(file);
    holds("mmix_print_bytes", mmix_read_words(file, "0abc0ff0G"), "it writes something else");
    fclose(file);
}

void try_points(void)
{
    try_taken();
    try_old_rooms();
    try_old_lines();
    try_bad_lines();
    try_none();
    try_lengths();
    try_parts();
}
