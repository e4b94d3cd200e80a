/* Moves the points of a store, kept in a file, as lines.
 *
 *     store_lines print STORE > LINES      the line of each point, in order of name; STORE is of version 4, 5 or 6, as its length says
 *     store_lines read STORE < LINES       each line's point into its room; STORE is of version 6, and is made where it is not there
 *
 * A bad line is reported with its number, and STORE is then left as it was.
 */
#include <errno.h>
#include <stdio.h>
#include <stdlib.h>
#include <string.h>

#include "mmix.h"
#include "mmix_points.h"

static uint8_t store[MMIX_STORE_LEN + 1], room[MMIX_ROOM_LEN];

static void end(const char *what, const char *why)
{
    fprintf(stderr, "store_lines: %s: %s\n", what, why);
    exit(EXIT_FAILURE);
}

/* The store in a file; its length. */
static size_t read_store(const char *path)
{
    FILE *file = fopen(path, "rb");
    size_t length;

    if (file == NULL)
        end(path, strerror(errno));
    length = fread(store, 1, sizeof store, file);
    if (ferror(file))
        end(path, strerror(errno));
    fclose(file);
    return length;
}

static void print(const char *path)
{
    size_t length = read_store(path), room_len = length / MMIX_POINTS;

    if (length % MMIX_POINTS != 0 || (room_len != MMIX_ROOM_LEN && room_len != MMIX_ROOM_LEN_5 && room_len != MMIX_ROOM_LEN_4))
        end(path, "it has not the length of a store of version 4, 5 or 6");
    for (uint64_t name = 0; name < MMIX_POINTS; name++) {
        enum mmix_line answer = mmix_print_point(stdout, name, store + name * room_len, room_len);

        if (answer == MMIX_LINE_BAD)
            end(path, "a room has a window longer than the longest");
        if (answer == MMIX_LINE_FAILED)
            end("standard output", strerror(errno));
    }
    if (fflush(stdout) != 0)
        end("standard output", strerror(errno));
}

static void read_lines(const char *path)
{
    FILE *file = fopen(path, "rb");
    unsigned long line = 1;
    enum mmix_line answer;
    uint64_t name;
    char where[64];

    if (file != NULL) {
        fclose(file);
        if (read_store(path) != MMIX_STORE_LEN)
            end(path, "it has not the length of a store of version 6");
    }
    while ((answer = mmix_read_point(stdin, &name, room, sizeof room)) == MMIX_LINE_DONE) {
        memcpy(store + name * MMIX_ROOM_LEN, room, sizeof room);
        memset(room, 0, sizeof room);
        line++;
    }
    if (answer == MMIX_LINE_FAILED)
        end("standard input", strerror(errno));
    if (answer == MMIX_LINE_BAD) {
        snprintf(where, sizeof where, "line %lu", line);
        end(where, "it is no point's");
    }
    file = fopen(path, "wb");
    if (file == NULL || fwrite(store, 1, MMIX_STORE_LEN, file) != MMIX_STORE_LEN || fclose(file) != 0)
        end(path, strerror(errno));
}

int main(int count, char **words)
{
    if (count == 3 && strcmp(words[1], "print") == 0)
        print(words[2]);
    else if (count == 3 && strcmp(words[1], "read") == 0)
        read_lines(words[2]);
    else
        end("store_lines print STORE, or store_lines read STORE", "a verb and a file are needed");
    return EXIT_SUCCESS;
}
