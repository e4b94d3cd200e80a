/* Replays a fixed list of the Rust's answers on the library, with no Rust at hand, and prints how many agree.
 *
 *     replay LIST      make replay
 *
 * examples/replay/answers is the list. `make replay-list` writes it by running the Rust; the head of oracle/src/bin/replay_list.rs says what each of its
 * octabytes is. A record is the start of a case, one step or one exception, and what the Rust left of it: reply, PC, halt code, rG, rL, rO, and the sums of
 * the whole state and of the whole window. The status is 1 unless all agree; a list that is damaged or cut short ends in a lower count.
 */
#include <inttypes.h>
#include <stdbool.h>
#include <stdio.h>
#include <stdlib.h>

#include "mmix.h"

/* What is given, by its number from 0 up; of a line of numbers the two are the first number and what each next one adds. */
enum { CALL, Y_VAL, Z_VAL, BASE, OCTABYTES, GENERAL, SPECIAL = 7, WINDOW = 9, PC = 11, HALT, MARKS, RG, RL, RA, RO, RS, PAIRS, GIVEN, TOLD = 10 };
enum { WINDOW_MOST = 512, WINDOW_PLACES = 4096, LIST_MOST = 1 << 20 };

struct sums {
    uint64_t plain, running;
};

static uint8_t list[LIST_MOST], image[MMIX_OLD_IMAGE_LEN], window[8 * WINDOW_MOST];

static uint64_t given(const uint8_t *record, size_t k)
{
    return mmix_octabyte(record, 8 * k);
}

/* Octabytes `from` to `to` of some bytes become a line of numbers. */
static void write_line(uint8_t *bytes, size_t from, size_t to, uint64_t first, uint64_t by)
{
    for (size_t k = from; k < to; k++)
        mmix_set_octabyte(bytes, 8 * k, first + by * (k - from));
}

/* The order counts in the second sum. */
static struct sums sums_of(const uint8_t *bytes, size_t octabytes)
{
    struct sums sums = { 0, 0 };

    for (size_t k = 0; k < octabytes; k++) {
        sums.plain += mmix_octabyte(bytes, 8 * k);
        sums.running += sums.plain;
    }
    return sums;
}

static void build_state(const uint8_t *record)
{
    static const uint8_t apart[][2] = { { MMIX_RG, RG }, { MMIX_RL, RL }, { MMIX_RA, RA }, { MMIX_RO, RO }, { MMIX_RS, RS } };

    write_line(image, 0, 256, given(record, GENERAL), given(record, GENERAL + 1));
    write_line(image, (size_t)given(record, RL), (size_t)given(record, RG), 0, 0);
    write_line(image + MMIX_AT_SPECIAL(0), 0, 32, given(record, SPECIAL), given(record, SPECIAL + 1));
    for (size_t k = 0; k < sizeof apart / sizeof *apart; k++)
        mmix_set_octabyte(image, MMIX_AT_SPECIAL(apart[k][0]), given(record, apart[k][1]));
    mmix_set_octabyte(image, MMIX_AT_PC, given(record, PC));
    mmix_set_octabyte(image, MMIX_AT_HALT, given(record, HALT));
    mmix_set_octabyte(image, MMIX_AT_MARKS, given(record, MARKS));
}

/* What is set apart, one after the other: below 256 a general register, at 4096 + j octabyte j of the window. */
static void set_places(const uint8_t *record, size_t octabytes)
{
    for (size_t k = 0; k < given(record, PAIRS); k++) {
        uint64_t place = given(record, GIVEN + 2 * k), value = given(record, GIVEN + 2 * k + 1);

        if (place < 256)
            mmix_set_octabyte(image, MMIX_AT_GENERAL(place), value);
        else if (place >= WINDOW_PLACES && place - WINDOW_PLACES < octabytes)
            mmix_set_octabyte(window, 8 * (size_t)(place - WINDOW_PLACES), value);
    }
}

static uint64_t called(const uint8_t *record, size_t octabytes)
{
    struct mmix_windows lent = mmix_one_window(given(record, BASE), window, 8 * octabytes);

    if (record[0] == 0)
        return mmix_step_in(&lent, record[2], record[3], record[4], record[5], image, sizeof image);
    return mmix_exceptions(record[1], record[2], record[3], record[4], record[5], given(record, Y_VAL), given(record, Z_VAL), image, sizeof image);
}

/* Whether the library leaves what is told of the case that is given; never so of a case that breaks the list's rules. */
static bool agrees(const uint8_t *record, const uint8_t *told)
{
    size_t octabytes = (size_t)given(record, OCTABYTES);

    if (given(record, OCTABYTES) > WINDOW_MOST || given(record, RG) > 256 || given(record, RL) > given(record, RG))
        return false;
    build_state(record);
    write_line(window, 0, octabytes, given(record, WINDOW), given(record, WINDOW + 1));
    set_places(record, octabytes);

    uint64_t reply = called(record, octabytes);
    struct sums state = sums_of(image, sizeof image / 8), memory = sums_of(window, octabytes);
    const uint64_t found[TOLD] = { reply, mmix_octabyte(image, MMIX_AT_PC), mmix_octabyte(image, MMIX_AT_HALT),
                                   mmix_octabyte(image, MMIX_AT_SPECIAL(MMIX_RG)), mmix_octabyte(image, MMIX_AT_SPECIAL(MMIX_RL)),
                                   mmix_octabyte(image, MMIX_AT_SPECIAL(MMIX_RO)), state.plain, state.running, memory.plain, memory.running };
    for (size_t k = 0; k < TOLD; k++)
        if (given(told, k) != found[k])
            return false;
    return true;
}

int main(int count, char **words)
{
    FILE *file = count == 2 ? fopen(words[1], "rb") : NULL;
    size_t len = file ? fread(list, 1, sizeof list, file) : 0, at = 8;
    uint64_t records = len < 8 ? 0 : mmix_octabyte(list, 0), agree = 0, number = 0;

    for (; number < records; number++) {
        size_t room = (len - at) / 8;
        uint64_t pairs = room < GIVEN + TOLD ? UINT64_MAX : given(list + at, PAIRS);

        if (pairs > (room - GIVEN - TOLD) / 2)
            break;
        size_t told = at + 8 * (GIVEN + 2 * (size_t)pairs);
        if (agrees(list + at, list + told))
            agree++;
        else if (agree == number)
            printf("the first that does not is record %" PRIu64 "\n", number);
        at = told + 8 * TOLD;
    }
    printf("replay: %" PRIu64 " of %" PRIu64 " answers agree\n", agree, records);
    return records > 0 && agree == records ? EXIT_SUCCESS : EXIT_FAILURE;
}
