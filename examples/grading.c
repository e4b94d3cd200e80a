/* A grading study, as a program of MMIX: examples/grading/grading.mms grades adjacent pairs of relays from curves in window A.
 * This host loads it from its listing, puts the line's curves and faults into window A, runs it by grants, serves its halt and
 * prints the pairs.
 *
 *     grading LISTING      make host
 */
#include <inttypes.h>
#include <stdio.h>
#include <stdlib.h>
#include <string.h>

#include "mmix.h"
#include "mmix_text.h"

enum { LOW_LEN = 2560, STACK_LEN = 8192, GRANT = 64, MOST = 10000 };     /* A starts at address 0 */
enum { RELAYS = 4, POINTS = 6, MARGIN = 300, LATE = 100 };               /* times in ms */

/* Where things are in a block of the listing. */
enum { AT_RELAYS = 0, AT_MARGIN = 8, AT_LATE = 16, AT_OPEN = 24, AT_OPEN_LATE = 32, AT_VERDICTS = 48, AT_VERDICTS_LATE = 56,
       AT_FAULTS = 64, AT_CURVES = 128, VERDICTS = 0x200, VERDICTS_LATE = 0x260, VERDICT_LEN = 24 };

enum { PROGRAM = 0x100, FORWARD = 0xF0, REVERSED = 0x0F };

struct point {
    uint32_t current, time;    /* A, ms */
};

struct relay {
    const char *station;
    uint32_t fault;            /* the current of a fault just beyond its breaker, A */
    struct point curve[POINTS];
};

/* One direction of feed: relay 0 is the one at the feed. Curves of standard inverse type, read off at six currents. */
struct direction {
    const char *name;
    unsigned block, marker;
    struct relay relays[RELAYS];
};

static const struct direction directions[2] = {
    { "forward, fed from North", 0x400, FORWARD, {
        { "North", 7000, { { 800, 4212 }, { 1600, 2091 }, { 3200, 1385 }, { 5600, 1085 }, { 8800, 922 }, { 60000, 922 } } },
        { "Mill", 4200, { { 600, 3009 }, { 1200, 1494 }, { 2400, 989 }, { 4200, 775 }, { 6600, 659 }, { 60000, 659 } } },
        { "Quarry", 2600, { { 400, 2006 }, { 800, 996 }, { 1600, 659 }, { 2800, 517 }, { 4400, 439 }, { 60000, 439 } } },
        { "Weir", 1500, { { 240, 1103 }, { 480, 548 }, { 960, 363 }, { 1680, 284 }, { 2640, 241 }, { 60000, 241 } } } } },
    { "reversed, fed from South", 0x700, REVERSED, {
        { "South", 6000, { { 700, 4012 }, { 1400, 1992 }, { 2800, 1319 }, { 4900, 1033 }, { 7700, 878 }, { 60000, 878 } } },
        { "Weir", 3800, { { 560, 2808 }, { 1120, 1394 }, { 2240, 923 }, { 3920, 723 }, { 6160, 615 }, { 60000, 615 } } },
        { "Quarry", 2400, { { 440, 2407 }, { 880, 1195 }, { 1760, 791 }, { 3080, 620 }, { 4840, 527 }, { 60000, 527 } } },
        { "Mill", 1300, { { 280, 802 }, { 560, 398 }, { 1120, 264 }, { 1960, 207 }, { 3080, 176 }, { 60000, 176 } } } } }
};

static uint8_t image[MMIX_IMAGE_LEN];
static uint8_t low[LOW_LEN], stack[STACK_LEN];
static const struct mmix_windows lent = { 0, MMIX_STACK_START, low, LOW_LEN, stack, STACK_LEN };

/* The four bytes of a tetra, high byte first. */
static uint32_t tetra(const uint8_t *at)
{
    return (uint32_t)at[0] << 24 | (uint32_t)at[1] << 16 | (uint32_t)at[2] << 8 | at[3];
}

static void set_tetra(uint8_t *at, uint32_t value)
{
    for (unsigned k = 0; k < 4; k++)
        at[k] = (uint8_t)(value >> (24 - 8 * k));
}

/* Says why the host ends, and ends. */
static void end(const char *what, const char *why)
{
    fflush(stdout);
    fprintf(stderr, "grading: %s: %s\n", what, why);
    exit(EXIT_FAILURE);
}

/* The program into window A: each line of the listing that does not begin with an asterisk has an address and four bytes. */
static void load_program(const char *path)
{
    char line[256];
    unsigned at, byte[4], tetras = 0;
    FILE *listing = fopen(path, "r");

    if (listing == NULL)
        end(path, "can't be read");
    while (fgets(line, sizeof line, listing) != NULL) {
        if (line[0] == '*' || line[0] == '\n')
            continue;
        if (sscanf(line, "%x %2x %2x %2x %2x", &at, &byte[0], &byte[1], &byte[2], &byte[3]) != 5)
            end(path, "a line has no address and four bytes");
        if (at < PROGRAM || at + 4 > directions[0].block || at % 4 != 0)
            end(path, "an address lies outside of the program's part");
        for (unsigned k = 0; k < 4; k++)
            low[at + k] = (uint8_t)byte[k];
        tetras++;
    }
    if (ferror(listing) || tetras == 0)
        end(path, "can't be read, or is empty");
    fclose(listing);
}

/* What is known of a direction of feed, as the listing says where. */
static void load_block(const struct direction *direction)
{
    uint8_t *block = low + direction->block;

    mmix_set_octabyte(block, AT_RELAYS, RELAYS);
    mmix_set_octabyte(block, AT_MARGIN, MARGIN);
    mmix_set_octabyte(block, AT_LATE, LATE);
    mmix_set_octabyte(block, AT_VERDICTS, direction->block + VERDICTS);
    mmix_set_octabyte(block, AT_VERDICTS_LATE, direction->block + VERDICTS_LATE);
    for (unsigned k = 0; k < RELAYS; k++) {
        const struct relay *relay = &direction->relays[k];

        mmix_set_octabyte(block, AT_FAULTS + 8 * k, relay->fault);
        for (unsigned j = 0; j < POINTS; j++) {
            uint8_t *point = block + AT_CURVES + 8 * (POINTS * k + j);

            set_tetra(point, relay->curve[j].current);
            set_tetra(point + 4, relay->curve[j].time);
        }
    }
}

/* Runs the program, grant after grant, until it halts; any other refusal, or too many instructions, ends the host. */
static void run(void)
{
    uint64_t total = 0, done, reply;
    unsigned grants = 0;

    do {
        reply = mmix_run_in(&lent, GRANT, image, sizeof image, &done);
        total += done;
        grants++;
    } while (reply == MMIX_DONE && total < MOST);

    uint64_t pc = mmix_octabyte(image, MMIX_AT_PC);
    if (reply != MMIX_NAMED_TRAP)
        end("the program stops", mmix_reply_text(reply));
    if (pc > LOW_LEN - 4 || tetra(low + pc) != 0)               /* TRAP 0,Halt,0 */
        end("the program stops", "it asks for a system call that this host does not serve");
    printf("The study ran to its halt at %" PRIx64 ": %" PRIu64 " instructions in %u grants of %d.\n", pc, total, grants, GRANT);
}

/* The pairs of a direction of feed, as one study left them. */
static void print_pairs(const struct direction *direction, unsigned verdicts, int needed)
{
    for (unsigned k = 1; k < RELAYS; k++) {
        const uint8_t *verdict = low + direction->block + verdicts + VERDICT_LEN * (k - 1);
        const struct relay *nearer = &direction->relays[k], *farther = nearer - 1;
        int64_t first = (int64_t)mmix_octabyte(verdict, 0), second = (int64_t)mmix_octabyte(verdict, 8);
        int64_t left = (int64_t)mmix_octabyte(verdict, 16);

        if (second - first - needed != left)
            end(nearer->station, "the margin that is left is not what the two times say");
        printf("    fault beyond %-6s %4" PRIu32 " A: %-6s opens after %4" PRId64 " ms, ", nearer->station, nearer->fault,
               nearer->station, first);
        printf("%-6s after %4" PRId64 " ms, %3" PRId64 " ms later: ", farther->station, second, second - first);
        if (left < 0)
            printf("NOT graded, %" PRId64 " ms short\n", -left);
        else
            printf("graded, %" PRId64 " ms to spare\n", left);
    }
}

static void print_direction(const struct direction *direction)
{
    const uint8_t *block = low + direction->block;

    printf("Feed %s (marker %02x)\n", direction->name, direction->marker);
    printf("  the nearer breaker must open first, the next one %d ms later: %" PRIu64 " of %d pairs not graded\n", MARGIN,
           mmix_octabyte(block, AT_OPEN), RELAYS - 1);
    print_pairs(direction, VERDICTS, MARGIN);
    printf("  the case of a breaker that opens %d ms late, %d ms needed: %" PRIu64 " of %d pairs not graded\n", LATE,
           MARGIN + LATE, mmix_octabyte(block, AT_OPEN_LATE), RELAYS - 1);
    print_pairs(direction, VERDICTS_LATE, MARGIN + LATE);
}

int main(int count, char **words)
{
    if (count != 2)
        end("grading LISTING", "a listing is needed");
    load_program(words[1]);
    if (mmix_initialize(image, sizeof image) != MMIX_DONE)
        end("the fresh state", "is refused");
    mmix_set_octabyte(image, MMIX_AT_PC, PROGRAM);
    for (unsigned k = 0; k < 2; k++)
        load_block(&directions[k]);

    run();
    for (unsigned k = 0; k < 2; k++)
        print_direction(&directions[k]);

    uint64_t marker = mmix_octabyte(image, MMIX_AT_GENERAL(0)), ro = mmix_octabyte(image, MMIX_AT_SPECIAL(MMIX_RO));
    printf("The direction in the caller's local, when all calls had returned and the parked context was back: %02" PRIx64 "\n",
           marker);
    if (marker != directions[1].marker || ro != MMIX_STACK_START)
        end("the caller's local", "the direction is CHANGED, or the stack is not as it was");
    if (fflush(stdout) != 0)
        end("the pairs", "can't be printed");
    return EXIT_SUCCESS;
}
