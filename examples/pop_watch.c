/* The order in which the library's POP writes registers, watched from outside. The state of mmix_step_parts is in a page that can't be written: each
 * write raises a signal, is let through alone by the processor's trap flag, and then all registers are compared with what they were before it.
 *
 *     pop_watch              POPs of every kind, each watched and judged     make pop-watch
 *     pop_watch --self       the watcher itself: functions of its own that are right or wrong, told apart
 *     pop_watch --trace      what one small POP writes, in order
 *
 * What is asked (02, change 4; crates/model/specs/PopOrder.antt): restored locals and outputs are written first, and only what lies from the new rL to
 * rG - 1 is cleared, afterwards. Between the two every other general register is final, those are as before, and so are the special ones and PC.
 *
 * It needs Linux on x86-64 and no privilege.
 */
#define _GNU_SOURCE
#include <inttypes.h>
#include <signal.h>
#include <stdio.h>
#include <stdlib.h>
#include <string.h>
#include <sys/mman.h>
#include <ucontext.h>

#include "mmix.h"
#include "mmix_text.h"

enum { TRAP_FLAG = 0x100, PAGE = 4096, OCTAS = MMIX_IMAGE_LEN / 8, CHANGES_MAX = 4 * OCTAS, FRAME_MAX = 256 };

/* A function that does a POP: the library's, or one of those below. */
typedef uint64_t step_parts(uint64_t base_a, uint64_t base_b, uint8_t op, uint8_t x, uint8_t y, uint8_t z, uint64_t general[256],
                            uint64_t special[32], uint64_t *pc, uint64_t *halt, uint64_t marks, uint64_t mask, uint8_t *a, size_t a_len,
                            uint8_t *b, size_t b_len);

/* A state as its octabytes in the order of the struct: $0 to $255, then the special registers, PC and the rest. */
union registers {
    struct mmix_state state;
    uint64_t octa[OCTAS];
};

/* Where the frame lies. */
enum place { IN_B, IN_A, A_BELOW_B, B_BELOW_A, PLACES };

struct pop {
    uint64_t rg, rl, x, hole;
    enum place place;
};

/* ---- the watcher */

struct change {
    unsigned moment;    /* the write that made it, counted from 1 */
    unsigned at;        /* the octabyte of the state */
    uint64_t value;
};

static union registers *watched, seen;      /* the first at the start of a page of its own */
static struct change changes[CHANGES_MAX];
static unsigned changed, moment;

/* Says that a call of the system failed, and ends. */
static void failed(const char *what)
{
    perror(what);
    _Exit(EXIT_FAILURE);
}

static void protect(int protection)
{
    if (mprotect(watched, PAGE, protection) != 0)
        failed("pop_watch: mprotect");
}

/* Before a write to the page: it may be written, by one instruction. Any other fault is met by the signal's own end. */
static void before_write(int number, siginfo_t *info, void *context)
{
    greg_t *registers = ((ucontext_t *)context)->uc_mcontext.gregs;

    if ((uintptr_t)info->si_addr - (uintptr_t)watched >= PAGE) {
        signal(number, SIG_DFL);
        return;
    }
    protect(PROT_READ | PROT_WRITE);
    registers[REG_EFL] |= TRAP_FLAG;
}

/* After it: what is no longer as it was. */
static void after_write(int number, siginfo_t *info, void *context)
{
    (void)number, (void)info;
    moment++;
    for (unsigned k = 0; k < OCTAS; k++) {
        if (watched->octa[k] == seen.octa[k])
            continue;
        if (changed < CHANGES_MAX)
            changes[changed++] = (struct change){ moment, k, watched->octa[k] };
        seen.octa[k] = watched->octa[k];
    }
    protect(PROT_READ);
    ((ucontext_t *)context)->uc_mcontext.gregs[REG_EFL] &= ~TRAP_FLAG;
}

static void start_watching(void)
{
    struct sigaction action;

    watched = mmap(NULL, PAGE, PROT_READ | PROT_WRITE, MAP_PRIVATE | MAP_ANONYMOUS, -1, 0);
    if (watched == MAP_FAILED)
        failed("pop_watch: mmap");
    memset(&action, 0, sizeof action);
    action.sa_flags = SA_SIGINFO;
    action.sa_sigaction = before_write;
    if (sigaction(SIGSEGV, &action, NULL) != 0)
        failed("pop_watch: sigaction");
    action.sa_sigaction = after_write;
    if (sigaction(SIGTRAP, &action, NULL) != 0)
        failed("pop_watch: sigaction");
}

/* The POP on the watched registers, its frame `octas` octabytes from the stack's start on, in the windows that the place says. */
static uint64_t watch(step_parts *step, const struct pop *pop, uint8_t *frame, size_t octas)
{
    struct mmix_windows lent = { 0, 0, NULL, 0, NULL, 0 };
    struct mmix_state *s = &watched->state;
    size_t low = pop->place >= A_BELOW_B ? (octas + 1) / 2 * 8 : octas * 8, high = octas * 8 - low;
    uint64_t split = MMIX_STACK_START + low, reply;

    if (pop->place == IN_B || pop->place == B_BELOW_A)
        lent = (struct mmix_windows){ split, MMIX_STACK_START, frame + low, high, frame, low };
    else
        lent = (struct mmix_windows){ MMIX_STACK_START, split, frame, low, frame + low, high };
    seen = *watched;
    changed = moment = 0;
    protect(PROT_READ);
    reply = step(lent.base_a, lent.base_b, MMIX_OP_POP, (uint8_t)pop->x, 0, 3, s->general, s->special, &s->pc, &s->halt, s->marks, s->mask,
                 lent.a, lent.a_len, lent.b, lent.b_len);
    protect(PROT_READ | PROT_WRITE);
    return reply;
}

/* ---- what is judged */

/* What $i is after the POP, by the definition (`restored`, crates/model/specs/Frames.antt). */
static uint64_t restored(const struct pop *pop, const uint64_t *before, const uint64_t *locals, uint64_t i)
{
    uint64_t count = pop->x > pop->rl ? pop->rl + 1 : pop->x;

    if (i >= pop->rg)
        return before[i];
    if (i < pop->hole)
        return locals[i];
    if (i == pop->hole)
        return pop->x > pop->rl || pop->x == 0 ? 0 : before[pop->x - 1];
    return i < pop->hole + count ? before[i - pop->hole - 1] : 0;
}

/* The new rL: the cleared registers are from there to rG - 1. */
static uint64_t new_rl(const struct pop *pop)
{
    uint64_t low = pop->hole + (pop->x > pop->rl ? pop->rl + 1 : pop->x);

    return low < pop->rg ? low : pop->rg;
}

/* What is wrong with the state after the POP, if anything is. */
static const char *wrong_end(const struct pop *pop, const union registers *before, const uint64_t *locals)
{
    for (unsigned k = 0; k < 256; k++)
        if (watched->octa[k] != restored(pop, before->octa, locals, k))
            return "a general register is not what it should be after the POP";
    for (unsigned k = 256; k < OCTAS; k++) {
        uint64_t wanted = before->octa[k];
        if (k == 256 + MMIX_RL)
            wanted = new_rl(pop);
        else if (k == 256 + MMIX_RO || k == 256 + MMIX_RS)
            wanted = MMIX_STACK_START;
        else if (k == 288)
            wanted = before->octa[256 + MMIX_RJ] + 12;
        if (watched->octa[k] != wanted)
            return "a special register, PC or what follows it is not what it should be after the POP";
    }
    return NULL;
}

/* What is wrong with the order of the changes, if anything is. */
static const char *wrong_order(const struct pop *pop, const union registers *before)
{
    unsigned last_restored = 0, first_cleared = UINT32_MAX, last_general = 0, first_other = UINT32_MAX;

    for (unsigned k = 0; k < changed; k++) {
        const struct change *c = changes + k;
        if (c->at >= 256) {
            first_other = c->moment < first_other ? c->moment : first_other;
            continue;
        }
        if (c->value == 0 && before->octa[c->at] != 0 && watched->octa[c->at] != 0)
            return "a register goes to zero and comes back";
        if (c->value != watched->octa[c->at])
            return "a register is written twice";
        last_general = c->moment;
        if (c->at < new_rl(pop) || c->at >= pop->rg)
            last_restored = c->moment;
        else if (first_cleared > c->moment)
            first_cleared = c->moment;
    }
    if (first_cleared <= last_restored)
        return "a register is cleared before restored locals and outputs are final";
    if (first_other <= last_restored)
        return "a special register or PC changes before restored locals and outputs are final";
    if (first_other <= last_general)
        return "a special register or PC changes before the last general register";
    return changed == CHANGES_MAX ? "too many changes" : NULL;
}

/* ---- POPs */

static uint64_t drawn = 4;

/* Splitmix64: the same numbers in every run. */
static uint64_t any(void)
{
    uint64_t z = drawn += UINT64_C(0x9E3779B97F4A7C15);

    z = (z ^ z >> 30) * UINT64_C(0xBF58476D1CE4E5B9);
    z = (z ^ z >> 27) * UINT64_C(0x94D049BB133111EB);
    return z ^ z >> 31;
}

/* What a register or a local holds: nonzero, or zero now and then. */
static uint64_t value(int zeros)
{
    return zeros && any() % 4 == 0 ? 0 : any() | 1;
}

/* One POP, watched: what is wrong, if anything is. */
static const char *judged(step_parts *step, const struct pop *pop, int zeros)
{
    static uint8_t frame[8 * FRAME_MAX], image[MMIX_IMAGE_LEN];
    static uint64_t locals[FRAME_MAX];
    static union registers before;
    struct mmix_state *s = &watched->state;

    if (mmix_initialize(image, sizeof image) != MMIX_DONE || mmix_decode(image, sizeof image, s) != MMIX_DONE)
        return "no fresh state";
    for (unsigned k = 0; k < 256; k++)
        s->general[k] = value(zeros);
    s->special[MMIX_RG] = pop->rg;
    s->special[MMIX_RL] = pop->rl;
    s->special[MMIX_RO] = s->special[MMIX_RS] = MMIX_STACK_START + 8 * (pop->hole + 1);
    s->special[MMIX_RJ] = 0x5000;
    for (uint64_t k = 0; k <= pop->hole; k++) {
        locals[k] = k < pop->hole ? value(zeros) : any() << 8 | pop->hole;
        for (unsigned j = 0; j < 8; j++)
            frame[8 * k + j] = (uint8_t)(locals[k] >> (56 - 8 * j));
    }
    before = *watched;
    uint64_t reply = watch(step, pop, frame, (size_t)pop->hole + 1);
    if (reply != MMIX_DONE)
        return mmix_reply_text(reply);
    if (memcmp(&seen, watched, sizeof seen) != 0)
        return "a change was not seen";
    const char *wrong = wrong_end(pop, &before, locals);
    return wrong != NULL ? wrong : wrong_order(pop, &before);
}

/* What was written, in order: the number of the write, and the register with its new value. */
static void print_changes(void)
{
    for (unsigned k = 0; k < changed; k++) {
        const struct change *c = changes + k;
        printf("%6u  ", c->moment);
        if (c->at < 256)
            printf("$%u", c->at);
        else
            printf("%s", c->at < 288 ? mmix_special_name(c->at - 256) : c->at == 288 ? "PC" : "halt code, marks or mask");
        printf(" = %" PRIx64 "\n", c->value);
    }
}

/* A POP that has to be right. */
static void has_to_be_right(step_parts *step, const struct pop *pop, int zeros)
{
    static const char *const places[PLACES] = { "in B", "in A", "across, A below B", "across, B below A" };
    const char *wrong = judged(step, pop, zeros);

    if (wrong == NULL)
        return;
    printf("pop_watch: rG %" PRIu64 ", rL %" PRIu64 ", X %" PRIu64 ", H %" PRIu64 ", frame %s: %s; what was written:\n", pop->rg, pop->rl, pop->x,
           pop->hole, places[pop->place], wrong);
    print_changes();
    exit(EXIT_FAILURE);
}

/* The X that are tried: 0 to 2, up to rL and just above it, 255; of the others all, or the one half way to rL. */
static int tried(uint64_t x, uint64_t rl, int all)
{
    if (x <= 2 || x == 255)
        return 1;
    return x <= rl + 2 && (all || x == rl / 2 || x >= rl);
}

/* Holes 0 to 31 and some up to 255, both thresholds, rL at its limits and between. With rG 32 the frame is in B, with every X, and in another place; else
 * places and rL take turns. A frame of one octabyte is whole in the lower window. */
static unsigned every_pop(void)
{
    static const uint64_t holes[] = { 32, 33, 40, 127, 254, 255 };
    unsigned pops = 0;

    for (uint64_t rg = 32; rg < 256; rg += 223)
        for (unsigned n = 0; n < 38 * 4 * PLACES; n++) {
            unsigned k = n / PLACES / 4, l = n / PLACES % 4;
            uint64_t rls[] = { 0, 5, rg - 1, rg };
            struct pop pop = { rg, rls[l], 0, k < 32 ? k : holes[k - 32], (enum place)(n % PLACES) };
            if (rg == 32 ? pop.place != IN_B && pop.place != 1 + (k + l) % 3 : (k + l) % 2 != 0 || pop.place != (k / 2 + l) % PLACES)
                continue;
            for (pop.x = 0; pop.x < 256; pop.x++)
                if (tried(pop.x, pop.rl, rg == 32 && pop.place == IN_B && pop.rl != 31))
                    has_to_be_right(mmix_step_parts, &pop, (int)(pops++ % 2));
        }
    return pops;
}

/* ---- the watcher itself */

enum order { RIGHT, ALL_CLEARED_FIRST, RANGE_CLEARED_FIRST, SPECIAL_FIRST, SPECIAL_BETWEEN, TWICE, ORDERS };

static enum order own_order;

/* A POP of its own, with its frame in B; the state after it is right in every order. */
static uint64_t own_pop(uint64_t base_a, uint64_t base_b, uint8_t op, uint8_t x, uint8_t y, uint8_t z, uint64_t general[256],
                        uint64_t special[32], uint64_t *pc, uint64_t *halt, uint64_t marks, uint64_t mask, uint8_t *a, size_t a_len,
                        uint8_t *b, size_t b_len)
{
    volatile uint64_t *g = general, *s = special;
    struct pop pop = { special[MMIX_RG], special[MMIX_RL], x, b[b_len - 1], IN_B };
    uint64_t before[256], locals[FRAME_MAX] = { 0 }, low = new_rl(&pop);

    (void)base_a, (void)op, (void)halt, (void)marks, (void)mask, (void)a, (void)a_len;
    memcpy(before, general, sizeof before);
    for (size_t k = 0; k + 8 < b_len; k++)
        locals[k / 8] = locals[k / 8] << 8 | b[k];
    if (own_order == ALL_CLEARED_FIRST || own_order == RANGE_CLEARED_FIRST)
        for (uint64_t k = own_order == ALL_CLEARED_FIRST ? 0 : low; k < pop.rg; k++)
            g[k] = 0;
    if (own_order == SPECIAL_FIRST)
        s[MMIX_RL] = low;
    for (uint64_t k = 0; k < low; k++) {
        if (own_order == TWICE)
            g[k] = 2;
        g[k] = restored(&pop, before, locals, k);
    }
    if (own_order == SPECIAL_BETWEEN)
        s[MMIX_RO] = base_b;
    for (uint64_t k = low; k < pop.rg; k++)
        g[k] = 0;
    s[MMIX_RL] = low;
    s[MMIX_RO] = s[MMIX_RS] = base_b;
    *pc = s[MMIX_RJ] + 4 * (256 * (uint64_t)y + z);
    return MMIX_DONE;
}

static int told_apart(void)
{
    static const char *const should[ORDERS] = {
        NULL,
        "a register goes to zero and comes back",
        "a register is cleared before restored locals and outputs are final",
        "a special register or PC changes before restored locals and outputs are final",
        "a special register or PC changes before the last general register",
        "a register is written twice"
    };
    static const struct pop pop = { 32, 6, 4, 9, IN_B };

    for (int order = 0; order < ORDERS; order++) {
        own_order = (enum order)order;
        const char *wrong = judged(own_pop, &pop, 0);
        if (wrong == should[order] || (wrong != NULL && should[order] != NULL && strcmp(wrong, should[order]) == 0))
            continue;
        printf("pop_watch --self: '%s' where '%s' should be found\n", wrong == NULL ? "right" : wrong, should[order] == NULL ? "right" : should[order]);
        return EXIT_FAILURE;
    }
    printf("pop_watch --self: a POP that is right and %d that are not are told apart\n", ORDERS - 1);
    return EXIT_SUCCESS;
}

int main(int argc, char **argv)
{
    static const struct pop small = { 32, 4, 2, 3, IN_B };

    start_watching();
    if (argc > 1 && strcmp(argv[1], "--self") == 0)
        return told_apart();
    if (argc > 1 && strcmp(argv[1], "--trace") == 0) {
        has_to_be_right(mmix_step_parts, &small, 0);
        print_changes();
        return EXIT_SUCCESS;
    }
    printf("pop_watch: %u POPs, each restores first and clears afterwards\n", every_pop());
    return EXIT_SUCCESS;
}
