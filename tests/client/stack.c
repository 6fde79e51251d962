/* Measures the stack of each call: the call runs on a stack of its own, filled with a pattern before, and what it
 * touched is what no longer holds the pattern. The pattern is another at every place of 256, since a call may copy what
 * it has not written, as the gaps of a record, from one place of its frame to another. Every call is made on every card
 * with each pattern, the search so that it reaches its greatest depth, the choice of a setting so that it makes as many
 * such walks as a list can have, and the bridge's call, which needs no card, on measurements of every form. Shows the
 * most bytes that each call took, and fails if one took more than the header says.
 *
 * A number counts from the caller's frame down: the arguments that are passed on the stack with their alignment, the
 * return address, the frames of the library, and those of memcpy or memset. The caller's own frame is not counted.
 * usage: stack CARD... */
#define _XOPEN_SOURCE 600
#include <inttypes.h>
#include <stdio.h>
#include <stdlib.h>
#include <string.h>
#include <ucontext.h>

#include "common.h"
#include "jusqani.h"

/* The most bytes of stack that the panel call may take on x86-64, whatever the header says: docs/TRUST.md states it. */
#define PANEL_STACK_BOUND 1536
#define BOUND(name, bytes) bound_of_##name = bytes,
enum { JUSQANI_STACK(BOUND) };
_Static_assert(bound_of_panel <= PANEL_STACK_BOUND, "the header gives the panel call more stack than it may take");

#define STACK_SIZE 65536
#define MAX_DEPTH 12
#define MAX_BUDGET 8191
#define MAX_CARD_LENGTH JUSQANI_CARD_LENGTH(JUSQANI_MAX_DEGREE)
#define LOAD_BYTES 16
#define MAX_MEASURED 4

/* What the calls are given and give. It is static, so that a call alone uses the measured stack. */
static uint8_t card[MAX_CARD];
static size_t card_length;
static uint32_t num, den, sixteenths;
static int32_t curve[MAX_CURVE], limits[JUSQANI_RECT_LENGTH];
static int32_t first[MAX_CURVE], second[MAX_CURVE];
static float ohms[JUSQANI_RECT_LENGTH];
static uint32_t exact;
static const float *measured;
static size_t measured_length;
static uint32_t found;
static uint32_t verdict[JUSQANI_VERDICT_LENGTH];
static struct jusqani_setting settings[JUSQANI_MAX_SETTINGS];
static uint32_t choice[JUSQANI_CHOICE_LENGTH];
static uint8_t bytes[MAX_CARD_LENGTH];
static uint64_t answer;

/* Where the frame of the function that makes the call ends. */
static uint8_t *caller;
#define COUNT_FROM_HERE (caller = __builtin_frame_address(0))

static void call_panel(void)
{
    COUNT_FROM_HERE;
    answer = jusqani_panel(card, card_length, num, den, bytes, LOAD_BYTES);
}

static void call_evaluate(void)
{
    COUNT_FROM_HERE;
    answer = jusqani_evaluate(curve, MAX_CURVE, num, den, first, MAX_CURVE, ohms, JUSQANI_RECT_LENGTH, &exact);
}

static void call_evaluate_sixteenths(void)
{
    COUNT_FROM_HERE;
    answer = jusqani_evaluate_sixteenths(curve, MAX_CURVE, sixteenths, first, MAX_CURVE, ohms, JUSQANI_RECT_LENGTH,
                                         &exact);
}

static void call_subdivide(void)
{
    COUNT_FROM_HERE;
    answer = jusqani_subdivide(curve, MAX_CURVE, num, den, first, MAX_CURVE, second, MAX_CURVE, &exact);
}

static void call_elevate(void)
{
    COUNT_FROM_HERE;
    answer = jusqani_elevate(curve, MAX_CURVE, first, MAX_CURVE, &exact);
}

static void call_bounds(void)
{
    COUNT_FROM_HERE;
    answer = jusqani_bounds(curve, MAX_CURVE, first, MAX_CURVE);
}

static void call_search(void)
{
    COUNT_FROM_HERE;
    answer = jusqani_search(curve, MAX_CURVE, limits, JUSQANI_RECT_LENGTH, MAX_DEPTH, MAX_BUDGET, verdict,
                            JUSQANI_VERDICT_LENGTH);
}

static void call_choose_setting(void)
{
    COUNT_FROM_HERE;
    answer = jusqani_choose_setting(curve, MAX_CURVE, settings, JUSQANI_MAX_SETTINGS, MAX_DEPTH, MAX_BUDGET, choice,
                                    JUSQANI_CHOICE_LENGTH);
}

static void call_enclose(void)
{
    COUNT_FROM_HERE;
    answer = jusqani_enclose(measured, measured_length, first, MAX_CURVE, &found);
}

static void call_read_card(void)
{
    COUNT_FROM_HERE;
    answer = jusqani_read_card(card, card_length, first, MAX_CURVE);
}

static void call_write_card(void)
{
    COUNT_FROM_HERE;
    answer = jusqani_write_card(curve, MAX_CURVE, bytes, MAX_CARD_LENGTH);
}

/* The calls of the header's table, each with the most bytes that it may take. */
#define CALL(name, bytes) {#name, call_##name, bound_of_##name},
static const struct {
    const char *name;
    void (*call)(void);
    size_t bound;
} calls[] = {JUSQANI_STACK(CALL)};
#define CALLS (sizeof calls / sizeof calls[0])

static void fail(const char *what)
{
    fprintf(stderr, "stack: %s\n", what);
    exit(PROMISE_BROKEN);
}

/* The byte of a pattern at a place of the stack. */
static uint8_t filling(unsigned pattern, size_t place)
{
    return (uint8_t)(pattern + 151 * place);
}

/* The bytes from the caller's frame down to the last byte of a stack filled with a pattern that a call changed. */
static size_t touched(void (*call)(void), unsigned pattern)
{
    static _Alignas(16) uint8_t stack[STACK_SIZE];
    static ucontext_t here, there;
    for (size_t k = 0; k < sizeof stack; k++)
        stack[k] = filling(pattern, k);
    if (getcontext(&there) != 0)
        fail("no context");
    there.uc_stack.ss_sp = stack;
    there.uc_stack.ss_size = sizeof stack;
    there.uc_link = &here;
    makecontext(&there, call, 0);
    if (swapcontext(&here, &there) != 0)
        fail("no context");
    size_t kept = 0;
    while (kept < sizeof stack && stack[kept] == filling(pattern, kept))
        kept++;
    if (kept == 0)
        fail("the stack ran out");
    return (size_t)(caller - (stack + kept));
}

/* The most bytes that each call took so far, and whether a search has reached its greatest depth on a curve for which
 * no setting of the list fits, so that all of the list's walks reached it too. */
static size_t most[CALLS];
static int deepest;

/* Makes every call once on a stack filled with a pattern. A list takes long and has no parameter, so that it is walked
 * at a card's first parameter alone. */
static void measure_calls(unsigned pattern, int at_first)
{
    int deep = 0;
    for (size_t c = 0; c < CALLS; c++) {
        if (calls[c].call == call_choose_setting && !at_first)
            continue;
        size_t took = touched(calls[c].call, pattern);
        most[c] = took > most[c] ? took : most[c];
        if (calls[c].call == call_search)
            deep = answer == 0 && verdict[1] == MAX_DEPTH;
        if (calls[c].call == call_choose_setting && deep && answer == 0 && choice[0] == JUSQANI_NONE_FITS)
            deepest = 1;
    }
}

/* Makes every call at every parameter, and with it at a sixteenth and on a measurement, with every pattern. */
static void measure_parameters(void)
{
    static const struct {
        uint32_t num, den, j;
        size_t length;
        float ohms[MAX_MEASURED];
    } given[] = {
        {0, 1, 0, 0, {0}},
        {1, 2, 8, 1, {50}},
        {1, 3, 5, 2, {50, -0.1f}},
        {65535, 65536, 15, 3, {50.0003f, -0.1f, 0.25f}},
        {7, 7, 16, 3, {-16384, 1e-45f, 0}},
        {1, 0, 17, 3, {0, 0, -1}},
        {8, 7, UINT32_MAX, 3, {16384, 0, 1}},
        {0, 0, 18, 4, {81.5f, 84.5f, 56, 60}},
    };
    for (size_t p = 0; p < sizeof given / sizeof given[0]; p++) {
        num = given[p].num;
        den = given[p].den;
        sixteenths = given[p].j;
        measured = given[p].ohms;
        measured_length = given[p].length;
        measure_calls(0x00, p == 0);
        measure_calls(0xa5, p == 0);
        measure_calls(0xff, p == 0);
    }
}

/* Sets the box of the search, and of every setting: a step wide at a corner of rectangle 0, so that the walk goes down
 * to the piece at the curve's start. */
static void set_limits(void)
{
    const int32_t *sides = curve + JUSQANI_RECT_AT(0);
    limits[0] = sides[0];
    limits[1] = sides[0] + 1;
    limits[2] = sides[2];
    limits[3] = sides[2] + 1;
    for (size_t k = 0; k < JUSQANI_MAX_SETTINGS; k++)
        memcpy(settings[k].limits, limits, sizeof limits);
}

/* Reads a card, and the curve on it unless it is refused: then the curve before it stays. */
static void take_card(const char *path)
{
    if (freopen(path, "rb", stdin) == NULL) {
        perror(path);
        exit(BAD_USAGE);
    }
    card_length = read_input(card);
    if (jusqani_read_card(card, card_length, curve, MAX_CURVE) == 0)
        set_limits();
}

static void show(void)
{
    printf("stack:");
    for (size_t c = 0; c < CALLS; c++)
        printf("%s %s %zu", c == 0 ? "" : ",", calls[c].name, most[c]);
    printf(" bytes\n");
}

/* Whether no call took more than the header says; one that did is told. */
static int within_bounds(void)
{
    int within = 1;
    for (size_t c = 0; c < CALLS; c++) {
        if (most[c] <= calls[c].bound)
            continue;
        fprintf(stderr, "stack: %s took %zu bytes, and JUSQANI_STACK in include/jusqani.h says at most %zu\n",
                calls[c].name, most[c], calls[c].bound);
        within = 0;
    }
    return within;
}

int main(int argc, char **argv)
{
    if (argc < 2) {
        fprintf(stderr, "usage: %s CARD...\n", argv[0]);
        return BAD_USAGE;
    }
    for (int k = 1; k < argc; k++) {
        take_card(argv[k]);
        measure_parameters();
    }
    if (!deepest)
        fail("no search and no list of settings reached its greatest depth");
    show();
    return within_bounds() ? 0 : PROMISE_BROKEN;
}
