/* Shows that no answer of jusqani_enclose depends on the processor's floating-point mode: measurements are enclosed in
 * the default mode and then in every other rounding direction, with and without subnormal numbers taken for zero (DAZ)
 * and given as zero (FTZ), and the answers, rect and *found must be the same. Measured numbers are drawn as bits, and
 * what came is compared as whole numbers in the default mode, so that no mode changes what is given or compared. Shows
 * how many calls were compared, or the first that differs. For x86-64.
 * usage: modes */
#include <inttypes.h>
#include <stdio.h>
#include <string.h>
#include <xmmintrin.h>

#include "jusqani.h"

/* The exit status where an answer differs. */
#define DIFFERS 1

#define MEASUREMENTS 200000
#define MAX_MEASURED 3

/* A mode is a rounding direction with or without FTZ and DAZ, and number 0 is the default. No mode has exceptions that
 * trap. */
#define MODES 16
#define DEFAULT_MODE (_MM_MASK_MASK | _MM_ROUND_NEAREST)
#define DENORMALS_ZERO_ON 0x0040

/* The bits of a number: its sign, and those behind its leading one. An exponent's field comes between them. */
#define SIGN UINT32_C(0x80000000)
#define FRACTION UINT32_C(0x007fffff)
#define FIELD(exponent) ((uint32_t)(exponent) << 23)

/* What rect and *found hold before a call; no call stores these. */
#define FILL INT32_MIN
#define UNTOUCHED UINT32_MAX

/* The neighbours of zero, of the smallest normal number, of a step, of 16,384 ohms and of infinity. */
static const uint32_t edges[] = {
    0,
    1,
    2,
    FRACTION,
    FIELD(1),
    FIELD(117) - 1,
    FIELD(117),
    FIELD(117) + 1,
    FIELD(141) - 1,
    FIELD(141),
    FIELD(141) + 1,
    FIELD(255),
    FIELD(255) + 1,
};
/* They come with either sign. */
#define EDGES (2 * (sizeof edges / sizeof edges[0]))

/* What a call answers and leaves. */
struct came {
    uint64_t answer;
    int32_t rect[JUSQANI_RECT_LENGTH];
    uint32_t found;
};

/* What comes of a measurement's first numbers, by how many they are: each form, and the single number. */
struct all_came {
    struct came of[MAX_MEASURED + 1];
};

/* The generator splitmix64. */
static uint64_t draw(void)
{
    static uint64_t state = 2;
    state += UINT64_C(0x9e3779b97f4a7c15);
    uint64_t mixed = (state ^ (state >> 30)) * UINT64_C(0xbf58476d1ce4e5b9);
    mixed = (mixed ^ (mixed >> 27)) * UINT64_C(0x94d049bb133111eb);
    return mixed ^ (mixed >> 31);
}

static uint32_t edge(uint64_t index)
{
    return edges[index / 2 % (EDGES / 2)] | (index % 2 == 0 ? 0 : SIGN);
}

/* A number's bits: any, a subnormal number's, an edge's, or those of a load between 2^-20 and 16,384 ohms. */
static uint32_t drawn(void)
{
    uint32_t bits = (uint32_t)draw();
    switch (draw() % 4) {
    case 0: return bits;
    case 1: return bits & (SIGN | FRACTION);
    case 2: return edge(draw());
    default: return (bits & (SIGN | FRACTION)) | FIELD(107 + draw() % 34);
    }
}

/* A measurement: all those of three edges first, then drawn ones. A drawn spread is mostly not below zero, since one
 * below zero is refused. */
static void measure(size_t index, uint32_t bits[MAX_MEASURED])
{
    if (index < EDGES * EDGES * EDGES) {
        bits[0] = edge(index / (EDGES * EDGES));
        bits[1] = edge(index / EDGES % EDGES);
        bits[2] = edge(index % EDGES);
        return;
    }
    for (int k = 0; k < MAX_MEASURED; k++)
        bits[k] = drawn();
    if (draw() % 4 != 0)
        bits[2] &= ~SIGN;
}

/* The processor's register in a mode. */
static uint32_t register_of(unsigned mode)
{
    static const uint32_t directions[] = {_MM_ROUND_NEAREST, _MM_ROUND_DOWN, _MM_ROUND_UP, _MM_ROUND_TOWARD_ZERO};
    uint32_t zeros = (mode & 4 ? _MM_FLUSH_ZERO_ON : 0) | (mode & 8 ? DENORMALS_ZERO_ON : 0);
    return DEFAULT_MODE | directions[mode % 4] | zeros;
}

static void show_mode(unsigned mode)
{
    static const char *const directions[] = {"to nearest", "down", "up", "toward zero"};
    printf("rounding %s%s%s", directions[mode % 4], mode & 4 ? ", FTZ" : "", mode & 8 ? ", DAZ" : "");
}

/* Makes the calls on a measurement in a mode, from the same buffers each time. The default mode is set again after. */
static struct all_came enclose(const uint32_t bits[MAX_MEASURED], unsigned mode)
{
    float ohms[MAX_MEASURED];
    struct all_came all;
    memcpy(ohms, bits, sizeof ohms);
    for (size_t length = 0; length <= MAX_MEASURED; length++)
        all.of[length] = (struct came){0, {FILL, FILL, FILL, FILL}, UNTOUCHED};
    _mm_setcsr(register_of(mode));
    for (size_t length = 0; length <= MAX_MEASURED; length++) {
        struct came *came = &all.of[length];
        came->answer = jusqani_enclose(ohms, length, came->rect, JUSQANI_RECT_LENGTH, &came->found);
    }
    _mm_setcsr(DEFAULT_MODE);
    return all;
}

static int same(const struct came *a, const struct came *b)
{
    for (int k = 0; k < JUSQANI_RECT_LENGTH; k++)
        if (a->rect[k] != b->rect[k])
            return 0;
    return a->answer == b->answer && a->found == b->found;
}

static void show_came(const struct came *came)
{
    printf(": answer %" PRIu32 " at %" PRIu32 ", rect", JUSQANI_NUMBER(came->answer), JUSQANI_PLACE(came->answer));
    for (int k = 0; k < JUSQANI_RECT_LENGTH; k++)
        printf(" %" PRId32, came->rect[k]);
    printf(", found %" PRIu32 "\n", came->found);
}

/* Whether a measurement's answers in a mode are those in the default mode; the first that differs is shown. */
static int same_in(const uint32_t bits[MAX_MEASURED], unsigned mode, const struct all_came *expected)
{
    struct all_came all = enclose(bits, mode);
    size_t length = 0;
    while (length <= MAX_MEASURED && same(&all.of[length], &expected->of[length]))
        length++;
    if (length > MAX_MEASURED)
        return 1;
    printf("modes: differs for the ohms with the bits");
    for (size_t k = 0; k < length; k++)
        printf(" 0x%08" PRIx32, bits[k]);
    printf("\n");
    show_mode(mode);
    show_came(&all.of[length]);
    show_mode(0);
    show_came(&expected->of[length]);
    return 0;
}

int main(void)
{
    uint64_t compared = 0;
    for (size_t index = 0; index < MEASUREMENTS; index++) {
        uint32_t bits[MAX_MEASURED];
        measure(index, bits);
        struct all_came expected = enclose(bits, 0);
        for (unsigned mode = 1; mode < MODES; mode++) {
            if (!same_in(bits, mode, &expected))
                return DIFFERS;
            compared += MAX_MEASURED + 1;
        }
    }
    printf("modes: %" PRIu64 " calls of enclose in %d floating-point modes, each as in the default mode\n", compared,
           MODES - 1);
    return 0;
}
