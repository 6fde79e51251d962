/* Encloses what the bridge measured: shows the rectangle in steps and in ohms, or that there is no carrier, or a refusal
 * with its place.
 * usage: bridge [--rect LENGTH] [RESISTANCE [REACTANCE [SPREAD [MORE...]]]] */
#include <inttypes.h>
#include <stdio.h>
#include <stdlib.h>
#include <string.h>

#include "common.h"
#include "jusqani.h"

/* The most numbers that can be measured: more than the call takes. */
#define MAX_MEASURED 5
#define MAX_RECT 8

/* What the buffer and *found hold before a call; no call stores these. */
#define FILL INT32_MIN
#define UNTOUCHED UINT32_MAX

/* The ohms that an argument gives, also nan, inf and -0; anything else ends the program. */
static float measured(const char *text)
{
    char *end;
    float ohms = strtof(text, &end);
    if (end == text || *end != '\0') {
        fprintf(stderr, "not a number: %s\n", text);
        exit(BAD_USAGE);
    }
    return ohms;
}

/* Whether the buffer holds from a number on what it held before the call. */
static int kept(const int32_t *rect, size_t from)
{
    while (from < MAX_RECT && rect[from] == FILL)
        from++;
    return from == MAX_RECT;
}

static void show_rect(const int32_t *rect)
{
    double ohms[JUSQANI_RECT_LENGTH];
    for (int k = 0; k < JUSQANI_RECT_LENGTH; k++)
        ohms[k] = rect[k] / STEPS_PER_OHM;
    printf("R %" PRId32 " to %" PRId32 ", X %" PRId32 " to %" PRId32 " steps: ", rect[0], rect[1], rect[2], rect[3]);
    show_load(ohms);
    printf("\n");
}

/* Encloses what was measured and shows what came. */
static int enclose(const float *ohms, size_t ohms_length, size_t rect_length)
{
    int32_t rect[MAX_RECT];
    uint32_t found = UNTOUCHED;
    for (size_t k = 0; k < MAX_RECT; k++)
        rect[k] = FILL;
    uint64_t answer = jusqani_enclose(ohms, ohms_length, rect, rect_length, &found);
    if (answer != 0) {
        require(found == UNTOUCHED && kept(rect, 0), "a refused call changes nothing");
        show_refusal(answer);
        return REFUSED;
    }
    if (found == JUSQANI_NO_CARRIER) {
        require(kept(rect, 0), "without a carrier no number of the buffer is changed");
        printf("no carrier\n");
        return 0;
    }
    require(found == JUSQANI_RECTANGLE, "an accepted call finds a rectangle or no carrier");
    require(kept(rect, JUSQANI_RECT_LENGTH), "what lies past the rectangle is kept");
    show_rect(rect);
    return 0;
}

int main(int argc, char **argv)
{
    float ohms[MAX_MEASURED];
    size_t rect_length = JUSQANI_RECT_LENGTH;
    int first = 1;
    if (argc > 2 && strcmp(argv[1], "--rect") == 0) {
        rect_length = argument(argv[2], MAX_RECT);
        first = 3;
    }
    if (argc - first > MAX_MEASURED) {
        fprintf(stderr, "usage: %s [--rect LENGTH] [RESISTANCE [REACTANCE [SPREAD [MORE...]]]]\n", argv[0]);
        return BAD_USAGE;
    }
    for (int k = first; k < argc; k++)
        ohms[k - first] = measured(argv[k]);
    return enclose(ohms, (size_t)(argc - first), rect_length);
}
