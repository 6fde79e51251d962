/* Chooses a relay setting for a card's curve: shows the number of the first that fits and its record's index, or that
 * none fits, or a refusal with its place. A box is four sides in steps: resistance low, high, reactance low, high.
 * The curve is given the sum of steps SUM, or that of the card, which is 0.
 * usage: settings [--choice LENGTH] [--sum SUM] DEPTH BUDGET [R-LOW R-HIGH X-LOW X-HIGH NUMBER]... < CARD */
#include <errno.h>
#include <inttypes.h>
#include <stddef.h>
#include <stdio.h>
#include <stdlib.h>
#include <string.h>

#include "common.h"
#include "jusqani.h"

#define MAX_CHOICE 6

/* A record's arguments, and the most records that can be lent: more than the call takes. */
#define RECORD_LENGTH 5
#define MAX_LIST (JUSQANI_MAX_SETTINGS + 2)

/* What the buffer holds before a call; no call stores it. */
#define FILL UINT32_MAX

/* The record's layout, as the header states it and the library reads it. */
_Static_assert(sizeof(struct jusqani_setting) == 20, "a setting has 20 bytes");
_Static_assert(_Alignof(struct jusqani_setting) == _Alignof(int32_t), "a setting is aligned as a side");

static struct jusqani_setting settings[MAX_LIST];

/* The side of a box that an argument gives; anything else ends the program. */
static int32_t side(const char *text)
{
    char *end;
    errno = 0;
    long long number = strtoll(text, &end, 10);
    if (end == text || *end != '\0' || errno != 0 || number < INT32_MIN || number > INT32_MAX) {
        fprintf(stderr, "not a side: %s\n", text);
        exit(BAD_USAGE);
    }
    return (int32_t)number;
}

static struct jusqani_setting setting(char **text)
{
    return (struct jusqani_setting){{side(text[0]), side(text[1]), side(text[2]), side(text[3])},
                                    (uint16_t)argument(text[4], UINT16_MAX)};
}

/* Whether the buffer holds from a number on what it held before the call. */
static int kept(const uint32_t *choice, size_t from)
{
    while (from < MAX_CHOICE && choice[from] == FILL)
        from++;
    return from == MAX_CHOICE;
}

/* The refusal of a list of so many records without a box, for a curve with such a first rectangle and a zero one
 * behind it, too deep, without a budget, with the greatest sum and with no room for a choice. */
static uint32_t refused_all(size_t count, int32_t degree, int32_t low, int32_t high)
{
    static const struct jusqani_setting no_boxes[JUSQANI_MAX_SETTINGS + 1];
    const int32_t curve[JUSQANI_CURVE_LENGTH(1)] = {degree, UINT16_MAX, low, high, low, high};
    uint32_t choice[MAX_CHOICE] = {FILL, FILL, FILL, FILL, FILL, FILL};
    uint64_t answer = jusqani_choose_setting(curve, JUSQANI_CURVE_LENGTH(1), no_boxes, count, 13, 0, choice, 0);
    require(kept(choice, 0), "a refused call changes nothing");
    return JUSQANI_NUMBER(answer);
}

/* No card gives the curves that are refused, so the call is handed them: the list's length is tried before the curve,
 * and the boxes after it. */
static void check_order(void)
{
    require(refused_all(0, 9, 0, 0) == 16, "an empty list is refused before a degree");
    require(refused_all(65, 9, 0, 0) == 16, "a long list is refused before a degree");
    require(refused_all(64, 9, 0, 16777217) == 1, "a degree is refused before a side");
    require(refused_all(64, 1, 1, 16777217) == 2, "a side out of range is refused before a box");
    require(refused_all(64, 1, 1, 0) == 3, "a low side above its high side is refused before a box");
    require(refused_all(64, 1, 0, 0) == 7, "a box is refused before depth, budget, sum and the room for the choice");
}

/* A box that lacks a side is refused, though with a zero there it would hold the curve. */
static void check_lacking(void)
{
    static const int32_t curve[] = {1, 0, 51200, 51200, -1, -1, 51200, 51200, -1, -1};
    static const int32_t limits[] = {0, 60000, -10, -5};
    uint32_t verdict[JUSQANI_VERDICT_LENGTH] = {FILL};
    for (size_t length = 0; length < JUSQANI_RECT_LENGTH; length++)
        require(jusqani_search(curve, 10, limits, length, 12, 8191, verdict, JUSQANI_VERDICT_LENGTH) == 7
                    && verdict[0] == FILL,
                "a box that lacks a side is refused");
    require(jusqani_search(curve, 10, limits, JUSQANI_RECT_LENGTH, 12, 8191, verdict, JUSQANI_VERDICT_LENGTH) == 0
                && verdict[0] == JUSQANI_OUTSIDE,
            "the whole box is walked, and the curve lies outside");
}

/* The refusal of a curve of degree 8 with such a sum that lies in a box, by the walk and by the list of that box. */
static uint64_t refused_at(int32_t sum, uint32_t depth, uint32_t budget, size_t room)
{
    static const struct jusqani_setting about = {{-1, 1, -1, 1}, 7};
    const int32_t curve[MAX_CURVE] = {8, sum};
    uint32_t verdict[JUSQANI_VERDICT_LENGTH] = {FILL}, choice[JUSQANI_CHOICE_LENGTH] = {FILL};
    uint64_t walked = jusqani_search(curve, MAX_CURVE, about.limits, JUSQANI_RECT_LENGTH, depth, budget, verdict,
                                     room == 0 ? 0 : JUSQANI_VERDICT_LENGTH);
    uint64_t chosen = jusqani_choose_setting(curve, MAX_CURVE, &about, 1, depth, budget, choice, room);
    require(JUSQANI_NUMBER(walked) == JUSQANI_NUMBER(chosen), "a walk and a list are refused alike");
    require(verdict[0] == (walked == 0 ? JUSQANI_INSIDE : FILL), "the walk ends Inside, and a refused one stores nothing");
    require(choice[0] == (chosen == 0 ? JUSQANI_FITS : FILL), "its box fits, and a refused list stores nothing");
    return chosen;
}

/* A walk has room for the sum of a piece at its depth limit, whatever it finds; only the room is tried later. */
static void check_sums(void)
{
    require(refused_at(65535, 0, 1, JUSQANI_CHOICE_LENGTH) == 0, "at depth 0 any sum is accepted");
    require(refused_at(65535, 1, 1, JUSQANI_CHOICE_LENGTH) == 17, "at depth 1 the sum 65,535 is refused");
    require(refused_at(65439, 12, 1, JUSQANI_CHOICE_LENGTH) == 0, "the greatest depth may reach the sum 65,535");
    require(refused_at(65440, 12, 1, JUSQANI_CHOICE_LENGTH) == 17, "a step more is refused at the greatest depth");
    require(refused_at(65535, 13, 1, 0) == 8, "depth is refused before the sum");
    require(refused_at(65535, 12, 0, 0) == 9, "budget is refused before the sum");
    require(refused_at(65535, 12, 1, 0) == 17, "the sum is refused before the room");
    require(refused_at(-1, 0, 1, 3) == 0 && refused_at(65536, 0, 1, 3) == 0, "a number that is no sum is no refusal");
    require(refused_at(-1, 1, 1, 3) == 17 && refused_at(65536, 1, 1, 3) == 17, "it counts as the sum 65,535");
}

/* Shows what was chosen. */
static void show_choice(const uint32_t *choice, size_t count)
{
    if (choice[0] == JUSQANI_NONE_FITS) {
        require(choice[1] == 0 && choice[2] == 0, "where none fits, index and number are 0");
        printf("none fits\n");
        return;
    }
    require(choice[0] == JUSQANI_FITS, "an accepted call finds that one fits or none");
    require(choice[1] < count && choice[2] == settings[choice[1]].number, "the number is that of the record chosen");
    printf("setting %" PRIu32 ", record %" PRIu32 "\n", choice[2], choice[1]);
}

/* Fills what lies behind each record's number: it is no part of the setting, and no answer may depend on it. */
static void fill_gaps(size_t count, int filling)
{
    const size_t used = offsetof(struct jusqani_setting, number) + sizeof settings[0].number;
    for (size_t k = 0; k < count; k++)
        memset((uint8_t *)&settings[k] + used, filling, sizeof settings[k] - used);
}

/* Chooses from the first settings for the card on standard input, and shows what came. */
static int choose(size_t count, int32_t sum, uint32_t depth, uint32_t budget, size_t choice_length)
{
    static struct jusqani_setting before[MAX_LIST];
    uint8_t card[MAX_CARD];
    int32_t curve[MAX_CURVE];
    uint32_t choice[MAX_CHOICE] = {FILL, FILL, FILL, FILL, FILL, FILL};
    uint32_t again[MAX_CHOICE] = {FILL, FILL, FILL, FILL, FILL, FILL};
    size_t card_length = read_input(card);
    uint64_t answer = jusqani_read_card(card, card_length, curve, MAX_CURVE);
    if (answer == 0) {
        curve[1] = sum;
        fill_gaps(count, 0x00);
        answer = jusqani_choose_setting(curve, MAX_CURVE, settings, count, depth, budget, choice, choice_length);
        fill_gaps(count, 0xa5);
        memcpy(before, settings, sizeof before);
        require(answer == jusqani_choose_setting(curve, MAX_CURVE, settings, count, depth, budget, again, choice_length)
                    && memcmp(choice, again, sizeof choice) == 0,
                "what lies behind a record's number does not matter");
        require(memcmp(before, settings, sizeof before) == 0, "the list is unchanged");
    }
    require(kept(choice, answer == 0 ? JUSQANI_CHOICE_LENGTH : 0), "what lies past the choice is kept");
    if (answer != 0) {
        show_refusal(answer);
        return REFUSED;
    }
    show_choice(choice, count);
    return 0;
}

/* The number behind an option, if it is the first of the arguments that are left, or another one where it is not. */
static uint32_t option(char ***left, const char *name, uint32_t largest, uint32_t otherwise)
{
    char **text = *left;
    if (text[0] == NULL || strcmp(text[0], name) != 0 || text[1] == NULL)
        return otherwise;
    *left += 2;
    return argument(text[1], largest);
}

int main(int argc, char **argv)
{
    char **left = argv + 1;
    size_t choice_length = option(&left, "--choice", MAX_CHOICE, JUSQANI_CHOICE_LENGTH);
    int32_t sum = (int32_t)option(&left, "--sum", UINT16_MAX, 0);
    int first = (int)(left - argv);
    int numbers = argc - first - 2;
    if (numbers < 0 || numbers % RECORD_LENGTH != 0 || numbers / RECORD_LENGTH > MAX_LIST) {
        fprintf(stderr,
                "usage: %s [--choice LENGTH] [--sum SUM] DEPTH BUDGET [R-LOW R-HIGH X-LOW X-HIGH NUMBER]... < CARD\n",
                argv[0]);
        return BAD_USAGE;
    }
    uint32_t depth = argument(argv[first], UINT32_MAX);
    uint32_t budget = argument(argv[first + 1], UINT32_MAX);
    size_t count = (size_t)(numbers / RECORD_LENGTH);
    for (size_t k = 0; k < count; k++)
        settings[k] = setting(argv + first + 2 + RECORD_LENGTH * k);
    check_order();
    check_lacking();
    check_sums();
    return choose(count, sum, depth, budget, choice_length);
}
