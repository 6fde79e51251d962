/* Reads a card to a curve and evaluates it, in rounded stages at NUM/DEN or by one sum at J/16: shows the ohms that the
 * call itself gives and whether they are exact, or a refusal with its place.
 * usage: curve NUM DEN [CURVE-LENGTH [LOAD-LENGTH]] < CARD
 *        curve --sixteenths J [CURVE-LENGTH [LOAD-LENGTH]] < CARD */
#include <stdio.h>
#include <string.h>

#include "common.h"
#include "jusqani.h"

/* What the flag holds before a call; an accepted one stores 0 or 1 there. */
#define UNTOUCHED UINT32_MAX

/* Whether the load in ohms is the load in steps, with nothing lost. */
static int same_load(const int32_t *load, const float *ohms)
{
    for (int k = 0; k < JUSQANI_RECT_LENGTH; k++)
        if (ohms[k] * STEPS_PER_OHM != load[k])
            return 0;
    return 1;
}

/* The flag's word, or none where it is neither 0 nor 1. */
static const char *flag_word(uint32_t exact)
{
    static const char *const words[] = {"rounded", "exact"};
    return exact <= 1 ? words[exact] : NULL;
}

/* A refusal at a place, as a call answers it. */
static uint64_t refusal(uint32_t number, uint64_t place)
{
    return place << 32 | number;
}

/* The refusal of a curve with such a first rectangle and a zero one behind it, at 17/16 and with no room for a load. */
static uint32_t refused_past_the_end(int32_t degree, int32_t low, int32_t high)
{
    const int32_t curve[JUSQANI_CURVE_LENGTH(1)] = {degree, 0, low, high, low, high};
    int32_t load[1];
    float ohms[1];
    uint32_t exact = UNTOUCHED;
    uint64_t answer = jusqani_evaluate_sixteenths(curve, JUSQANI_CURVE_LENGTH(1), 17, load, 0, ohms, 0, &exact);
    require(exact == UNTOUCHED, "a refused call leaves the flag as it was");
    return JUSQANI_NUMBER(answer);
}

/* No card gives the first three curves, so the call is handed them: j is tried after the curve, and the room last. */
static void check_order(void)
{
    require(refused_past_the_end(9, 0, 0) == 1, "a degree is refused before j");
    require(refused_past_the_end(1, 0, 16777217) == 2, "a side out of range is refused before j");
    require(refused_past_the_end(1, 1, 0) == 3, "a low side above its high side is refused before j");
    require(refused_past_the_end(1, 0, 0) == 15, "j is refused before the room for the load");
}

/* What each call that takes a curve answers to one; they must agree. */
static uint64_t answer_of_all(const int32_t *curve, jusqani_length length)
{
    static const struct jusqani_setting about = {{-1, 1, -1, 1}, 7};
    int32_t first[MAX_CURVE], second[MAX_CURVE];
    float ohms[JUSQANI_RECT_LENGTH];
    uint32_t exact, numbers[JUSQANI_VERDICT_LENGTH];
    uint8_t card[JUSQANI_CARD_LENGTH(JUSQANI_MAX_DEGREE)];
    const uint64_t answers[] = {
        jusqani_evaluate(curve, length, 1, 2, first, MAX_CURVE, ohms, JUSQANI_RECT_LENGTH, &exact),
        jusqani_evaluate_sixteenths(curve, length, 8, first, MAX_CURVE, ohms, JUSQANI_RECT_LENGTH, &exact),
        jusqani_subdivide(curve, length, 1, 2, first, MAX_CURVE, second, MAX_CURVE, &exact),
        jusqani_elevate(curve, length, first, MAX_CURVE, &exact),
        jusqani_bounds(curve, length, first, MAX_CURVE),
        jusqani_search(curve, length, about.limits, JUSQANI_RECT_LENGTH, 12, 1, numbers, JUSQANI_VERDICT_LENGTH),
        jusqani_choose_setting(curve, length, &about, 1, 12, 1, numbers, JUSQANI_CHOICE_LENGTH),
        jusqani_write_card(curve, length, card, sizeof card),
    };
    for (size_t k = 1; k < sizeof answers / sizeof answers[0]; k++)
        require(answers[k] == answers[0], "every call answers alike to a curve");
    return answers[0];
}

/* A buffer without a degree is refused with 1, and one without a side with 2 at its rectangle. The whole curve is
 * accepted, but for the highest degree, which one of the calls cannot raise. */
static void check_lacking(int32_t degree)
{
    const int32_t curve[MAX_CURVE] = {degree};
    require(answer_of_all(curve, 0) == 1, "a buffer without a number has no degree");
    require(answer_of_all(curve, 1) == refusal(2, 0), "a buffer with a degree alone has no sides");
    for (jusqani_length length = 2; length < JUSQANI_CURVE_LENGTH(degree); length++)
        require(answer_of_all(curve, length) == refusal(2, (length - 2) / 4), "a missing side is out of range");
    require(degree == JUSQANI_MAX_DEGREE || answer_of_all(curve, JUSQANI_CURVE_LENGTH(degree)) == 0,
            "a curve that lacks nothing is accepted");
}

/* A degree must be 1 to 8, also where its low bits are. The sides of a curve without its degree and sum, here the
 * dipole's, are not taken for one. */
static void check_degrees(void)
{
    static const int32_t degrees[] = {INT32_MIN, -1, 0, 9, 0x101, 0x10001, INT32_MAX};
    static const int32_t sides[] = {61440, 63488, -44544, -41472, 66560, 68608, -13824, -10752,
                                    74496, 77056, 20736,  24320,  83456, 86528, 57344,  61440};
    for (size_t k = 0; k < sizeof degrees / sizeof degrees[0]; k++)
        require(answer_of_all((int32_t[MAX_CURVE]){degrees[k]}, MAX_CURVE) == 1, "a degree that is not 1 to 8 is refused");
    require(answer_of_all(sides, sizeof sides / sizeof sides[0]) == 1, "sides alone are refused");
}

/* Cuts a curve of degree 8 with such a sum in the middle, with so much room for each piece; checks what is stored. */
static uint64_t cut_with_sum(int32_t sum, jusqani_length room)
{
    const int32_t curve[MAX_CURVE] = {8, sum};
    int32_t left[MAX_CURVE] = {-1, -1}, right[MAX_CURVE] = {-1, -1};
    uint32_t exact = UNTOUCHED;
    uint64_t answer = jusqani_subdivide(curve, MAX_CURVE, 1, 2, left, room, right, room, &exact);
    int32_t degree = answer == 0 ? 8 : -1, after = answer == 0 ? sum + 8 : -1;
    require(left[0] == degree && right[0] == degree, "both pieces have the degree, and a refused cut stores nothing");
    require(left[1] == after && right[1] == after, "both pieces have the sum plus the degree");
    return answer;
}

/* Raises a curve of such a degree and sum; checks what is stored. */
static uint64_t raise_with_sum(int32_t degree, int32_t sum)
{
    const int32_t curve[MAX_CURVE] = {degree, sum};
    int32_t raised[MAX_CURVE] = {-1, -1};
    uint32_t exact = UNTOUCHED;
    uint64_t answer = jusqani_elevate(curve, MAX_CURVE, raised, MAX_CURVE, &exact);
    require(raised[1] == (answer == 0 ? sum + 1 : -1), "a raising adds 1 to the sum, and a refused one stores nothing");
    return answer;
}

/* The sum of steps ends at 65,535; it is tried behind all others but the room. */
static void check_sums(void)
{
    require(cut_with_sum(65527, MAX_CURVE) == 0, "a cut may reach the sum 65,535");
    require(cut_with_sum(65528, MAX_CURVE) == 17, "a cut past the sum 65,535 is refused with 17");
    require(cut_with_sum(65528, 0) == 17, "the sum is refused before the room for the pieces");
    require(cut_with_sum(65527, MAX_CURVE - 1) == refusal(12, MAX_CURVE), "a piece needs room for its sum");
    require(raise_with_sum(7, 65534) == 0, "a raising may reach the sum 65,535");
    require(raise_with_sum(7, 65535) == 17, "a raising past the sum 65,535 is refused with 17");
    require(raise_with_sum(8, 65535) == 6, "the highest degree is refused before the sum");
}

/* A number that is no sum leaves no room for a cut or a raising, and a reading does not look at it. */
static void check_no_sum(int32_t sum)
{
    const int32_t curve[MAX_CURVE] = {7, sum};
    int32_t load[JUSQANI_RECT_LENGTH];
    float ohms[JUSQANI_RECT_LENGTH];
    uint32_t exact;
    require(cut_with_sum(sum, MAX_CURVE) == 17, "a cut of a curve without a sum is refused with 17");
    require(raise_with_sum(7, sum) == 17, "a raising of a curve without a sum is refused with 17");
    require(jusqani_evaluate(curve, MAX_CURVE, 1, 2, load, 4, ohms, 4, &exact) == 0
                && jusqani_evaluate_sixteenths(curve, MAX_CURVE, 8, load, 4, ohms, 4, &exact) == 0,
            "a reading does not look at the sum");
}

/* Raises a piece that is handed on with such a length; it keeps its degree and sum. */
static void check_raising(const int32_t *piece, jusqani_length length)
{
    int32_t raised[MAX_CURVE];
    uint32_t exact;
    require(jusqani_elevate(piece, length, raised, MAX_CURVE, &exact) == 0, "a piece is handed on as it is");
    require(raised[0] == piece[0] + 1 && raised[1] == piece[1] + 1, "a piece that is handed on keeps its sum");
}

/* Writes a piece that is handed on with such a length to a card, and reads it again. */
static void check_card(const int32_t *piece, jusqani_length length)
{
    int32_t again[MAX_CURVE];
    uint8_t card[JUSQANI_CARD_LENGTH(JUSQANI_MAX_DEGREE)];
    require(jusqani_write_card(piece, length, card, sizeof card) == 0
                && jusqani_read_card(card, JUSQANI_CARD_LENGTH(piece[0]), again, MAX_CURVE) == 0,
            "a piece is written and read again");
    require(again[1] == 0, "a curve off a card has the sum 0");
    again[1] = piece[1];
    require(memcmp(again, piece, JUSQANI_CURVE_LENGTH(piece[0]) * sizeof *piece) == 0,
            "a piece read again is equal but for its sum");
}

/* Values 1, 0, 3 are cut in the middle, as document 01 does, and both pieces are handed on, with their own length and
 * with that of the whole buffer. */
static void check_handing_on(void)
{
    static const int32_t curve[] = {2, 0, 1, 1, 0, 0, 0, 0, 0, 0, 3, 3, 0, 0};
    static const int32_t first[] = {2, 2, 1, 1, 0, 0, 0, 1, 0, 0, 0, 2, 0, 0};
    static const int32_t second[] = {2, 2, 0, 2, 0, 0, 1, 2, 0, 0, 3, 3, 0, 0};
    int32_t left[MAX_CURVE], right[MAX_CURVE];
    uint32_t exact;
    const jusqani_length lengths[] = {JUSQANI_CURVE_LENGTH(2), MAX_CURVE};
    memset(left, 0x80, sizeof left); /* sides out of range, if one past the piece is read */
    memset(right, 0x80, sizeof right);
    require(jusqani_subdivide(curve, lengths[0], 1, 2, left, MAX_CURVE, right, MAX_CURVE, &exact) == 0
                && memcmp(left, first, sizeof first) == 0 && memcmp(right, second, sizeof second) == 0,
            "the left piece and the right one are those of document 01's example");
    for (size_t k = 0; k < 2; k++) {
        check_raising(left, lengths[k]);
        check_raising(right, lengths[k]);
        check_card(left, lengths[k]);
        check_card(right, lengths[k]);
    }
}

/* What holds whatever the card is. */
static void check_calls(void)
{
    check_order();
    for (int32_t degree = 1; degree <= JUSQANI_MAX_DEGREE; degree++)
        check_lacking(degree);
    check_degrees();
    check_sums();
    check_no_sum(INT32_MIN);
    check_no_sum(-1);
    check_no_sum(65536);
    check_no_sum(INT32_MAX);
    check_handing_on();
}

int main(int argc, char **argv)
{
    uint8_t card[MAX_CARD];
    int32_t curve[MAX_CURVE];
    int32_t load[JUSQANI_RECT_LENGTH];
    float ohms[JUSQANI_RECT_LENGTH];
    uint32_t exact = UNTOUCHED;
    if (argc < 3 || argc > 5) {
        fprintf(stderr, "usage: %s NUM DEN|--sixteenths J [CURVE-LENGTH [LOAD-LENGTH]] < CARD\n", argv[0]);
        return BAD_USAGE;
    }
    int summed = strcmp(argv[1], "--sixteenths") == 0;
    uint32_t num = summed ? 0 : argument(argv[1], UINT32_MAX);
    uint32_t last = argument(argv[2], UINT32_MAX); /* the denominator, or J */
    size_t curve_length = argc > 3 ? argument(argv[3], MAX_CURVE) : MAX_CURVE;
    size_t load_length = argc > 4 ? argument(argv[4], JUSQANI_RECT_LENGTH) : JUSQANI_RECT_LENGTH;
    size_t card_length = read_input(card);
    check_calls();
    uint64_t answer = jusqani_read_card(card, card_length, curve, curve_length);
    if (answer == 0)
        answer = summed ? jusqani_evaluate_sixteenths(curve, curve_length, last, load, load_length, ohms, load_length,
                                                      &exact)
                        : jusqani_evaluate(curve, curve_length, num, last, load, load_length, ohms, load_length,
                                           &exact);
    if (answer != 0) {
        require(exact == UNTOUCHED, "a refused call leaves the flag as it was");
        show_refusal(answer);
        return REFUSED;
    }
    require(same_load(load, ohms), "the load in ohms is the load in steps");
    require(flag_word(exact) != NULL, "the flag of an accepted call is 0 or 1");
    show_load((double[]){ohms[0], ohms[1], ohms[2], ohms[3]});
    printf(", %s\n", flag_word(exact));
    return 0;
}
