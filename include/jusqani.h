/*
 * Interval Bézier curves of an antenna's load, for firmware in C and C++. Every call is proved: the contracts are in
 * crates/foreign (specs/Calls.antt) and crates/panel (specs/Panel.antt). tests/client/tuner.c is a small program that
 * goes from measured ohms to a relay setting.
 *
 * Curves. A side is a whole number of steps of 1/1,024 ohm. A rectangle is four sides: resistance low, resistance high,
 * reactance low, reactance high. A curve is one buffer, in and out: curve[0] is its degree n, curve[1] its sum of steps,
 * and four sides for each of the rectangles 0 to n follow. What a call gives is handed to the next as it is, with its
 * own length or that of the whole buffer, since numbers past rectangle n are not read. A buffer without any number has
 * no degree, and a side that the buffer lacks is out of range.
 *
 * Sums. The sum of steps, 0 to 65,535, tells how far the roundings may have moved a curve's sides. Reading a card sets
 * it to 0, and a curve of the caller's own rectangles begins with 0; a cut puts the curve's sum plus its degree in both
 * pieces; a raising adds 1. For any curve reached from a curve with the sum 0 by our cuts and raisings, no side is
 * farther out than the same steps without rounding give by more than that sum, and none lies short; and no side that
 * jusqani_evaluate or jusqani_evaluate_sixteenths then gives lies farther out than the exact side of the first curve by
 * more steps than the sum plus the degree, and none lies short. A number that is no sum counts as 65,535. The calls
 * that can refuse with 17 look at the sum, and no others. A card has none: a piece that is written and read again is
 * equal but for its sum, which is 0, and counts from its own rectangles.
 *
 * Answers. A call answers 0 on success. Any other answer is a refusal: JUSQANI_NUMBER(answer) says what was refused and
 * JUSQANI_PLACE(answer) where. A call tries its refusals in the order in which its comment lists them. A refused call
 * changes nothing. One that is not refused stores its result in front of each buffer lent for it, and what lies past
 * the result keeps its contents. A 12 is about the first of these buffers, in the order of the parameters, that is too
 * short.
 *
 * Exactness. *exact becomes 1 where every side that the call gives is the exact one of the curve that it was given,
 * whatever the calls before it rounded, and 0 where some side is not.
 *
 * Buffers. The caller provides valid buffers, aligned as their type is, of the stated lengths, which count numbers,
 * bytes or settings. One that a call writes, *exact and *found too, overlaps no other. A pointer may be null where its
 * length is 0; exact and found are never null.
 *
 * Running. A call always returns, keeps no pointer, and has no data of its own that is written. So calls may run at
 * once, on several threads or in an interrupt, where none writes a buffer that another uses.
 *
 * Linking. Each call is in a section of its own: with -Wl,--gc-sections a program has the code of the calls that it
 * makes, and no other's. The symbol of a call ends in JUSQANI_VERSION, so that a program compiled with the header of
 * another version does not link; it would hand over other arguments than the library takes.
 */
#ifndef JUSQANI_H
#define JUSQANI_H

#include <stdint.h>

#ifdef __cplusplus
extern "C" {
#endif

#define JUSQANI_VERSION 2

#define JUSQANI_PASTE(name, version) name##_v##version
#define JUSQANI_NAME(name, version) JUSQANI_PASTE(name, version)
#define jusqani_evaluate JUSQANI_NAME(jusqani_evaluate, JUSQANI_VERSION)
#define jusqani_evaluate_sixteenths JUSQANI_NAME(jusqani_evaluate_sixteenths, JUSQANI_VERSION)
#define jusqani_subdivide JUSQANI_NAME(jusqani_subdivide, JUSQANI_VERSION)
#define jusqani_elevate JUSQANI_NAME(jusqani_elevate, JUSQANI_VERSION)
#define jusqani_bounds JUSQANI_NAME(jusqani_bounds, JUSQANI_VERSION)
#define jusqani_search JUSQANI_NAME(jusqani_search, JUSQANI_VERSION)
#define jusqani_choose_setting JUSQANI_NAME(jusqani_choose_setting, JUSQANI_VERSION)
#define jusqani_enclose JUSQANI_NAME(jusqani_enclose, JUSQANI_VERSION)
#define jusqani_read_card JUSQANI_NAME(jusqani_read_card, JUSQANI_VERSION)
#define jusqani_write_card JUSQANI_NAME(jusqani_write_card, JUSQANI_VERSION)
#define jusqani_panel JUSQANI_NAME(jusqani_panel, JUSQANI_VERSION)

/* A buffer's length. It has 64 bits on every processor, as in the proofs. */
typedef uint64_t jusqani_length;

/* A refusal's number and its place, off an answer. */
#define JUSQANI_NUMBER(answer) ((uint32_t)((answer) & 0xffffffffu))
#define JUSQANI_PLACE(answer) ((uint32_t)((uint64_t)(answer) >> 32))

/*
 * All refusals, X(number, name, words) for each. A place is 0 unless a comment says what it tells. The words are for
 * whoever reads a message, and JUSQANI_REFUSED_DEGREE and so on are the numbers by their names.
 */
/* clang-format off */
#define JUSQANI_REFUSALS(X) \
    X(1, DEGREE, "the degree is not 1 to 8") \
    X(2, SIDE, "a side is out of range (16,384 ohms either way)") /* the first such rectangle */ \
    X(3, ORDER, "a low side is above its high side") /* the first such rectangle */ \
    X(4, DEN, "den is not 1 to 65,536") \
    X(5, NUM, "num is above den") \
    X(6, HIGHEST, "the degree is 8 and cannot be raised") \
    X(7, BOX, "a box side is out of range, or a low side is not below its high side") /* of a list the first such record's index */ \
    X(8, DEPTH, "depth is above 12") \
    X(9, BUDGET, "budget is not 1 to 8,191") \
    X(10, LENGTH, "the card has fewer than 11 bytes, or not the length for its degree") /* its length, 2^32 - 1 if longer */ \
    X(11, TEXT, "a column is malformed, or a line does not end with byte 10") /* the offset of the column or the line end */ \
    X(12, ROOM, "a buffer for the result is too short") /* the length that is needed */ \
    X(13, MEASURED, "a measured number is not finite, a load is beyond 16,384 ohms either way, or a spread is not 0 to 16,384 ohms") /* 0 the resistance, 1 the reactance, 2 the spread */ \
    X(14, SPREAD, "with the spread a side is out of range (16,384 ohms either way)") /* 0 the resistance, 1 the reactance */ \
    X(15, SIXTEENTH, "j is above 16") \
    X(16, LIST, "the list of settings is empty or longer than 64") /* its length, 2^32 - 1 if longer */ \
    X(17, SUM, "the sum of steps would pass 65,535")
/* clang-format on */

#define JUSQANI_REFUSED(number, name, words) JUSQANI_REFUSED_##name = number,
enum jusqani_refusal { JUSQANI_REFUSALS(JUSQANI_REFUSED) };
#undef JUSQANI_REFUSED

/*
 * The most bytes of stack that each call took on x86-64, X(call, bytes) for each: from the caller's frame down, with
 * those of memcpy and memset, the walks of search and choose_setting at their greatest depth. tests/client/stack.c
 * measures them and fails where one takes more. Other processors differ.
 */
#define JUSQANI_STACK(X) \
    X(panel, 792) \
    X(evaluate, 440) \
    X(evaluate_sixteenths, 624) \
    X(subdivide, 1144) \
    X(elevate, 569) \
    X(bounds, 424) \
    X(search, 7912) \
    X(choose_setting, 7048) \
    X(enclose, 56) \
    X(read_card, 760) \
    X(write_card, 504)

/* The highest degree of a curve, the steps in an ohm, and the most records of a list of settings. */
#define JUSQANI_MAX_DEGREE 8
#define JUSQANI_STEPS_PER_OHM 1024
#define JUSQANI_MAX_SETTINGS 64

/* The numbers of a rectangle, of a verdict and of a choice. */
#define JUSQANI_RECT_LENGTH 4
#define JUSQANI_VERDICT_LENGTH 4
#define JUSQANI_CHOICE_LENGTH 3

/* The index in a curve at which rectangle k begins; the numbers of a curve of degree n, and the bytes of its card. */
#define JUSQANI_RECT_AT(k) (2 + 4 * (jusqani_length)(k))
#define JUSQANI_CURVE_LENGTH(n) JUSQANI_RECT_AT((n) + 1)
#define JUSQANI_CARD_LENGTH(n) (11 + 41 * (jusqani_length)((n) + 1))

/* The verdicts of jusqani_search. */
#define JUSQANI_INSIDE 1
#define JUSQANI_OUTSIDE 2
#define JUSQANI_SPENT 3
#define JUSQANI_UNDECIDED 4

/* What jusqani_choose_setting found. */
#define JUSQANI_FITS 1
#define JUSQANI_NONE_FITS 2

/* What jusqani_enclose found. */
#define JUSQANI_NO_CARRIER 1
#define JUSQANI_RECTANGLE 2

/*
 * A relay setting: the box that its load must stay in, four sides, the low ones inside it and the high ones outside;
 * and its number, 0 to 65,535. It has 20 bytes and the alignment of a side; what its last two bytes hold does not
 * matter.
 */
struct jusqani_setting {
    int32_t limits[JUSQANI_RECT_LENGTH];
    uint16_t number;
};

/*
 * Evaluates the curve at num/den, rounding at every stage. The load's four sides are stored in load, and the same in
 * ohms, with nothing lost, in ohms. Refusals 1, 2, 3, 4, 5, 12.
 */
uint64_t jusqani_evaluate(const int32_t *curve, jusqani_length curve_length, uint32_t num, uint32_t den, int32_t *load,
                          jusqani_length load_length, float *ohms, jusqani_length ohms_length, uint32_t *exact);

/*
 * Evaluates the curve at j/16, j from 0 to 16, by the Bernstein sum, and rounds once, a low side down and a high side
 * up: no side lies a whole step from the exact one, and the load lies inside the one that jusqani_evaluate gives there.
 * It is stored as there. Refusals 1, 2, 3, 15, 12.
 */
uint64_t jusqani_evaluate_sixteenths(const int32_t *curve, jusqani_length curve_length, uint32_t j, int32_t *load,
                                     jusqani_length load_length, float *ohms, jusqani_length ohms_length,
                                     uint32_t *exact);

/*
 * Cuts the curve at num/den. The piece up to there is stored in left and the piece from there on in right, each a curve
 * of the same degree; *exact is that of jusqani_evaluate there. Refusals 1, 2, 3, 4, 5, 17, 12.
 */
uint64_t jusqani_subdivide(const int32_t *curve, jusqani_length curve_length, uint32_t num, uint32_t den, int32_t *left,
                           jusqani_length left_length, int32_t *right, jusqani_length right_length, uint32_t *exact);

/* Raises the curve's degree by one: the raised curve is stored in raised. Refusals 1, 2, 3, 6, 17, 12. */
uint64_t jusqani_elevate(const int32_t *curve, jusqani_length curve_length, int32_t *raised,
                         jusqani_length raised_length, uint32_t *exact);

/* Bounds the curve: the least rectangle that holds all of its rectangles is stored in rect. Refusals 1, 2, 3, 12. */
uint64_t jusqani_bounds(const int32_t *curve, jusqani_length curve_length, int32_t *rect, jusqani_length rect_length);

/*
 * Decides whether the curve stays in a box, by cutting it into pieces none deeper than depth and looking at no more
 * than budget of them. The box is four sides, as those of a setting; one that limits lacks is out of range. Four
 * numbers are stored in verdict: JUSQANI_INSIDE, _OUTSIDE, _SPENT or _UNDECIDED, the depth and the index of the piece
 * that Outside and Undecided name (0 and 0 for the others), and the number of pieces looked at. Inside says that every
 * load of every curve in the rectangles lies at or above the low sides and strictly below the high sides; Outside, that
 * no load lies in the box on the stretch of its piece, from index / 2^depth to (index + 1) / 2^depth, both ends
 * included. Refusals 1, 2, 3, 7, 8, 9, 17 (the sum plus depth times the degree), 12.
 */
uint64_t jusqani_search(const int32_t *curve, jusqani_length curve_length, const int32_t *limits,
                        jusqani_length limits_length, uint32_t depth, uint32_t budget, uint32_t *verdict,
                        jusqani_length verdict_length);

/*
 * Chooses from a list of relay settings the first whose box is found to hold the curve, each by a walk of its own, that
 * of jusqani_search over its box with this depth and this whole budget. Three numbers are stored in choice:
 * JUSQANI_FITS, the index of the first record whose walk ends Inside, counted from 0, and its setting number; or, where
 * no record's walk ends Inside, JUSQANI_NONE_FITS, 0 and 0. Setting numbers may repeat. Refusals 16, 1, 2, 3, 7 (any
 * box of the list, before the first walk), 8, 9, 17 (as in jusqani_search), 12.
 */
uint64_t jusqani_choose_setting(const int32_t *curve, jusqani_length curve_length,
                                const struct jusqani_setting *settings, jusqani_length settings_length, uint32_t depth,
                                uint32_t budget, uint32_t *choice, jusqani_length choice_length);

/*
 * Encloses what the bridge measured in a rectangle of whole steps. The length of ohms tells the form: 0 no carrier, 2 a
 * load (resistance, reactance), 3 a load with a spread. Any other length is refused with 13: the reactance that a single
 * number lacks, and the spread of more than three numbers, count as not a number. Minus zero counts as zero. *found
 * becomes JUSQANI_NO_CARRIER, and rect is kept, or JUSQANI_RECTANGLE with the four sides stored in rect: in each
 * coordinate the step below the load and the step above it, the low one less and the high one plus the spread, which is
 * by itself rounded up to steps. No answer depends on the processor's floating-point mode. Refusals 13, 14, 12 (where
 * there is a rectangle).
 */
uint64_t jusqani_enclose(const float *ohms, jusqani_length ohms_length, int32_t *rect, jusqani_length rect_length,
                         uint32_t *found);

/*
 * Reads a card: its curve is stored in curve. Refusals 10 (shorter than a first line), 11 in the first line, 1, 10, 11
 * in the other lines, 2, 3, 12.
 */
uint64_t jusqani_read_card(const uint8_t *card, jusqani_length card_length, int32_t *curve,
                           jusqani_length curve_length);

/* Writes the curve as a card: JUSQANI_CARD_LENGTH of its degree bytes are stored in card. Refusals 1, 2, 3, 12. */
uint64_t jusqani_write_card(const int32_t *curve, jusqani_length curve_length, uint8_t *card,
                            jusqani_length card_length);

/*
 * Reads a card and evaluates its curve at num/den. 16 bytes are stored in out: the load's four sides, each a 32-bit
 * two's complement number, least byte first. The answer is a refusal's number without its place: those of
 * jusqani_read_card but 12, then 4, 5, 12.
 */
uint32_t jusqani_panel(const uint8_t *card, jusqani_length card_length, uint32_t num, uint32_t den, uint8_t *out,
                       jusqani_length out_length);

#ifdef __cplusplus
}
#endif

#endif
