/* A tuner from the bridge to the relays, in C and in C++. Each line of standard input is what the bridge measured at a
 * control point: resistance, reactance and perhaps their spread, in ohms. The points become a curve, which is kept as a
 * card; a relay setting is chosen for it, and its load is shown at seventeen places of the band.
 * usage: tuner < OHMS */
#include <inttypes.h>
#include <math.h>
#include <stdio.h>
#include <stdlib.h>
#include <string.h>

#include "jusqani.h"

/* Room for a number and a point more than the calls take, so that they see them and refuse. */
#define MAX_NUMBERS 4
#define MAX_CURVE JUSQANI_CURVE_LENGTH(JUSQANI_MAX_DEGREE + 1)
#define MAX_CARD JUSQANI_CARD_LENGTH(JUSQANI_MAX_DEGREE)

/* Ends the program where a call was refused, and says in the header's words what was refused, and where. */
static void check(const char *call, uint64_t answer)
{
#define WORDS(number, name, words) refused == number ? words :
    uint32_t refused = JUSQANI_NUMBER(answer);
    const char *meaning = JUSQANI_REFUSALS(WORDS) "not a refusal of the library";
    if (answer == 0)
        return;
    printf("%s: refused %" PRIu32 " at %" PRIu32 ": %s\n", call, refused, JUSQANI_PLACE(answer), meaning);
    exit(1);
}

/* Encloses the ohms on a line in a rectangle. What is no number becomes not a number, which the call refuses. */
static void enclose(char *line, int32_t *rect)
{
    float ohms[MAX_NUMBERS];
    jusqani_length count = 0;
    uint32_t found;
    char *end;
    for (char *word = strtok(line, " \n"); word != NULL && count < MAX_NUMBERS; word = strtok(NULL, " \n")) {
        float number = strtof(word, &end);
        ohms[count++] = *end == '\0' ? number : NAN;
    }
    check("enclose", jusqani_enclose(ohms, count, rect, JUSQANI_RECT_LENGTH, &found));
    if (found == JUSQANI_NO_CARRIER) {
        printf("no carrier\n");
        exit(1);
    }
}

/* Shows the curve's load at j/16. */
static void show(const int32_t *curve, uint32_t j)
{
    int32_t load[4];
    float ohms[4];
    uint32_t exact;
    check("evaluate_sixteenths", jusqani_evaluate_sixteenths(curve, MAX_CURVE, j, load, 4, ohms, 4, &exact));
    printf("%" PRIu32 "/16: R %.15g to %.15g ohm, X %.15g to %.15g ohm, %s\n", j, ohms[0], ohms[1], ohms[2], ohms[3],
           exact ? "exact" : "rounded");
}

int main(void)
{
    static const struct jusqani_setting settings[] = {{{51200, 102400, -40960, 71680}, 3},
                                                      {{51200, 102400, -51200, 71680}, 12}};
    char line[80];
    int32_t curve[MAX_CURVE] = {-1, 0}; /* no rectangle yet, and the sum of steps 0 */
    uint8_t card[MAX_CARD];
    uint32_t choice[3];
    for (; curve[0] <= JUSQANI_MAX_DEGREE && fgets(line, sizeof line, stdin) != NULL; curve[0]++)
        enclose(line, curve + JUSQANI_RECT_AT(curve[0] + 1));
    check("write_card", jusqani_write_card(curve, MAX_CURVE, card, MAX_CARD));
    check("read_card", jusqani_read_card(card, JUSQANI_CARD_LENGTH(curve[0]), curve, MAX_CURVE));
    check("choose_setting", jusqani_choose_setting(curve, MAX_CURVE, settings, 2, 6, 500, choice, 3));
    if (choice[0] == JUSQANI_FITS)
        printf("setting %" PRIu32 "\n", choice[2]);
    else
        printf("no setting fits\n");
    for (uint32_t j = 0; j <= 16; j++)
        show(curve, j);
    return 0;
}
