/* What the clients share: their arguments, the card they are given, and how they show a load or a refusal. */
#ifndef CLIENT_COMMON_H
#define CLIENT_COMMON_H

#include <stddef.h>
#include <stdint.h>

#include "jusqani.h"

/* The exit statuses of a client besides 0. */
#define REFUSED 1
#define BAD_USAGE 2
#define PROMISE_BROKEN 3

/* The bytes of standard input that are taken as the card. */
#define MAX_CARD 4096

#define STEPS_PER_OHM ((double)JUSQANI_STEPS_PER_OHM)

/* The numbers of a curve of the highest degree. */
#define MAX_CURVE JUSQANI_CURVE_LENGTH(JUSQANI_MAX_DEGREE)

/* The number that an argument gives, at most a largest one; anything else ends the program. */
uint32_t argument(const char *text, uint32_t largest);

/* Reads the card from standard input and gives its length; a failure ends the program. */
size_t read_input(uint8_t card[MAX_CARD]);

/* The header's words for a refusal's number. */
const char *meaning(uint32_t number);

/* Says what an answer refuses and where. */
void show_refusal(uint64_t answer);

/* Shows a load's four sides in ohms, without an end of line. */
void show_load(const double ohms[4]);

/* Ends the program where the library broke a promise. */
void require(int holds, const char *promise);

#endif
