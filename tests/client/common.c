#include "common.h"

#include <errno.h>
#include <inttypes.h>
#include <stdio.h>
#include <stdlib.h>

#include "jusqani.h"

uint32_t argument(const char *text, uint32_t largest)
{
    char *end;
    errno = 0;
    unsigned long long number = strtoull(text, &end, 10);
    if (*text < '0' || *text > '9' || *end != '\0' || errno != 0 || number > largest) {
        fprintf(stderr, "not a number from 0 to %" PRIu32 ": %s\n", largest, text);
        exit(BAD_USAGE);
    }
    return (uint32_t)number;
}

size_t read_input(uint8_t card[MAX_CARD])
{
    size_t length = fread(card, 1, MAX_CARD, stdin);
    if (ferror(stdin)) {
        perror("standard input cannot be read");
        exit(BAD_USAGE);
    }
    return length;
}

const char *meaning(uint32_t number)
{
    switch (number) {
#define MEANING(number, name, words) \
    case JUSQANI_REFUSED_##name: return words;
        JUSQANI_REFUSALS(MEANING)
    default: return "not a refusal of the library";
    }
}

/* The measured number that the place of a 13 or 14 names. */
static const char *measured_number(uint32_t place)
{
    static const char *const words[] = {"the resistance", "the reactance", "the spread"};
    return place < sizeof words / sizeof words[0] ? words[place] : "no measured number";
}

void show_refusal(uint64_t answer)
{
    uint32_t number = JUSQANI_NUMBER(answer);
    uint32_t place = JUSQANI_PLACE(answer);
    printf("refused %" PRIu32 ": %s", number, meaning(number));
    switch (number) {
    case 2:
    case 3: printf(", in rectangle %" PRIu32 "\n", place); break;
    case 7: printf(", in box %" PRIu32 "\n", place); break;
    case 10: printf(", it has %" PRIu32 " bytes\n", place); break;
    case 11: printf(", at offset %" PRIu32 "\n", place); break;
    case 12: printf(", the length %" PRIu32 " is needed\n", place); break;
    case 13:
    case 14: printf(", %s\n", measured_number(place)); break;
    case 16: printf(", it has %" PRIu32 " records\n", place); break;
    default: printf("\n"); break;
    }
}

void show_load(const double ohms[4])
{
    printf("R %.15g to %.15g ohm, X %.15g to %.15g ohm", ohms[0], ohms[1], ohms[2], ohms[3]);
}

void require(int holds, const char *promise)
{
    if (!holds) {
        printf("broken: %s\n", promise);
        exit(PROMISE_BROKEN);
    }
}
