/* A front panel in C: shows the load of a card in ohms at a parameter, or a message for a refusal.
 * usage: panel NUM DEN [BUFFER-LENGTH] < CARD */
#include <inttypes.h>
#include <stdio.h>
#include <string.h>

#include "common.h"
#include "jusqani.h"

#define MAX_BUFFER 32
#define ANSWER 16
#define FILL 0xa5

/* One side of the load in ohms, from its four bytes. */
static double ohms(const uint8_t *bytes)
{
    uint32_t bits = (uint32_t)bytes[0] | (uint32_t)bytes[1] << 8 | (uint32_t)bytes[2] << 16 | (uint32_t)bytes[3] << 24;
    int64_t steps = bits < UINT32_C(0x80000000) ? (int64_t)bits : (int64_t)bits - INT64_C(0x100000000);
    return (double)steps / STEPS_PER_OHM;
}

/* The first byte from an offset on that the call has changed, or the buffer's end. */
static size_t changed_byte(const uint8_t *out, size_t from)
{
    while (from < MAX_BUFFER && out[from] == FILL)
        from++;
    return from;
}

int main(int argc, char **argv)
{
    uint8_t card[MAX_CARD];
    uint8_t out[MAX_BUFFER];
    if (argc != 3 && argc != 4) {
        fprintf(stderr, "usage: %s NUM DEN [BUFFER-LENGTH] < CARD\n", argv[0]);
        return BAD_USAGE;
    }
    uint32_t num = argument(argv[1], UINT32_MAX);
    uint32_t den = argument(argv[2], UINT32_MAX);
    size_t out_length = argc == 4 ? argument(argv[3], MAX_BUFFER) : ANSWER;
    size_t card_length = read_input(card);
    memset(out, FILL, sizeof out);
    uint32_t number = jusqani_panel(card, card_length, num, den, out, out_length);
    size_t changed = changed_byte(out, number == 0 ? ANSWER : 0);
    if (changed < MAX_BUFFER) {
        printf("byte %zu of the buffer was changed\n", changed);
        return PROMISE_BROKEN;
    }
    if (number != 0) {
        printf("refused %" PRIu32 ": %s\n", number, meaning(number));
        return REFUSED;
    }
    show_load((double[]){ohms(out), ohms(out + 4), ohms(out + 8), ohms(out + 12)});
    printf("\n");
    return 0;
}
