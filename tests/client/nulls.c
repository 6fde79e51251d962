/* Checks that a pointer may be null where its length is 0: each call is made with each of its slices in turn lent with
 * the length 0, once null and once not, and must answer both times what is expected of a slice without numbers.
 * usage: nulls */
#include <stdio.h>
#include <string.h>

#include "common.h"
#include "jusqani.h"

#define MAX_SLICES 3

/* What *exact and *found hold before a call; no call stores it. */
#define UNTOUCHED UINT32_MAX

/* A buffer and the length with which it is lent. */
struct slice {
    void *at;
    jusqani_length length;
};

static uint32_t flag;

static uint64_t evaluate(const struct slice *s)
{
    return jusqani_evaluate(s[0].at, s[0].length, 1, 2, s[1].at, s[1].length, s[2].at, s[2].length, &flag);
}

static uint64_t evaluate_sixteenths(const struct slice *s)
{
    return jusqani_evaluate_sixteenths(s[0].at, s[0].length, 8, s[1].at, s[1].length, s[2].at, s[2].length, &flag);
}

static uint64_t subdivide(const struct slice *s)
{
    return jusqani_subdivide(s[0].at, s[0].length, 1, 2, s[1].at, s[1].length, s[2].at, s[2].length, &flag);
}

static uint64_t elevate(const struct slice *s)
{
    return jusqani_elevate(s[0].at, s[0].length, s[1].at, s[1].length, &flag);
}

static uint64_t bounds(const struct slice *s)
{
    return jusqani_bounds(s[0].at, s[0].length, s[1].at, s[1].length);
}

static uint64_t search(const struct slice *s)
{
    return jusqani_search(s[0].at, s[0].length, s[1].at, s[1].length, 12, 8191, s[2].at, s[2].length);
}

static uint64_t choose_setting(const struct slice *s)
{
    return jusqani_choose_setting(s[0].at, s[0].length, s[1].at, s[1].length, 12, 8191, s[2].at, s[2].length);
}

static uint64_t enclose(const struct slice *s)
{
    return jusqani_enclose(s[0].at, s[0].length, s[1].at, s[1].length, &flag);
}

static uint64_t read_card(const struct slice *s)
{
    return jusqani_read_card(s[0].at, s[0].length, s[1].at, s[1].length);
}

static uint64_t write_card(const struct slice *s)
{
    return jusqani_write_card(s[0].at, s[0].length, s[1].at, s[1].length);
}

static uint64_t panel(const struct slice *s)
{
    return jusqani_panel(s[0].at, s[0].length, 1, 2, s[1].at, s[1].length);
}

/* What the calls are lent: 50 ohms across the band as a curve and as a card, a box and a list of one setting that hold
 * it, a measured load, and room for two results. */
static int32_t line[] = {1, 0, 51200, 51200, 0, 0, 51200, 51200, 0, 0};
static char card[] = "         1\n"
                     "     51200     51200         0         0\n"
                     "     51200     51200         0         0\n";
static int32_t limits[] = {0, 102400, -1, 1};
static struct jusqani_setting settings[] = {{{0, 102400, -1, 1}, 12}};
static float ohms[] = {50, 0};
static uint32_t room[2][JUSQANI_CARD_LENGTH(1)];

#define CURVE {line, JUSQANI_CURVE_LENGTH(1)}
#define CARD {card, JUSQANI_CARD_LENGTH(1)}
#define BOX {limits, JUSQANI_RECT_LENGTH}
#define LIST {settings, 1}
#define LOAD {ohms, 2}
#define ROOM {room[0], JUSQANI_CARD_LENGTH(1)}
#define SECOND_ROOM {room[1], JUSQANI_CARD_LENGTH(1)}

/* The answer of a call whose result needs such a length. */
#define NEEDS(length) ((uint64_t)(length) << 32 | JUSQANI_REFUSED_ROOM)

/* Each call, what it is lent, and what it answers where that slice has no numbers. No ohms are no carrier, and the panel
 * call's answer has no place. */
static const struct {
    const char *name;
    uint64_t (*call)(const struct slice *);
    struct slice lent[MAX_SLICES];
    uint64_t without[MAX_SLICES];
} calls[] = {
    {"evaluate", evaluate, {CURVE, ROOM, SECOND_ROOM}, {1, NEEDS(4), NEEDS(4)}},
    {"evaluate_sixteenths", evaluate_sixteenths, {CURVE, ROOM, SECOND_ROOM}, {1, NEEDS(4), NEEDS(4)}},
    {"subdivide", subdivide, {CURVE, ROOM, SECOND_ROOM}, {1, NEEDS(10), NEEDS(10)}},
    {"elevate", elevate, {CURVE, ROOM}, {1, NEEDS(14)}},
    {"bounds", bounds, {CURVE, ROOM}, {1, NEEDS(4)}},
    {"search", search, {CURVE, BOX, ROOM}, {1, 7, NEEDS(4)}},
    {"choose_setting", choose_setting, {CURVE, LIST, ROOM}, {1, 16, NEEDS(3)}},
    {"enclose", enclose, {LOAD, ROOM}, {0, NEEDS(4)}},
    {"read_card", read_card, {CARD, ROOM}, {10, NEEDS(10)}},
    {"write_card", write_card, {CURVE, ROOM}, {1, NEEDS(93)}},
    {"panel", panel, {CARD, ROOM}, {10, 12}},
};
#define CALLS (sizeof calls / sizeof calls[0])

/* Makes a call with a slice replaced by one of length 0: it answers as expected and stores nothing in the buffers. */
static void check_slice(size_t c, size_t k, void *at)
{
    static const uint32_t zeros[2][JUSQANI_CARD_LENGTH(1)];
    struct slice lent[MAX_SLICES];
    memcpy(lent, calls[c].lent, sizeof lent);
    lent[k] = (struct slice){at, 0};
    flag = UNTOUCHED;
    memset(room, 0, sizeof room);
    uint64_t answer = calls[c].call(lent);
    if (answer != calls[c].without[k]) {
        printf("%s, slice %zu %s with the length 0: ", calls[c].name, k, at == NULL ? "null" : "not null");
        show_refusal(answer);
    }
    require(answer == calls[c].without[k], "a slice of length 0 has no numbers, and its pointer does not matter");
    require(flag == (answer == 0 ? JUSQANI_NO_CARRIER : UNTOUCHED), "no numbers are no carrier, or the flag is kept");
    require(memcmp(room, zeros, sizeof room) == 0, "nothing is stored");
}

/* Checks each slice of a call, and gives how many it has. With all of them whole the call is accepted. */
static size_t check_call(size_t c)
{
    size_t k = 0;
    require(calls[c].call(calls[c].lent) == 0, "a call that is lent all that it needs is accepted");
    for (; k < MAX_SLICES && calls[c].lent[k].at != NULL; k++) {
        check_slice(c, k, calls[c].lent[k].at);
        check_slice(c, k, NULL);
    }
    return k;
}

int main(void)
{
    size_t slices = 0;
    for (size_t c = 0; c < CALLS; c++)
        slices += check_call(c);
    printf("nulls: %zu slices of %zu calls, each null with the length 0\n", slices, CALLS);
    return 0;
}
