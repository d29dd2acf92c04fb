/* Three stations settle on one figure, as their firmware would: whenever a station comes to the board it asks how it stands
 * there, and it is stepped when it is its turn, until it has decided or is spent. Here one program plays all three, in a mixed
 * order, and two of them are halted and come back with nothing but their numbers.
 * Relies on include/lufanelis.h and on the archive that `rt lib` in crates/capi writes; station.out has what it prints.
 *
 *     (cd crates/capi && rt lib)
 *     cc -Iinclude -o station examples/c/station.c crates/capi/out/libcapi.a && ./station */
#include <inttypes.h>
#include <stdio.h>

#include "lufanelis.h"

#define STATIONS 3
#define ISLANDS 2

/* What a step did, by its kind; there is no kind 0. */
static const char *const kinds[] = {"", "wrote", "read", "went", "marked", "adopted", "decided", "spent"};

/* What each station proposes; stations are numbered from 1. Figures compare by their size without sign, and of two equal sizes
 * the positive one is larger: 0, -1, 1, -2, 2 rise. So station 2 has the largest figure of all; it comes too late with it. */
static const int32_t figures[STATIONS + 1] = {0, -40, INT32_MIN, 15};

/* The order in which the stations come to a turn, over and over. */
static const uint8_t turns[] = {1, 3, 3, 1, 3, 1, 1, 3, 2, 2, 1, 2};

static uint8_t board[LUFANELIS_BOARD_LENGTH(STATIONS, ISLANDS)];

/* Which stations take steps. */
static int going[STATIONS + 1];

/* A station comes to the board, for the first time or after a halt. Says whether it goes on. */
static int comes(uint8_t station)
{
    uint64_t answer = lufanelis_standing(board, sizeof board, station);
    int32_t figure = lufanelis_standing_figure(answer);

    if (lufanelis_standing_refusal(answer) != LUFANELIS_ACCEPTED) {
        printf("station %u: refused %u\n", station, lufanelis_standing_refusal(answer));
        return 0;
    }
    switch (lufanelis_standing_kind(answer)) {
    case LUFANELIS_STANDS_IDLE:
        printf("station %u: proposes %" PRId32 "\n", station, figures[station]);
        return lufanelis_propose(board, sizeof board, station, figures[station]) == LUFANELIS_ACCEPTED;
    case LUFANELIS_STANDS_GOING:
        printf("station %u: comes back and steps on with %" PRId32 "\n", station, figure);
        return 1;
    case LUFANELIS_STANDS_DECIDED:
        printf("station %u: comes back and settles on %" PRId32 "\n", station, figure);
        return 0;
    default: /* spent */
        printf("station %u: comes back, and there is no decision for it on this board\n", station);
        return 0;
    }
}

/* Says what a step answered, and whether the station goes on. */
static int told(uint8_t station, uint64_t answer)
{
    uint8_t refusal = lufanelis_step_refusal(answer);
    uint8_t kind = lufanelis_step_kind(answer);
    int32_t figure = lufanelis_step_figure(answer);
    const char *flag = lufanelis_step_flag(answer) == LUFANELIS_COMMIT ? "commit" : "adopt";

    if (refusal != LUFANELIS_ACCEPTED)
        printf("station %u: refused %u\n", station, refusal);
    else if (kind == LUFANELIS_WROTE || kind == LUFANELIS_READ)
        printf("station %u: %s\n", station, kinds[kind]);
    else if (kind == LUFANELIS_MARKED)
        printf("station %u: %s %s %" PRId32 "\n", station, kinds[kind], flag, figure);
    else
        printf("station %u: %s %u %" PRId32 "\n", station, kinds[kind], lufanelis_step_island(answer), figure);
    return refusal == LUFANELIS_ACCEPTED && kind != LUFANELIS_DECIDED && kind != LUFANELIS_SPENT;
}

static void take_turn(void)
{
    static size_t turn;
    uint8_t station = turns[turn++ % sizeof turns];

    if (going[station])
        going[station] = told(station, lufanelis_step(board, sizeof board, station));
}

static int show(void)
{
    uint8_t line[LUFANELIS_LINE_LENGTH];
    uint32_t answer = lufanelis_show(board, sizeof board, line, sizeof line);

    if (lufanelis_show_refusal(answer) != LUFANELIS_ACCEPTED)
        return 0;
    printf("%s\n", (const char *)line);
    return 1;
}

int main(void)
{
    uint8_t station;

    if (lufanelis_lay(board, sizeof board, STATIONS, ISLANDS) != LUFANELIS_ACCEPTED)
        return 1;
    for (station = 1; station <= STATIONS; station++)
        going[station] = comes(station);
    while (going[1])
        take_turn();
    /* Station 1 is halted just as it has decided, and station 2 under way. */
    going[2] = comes(2);
    while (going[2] || going[3])
        take_turn();
    comes(1);
    return show() ? 0 : 1;
}
