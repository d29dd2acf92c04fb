/* How many had written: three stations propose different figures and are halted now and then, so that each of them adopts on
 * island 0 and goes on to island 1. At the end of every collect the program says how many of its registers were filled when
 * they were read, and whose they are. That is for people to read: a station goes by the kind and the figure alone.
 * Relies on include/lufanelis.h and on the archive that `rt lib` in crates/capi writes; adopts.out has what it prints.
 *
 *     (cd crates/capi && rt lib)
 *     cc -Iinclude -o adopts examples/c/adopts.c crates/capi/out/libcapi.a && ./adopts */
#include <inttypes.h>
#include <stdio.h>

#include "lufanelis.h"

#define STATIONS 3
#define ISLANDS 4

/* What a step did that ended a collect, by its kind. */
static const char *const kinds[] = {"", "", "", "went to", "marked", "adopted", "decided on", "is spent on"};

/* What each station proposes; stations are numbered from 1. */
static const int32_t figures[STATIONS + 1] = {0, 7, 3, 5};

/* Who takes how many steps, one line after another. A write and its collect are four steps; until its next line a station is
 * halted. */
static const struct {
    uint8_t station, steps;
} turns[] = {
    {2, 4}, /* m: nobody else has written */
    {1, 4}, /* m: meets station 2's figure and keeps its own, which is larger */
    {2, 4}, /* A: again nobody else */
    {1, 8}, /* A: meets station 2's figure; B: adopts */
    {3, 8}, /* m and A: comes late and meets both */
    {2, 2}, /* B: writes, reads the first register, and is halted there */
    {3, 1}, /* B: writes, in front of station 2 */
    {2, 2}, /* B: meets that too and adopts */
    {3, 3}, /* B: adopts */
    {1, 12}, {2, 12}, {3, 12} /* one after another, on island 1 */
};

static uint8_t board[LUFANELIS_BOARD_LENGTH(STATIONS, ISLANDS)];

/* Whether each register of a station's present collect was filled, as far as it was read. */
static uint8_t filled[STATIONS + 1][STATIONS];
static uint8_t reads[STATIONS + 1];

/* The end of a collect. Its last read has no answer of its own: what the total exceeds the reads before by is that register. */
static void told(uint8_t station, uint64_t answer)
{
    uint8_t kind = lufanelis_step_kind(answer), total = lufanelis_step_total(answer), before = 0, at;

    for (at = 0; at < STATIONS - 1; at++)
        before = (uint8_t)(before + filled[station][at]);
    filled[station][STATIONS - 1] = (uint8_t)(total - before);
    printf("station %u %s ", station, kinds[kind]);
    if (kind == LUFANELIS_MARKED)
        printf("%s", lufanelis_step_flag(answer) == LUFANELIS_COMMIT ? "commit" : "adopt");
    else
        printf("island %u", lufanelis_step_island(answer));
    printf(" figure %" PRId32 " after %u of %u had written:", lufanelis_step_figure(answer), total, STATIONS);
    for (at = 0; at < STATIONS; at++)
        if (filled[station][at])
            printf(" %u", at + 1);
    printf("\n");
}

/* One step; says whether it was taken. */
static int step(uint8_t station)
{
    uint64_t answer = lufanelis_step(board, sizeof board, station);

    if (lufanelis_step_refusal(answer) != LUFANELIS_ACCEPTED)
        return 0;
    switch (lufanelis_step_kind(answer)) {
    case LUFANELIS_WROTE:
        reads[station] = 0;
        break;
    case LUFANELIS_READ:
        filled[station][reads[station]++] = lufanelis_step_filled(answer);
        break;
    default:
        told(station, answer);
    }
    return 1;
}

int main(void)
{
    size_t turn;
    uint8_t station, steps;

    if (lufanelis_lay(board, sizeof board, STATIONS, ISLANDS) != LUFANELIS_ACCEPTED)
        return 1;
    for (station = 1; station <= STATIONS; station++)
        if (lufanelis_propose(board, sizeof board, station, figures[station]) != LUFANELIS_ACCEPTED)
            return 1;
    for (turn = 0; turn < sizeof turns / sizeof *turns; turn++)
        for (steps = 0; steps < turns[turn].steps; steps++)
            if (!step(turns[turn].station))
                return 1;
    return 0;
}
