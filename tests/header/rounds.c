/* Tries rounds: what is played and what is refused, a list that is too long, and every step that the largest board has.
 * Relies on board.c; main.c runs it. */
#include <stdlib.h>

#include "tests.h"

static int plays(uint64_t answer, uint32_t played, uint8_t decided)
{
    return lufanelis_rounds_refusal(answer) == LUFANELIS_ACCEPTED && lufanelis_rounds_played(answer) == played &&
           lufanelis_rounds_decided(answer) == decided;
}

static int refuses(uint64_t answer, uint8_t refusal)
{
    return lufanelis_rounds_refusal(answer) == refusal && lufanelis_rounds_played(answer) == 0 &&
           lufanelis_rounds_decided(answer) == 0;
}

/* A list written as a string of C, on the board of two stations; \377 is LUFANELIS_ROUND_END. */
static uint64_t rounds_of(uint8_t most, const char *named, size_t length)
{
    return lufanelis_rounds(board, board_length, most, (const uint8_t *)named, length);
}

static void rounds(void)
{
    start_of_two(7, 3);
    HOLDS(plays(rounds_of(0, "", 0), 0, 0));
    HOLDS(refuses(rounds_of(1, "\377\3", 2), LUFANELIS_BAD_ROUND));
    HOLDS(refuses(rounds_of(1, "\0", 1), LUFANELIS_BAD_ROUND));
    HOLDS(refuses(rounds_of(1, "\1\2", 2), LUFANELIS_BAD_ROUND));
    HOLDS(refuses(rounds_of(2, "\2\1", 2), LUFANELIS_BAD_ROUND));
    HOLDS(stands(1, LUFANELIS_STANDS_GOING, 0, 7, 0) && stands(2, LUFANELIS_STANDS_GOING, 0, 3, 0));
    HOLDS(plays(rounds_of(1, "\2\377\2\377\2", 5), 3, 1));
    HOLDS(stands(1, LUFANELIS_STANDS_DECIDED, 0, 7, 9) && stands(2, LUFANELIS_STANDS_GOING, 0, 3, 0));
    HOLDS(steps(step(2), LUFANELIS_WROTE, 0, 0, 0, 0));
    HOLDS(refuses(rounds_of(0, "", 0), LUFANELIS_AMID_COLLECT));
    HOLDS(refuses(rounds_of(0, "\0", 1), LUFANELIS_AMID_COLLECT));
    HOLDS(steps(step(2), LUFANELIS_READ, 0, 0, 0, 1));
    HOLDS(steps(step(2), LUFANELIS_WENT, 0, 0, 7, 2));
    HOLDS(plays(rounds_of(0, "\377\377\377\377", 4), 4, 2));
    HOLDS(plays(rounds_of(2, "\1\2\377", 3), 1, 2));
    HOLDS(refuses(lufanelis_rounds(board, 7, 0, (const uint8_t *)"", 0), LUFANELIS_BOARD_TOO_SHORT));
}

/* A list of more than 32 bits of length. No byte of it is touched, so that it costs no memory. */
static void too_many_rounds(void)
{
    const size_t longest = 4294967295U;
    uint8_t *named = (uint8_t *)calloc(longest + 1, 1);

    HOLDS(named != NULL);
    if (named == NULL)
        return;
    HOLDS(lufanelis_rounds(board, board_length, 0, named, longest + 1) == LUFANELIS_NOT_PLAYED);
    HOLDS(lufanelis_rounds(board, 7, 0, named, longest + 1) == LUFANELIS_NOT_PLAYED);
    HOLDS(refuses(lufanelis_rounds(board, 7, 0, named, longest), LUFANELIS_BOARD_TOO_SHORT));
    free(named);
}

/* Every step that the largest board has: on each island all go through m and A in turn, then all but the first through B, and
 * the first comes last. So nobody decides, and every station takes 51 steps on each of 64 islands. */
static void most_steps(void)
{
    static const uint8_t island[] = {255, 255, 1, 255, 2, 3, 4, 5, 6, 7, 8, 9, 10, 11, 12, 13, 14, 15, 16};
    static uint8_t largest[LUFANELIS_LARGEST_BOARD];
    uint8_t station;
    uint64_t answer;
    uint16_t passes;

    HOLDS(lufanelis_lay(largest, sizeof largest, 16, 64) == LUFANELIS_ACCEPTED);
    for (station = 1; station <= 16; station++)
        HOLDS(lufanelis_propose(largest, sizeof largest, station, station) == LUFANELIS_ACCEPTED);
    for (passes = 1; passes <= 64; passes++) {
        HOLDS(plays(lufanelis_rounds(largest, sizeof largest, 15, island, sizeof island), 4, 0));
        for (station = 1; station <= 16; station++) {
            answer = lufanelis_standing(largest, sizeof largest, station);
            HOLDS(lufanelis_standing_steps(answer) == passes * 51);
            HOLDS(lufanelis_standing_kind(answer) == (passes < 64 ? LUFANELIS_STANDS_GOING : LUFANELIS_STANDS_SPENT));
            HOLDS(lufanelis_standing_figure(answer) == station);
        }
    }
}

void try_rounds(void)
{
    rounds();
    too_many_rounds();
    most_steps();
}
