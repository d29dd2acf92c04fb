/* Tries proposals: how figures compare, and figures put in together, all of them or none.
 * Relies on board.c; main.c runs it. */
#include "tests.h"

/* Both stations have proposed: the higher figure is what they go on with, each after so many steps. */
static void higher_goes_on(int32_t high, uint16_t taken)
{
    static const uint8_t both[] = {1, 2, 1, 2, 1, 2, 1, 2};

    HOLDS(lufanelis_run_taken(lufanelis_run(board, board_length, both, 2U * taken)) == 2U * taken);
    HOLDS(stands(1, LUFANELIS_STANDS_GOING, 0, high, taken));
    HOLDS(stands(2, LUFANELIS_STANDS_GOING, 0, high, taken));
}

/* Figures as the header says they rise, each two of them on a board of three stations and on one of two. */
static void rise(void)
{
    static const int32_t rising[] = {0, -1, 1, -2, 2, -INT32_MAX, INT32_MAX, INT32_MIN};
    size_t low, high;

    for (high = 1; high < sizeof rising / sizeof *rising; high++) {
        for (low = 0; low < high; low++) {
            lay();
            HOLDS(propose(1, rising[low]) == LUFANELIS_ACCEPTED);
            HOLDS(propose(2, rising[high]) == LUFANELIS_ACCEPTED);
            higher_goes_on(rising[high], 4);
            start_of_two(rising[low], rising[high]);
            higher_goes_on(rising[high], 3);
        }
    }
}

/* All or none, of three stations the first two: what is refused leaves both as they were. */
static void together(int32_t one, int32_t two)
{
    const uint64_t none = 0, first = lufanelis_pair(1, one), second = lufanelis_pair(2, two);

    lay();
    HOLDS(lufanelis_propose_all(board, board_length, &none, 0) == LUFANELIS_ACCEPTED);
    HOLDS(lufanelis_propose_all(board, board_length, &none, 1) == LUFANELIS_NO_SUCH_STATION);
    HOLDS(propose_two(none, none) == LUFANELIS_NAMED_TWICE);
    HOLDS(propose_two(first, first) == LUFANELIS_NAMED_TWICE);
    HOLDS(propose_two(first, lufanelis_pair(1, two)) == LUFANELIS_NAMED_TWICE);
    HOLDS(propose_two(lufanelis_pair(255, one), lufanelis_pair(255, two)) == LUFANELIS_NAMED_TWICE);
    HOLDS(propose_two(first, lufanelis_pair(255, two)) == LUFANELIS_NO_SUCH_STATION);
    HOLDS(propose_two(lufanelis_pair(4, one), second) == LUFANELIS_NO_SUCH_STATION);
    HOLDS(stands(1, LUFANELIS_STANDS_IDLE, 0, 0, 0) && stands(2, LUFANELIS_STANDS_IDLE, 0, 0, 0));
    HOLDS(propose_two(second | BITS(8, 24), first) == LUFANELIS_ACCEPTED);
    HOLDS(stands(1, LUFANELIS_STANDS_GOING, 0, one, 0) && stands(2, LUFANELIS_STANDS_GOING, 0, two, 0));
    HOLDS(propose_two(first, second) == LUFANELIS_NOT_IDLE);
    HOLDS(propose_two(first, none) == LUFANELIS_NOT_IDLE);
    HOLDS(propose_two(none, first) == LUFANELIS_NO_SUCH_STATION);
    HOLDS(propose_two(first, first) == LUFANELIS_NAMED_TWICE);
    HOLDS(lufanelis_propose_all(board, 7, &first, 1) == LUFANELIS_BOARD_TOO_SHORT);
    HOLDS(lufanelis_propose_all(board, board_length - 1, &none, 0) == LUFANELIS_BAD_BOARD_LENGTH);
}

/* Every number once is none twice; each of them once more is. Nothing of a refused list is put in. */
static void all_numbers(void)
{
    static uint64_t pairs[257];
    static uint8_t largest[LUFANELIS_LARGEST_BOARD];
    size_t at;

    for (at = 0; at < 256; at++)
        pairs[at] = lufanelis_pair((uint8_t)(at + 1), (int32_t)at - 128);
    HOLDS(lufanelis_lay(largest, sizeof largest, 16, 64) == LUFANELIS_ACCEPTED);
    HOLDS(lufanelis_propose_all(largest, sizeof largest, pairs, 255) == LUFANELIS_NO_SUCH_STATION);
    HOLDS(lufanelis_propose_all(largest, sizeof largest, pairs, 256) == LUFANELIS_NO_SUCH_STATION);
    for (at = 0; at < 256; at++) {
        pairs[256] = pairs[at];
        HOLDS(lufanelis_propose_all(largest, sizeof largest, pairs, 257) == LUFANELIS_NAMED_TWICE);
    }
    for (at = 1; at <= 16; at++)
        HOLDS(lufanelis_standing_kind(lufanelis_standing(largest, sizeof largest, (uint8_t)at)) == LUFANELIS_STANDS_IDLE);
    HOLDS(lufanelis_propose_all(largest, sizeof largest, pairs, 16) == LUFANELIS_ACCEPTED);
    for (at = 1; at <= 16; at++)
        HOLDS(lufanelis_standing_figure(lufanelis_standing(largest, sizeof largest, (uint8_t)at)) == (int32_t)at - 129);
}

void try_proposals(void)
{
    rise();
    together(INT32_MIN, INT32_MAX);
    together(-1, 0);
    all_numbers();
}
