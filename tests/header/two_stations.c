/* Tries boards of two stations, made by hand since no call lays one: what they refuse, how two stations circle until they are
 * spent, and lines played on such a board.
 * Relies on board.c; main.c runs it. */
#include <string.h>

#include "tests.h"

/* Every proposal on the board of two stations is refused and leaves every byte, by itself and in a list. */
static void refuses_proposals(void)
{
    const uint64_t none = 0, first = lufanelis_pair(1, 5), second = lufanelis_pair(2, -5), third = lufanelis_pair(3, 5);
    uint8_t before[sizeof board];

    memcpy(before, board, sizeof board);
    HOLDS(lufanelis_check(board, board_length) == LUFANELIS_ACCEPTED);
    HOLDS(propose(1, 5) == LUFANELIS_TWO_STATIONS && propose(2, 5) == LUFANELIS_TWO_STATIONS);
    HOLDS(propose(0, 5) == LUFANELIS_NO_SUCH_STATION && propose(3, 5) == LUFANELIS_NO_SUCH_STATION);
    HOLDS(propose(255, 5) == LUFANELIS_NO_SUCH_STATION);
    HOLDS(lufanelis_propose_all(board, board_length, &none, 0) == LUFANELIS_ACCEPTED);
    HOLDS(lufanelis_propose_all(board, board_length, &second, 1) == LUFANELIS_TWO_STATIONS);
    HOLDS(propose_two(first, second) == LUFANELIS_TWO_STATIONS && propose_two(second, first) == LUFANELIS_TWO_STATIONS);
    HOLDS(propose_two(first, none) == LUFANELIS_TWO_STATIONS && propose_two(second, third) == LUFANELIS_TWO_STATIONS);
    HOLDS(propose_two(none, first) == LUFANELIS_NO_SUCH_STATION && propose_two(third, second) == LUFANELIS_NO_SUCH_STATION);
    HOLDS(propose_two(first, first) == LUFANELIS_NAMED_TWICE && propose_two(third, third) == LUFANELIS_NAMED_TWICE);
    HOLDS(lufanelis_propose(board, board_length - 1, 1, 5) == LUFANELIS_BAD_BOARD_LENGTH);
    HOLDS(memcmp(before, board, sizeof board) == 0);
}

/* Two stations are not laid, neither with a K that a board may have nor with one that it may not; and they take no proposal,
 * both going, both idle, or one of them going. */
static void two_stations(void)
{
    start_of_two(7, 3);
    HOLDS(lufanelis_lay(board, board_length, 2, 2) == LUFANELIS_BAD_STATION_COUNT);
    HOLDS(lufanelis_lay(board, board_length, 2, 1) == LUFANELIS_BAD_STATION_COUNT);
    HOLDS(lufanelis_lay(board, board_length - 1, 2, 2) == LUFANELIS_BAD_STATION_COUNT);
    HOLDS(lufanelis_lay(board, board_length, 3, 1) == LUFANELIS_BAD_ISLAND_COUNT);
    HOLDS(lufanelis_lay(board, 7, 2, 2) == LUFANELIS_BOARD_TOO_SHORT);
    HOLDS(stands(1, LUFANELIS_STANDS_GOING, 0, 7, 0) && stands(2, LUFANELIS_STANDS_GOING, 0, 3, 0));
    refuses_proposals();
    fresh_of_two();
    HOLDS(stands(1, LUFANELIS_STANDS_IDLE, 0, 0, 0) && stands(2, LUFANELIS_STANDS_IDLE, 0, 0, 0));
    refuses_proposals();
    put_in(2, INT32_MIN);
    HOLDS(stands(1, LUFANELIS_STANDS_IDLE, 0, 0, 0) && stands(2, LUFANELIS_STANDS_GOING, 0, INT32_MIN, 0));
    HOLDS(step(1) == LUFANELIS_IDLE);
    refuses_proposals();
}

/* Two stations that circle from their start until they are spent; the last step of each island is looked at. Spent they take
 * no proposal either. */
static void circling(void)
{
    static const uint8_t island[] = {2, 2, 2, 1, 1, 1, 2, 2, 2, 1, 1, 1, 1, 1, 1, 2, 2};
    uint64_t ran;

    start_of_two(7, 3);
    ran = lufanelis_run(board, board_length, island, sizeof island);
    HOLDS(lufanelis_run_refusal(ran) == LUFANELIS_ACCEPTED);
    HOLDS(lufanelis_run_taken(ran) == sizeof island && lufanelis_run_passed(ran) == 0);
    HOLDS(stands(1, LUFANELIS_STANDS_GOING, 1, 7, 9));
    HOLDS(steps(step(2), LUFANELIS_ADOPTED, 1, 0, 3, 2));
    lufanelis_run(board, board_length, island, sizeof island);
    HOLDS(stands(1, LUFANELIS_STANDS_SPENT, 1, 7, 18));
    HOLDS(stands(2, LUFANELIS_STANDS_GOING, 1, 3, 17));
    HOLDS(steps(step(2), LUFANELIS_SPENT, 1, 0, 3, 2));
    HOLDS(stands(2, LUFANELIS_STANDS_SPENT, 1, 3, 18));
    HOLDS(step(2) == LUFANELIS_IS_SPENT);
    refuses_proposals();
}

/* Lines on memory that begins with the start of two stations, which no line lays. */
static void lines_of_two(void)
{
    const char *circling = "(steps (times 2 (times 3 2) (times 3 1) (times 3 2) (times 6 1) (times 3 2)))";

    start_of_two(7, 3);
    HOLDS(prints(play("(show)", board_length), "(stations (1 going 0 7) (2 going 0 3))", board_length));
    HOLDS(prints(play("(propose 1 5)", board_length), "(refused 22)", board_length));
    HOLDS(prints(play("(propose 3 5)", board_length), "(refused 12)", board_length));
    HOLDS(prints(play("(propose (2 5) (1 5))", board_length), "(refused 22)", board_length));
    HOLDS(prints(play("(propose (0 5) (1 5))", board_length), "(refused 12)", board_length));
    HOLDS(prints(play("(propose (1 5) (1 5))", board_length), "(refused 20)", board_length));
    HOLDS(prints(play("(board 2 2)", board_length), "(refused 8)", board_length));
    HOLDS(prints(play("(rounds 2 (1 2))", board_length), "(played 1 0)", board_length));
    HOLDS(prints(play(circling, board_length), "(ran 36 0)", board_length));
    HOLDS(prints(play("(show)", board_length), "(stations (1 spent 1 7) (2 spent 1 3))", board_length));
}

void try_two_stations(void)
{
    two_stations();
    circling();
    lines_of_two();
}
