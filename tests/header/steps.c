/* Tries steps, standings and runs: every answer of a station alone and of two beside each other, and how long a run may be.
 * Relies on board.c; main.c runs it. */
#include "tests.h"

/* Beside a refusal no part of the answer is set. */
static int stands_refused(size_t length, uint8_t station, uint8_t refusal)
{
    return lufanelis_standing(board, length, station) == refusal;
}

/* A station alone: every step to its decision. */
static void alone(int32_t figure)
{
    lay();
    HOLDS(stands(1, LUFANELIS_STANDS_IDLE, 0, 0, 0));
    HOLDS(step(1) == LUFANELIS_IDLE);
    HOLDS(stands(1, LUFANELIS_STANDS_IDLE, 0, 0, 0));
    HOLDS(propose(1, figure) == LUFANELIS_ACCEPTED);
    HOLDS(stands(1, LUFANELIS_STANDS_GOING, 0, figure, 0));
    HOLDS(steps(step(1), LUFANELIS_WROTE, 0, 0, 0, 0));
    HOLDS(stands(1, LUFANELIS_STANDS_GOING, 0, figure, 1));
    HOLDS(steps(step(1), LUFANELIS_READ, 0, 0, 0, 1));
    HOLDS(stands(1, LUFANELIS_STANDS_GOING, 0, figure, 2));
    HOLDS(steps(step(1), LUFANELIS_READ, 0, 0, 0, 0));
    HOLDS(steps(step(1), LUFANELIS_WENT, 0, 0, figure, 1));
    HOLDS(stands(1, LUFANELIS_STANDS_GOING, 0, figure, 4));
    HOLDS(steps(step(1), LUFANELIS_WROTE, 0, 0, 0, 0));
    HOLDS(steps(step(1), LUFANELIS_READ, 0, 0, 0, 1));
    HOLDS(steps(step(1), LUFANELIS_READ, 0, 0, 0, 0));
    HOLDS(steps(step(1), LUFANELIS_MARKED, 0, LUFANELIS_COMMIT, figure, 1));
    HOLDS(steps(step(1), LUFANELIS_WROTE, 0, 0, 0, 0));
    HOLDS(stands(1, LUFANELIS_STANDS_GOING, 0, figure, 9));
    HOLDS(steps(step(1), LUFANELIS_READ, 0, 0, 0, 1));
    HOLDS(steps(step(1), LUFANELIS_READ, 0, 0, 0, 0));
    HOLDS(steps(step(1), LUFANELIS_DECIDED, 0, 0, figure, 1));
    HOLDS(stands(1, LUFANELIS_STANDS_DECIDED, 0, figure, 12));
    HOLDS(stands(2, LUFANELIS_STANDS_IDLE, 0, 0, 0));
    HOLDS(step(1) == LUFANELIS_HAS_DECIDED);
    HOLDS(stands(1, LUFANELIS_STANDS_DECIDED, 0, figure, 12));
    HOLDS(stands_refused(board_length, 0, LUFANELIS_NO_SUCH_STATION));
    HOLDS(stands_refused(board_length, 4, LUFANELIS_NO_SUCH_STATION));
    HOLDS(stands_refused(board_length - 1, 1, LUFANELIS_BAD_BOARD_LENGTH));
}

/* What is written behind a read is not counted, and what is written before it is: the second station passes the first one's m
 * empty and its A just filled. */
static void filled_in_time(void)
{
    lay();
    HOLDS(propose(1, 7) == LUFANELIS_ACCEPTED);
    HOLDS(propose(2, 7) == LUFANELIS_ACCEPTED);
    HOLDS(steps(step(2), LUFANELIS_WROTE, 0, 0, 0, 0));
    HOLDS(steps(step(2), LUFANELIS_READ, 0, 0, 0, 0));
    HOLDS(steps(step(1), LUFANELIS_WROTE, 0, 0, 0, 0));
    HOLDS(steps(step(2), LUFANELIS_READ, 0, 0, 0, 1));
    HOLDS(steps(step(2), LUFANELIS_WENT, 0, 0, 7, 1));
    HOLDS(steps(step(1), LUFANELIS_READ, 0, 0, 0, 1));
    HOLDS(steps(step(1), LUFANELIS_READ, 0, 0, 0, 1));
    HOLDS(steps(step(1), LUFANELIS_WENT, 0, 0, 7, 2));
    HOLDS(steps(step(2), LUFANELIS_WROTE, 0, 0, 0, 0));
    HOLDS(steps(step(1), LUFANELIS_WROTE, 0, 0, 0, 0));
    HOLDS(steps(step(2), LUFANELIS_READ, 0, 0, 0, 1));
    HOLDS(steps(step(2), LUFANELIS_READ, 0, 0, 0, 1));
    HOLDS(steps(step(2), LUFANELIS_MARKED, 0, LUFANELIS_COMMIT, 7, 2));
    HOLDS(steps(step(2), LUFANELIS_WROTE, 0, 0, 0, 0));
    HOLDS(steps(step(2), LUFANELIS_READ, 0, 0, 0, 0));
    HOLDS(steps(step(2), LUFANELIS_READ, 0, 0, 0, 1));
    HOLDS(steps(step(2), LUFANELIS_DECIDED, 0, 0, 7, 1));
}

/* The longest list, and one that is too long. No board has a station 0, so that every step is passed over. */
static void runs(void)
{
    static uint8_t stations[65537];
    uint64_t ran;

    start_of_two(7, 3);
    ran = lufanelis_run(board, board_length, stations, 65536);
    HOLDS(lufanelis_run_refusal(ran) == LUFANELIS_ACCEPTED);
    HOLDS(lufanelis_run_taken(ran) == 0 && lufanelis_run_passed(ran) == 65536);
    ran = lufanelis_run(board, board_length, stations, 65537);
    HOLDS(lufanelis_run_refusal(ran) == LUFANELIS_TOO_MANY_STEPS);
    HOLDS(lufanelis_run_taken(ran) == 0 && lufanelis_run_passed(ran) == 0);
}

void try_steps(void)
{
    alone(INT32_MIN);
    alone(INT32_MAX);
    alone(-1);
    filled_in_time();
    runs();
}
