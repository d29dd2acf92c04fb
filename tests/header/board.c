/* The board that is tried: laid, or made by hand for two stations; and what is asked of it.
 * Relies on the calls of include/lufanelis.h; every file here that tries a board relies on it. */
#include <string.h>

#include "tests.h"

uint8_t board[LUFANELIS_BOARD_LENGTH(3, 2)];
size_t board_length;

void lay(void)
{
    board_length = LUFANELIS_BOARD_LENGTH(3, 2);
    HOLDS(lufanelis_lay(board, board_length, 3, 2) == LUFANELIS_ACCEPTED);
}

void fresh_of_two(void)
{
    board_length = LUFANELIS_BOARD_LENGTH(2, 2);
    memset(board, 0, sizeof board);
    board[0] = 2;
    board[1] = 2;
}

void put_in(uint8_t station, int32_t figure)
{
    uint8_t *record = board + board_length - 24 * (size_t)(3 - station);
    int at;

    record[0] = 1;
    for (at = 0; at < 4; at++)
        record[8 + at] = record[12 + at] = (uint8_t)((uint32_t)figure >> 8 * at & 0xFF);
}

void start_of_two(int32_t one, int32_t two)
{
    fresh_of_two();
    put_in(1, one);
    put_in(2, two);
}

uint8_t propose(uint8_t station, int32_t figure)
{
    return lufanelis_propose(board, board_length, station, figure);
}

uint8_t propose_two(uint64_t one, uint64_t two)
{
    uint64_t both[2];

    both[0] = one;
    both[1] = two;
    return lufanelis_propose_all(board, board_length, both, 2);
}

uint64_t step(uint8_t station) { return lufanelis_step(board, board_length, station); }

int steps(uint64_t answer, uint8_t kind, uint8_t island, uint8_t flag, int32_t figure, uint8_t filled)
{
    return lufanelis_step_refusal(answer) == LUFANELIS_ACCEPTED && lufanelis_step_kind(answer) == kind &&
           lufanelis_step_island(answer) == island && lufanelis_step_flag(answer) == flag &&
           lufanelis_step_figure(answer) == figure &&
           lufanelis_step_filled(answer) == (kind == LUFANELIS_READ ? filled : 0) &&
           lufanelis_step_total(answer) == (kind == LUFANELIS_READ ? 0 : filled);
}

int stands(uint8_t station, uint8_t kind, uint8_t island, int32_t figure, uint16_t taken)
{
    uint64_t answer = lufanelis_standing(board, board_length, station);

    return lufanelis_standing_refusal(answer) == LUFANELIS_ACCEPTED && lufanelis_standing_kind(answer) == kind &&
           lufanelis_standing_island(answer) == island && lufanelis_standing_figure(answer) == figure &&
           lufanelis_standing_steps(answer) == taken;
}

static uint8_t printed[LUFANELIS_LINE_LENGTH];

uint64_t play(const char *line, size_t laid)
{
    return lufanelis_play_line((const uint8_t *)line, strlen(line), laid, board, sizeof board, printed, sizeof printed);
}

int prints(uint64_t answer, const char *line, size_t laid)
{
    return strcmp((const char *)printed, line) == 0 && lufanelis_played_length(answer) == strlen(line) &&
           lufanelis_played_laid(answer) == laid;
}
