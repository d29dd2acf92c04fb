/* A shift begins: the figures of all stations are put in with one call, all of them or none. The first list has a station twice
 * and one that the board has not, so that nothing of it is put in; the list is mended until it is taken, and then all settle.
 * Relies on include/lufanelis.h and on the archive that `rt lib` in crates/capi writes; together.out has what it prints.
 *
 *     (cd crates/capi && rt lib)
 *     cc -Iinclude -o together examples/c/together.c crates/capi/out/libcapi.a && ./together */
#include <stdio.h>

#include "lufanelis.h"

#define STATIONS 4
#define ISLANDS 8

static uint8_t board[LUFANELIS_BOARD_LENGTH(STATIONS, ISLANDS)];

/* Rounds in which nobody is suspended. */
static const uint8_t rounds[] = {255, 255, 255, 255, 255, 255};

static int show(void)
{
    uint8_t line[LUFANELIS_LINE_LENGTH];

    if (lufanelis_show_refusal(lufanelis_show(board, sizeof board, line, sizeof line)) != LUFANELIS_ACCEPTED)
        return 0;
    printf("%s\n", (const char *)line);
    return 1;
}

/* Puts the figures in and says what came of it. */
static int put_in(const uint64_t *pairs, size_t count)
{
    uint8_t refusal = lufanelis_propose_all(board, sizeof board, pairs, count);

    if (refusal == LUFANELIS_NAMED_TWICE)
        printf("a station is named twice: nothing is put in\n");
    else if (refusal == LUFANELIS_NO_SUCH_STATION)
        printf("there is no such station: nothing is put in\n");
    else if (refusal != LUFANELIS_ACCEPTED)
        printf("refused %u: nothing is put in\n", refusal);
    else
        printf("%u figures are put in\n", (unsigned)count);
    return show();
}

int main(void)
{
    uint64_t pairs[STATIONS];
    size_t count = sizeof pairs / sizeof *pairs;

    pairs[0] = lufanelis_pair(1, -40);
    pairs[1] = lufanelis_pair(2, 15);
    pairs[2] = lufanelis_pair(2, 7);
    pairs[3] = lufanelis_pair(5, 40);
    if (lufanelis_lay(board, sizeof board, STATIONS, ISLANDS) != LUFANELIS_ACCEPTED || !put_in(pairs, count))
        return 1;
    pairs[2] = lufanelis_pair(3, 7);
    if (!put_in(pairs, count))
        return 1;
    pairs[3] = lufanelis_pair(4, 40);
    /* The second time all have proposed, and each proposes once. */
    if (!put_in(pairs, count) || !put_in(pairs, count))
        return 1;
    printf("%u stations settle\n",
           lufanelis_rounds_decided(lufanelis_rounds(board, sizeof board, 0, rounds, sizeof rounds)));
    return show() ? 0 : 1;
}
