/* How long each station worked: a settlement is played, and now and then the board is asked, station by station, how each one
 * stands and how many steps it has taken since its proposal. A board that was saved is asked in the same way, with nothing
 * known of it but its bytes and their number.
 * Relies on include/lufanelis.h and on the archive that `rt lib` in crates/capi writes; efforts.out has what it prints.
 *
 *     (cd crates/capi && rt lib)
 *     cc -Iinclude -o efforts examples/c/efforts.c crates/capi/out/libcapi.a && ./efforts */
#include <inttypes.h>
#include <stdio.h>

#include "lufanelis.h"

#define STATIONS 4
#define ISLANDS 8

/* How a station stands, by its kind; there is no kind 0. */
static const char *const kinds[] = {"", "idle", "going", "decided", "spent"};

/* Rounds in which one of three stations is suspended, so that they come to no decision. */
static const uint8_t first[] = {255, 1, 255, 2, 255};
static const uint8_t again[] = {3, 255, 1, 255, 255, 2, 255};

/* Rounds in which nobody is suspended. */
static const uint8_t free_rounds[] = {255, 255, 255, 255, 255, 255};

static uint8_t board[LUFANELIS_BOARD_LENGTH(STATIONS, ISLANDS)];

/* Asks every station there is, and says whether the board could be asked. */
static int efforts(const uint8_t *saved, size_t length)
{
    uint8_t station, refusal;

    for (station = 1;; station++) {
        uint64_t answer = lufanelis_standing(saved, length, station);

        refusal = lufanelis_standing_refusal(answer);
        if (refusal != LUFANELIS_ACCEPTED)
            break;
        printf("  station %u: %u steps, %s", station, lufanelis_standing_steps(answer),
               kinds[lufanelis_standing_kind(answer)]);
        if (lufanelis_standing_kind(answer) != LUFANELIS_STANDS_IDLE)
            printf(" on island %u with %" PRId32, lufanelis_standing_island(answer), lufanelis_standing_figure(answer));
        printf("\n");
    }
    if (refusal == LUFANELIS_NO_SUCH_STATION)
        return 1;
    printf("  refused %u\n", refusal);
    return 0;
}

static int propose(uint8_t station, int32_t figure)
{
    return lufanelis_propose(board, sizeof board, station, figure) == LUFANELIS_ACCEPTED;
}

static int play(const uint8_t *named, size_t length)
{
    return lufanelis_rounds_refusal(lufanelis_rounds(board, sizeof board, 1, named, length)) == LUFANELIS_ACCEPTED;
}

/* Three stations contend from island to island; the fourth comes late and goes straight to the island where they are. */
static int settle(void)
{
    int circles;

    if (!propose(1, 0) || !propose(2, 0) || !propose(3, 1) || !play(first, sizeof first))
        return 0;
    for (circles = 0; circles < 4; circles++)
        if (!play(again, sizeof again))
            return 0;
    printf("after 19 rounds, one station suspended in most of them:\n");
    if (!efforts(board, sizeof board) || !propose(4, -5) || !play(free_rounds, sizeof free_rounds))
        return 0;
    printf("after 6 rounds more, with nobody suspended and the fourth station there:\n");
    return efforts(board, sizeof board);
}

int main(void)
{
    if (lufanelis_lay(board, sizeof board, STATIONS, ISLANDS) != LUFANELIS_ACCEPTED)
        return 1;
    return settle() ? 0 : 1;
}
