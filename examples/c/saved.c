/* A board of two stations that comes from a disk. Two stations are too few to be laid, since they can keep each other from
 * deciding on every island; but a board of two that was saved is tested, stepped and shown as any other, and all that is decided
 * on it is one figure. Here two stations take turns until both are spent. On a second copy one of them is left running, and both
 * settle. Last come the two calls that are refused.
 * Relies on include/lufanelis.h and on the archive that `rt lib` in crates/capi writes; saved.out has what it prints.
 *
 *     (cd crates/capi && rt lib)
 *     cc -Iinclude -o saved examples/c/saved.c crates/capi/out/libcapi.a && ./saved */
#include <inttypes.h>
#include <stdio.h>
#include <string.h>

#include "lufanelis.h"

#define STATIONS 2
#define ISLANDS 2

/* Where a station's record begins; docs/REFERENCE.md has the layout. */
#define RECORD(index) (8 + 8 * STATIONS * (1 + 2 * ISLANDS) + 24 * (index))

/* What lies on the disk: the head, empty registers, and two stations in phase 1 whose proposal and carried figure are 7 and 3.
 * Every byte that is not named is zero. */
static const uint8_t saved[LUFANELIS_BOARD_LENGTH(STATIONS, ISLANDS)] = {
    STATIONS, ISLANDS,
    [RECORD(0)] = 1, [RECORD(0) + 8] = 7, [RECORD(0) + 12] = 7,
    [RECORD(1)] = 1, [RECORD(1) + 8] = 3, [RECORD(1) + 12] = 3
};

/* A write and its collect are three steps. In these turns neither station decides on an island: station 2 marks its figure to
 * commit before station 1 comes, and meets the adopt of station 1 afterwards. */
static const uint8_t circle[] = {2, 2, 2, 1, 1, 1, 2, 2, 2, 1, 1, 1, 1, 1, 1, 2, 2, 2};

/* Station 2 alone for a whole pass, and then station 1. */
static const uint8_t alone[] = {2, 2, 2, 2, 2, 2, 2, 2, 2, 1, 1, 1, 1, 1, 1, 1, 1, 1, 1, 1, 1, 1, 1, 1, 1, 1, 1};

static uint8_t board[sizeof saved];

static int show(void)
{
    uint8_t line[LUFANELIS_LINE_LENGTH];

    if (lufanelis_show_refusal(lufanelis_show(board, sizeof board, line, sizeof line)) != LUFANELIS_ACCEPTED)
        return 0;
    printf("%s\n", (const char *)line);
    return 1;
}

/* The board as it was saved, if that is sound. */
static int loaded(void)
{
    memcpy(board, saved, sizeof board);
    return lufanelis_check(board, sizeof board) == LUFANELIS_ACCEPTED && show();
}

static int run(const uint8_t *stations, size_t length)
{
    uint64_t answer = lufanelis_run(board, sizeof board, stations, length);

    if (lufanelis_run_refusal(answer) != LUFANELIS_ACCEPTED)
        return 0;
    printf("%" PRIu32 " steps taken, %" PRIu32 " passed over\n", lufanelis_run_taken(answer), lufanelis_run_passed(answer));
    return show();
}

/* Says why a call was turned down; the board stays as it was. */
static void told(uint8_t refusal)
{
    if (refusal == LUFANELIS_TWO_STATIONS)
        printf("a board of two stations takes no proposal\n");
    else if (refusal == LUFANELIS_BAD_STATION_COUNT)
        printf("two stations are not laid\n");
    else
        printf("refused %u\n", refusal);
}

int main(void)
{
    if (!loaded() || !run(circle, sizeof circle) || !run(circle, sizeof circle))
        return 1;
    if (!loaded() || !run(alone, sizeof alone))
        return 1;
    told(lufanelis_propose(board, sizeof board, 1, 5));
    told(lufanelis_lay(board, sizeof board, STATIONS, ISLANDS));
    return show() ? 0 : 1;
}
