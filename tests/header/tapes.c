/* Tries what two tapes put into a list of numbers, by both calls, and what a refusal leaves of the list.
 * Relies on include/lufanelis.h and the archive; main.c runs it. */
#include <string.h>

#include "tests.h"

/* One station alone: the run, its tape, and a second tape that departs from it in its third line. */
static const char run_sheet[] = "(board 1 2)\n(propose 1 -9)\n(steps (times 6 1))\n";
static const char own_tape[] = "(1 wrote)\n(1 went 0 -9 1)\n(1 wrote)\n(1 marked 2 -9 1)\n(1 wrote)\n(1 decided 0 -9 1)\n";
static const char wrong_tape[] = "(1 wrote)\n(1 went 0 -9 1)\n(12 read 1)";

/* Fills the list before a call, to show what the call leaves alone. */
static uint64_t listed[4];

static uint8_t compares(const char *sheet, const char *first, const char *second, size_t room)
{
    memset(listed, 0x5A, sizeof listed);
    return lufanelis_compare((const uint8_t *)sheet, strlen(sheet), (const uint8_t *)first, strlen(first),
                             (const uint8_t *)second, strlen(second), listed, room);
}

static uint8_t blames(const char *sheet, const char *first, const char *second, size_t room)
{
    memset(listed, 0x5A, sizeof listed);
    return lufanelis_culprit((const uint8_t *)sheet, strlen(sheet), (const uint8_t *)first, strlen(first),
                             (const uint8_t *)second, strlen(second), listed, room);
}

/* The list begins with these two numbers, and the other two stand as they were. */
static int lists(uint64_t one, uint64_t other)
{
    const uint64_t filled = UINT64_C(0x5A5A5A5A5A5A5A5A);

    return listed[0] == one && listed[1] == other && listed[2] == filled && listed[3] == filled;
}

static int lists_nothing(void) { return lists(UINT64_C(0x5A5A5A5A5A5A5A5A), UINT64_C(0x5A5A5A5A5A5A5A5A)); }

static void tapes(void)
{
    HOLDS(compares(run_sheet, own_tape, wrong_tape, 2) == LUFANELIS_ACCEPTED && lists(3, LUFANELIS_SECOND_TAPE));
    HOLDS(compares(run_sheet, wrong_tape, own_tape, 2) == LUFANELIS_ACCEPTED && lists(3, LUFANELIS_FIRST_TAPE));
    HOLDS(compares(run_sheet, own_tape, own_tape, 2) == LUFANELIS_ACCEPTED && lists(0, LUFANELIS_NO_TAPE));
    HOLDS(compares("", own_tape, wrong_tape, 4) == LUFANELIS_ACCEPTED && lists(3, LUFANELIS_FIRST_TAPE));
    HOLDS(compares("", "", wrong_tape, 3) == LUFANELIS_ACCEPTED && lists(0, LUFANELIS_NO_TAPE));
    HOLDS(blames(run_sheet, own_tape, wrong_tape, 2) == LUFANELIS_SECOND_TAPE && lists(26, 11));
    HOLDS(blames(run_sheet, wrong_tape, own_tape, 2) == LUFANELIS_FIRST_TAPE && lists(26, 11));
    HOLDS(blames("", own_tape, wrong_tape, 4) == LUFANELIS_FIRST_TAPE && lists(26, 9));
    HOLDS(blames(run_sheet, own_tape, own_tape, 3) == LUFANELIS_NO_TAPE && lists(0, 0));
}

/* A refusal leaves the list of the one call as it was and clears two numbers of the other's; too short a list is left alone. */
static void tapes_refused(void)
{
    static char long_sheet[32770];
    size_t room;

    memset(long_sheet, '\n', sizeof long_sheet - 1);
    HOLDS(compares(run_sheet, own_tape, "\n", 2) == LUFANELIS_NO_STEP_ANSWER && lists_nothing());
    HOLDS(compares(run_sheet, "(1 read 2)\n", "", 4) == LUFANELIS_NO_STEP_ANSWER && lists_nothing());
    HOLDS(compares(long_sheet, own_tape, "\n", 2) == LUFANELIS_SHEET_TOO_LONG && lists_nothing());
    HOLDS(blames(run_sheet, own_tape, "\n", 2) == LUFANELIS_NO_TAPE && lists(0, 0));
    HOLDS(blames(long_sheet, own_tape, wrong_tape, 2) == LUFANELIS_NO_TAPE && lists(0, 0));
    for (room = 0; room < 2; room++) {
        HOLDS(compares(run_sheet, own_tape, wrong_tape, room) == LUFANELIS_NO_ROOM && lists_nothing());
        HOLDS(compares(run_sheet, own_tape, own_tape, room) == LUFANELIS_NO_ROOM && lists_nothing());
        HOLDS(compares(long_sheet, own_tape, "\n", room) == LUFANELIS_NO_ROOM && lists_nothing());
        HOLDS(blames(run_sheet, own_tape, wrong_tape, room) == LUFANELIS_NO_ROOM && lists_nothing());
        HOLDS(blames(run_sheet, own_tape, "\n", room) == LUFANELIS_NO_ROOM && lists_nothing());
    }
}

void try_tapes(void)
{
    tapes();
    tapes_refused();
}
