/* Tries what is made of lines and read from them: the longest line that is shown, the word of a line, and lines played.
 * Relies on board.c; main.c runs it. */
#include <string.h>

#include "tests.h"

/* The longest line that any board has: every station decided on island 63, on a figure of eleven characters. */
static void shows(void)
{
    static uint8_t largest[LUFANELIS_LARGEST_BOARD];
    uint8_t line[LUFANELIS_LINE_LENGTH + 1];
    uint32_t shown;
    size_t at;

    HOLDS(lufanelis_lay(largest, sizeof largest, 16, 64) == LUFANELIS_ACCEPTED);
    for (at = sizeof largest - 16 * 24; at < sizeof largest; at += 24) {
        largest[at] = 7;
        largest[at + 2] = 63;
        largest[at + 15] = 0x80;
    }
    memset(line, '?', sizeof line);
    shown = lufanelis_show(largest, sizeof largest, line, LUFANELIS_LINE_LENGTH - 1);
    HOLDS(shown == LUFANELIS_NOT_SHOWN && line[0] == '?');
    shown = lufanelis_show(largest, sizeof largest - 1, line, LUFANELIS_LINE_LENGTH);
    HOLDS(lufanelis_show_refusal(shown) == LUFANELIS_BAD_BOARD_LENGTH && lufanelis_show_length(shown) == 0);
    HOLDS(line[0] == '?' && line[LUFANELIS_LINE_LENGTH - 1] == '?');
    shown = lufanelis_show(largest, sizeof largest, line, LUFANELIS_LINE_LENGTH);
    HOLDS(lufanelis_show_refusal(shown) == LUFANELIS_ACCEPTED);
    HOLDS(lufanelis_show_length(shown) == 449 && strlen((const char *)line) == 449);
    HOLDS(line[LUFANELIS_LINE_LENGTH - 1] == 0 && line[LUFANELIS_LINE_LENGTH] == '?');
}

static void words(void)
{
    uint64_t word = lufanelis_word((const uint8_t *)"(propose 1 2)", 13);

    HOLDS(lufanelis_word_start(word) == 1 && lufanelis_word_length(word) == 7);
    word = lufanelis_word((const uint8_t *)"(rounds 0)", 10);
    HOLDS(lufanelis_word_start(word) == 1 && lufanelis_word_length(word) == 6);
    word = lufanelis_word((const uint8_t *)"(show", 5);
    HOLDS(lufanelis_word_start(word) == 1 && lufanelis_word_length(word) == 4);
    word = lufanelis_word((const uint8_t *)"(times 1 2)", 11);
    HOLDS(lufanelis_word_start(word) == 0 && lufanelis_word_length(word) == 0);
}

static void lines(void)
{
    board_length = sizeof board;
    HOLDS(prints(play("(show)", 0), "(refused 5)", 0));
    HOLDS(prints(play("(board 2 2)", 0), "(refused 8)", 0));
    HOLDS(prints(play("(board 3 2)", 0), "(laid 3 2)", sizeof board));
    HOLDS(prints(play("(propose 2 -2147483648)", sizeof board), "(proposed 2 -2147483648)", sizeof board));
    HOLDS(prints(play("(board 2 2)", sizeof board), "(refused 8)", sizeof board));
    HOLDS(prints(play("(show)", sizeof board), "(stations (1 idle) (2 going 0 -2147483648) (3 idle))", sizeof board));
    HOLDS(prints(play("(show)", 4294967295U), "(stations (1 idle) (2 going 0 -2147483648) (3 idle))", 4294967295U));
    HOLDS(prints(play("(propose (1 1) (1 1))", sizeof board), "(refused 20)", sizeof board));
    HOLDS(prints(play("(propose (1 1) (2 1))", sizeof board), "(refused 13)", sizeof board));
    HOLDS(prints(play("(show)", sizeof board), "(stations (1 idle) (2 going 0 -2147483648) (3 idle))", sizeof board));
    HOLDS(prints(play("(rounds 1 (1) (2) ())", sizeof board), "(played 3 0)", sizeof board));
    HOLDS(prints(play("(rounds 0 (1))", sizeof board), "(refused 19)", sizeof board));
    HOLDS(prints(play("(show)\n", sizeof board), "(refused 4)", sizeof board));
    HOLDS(prints(play("(board 3 3)", sizeof board), "(refused 10)", sizeof board));
    HOLDS(play("(show)", (size_t)4294967295U + 1) == LUFANELIS_NOT_PLAYED);
    HOLDS(prints(play("(board 3 2)", sizeof board), "(laid 3 2)", sizeof board));
    HOLDS(prints(play("(propose (2 2147483647) (1 -2147483648))", sizeof board), "(proposed 2)", sizeof board));
    HOLDS(stands(1, LUFANELIS_STANDS_GOING, 0, INT32_MIN, 0) && stands(2, LUFANELIS_STANDS_GOING, 0, INT32_MAX, 0));
}

void try_lines(void)
{
    shows();
    words();
    lines();
}
