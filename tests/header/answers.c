/* Tries the functions of include/lufanelis.h that take an answer apart or make a pair, on both ends of each part with the other
 * parts empty or full.
 * Relies on the header alone, on no call; main.c runs it. */
#include "tests.h"

/* A part alone at its highest, and all other parts at theirs beside an empty one. */
#define PART(function, mask, highest)        \
    do {                                     \
        HOLDS(function(mask) == (highest));  \
        HOLDS(function(~(mask)) == 0);       \
        HOLDS(function(0) == 0);             \
    } while (0)

static void figures(void)
{
    HOLDS(lufanelis_figure(0) == 0);
    HOLDS(lufanelis_figure(1) == 1);
    HOLDS(lufanelis_figure(UINT32_C(0x7FFFFFFE)) == INT32_MAX - 1);
    HOLDS(lufanelis_figure(UINT32_C(0x7FFFFFFF)) == INT32_MAX);
    HOLDS(lufanelis_figure(UINT32_C(0x80000000)) == INT32_MIN);
    HOLDS(lufanelis_figure(UINT32_C(0x80000001)) == INT32_MIN + 1);
    HOLDS(lufanelis_figure(UINT32_C(0xFFFFFFFE)) == -2);
    HOLDS(lufanelis_figure(UINT32_C(0xFFFFFFFF)) == -1);
}

static void parts(void)
{
    const uint64_t marked = (uint64_t)LUFANELIS_MARKED << 8;

    PART(lufanelis_step_refusal, BITS(0, 8), 255);
    PART(lufanelis_step_kind, BITS(8, 8), 255);
    PART(lufanelis_step_island, BITS(16, 8), 255);
    PART(lufanelis_step_figure, BITS(32, 32), -1);
    HOLDS(lufanelis_step_island(BITS(16, 8) | marked) == 0);
    HOLDS(lufanelis_step_flag(BITS(16, 8) | marked) == 255);
    HOLDS(lufanelis_step_flag(BITS(16, 8)) == 0);
    HOLDS(lufanelis_step_flag((~BITS(16, 8) & ~BITS(8, 8)) | marked) == 0);
    PART(lufanelis_standing_refusal, BITS(0, 8), 255);
    PART(lufanelis_standing_kind, BITS(8, 4), 15);
    PART(lufanelis_standing_island, BITS(12, 8), 255);
    PART(lufanelis_standing_steps, BITS(20, 12), 4095);
    PART(lufanelis_standing_figure, BITS(32, 32), -1);
    PART(lufanelis_run_refusal, BITS(0, 8), 255);
    PART(lufanelis_run_taken, BITS(8, 24), 16777215);
    PART(lufanelis_run_passed, BITS(32, 24), 16777215);
    PART(lufanelis_rounds_refusal, BITS(0, 8), 255);
    PART(lufanelis_rounds_decided, BITS(8, 8), 255);
    PART(lufanelis_rounds_played, BITS(16, 32), 4294967295U);
    PART(lufanelis_show_refusal, UINT32_C(0xFF), 255);
    PART(lufanelis_show_length, UINT32_C(0xFFFF0000), 65535);
    PART(lufanelis_word_start, BITS(0, 32), 4294967295U);
    PART(lufanelis_word_length, BITS(32, 32), 4294967295U);
    PART(lufanelis_played_length, BITS(0, 16), 65535);
    PART(lufanelis_played_laid, BITS(16, 48), BITS(0, 48));
    HOLDS(lufanelis_rounds_refusal(LUFANELIS_NOT_PLAYED) == 255);
    HOLDS(lufanelis_rounds_decided(LUFANELIS_NOT_PLAYED) == 0);
    HOLDS(lufanelis_rounds_played(LUFANELIS_NOT_PLAYED) == 0);
    HOLDS(lufanelis_show_refusal(LUFANELIS_NOT_SHOWN) == 255);
    HOLDS(lufanelis_show_length(LUFANELIS_NOT_SHOWN) == 0);
    HOLDS(lufanelis_played_length(LUFANELIS_NOT_PLAYED) == 0);
    HOLDS(lufanelis_played_laid(LUFANELIS_NOT_PLAYED) == 0);
}

/* Bits 24 to 31 are the part of *read* or the total, by the kind; the parts beside them are empty or full. */
static void filled_parts(void)
{
    const uint64_t others = BITS(16, 8) | BITS(32, 32), wrote = (uint64_t)LUFANELIS_WROTE << 8;
    uint64_t kind;

    PART(lufanelis_step_total, BITS(24, 8), 255);
    HOLDS(lufanelis_step_filled(BITS(24, 8)) == 0);
    HOLDS(lufanelis_step_filled(wrote) == 0 && lufanelis_step_total(wrote) == 0);
    HOLDS(lufanelis_step_filled(LUFANELIS_IDLE) == 0 && lufanelis_step_total(LUFANELIS_IDLE) == 0);
    for (kind = LUFANELIS_READ; kind <= LUFANELIS_SPENT; kind++) {
        const uint64_t none = kind << 8 | others, one = kind << 8 | BITS(24, 1), most = none | BITS(24, 8);
        const int reads = kind == LUFANELIS_READ;

        HOLDS(lufanelis_step_filled(none) == 0 && lufanelis_step_total(none) == 0);
        HOLDS(lufanelis_step_filled(one) == (reads ? 1 : 0) && lufanelis_step_total(one) == (reads ? 0 : 1));
        HOLDS(lufanelis_step_filled(most) == (reads ? 255 : 0) && lufanelis_step_total(most) == (reads ? 0 : 255));
    }
}

static void pair_of(uint8_t station, int32_t figure, uint64_t expected)
{
    uint64_t pair = lufanelis_pair(station, figure);

    HOLDS(pair == expected);
    HOLDS((uint8_t)(pair & 0xFF) == station && lufanelis_figure((uint32_t)(pair >> 32)) == figure);
}

static void pairs_made(void)
{
    pair_of(0, 0, 0);
    pair_of(255, 0, BITS(0, 8));
    pair_of(0, -1, BITS(32, 32));
    pair_of(255, -1, BITS(0, 8) | BITS(32, 32));
    pair_of(0, INT32_MAX, BITS(32, 31));
    pair_of(255, INT32_MAX, BITS(0, 8) | BITS(32, 31));
    pair_of(0, INT32_MIN, BITS(63, 1));
    pair_of(255, INT32_MIN, BITS(0, 8) | BITS(63, 1));
    pair_of(1, -40, UINT64_C(0xFFFFFFD800000001));
}

void try_answers(void)
{
    figures();
    parts();
    filled_parts();
    pairs_made();
}
