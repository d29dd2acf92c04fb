/* The settlement engine as C calls it: crates/capi, where `rt lib` builds out/libcapi.a. The archive is for x86-64 Linux; the
 * crates are for whatever the kit compiles to.
 * Beside the archive a program links memcpy and memset, which every C library has.
 * The definitions of every answer are crates/packing/specs, crates/capi/specs and crates/tape_numbers/specs; each call is
 * proved to give exactly what they say.
 *
 * The engine owns no memory and keeps nothing between calls. It reads and writes lent bytes alone, of any content and any
 * length, and each call below says which of them it writes. A call that answers with a refusal's number changes no lent byte.
 * Two calls answer with no such number: `lufanelis_play_line` prints `(refused N)` to `printed`, as it prints every other
 * answer, and `memory` stays as it was; `lufanelis_culprit` hands back an empty part.
 *
 * What the caller owes: each pointer is not null, also where its length is 0, and points to as many bytes as the length
 * behind it says, `pairs`, `found` and `part` to as many numbers, aligned as uint64_t; bytes that a call may write are lent by
 * one of its pointers only; nobody else touches lent bytes until the call returns.
 *
 * A *figure* is a signed 32-bit number. Figures compare by their size without sign, and of two equal sizes the positive one is
 * larger: 0, -1, 1, -2, 2 rise, and -2,147,483,648 is the largest of all. Stations are numbered from 1, islands from 0.
 *
 * A line that is handed back has fewer than 512 bytes, and zeros after it up to 512; so it always ends in a zero byte, as a
 * string of C does. The functions at the end take answers apart, and one makes a pair. */
#ifndef LUFANELIS_H
#define LUFANELIS_H

#include <stddef.h>
#include <stdint.h>

#ifdef __cplusplus
extern "C" {
#endif

/* Why a call is turned down, in the order in which it is tested; rounds are tested for 18 and 19 behind 11, pairs for 20
 * between 11 and 12, proposals for 22 between 12 and 13, tapes for 1 and then for 21. No call answers with 2 to 5, which come
 * only in what `lufanelis_play_line` prints, as `(refused 4)`. */
enum {
    LUFANELIS_ACCEPTED = 0,
    LUFANELIS_SHEET_TOO_LONG = 1,     /* a run sheet of more than 32,768 bytes, beside two tapes */
    LUFANELIS_TOO_MANY_STEPS = 6,     /* a run of more than 65,536 stations */
    LUFANELIS_BOARD_TOO_SHORT = 7,    /* fewer than 8 bytes */
    LUFANELIS_BAD_STATION_COUNT = 8,  /* n is not 1 to 16, or not 1 or 3 to 16 where a board is laid */
    LUFANELIS_BAD_ISLAND_COUNT = 9,   /* K is not 2 to 64 */
    LUFANELIS_BAD_BOARD_LENGTH = 10,  /* the length is not that of n and K */
    LUFANELIS_BOARD_NOT_SOUND = 11,
    LUFANELIS_NO_SUCH_STATION = 12,   /* 0 or above n */
    LUFANELIS_NOT_IDLE = 13,          /* the station that proposes */
    LUFANELIS_IDLE = 14,              /* the station to step */
    LUFANELIS_HAS_DECIDED = 15,
    LUFANELIS_IS_SPENT = 16,
    LUFANELIS_LINE_TOO_LONG = 17,     /* a shown line of more than 512 bytes; no board has one */
    LUFANELIS_AMID_COLLECT = 18,      /* a station stands in phase 2, 4 or 6 */
    LUFANELIS_BAD_ROUND = 19,         /* a round names more than `most` stations, 0, one above n, or one out of rising order */
    LUFANELIS_NAMED_TWICE = 20,       /* two pairs have the same station */
    LUFANELIS_NO_STEP_ANSWER = 21,    /* a line of a tape says nothing that a step answers */
    LUFANELIS_TWO_STATIONS = 22       /* a proposal on a board of two stations */
};

/* What a step did. */
enum {
    LUFANELIS_WROTE = 1,
    LUFANELIS_READ = 2,
    LUFANELIS_WENT = 3,
    LUFANELIS_MARKED = 4,
    LUFANELIS_ADOPTED = 5,
    LUFANELIS_DECIDED = 6,
    LUFANELIS_SPENT = 7
};

/* The flag of *marked*. */
enum {
    LUFANELIS_ADOPT = 1,
    LUFANELIS_COMMIT = 2
};

/* How a station stands. */
enum {
    LUFANELIS_STANDS_IDLE = 1,     /* it has not proposed */
    LUFANELIS_STANDS_GOING = 2,    /* it has proposed and takes steps, phases 1 to 6 */
    LUFANELIS_STANDS_DECIDED = 3,
    LUFANELIS_STANDS_SPENT = 4     /* it went through all islands and decided nothing */
};

/* Which of two tapes. */
enum {
    LUFANELIS_NO_TAPE = 0,
    LUFANELIS_FIRST_TAPE = 1,
    LUFANELIS_SECOND_TAPE = 2
};

/* The length of a board for n stations and K islands. */
#define LUFANELIS_BOARD_LENGTH(n, k) (8 + 32 * (size_t)(n) + 16 * (size_t)(n) * (size_t)(k))

/* The length of the largest one, and of a line that is handed back. */
#define LUFANELIS_LARGEST_BOARD 16904
#define LUFANELIS_LINE_LENGTH 512

/* Ends a round in the list of `lufanelis_rounds`. */
#define LUFANELIS_ROUND_END 255

/* What a call answers that was lent too short a buffer, `lufanelis_play_line` for too large a `laid`, or `lufanelis_rounds` for
 * too long a list. No other answer is that number. */
#define LUFANELIS_NOT_SHOWN UINT32_C(0xFFFFFFFF)
#define LUFANELIS_NOT_PLAYED UINT64_C(0xFFFFFFFFFFFFFFFF)

/* What `lufanelis_compare` and `lufanelis_culprit` answer that were lent a list of fewer than two numbers. It is no refusal's
 * number and no tape's. */
#define LUFANELIS_NO_ROOM 255

/* Lays a fresh board for n stations and k islands; what the bytes held before does not matter. Two stations are too few, and
 * are refused with 8. Every other call is lent a board of two stations as any other, but that it takes no proposal (22).
 * Writes `board`. Answers 0, or the refusal's number (7 to 10). */
uint8_t lufanelis_lay(uint8_t *board, size_t board_length, uint8_t n, uint8_t k);

/* An idle station proposes a figure. Writes `board`. Answers 0, or the refusal's number (7 to 12, 22, 13). */
uint8_t lufanelis_propose(uint8_t *board, size_t board_length, uint8_t station, int32_t figure);

/* Several idle stations propose a figure each, all of them or none. `pairs_length` counts pairs; there may be any number of
 * them, also none. A pair is one number, which `lufanelis_pair` makes:
 *   bits 0 to 7     the station
 *   bits 8 to 31    not looked at
 *   bits 32 to 63   the figure, 32 bits of two's complement
 * First 20 is asked of all pairs, of stations that are not there too; then the pairs are tried as they stand, each for 12, then
 * for 22 and then for 13, and the first that is found is answered. The board afterwards is that of single proposals in any
 * order. Writes `board`. Answers 0, or the refusal's number (7 to 11, 20, 12, 22, 13). */
uint8_t lufanelis_propose_all(uint8_t *board, size_t board_length, const uint64_t *pairs, size_t pairs_length);

/* Tests a board. Writes nothing. Answers 0 for a sound board, or the refusal's number (7 to 11). */
uint8_t lufanelis_check(const uint8_t *board, size_t board_length);

/* Moves one station on by a single register. Writes `board`. Answers
 *   bits 0 to 7     the refusal's number (7 to 12, 14 to 16), 0 for a step that was taken
 *   bits 8 to 15    what the step did, 1 to 7 as above; 0 beside a refusal
 *   bits 16 to 23   the island of *went*, *adopted*, *decided* and *spent*, the flag of *marked*; else 0
 *   bits 24 to 31   of *read* 1 where the register was filled and 0 where it was empty; of these five the total, which is the
 *                   number of filled registers that the reads of the collect met, the last one included, at most 16; else 0
 *   bits 32 to 63   the figure of these five, 32 bits of two's complement; else 0
 * A total is 1 at the least where every step of the collect was taken by these calls. A sound board that was made otherwise may
 * tell any count up to the position, and the total goes on from there. Nothing is decided by it. */
uint64_t lufanelis_step(uint8_t *board, size_t board_length, uint8_t station);

/* How one station stands, and how many steps it took: what a station asks that comes back to a board, and what is asked of a
 * board afterwards. Writes nothing. Answers
 *   bits 0 to 7     the refusal's number (7 to 12), 0 for an answer
 *   bits 8 to 11    how it stands, 1 to 4 as above; 0 beside a refusal
 *   bits 12 to 19   the island where it stands; 0 for an idle station and beside a refusal
 *   bits 20 to 31   the steps that it has taken since its proposal, at most 3,264; refused ones do not count, and those of runs
 *                   and rounds do; 0 for an idle station and beside a refusal
 *   bits 32 to 63   the figure that it carries, 32 bits of two's complement, which is the decided one where it has decided;
 *                   0 for an idle station and beside a refusal */
uint64_t lufanelis_standing(const uint8_t *board, size_t board_length, uint8_t station);

/* Steps the stations of a list in turn and passes over the steps that are refused (12, 14, 15, 16). Writes `board`. Answers
 *   bits 0 to 7     the refusal's number (6 to 11), 0 for a run
 *   bits 8 to 31    how many steps were taken, at most 65,536; 0 beside a refusal
 *   bits 32 to 55   how many were passed over, at most 65,536; 0 beside a refusal
 *   bits 56 to 63   0 */
uint64_t lufanelis_run(uint8_t *board, size_t board_length, const uint8_t *stations, size_t stations_length);

/* Plays rounds. In a round every going station that is not suspended takes one whole step, a write and its collect, in station
 * order: n + 1 steps of `lufanelis_step`. `named` lists the suspended stations round by round: the numbers of a round, rising
 * and at most `most` of them, and then LUFANELIS_ROUND_END. The last round may lack its end, and nothing after a final end is
 * no round: an empty list has no round, {255} one that suspends nobody, {2} and {2, 255} one that suspends station 2. An idle,
 * decided or spent station may be named. Every round is tested before the first is played. Writes `board`. Answers
 *   bits 0 to 7     the refusal's number (7 to 11, 18, 19), 0 for rounds that were played
 *   bits 8 to 15    how many stations stand decided afterwards, those that had decided before among them; 0 beside a refusal
 *   bits 16 to 47   the rounds played, which are all rounds of the list; 0 beside a refusal
 *   bits 48 to 63   0
 * or LUFANELIS_NOT_PLAYED where `named_length` is above 4,294,967,295, and then writes nothing. */
uint64_t lufanelis_rounds(uint8_t *board, size_t board_length, uint8_t most, const uint8_t *named, size_t named_length);

/* The line `(stations ..)` that says how each station stands. Writes the first 512 bytes of `line`: the line and zeros after
 * it; the bytes behind them stay. Answers
 *   bits 0 to 7     the refusal's number (7 to 11), 0 for a line
 *   bits 8 to 15    0
 *   bits 16 to 31   the line's length; 0 beside a refusal
 * or LUFANELIS_NOT_SHOWN where `line_length` is below 512. Beside a refusal and LUFANELIS_NOT_SHOWN it writes nothing. */
uint32_t lufanelis_show(const uint8_t *board, size_t board_length, uint8_t *line, size_t line_length);

/* The word that names the form of a run sheet's line: board, propose, steps, rounds or show. Writes nothing. Answers
 *   bits 0 to 31    where the word starts in the line, which is 1
 *   bits 32 to 63   its length
 * or 0 where there is none. */
uint64_t lufanelis_word(const uint8_t *line, size_t line_length);

/* Plays one line of a run sheet, without its line feed, on the first `laid` bytes of `memory`, the board that was laid last;
 * `laid` is 0 before there is one. Writes `memory` as the line's call writes its board, and the first 512 bytes of `printed`:
 * what the line prints, without a line feed, and zeros after it; the bytes behind them stay. Answers
 *   bits 0 to 15    the length of what is printed
 *   bits 16 to 63   the `laid` for the next line: the length of the board that this one laid, or `laid` as it was given
 * or LUFANELIS_NOT_PLAYED where `printed_length` is below 512 or `laid` above 4,294,967,295, and then writes nothing.
 *
 * A line feed in `line` is a byte like any other: no form has one, so such a line prints `(refused 4)`, or 2 or 3 where it is
 * too long or too deep. Where `laid` exceeds `memory_length` the board is the whole memory: propose, steps, rounds and show go
 * on if that is a sound board by chance, and are refused with 7 to 11 if not. A board that does not fit the memory is not laid,
 * with 10, or with 7 where the memory has fewer than 8 bytes. */
uint64_t lufanelis_play_line(const uint8_t *line, size_t line_length, size_t laid, uint8_t *memory, size_t memory_length,
                             uint8_t *printed, size_t printed_length);

/* Compares two tapes of the run that a sheet plays. A tape has a line for each step that was taken, as `(1 wrote)`, `(1 read 0)`
 * or `(1 went 0 -40 1)`; it may have any length, and the last line may lack its line feed. What is looked for is the first line
 * number, counted from 1, at which both tapes have a line and these differ. The culprit is the first tape where its line there
 * is not the one that the sheet's own steps give, or where these give none; else the second. Lines beyond the shorter tape, and
 * lines that are wrong in both alike, are no difference.
 * Writes the first two numbers of `found`; those behind them stay:
 *   found[0]   the line number; 0 where the tapes do not differ
 *   found[1]   the culprit's tape, 1 or 2; 0 where they do not differ
 * Answers 0, or the refusal's number (1, 21), or LUFANELIS_NO_ROOM where `found_length` is below 2. `found_length` counts
 * numbers. Beside a refusal and LUFANELIS_NO_ROOM it writes nothing. Refusal 21 is asked of every line of both tapes, also behind
 * the difference. */
uint8_t lufanelis_compare(const uint8_t *sheet, size_t sheet_length, const uint8_t *first, size_t first_length,
                          const uint8_t *second, size_t second_length, uint64_t *found, size_t found_length);

/* The culprit's line as a part of its tape, for the same sheet and tapes. Writes the first two numbers of `part`; those behind
 * them stay:
 *   part[0]   the place of the line's first byte on that tape, counted from 0
 *   part[1]   the line's length, without its line feed
 * Both are 0 where the tapes do not differ, and beside a refusal. Answers the tape, 1 or 2, or 0 where they do not differ and
 * beside a refusal, which `lufanelis_compare` tells apart; or LUFANELIS_NO_ROOM where `part_length` is below 2, and then writes
 * nothing. */
uint8_t lufanelis_culprit(const uint8_t *sheet, size_t sheet_length, const uint8_t *first, size_t first_length,
                          const uint8_t *second, size_t second_length, uint64_t *part, size_t part_length);

/* A pair for `lufanelis_propose_all`. */
static inline uint64_t lufanelis_pair(uint8_t station, int32_t figure)
{
    return (uint64_t)(uint32_t)figure << 32 | station;
}

/* Answers taken apart: plain C beside the proved calls, tried by tests/header. Each function is given an answer of the call
 * that it is named after and hands back the part of it that its own name says, 0 where the answer has none. */

/* The signed number that 32 bits of two's complement stand for. */
static inline int32_t lufanelis_figure(uint32_t bits)
{
    return bits <= INT32_MAX ? (int32_t)bits : -1 - (int32_t)(UINT32_MAX - bits);
}

static inline uint8_t lufanelis_step_refusal(uint64_t answer) { return (uint8_t)(answer & 0xFF); }
static inline uint8_t lufanelis_step_kind(uint64_t answer) { return (uint8_t)(answer >> 8 & 0xFF); }
static inline int32_t lufanelis_step_figure(uint64_t answer) { return lufanelis_figure((uint32_t)(answer >> 32)); }

/* The island of *went*, *adopted*, *decided* and *spent*. */
static inline uint8_t lufanelis_step_island(uint64_t answer)
{
    return lufanelis_step_kind(answer) == LUFANELIS_MARKED ? 0 : (uint8_t)(answer >> 16 & 0xFF);
}

/* The flag of *marked*. */
static inline uint8_t lufanelis_step_flag(uint64_t answer)
{
    return lufanelis_step_kind(answer) == LUFANELIS_MARKED ? (uint8_t)(answer >> 16 & 0xFF) : 0;
}

/* Whether *read* met a filled register: 1 or 0. */
static inline uint8_t lufanelis_step_filled(uint64_t answer)
{
    return lufanelis_step_kind(answer) == LUFANELIS_READ ? (uint8_t)(answer >> 24 & 0xFF) : 0;
}

/* How many filled registers the collect met that *went*, *marked*, *adopted*, *decided* or *spent* ended. */
static inline uint8_t lufanelis_step_total(uint64_t answer)
{
    return lufanelis_step_kind(answer) == LUFANELIS_READ ? 0 : (uint8_t)(answer >> 24 & 0xFF);
}

static inline uint8_t lufanelis_standing_refusal(uint64_t answer) { return (uint8_t)(answer & 0xFF); }
static inline uint8_t lufanelis_standing_kind(uint64_t answer) { return (uint8_t)(answer >> 8 & 0xF); }
static inline uint8_t lufanelis_standing_island(uint64_t answer) { return (uint8_t)(answer >> 12 & 0xFF); }
static inline uint16_t lufanelis_standing_steps(uint64_t answer) { return (uint16_t)(answer >> 20 & 0xFFF); }
static inline int32_t lufanelis_standing_figure(uint64_t answer) { return lufanelis_figure((uint32_t)(answer >> 32)); }

static inline uint8_t lufanelis_run_refusal(uint64_t answer) { return (uint8_t)(answer & 0xFF); }
static inline uint32_t lufanelis_run_taken(uint64_t answer) { return (uint32_t)(answer >> 8 & 0xFFFFFF); }
static inline uint32_t lufanelis_run_passed(uint64_t answer) { return (uint32_t)(answer >> 32 & 0xFFFFFF); }

/* LUFANELIS_NOT_PLAYED has the refusal 255, which is no other answer's, no station decided and no round played. */
static inline uint8_t lufanelis_rounds_refusal(uint64_t answer) { return (uint8_t)(answer & 0xFF); }

static inline uint8_t lufanelis_rounds_decided(uint64_t answer)
{
    return answer == LUFANELIS_NOT_PLAYED ? 0 : (uint8_t)(answer >> 8 & 0xFF);
}

static inline uint32_t lufanelis_rounds_played(uint64_t answer)
{
    return answer == LUFANELIS_NOT_PLAYED ? 0 : (uint32_t)(answer >> 16 & 0xFFFFFFFF);
}

/* LUFANELIS_NOT_SHOWN has the refusal 255, which is no other answer's, and the length 0. */
static inline uint8_t lufanelis_show_refusal(uint32_t answer) { return (uint8_t)(answer & 0xFF); }
static inline size_t lufanelis_show_length(uint32_t answer) { return answer == LUFANELIS_NOT_SHOWN ? 0 : answer >> 16; }

static inline size_t lufanelis_word_start(uint64_t answer) { return (size_t)(answer & 0xFFFFFFFF); }
static inline size_t lufanelis_word_length(uint64_t answer) { return (size_t)(answer >> 32); }

/* LUFANELIS_NOT_PLAYED has nothing printed and nothing laid: both are 0. The board is then still the one that was laid before,
 * so test for LUFANELIS_NOT_PLAYED before you go on with this `laid`. */
static inline size_t lufanelis_played_length(uint64_t answer)
{
    return answer == LUFANELIS_NOT_PLAYED ? 0 : (size_t)(answer & 0xFFFF);
}

static inline size_t lufanelis_played_laid(uint64_t answer)
{
    return answer == LUFANELIS_NOT_PLAYED ? 0 : (size_t)(answer >> 16);
}

#ifdef __cplusplus
}
#endif

#endif
