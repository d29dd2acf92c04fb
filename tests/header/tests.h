/* What the files of this directory share: how a check is counted, the board that is tried with what is asked of it, and the
 * tests by subject. One source for C99 and for C++.
 * Relies on include/lufanelis.h. main.c counts, board.c has the board, and each other file the tests of one subject. */
#ifndef TESTS_H
#define TESTS_H

#include "lufanelis.h"

/* Counts a check, and tells of it where it does not hold. */
void told(const char *file, int line, const char *what, int holds);

#define HOLDS(what) told(__FILE__, __LINE__, #what, (what))

#define BITS(from, count) ((UINT64_C(0xFFFFFFFFFFFFFFFF) >> (64 - (count))) << (from))

/* The board that is tried: of three stations, or of two in the first bytes. */
extern uint8_t board[LUFANELIS_BOARD_LENGTH(3, 2)];
extern size_t board_length;

/* Lays it for three stations and two islands. */
void lay(void);

/* A board of two stations, which no call lays: zero in every byte but n and K. */
void fresh_of_two(void);

/* The record of one of two stations, as its proposal would leave it: phase 1, the figure proposed and carried. */
void put_in(uint8_t station, int32_t figure);

/* Where a run of two stations starts: fresh but for the two proposals. */
void start_of_two(int32_t one, int32_t two);

uint8_t propose(uint8_t station, int32_t figure);
uint8_t propose_two(uint64_t one, uint64_t two);
uint64_t step(uint8_t station);

/* Whether an answer says that such a step was taken. The last is whether *read* met a filled register, or the total. */
int steps(uint64_t answer, uint8_t kind, uint8_t island, uint8_t flag, int32_t figure, uint8_t filled);

/* Whether a station stands so, after so many steps. */
int stands(uint8_t station, uint8_t kind, uint8_t island, int32_t figure, uint16_t taken);

/* A line played on the first bytes of the board, as many as are laid; and whether that printed this and left so many laid. */
uint64_t play(const char *line, size_t laid);
int prints(uint64_t answer, const char *line, size_t laid);

void try_answers(void);
void try_steps(void);
void try_proposals(void);
void try_two_stations(void);
void try_rounds(void);
void try_lines(void);
void try_tapes(void);

#endif
