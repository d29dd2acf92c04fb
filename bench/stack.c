/* The deepest stack of each call of the C interface, and of a whole program: `stack` and `stack PROGRAM < SHEET`.
 * A second process is stepped through, one instruction at a time, and the lowest stack pointer is kept: exact bytes, the
 * return address among them. x86-64 Linux. Prints a name and a number, with a tab between them. */
#define _GNU_SOURCE
#include "../include/lufanelis.h"

#include <signal.h>
#include <stdio.h>
#include <string.h>
#include <sys/ptrace.h>
#include <sys/user.h>
#include <sys/wait.h>
#include <unistd.h>

/* Around a measured call, for the process that looks on. */
#define MARK __asm__ volatile("int3" ::: "memory")

#define MEASURE(call) \
    do {              \
        MARK;         \
        sink = (call); \
        MARK;         \
    } while (0)

static const char *const names[] = {
    "lufanelis_lay",
    "lufanelis_propose",
    "lufanelis_propose_all",
    "lufanelis_check",
    "lufanelis_step",
    "lufanelis_standing",
    "lufanelis_run",
    "lufanelis_rounds",
    "lufanelis_show",
    "lufanelis_word",
    "lufanelis_play_line, board",
    "lufanelis_play_line, propose",
    "lufanelis_play_line, steps in eight brackets",
    "lufanelis_play_line, 10,000 steps",
    "lufanelis_play_line, show",
    "lufanelis_play_line, 64 rounds",
    "lufanelis_play_line, 16 pairs",
    "lufanelis_play_line, 41 pairs",
    "lufanelis_compare, steps in eight brackets",
    "lufanelis_compare, four rounds",
    "lufanelis_compare, show",
    "lufanelis_culprit, show",
};

static uint8_t board[LUFANELIS_LARGEST_BOARD];
static uint8_t line[LUFANELIS_LINE_LENGTH];
static uint8_t stations[96];

#define PROPOSALS "(propose (1 -1) (2 -2) (3 -3) (4 -4) (5 -5) (6 -6) (7 -7) (8 -8) (9 -9) (10 -10) (11 -11)" \
                  " (12 -12) (13 -13) (14 -14) (15 -15) (16 -16))"

/* A board of its own for rounds, since they need one on which nobody stands amid a collect. */
static uint8_t other[LUFANELIS_LARGEST_BOARD];
static const uint8_t suspended[] = {255, 1, 255, 2, 255, 3, 255, 1, 255, 255, 2, 255, 255, 255, 255, 16};
#define FOUR_ROUNDS " (3) (1) () (2)"
#define SIXTEEN_ROUNDS FOUR_ROUNDS FOUR_ROUNDS FOUR_ROUNDS FOUR_ROUNDS
static const char rounds[] = "(rounds 1" SIXTEEN_ROUNDS SIXTEEN_ROUNDS SIXTEEN_ROUNDS SIXTEEN_ROUNDS ")";
#define BOARD "(board 16 64)\n" PROPOSALS "\n"
#define TEN_PAIRS " (0 0) (1 0) (2 0) (3 0) (4 0) (5 0) (6 0) (7 0) (8 0) (9 0)"
static const char many_pairs[] = "(propose" TEN_PAIRS TEN_PAIRS TEN_PAIRS TEN_PAIRS " (0 0))";
static const char pairs_line[] = PROPOSALS;
static uint64_t pairs[16];
static uint64_t found[2];
static volatile uint64_t sink;

static uint64_t played(const char *text)
{
    return lufanelis_play_line((const uint8_t *)text, strlen(text), sizeof board, board, sizeof board, line, sizeof line);
}

/* Two tapes that differ in their first line, which the sheet has or not: it is played to its end. */
static uint64_t compared(const char *sheet)
{
    static const char one[] = "(16 decided 99 -2147483648 99)\n", other[] = "(16 spent 99 -2147483648 99)";
    return lufanelis_compare((const uint8_t *)sheet, strlen(sheet), (const uint8_t *)one, sizeof one - 1,
                             (const uint8_t *)other, sizeof other - 1, found, 2);
}

static uint64_t blamed(const char *sheet)
{
    static const char one[] = "(1 wrote)\n", other[] = "(1 read 1)\n";
    return lufanelis_culprit((const uint8_t *)sheet, strlen(sheet), (const uint8_t *)one, sizeof one - 1,
                             (const uint8_t *)other, sizeof other - 1, found, 2);
}

/* A higher station has a higher figure, all of eleven characters. */
static int32_t rising(int station) { return INT32_MIN + 16 - station; }

/* All sixteen have proposed, and none has taken a step. */
static void lay_other(void)
{
    lufanelis_lay(other, sizeof other, 16, 64);
    for (int i = 1; i <= 16; i++)
        lufanelis_propose(other, sizeof other, (uint8_t)i, rising(i));
}

/* On the largest board: rising figures, and lines that go deepest. */
static void calls(void)
{
    static const char word[] = "(propose 1 2)";
    MEASURE(lufanelis_lay(board, sizeof board, 16, 64));
    MEASURE(lufanelis_propose(board, sizeof board, 1, rising(1)));
    for (int i = 2; i <= 16; i++)
        lufanelis_propose(board, sizeof board, (uint8_t)i, rising(i));
    for (int i = 1; i <= 16; i++)
        pairs[i - 1] = lufanelis_pair((uint8_t)i, rising(i));
    lufanelis_lay(other, sizeof other, 16, 64);
    MEASURE(lufanelis_propose_all(other, sizeof other, pairs, 16));
    MEASURE(lufanelis_check(board, sizeof board));
    MEASURE(lufanelis_step(board, sizeof board, 1));
    MEASURE(lufanelis_standing(board, sizeof board, 16));
    for (size_t i = 0; i < sizeof stations; i++)
        stations[i] = (uint8_t)(i % 16 + 1);
    MEASURE(lufanelis_run(board, sizeof board, stations, sizeof stations));
    lay_other();
    MEASURE(lufanelis_rounds(other, sizeof other, 1, suspended, sizeof suspended));
    MEASURE(lufanelis_show(board, sizeof board, line, sizeof line));
    MEASURE(lufanelis_word((const uint8_t *)word, sizeof word - 1));
    MEASURE(played("(board 16 64)"));
    MEASURE(played("(propose 16 -2147483648)"));
    MEASURE(played("(steps (times 1 (times 1 (times 1 (times 1 (times 1 (times 1 (times 1 16))))))))"));
    MEASURE(played("(steps (times 10000 0))"));
    MEASURE(played("(show)"));
    lay_other();
    memcpy(board, other, sizeof board);
    MEASURE(played(rounds));
    lufanelis_lay(board, sizeof board, 16, 64);
    MEASURE(played(pairs_line));
    MEASURE(played(many_pairs));
    MEASURE(compared(BOARD "(steps (times 1 (times 1 (times 1 (times 1 (times 1 (times 1 (times 1 16))))))))"));
    MEASURE(compared(BOARD "(rounds 1" FOUR_ROUNDS ")"));
    MEASURE(compared(BOARD "(show)"));
    MEASURE(blamed(BOARD "(show)"));
}

static unsigned long long stack_pointer(pid_t child)
{
    struct user_regs_struct registers;
    ptrace(PTRACE_GETREGS, child, 0, &registers);
    return registers.rsp;
}

/* Whether the process stopped at a mark and not after a single step. */
static int at_mark(pid_t child)
{
    siginfo_t info;
    ptrace(PTRACE_GETSIGINFO, child, 0, &info);
    return info.si_code == SI_KERNEL;
}

/* Steps on until the next mark or the end; answers how far the stack went below where it is now. */
static unsigned long long deepest(pid_t child, int *status)
{
    unsigned long long top = stack_pointer(child), low = top;
    for (;;) {
        ptrace(PTRACE_SINGLESTEP, child, 0, 0);
        waitpid(child, status, 0);
        if (!WIFSTOPPED(*status))
            return top - low;
        unsigned long long now = stack_pointer(child);
        /* both marks of a call stand in one frame */
        if (now == top && at_mark(child))
            return top - low;
        if (now < low)
            low = now;
    }
}

int main(int count, char **words)
{
    pid_t child = fork();
    if (child == 0) {
        ptrace(PTRACE_TRACEME, 0, 0, 0);
        if (count > 1) {
            char *none[] = {NULL};
            execve(words[1], words + 1, none);
            _exit(1);
        }
        calls();
        _exit(0);
    }
    int status;
    waitpid(child, &status, 0);
    if (count > 1) {
        printf("whole program\t%llu\n", deepest(child, &status));
        return !WIFEXITED(status);
    }
    for (size_t i = 0; WIFSTOPPED(status) && i < sizeof names / sizeof *names; i++) {
        printf("%s\t%llu\n", names[i], deepest(child, &status));
        ptrace(PTRACE_CONT, child, 0, 0);
        waitpid(child, &status, 0);
    }
    return !WIFEXITED(status);
}
