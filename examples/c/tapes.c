/* Two taps on one run: each has taped every step of three stations, and the tapes do not agree. The program finds the first
 * line at which they differ, says whose fault it is by playing the run sheet once more, and prints the culprit's line. Then the
 * tapes are exchanged; the faulty line is mended; and a tape is damaged so that it can no longer be read.
 * Relies on include/lufanelis.h and on the archive that `rt lib` in crates/capi writes; tapes.out has what it prints.
 *
 *     (cd crates/capi && rt lib)
 *     cc -Iinclude -o tapes examples/c/tapes.c crates/capi/out/libcapi.a && ./tapes */
#include <inttypes.h>
#include <stdio.h>
#include <string.h>

#include "lufanelis.h"

/* Station 1 settles alone and station 2 comes late; the step of station 3, which is idle, leaves no line. */
static const char sheet[] = "(board 3 2)\n"
                            "(propose (1 -40) (2 15))\n"
                            "(steps (times 12 1) 3 (times 4 2))\n";

/* What the first tap wrote, and the second: it has taped one read of station 2 wrongly, and it was stopped early. */
static const char right[] = "(1 wrote)\n(1 read 1)\n(1 read 0)\n(1 went 0 -40 1)\n"
                            "(1 wrote)\n(1 read 1)\n(1 read 0)\n(1 marked 2 -40 1)\n"
                            "(1 wrote)\n(1 read 1)\n(1 read 0)\n(1 decided 0 -40 1)\n"
                            "(2 wrote)\n(2 read 1)\n(2 read 1)\n(2 went 0 -40 2)\n";
static char faulty[] = "(1 wrote)\n(1 read 1)\n(1 read 0)\n(1 went 0 -40 1)\n"
                       "(1 wrote)\n(1 read 1)\n(1 read 0)\n(1 marked 2 -40 1)\n"
                       "(1 wrote)\n(1 read 1)\n(1 read 0)\n(1 decided 0 -40 1)\n"
                       "(2 wrote)\n(2 read 0)\n(2 read 1)\n";

static const uint8_t *bytes(const char *text) { return (const uint8_t *)text; }

/* Compares two tapes and says what came of it; answers the place of the culprit's line. */
static size_t compare(const char *first, const char *second)
{
    uint64_t found[2], part[2];
    uint8_t refusal = lufanelis_compare(bytes(sheet), strlen(sheet), bytes(first), strlen(first), bytes(second),
                                        strlen(second), found, 2);
    uint8_t tape;

    if (refusal == LUFANELIS_NO_STEP_ANSWER) {
        printf("a tape has a line that is no step's answer\n");
        return 0;
    }
    if (refusal != LUFANELIS_ACCEPTED) {
        printf("refused %u\n", refusal);
        return 0;
    }
    if (found[0] == 0) {
        printf("the tapes do not differ where both have a line\n");
        return 0;
    }
    tape = lufanelis_culprit(bytes(sheet), strlen(sheet), bytes(first), strlen(first), bytes(second), strlen(second), part,
                             2);
    printf("line %" PRIu64 ": tape %u is wrong, it says %.*s\n", found[0], tape, (int)part[1],
           (tape == LUFANELIS_FIRST_TAPE ? first : second) + part[0]);
    return (size_t)part[0];
}

int main(void)
{
    size_t at = compare(right, faulty);

    compare(faulty, right);
    /* `(2 read 0)` becomes `(2 read 1)`. */
    faulty[at + strlen("(2 read ")] = '1';
    compare(right, faulty);
    faulty[at] = ' ';
    compare(right, faulty);
    return 0;
}
