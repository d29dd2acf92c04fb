/* Runs every test of this directory, tells what does not hold, and prints last 'N passed, M failed'.
 * Relies on the other files here, on include/lufanelis.h and on the archive; tests/compare compiles all of them and runs it. */
#include <stdio.h>

#include "tests.h"

static unsigned passed, failed;

void told(const char *file, int line, const char *what, int holds)
{
    if (holds) {
        passed++;
        return;
    }
    failed++;
    printf("%s, line %d: not so: %s\n", file, line, what);
}

int main(void)
{
    try_answers();
    try_steps();
    try_proposals();
    try_two_stations();
    try_rounds();
    try_lines();
    try_tapes();
    printf("%u passed, %u failed\n", passed, failed);
    return failed > 0;
}
