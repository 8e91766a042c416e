/*
 * expect.h: counting what holds, for the tests of the C calls. Each of them is
 * one file, which includes this.
 */
#ifndef EXPECT_H
#define EXPECT_H

#include <stdbool.h>
#include <stdio.h>

static unsigned expected, failed;

static void expect(bool holds, const char *what)
{
    expected++;
    if (!holds) {
        failed++;
        printf("FAILED: %s\n", what);
    }
}

/* Says how many held; the status of the test. */
static int expect_end(const char *test)
{
    printf("%s: %u of %u checks passed\n", test, expected - failed, expected);
    return failed == 0 ? 0 : 1;
}

#endif
