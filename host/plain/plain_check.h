/* Counting what passes, for the test programs. */
#ifndef PLAIN_CHECK_H
#define PLAIN_CHECK_H

#include <stdint.h>
#include <stdio.h>

static unsigned checks_passed;
static unsigned checks_failed;

#define CHECK_EQUAL(got, due) \
    check_equal(__FILE__, __LINE__, #got, (uint64_t)(got), (uint64_t)(due))

static void check_equal(const char *file, int line, const char *what,
                        uint64_t got, uint64_t due)
{
    if (got == due) {
        checks_passed++;
        return;
    }
    checks_failed++;
    printf("%s:%d: %s is %llu, due is %llu\n", file, line, what,
           (unsigned long long)got, (unsigned long long)due);
}

/* The status of the test program. */
static int checks_report(const char *name)
{
    printf("%s: %u passed, %u failed\n", name, checks_passed, checks_failed);
    return checks_failed == 0 && checks_passed > 0 ? 0 : 1;
}

#endif
