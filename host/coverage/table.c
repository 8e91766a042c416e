/*
 * table.c: printing the rows. The awkward case is an answer that no row has: a
 * comparison in which both sides give it would pass, so it fails here.
 */
#include "table.h"

#include <inttypes.h>
#include <stdio.h>

static bool failed;

void say_failed(const char *what)
{
    printf("coverage: %s\n", what);
    failed = true;
}

void say_row(const char *name, uint64_t reached, uint64_t least)
{
    bool enough = reached >= least;

    printf("%10" PRIu64 "  %s%s\n", reached, name, enough ? "" : "  TOO FEW");
    failed = failed || !enough;
}

bool table_failed(void)
{
    return failed;
}

void say_least(const char *name, const uint64_t *reached, size_t count)
{
    size_t least = 0;
    char row[80];

    for (size_t i = 1; i < count; i++) {
        if (reached[i] < reached[least])
            least = i;
    }
    snprintf(row, sizeof row, "each %s 0 to %zu, least %zu", name, count - 1,
             least);
    say_row(row, reached[least], LEAST);
}

void say_list(const char *const *names, const uint64_t *reached, size_t count)
{
    for (size_t i = 0; i < count; i++)
        say_row(names[i], reached[i], LEAST);
}

void say_answers(const char *const *names, const uint64_t *reached,
                 size_t count)
{
    for (size_t i = 0; i < count; i++) {
        if (names[i] != NULL) {
            say_row(names[i], reached[i], LEAST);
        } else if (reached[i] > 0) {
            printf("%10" PRIu64 "  UNKNOWN ANSWER %zu\n", reached[i], i);
            failed = true;
        }
    }
}
