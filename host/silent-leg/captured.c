/*
 * captured.c: each line is one datagram, an even number of hexadecimal digits.
 * Blanks around it do not matter; a line without anything, and one that begins
 * with `#`, is passed over. A line that is something else, or a datagram that
 * the library does not read, ends the program with its number: a trace with a
 * hole in it would name the wrong leg.
 */
#include "captured.h"

#include <errno.h>
#include <stdbool.h>
#include <stdio.h>
#include <string.h>

#include "echoes.h"
#include "scenario/names.h"

#define BLANKS " \t\r\n"
#define MOST_DIGITS (2 * HJ_MOST_LENGTH)

static int complain(const char *name, unsigned line, const char *what)
{
    fprintf(stderr, "silent-leg: %s, line %u: %s\n", name, line, what);
    return 2;
}

/* The value of a hexadecimal digit; 16 where it is none. */
static unsigned digit(char character)
{
    static const char DIGITS[] = "0123456789abcdef0123456789ABCDEF";
    const char *found =
        character != '\0' ? strchr(DIGITS, character) : NULL;

    return found != NULL ? (unsigned)(found - DIGITS) % 16 : 16;
}

/* The octets that the digits stand for; false where one is no digit. */
static bool octets_of(const char *digits, size_t count, uint8_t *octets)
{
    for (size_t i = 0; i < count; i++) {
        unsigned upper = digit(digits[2 * i]);
        unsigned lower = digit(digits[2 * i + 1]);

        if (upper > 15 || lower > 15)
            return false;
        octets[i] = (uint8_t)(upper << 4 | lower);
    }
    return true;
}

static int read_line(const char *name, unsigned line, const char *text)
{
    uint8_t octets[HJ_MOST_LENGTH];
    const char *digits = text + strspn(text, BLANKS);
    size_t count = strcspn(digits, BLANKS);
    char what[120];
    uint32_t refusal;

    if (count == 0 || *digits == '#')
        return 0;
    if (count > MOST_DIGITS)
        return complain(name, line, "more than 8191 octets");
    if (count % 2 != 0 || digits[count + strspn(digits + count, BLANKS)] ||
        !octets_of(digits, count / 2, octets))
        return complain(name, line,
                        "expected octets as pairs of hexadecimal digits");
    refusal = echoes_take(octets, count / 2);
    if (refusal == HJ_DONE)
        return 0;
    snprintf(what, sizeof what, "the library does not read it: %u, %s",
             (unsigned)refusal, number_name(refusal));
    return complain(name, line, what);
}

static int read_all(const char *name, FILE *file)
{
    static char text[MOST_DIGITS + 100];
    unsigned line = 0;
    int status = 0;

    while (status == 0 && fgets(text, sizeof text, file) != NULL) {
        line++;
        if (strchr(text, '\n') == NULL && !feof(file))
            return complain(name, line, "more than 8191 octets");
        status = read_line(name, line, text);
    }
    return status;
}

int captured_read(const char *name)
{
    FILE *file = name != NULL ? fopen(name, "r") : stdin;
    const char *called = name != NULL ? name : "standard input";
    int status;

    if (file == NULL) {
        fprintf(stderr, "silent-leg: %s: %s\n", called, strerror(errno));
        return 2;
    }
    status = read_all(called, file);
    if (ferror(file)) {
        fprintf(stderr, "silent-leg: %s: could not be read\n", called);
        status = 2;
    }
    if (file != stdin)
        fclose(file);
    return status;
}
