/*
 * text.c: writing numbers and octets by hand. A trace of a million calls asks
 * for some twenty million of them, on one kind of machine under an emulator,
 * where printf would take most of the time.
 */
#include "text.h"

#include <stdio.h>
#include <stdlib.h>
#include <string.h>

static const char DIGITS[] = "0123456789abcdef";

/* Room for this many more characters, at the place where they go. */
static char *more(struct text *text, size_t count)
{
    char *at;

    if (text->room - text->used < count) {
        text->room = 2 * (text->used + count);
        text->start = realloc(text->start, text->room);
        if (text->start == NULL) {
            fputs("no memory for a line\n", stderr);
            exit(2);
        }
    }
    at = text->start + text->used;
    text->used += count;
    return at;
}

void text_clear(struct text *text)
{
    text->used = 0;
}

void text_add(struct text *text, const char *characters, size_t count)
{
    if (count > 0)
        memcpy(more(text, count), characters, count);
}

void text_string(struct text *text, const char *string)
{
    text_add(text, string, strlen(string));
}

void text_number(struct text *text, uint64_t number)
{
    char digits[20];
    size_t first = sizeof digits;

    do {
        digits[--first] = DIGITS[number % 10];
        number /= 10;
    } while (number > 0);
    text_add(text, digits + first, sizeof digits - first);
}

void text_next_number(struct text *text, uint64_t number)
{
    text_string(text, " ");
    text_number(text, number);
}

void text_digits(struct text *text, uint64_t number, unsigned digits)
{
    char *at = more(text, digits);

    while (digits > 0) {
        at[--digits] = DIGITS[number & 15];
        number >>= 4;
    }
}

void text_octets(struct text *text, const uint8_t *octets, size_t count)
{
    char *at;

    if (count == 0) {
        text_string(text, "-");
        return;
    }
    at = more(text, 2 * count);
    for (size_t i = 0; i < count; i++) {
        *at++ = DIGITS[octets[i] >> 4];
        *at++ = DIGITS[octets[i] & 15];
    }
}
