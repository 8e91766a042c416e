/*
 * asked.c: an argument NAME=VALUE is a setting, and any other is a word, in the
 * order in which they come. A file whose name has an equals sign in it is taken
 * for a setting, and has to be told with its folder, as ./a=b.
 */
#include "asked.h"

#include <stdbool.h>
#include <stdlib.h>
#include <string.h>

#include "scenario/nodes.h"

/* What stands behind NAME=; null where it is another setting. */
static const char *value_of(const char *argument, const char *name)
{
    size_t length = strlen(name);

    if (strncmp(argument, name, length) != 0 || argument[length] != '=')
        return NULL;
    return argument + length + 1;
}

/* The number at the front, of which there are so many digits; 0 for none, and
 * for one out of its range. */
static size_t digits_of(const char *text, uint32_t least, uint32_t most,
                        uint32_t *number)
{
    size_t digits = strspn(text, "0123456789");
    unsigned long value = digits < 10 ? strtoul(text, NULL, 10) : most + 1ul;

    *number = (uint32_t)value;
    return value < least || value > most ? 0 : digits;
}

static bool read_number(const char *text, uint32_t least, uint32_t most,
                        uint32_t *number)
{
    size_t digits = digits_of(text, least, most, number);

    return digits > 0 && text[digits] == '\0';
}

/* Numbers with commas. */
static bool read_rates(const char *text, struct asked *asked)
{
    asked->rate_count = 0;
    while (asked->rate_count < MOST_RATES) {
        size_t digits = digits_of(text, 1, 100000000,
                                  &asked->rates[asked->rate_count++]);

        if (digits == 0 || (text[digits] != ',' && text[digits] != '\0'))
            return false;
        if (text[digits] == '\0')
            return true;
        text += digits + 1;
    }
    return false;
}

/* False where it is a setting and not understood, or one word too many. */
static bool read_argument(const char *argument, struct asked *asked)
{
    const char *scene = value_of(argument, "scene");
    const char *hops = value_of(argument, "hops");
    const char *octets = value_of(argument, "octets");
    const char *identifier = value_of(argument, "identifier");
    const char *rates = value_of(argument, "rates");

    if (scene != NULL || hops != NULL || octets != NULL || identifier != NULL)
        asked->for_net = argument;
    if (scene != NULL) {
        asked->scene = scene;
        return *scene != '\0';
    }
    if (hops != NULL)
        return read_number(hops, 1, 255, &asked->hops);
    if (octets != NULL)
        return read_number(octets, 0, MOST_DATA, &asked->octets);
    if (identifier != NULL)
        return read_number(identifier, 0, 65535, &asked->identifier);
    if (rates != NULL)
        return read_rates(rates, asked);
    if (asked->word_count == MOST_WORDS)
        return false;
    asked->words[asked->word_count++] = argument;
    return true;
}

int asked_read(const struct program *program, char **arguments,
               struct asked *asked)
{
    for (; *arguments != NULL; arguments++) {
        if (!read_argument(*arguments, asked))
            return options_refuse(program, "not understood", *arguments);
    }
    return OPTIONS_GO_ON;
}
