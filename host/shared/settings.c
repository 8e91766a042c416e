/*
 * settings.c: each argument is looked up by its name, the last one counts. The
 * awkward case is a number over 64 bits, which is not understood either.
 */
#include "settings.h"

#include <errno.h>
#include <stdlib.h>
#include <string.h>

static bool take(struct setting *setting, const char *argument)
{
    size_t length = strlen(setting->name);
    const char *number = argument + length + 1;

    if (strncmp(argument, setting->name, length) != 0 ||
        argument[length] != '=' || *number == '\0' ||
        strspn(number, "0123456789") != strlen(number))
        return false;
    errno = 0;
    setting->value = strtoull(number, NULL, 10);
    return errno == 0;
}

bool settings_take(const struct program *program, struct setting *settings,
                   size_t count, char **arguments)
{
    for (; *arguments != NULL; arguments++) {
        size_t i = 0;

        while (i < count && !take(&settings[i], *arguments))
            i++;
        if (i == count) {
            options_refuse(program, "not understood", *arguments);
            return false;
        }
    }
    return true;
}
