/* settings.h: a program's arguments of the form NAME=NUMBER. */
#ifndef SETTINGS_H
#define SETTINGS_H

#include <stdbool.h>
#include <stddef.h>
#include <stdint.h>

#include "options.h"

struct setting {
    const char *name;
    uint64_t value;
};

/* Takes every argument; names on standard error one that it cannot, and
 * answers false. */
bool settings_take(const struct program *program, struct setting *settings,
                   size_t count, char **arguments);

#endif
