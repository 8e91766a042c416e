/*
 * options.h: what every host program does alike: --help, --version, an argument
 * that it does not know, and an output that fails at the end.
 */
#ifndef OPTIONS_H
#define OPTIONS_H

#include <stdbool.h>

struct program {
    const char *name;
    const char *help;     /* whole lines */
    bool takes_arguments; /* whether it has any that are no options */
};

/* No argument ends the program. */
#define OPTIONS_GO_ON (-1)

/*
 * The status that the program is to end with, or OPTIONS_GO_ON. What --help and
 * --version ask for was then printed: 0, or 2 where that failed; an option that
 * is not known, or an argument too many, was named on standard error: 2.
 */
int options_status(const struct program *program, char *const *arguments);

/* Names on standard error what is wrong with an argument; answers 2. */
int options_refuse(const struct program *program, const char *what,
                   const char *argument);

/* The status given, where all that was printed was taken; else says that the
 * output failed, and answers 2. */
int options_end(const struct program *program, int status);

#endif
