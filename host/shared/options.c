/*
 * options.c: the first argument that decides is the last one looked at, so that
 * `--help` helps whatever stands behind it. A single `-` is no option and no
 * file here: the programs read standard input without being told to.
 *
 * The version is that of include/harpjuniper.h, which a test compares with the
 * file VERSION.
 */
#include "options.h"

#include <stdio.h>
#include <string.h>

#include "harpjuniper.h"

int options_end(const struct program *program, int status)
{
    if (fflush(stdout) == 0 && !ferror(stdout))
        return status;
    fprintf(stderr, "%s: the output failed\n", program->name);
    return 2;
}

int options_refuse(const struct program *program, const char *what,
                   const char *argument)
{
    fprintf(stderr, "%s: %s: %s\n%s: try --help\n", program->name, what,
            argument, program->name);
    return 2;
}

static int status_of(const struct program *program, const char *argument)
{
    if (strcmp(argument, "--help") == 0) {
        fputs(program->help, stdout);
        return options_end(program, 0);
    }
    if (strcmp(argument, "--version") == 0) {
        printf("%s (Harpjuniper) %s\n", program->name, HJ_VERSION);
        return options_end(program, 0);
    }
    if (argument[0] == '-')
        return options_refuse(program, "unknown option", argument);
    if (!program->takes_arguments)
        return options_refuse(program, "unexpected argument", argument);
    return OPTIONS_GO_ON;
}

int options_status(const struct program *program, char *const *arguments)
{
    int status = OPTIONS_GO_ON;

    while (status == OPTIONS_GO_ON && *arguments != NULL)
        status = status_of(program, *arguments++);
    return status;
}
