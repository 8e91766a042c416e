/* words.h: the lines of a scenario, each performed by its word. */
#ifndef WORDS_H
#define WORDS_H

#include <stdbool.h>

struct performance {
    const char *program; /* that complains */
    const char *file;
    bool net_only;     /* the lines that set up the net, and no others */
    const char *scene; /* the last one, by how its title begins; null: all */
};

/* Performs the lines. Answers 0, or 2 where the file cannot be read or has no
 * such scene, which was said. A line that is not understood ends the program.
 */
int words_perform(const struct performance *asked);

#endif
