/* captured.h: captured datagrams, one a line in hexadecimal. */
#ifndef CAPTURED_H
#define CAPTURED_H

/* Takes in the datagrams of a file, or of standard input where it is null.
 * Answers 0, or 2 where it cannot be read or a line is bad, which was said. */
int captured_read(const char *name);

#endif
