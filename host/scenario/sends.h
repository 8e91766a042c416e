/* sends.h: the word of a scenario that sends; it reads the rest of its line. */
#ifndef SENDS_H
#define SENDS_H

void event_send(void);

#endif
