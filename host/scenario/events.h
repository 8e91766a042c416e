/*
 * events.h: the words of a scenario that let time pass and tell; each reads the
 * rest of its line.
 */
#ifndef EVENTS_H
#define EVENTS_H

void event_take(void);
void event_sweep(void);
void event_wait(void);
void event_step(void);
void event_run(void);
void event_scene(void);
void event_say(void);
void event_quiet(void);
void event_loud(void);

#endif
