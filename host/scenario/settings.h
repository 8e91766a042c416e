/*
 * settings.h: the words of a scenario that set up nodes, links and places; each
 * reads the rest of its line.
 */
#ifndef SETTINGS_H
#define SETTINGS_H

void set_node(void);
void set_port(void);
void set_link(void);
void set_route(void);
void set_group(void);
void set_path(void);
void set_lifetime(void);
void set_echo_drop(void);
void set_fresh(void);

#endif
