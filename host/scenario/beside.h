/*
 * beside.h: what one mission was told and left with, by two nodes, side by
 * side.
 */
#ifndef BESIDE_H
#define BESIDE_H

#include "nodes.h"

/* The word `beside`: reads the rest of its line. */
void beside(void);

/* A scene begins: what was answered before is not looked at any more. */
void beside_scene(void);
void beside_receive(const struct node *node, hj_arrival arrival,
                    const struct kept *kept);
/* The answer to an echo request, under its own slot. */
void beside_echo(const struct node *node, hj_arrival arrival,
                 const struct kept *kept);
/* A take of a free wire that has nothing to send is not noted. */
void beside_take(const struct node *node, uint32_t port, hj_answer entry);

#endif
