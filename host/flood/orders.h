/*
 * orders.h: the datagrams that are flooded, orders, each with a pair of source
 * and stamp of its own.
 */
#ifndef ORDERS_H
#define ORDERS_H

#include "net.h"

/* As many can wait on one port; so none is dropped, whatever goes first. */
#define MOST_ORDERS HJ_QUEUE
/* User data: the number of the order. */
#define DATA_OCTETS 4
#define MOST_OCTETS (HJ_HEADER_ROOM + DATA_OCTETS)

/* Whom an order is for. */
enum aim { FOR_ONE, FOR_ALL, FOR_NOBODY, FOR_NEIGHBOURS };

struct order {
    enum aim aim;
    uint32_t target; /* the node that it is for, with FOR_ONE */
    uint32_t home;   /* the node whose instrument sends it first */
    hj_fields fields; /* its addresses have four octets */
    bool short_form;  /* its instrument sends it with one-octet addresses */
};

extern struct order orders[MOST_ORDERS];
extern uint32_t order_count;

void orders_draw(uint32_t count, struct random *random);
/* The octets of an order as the instrument of a node sends it; how many. */
uint32_t order_octets(uint32_t order, uint32_t node, uint8_t *octets);
/* Whether a node that it reaches delivers it, and whether it ends there: it is
 * the node's own, or for neighbours alone. */
bool order_delivered(uint32_t order, uint32_t node);
bool order_ends(uint32_t order, uint32_t node);

#endif
