/* The queue of a port: entries in the order in which they are taken. */
#ifndef PLAIN_QUEUE_H
#define PLAIN_QUEUE_H

#include <stdbool.h>
#include <stdint.h>

#include "plain_numbers.h"

/* A number of the caller's; it may repeat and means nothing here. */
typedef struct { uint16_t number; } plain_slot;

typedef struct {
    plain_slot slot;
    uint16_t precedence;
} plain_entry;

/* A ring; all zeros is an empty queue. */
typedef struct {
    uint32_t first;
    uint32_t waiting;
    plain_entry entries[PLAIN_QUEUE_ENTRIES];
} plain_queue;

/* Just ahead of the first entry with lower precedence, else last; false, with
 * nothing changed, where the queue is full. */
bool plain_queue_put(plain_queue *queue, plain_entry newcomer);

/* The first entry, removed; false where nothing waits. */
bool plain_queue_take(plain_queue *queue, plain_entry *entry);

#endif
