/*
 * verdict.h: the library's verdict on a datagram, as `receive` answers it, and
 * `batch` for each item.
 */
#ifndef VERDICT_H
#define VERDICT_H

#include <stdbool.h>

#include "harpjuniper.h"
#include "shared/text.h"

/* Adds REFUSAL LOCAL ONWARD PORTS OUT; the datagram has so much room of the
 * output, from there on (lent_headers). */
void verdict_add(struct text *answer, hj_verdict verdict, size_t from,
                 size_t room);

/* Whether the parts that a trace does not show go with those that it does, and
 * all lengths with the octets that came and with the headers. */
bool verdict_agrees(hj_verdict verdict, const uint8_t *octets, size_t count,
                    const uint8_t *output);

/* Whether the datagram was counted, and its second accepted. */
bool verdict_counts(hj_verdict verdict);

#endif
