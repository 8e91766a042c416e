/*
 * The words of the trace form and what each does. A word's function reads its
 * arguments, calls the library and puts " = " and the answer; it answers
 * false where an argument is not understood, and has then called nothing.
 */
#ifndef PLAIN_WORDS_H
#define PLAIN_WORDS_H

#include <stdbool.h>
#include <stddef.h>
#include <stdint.h>

#include "plain_relay.h"
#include "plain_text.h"
#include "plain_trace.h"

enum {
    PLAIN_ROOM_MOST = 65535,
    PLAIN_LIST_MOST = 1024, /* records that a trace may give the list */
    PLAIN_GUARD = 64 /* octets watched beyond the room */
};

/* What lasts from one call to the next. */
typedef struct {
    plain_board board;
    plain_mission missions[PLAIN_MISSIONS];
    plain_record records[PLAIN_LIST_MOST];
    size_t record_count;
    plain_octets octets;
    plain_numbers lengths; /* the lists of a batch */
    plain_numbers ports;
    plain_numbers slot_numbers;
    plain_numbers seconds;
    plain_slot slots[PLAIN_NUMBERS_MOST];
    plain_verdict verdicts[PLAIN_NUMBERS_MOST]; /* one for each length */
    uint8_t output[PLAIN_ROOM_MOST + PLAIN_GUARD];
    plain_text text;
} plain_session;

/* The arguments: the words after the first. */
typedef bool plain_answer(plain_session *session, const plain_word *arguments);

typedef struct {
    const char *name;
    size_t arguments;
    plain_answer *answer;
} plain_meaning;

/* A fresh board and fresh missions, and a list of 512 empty records. */
void plain_session_fresh(plain_session *session);

/* The words of the relay, and those for headers, addresses, checksum and
 * messages; the last of each has no name. */
extern const plain_meaning plain_relay_words[];
extern const plain_meaning plain_header_words[];

/* Puts the octets of a timestamp, the P-field first where it has one. */
void plain_stamp_answer(plain_text *text, uint32_t format, uint32_t p_field,
                        uint64_t time);

/* Where the output ends, as far as it is watched. */
static inline uint32_t plain_output_end(uint32_t room)
{
    return room + PLAIN_GUARD;
}

/* Sets the output to a5, as far as it is watched. */
void plain_output_lend(plain_session *session, uint32_t room);

/* Puts a stretch of the output without the a5 octets at its end, and sets it
 * to a5 again, so that what is not a5 in the end lies outside. */
void plain_output_stretch(plain_session *session, uint32_t from,
                          uint32_t count);

/* Puts " !" where an octet of this part of the output is not a5. */
void plain_output_rest(plain_session *session, uint32_t from, uint32_t end);

/* Puts the octets that were to be written at the front, or "-" for none, and
 * " !" where any other octet changed. */
void plain_output_answer(plain_session *session, uint32_t room,
                         uint32_t written);

#endif
