/*
 * messages.c: what nodes send is put together here, and what they get is looked
 * into, by the library's calls alone.
 *
 * The data of an echo request are letters of the alphabet, so that data that
 * were cut or mixed up would show.
 */
#include "messages.h"

#include <string.h>

uint32_t datagram_build(const hj_fields *fields, const uint8_t *data,
                        uint32_t octets, struct datagram *datagram)
{
    hj_answer built =
        hj_build(*fields, octets, datagram->octets, HJ_HEADER_ROOM);

    if (hj_refusal(built) != HJ_DONE)
        return hj_refusal(built);
    datagram->header = hj_value(built);
    datagram->length = datagram->header + octets;
    memcpy(datagram->octets + datagram->header, data, octets);
    return HJ_DONE;
}

uint32_t message_request(uint16_t identifier, uint16_t sequence,
                         uint32_t octets, uint8_t *message)
{
    uint8_t data[MOST_DATA];

    for (uint32_t i = 0; i < octets; i++)
        data[i] = (uint8_t)('a' + i % 26);
    return hj_value(hj_build_request(identifier, sequence, data, octets,
                                     message, MOST_USER_DATA));
}

bool message_of(const struct datagram *datagram, hj_message *message)
{
    hj_reading reading = hj_read(datagram->octets, datagram->length);

    return reading.refusal == HJ_DONE && reading.fields.tp_id == HJ_TP_SCMP &&
           hj_read_echo(datagram->octets + reading.header,
                        reading.length - reading.header, message) == HJ_DONE;
}

bool message_asks(const struct datagram *datagram)
{
    hj_message message;

    return message_of(datagram, &message) && message.type == HJ_ECHO_REQUEST;
}

uint32_t message_data(const struct datagram *datagram,
                      const hj_message *message)
{
    return datagram->length - datagram->header - message->data_from;
}
