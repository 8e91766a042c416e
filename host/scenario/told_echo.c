/*
 * told_echo.c: how an echo goes, as it is printed: what a relay answered, or
 * why it did not, and what a reply says that came back.
 */
#include "told_echo.h"

#include <inttypes.h>
#include <stdio.h>

#include "messages.h"
#include "names.h"
#include "told.h"

void told_answer(const struct node *node, uint32_t mission,
                 const struct kept *kept, const uint32_t *before)
{
    uint32_t onward = hj_onward(kept->verdict);

    if (told_is_quiet())
        return;
    printf("%14sanswers the echo: ", "");
    if (onward == HJ_SENT_ON)
        printf("%" PRIu32 " octets", hj_reply_octets(kept->verdict));
    else
        printf("REFUSED (%" PRIu32 "), %s", onward, number_name(onward));
    told_ports(kept->verdict);
    told_counters(node, mission, before);
}

void told_no_answer(const char *why)
{
    if (!told_is_quiet())
        printf("%14sanswers no echo: %s\n", "", why);
}

void told_reply(const struct datagram *came, const hj_message *message)
{
    if (told_is_quiet())
        return;
    printf("%14sthe reply says: identifier %" PRIu32 ", sequence %" PRIu32
           ", hop count seen %" PRIu32 ", MTU %" PRIu32,
           "", message->identifier, message->sequence, message->hop_count,
           message->mtu);
    if ((message->format & 3) == HJ_STAMP_NONE)
        printf(", no timestamp");
    else
        printf(", timestamp %" PRIu64, message->stamp);
    printf(", %" PRIu32 " octets of data\n", message_data(came, message));
}
