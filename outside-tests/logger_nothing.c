/* Takes what the writer takes, and does nothing with it. In a file of its own, so that it is called as the writer is. */
#include "rosopyat.h"

rosopyat_write_answer logger_nothing(bool rate_1200, uint32_t format, bool sync, const uint8_t *text, size_t text_length, uint8_t *packet, size_t packet_room)
{
    (void)rate_1200, (void)format, (void)sync, (void)text, (void)text_length, (void)packet, (void)packet_room;
    return (rosopyat_write_answer){0};
}
