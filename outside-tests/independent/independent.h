/* The same functions as rosopyat.h, written a second time from the document alone: plain C, bit by bit, sharing no code with the library. */
#ifndef INDEPENDENT_H
#define INDEPENDENT_H

#include "rosopyat.h"

rosopyat_read_answer independent_read(bool rate_1200, const uint8_t *packet, size_t packet_length, uint8_t *text, size_t text_room);
rosopyat_read_answer independent_read_mending(uint32_t mend, bool rate_1200, const uint8_t *packet, size_t packet_length, uint8_t *text, size_t text_room);
rosopyat_write_answer independent_write(bool rate_1200, uint32_t format, bool sync, const uint8_t *text, size_t text_length, uint8_t *packet,
                                        size_t packet_room);
rosopyat_judge_answer independent_judge(uint32_t mend, bool rate_1200, const uint8_t *packet, size_t packet_length);

#endif
