/* The same functions, tuned by hand: tables, a 64-bit buffer of bits, eight characters at a time. For the benchmark only. */
#ifndef TUNED_H
#define TUNED_H

#include "rosopyat.h"

void tuned_prepare(void); /* fills the tables; once, first */
rosopyat_read_answer tuned_read(bool rate_1200, const uint8_t *packet, size_t packet_length, uint8_t *text, size_t text_room);
rosopyat_read_answer tuned_read_mending(uint32_t mend, bool rate_1200, const uint8_t *packet, size_t packet_length, uint8_t *text, size_t text_room);
rosopyat_write_answer tuned_write(bool rate_1200, uint32_t format, bool sync, const uint8_t *text, size_t text_length, uint8_t *packet, size_t packet_room);
rosopyat_judge_answer tuned_judge(uint32_t mend, bool rate_1200, const uint8_t *packet, size_t packet_length);

#endif
