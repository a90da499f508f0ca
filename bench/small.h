/* The same functions, tuned by hand within 64 bytes of constant tables: the rest is arithmetic, eight characters at a time. For the benchmark only. */
#ifndef SMALL_H
#define SMALL_H

#include "rosopyat.h"

rosopyat_read_answer small_read(bool rate_1200, const uint8_t *packet, size_t packet_length, uint8_t *text, size_t text_room);
rosopyat_read_answer small_read_mending(uint32_t mend, bool rate_1200, const uint8_t *packet, size_t packet_length, uint8_t *text, size_t text_room);
rosopyat_write_answer small_write(bool rate_1200, uint32_t format, bool sync, const uint8_t *text, size_t text_length, uint8_t *packet, size_t packet_room);

#endif
