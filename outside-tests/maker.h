/* What a maker of packets may build: bits, runs with any cuts, fill, header and checksum. Written for the tests, apart from both implementations, so that
 * a made packet's outcome is known from how it was made. */
#ifndef MAKER_H
#define MAKER_H

#include <stddef.h>
#include <stdint.h>

enum { MAKER_FLAG_OPEN = 0x40, MAKER_FLAG_PSEUDO_BINARY = 0x44, MAKER_FLAG_FULL_ASCII = 0x50, MAKER_FLAG_SYNC = 2, MAKER_SECTION = 4000 };

/* The four header bytes for the low seven flag bits and a 14-bit length, whatever they say. */
uint32_t maker_header(unsigned flag, unsigned length);
/* Puts the header before the one or more data bytes at packet[4..], and behind every 4,000 of them and the last their checksum, for which what follows is moved
 * on; answers the packet's length. */
size_t maker_close(uint8_t *packet, unsigned flag, size_t data_length);
/* The length of a packet of one or more data bytes, and where a data byte stands in it. */
size_t maker_length(size_t data_length);
size_t maker_place(size_t data_byte);

struct maker_bits {
    uint8_t *data;
    size_t bits, codes;
};
void maker_put(struct maker_bits *bits, unsigned value, unsigned width);
/* The same of an indicator, a value or a code, which is counted. */
void maker_code(struct maker_bits *bits, unsigned code, unsigned width);
/* Fills the last byte with ones and answers the number of bytes. */
size_t maker_fill(struct maker_bits *bits);

#endif
