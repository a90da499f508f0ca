#include "maker.h"

#include <string.h>

/* Long division over two values: the next bit enters below, and the divisor is taken away when its top bit is reached. */
static uint32_t divide_step(uint32_t rest, unsigned bit, uint32_t divisor, unsigned degree)
{
    rest = rest << 1 | bit;
    return rest >> degree ? rest ^ divisor : rest;
}

uint32_t maker_header(unsigned flag, unsigned length)
{
    uint32_t information = (flag & 0x7fu) << 14 | (length & 0x3fffu), rest = 0;
    for (int i = 20; i >= 0; i--)
        rest = divide_step(rest, information >> i & 1, 0x769, 10);
    for (int i = 0; i < 10; i++)
        rest = divide_step(rest, 0, 0x769, 10);
    uint32_t parity = !__builtin_parity(flag & 0x7f);
    return parity << 31 | information << 10 | rest;
}

/* A register that starts at all ones divides the data with its first sixteen bits turned over and sixteen zeros behind it. */
static uint32_t checksum(const uint8_t *data, size_t length)
{
    uint32_t rest = 0;
    for (size_t i = 0; i < length + 2; i++) {
        unsigned byte = (i < length ? data[i] : 0) ^ (i < 2 ? 0xff : 0);
        for (int k = 7; k >= 0; k--)
            rest = divide_step(rest, byte >> k & 1, 0x1d175, 16);
    }
    return rest;
}

size_t maker_place(size_t data_byte)
{
    return 4 + data_byte + data_byte / MAKER_SECTION * 2;
}

size_t maker_length(size_t data_length)
{
    return maker_place(data_length - 1) + 3;
}

static void put_checksum(uint8_t *data, size_t length)
{
    uint32_t sum = checksum(data, length);
    data[length] = sum;
    data[length + 1] = sum >> 8;
}

size_t maker_close(uint8_t *packet, unsigned flag, size_t data_length)
{
    uint32_t header = maker_header(flag, data_length);
    for (int i = 0; i < 4; i++)
        packet[i] = header >> (24 - 8 * i);
    size_t first = (data_length - 1) / MAKER_SECTION * MAKER_SECTION, behind = data_length;
    for (;;) { /* the last section first, so that none is moved onto another */
        memmove(packet + maker_place(first), packet + 4 + first, behind - first);
        put_checksum(packet + maker_place(first), behind - first);
        if (first == 0)
            return maker_length(data_length);
        behind = first;
        first -= MAKER_SECTION;
    }
}

void maker_put(struct maker_bits *bits, unsigned value, unsigned width)
{
    for (; width > 0; width--, bits->bits++) {
        if (bits->bits % 8 == 0)
            bits->data[bits->bits / 8] = 0;
        bits->data[bits->bits / 8] |= (value >> (width - 1) & 1) << (7 - bits->bits % 8);
    }
}

void maker_code(struct maker_bits *bits, unsigned code, unsigned width)
{
    maker_put(bits, code, width);
    bits->codes++;
}

size_t maker_fill(struct maker_bits *bits)
{
    while (bits->bits % 8 != 0)
        maker_put(bits, 1, 1);
    return bits->bits / 8;
}
