/* What tuned C and small C have in common, word for word: words of 64 bits, sections, and the parts of Compact Pseudo Binary that need no table. */
#ifndef WORDS_H
#define WORDS_H

#include "rosopyat.h"

#include <string.h>

#define EACH(byte) (0x0101010101010101u * (byte))
#define likely(c) __builtin_expect(!!(c), 1)
#define unlikely(c) __builtin_expect(!!(c), 0)
#define ALWAYS_INLINE inline __attribute__((always_inline))

static inline uint64_t load_64(const uint8_t *from)
{
    uint64_t word;
    memcpy(&word, from, 8);
    return __builtin_bswap64(word);
}

static inline void store_64(uint8_t *to, uint64_t word)
{
    word = __builtin_bswap64(word);
    memcpy(to, &word, 8);
}

static inline void store_32(uint8_t *to, uint32_t word)
{
    word = __builtin_bswap32(word);
    memcpy(to, &word, 4);
}

static inline uint64_t load_some(const uint8_t *from, size_t count)
{
    uint8_t bytes[8] = {0};
    memcpy(bytes, from, count < 8 ? count : 8);
    return load_64(bytes);
}

/* At least 57 bits from a bit on, at the top of a word; zeros behind `readable` bytes. */
static inline uint64_t window(const uint8_t *data, size_t readable, size_t at)
{
    size_t byte = at / 8;
    uint64_t word = likely(byte + 8 <= readable) ? load_64(data + byte) : load_some(data + byte, readable - byte);
    return word << at % 8;
}

static rosopyat_read_answer refuse_reading(uint32_t refusal, size_t number)
{
    return (rosopyat_read_answer){.refusal = refusal, .number = number};
}

static rosopyat_read_answer refuse_malformed(size_t bad, size_t codes)
{
    return (rosopyat_read_answer){.refusal = 7, .number = bad, .codes = codes};
}

static rosopyat_write_answer refuse_writing(uint32_t refusal, size_t number)
{
    return (rosopyat_write_answer){.refusal = refusal, .number = number};
}

/* Sections. Each side works out the checksum in its own way. */

enum { SECTION = 4000, MOST_DATA = 4 * SECTION };

static inline uint16_t checksum(const uint8_t *data, size_t length);

static inline size_t most_data(bool rate_1200)
{
    return rate_1200 ? MOST_DATA : SECTION;
}

static inline size_t packet_size(size_t length)
{
    return likely(length <= SECTION) ? length + 6 : length + 4 + (length + SECTION - 1) / SECTION * 2;
}

static inline bool is_right(const uint8_t *data, size_t length)
{
    return checksum(data, length) == (data[length] | data[length + 1] << 8);
}

/* The data of a packet in one part, with two bytes behind it: its own where it has one section, and else its sections joined. NULL where a checksum is wrong,
 * with the number of the first such section. */
static ALWAYS_INLINE const uint8_t *data_in_one_part(const uint8_t *packet, size_t length, uint8_t joined[MOST_DATA + 2], size_t *bad)
{
    const uint8_t *from = packet + 4;
    *bad = 0;
    if (likely(length <= SECTION))
        return is_right(from, length) ? from : NULL;
    for (size_t done = 0; done < length; done += SECTION, from += SECTION + 2, ++*bad) {
        size_t size = length - done < SECTION ? length - done : SECTION;
        if (!is_right(from, size))
            return NULL;
        memcpy(joined + done, from, size);
    }
    joined[length] = joined[length + 1] = 0;
    return joined;
}

/* Puts data into the sections of a packet, with their checksums. It may lie in the packet already, in one part behind the header: so the last section comes
 * first, and none is put onto another. */
static ALWAYS_INLINE void put_sections(uint8_t *packet, const uint8_t *data, size_t length)
{
    for (size_t section = (length + SECTION - 1) / SECTION; section-- > 0; length = section * SECTION) {
        const uint8_t *from = data + section * SECTION;
        uint8_t *to = packet + 4 + section * (SECTION + 2);
        size_t size = length - section * SECTION;
        if (to != from)
            memmove(to, from, size);
        uint16_t sum = checksum(to, size);
        to[size] = sum;
        to[size + 1] = sum >> 8;
    }
}

/* Whether at most seven bits are all ones. */
static inline bool all_ones(uint64_t top, size_t rest)
{
    return rest == 0 || ~top >> (64 - rest) == 0;
}

/* Compact Pseudo Binary: the data has two bytes of checksum behind it, so that two bytes can be read at any bit. */

static ALWAYS_INLINE bool measure_pseudo_binary(const uint8_t *data, size_t length, size_t *count, size_t *codes, size_t *bad)
{
    size_t bits = 8 * length, at = 0, characters = 0, passed = 0;
    for (;;) {
        size_t rest = bits - at;
        unsigned pair = data[at / 8] << 8 | data[at / 8 + 1];
        unsigned indicator = pair >> (8 - at % 8) & 0xff;
        if (unlikely(rest <= 7)) {
            if (all_ones((uint64_t)indicator << 56, rest))
                break;
            if (rest < 6 || indicator >= 0x80) {
                *codes = passed;
                *bad = at;
                return false;
            }
        }
        if (indicator >= 0x80) {
            size_t run = (indicator & 0x7f) + 1;
            if (unlikely(rest - 8 < 6 * run)) {
                size_t whole = (rest - 8) / 6;
                *codes = passed + 1 + whole;
                *bad = at + 8 + 6 * whole;
                return false;
            }
            characters += run;
            passed += 1 + run;
            at += 8 + 6 * run;
        } else {
            characters += (indicator >> 2 & 15) + 1;
            passed++;
            at += 6;
        }
    }
    *count = characters;
    *codes = passed;
    return true;
}

/* Eight values of six bits, from the low 48 bits to a byte each, and back. */
static inline uint64_t spread(uint64_t v)
{
    v = (v & 0xffffff000000) << 8 | (v & 0xffffff);
    v = (v & 0x00fff00000fff000) << 4 | (v & 0x00000fff00000fff);
    return (v & 0x0fc00fc00fc00fc0) << 2 | (v & 0x003f003f003f003f);
}

static inline uint64_t gather(uint64_t v)
{
    v = (v & 0x3f003f003f003f00) >> 2 | (v & 0x003f003f003f003f);
    v = (v & 0x0fff00000fff0000) >> 4 | (v & 0x00000fff00000fff);
    return (v & 0x00ffffff00000000) >> 8 | (v & 0xffffff);
}

/* Of eight values the characters: 64 to 126, and 63 for the last. */
static inline uint64_t characters_of(uint64_t values)
{
    return ((values + EACH(1)) & EACH(63)) + EACH(63);
}

static ALWAYS_INLINE void text_of_pseudo_binary(const uint8_t *data, size_t length, uint8_t *text, size_t count)
{
    size_t at = 0, done = 0, readable = length + 2;
    while (done < count) {
        unsigned pair = data[at / 8] << 8 | data[at / 8 + 1];
        unsigned indicator = pair >> (8 - at % 8) & 0xff;
        if (indicator >= 0x80) {
            size_t run = (indicator & 0x7f) + 1;
            at += 8;
            for (; run >= 8; run -= 8, at += 48, done += 8)
                store_64(text + done, characters_of(spread(window(data, readable, at) >> 16)));
            if (run > 0) {
                uint64_t last = characters_of(spread(window(data, readable, at) >> 16));
                if (likely(count - done >= 8))
                    store_64(text + done, last); /* what is too much is written again */
                else
                    for (size_t i = 0; i < run; i++)
                        text[done + i] = last >> (56 - 8 * i);
                at += 6 * run;
                done += run;
            }
        } else {
            size_t run = (indicator >> 2 & 15) + 1;
            uint64_t character = indicator & 0x40 ? EACH('/') : EACH(' ');
            if (likely(count - done >= 16)) {
                memcpy(text + done, &character, 8);
                memcpy(text + done + 8, &character, 8);
            } else
                memset(text + done, (int)(character & 0xff), run);
            at += 6;
            done += run;
        }
    }
}

/* Runs of Compact Pseudo Binary: characters of one kind from `from` on, at most `most`. The values are the characters 63 to 127. */

static inline bool is_value(unsigned character)
{
    return character - 63 < 65;
}

/* Of eight characters the top bit of each that is no value; above the first of these, the lowest, it may be wrong. */
static inline uint64_t no_values(uint64_t eight)
{
    return (~(eight + EACH(65)) | eight) & EACH(0x80);
}

static inline size_t run_of_values(const uint8_t *text, size_t length, size_t from, size_t most)
{
    size_t end = length - from > most ? from + most : length, at = from;
    uint64_t eight;
    while (at + 8 <= end) {
        memcpy(&eight, text + at, 8);
        if (no_values(eight))
            return at - from + __builtin_ctzll(no_values(eight)) / 8;
        at += 8;
    }
    while (at < end && is_value(text[at]))
        at++;
    return at - from;
}

static inline size_t run_of(unsigned character, const uint8_t *text, size_t length, size_t from, size_t most)
{
    size_t end = length - from > most ? from + most : length, at = from;
    while (at < end && text[at] == character)
        at++;
    return at - from;
}

#endif
