/* The published packets and messages (file given), the table of edges P1 to P15, M1 to M3 and Q1 to Q3, edges of Numeric and SHEF, every unreadable ending, the
 * numbers of formats and of header bits to mend, the mask of the mended bits, how many codes data has; and of 1200 bps the lengths around the end of each
 * section, damage in each, and what stands over its end; through rosopyat.h: linked once with the independent implementation under the library's names, and
 * once with the library. Where nothing else is said, the rate is 300 bps. */
#include "maker.h"
#include "rosopyat.h"

#include <ctype.h>
#include <stdio.h>
#include <stdlib.h>
#include <string.h>

/* The structs as the library lays them out. */
_Static_assert(sizeof(rosopyat_read_answer) == 64 && offsetof(rosopyat_read_answer, number) == 8 && offsetof(rosopyat_read_answer, format) == 16 &&
                   offsetof(rosopyat_read_answer, mended) == 24 && offsetof(rosopyat_read_answer, mask) == 28 &&
                   offsetof(rosopyat_read_answer, codes) == 32 && offsetof(rosopyat_read_answer, data_length) == 40,
               "layout of the reader's answer");
_Static_assert(sizeof(rosopyat_write_answer) == 24 && offsetof(rosopyat_write_answer, number) == 8, "layout of the writer's answer");

/* The names of the refusals, as the library numbers them. */
_Static_assert(ROSOPYAT_SHORT == 1 && ROSOPYAT_NO_HEADER == 2 && ROSOPYAT_OTHER_TYPE == 3 && ROSOPYAT_OTHER_LENGTH == 4 && ROSOPYAT_CUT_OFF == 5 &&
                   ROSOPYAT_CHECKSUM == 6 && ROSOPYAT_MALFORMED == 7 && ROSOPYAT_NO_ROOM == 8 && ROSOPYAT_NO_CODE == 9 && ROSOPYAT_EMPTY == 10 &&
                   ROSOPYAT_TOO_LONG == 11 && ROSOPYAT_OTHER_FORMAT == 12 && ROSOPYAT_TOO_MANY_BITS == 17,
               "numbers of the refusals");
_Static_assert(ROSOPYAT_ACCEPTED == 0 && ROSOPYAT_OPEN == 0 && ROSOPYAT_PSEUDO_BINARY == 1 && ROSOPYAT_NUMERIC == 2 && ROSOPYAT_SHEF == 3 &&
                   ROSOPYAT_FULL_ASCII == 4,
               "numbers of the formats");
_Static_assert(ROSOPYAT_MOST_DATA == 4000 && ROSOPYAT_OVERHEAD == 6 && ROSOPYAT_MOST_PACKET == 4006 && ROSOPYAT_MOST_TEXT == 85328, "limits");
_Static_assert(ROSOPYAT_MOST_DATA_1200 == 16000 && ROSOPYAT_MOST_PACKET_1200 == 16012 && ROSOPYAT_MOST_TEXT_1200 == 341328, "limits at 1200");

/* The parts of a header, as the library's mask has them. Each bit is in one of them, and in no other: their sum is no more than all bits. */
_Static_assert(ROSOPYAT_MASK_PARITY == 0x80000000 && ROSOPYAT_MASK_TYPE == 0x60000000 && ROSOPYAT_MASK_EXTENDED_TYPE == 0x1c000000 &&
                   ROSOPYAT_MASK_SYNC == 0x02000000 && ROSOPYAT_MASK_SPARE == 0x01000000 && ROSOPYAT_MASK_LENGTH == 0x00fffc00 &&
                   ROSOPYAT_MASK_CHECK == 0x000003ff,
               "bits of the mask");
_Static_assert((ROSOPYAT_MASK_PARITY | ROSOPYAT_MASK_TYPE | ROSOPYAT_MASK_EXTENDED_TYPE | ROSOPYAT_MASK_SYNC | ROSOPYAT_MASK_SPARE | ROSOPYAT_MASK_LENGTH |
                ROSOPYAT_MASK_CHECK) == 0xffffffff,
               "all bits of the mask");
_Static_assert((uint64_t)ROSOPYAT_MASK_PARITY + ROSOPYAT_MASK_TYPE + ROSOPYAT_MASK_EXTENDED_TYPE + ROSOPYAT_MASK_SYNC + ROSOPYAT_MASK_SPARE +
                       ROSOPYAT_MASK_LENGTH + ROSOPYAT_MASK_CHECK ==
                   0xffffffff,
               "each bit of the mask once");

/* What a caller names: a narrower type would cut a format, or a number of bits to mend, to one of ours before the call. */
_Static_assert(_Generic(&rosopyat_write, rosopyat_write_answer(*)(bool, uint32_t, bool, const uint8_t *, size_t, uint8_t *, size_t): 1, default: 0),
               "parameters of the writer");
_Static_assert(_Generic(&rosopyat_read, rosopyat_read_answer(*)(bool, const uint8_t *, size_t, uint8_t *, size_t): 1, default: 0),
               "parameters of the reader");
_Static_assert(_Generic(&rosopyat_read_mending, rosopyat_read_answer(*)(uint32_t, bool, const uint8_t *, size_t, uint8_t *, size_t): 1, default: 0),
               "parameters of the reader that is told how many bits to mend");

static unsigned checked, failed;

static void expect(const char *what, const char *name, size_t got, size_t wanted)
{
    checked++;
    if (got != wanted) {
        failed++;
        printf("%s: %s is %zu, wanted %zu\n", what, name, got, wanted);
    }
}

static void expect_bytes(const char *what, const uint8_t *got, const uint8_t *wanted, size_t length)
{
    expect(what, "bytes alike", memcmp(got, wanted, length) == 0, 1);
}

/* A reading names the most header bits to mend, or goes by the default. */
enum { BY_DEFAULT = -1 };

static bool rate_1200;

static rosopyat_read_answer read_naming(int64_t named, const uint8_t *packet, size_t packet_length, uint8_t *text, size_t text_room)
{
    if (named == BY_DEFAULT)
        return rosopyat_read(rate_1200, packet, packet_length, text, text_room);
    return rosopyat_read_mending(named, rate_1200, packet, packet_length, text, text_room);
}

/* The data bytes of a packet of so many bytes. */
static size_t data_length_of(size_t packet_length)
{
    return packet_length - 4 - (packet_length - 4 + 4001) / 4002 * 2;
}

static void expect_reading_naming(int64_t named, const char *what, const uint8_t *packet, size_t packet_length, unsigned format, uint32_t mask,
                                  size_t codes, const uint8_t *text, size_t text_length)
{
    static uint8_t got[ROSOPYAT_MOST_TEXT_1200];
    rosopyat_read_answer answer = read_naming(named, packet, packet_length, got, sizeof got);
    expect(what, "refusal", answer.refusal, 0);
    expect(what, "number", answer.number, 0);
    expect(what, "format", answer.format, format);
    expect(what, "sync", answer.sync, 0);
    expect(what, "mended", answer.mended, __builtin_popcount(mask));
    expect(what, "mask", answer.mask, mask);
    expect(what, "codes", answer.codes, codes);
    expect(what, "data length", answer.data_length, data_length_of(packet_length));
    expect(what, "used", answer.used, packet_length);
    expect(what, "text length", answer.text_length, text_length);
    expect_bytes(what, got, text, text_length);
}

static void expect_reading(const char *what, const uint8_t *packet, size_t packet_length, unsigned format, size_t codes, const uint8_t *text,
                           size_t text_length)
{
    expect_reading_naming(BY_DEFAULT, what, packet, packet_length, format, 0, codes, text, text_length);
}

/* Only malformed data has codes. */
static void expect_refused_with(int64_t named, const char *what, const uint8_t *packet, size_t packet_length, unsigned refusal, size_t number, size_t codes)
{
    uint8_t text[16] = "as it was before", before[16] = "as it was before";
    rosopyat_read_answer answer = read_naming(named, packet, packet_length, text, sizeof text);
    expect(what, "refusal", answer.refusal, refusal);
    expect(what, "number", answer.number, number);
    expect(what, "codes", answer.codes, codes);
    expect(what, "every other member", answer.format | answer.sync | answer.mended | answer.mask | answer.data_length | answer.text_length | answer.used, 0);
    expect_bytes(what, text, before, sizeof text);
}

static void expect_refused_naming(int64_t named, const char *what, const uint8_t *packet, size_t packet_length, unsigned refusal, size_t number)
{
    expect_refused_with(named, what, packet, packet_length, refusal, number, 0);
}

static void expect_refused(const char *what, const uint8_t *packet, size_t packet_length, unsigned refusal, size_t number, size_t codes)
{
    expect_refused_with(BY_DEFAULT, what, packet, packet_length, refusal, number, codes);
}

static void expect_not_written(const char *what, uint32_t format, const uint8_t *text, size_t text_length, unsigned refusal, size_t number)
{
    uint8_t packet[16] = "as it was before", before[16] = "as it was before";
    rosopyat_write_answer answer = rosopyat_write(rate_1200, format, false, text, text_length, packet, sizeof packet);
    expect(what, "refusal", answer.refusal, refusal);
    expect(what, "number", answer.number, number);
    expect_bytes(what, packet, before, sizeof packet);
}

static void expect_writing(const char *what, uint32_t format, const uint8_t *text, size_t text_length, const uint8_t *packet, size_t packet_length)
{
    uint8_t got[ROSOPYAT_MOST_PACKET_1200];
    rosopyat_write_answer answer = rosopyat_write(rate_1200, format, false, text, text_length, got, sizeof got);
    expect(what, "refusal", answer.refusal, 0);
    expect(what, "number", answer.number, 0);
    expect(what, "length", answer.length, packet_length);
    expect_bytes(what, got, packet, packet_length);
}

/* The data of a text, how many codes it has, and what it comes back as, which gives the same data. */
static void expect_normal(const char *what, unsigned format, const char *text, const char *data, size_t data_length, size_t codes, const char *back)
{
    uint8_t packet[64];
    memcpy(packet + 4, data, data_length);
    size_t packet_length = maker_close(packet, 0x40 | format << 2, data_length);
    expect_writing(what, format, (const uint8_t *)text, strlen(text), packet, packet_length);
    expect_reading(what, packet, packet_length, format, codes, (const uint8_t *)back, strlen(back));
    expect_writing(what, format, (const uint8_t *)back, strlen(back), packet, packet_length);
}

/* The data of a text, both ways. */
static void expect_data(const char *what, unsigned format, const char *text, const char *data, size_t data_length, size_t codes)
{
    expect_normal(what, format, text, data, data_length, codes, text);
}

static void expect_uncoded(const char *what, uint32_t format, const char *text, size_t index)
{
    expect_not_written(what, format, (const uint8_t *)text, strlen(text), 9, index);
}

static void expect_malformed(const char *what, unsigned format, const char *data, size_t data_length, size_t bit, size_t codes)
{
    uint8_t packet[64];
    memcpy(packet + 4, data, data_length);
    size_t packet_length = maker_close(packet, 0x40 | format << 2, data_length);
    expect_refused(what, packet, packet_length, 7, bit, codes);
}

static void expect_header(const char *what, unsigned format, const char *text, size_t length, const char *header)
{
    uint8_t packet[ROSOPYAT_MOST_PACKET];
    rosopyat_write(false, format, false, (const uint8_t *)text, length, packet, sizeof packet);
    expect_bytes(what, packet, (const uint8_t *)header, 4);
}

/* Open, with the header of P2 and one data byte. */
static size_t make_x(uint8_t *packet)
{
    packet[4] = 'x';
    size_t packet_length = maker_close(packet, MAKER_FLAG_OPEN, 1);
    expect_bytes("P2", packet, (const uint8_t *)"\x40\x00\x04\xdd", 4);
    return packet_length;
}

static void edges(void)
{
    char text[4000];
    memset(text, 'x', sizeof text);

    /* 140 values in two runs: 107 data bytes. */
    expect_header("P1", 1, text, 140, "\xc4\x01\xae\x85");
    expect_header("P2", 0, text, 1, "\x40\x00\x04\xdd");
    expect_header("P3", 0, text, 4000, "\x40\x3e\x80\xd1");
    expect_header("P4", 4, "A", 1, "\xd0\x00\x04\x30");

    expect_data("P8", 1, "AB", "\x81\x04\x2f", 3, 3);
    expect_data("P9", 1, "////////////////", "\x7f", 1, 1);
    expect_data("P9", 1, "/////////////////", "\x7d\x0f", 2, 2);
    expect_data("P10", 1, "////    ////    ", "\x4c\x34\xc3", 3, 4);
    expect_malformed("P11", 1, "\xff", 1, 8, 1);
    expect_data("P12", 4, "A", "\x83", 1, 1);
    expect_data("P12", 4, "AB", "\x83\x0b", 2, 2);
    expect_data("P13", 4, "A\r\n", "\x83\xff", 2, 2);
    expect_data("P14", 4, "\r\n", "\xff\xff", 2, 1);
    expect_malformed("P15", 4, "\xff", 1, 0, 0);
}

/* P5 to P7, which are 2, more than 2, and 1 bit away from a valid header. */
static void wrong_headers(void)
{
    static const struct {
        const char *what;
        int64_t named;
        unsigned p5, p6, p7; /* the refusal, or 0 */
    } namings[] = {{"with 0 named", 0, 2, 2, 2}, {"with 1 named", 1, 2, 2, 3}, {"with 2 named", 2, 0, 2, 3}, {"by default", BY_DEFAULT, 2, 2, 3}};
    uint8_t packet[64];
    size_t packet_length = make_x(packet);
    packet[0] = 0xc1;
    for (unsigned i = 0; i < sizeof namings / sizeof *namings; i++) {
        char what[32];
        sprintf(what, "P5 to P7 %s", namings[i].what);
        if (namings[i].p5 == 0)
            expect_reading_naming(namings[i].named, what, packet, packet_length, 0, 0x81000000, 0, (const uint8_t *)"x", 1);
        else
            expect_refused_naming(namings[i].named, what, packet, packet_length, namings[i].p5, 0);
        expect_refused_naming(namings[i].named, what, (const uint8_t *)"\x40\x00\x04\xda", 4, namings[i].p6, 0);
        expect_refused_naming(namings[i].named, what, (const uint8_t *)"\x00\x00\x00\x00", 4, namings[i].p7, 0);
    }
}

/* With no bit to mend only a header as it was sent will do: neither the parity bit nor any other may be wrong. */
static void none_to_mend(void)
{
    uint8_t packet[64];
    size_t packet_length = make_x(packet);
    expect_reading_naming(0, "none to mend", packet, packet_length, 0, 0, 0, (const uint8_t *)"x", 1);
    for (unsigned bit = 0; bit < 32; bit++) {
        char what[32];
        sprintf(what, "none to mend, bit %u wrong", bit);
        packet[bit / 8] ^= 0x80 >> bit % 8;
        expect_refused_naming(0, what, packet, packet_length, 2, 0);
        expect_reading_naming(1, what, packet, packet_length, 0, 0x80000000 >> bit, 0, (const uint8_t *)"x", 1);
        packet[bit / 8] ^= 0x80 >> bit % 8;
    }
}

/* The masks of headers near that of P2. */
static void masks(void)
{
    static const struct {
        const char *header;
        uint32_t mask;
    } rows[] = {{"\x40\x00\x04\xdd", 0},          {"\xc0\x00\x04\xdd", 0x80000000}, {"\x41\x00\x04\xdd", 0x01000000}, {"\xc1\x00\x04\xdd", 0x81000000},
                {"\x40\x80\x04\xdd", 0x00800000}, {"\x40\x00\x00\xdd", 0x00000400}, {"\x40\x80\x00\xdd", 0x00800400}, {"\x40\x00\x06\xdd", 0x00000200},
                {"\x40\x00\x04\xdc", 0x00000001}, {"\xc0\x00\x04\xdc", 0x80000001}};
    uint8_t packet[64];
    size_t packet_length = make_x(packet);
    for (unsigned i = 0; i < sizeof rows / sizeof *rows; i++) {
        char what[32];
        sprintf(what, "mask %08X", (unsigned)rows[i].mask);
        memcpy(packet, rows[i].header, 4);
        expect_reading_naming(2, what, packet, packet_length, 0, rows[i].mask, 0, (const uint8_t *)"x", 1);
    }
}

/* Each header bit wrong by itself, from the first on: the mask has this bit alone, which is one of its part. */
static void masks_of_each_bit(void)
{
    static const struct {
        uint32_t part;
        unsigned bits;
    } parts[] = {{ROSOPYAT_MASK_PARITY, 1}, {ROSOPYAT_MASK_TYPE, 2},    {ROSOPYAT_MASK_EXTENDED_TYPE, 3}, {ROSOPYAT_MASK_SYNC, 1},
                 {ROSOPYAT_MASK_SPARE, 1},  {ROSOPYAT_MASK_LENGTH, 14}, {ROSOPYAT_MASK_CHECK, 10}};
    uint8_t packet[64], text[16];
    size_t packet_length = make_x(packet);
    unsigned bit = 0;
    for (unsigned i = 0; i < sizeof parts / sizeof *parts; i++)
        for (unsigned k = 0; k < parts[i].bits; k++, bit++) {
            char what[32];
            sprintf(what, "mask of bit %u", bit);
            packet[bit / 8] ^= 0x80 >> bit % 8;
            rosopyat_read_answer answer = rosopyat_read(false, packet, packet_length, text, sizeof text);
            expect(what, "mask", answer.mask, 0x80000000 >> bit);
            expect(what, "mask in its part", answer.mask & parts[i].part, 0x80000000 >> bit);
            packet[bit / 8] ^= 0x80 >> bit % 8;
        }
    expect("mask", "bits", bit, 32);
}

/* All numbers of bits but three are refused, whatever their low bits say, before the packet or the room is looked at. */
static void too_many_bits(void)
{
    static const uint32_t above[] = {3, 4, 255, 256, 257, 258, 65536, 65537, 65538, 0x80000000, 0xffffffff};
    uint8_t packet[64];
    size_t packet_length = make_x(packet);
    for (unsigned i = 0; i < sizeof above / sizeof *above; i++) {
        char what[32];
        sprintf(what, "%u bits to mend", (unsigned)above[i]);
        expect_refused_naming(above[i], what, NULL, 0, 17, 0);
        for (size_t length = 0; length <= packet_length; length++)
            expect_refused_naming(above[i], what, packet, length, 17, 0);
        rosopyat_read_answer answer = rosopyat_read_mending(above[i], false, packet, packet_length, NULL, 0);
        expect(what, "refusal with no room", answer.refusal, 17);
        expect(what, "number with no room", answer.number, 0);
    }
    expect_refused_naming(2, "no bytes", NULL, 0, 1, 0);
}

static void value_63(void)
{
    expect_data("Q1", 1, "?", "\x80\xff", 2, 2);
    expect_normal("Q1", 1, "\x7f", "\x80\xff", 2, 2, "?");
    expect_data("Q2", 1, "~", "\x80\xfb", 2, 2);
    expect_uncoded("Q2", 1, ">", 0);
    expect_data("Q3", 1, "????????", "\x87\xff\xff\xff\xff\xff\xff", 7, 9);
}

static void numeric(void)
{
    const char *what = "Numeric";
    expect_data(what, 2, "0123456789 +,-./", "\x01\x23\x45\x67\x89\xab\xcd\xef", 8, 16);
    expect_data(what, 2, "#=E:\r\n", "\xbd\xdb\xdd\xee\xbb", 5, 10);
    expect_normal(what, 2, "1", "\x1a", 1, 2, "1 ");
    expect_data(what, 2, "1 ", "\x1a", 1, 2);
    expect_normal(what, 2, "1  ", "\x1a\xaa", 2, 4, "1   ");
    expect_normal(what, 2, "12+", "\x12\xba", 2, 4, "12+ ");
    expect_data(what, 2, "-5", "\xd5", 1, 2);
    /* a pair over two bytes; pairs are looked for from the front */
    expect_data(what, 2, "1:2", "\x1e\xe2", 2, 4);
    expect_normal(what, 2, "1\r\n", "\x1b\xba", 2, 4, "1\r\n ");
    expect_data(what, 2, "1\r\n+", "\x1b\xbb", 2, 4);
    expect_data(what, 2, "1#+", "\x1b\xdb", 2, 4);
    expect_data(what, 2, "#-,", "\xbd\xdc", 2, 4);
    expect_data(what, 2, ":.,", "\xee\xec", 2, 4);
    expect_data(what, 2, "+:-", "\xbe\xed", 2, 4);
    expect_data(what, 2, "::", "\xee\xee", 2, 4);
    /* line ends */
    expect_normal(what, 2, "\r", "\xbb", 1, 2, "\r\n");
    expect_normal(what, 2, "\n", "\xbb", 1, 2, "\r\n");
    expect_normal(what, 2, "\r\r\n", "\xbb\xbb", 2, 4, "\r\n\r\n");
    expect_normal(what, 2, "\n\r", "\xbb\xbb", 2, 4, "\r\n\r\n");
    expect_normal(what, 2, "\r\n\n", "\xbb\xbb", 2, 4, "\r\n\r\n");
    /* what has no code, or none where it stands */
    expect_uncoded(what, 2, "12e", 2);
    expect_uncoded(what, 2, "1;", 1);
    expect_uncoded(what, 2, "12\t", 2);
    expect_uncoded(what, 2, "++", 1);
    expect_uncoded(what, 2, "1-+", 2);
    expect_uncoded(what, 2, "5..", 2);
    expect_uncoded(what, 2, ".:", 1);
    expect_uncoded(what, 2, "+\r\n", 1);
    expect_uncoded(what, 2, "-\n", 1);
    expect_uncoded(what, 2, "+#", 1);
    expect_uncoded(what, 2, "+=", 1);
    expect_uncoded(what, 2, "-E", 1);
    expect_uncoded(what, 2, "#++", 2);
    expect_uncoded(what, 2, "-E;", 1);
    expect_uncoded(what, 2, ";-E", 0);
}

static void shef(void)
{
    const char *what = "SHEF";
    expect_data(what, 3, "1", "\x0f", 1, 1);
    expect_data(what, 3, "/", "\x7f", 1, 1);
    expect_data(what, 3, "A", "\x83", 1, 1);
    expect_data(what, 3, "AB", "\x82\x1f", 2, 2);
    expect_data(what, 3, "Z;", "\xe7\xef", 2, 2);
    expect_data(what, 3, "#=:E", "\xef\xcf\x64", 3, 4);
    expect_data(what, 3, "++--..", "\x5a\xda\xd7\x3b", 4, 6);
    expect_data(what, 3, "\r\n", "\xeb", 1, 1);
    expect_normal(what, 3, "\r", "\xeb", 1, 1, "\r\n");
    expect_normal(what, 3, "\n", "\xeb", 1, 1, "\r\n");
    expect_normal(what, 3, "\r\r\n", "\xeb\xaf", 2, 2, "\r\n\r\n");
    expect_normal(what, 3, "\n\r", "\xeb\xaf", 2, 2, "\r\n\r\n");
    expect_normal(what, 3, "\r\n\n", "\xeb\xaf", 2, 2, "\r\n\r\n");
    expect_uncoded(what, 3, "AbC", 1);
    expect_uncoded(what, 3, "1\t", 1);
    expect_uncoded(what, 3, "?", 0);
    expect_malformed(what, 3, "\xff", 1, 0, 0);
    expect_malformed(what, 3, "\xfb\xff", 2, 6, 1);
    expect_malformed(what, 3, "\x07\xff", 2, 5, 1);
}

/* Endings. A remainder of up to eight bits is bad where it is neither fill nor the start of a whole code; where a value is announced, also fill is. */

static bool bad_full_ascii(unsigned rest, unsigned width)
{
    bool all_ones = rest == (1u << width) - 1;
    if (rest >> (width - 1) == 0)
        return width < 6;
    return width < 7 ? !all_ones : width == 8 && rest >> 1 == 0x7f;
}

static bool bad_shef(unsigned rest, unsigned width)
{
    bool all_ones = rest == (1u << width) - 1;
    if (rest >> (width - 1) == 0)
        return width < 5;
    return width < 6 ? !all_ones : rest >> (width - 6) == 0x3f && !(all_ones && width < 8);
}

static bool bad_pseudo_binary(unsigned rest, unsigned width)
{
    if (width % 2 == 1) /* its codes have 6 and 8 bits */
        return false;
    return rest >> (width - 1) == 0 ? width < 6 : width < 8 && rest != (1u << width) - 1;
}

/* Closes a packet that ends in a bad remainder, which must be refused at its first bit, with all codes before it. */
static void expect_bad_ending(const char *what, unsigned format, uint8_t *packet, struct maker_bits *bits, unsigned rest, unsigned width)
{
    size_t bit = bits->bits;
    maker_put(bits, rest, width);
    expect(what, "bits over a byte", bits->bits % 8, 0);
    expect_refused(what, packet, maker_close(packet, MAKER_FLAG_OPEN | format << 2, bits->bits / 8), 7, bit, bits->codes);
}

static void full_ascii_ending(unsigned rest, unsigned width, bool far)
{
    uint8_t packet[ROSOPYAT_MOST_PACKET];
    struct maker_bits bits = {packet + 4, 0, 0};
    for (unsigned i = 0; far && i < 10; i++) {
        maker_code(&bits, 16 + i, 6);
        maker_code(&bits, 65 + i, 7);
        maker_code(&bits, 0x1fc | i % 4, 9);
    }
    while ((bits.bits + width) % 8 != 0)
        maker_code(&bits, 'A', 7);
    expect_bad_ending("ending of Full ASCII", 4, packet, &bits, rest, width);
}

static void shef_ending(unsigned rest, unsigned width, bool far)
{
    uint8_t packet[ROSOPYAT_MOST_PACKET];
    struct maker_bits bits = {packet + 4, 0, 0};
    for (unsigned i = 0; far && i < 13; i++) {
        maker_code(&bits, i, 5);
        maker_code(&bits, 0x32 + i, 6);
    }
    while ((bits.bits + width) % 8 != 0)
        maker_code(&bits, 0x0f, 5);
    expect_bad_ending("ending of SHEF", 3, packet, &bits, rest, width);
}

static void put_values(struct maker_bits *bits, unsigned announced, unsigned count)
{
    maker_code(bits, 0x80 | (announced - 1), 8);
    for (unsigned i = 0; i < count; i++)
        maker_code(bits, i * 5 % 64, 6);
}

static void indicator_ending(unsigned rest, unsigned width, bool far)
{
    uint8_t packet[ROSOPYAT_MOST_PACKET];
    struct maker_bits bits = {packet + 4, 0, 0};
    if (far)
        put_values(&bits, 41, 41);
    while ((bits.bits + width) % 8 != 0)
        maker_code(&bits, 0x1a, 6);
    expect_bad_ending("ending at an indicator", 1, packet, &bits, rest, width);
}

static void value_ending(unsigned rest, unsigned width, bool far)
{
    uint8_t packet[ROSOPYAT_MOST_PACKET];
    struct maker_bits bits = {packet + 4, 0, 0};
    unsigned count = width / 2 % 4 + (far ? 44 : 0);
    put_values(&bits, far ? 128 : count + 1, count);
    expect_bad_ending("ending within values", 1, packet, &bits, rest, width);
}

static void endings(void)
{
    unsigned full_ascii = 0, shef = 0, at_indicator = 0, within_values = 0;
    for (unsigned width = 0; width <= 8; width++)
        for (unsigned rest = 0; rest < 1u << width; rest++)
            for (int far = 0; far < 2; far++) {
                if (width > 0 && bad_full_ascii(rest, width))
                    full_ascii++, full_ascii_ending(rest, width, far);
                if (width > 0 && bad_shef(rest, width))
                    shef++, shef_ending(rest, width, far);
                if (width > 0 && bad_pseudo_binary(rest, width))
                    at_indicator++, indicator_ending(rest, width, far);
                if (width < 6 && width % 2 == 0)
                    within_values++, value_ending(rest, width, far);
            }
    expect("endings", "of Full ASCII", full_ascii, 2 * 90);
    expect("endings", "of SHEF", shef, 2 * 46);
    expect("endings", "at an indicator", at_indicator, 2 * 49);
    expect("endings", "within values", within_values, 2 * 21);
}

/* How many codes data has. */

static void expect_count(unsigned format, struct maker_bits *bits, unsigned character)
{
    static uint8_t text[2 * ROSOPYAT_MOST_DATA_1200];
    char what[64];
    size_t codes = bits->codes;
    sprintf(what, "%zu codes of format %u", codes, format);
    memset(text, character, codes);
    expect_reading(what, bits->data - 4, maker_close(bits->data - 4, MAKER_FLAG_OPEN | format << 2, maker_fill(bits)), format, codes, text, codes);
}

/* Codes of one character each, all of one width, before fill of every length that there is. */
static void fills(void)
{
    static const struct {
        unsigned format, code, width, character;
    } rows[] = {{1, 0x10, 6, '/'}, {3, 1, 5, '1'}, {3, 0x20, 6, 'A'}, {4, 1, 6, '!'}, {4, 'A', 7, 'A'}};
    for (unsigned i = 0; i < sizeof rows / sizeof *rows; i++)
        for (unsigned count = 1; count <= 16; count++) {
            uint8_t packet[64];
            struct maker_bits bits = {packet + 4, 0, 0};
            for (unsigned k = 0; k < count; k++)
                maker_code(&bits, rows[i].code, rows[i].width);
            expect_count(rows[i].format, &bits, rows[i].character);
        }
}

/* Zeros are the shortest codes, each of one character. As many as go into so many bytes, and what is left over is fill. */
static void most_codes_in(size_t data_length)
{
    static const struct {
        unsigned format, width, character;
    } rows[] = {{1, 6, ' '}, {2, 4, '0'}, {3, 5, '0'}, {4, 6, ' '}};
    const size_t most[] = {4 * data_length / 3, 2 * data_length, 8 * data_length / 5, 4 * data_length / 3};
    for (unsigned i = 0; i < 4; i++) {
        uint8_t packet[ROSOPYAT_MOST_PACKET_1200];
        struct maker_bits bits = {packet + 4, 0, 0};
        while (8 * data_length - bits.bits >= rows[i].width)
            maker_code(&bits, 0, rows[i].width);
        expect("most codes", "codes made", bits.codes, most[i]);
        expect_count(rows[i].format, &bits, rows[i].character);
    }
}

static void expect_most_codes(unsigned format, size_t data_length, size_t codes, const char *text)
{
    uint8_t packet[64] = {0};
    size_t packet_length = maker_close(packet, MAKER_FLAG_OPEN | format << 2, data_length);
    expect_reading("zeros", packet, packet_length, format, codes, (const uint8_t *)text, strlen(text));
}

static void most_codes(void)
{
    expect_most_codes(1, 3, 4, "    ");
    expect_most_codes(2, 1, 2, "00");
    expect_most_codes(3, 5, 8, "00000000");
    expect_most_codes(4, 3, 4, "    ");
    for (size_t data_length = 1; data_length <= 100; data_length++)
        most_codes_in(data_length);
    for (size_t data_length = 3990; data_length <= ROSOPYAT_MOST_DATA; data_length++)
        most_codes_in(data_length);
}

/* Three values announced, and fewer there: the indicator counts, and each value that is whole. */
static void values_missing(void)
{
    const char *what = "three values";
    expect_malformed(what, 1, "\x82", 1, 8, 1);
    expect_malformed(what, 1, "\x82\x07", 2, 14, 2);
    expect_malformed(what, 1, "\x02\x08\x1f", 3, 20, 3); /* a space before them */
    expect_malformed(what, 1, "\x82\x04\x2f", 3, 20, 3);
    expect_data(what, 1, "ABC", "\x82\x04\x20\xff", 4, 4);
}

/* What is refused without being malformed has no codes. */
static void refused_without_codes(void)
{
    static const struct {
        const char *data;
        size_t data_length, text_length;
    } rows[] = {{"x", 1, 1}, {"\x81\x04\x2f", 3, 2}, {"\x1e\xe2", 2, 3}, {"\x83", 1, 1}, {"\x83\xff", 2, 3}};
    for (unsigned format = 0; format < 5; format++) {
        uint8_t packet[64];
        memcpy(packet + 4, rows[format].data, rows[format].data_length);
        size_t packet_length = maker_close(packet, MAKER_FLAG_OPEN | format << 2, rows[format].data_length);
        rosopyat_read_answer answer = rosopyat_read(false, packet, packet_length, NULL, 0);
        expect("no room", "refusal", answer.refusal, 8);
        expect("no room", "number", answer.number, rows[format].text_length);
        expect("no room", "codes", answer.codes, 0);
        expect_refused("cut off", packet, packet_length - 1, 5, 0, 0);
        packet[packet_length - 1] ^= 1;
        expect_refused("checksum", packet, packet_length, 6, 0, 0);
    }
}

/* Sections, at 1200 bps. */

static uint8_t long_text[ROSOPYAT_MOST_TEXT_1200 + 16], long_packet[ROSOPYAT_MOST_PACKET_1200 + 64];

/* Bytes of which no two neighbouring sections have the same. */
static void put_long_text(size_t length)
{
    for (size_t i = 0; i < length; i++)
        long_text[i] = i * 7 + i / 251;
}

static size_t make_open(size_t data_length)
{
    put_long_text(data_length);
    memcpy(long_packet + 4, long_text, data_length);
    return maker_close(long_packet, MAKER_FLAG_OPEN, data_length);
}

static void expect_room_needed(const char *what, unsigned format, const uint8_t *text, size_t text_length, size_t room, size_t packet_length)
{
    static uint8_t packet[ROSOPYAT_MOST_PACKET_1200], before[ROSOPYAT_MOST_PACKET_1200];
    rosopyat_write_answer answer = rosopyat_write(rate_1200, format, false, text, text_length, packet, room);
    expect(what, "refusal", answer.refusal, 8);
    expect(what, "number", answer.number, packet_length);
    expect_bytes(what, packet, before, sizeof packet);
}

/* The length of the packet is added up here, and at 300 there is none of several sections. */
static void lengths_of_sections(void)
{
    static const struct {
        size_t data_length, packet_length;
    } rows[] = {{1, 7},       {3999, 4005},   {4000, 4006},   {4001, 4009},   {7999, 8007},   {8000, 8008},
                {8001, 8011}, {11999, 12009}, {12000, 12010}, {12001, 12013}, {15999, 16011}, {16000, 16012}};
    for (unsigned i = 0; i < sizeof rows / sizeof *rows; i++) {
        char what[64];
        size_t data_length = rows[i].data_length, packet_length = make_open(data_length);
        sprintf(what, "%zu data bytes", data_length);
        expect(what, "packet length", packet_length, rows[i].packet_length);
        for (unsigned rate = 0; rate < 2; rate++) {
            rate_1200 = rate;
            if (!rate_1200 && data_length > ROSOPYAT_MOST_DATA) {
                expect_refused(what, long_packet, packet_length, 4, 0, 0);
                expect_refused_naming(2, what, long_packet, packet_length, 4, 0);
                expect_not_written(what, 0, long_text, data_length, 11, 0);
                continue;
            }
            expect_reading(what, long_packet, packet_length, 0, 0, long_text, data_length);
            expect_reading_naming(0, what, long_packet, packet_length, 0, 0, 0, long_text, data_length);
            expect_writing(what, 0, long_text, data_length, long_packet, packet_length);
            for (size_t lacking = 1; lacking <= 8 && lacking < packet_length - 4; lacking++) {
                expect_refused(what, long_packet, packet_length - lacking, 5, 0, 0);
                expect_room_needed(what, 0, long_text, data_length, packet_length - lacking, packet_length);
            }
        }
    }
    rate_1200 = true;
    for (size_t data_length = 16001; data_length <= 16383; data_length += 191) {
        uint8_t packet[17000] = {0};
        size_t packet_length = maker_close(packet, MAKER_FLAG_OPEN, data_length);
        expect_refused("more than 16,000", packet, packet_length, 4, 0, 0);
        expect_refused("more than 16,000", packet, 4, 4, 0, 0);
        put_long_text(data_length);
        expect_not_written("more than 16,000", 0, long_text, data_length, 11, 0);
    }
    expect_refused("no data", (const uint8_t *)"\x40\x00\x03\xb4\xff\xff", 6, 4, 0, 0);
    rate_1200 = false;
}

/* The damage lies within one section's data, or within its checksum: that section's number, whatever header bits were flipped, and nothing handed out. */
static void expect_bad_section(size_t packet_length, size_t place, unsigned bytes, unsigned section)
{
    static const uint32_t flips[] = {0, 0x80000000, 0x00000001, 0x00400200};
    for (unsigned i = 0; i < sizeof flips / sizeof *flips; i++) {
        char what[64];
        sprintf(what, "section %u, %u bytes changed at %zu, bits %08X flipped", section, bytes, place, (unsigned)flips[i]);
        for (int k = 0; k < 4; k++)
            long_packet[k] ^= flips[i] >> (24 - 8 * k);
        expect_refused_naming(2, what, long_packet, packet_length, 6, section);
        if (__builtin_popcount(flips[i]) < 2)
            expect_refused(what, long_packet, packet_length, 6, section, 0);
        for (int k = 0; k < 4; k++)
            long_packet[k] ^= flips[i] >> (24 - 8 * k);
    }
}

static void damage_at(size_t packet_length, size_t place, unsigned bytes, unsigned section)
{
    static const uint8_t changes[][2] = {{0x01, 0x80}, {0xff, 0xff}, {0x80, 0x01}};
    for (unsigned i = 0; i < sizeof changes / sizeof *changes; i++) {
        for (unsigned k = 0; k < bytes; k++)
            long_packet[place + k] ^= changes[i][k];
        expect_bad_section(packet_length, place, bytes, section);
        for (unsigned k = 0; k < bytes; k++)
            long_packet[place + k] ^= changes[i][k];
    }
}

static void damaged_sections(void)
{
    static const size_t lengths[] = {4000, 4001, 4002, 8000, 12001, 16000};
    rate_1200 = true;
    for (unsigned i = 0; i < sizeof lengths / sizeof *lengths; i++) {
        size_t packet_length = make_open(lengths[i]);
        for (unsigned section = 0; section * 4000 < lengths[i]; section++) {
            size_t first = 4 + section * 4002, size = lengths[i] - section * 4000 < 4000 ? lengths[i] - section * 4000 : 4000;
            damage_at(packet_length, first, 1, section);
            damage_at(packet_length, first + size / 2, 1, section);
            damage_at(packet_length, first + size - 1, 1, section);
            if (size > 1) {
                damage_at(packet_length, first, 2, section);
                damage_at(packet_length, first + size - 2, 2, section);
            }
            damage_at(packet_length, first + size, 1, section);
            damage_at(packet_length, first + size + 1, 1, section);
            damage_at(packet_length, first + size, 2, section);
        }
    }
    /* of several the first */
    size_t packet_length = make_open(16000);
    for (unsigned section = 4; section-- > 0;) {
        long_packet[4 + section * 4002] ^= 1;
        expect_bad_section(packet_length, 4 + section * 4002, 1, section);
    }
    rate_1200 = false;
}

/* Codes of one character each, nearly to the end of the first section; then text whose code goes on over it, or whose codes do. */
static void over_the_end(void)
{
    static const struct {
        const char *what;
        unsigned format, code, width, character, count; /* each of the first, and how many they are */
        unsigned over[3], widths[3], codes;             /* those that stand over the end, and how many they are */
        const char *text;
    } rows[] = {
        {"a space over the end", 1, 0x10, 6, '/', 5333, {0x0f}, {6}, 1, "                "},
        {"values over the end", 1, 0x10, 6, '/', 5332, {0x81, 1, 2}, {8, 6, 6}, 3, "AB"},
        {"a pair over the end", 2, 1, 4, '1', 7999, {0xb, 0xd, 0x7}, {4, 4, 4}, 3, "#7"},
        {"a line end over the end", 2, 1, 4, '1', 7999, {0xb, 0xb, 0xb}, {4, 4, 4}, 3, "\r\n+"},
        {"a letter over the end", 3, 0x20, 6, 'A', 5333, {0x21}, {6}, 1, "B"},
        {"a line end over the end", 3, 0x20, 6, 'A', 5333, {0x3a}, {6}, 1, "\r\n"},
        {"a letter over the end", 4, 1, 6, '!', 5333, {'B'}, {7}, 1, "B"},
        {"CR LF over the end", 4, 1, 6, '!', 5333, {0x1ff}, {9}, 1, "\r\n"},
    };
    rate_1200 = true;
    for (unsigned i = 0; i < sizeof rows / sizeof *rows; i++) {
        struct maker_bits bits = {long_packet + 4, 0, 0};
        size_t text_length = rows[i].count + strlen(rows[i].text);
        for (unsigned k = 0; k < rows[i].count; k++)
            maker_code(&bits, rows[i].code, rows[i].width);
        expect(rows[i].what, "codes before the end", bits.bits < 32000, 1);
        for (unsigned k = 0; k < rows[i].codes; k++)
            maker_code(&bits, rows[i].over[k], rows[i].widths[k]);
        expect(rows[i].what, "bits behind the end", bits.bits > 32000, 1);
        memset(long_text, rows[i].character, rows[i].count);
        memcpy(long_text + rows[i].count, rows[i].text, strlen(rows[i].text));
        size_t packet_length = maker_close(long_packet, MAKER_FLAG_OPEN | rows[i].format << 2, maker_fill(&bits));
        expect_reading(rows[i].what, long_packet, packet_length, rows[i].format, bits.codes, long_text, text_length);
        if (rows[i].format != 1) /* where the writer has fuller runs */
            expect_writing(rows[i].what, rows[i].format, long_text, text_length, long_packet, packet_length);
    }
    rate_1200 = false;
}

/* Six ones of SHEF, and values that are missing: before the end of a section, over it, behind it. Bits are counted as if the data lay in one piece. */
static void malformed_over_the_end(void)
{
    rate_1200 = true;
    for (unsigned section = 1; section < 4; section++)
        for (unsigned over = 0; over < 12; over++) {
            struct maker_bits bits = {long_packet + 4, 0, 0};
            while (bits.bits + 5 < 32000 * section - 6 * over)
                maker_code(&bits, 1, 5);
            size_t bad = bits.bits;
            maker_put(&bits, 0x3f, 6);
            for (unsigned k = 0; k < 12; k++)
                maker_put(&bits, 0x5a, 8);
            size_t packet_length = maker_close(long_packet, MAKER_FLAG_OPEN | 3 << 2, maker_fill(&bits));
            expect_refused("six ones over the end", long_packet, packet_length, 7, bad, bits.codes);
            long_packet[packet_length - 1] ^= 1;
            expect_refused("and a bad section", long_packet, packet_length, 6, section, 0);

            bits = (struct maker_bits){long_packet + 4, 0, 0};
            while (bits.bits < 32000 * section - 6 * over)
                maker_code(&bits, 0x1f, 6);
            put_values(&bits, 128, over + 1);
            while (bits.bits % 8 != 4)
                maker_code(&bits, 63, 6);
            bad = bits.bits;
            packet_length = maker_close(long_packet, MAKER_FLAG_PSEUDO_BINARY, maker_fill(&bits));
            expect_refused("values missing", long_packet, packet_length, 7, bad, bits.codes);
        }
    rate_1200 = false;
}

/* The longest texts, and the most codes. */
static void longest_at_1200(void)
{
    rate_1200 = true;
    struct maker_bits bits = {long_packet + 4, 0, 0};
    while (bits.codes < 21333)
        maker_code(&bits, 0x1f, 6);
    size_t packet_length = maker_close(long_packet, MAKER_FLAG_PSEUDO_BINARY, maker_fill(&bits));
    memset(long_text, '/', sizeof long_text);
    expect("longest text", "packet length", packet_length, 16012);
    expect_reading("longest text", long_packet, packet_length, 1, 21333, long_text, 341328);
    expect_writing("longest text", 1, long_text, 341328, long_packet, packet_length);
    expect_not_written("a text too long", 1, long_text, 341329, 11, 0);
    rosopyat_read_answer answer = rosopyat_read(true, long_packet, packet_length, NULL, 0);
    expect("longest text", "refusal with no room", answer.refusal, 8);
    expect("longest text", "number with no room", answer.number, 341328);
    for (size_t data_length = 4000; data_length <= 16000; data_length += 4000) {
        most_codes_in(data_length - 1);
        most_codes_in(data_length);
        if (data_length < 16000)
            most_codes_in(data_length + 1);
    }
    rate_1200 = false;
}

/* Formats. All but five are refused, whatever their low bits say. */
static void formats(void)
{
    static const uint32_t above[] = {256, 257, 260, 65540, 0xffffffff};
    const uint8_t slash[] = "/";
    expect_data("format 0", 0, "/", "\x2f", 1, 0);
    expect_data("format 1", 1, "/", "\x43", 1, 1);
    expect_normal("format 2", 2, "/", "\xfa", 1, 2, "/ ");
    expect_data("format 3", 3, "/", "\x7f", 1, 1);
    expect_data("format 4", 4, "/", "\x3f", 1, 1);
    for (uint32_t format = 0; format < 16 + sizeof above / sizeof *above; format++) {
        uint32_t named = format < 16 ? format : above[format - 16];
        char what[32];
        sprintf(what, "format %u", (unsigned)named);
        if (named > 4)
            expect_not_written(what, named, slash, 1, 12, 0);
    }
}

/* The published packets and messages. */

static size_t hexadecimal(const char *from, uint8_t *to)
{
    size_t length = 0;
    unsigned value;
    while (isxdigit((unsigned char)from[0]) && sscanf(from, "%2x", &value) == 1) {
        to[length++] = value;
        from += 2;
    }
    return length;
}

static void published_packet(const char *title, uint8_t *packet, size_t packet_length, size_t codes, uint8_t *text, size_t text_length)
{
    unsigned format = packet[0] >> 2 & 7;
    if (format == 0) {
        text_length = packet_length - 6;
        memcpy(text, packet + 4, text_length);
    }
    if (format == 1) { /* value 63, printed as 3F in the tables, may be 7F in what is written */
        uint8_t other[4096];
        unsigned changed = 0;
        for (size_t i = 0; i < text_length; i++) {
            other[i] = text[i] == 0x3f ? 0x7f : text[i];
            changed += other[i] != text[i];
        }
        expect(title, "values 63", changed, 12);
        expect_writing(title, format, other, text_length, packet, packet_length);
    }
    if (format == 2) { /* 331 codes, and the space that makes them even */
        expect(title, "characters of the message", text_length, 317);
        expect_writing(title, format, text, text_length, packet, packet_length);
        text[text_length++] = ' ';
    }
    expect_reading_naming(2, title, packet, packet_length, format, 0, codes, text, text_length); /* an old recording */
    expect_reading(title, packet, packet_length, format, codes, text, text_length);
    expect_writing(title, format, text, text_length, packet, packet_length);
}

static bool has_code(unsigned format, unsigned character)
{
    if (format == 1)
        return character == ' ' || character == '/' || (character >= 63 && character <= 127);
    if (format == 2)
        return character < 128 && strchr("0123456789 +,-./\r\n#=:E", character) != NULL;
    if (format == 3)
        return character < 128 && strchr("0123456789 +,-./\r\n#=:;ABCDEFGHIJKLMNOPQRSTUVWXYZ", character) != NULL;
    return character == '\t' || character == '\r' || character == '\n' || (character >= 32 && character <= 126);
}

/* Where the first character without a code is, or `length`. (No message has a + - . in Numeric before what would make a pair with it.) */
static size_t first_uncoded(unsigned format, const uint8_t *text, size_t length)
{
    size_t i = 0;
    while (i < length && has_code(format, text[i]))
        i++;
    return i;
}

/* Whether two neighbours of Pseudo Binary may stand in one run. */
static bool one_kind(unsigned first, unsigned second)
{
    return first == second || (first >= 63 && second >= 63);
}

/* How many codes a message has: in Numeric two a byte, in Pseudo Binary one for each run and each value, in SHEF and Full ASCII one for each character, where
 * CR LF is one; the messages have no other line ends. */
static size_t codes_of(unsigned format, const uint8_t *text, size_t length, size_t data_length)
{
    size_t codes = 0, run = 0;
    if (format == 2)
        return 2 * data_length;
    for (size_t i = 0; i < length; i++) {
        bool value = text[i] >= 63;
        run = i > 0 && one_kind(text[i - 1], text[i]) ? run + 1 : 0;
        if (format == 1)
            codes += value + (run % (value ? 128 : 16) == 0);
        else
            codes += text[i] != '\n';
    }
    return codes;
}

/* The message beside a packet, in the formats that have codes for it, and read back. */
static unsigned published_message(const char *title, const uint8_t *text, size_t length)
{
    unsigned written = 0;
    for (unsigned format = 1; format <= 4; format++) {
        uint8_t packet[ROSOPYAT_MOST_PACKET], back[4096];
        size_t index = first_uncoded(format, text, length);
        if (index < length) {
            expect_not_written(title, format, text, length, 9, index);
            continue;
        }
        rosopyat_write_answer answer = rosopyat_write(false, format, false, text, length, packet, sizeof packet);
        expect(title, "refusal", answer.refusal, 0);
        memcpy(back, text, length);
        back[length] = ' ';
        expect_reading(title, packet, answer.length, format, codes_of(format, text, length, answer.length - 6), back, format == 2 ? length + 1 : length);
        written++;
    }
    return written;
}

static unsigned published(const char *path)
{
    static uint8_t packet[4096], text[4096];
    size_t packet_length = 0, text_length = 0, codes = 0;
    unsigned packets = 0, messages = 0;
    char line[256], title[256] = "";
    FILE *file = fopen(path, "r");
    if (!file) {
        perror(path);
        exit(2);
    }
    for (;;) {
        bool more = fgets(line, sizeof line, file);
        if (packet_length > 0 && (!more || line[0] == '#')) {
            if (text_length > 0)
                messages += published_message(title, text, text_length);
            published_packet(title, packet, packet_length, codes, text, text_length);
            packets++;
            packet_length = text_length = codes = 0;
        }
        if (!more)
            break;
        if (strncmp(line, "## ", 3) == 0) {
            line[strcspn(line, "\n")] = 0;
            strcpy(title, line + 3);
        } else if (strncmp(line, "packet ", 7) == 0)
            packet_length += hexadecimal(line + 7, packet + packet_length);
        else if (strncmp(line, "text ", 5) == 0)
            text_length += hexadecimal(line + 5, text + text_length);
        else if (strncmp(line, "codes ", 6) == 0)
            codes = strtoul(line + 6, NULL, 10);
    }
    fclose(file);
    expect("published", "messages written", messages, 10); /* all in Full ASCII, two in Pseudo Binary, two in SHEF, one in Numeric */
    return packets;
}

int main(int count, char **words)
{
    if (count != 2) {
        fprintf(stderr, "usage: edges FILE\n");
        return 2;
    }
    edges();
    wrong_headers();
    none_to_mend();
    masks();
    masks_of_each_bit();
    too_many_bits();
    value_63();
    numeric();
    shef();
    endings();
    fills();
    most_codes();
    values_missing();
    refused_without_codes();
    formats();
    lengths_of_sections();
    damaged_sections();
    over_the_end();
    malformed_over_the_end();
    longest_at_1200();
    for (unsigned rate = 2; rate-- > 0;) { /* a packet of one section is the same at both */
        rate_1200 = rate;
        expect("published", "packets", published(words[1]), 6);
    }
    printf("%u facts checked, %u wrong\n", checked, failed);
    return failed != 0;
}
