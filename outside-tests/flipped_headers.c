/* Every pattern of up to four flipped header bits, for one small packet in each format at 300 bps and one of two sections at 1200, through rosopyat.h: linked
 * once with the independent implementation under the library's names, and once with the library. What must come of a packet is known from its making. With no
 * more bits flipped than named it is read as it was sent, with as many mended as were flipped, and the mask is the pattern of these. With more it is refused
 * (2), without a mask, as long as the flipped and the named are at most four together: two valid headers differ in five bits or more. Beyond that nothing is
 * promised, and nothing is tried here. */
#include "maker.h"
#include "rosopyat.h"

#include <stdio.h>
#include <string.h>

enum { PACKETS = 6, MOST_DATA = 4001, MOST_PACKET = 4009, MOST_TEXT = 4002, BOUND = 4 };

static char two_sections[MOST_DATA + 1]; /* filled first of all */

/* Of each packet: the rate, the format, a sync bit, data, its text and how many codes it has. */
static const struct {
    bool rate_1200;
    unsigned format, sync;
    const char *data, *text;
    size_t codes;
} sent[PACKETS] = {{false, 0, 0, "7", "7", 0},
                   {false, 1, 1, "\x81\x04\x2f", "AB", 3},
                   {false, 2, 1, "\x1e\xe2", "1:2", 4},
                   {false, 3, 0, "\x83", "A", 1},
                   {false, 4, 1, "\x83\x0b", "AB", 2},
                   {true, 0, 1, two_sections, two_sections, 0}};
static uint8_t untouched[MOST_TEXT] = "????";

/* The ways to read: by naming 0, 1 or 2 bits, and by the default, which is 1. */
enum { BY_DEFAULT = 3, WAYS = 4 };
static const unsigned named[WAYS] = {0, 1, 2, 1};

static rosopyat_read_answer read_one_way(unsigned way, bool rate_1200, const uint8_t *packet, size_t packet_length, uint8_t *text, size_t text_room)
{
    if (way == BY_DEFAULT)
        return rosopyat_read(rate_1200, packet, packet_length, text, text_room);
    return rosopyat_read_mending(named[way], rate_1200, packet, packet_length, text, text_room);
}

static bool is_refused(rosopyat_read_answer answer, const uint8_t *text)
{
    return answer.refusal == ROSOPYAT_NO_HEADER && answer.number == 0 && answer.format == 0 && answer.sync == 0 && answer.mended == 0 && answer.mask == 0 &&
           answer.codes == 0 && answer.data_length == 0 && answer.text_length == 0 && answer.used == 0 && memcmp(text, untouched, MOST_TEXT) == 0;
}

static bool is_read(rosopyat_read_answer answer, const uint8_t *text, unsigned number, uint32_t pattern, unsigned flipped)
{
    size_t data_length = strlen(sent[number].data), text_length = strlen(sent[number].text);
    return answer.refusal == ROSOPYAT_ACCEPTED && answer.number == 0 && answer.format == sent[number].format && answer.sync == sent[number].sync &&
           answer.mended == flipped && answer.mask == pattern && answer.codes == sent[number].codes && answer.data_length == data_length &&
           answer.used == maker_length(data_length) && answer.text_length == text_length && memcmp(text, sent[number].text, text_length) == 0;
}

static unsigned as_sent, refused, wrong;

static void try_pattern(unsigned way, unsigned number, const uint8_t *packet, size_t packet_length, uint32_t pattern, unsigned flipped)
{
    uint8_t received[MOST_PACKET], text[MOST_TEXT];
    memcpy(received, packet, packet_length);
    memcpy(text, untouched, sizeof text);
    for (int i = 0; i < 4; i++)
        received[i] ^= pattern >> (24 - 8 * i);
    rosopyat_read_answer answer = read_one_way(way, sent[number].rate_1200, received, packet_length, text, sizeof text);
    bool readable = flipped <= named[way];
    as_sent += readable;
    refused += !readable;
    if (readable ? is_read(answer, text, number, pattern, flipped) : is_refused(answer, text))
        return;
    wrong++;
    printf("wrong: packet %u, bits %08X flipped, %u named%s: refusal %u, %u mended, mask %08X\n", number, (unsigned)pattern, named[way],
           way == BY_DEFAULT ? " by default" : "", (unsigned)answer.refusal, (unsigned)answer.mended, (unsigned)answer.mask);
}

/* The next larger number with as many ones. */
static uint64_t next_pattern(uint64_t pattern)
{
    uint64_t lowest = pattern & -pattern, raised = pattern + lowest;
    return raised | (pattern ^ raised) / lowest >> 2;
}

static void try_flipped(unsigned way, unsigned number, const uint8_t *packet, size_t packet_length, unsigned flipped)
{
    for (uint64_t pattern = (1u << flipped) - 1; pattern >> 32 == 0; pattern = next_pattern(pattern))
        try_pattern(way, number, packet, packet_length, pattern, flipped);
}

static void try_packet(unsigned number)
{
    uint8_t packet[MOST_PACKET];
    size_t data_length = strlen(sent[number].data);
    memcpy(packet + 4, sent[number].data, data_length);
    size_t packet_length = maker_close(packet, MAKER_FLAG_OPEN | sent[number].format << 2 | sent[number].sync << 1, data_length);
    for (unsigned way = 0; way < WAYS; way++) {
        try_pattern(way, number, packet, packet_length, 0, 0);
        for (unsigned flipped = 1; flipped + named[way] <= BOUND; flipped++)
            try_flipped(way, number, packet, packet_length, flipped);
    }
}

int main(void)
{
    const unsigned one = 32, two = 32 * 31 / 2, three = two * 30 / 3, four = three * 29 / 4;
    memset(two_sections, 'x', MOST_DATA);
    for (unsigned number = 0; number < PACKETS; number++)
        try_packet(number);
    printf("%u headers read as sent with the flipped bits for a mask, %u refused, %u wrong\n", as_sent, refused, wrong);
    return wrong != 0 || as_sent != PACKETS * (1 + 2 * (1 + one) + 1 + one + two) || refused != PACKETS * (one + two + three + four + 2 * (two + three));
}
