// Calls the library from C++: a text is written, read back and judged, also with two header bits flipped; and one of two sections, at 1200 bps. Packets of
// another maker are judged.
#include "rosopyat.h"

#include <string.h>

static bool two_sections()
{
    static uint8_t text[ROSOPYAT_MOST_DATA + 1], packet[ROSOPYAT_MOST_PACKET_1200], back[ROSOPYAT_MOST_TEXT_1200];
    memset(text, 'x', sizeof text);
    const rosopyat_write_answer written = rosopyat_write(true, ROSOPYAT_OPEN, false, text, sizeof text, packet, sizeof packet);
    const rosopyat_read_answer read = rosopyat_read(true, packet, written.length, back, sizeof back);
    return written.length == sizeof text + ROSOPYAT_OVERHEAD + 2 && read.used == written.length && read.text_length == sizeof text &&
           memcmp(text, back, sizeof text) == 0 && rosopyat_read(false, packet, written.length, back, sizeof back).refusal == ROSOPYAT_OTHER_LENGTH;
}

static bool other_makers()
{
    // two slashes by themselves, and fill or zeros behind them
    const uint8_t departing[] = {0xc4, 0x00, 0x0b, 0xee, 0x41, 0x0f, 0x1b, 0x5a}, malformed[] = {0xc4, 0x00, 0x0b, 0xee, 0x41, 0x00, 0xc6, 0x00};
    const rosopyat_judge_answer judged = rosopyat_judge(0, true, departing, sizeof departing);
    const rosopyat_judge_answer refused = rosopyat_judge(1, false, malformed, sizeof malformed);
    return judged.refusal == ROSOPYAT_ACCEPTED && judged.as_ours == 0 && judged.departs_at == 5 && judged.more == 1 &&
           refused.refusal == ROSOPYAT_MALFORMED && refused.number == 12 && refused.codes == 2;
}

int main()
{
    const uint8_t text[] = {'A', '/', '/'};
    uint8_t packet[ROSOPYAT_MOST_PACKET], back[sizeof text];
    const rosopyat_write_answer written = rosopyat_write(false, ROSOPYAT_PSEUDO_BINARY, true, text, sizeof text, packet, sizeof packet);
    const rosopyat_read_answer read = rosopyat_read(false, packet, written.length, back, sizeof back);
    const bool same = written.refusal == ROSOPYAT_ACCEPTED && read.refusal == ROSOPYAT_ACCEPTED && read.format == ROSOPYAT_PSEUDO_BINARY && read.sync == 1 &&
                      read.mask == 0 && read.codes == 3 && read.text_length == sizeof text && memcmp(text, back, sizeof text) == 0 &&
                      rosopyat_judge(0, false, packet, written.length).as_ours == 1;
    packet[0] ^= 0x81;
    const rosopyat_read_answer flipped = rosopyat_read_mending(2, false, packet, written.length, back, sizeof back);
    const bool mended = flipped.mended == 2 && flipped.mask == (ROSOPYAT_MASK_PARITY | ROSOPYAT_MASK_SPARE) &&
                        rosopyat_read_mending(3, false, packet, written.length, back, sizeof back).refusal == ROSOPYAT_TOO_MANY_BITS &&
                        rosopyat_read(false, packet, written.length, back, sizeof back).refusal == ROSOPYAT_NO_HEADER &&
                        rosopyat_judge(2, false, packet, written.length).as_ours == 1 &&
                        rosopyat_judge(1, false, packet, written.length).refusal == ROSOPYAT_NO_HEADER;
    return same && mended && two_sections() && other_makers() ? 0 : 1;
}
