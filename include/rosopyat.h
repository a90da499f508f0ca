/* Rosopyat: reads, writes and judges single-packet messages of the GOES DCS binary protocol. This file is the manual.
 *
 * A packet is a flag byte, three bytes of length and check, and the data in sections, each with two checksum bytes behind it. Every section but the last
 * has 4,000 data bytes, and none is empty. The caller says at which rate the message is sent, by `rate_1200`:
 *   - at 300 bps (false) a packet has 1 to 4,000 data bytes, which are one section: 7 to 4,006 bytes;
 *   - at 1200 bps (true) it has 1 to 16,000 data bytes in one to four sections: 7 to 16,012 bytes, which are 4, the data's length, and 2 for each section.
 * Up to 4,000 data bytes a packet is the same at both rates, and so are the answers. Each checksum is that of its own section alone, but the data is one row of
 * bits: a run or a code may go on over the end of a section.
 *
 * The data is a text in one of five formats (rosopyat_format). All functions answer a struct: `refusal` is 0 when the call succeeded, and else one of
 * rosopyat_refusal, with `number` and `codes` saying more where the refusal says so. Every other member of a refused answer is 0, and no byte of the lent
 * buffer has changed.
 *
 *     uint8_t packet[ROSOPYAT_MOST_PACKET];
 *     static uint8_t text[ROSOPYAT_MOST_TEXT];
 *     rosopyat_write_answer written = rosopyat_write(false, ROSOPYAT_FULL_ASCII, false, (const uint8_t *)"1.23 m", 6, packet, sizeof packet);
 *     if (written.refusal == ROSOPYAT_ACCEPTED) {
 *         rosopyat_read_answer read = rosopyat_read(false, packet, written.length, text, sizeof text);
 *         if (read.refusal == ROSOPYAT_ACCEPTED)
 *             fwrite(text, 1, read.text_length, stdout);
 *     }
 *
 * examples/read_file.c and examples/write_file.c are whole programs. A text is bytes with a length: no zero ends it, and a zero byte is a character like
 * any other, which Open alone can carry.
 *
 * What a caller keeps to:
 *   - a pointer leads to as many bytes as the length beside it says; where that length is 0 any pointer will do, NULL too;
 *   - the two buffers of one call do not overlap.
 * Whatever else is handed over gets an answer: any bytes, any lengths, any number for a format or of bits to mend.
 *
 * Nothing is allocated, kept or shared between calls: any number of threads may call at once, on buffers of their own. The reader joins
 * sections on the stack, at 1200 and for a packet of two or more, in 16,000 bytes; each call reserves them, so that one takes 17.5 KB of stack. A call of
 * rosopyat_judge has text and data on the stack and takes 391 KB of it, at either rate; rosopyat_write takes less than 1 KB.
 * Link with librosopyat_c.a (x86-64), which needs memcpy and memset and nothing else of the C library. A logger that only sends links librosopyat_logger.a instead: it has
 * rosopyat_write alone and needs nothing of the C library. Its code has 13,793 bytes, its one constant table 32, and the operands that vector instructions take
 * from memory 1,232; a call takes 176 bytes of stack.
 */
#ifndef ROSOPYAT_H
#define ROSOPYAT_H

#include <stddef.h>
#include <stdint.h>
#ifndef __cplusplus
#include <stdbool.h>
#endif

#ifdef __cplusplus
extern "C" {
#endif

enum {
    ROSOPYAT_OVERHEAD = 6, /* header and checksum of one section; each further section has a checksum of 2 */
    /* at 300 bps */
    ROSOPYAT_MOST_DATA = 4000,   /* data bytes of a packet */
    ROSOPYAT_MOST_PACKET = 4006, /* a packet buffer of this size is never too short */
    ROSOPYAT_MOST_TEXT = 85328,  /* a text buffer of this size is never too short (5,333 runs of 16); 10,666 is enough but for Pseudo Binary */
    /* the same at 1200 bps; of text 42,666 is enough but for Pseudo Binary (21,333 runs of 16) */
    ROSOPYAT_MOST_DATA_1200 = 16000,
    ROSOPYAT_MOST_PACKET_1200 = 16012,
    ROSOPYAT_MOST_TEXT_1200 = 341328
};

/* The formats, by their number in the flag byte. "Line end" is CR LF, CR or LF; CR with LF after it is one.
 *
 * What is written reads back character for character, but for three things, and what was read back so reads back unchanged:
 *   - in Pseudo Binary 3F (the question mark) and 7F are both sent as value 63, and read back as 3F;
 *   - in Numeric and SHEF each line end reads back as CR LF;
 *   - in Numeric, where two codes fill a byte, an odd number of codes is followed by that of a space: the text reads back with a space behind it.
 * So in Numeric and SHEF it may read back longer than it was written: at most twice as long, or by the space.
 * In Numeric some pairs of + - . stand for other characters. So a + or - may not have + - # = E or a line end after it, and a . may not have . or : after
 * it: that second character has no code there (refusal 9). Lower-case letters have no code in SHEF. */
enum rosopyat_format {
    ROSOPYAT_OPEN = 0,          /* the data bytes are the text: any bytes, 8 bits each */
    ROSOPYAT_PSEUDO_BINARY = 1, /* compacted: characters 63 to 127 (6 bits each, and 8 for a run of up to 128), space and slash (6 for a run of up to 16) */
    ROSOPYAT_NUMERIC = 2,       /* compacted: digits, space and + , - . / (4 bits), # = : E and line ends (8) */
    ROSOPYAT_SHEF = 3,          /* compacted: digits, space and + , - . / (5 bits), A to Z, # = : ; and line ends (6) */
    ROSOPYAT_FULL_ASCII = 4     /* compacted: characters 32 to 63 (6 bits), 64 to 126 (7), HT, CR, LF, and CR with LF after it (9) */
};

/* Why a call was refused. The tests are made in the order 17, then 1 to 8 for the reader, 17, then 1 to 7 where a packet is judged, and in the order 12, 10,
 * 9, 11, 8 for the writer; the first that matches answers. `number` is 0 unless a meaning stands here. */
enum rosopyat_refusal {
    ROSOPYAT_ACCEPTED = 0,
    /* the reader's */
    ROSOPYAT_TOO_MANY_BITS = 17, /* tested first of all: the number of header bits to mend is not one of 0 to 2 */
    ROSOPYAT_SHORT = 1,          /* fewer than 4 bytes */
    ROSOPYAT_NO_HEADER = 2,      /* no valid header within the named number of bits of the one received; one bit where none is named */
    ROSOPYAT_OTHER_TYPE = 3,     /* the header's type is none of the five formats, or its spare bit is 1 */
    ROSOPYAT_OTHER_LENGTH = 4,   /* the length is 0 or above 4,000; at 1200, 0 or above 16,000 */
    ROSOPYAT_CUT_OFF = 5,        /* fewer bytes than the packet has: the length and 6; at 1200, the length and 4 and 2 for each section */
    ROSOPYAT_CHECKSUM = 6,       /* a checksum is not that of its section; number: the first such section, from 0, which at 300 is the only one */
    ROSOPYAT_MALFORMED = 7,      /* number: the data bit at which the first unreadable indicator, value or code starts; codes: how many come before it.
                                  * Data bits count from 0 through all sections, without the checksums */
    /* both */
    ROSOPYAT_NO_ROOM = 8,        /* the buffer is too short; number: the characters of the text (reader), or the bytes of the packet (writer), which are
                                  * the fewest that any packet of that text in that format needs */
    /* the writer's */
    ROSOPYAT_NO_CODE = 9,        /* number: the index of the first character that has no code in the format, where it stands */
    ROSOPYAT_EMPTY = 10,         /* the text is empty */
    ROSOPYAT_TOO_LONG = 11,      /* the data would have more than 4,000 bytes; at 1200, more than 16,000: the text fits in no packet of that format,
                                  * whoever makes it */
    ROSOPYAT_OTHER_FORMAT = 12   /* the format is not one of 0 to 4 */
};

/* What the bits of the reader's `mask` are. It is the exclusive or of the received header, its four bytes as one number with the first byte highest, and the
 * valid header that this is read as: so the received header and the mask give the valid header back by exclusive or, and `mended` is the number of ones in
 * the mask. These are macros, since no enum of C99 can hold the first. */
#define ROSOPYAT_MASK_PARITY UINT32_C(0x80000000)        /* the flag's parity bit, which makes its ones odd */
#define ROSOPYAT_MASK_TYPE UINT32_C(0x60000000)          /* the flag's type */
#define ROSOPYAT_MASK_EXTENDED_TYPE UINT32_C(0x1C000000) /* the flag's extended type, which is the format */
#define ROSOPYAT_MASK_SYNC UINT32_C(0x02000000)          /* the flag's time sync bit */
#define ROSOPYAT_MASK_SPARE UINT32_C(0x01000000)         /* the flag's spare bit */
#define ROSOPYAT_MASK_LENGTH UINT32_C(0x00FFFC00)        /* the 14 bits of the data's length */
#define ROSOPYAT_MASK_CHECK UINT32_C(0x000003FF)         /* the ten check bits */

/* What `codes` is at most, rounded down:
 *   of data bytes               n      4,000   16,000
 *   Open                        0          0        0
 *   Pseudo Binary, Full ASCII   4n/3   5,333   21,333
 *   SHEF                        8n/5   6,400   25,600
 *   Numeric                     2n     8,000   32,000
 * So it is at most 8,000 in any packet at 300, and 32,000 at 1200. Each indicator, value and code is one, whatever it says: a run of 16 slashes, or CR with LF
 * after it in one code. */
typedef struct rosopyat_read_answer {
    uint32_t refusal;   /* enum rosopyat_refusal */
    size_t number;      /* what the refusal says, or 0 */
    uint32_t format;    /* enum rosopyat_format */
    uint32_t sync;      /* 1: time synchronised since the last transmission */
    uint32_t mended;    /* header bits that were put right: 0 up to the number named, or up to 1 where none is */
    uint32_t mask;      /* which ones: a 1 for each, by the ROSOPYAT_MASK_ names above */
    size_t codes;       /* indicators, values and codes that were read; 0 in Open. In a refusal, those before the bad place where it is 7, and else 0 */
    size_t data_length; /* 1 to 4,000; at 1200, 1 to 16,000: the data bytes of all sections */
    size_t text_length; /* bytes of `text` that were written */
    size_t used;        /* bytes of `packet` that belong to the packet: data_length and 6; at 1200, data_length and 4 and 2 for each section */
} rosopyat_read_answer;

typedef struct rosopyat_write_answer {
    uint32_t refusal; /* enum rosopyat_refusal */
    size_t number;    /* what the refusal says, or 0 */
    size_t length;    /* bytes of `packet` that were written */
} rosopyat_write_answer;

/* How a packet's data compares with what rosopyat_write would have sent for the text that it carries, in its format. */
typedef struct rosopyat_judge_answer {
    uint32_t refusal;  /* enum rosopyat_refusal: the reader's, but 8 */
    size_t number;     /* what the refusal says, or 0 */
    size_t codes;      /* where the refusal is 7, the codes before the bad place; else 0 */
    uint32_t as_ours;  /* 1: the data bytes are just the writer's; 0: they are not, or the packet is refused */
    size_t departs_at; /* the first data bit that is not the writer's, which both have; 0 where as_ours is 1 or the packet is refused */
    size_t more;       /* data bytes more than the writer's; never fewer */
} rosopyat_judge_answer;

/* Reads the packet that starts at packet[0] and writes its text to text[0..text_length]. Bytes behind the packet are not looked at, and bytes of
 * `text` behind the text stay as they were. A `text_room` of 0 asks for the text's length (refusal 8). At most one wrong header bit is mended. */
rosopyat_read_answer rosopyat_read(bool rate_1200, const uint8_t *packet, size_t packet_length, uint8_t *text, size_t text_room);

/* The same, but that at most `mend` wrong header bits are mended: 0, 1 or 2. All its 32 bits count, so any other number is refused (17). With 1 it answers
 * just as rosopyat_read does. Which number to name:
 *   - 1 on a live channel, which brings noise too;
 *   - 2 for the replay of a weak recording that is known to hold packets;
 *   - 0 where no header is to be guessed at.
 * Of all 32-bit words of noise 1 in 2,048 is a valid header, 33 in 2,048 lie within one bit of one, but 529 in 2,048 within two: these would fill the list
 * of a live channel with packets that nobody sent. As long as the flipped header bits and the number named are at most four together, no packet is read as
 * another: with no more flipped bits than named its header is read as it was sent, with more it is refused (2). */
rosopyat_read_answer rosopyat_read_mending(uint32_t mend, bool rate_1200, const uint8_t *packet, size_t packet_length, uint8_t *text, size_t text_room);

/* Writes `text` as one packet to packet[0..length], in the fullest runs and the shortest codes. Bytes of `packet` behind it stay as they were.
 * A `packet_room` of 0 asks for the packet's length (refusal 8). `format` is one of rosopyat_format: all its 32 bits count, so any other number is
 * refused (12). */
rosopyat_write_answer rosopyat_write(bool rate_1200, uint32_t format, bool sync, const uint8_t *text, size_t text_length, uint8_t *packet,
                                     size_t packet_room);

/* Judges the packet that starts at packet[0], as the bench does with another maker's transmitter: is it merely legal, or are its runs and line ends cut just
 * as ours are? At most `mend` wrong header bits are mended: 0, 1 or 2. It is accepted where rosopyat_read_mending would read it, given room for its text, and
 * refused with that function's `refusal`, `number` and `codes` where it would not; refusal 8 does not occur. No buffer is asked for.
 *
 * Data bits count from 0 through all sections, without the checksums, the top bit of each byte first. A packet of rosopyat_write, judged at the rate that it
 * was written for, is as ours; so is every packet in Open, Numeric or SHEF, which leave a maker no choice. */
rosopyat_judge_answer rosopyat_judge(uint32_t mend, bool rate_1200, const uint8_t *packet, size_t packet_length);

#ifdef __cplusplus
}
#endif

#endif
