/* Holds the library to the independent implementation, on cases that are made from a seed.
 *
 *     compare [COUNT [SEED [FIRST [judging]]]]
 *
 * Each case depends on the seed and its own number only, so `outside-tests/compare/run 1 SEED FIRST` repeats one. A difference in any member of an
 * answer or any byte of a buffer, a byte changed outside of what the answer allows, a read or write past a buffer's end, a mask that does not lead from the
 * received header to a valid one by as many bits as were mended, more codes than the data can have, an answer other than the one known from how the packet
 * was made, or another at the other rate where both have the same ends the run with status 1. So does, in a run of MEANT_CASES or more, an outcome that never
 * occurred, of the list below, of an answer in a format at a rate or of a header bit mended.
 *
 * When all cases are through, their packets are made once more and judged: those that were read, and those that the library wrote. So a wrong reader or writer
 * is told by what is known of reading and writing, and not by the judging of what it read or wrote. The word `judging` has them judged alone, for wrong
 * versions that read and write as they should; then no outcome is asked for. */
#define _GNU_SOURCE
#include "independent.h"
#include "maker.h"
#include "rosopyat.h"

#include <inttypes.h>
#include <signal.h>
#include <stdio.h>
#include <stdlib.h>
#include <string.h>
#include <sys/mman.h>
#include <time.h>
#include <unistd.h>

enum { MEANT_CASES = 30000, GUARD = 32, REGION = 104 * 4096, LONG_TEXT = 400000, LONG_TAIL = 8192, MOST_MENDED = 2, MOST_FLIPPED = 4 };

/* Random numbers: one row for each case. */

static uint64_t seed, case_number, state;

static uint64_t random_64(void)
{
    uint64_t z = state += 0x9e3779b97f4a7c15;
    z = (z ^ z >> 30) * 0xbf58476d1ce4e5b9;
    z = (z ^ z >> 27) * 0x94d049bb133111eb;
    return z ^ z >> 31;
}

static unsigned below(unsigned limit)
{
    return (random_64() >> 32) * limit >> 32;
}

static unsigned between(unsigned low, unsigned high)
{
    return low + below(high - low + 1);
}

static bool chance(unsigned percent)
{
    return below(100) < percent;
}

static void random_bytes(uint8_t *to, size_t length)
{
    for (; length >= 8; to += 8, length -= 8)
        memcpy(to, &(uint64_t){random_64()}, 8);
    memcpy(to, &(uint64_t){random_64()}, length);
}

/* The rate of a case, and the most data bytes at a rate. */

enum { RATES = 2, SECTION = MAKER_SECTION, MOST_SECTIONS = 4 };

static bool rate_1200;

static size_t most_data(bool at_1200)
{
    return at_1200 ? ROSOPYAT_MOST_DATA_1200 : ROSOPYAT_MOST_DATA;
}

static size_t most_text(bool at_1200)
{
    return at_1200 ? ROSOPYAT_MOST_TEXT_1200 : ROSOPYAT_MOST_TEXT;
}

/* The lengths right around the end of each section, from 3,999 on. */

enum { LENGTHS = 3 * MOST_SECTIONS - 1 };

static size_t length_at(unsigned i)
{
    return (i / 3 + 1) * SECTION - 1 + i % 3;
}

/* Outcomes. */

enum outcome {
    READ_REFUSED, /* and its number, up to 17 */
    TOO_MANY_SHORT = READ_REFUSED + 18,
    TOO_MANY_LOW_8_OURS,
    TOO_MANY_LOW_16_OURS,
    MENDED_0,
    MENDED_1,
    MENDED_2,
    MENDED_NAMED, /* and three times the number named, and the number mended */
    MENDED_BY_DEFAULT = MENDED_NAMED + 9, /* and the number mended */
    READ_SYNC_0 = MENDED_BY_DEFAULT + 2,
    READ_SYNC_1,
    READ_DATA_1, /* and 1 at 1200, as wherever a rate is added */
    READ_DATA_4000 = READ_DATA_1 + RATES,
    READ_LENGTH_1200, /* and which of the lengths around the ends of sections */
    READ_LONGEST = READ_LENGTH_1200 + LENGTHS, /* and the rate */
    READ_LONGEST_NUMERIC = READ_LONGEST + RATES, /* and the rate */
    READ_LONGEST_SHEF = READ_LONGEST_NUMERIC + RATES, /* and the rate */
    READ_MOST_CODES = READ_LONGEST_SHEF + RATES, /* and five times the rate, and the format */
    READ_ROOM_EXACT = READ_MOST_CODES + 5 * RATES,
    READ_ROOM_ONE_MORE,
    READ_TRAILING,
    READ_LONG_TAIL,
    MADE_AND_READ,
    MADE_VALUE_63,
    SAME_AT_BOTH_RATES,
    AGAIN_SHORTER,
    AGAIN_AS_LONG,
    OTHER_LENGTH, /* and the rate: one more than the most data bytes in the header */
    TOO_LONG_FOR_300 = OTHER_LENGTH + RATES,
    CUT_OFF, /* and the rate */
    CUT_OFF_CHECKSUMS = CUT_OFF + RATES,
    MADE_MALFORMED, /* and the format */
    MADE_MALFORMED_MOST_CODES = MADE_MALFORMED + 5, /* and the format */
    MALFORMED_IN_SECTION = MADE_MALFORMED_MOST_CODES + 5, /* and its number */
    MALFORMED_OVER_END = MALFORMED_IN_SECTION + MOST_SECTIONS,
    DAMAGED, /* at 300, and its kind */
    DAMAGED_SECTION = DAMAGED + 4, /* at 1200, and four times the section's number, and its kind */
    DAMAGED_SECTIONS = DAMAGED_SECTION + 4 * MOST_SECTIONS,
    DAMAGED_MENDED, /* and three times the rate, and the header bits flipped beside it */
    NO_ROOM_ONE_SHORT = DAMAGED_MENDED + 3 * RATES,
    FLIPPED_NAMED, /* and five times the number named, and the header bits flipped */
    FLIPPED_BY_DEFAULT = FLIPPED_NAMED + 15, /* and the header bits flipped */
    WRITE_REFUSED = FLIPPED_BY_DEFAULT + 5, /* and its number, 8 to 12 */
    WRITE_LOW_8_OURS = WRITE_REFUSED + 13,
    WRITE_LOW_16_OURS,
    WRITE_NO_PAIR,
    WRITE_NO_3E,
    WRITE_ONLY_AT_1200,
    WRITE_SYNC_1,
    WRITE_DATA_4000,
    WRITE_LENGTH_1200, /* and which of the lengths around the ends of sections */
    WRITE_LONG_TEXT = WRITE_LENGTH_1200 + LENGTHS, /* and the rate */
    WRITE_ROOM_EXACT = WRITE_LONG_TEXT + RATES,
    WRITTEN_AND_READ,
    WRITTEN_SPACE,
    WRITTEN_LINE_END, /* and its kind: CR LF, CR alone, LF alone */
    WRITTEN_3F = WRITTEN_LINE_END + 3,
    WRITTEN_7F,
    WRITTEN_FIRST_63,
    WRITTEN_LAST_63,
    WRITE_ONE_SHORT,
    WRITE_SHORT_OF_CHECKSUMS,
    JUDGE_REFUSED, /* and its number, up to 17 */
    JUDGED_AS_OURS = JUDGE_REFUSED + 18, /* and five times the rate, and the format */
    JUDGED_DEPARTS = JUDGED_AS_OURS + 5 * RATES, /* and twice the format, and ten times the rate, and 1 where there are data bytes more */
    JUDGED_SECTIONS = JUDGED_DEPARTS + 2 * 5 * RATES, /* several of them, and twice the format, and 1 where it departs */
    JUDGED_DEPARTS_IN_SECTION = JUDGED_SECTIONS + 2 * 5, /* of several, and its number */
    JUDGED_DEPARTS_LAST = JUDGED_DEPARTS_IN_SECTION + MOST_SECTIONS,
    JUDGED_MENDED, /* and 1 where it departs, and twice the header bits flipped */
    JUDGED_TRAILING = JUDGED_MENDED + 2 * 3, /* and 1 where it departs, as in what follows */
    JUDGED_AT_BOTH_RATES = JUDGED_TRAILING + 2,
    JUDGED_UNKNOWN = JUDGED_AT_BOTH_RATES + 2,
    JUDGED_AS_MADE = JUDGED_UNKNOWN + 2,
    JUDGED_CUT = JUDGED_AS_MADE + 2, /* and the kind of what was cut, as in `indicators`, or LINE_END */
    JUDGED_WRITTEN = JUDGED_CUT + 4, /* and the header bits flipped */
    JUDGED_WRITTEN_SECTIONS = JUDGED_WRITTEN + 3,
    OUTCOMES
};

static const char *const outcome_name[OUTCOMES] = {
    [READ_REFUSED + 1] = "reader refused 1, fewer than 4 bytes",
    [READ_REFUSED + 2] = "reader refused 2, no valid header",
    [READ_REFUSED + 3] = "reader refused 3, type or spare bit",
    [READ_REFUSED + 4] = "reader refused 4, length",
    [READ_REFUSED + 5] = "reader refused 5, cut short",
    [READ_REFUSED + 6] = "reader refused 6, checksum",
    [READ_REFUSED + 7] = "reader refused 7, malformed",
    [READ_REFUSED + 8] = "reader refused 8, no room",
    [READ_REFUSED + 17] = "reader refused 17, too many bits",
    [TOO_MANY_SHORT] = "  with a packet of fewer than 4 bytes",
    [TOO_MANY_LOW_8_OURS] = "  whose low 8 bits may be named",
    [TOO_MANY_LOW_16_OURS] = "  whose low 16 bits may be named",
    [MENDED_0] = "reader accepted, with 0 bits mended",
    [MENDED_1] = "  with 1 bit mended",
    [MENDED_2] = "  with 2 bits mended",
    [MENDED_NAMED + 0] = "  with 0 bits named and 0 mended",
    [MENDED_NAMED + 3] = "  with 1 bit named and 0 mended",
    [MENDED_NAMED + 4] = "  with 1 bit named and 1 mended",
    [MENDED_NAMED + 6] = "  with 2 bits named and 0 mended",
    [MENDED_NAMED + 7] = "  with 2 bits named and 1 mended",
    [MENDED_NAMED + 8] = "  with 2 bits named and 2 mended",
    [MENDED_BY_DEFAULT + 0] = "  by default and 0 mended",
    [MENDED_BY_DEFAULT + 1] = "  by default and 1 mended",
    [READ_SYNC_0] = "  with sync 0",
    [READ_SYNC_1] = "  with sync 1",
    [READ_DATA_1 + 0] = "  with 1 data byte",
    [READ_DATA_1 + 1] = "  with 1 data byte at 1200",
    [READ_DATA_4000] = "  with 4,000 data bytes",
    [READ_LENGTH_1200 + 0] = "  with 3,999 data bytes at 1200",
    [READ_LENGTH_1200 + 1] = "  with 4,000 data bytes at 1200",
    [READ_LENGTH_1200 + 2] = "  with 4,001 data bytes at 1200",
    [READ_LENGTH_1200 + 3] = "  with 7,999 data bytes at 1200",
    [READ_LENGTH_1200 + 4] = "  with 8,000 data bytes at 1200",
    [READ_LENGTH_1200 + 5] = "  with 8,001 data bytes at 1200",
    [READ_LENGTH_1200 + 6] = "  with 11,999 data bytes at 1200",
    [READ_LENGTH_1200 + 7] = "  with 12,000 data bytes at 1200",
    [READ_LENGTH_1200 + 8] = "  with 12,001 data bytes at 1200",
    [READ_LENGTH_1200 + 9] = "  with 15,999 data bytes at 1200",
    [READ_LENGTH_1200 + 10] = "  with 16,000 data bytes at 1200",
    [READ_LONGEST + 0] = "  with 85,328 characters",
    [READ_LONGEST + 1] = "  with 341,328 characters at 1200",
    [READ_LONGEST_NUMERIC + 0] = "  with 8,000 characters of Compact Numeric",
    [READ_LONGEST_NUMERIC + 1] = "  with 32,000 characters of Compact Numeric at 1200",
    [READ_LONGEST_SHEF + 0] = "  with 10,666 characters of Compact SHEF",
    [READ_LONGEST_SHEF + 1] = "  with 42,666 characters of Compact SHEF at 1200",
    [READ_MOST_CODES + 1] = "  with 5,333 codes of Compact Pseudo Binary",
    [READ_MOST_CODES + 2] = "  with 8,000 codes of Compact Numeric",
    [READ_MOST_CODES + 3] = "  with 6,400 codes of Compact SHEF",
    [READ_MOST_CODES + 4] = "  with 5,333 codes of Compact Full ASCII",
    [READ_MOST_CODES + 6] = "  with 21,333 codes of Compact Pseudo Binary at 1200",
    [READ_MOST_CODES + 7] = "  with 32,000 codes of Compact Numeric at 1200",
    [READ_MOST_CODES + 8] = "  with 25,600 codes of Compact SHEF at 1200",
    [READ_MOST_CODES + 9] = "  with 21,333 codes of Compact Full ASCII at 1200",
    [READ_ROOM_EXACT] = "  with exactly the room needed",
    [READ_ROOM_ONE_MORE] = "  with one byte more room",
    [READ_TRAILING] = "  with bytes behind the packet",
    [READ_LONG_TAIL] = "  with more than 4,000 bytes behind the packet",
    [MADE_AND_READ] = "  and read as made",
    [MADE_VALUE_63] = "    with a value 63 (Compact Pseudo Binary)",
    [SAME_AT_BOTH_RATES] = "answered alike at both rates, with at most 4,000 data bytes",
    [AGAIN_SHORTER] = "read, and written again in fewer bytes",
    [AGAIN_AS_LONG] = "read, and written again in as many bytes",
    [OTHER_LENGTH + 0] = "refused 4 for a length of 4,001",
    [OTHER_LENGTH + 1] = "refused 4 for a length of 16,001 at 1200",
    [TOO_LONG_FOR_300] = "refused 4 for several sections at 300",
    [CUT_OFF + 0] = "refused 5 as cut",
    [CUT_OFF + 1] = "refused 5 as cut at 1200",
    [CUT_OFF_CHECKSUMS] = "  with 6 bytes more than the length, or more",
    [MADE_MALFORMED + 1] = "refused 7 as made, Compact Pseudo Binary",
    [MADE_MALFORMED + 3] = "refused 7 as made, Compact SHEF",
    [MADE_MALFORMED + 4] = "refused 7 as made, Compact Full ASCII",
    [MADE_MALFORMED_MOST_CODES + 1] = "  with as many codes as the data can have, Compact Pseudo Binary",
    [MADE_MALFORMED_MOST_CODES + 3] = "  with as many codes as the data can have, Compact SHEF",
    [MADE_MALFORMED_MOST_CODES + 4] = "  with as many codes as the data can have, Compact Full ASCII",
    [MALFORMED_IN_SECTION + 0] = "refused 7 as made at 1200, for a place in section 0",
    [MALFORMED_IN_SECTION + 1] = "refused 7 as made at 1200, for a place in section 1",
    [MALFORMED_IN_SECTION + 2] = "refused 7 as made at 1200, for a place in section 2",
    [MALFORMED_IN_SECTION + 3] = "refused 7 as made at 1200, for a place in section 3",
    [MALFORMED_OVER_END] = "  with data behind it in the next section",
    [DAMAGED + 0] = "refused 6 for a data byte changed",
    [DAMAGED + 1] = "refused 6 for two neighbouring data bytes changed",
    [DAMAGED + 2] = "refused 6 for a checksum byte changed",
    [DAMAGED + 3] = "refused 6 for both checksum bytes changed",
    [DAMAGED_SECTION + 0] = "refused 6 at 1200, with section 0 for a data byte changed",
    [DAMAGED_SECTION + 1] = "refused 6 at 1200, with section 0 for two neighbouring data bytes changed",
    [DAMAGED_SECTION + 2] = "refused 6 at 1200, with section 0 for a checksum byte changed",
    [DAMAGED_SECTION + 3] = "refused 6 at 1200, with section 0 for both checksum bytes changed",
    [DAMAGED_SECTION + 4] = "refused 6 at 1200, with section 1 for a data byte changed",
    [DAMAGED_SECTION + 5] = "refused 6 at 1200, with section 1 for two neighbouring data bytes changed",
    [DAMAGED_SECTION + 6] = "refused 6 at 1200, with section 1 for a checksum byte changed",
    [DAMAGED_SECTION + 7] = "refused 6 at 1200, with section 1 for both checksum bytes changed",
    [DAMAGED_SECTION + 8] = "refused 6 at 1200, with section 2 for a data byte changed",
    [DAMAGED_SECTION + 9] = "refused 6 at 1200, with section 2 for two neighbouring data bytes changed",
    [DAMAGED_SECTION + 10] = "refused 6 at 1200, with section 2 for a checksum byte changed",
    [DAMAGED_SECTION + 11] = "refused 6 at 1200, with section 2 for both checksum bytes changed",
    [DAMAGED_SECTION + 12] = "refused 6 at 1200, with section 3 for a data byte changed",
    [DAMAGED_SECTION + 13] = "refused 6 at 1200, with section 3 for two neighbouring data bytes changed",
    [DAMAGED_SECTION + 14] = "refused 6 at 1200, with section 3 for a checksum byte changed",
    [DAMAGED_SECTION + 15] = "refused 6 at 1200, with section 3 for both checksum bytes changed",
    [DAMAGED_SECTIONS] = "  and other sections behind it",
    [DAMAGED_MENDED + 0] = "  under a header as sent",
    [DAMAGED_MENDED + 1] = "  under a header with 1 bit flipped",
    [DAMAGED_MENDED + 2] = "  under a header with 2 bits flipped",
    [DAMAGED_MENDED + 3] = "  under a header as sent at 1200",
    [DAMAGED_MENDED + 4] = "  under a header with 1 bit flipped at 1200",
    [DAMAGED_MENDED + 5] = "  under a header with 2 bits flipped at 1200",
    [NO_ROOM_ONE_SHORT] = "text buffer one byte too short",
    [FLIPPED_NAMED + 1] = "refused 2 with 0 bits named and 1 flipped",
    [FLIPPED_NAMED + 2] = "refused 2 with 0 bits named and 2 flipped",
    [FLIPPED_NAMED + 3] = "refused 2 with 0 bits named and 3 flipped",
    [FLIPPED_NAMED + 4] = "refused 2 with 0 bits named and 4 flipped",
    [FLIPPED_NAMED + 7] = "refused 2 with 1 bit named and 2 flipped",
    [FLIPPED_NAMED + 8] = "refused 2 with 1 bit named and 3 flipped",
    [FLIPPED_BY_DEFAULT + 2] = "refused 2 by default and 2 flipped",
    [FLIPPED_BY_DEFAULT + 3] = "refused 2 by default and 3 flipped",
    [FLIPPED_NAMED + 9] = "answered alike with 1 bit named and 4 flipped",
    [FLIPPED_NAMED + 13] = "answered alike with 2 bits named and 3 flipped",
    [FLIPPED_NAMED + 14] = "answered alike with 2 bits named and 4 flipped",
    [FLIPPED_BY_DEFAULT + 4] = "answered alike by default and 4 flipped",
    [WRITE_REFUSED + 8] = "writer refused 8, no room",
    [WRITE_REFUSED + 9] = "writer refused 9, no code",
    [WRITE_REFUSED + 10] = "writer refused 10, empty",
    [WRITE_REFUSED + 11] = "writer refused 11, too long",
    [WRITE_REFUSED + 12] = "writer refused 12, format",
    [WRITE_LOW_8_OURS] = "  whose low 8 bits are a format's number",
    [WRITE_LOW_16_OURS] = "  whose low 16 bits are a format's number",
    [WRITE_NO_PAIR] = "writer refused 9, a pair of Compact Numeric",
    [WRITE_NO_3E] = "writer refused 9, 3E in Compact Pseudo Binary",
    [WRITE_ONLY_AT_1200] = "writer refused 11 at 300, what has room at 1200",
    [WRITE_SYNC_1] = "writer accepted, with sync 1",
    [WRITE_DATA_4000] = "  with 4,000 data bytes",
    [WRITE_LENGTH_1200 + 1] = "  with 4,000 data bytes at 1200",
    [WRITE_LENGTH_1200 + 2] = "  with 4,001 data bytes at 1200",
    [WRITE_LENGTH_1200 + 4] = "  with 8,000 data bytes at 1200",
    [WRITE_LENGTH_1200 + 5] = "  with 8,001 data bytes at 1200",
    [WRITE_LENGTH_1200 + 7] = "  with 12,000 data bytes at 1200",
    [WRITE_LENGTH_1200 + 8] = "  with 12,001 data bytes at 1200",
    [WRITE_LENGTH_1200 + 10] = "  with 16,000 data bytes at 1200",
    [WRITE_LONG_TEXT + 0] = "  with more than 50,000 characters",
    [WRITE_LONG_TEXT + 1] = "  with more characters than a packet has at 300",
    [WRITE_ROOM_EXACT] = "  with exactly the room needed",
    [WRITTEN_AND_READ] = "  and read back as written",
    [WRITTEN_SPACE] = "  with a space behind it (Compact Numeric)",
    [WRITTEN_LINE_END + 0] = "line ends of CR LF written (Compact Numeric and SHEF)",
    [WRITTEN_LINE_END + 1] = "line ends of CR alone",
    [WRITTEN_LINE_END + 2] = "line ends of LF alone",
    [WRITTEN_3F] = "values 63 written as 3F (Compact Pseudo Binary)",
    [WRITTEN_7F] = "values 63 written as 7F",
    [WRITTEN_FIRST_63] = "  right behind a space or slash",
    [WRITTEN_LAST_63] = "  right before a space or slash",
    [WRITE_ONE_SHORT] = "packet buffer one byte too short",
    [WRITE_SHORT_OF_CHECKSUMS] = "packet buffer of 6 bytes more than the data, or more, too short",
    [JUDGE_REFUSED + 1] = "judge refused 1, fewer than 4 bytes",
    [JUDGE_REFUSED + 2] = "judge refused 2, no valid header",
    [JUDGE_REFUSED + 3] = "judge refused 3, type or spare bit",
    [JUDGE_REFUSED + 4] = "judge refused 4, length",
    [JUDGE_REFUSED + 5] = "judge refused 5, cut short",
    [JUDGE_REFUSED + 6] = "judge refused 6, checksum",
    [JUDGE_REFUSED + 7] = "judge refused 7, malformed",
    [JUDGE_REFUSED + 17] = "judge refused 17, too many bits",
    [JUDGED_AS_OURS + 0] = "judged as ours, Open",
    [JUDGED_AS_OURS + 1] = "judged as ours, Compact Pseudo Binary",
    [JUDGED_AS_OURS + 2] = "judged as ours, Compact Numeric",
    [JUDGED_AS_OURS + 3] = "judged as ours, Compact SHEF",
    [JUDGED_AS_OURS + 4] = "judged as ours, Compact Full ASCII",
    [JUDGED_AS_OURS + 5] = "judged as ours, Open at 1200",
    [JUDGED_AS_OURS + 6] = "judged as ours, Compact Pseudo Binary at 1200",
    [JUDGED_AS_OURS + 7] = "judged as ours, Compact Numeric at 1200",
    [JUDGED_AS_OURS + 8] = "judged as ours, Compact SHEF at 1200",
    [JUDGED_AS_OURS + 9] = "judged as ours, Compact Full ASCII at 1200",
    /* a line end in two codes has nine bits more, and fill has seven at most: so there are data bytes more */
    [JUDGED_DEPARTS + 2] = "judged to depart, Compact Pseudo Binary with as many bytes",
    [JUDGED_DEPARTS + 3] = "judged to depart, Compact Pseudo Binary with more bytes",
    [JUDGED_DEPARTS + 9] = "judged to depart, Compact Full ASCII with more bytes",
    [JUDGED_DEPARTS + 12] = "judged to depart, Compact Pseudo Binary at 1200 with as many bytes",
    [JUDGED_DEPARTS + 13] = "judged to depart, Compact Pseudo Binary at 1200 with more bytes",
    [JUDGED_DEPARTS + 19] = "judged to depart, Compact Full ASCII at 1200 with more bytes",
    [JUDGED_SECTIONS + 0] = "judged as ours, Open in several sections",
    [JUDGED_SECTIONS + 2] = "judged as ours, Compact Pseudo Binary in several sections",
    [JUDGED_SECTIONS + 4] = "judged as ours, Compact Numeric in several sections",
    [JUDGED_SECTIONS + 6] = "judged as ours, Compact SHEF in several sections",
    [JUDGED_SECTIONS + 8] = "judged as ours, Compact Full ASCII in several sections",
    [JUDGED_SECTIONS + 3] = "judged to depart, Compact Pseudo Binary in several sections",
    [JUDGED_SECTIONS + 9] = "judged to depart, Compact Full ASCII in several sections",
    [JUDGED_DEPARTS_IN_SECTION + 0] = "  at a bit of section 0",
    [JUDGED_DEPARTS_IN_SECTION + 1] = "  at a bit of section 1",
    [JUDGED_DEPARTS_IN_SECTION + 2] = "  at a bit of section 2",
    [JUDGED_DEPARTS_IN_SECTION + 3] = "  at a bit of section 3",
    [JUDGED_DEPARTS_LAST] = "judged to depart in the last byte of ours",
    [JUDGED_MENDED + 0] = "judged as ours, under a header as sent",
    [JUDGED_MENDED + 2] = "judged as ours, under a header with 1 bit flipped",
    [JUDGED_MENDED + 4] = "judged as ours, under a header with 2 bits flipped",
    [JUDGED_MENDED + 1] = "judged to depart, under a header as sent",
    [JUDGED_MENDED + 3] = "judged to depart, under a header with 1 bit flipped",
    [JUDGED_MENDED + 5] = "judged to depart, under a header with 2 bits flipped",
    [JUDGED_TRAILING + 0] = "judged as ours, with bytes behind the packet",
    [JUDGED_TRAILING + 1] = "judged to depart, with bytes behind the packet",
    [JUDGED_AT_BOTH_RATES + 0] = "judged as ours at both rates",
    [JUDGED_AT_BOTH_RATES + 1] = "judged to depart at both rates",
    [JUDGED_UNKNOWN + 0] = "judged as ours, where no text is known from the making",
    [JUDGED_UNKNOWN + 1] = "judged to depart, where no text is known from the making",
    [JUDGED_AS_MADE + 0] = "judged as ours, as made",
    [JUDGED_AS_MADE + 1] = "judged to depart, as made",
    [JUDGED_CUT + 0] = "  at an indicator of spaces",
    [JUDGED_CUT + 1] = "  at an indicator of slashes",
    [JUDGED_CUT + 2] = "  at an indicator of values",
    [JUDGED_CUT + 3] = "  at a line end (Compact Full ASCII)",
    [JUDGED_WRITTEN + 0] = "judged as ours, what the library wrote",
    [JUDGED_WRITTEN + 1] = "  under a header with 1 bit flipped",
    [JUDGED_WRITTEN + 2] = "  under a header with 2 bits flipped",
    [JUDGED_WRITTEN_SECTIONS] = "  in several sections",
};

static uint64_t outcomes[OUTCOMES];

/* Answers in each format: accepted (0), or refused. Those that must occur are named by a bit each. */

enum { FORMATS = 5, REFUSALS = 18 };

static const struct {
    const char *name;
    unsigned read, written;
} formats[FORMATS] = {
    {"Open", 0x171, 0xd01},
    {"Compact Pseudo Binary", 0x1f1, 0xf01},
    {"Compact Numeric", 0x171, 0xf01},
    {"Compact SHEF", 0x1f1, 0xf01},
    {"Compact Full ASCII", 0x1f1, 0xf01},
};

static uint64_t read_answers[RATES][FORMATS][REFUSALS], write_answers[RATES][FORMATS][REFUSALS], judge_answers[RATES][FORMATS][REFUSALS];

/* The bits of a format's shortest code, and how many codes so many bits have at most: n bytes of data 4n/3 in Compact Pseudo Binary and Full ASCII, 2n in
 * Numeric, 8n/5 in SHEF. In Open there are none. */

static const unsigned shortest_code[FORMATS] = {0, 6, 4, 5, 6};

static size_t most_codes(unsigned format, size_t bits)
{
    return format == 0 ? 0 : bits / shortest_code[format];
}

/* How often each header bit was mended, from the lowest on; and the parts that the bits belong to. */

enum { HEADER_BITS = 32, PARTS = 7 };

static uint64_t mended_bits[HEADER_BITS];

static const struct {
    uint32_t mask;
    const char *name;
} parts[PARTS] = {
    {ROSOPYAT_MASK_PARITY, "the flag's parity"},
    {ROSOPYAT_MASK_TYPE, "type"},
    {ROSOPYAT_MASK_EXTENDED_TYPE, "extended type"},
    {ROSOPYAT_MASK_SYNC, "time sync"},
    {ROSOPYAT_MASK_SPARE, "spare"},
    {ROSOPYAT_MASK_LENGTH, "length"},
    {ROSOPYAT_MASK_CHECK, "check"},
};

/* Buffers. Each region ends at a page that may not be touched. A buffer ends there, or GUARD bytes before. The outputs of both sides start as copies of
 * `untouched`, and are put back to that after each case. */

static uint8_t *input, *input_copy, *library_output, *independent_output, *untouched;

static uint8_t *new_region(void)
{
    uint8_t *region = mmap(NULL, REGION + 4096, PROT_READ | PROT_WRITE, MAP_PRIVATE | MAP_ANONYMOUS, -1, 0);
    if (region == MAP_FAILED || mprotect(region + REGION, 4096, PROT_NONE) != 0) {
        perror("mmap");
        exit(2);
    }
    return region;
}

struct place {
    size_t start, length, end; /* offsets into a region; `end` includes the guard behind */
};

static struct place new_place(size_t length)
{
    struct place place;
    place.end = REGION;
    place.length = length;
    place.start = REGION - length - (chance(50) ? GUARD : 0);
    return place;
}

/* Any pointer will do for no bytes. */
static uint8_t *at_place(uint8_t *region, struct place place)
{
    return place.length == 0 && chance(50) ? NULL : region + place.start;
}

/* Reports. */

static void dump_bytes(const char *name, const uint8_t *bytes, size_t length)
{
    printf("%s, %zu bytes:", name, length);
    for (size_t i = 0; i < length; i++)
        printf("%s%02X", i % 32 == 0 ? "\n  " : "", bytes[i]);
    printf("\n");
}

static const char *rate_name(void)
{
    return rate_1200 ? "1200" : "300";
}

static void dump_case(void)
{
    printf("seed %" PRIu64 " case %" PRIu64 " (repeat it with: outside-tests/compare/run 1 %" PRIu64 " %" PRIu64 ")\n", seed, case_number, seed, case_number);
}

static void touched_outside(int signal_number)
{
    (void)signal_number;
    printf("differs: memory outside of a buffer was touched\n");
    dump_case();
    fflush(stdout);
    _exit(1);
}

static void dump_read_answer(const char *name, rosopyat_read_answer a)
{
    printf("%s: refusal %u number %zu format %u sync %u mended %u mask %08X codes %zu data_length %zu text_length %zu used %zu\n", name, a.refusal, a.number,
           a.format, a.sync, a.mended, a.mask, a.codes, a.data_length, a.text_length, a.used);
}

static void dump_write_answer(const char *name, rosopyat_write_answer a)
{
    printf("%s: refusal %u number %zu length %zu\n", name, a.refusal, a.number, a.length);
}

static void dump_judge_answer(const char *name, rosopyat_judge_answer a)
{
    printf("%s: refusal %u number %zu codes %zu as_ours %u departs_at %zu more %zu\n", name, a.refusal, a.number, a.codes, a.as_ours, a.departs_at, a.more);
}

static void dump_outputs(const char *name, struct place place, size_t ours, size_t theirs)
{
    if (ours <= place.length) {
        printf("of the library, ");
        dump_bytes(name, library_output + place.start, ours);
    }
    if (theirs <= place.length) {
        printf("of the independent implementation, ");
        dump_bytes(name, independent_output + place.start, theirs);
    }
}

/* Answers what is wrong with both outputs when `written` bytes of each may have changed, or NULL; puts them back. */
static const char *compare_outputs(struct place place, size_t written)
{
    size_t from = place.start - GUARD, behind = place.start + written;
    if (written > place.length)
        return "more was written than there is room";
    if (memcmp(library_output + from, untouched + from, GUARD) != 0)
        return "bytes before the library's buffer changed";
    if (memcmp(library_output + behind, untouched + behind, place.end - behind) != 0)
        return "bytes of the library's buffer changed that should not have";
    if (memcmp(independent_output + from, untouched + from, GUARD) != 0 || memcmp(independent_output + behind, untouched + behind, place.end - behind) != 0)
        return "bytes of the independent buffer changed that should not have";
    if (memcmp(library_output + place.start, independent_output + place.start, written) != 0)
        return "the bytes written differ";
    return NULL;
}

static void put_back(struct place place, size_t written)
{
    memcpy(library_output + place.start, untouched + place.start, written);
    memcpy(independent_output + place.start, untouched + place.start, written);
}

static const char *compare_input(struct place place)
{
    size_t from = place.start - GUARD;
    return memcmp(input + from, input_copy + from, place.end - from) != 0 ? "the input changed" : NULL;
}

/* Puts an input in its place, with random bytes around it. */
static struct place place_input(const uint8_t *bytes, size_t length)
{
    struct place place = new_place(length);
    size_t from = place.start - GUARD;
    random_bytes(input + from, GUARD);
    memcpy(input + place.start, bytes, length);
    random_bytes(input + place.start + length, place.end - place.start - length);
    memcpy(input_copy + from, input + from, place.end - from);
    return place;
}

/* One too short, or a few; exact, one longer, much longer, or anything. */
static size_t some_room(size_t needed)
{
    switch (below(8)) {
    case 0:
        return needed > 8 && chance(30) ? needed - between(1, 8) : needed > 0 ? needed - 1 : 0;
    case 1:
        return below(needed + 1);
    case 2:
        return needed + 1;
    case 3:
        return needed + between(2, 2000);
    case 4:
        return chance(10) ? most_text(rate_1200) + 5000 : needed + 40;
    case 5:
        return chance(20) ? 0 : needed;
    default:
        return needed;
    }
}

/* Making packets. */

struct made {
    uint8_t packet[ROSOPYAT_MOST_PACKET_1200 + LONG_TAIL];
    size_t length;
    bool headed; /* it starts with a valid header, but for so many flipped bits; what follows holds where that header is found */
    unsigned flipped;
    uint32_t mask;  /* of the flipped bits */
    bool of_data;   /* and the header is that of the data */
    bool cut;       /* then: the packet is not there to its end */
    bool known;     /* the outcome is known from the making: this format, sync and text, in so many codes */
    bool departs;   /* and then it is not what the writer makes of that text: first at the bit `departs_at`, for what was cut there, and in so many bits more */
    bool malformed; /* and then it is refused as malformed, at the bit `bad`, with so many codes before it */
    bool damaged;   /* known too: refused by checksum, for a damage of this kind in this section, and maybe others in those behind it */
    unsigned kind, section;
    bool others;
    unsigned format, sync;
    unsigned flag, header_length; /* that the header says */
    size_t data_length, text_length, codes, bad;
    size_t departs_at, bits_before_fill, bits_more;
    unsigned cut_kind;
};

static struct made made;
static uint32_t types_made; /* a bit for each of the 32 types of a flag */
static uint8_t made_text[LONG_TEXT];

static void add_text(unsigned character, size_t count)
{
    memset(made_text + made.text_length, character, count);
    made.text_length += count;
}

/* Around the end of a section, or anywhere in it. */
static size_t some_long_length(void)
{
    size_t end = SECTION * between(1, MOST_SECTIONS);
    switch (below(4)) {
    case 0:
        return end;
    case 1:
        return end - (chance(60) ? 1 : between(1, 10));
    case 2:
        return end == ROSOPYAT_MOST_DATA_1200 ? end : end + (chance(60) ? 1 : between(1, 10));
    default:
        return between(end - SECTION + 1, end);
    }
}

static size_t some_length(bool for_1200)
{
    if (for_1200 && chance(50))
        return some_long_length();
    unsigned dice = below(1000);
    if (dice < 400)
        return between(1, 8);
    if (dice < 700)
        return between(1, 64);
    if (dice < 900)
        return between(1, 600);
    if (dice < 960)
        return between(3990, 4000);
    if (dice < 975)
        return 4000;
    return between(1, 4000);
}

static size_t some_run(size_t most)
{
    switch (below(4)) {
    case 0:
        return most;
    case 1:
        return between(1, 3);
    default:
        return between(1, most);
    }
}

/* Whether another code is put where `rest` bits remain: it must be when they are too many to be fill. */
static bool one_more(size_t rest, size_t shortest)
{
    return rest > 7 || (rest >= shortest && chance(50));
}

/* A value, as it comes back. Whether the maker's text had 3F or 7F for 63 cannot be told. */
static unsigned value_character(unsigned value)
{
    return value == 63 ? '?' : 64 + value;
}

/* Up to which bit a maker cuts runs and line ends as the writer does. */
static size_t some_care(size_t most_bits)
{
    if (chance(50))
        return chance(60) ? 0 : most_bits;
    return most_bits - below(chance(50) ? most_bits : most_bits / 4 + 1);
}

/* The indicators of Compact Pseudo Binary as they were put, and where, so that it is known which of them count less than they could. */

enum { SPACE, SLASH, VALUES, LINE_END, MOST_INDICATORS = ROSOPYAT_MOST_DATA_1200 * 8 / 6 };

static struct indicator {
    unsigned kind;
    size_t run, at;
} indicators[MOST_INDICATORS];
static size_t indicators_put;

static size_t most_of_kind(unsigned kind)
{
    return kind == VALUES ? 128 : 16;
}

static void put_indicator(struct maker_bits *bits, unsigned kind, size_t run)
{
    indicators[indicators_put++] = (struct indicator){kind, run, bits->bits};
    if (kind == VALUES)
        maker_code(bits, 0x80 | (run - 1), 8);
    else
        maker_code(bits, kind << 4 | (run - 1), 6);
}

/* This kind, or another where a run would be cut. */
static unsigned careful_kind(unsigned kind)
{
    if (indicators_put == 0)
        return kind;
    const struct indicator *last = &indicators[indicators_put - 1];
    if (last->kind != kind || last->run == most_of_kind(kind))
        return kind;
    return kind == VALUES ? below(2) : kind ^ 1;
}

/* One more space or slash by itself, where the last indicator is not full, and there is fill for another. */
static void cut_last(struct maker_bits *bits)
{
    struct indicator last = indicators[indicators_put - 1];
    if (last.kind == VALUES || last.run == 16 || chance(20))
        return;
    put_indicator(bits, last.kind, 1);
    add_text(last.kind == SLASH ? '/' : ' ', 1);
}

/* `longest`: full runs of space and slash only. */
static void make_pseudo_binary(struct maker_bits *bits, size_t most_bits, bool longest)
{
    size_t careful_until = some_care(most_bits);
    indicators_put = 0;
    while (one_more(most_bits - bits->bits, 6)) {
        size_t rest = most_bits - bits->bits;
        unsigned kind = longest || chance(50) ? below(2) : VALUES;
        if (bits->bits < careful_until)
            kind = careful_kind(kind);
        if (kind == VALUES && rest >= 14) {
            size_t run = some_run(128);
            if (8 + 6 * run > rest)
                run = (rest - 8) / 6;
            put_indicator(bits, VALUES, run);
            for (size_t i = 0; i < run; i++) {
                unsigned value = chance(10) ? 63 : below(64);
                maker_code(bits, value, 6);
                add_text(value_character(value), 1);
            }
        } else {
            size_t run = longest ? 16 : some_run(16);
            kind = kind == VALUES ? below(2) : kind;
            put_indicator(bits, kind, run);
            add_text(kind == SLASH ? '/' : ' ', run);
        }
    }
    if (most_bits - bits->bits == 6)
        cut_last(bits);
}

/* Where the first of the indicators that were put differs from the fullest, and how many bits more they all have. They are taken from the last on, and `rest`
 * counts the characters from an indicator to the end of its run. */
static void find_cuts(void)
{
    size_t rest = 0;
    for (size_t i = indicators_put; i-- > 0;) {
        const struct indicator *put = &indicators[i];
        size_t most = most_of_kind(put->kind), width = put->kind == VALUES ? 8 : 6;
        bool first = i == 0 || put[-1].kind != put->kind, last = i + 1 == indicators_put || put[1].kind != put->kind;
        rest = last ? put->run : rest + put->run;
        size_t fullest = rest < most ? rest : most;
        if (put->run != fullest) {
            made.departs = true;
            made.cut_kind = put->kind;
            made.departs_at = put->at + width - 32 + __builtin_clz((put->run - 1) ^ (fullest - 1));
        }
        made.bits_more += width;
        if (first)
            made.bits_more -= (rest + most - 1) / most * width;
    }
}

/* A CR and an LF behind it, each in a code of its own: the nine bits of the CR end in 01, where those of both in one code end in 11. */
static void note_line_end(size_t cr_at)
{
    if (!made.departs)
        made.departs_at = cr_at + 7;
    made.departs = true;
    made.cut_kind = LINE_END;
    made.bits_more += 9;
}

/* `shortest`: codes of six bits only. */
static void make_full_ascii(struct maker_bits *bits, size_t most_bits, bool shortest)
{
    unsigned controls = shortest ? 0 : chance(20) ? 60 : 8, letters = shortest ? 0 : 50;
    size_t careful_until = some_care(most_bits), behind_cr = 0; /* the bit behind the last CR that was put by itself */
    while (one_more(most_bits - bits->bits, 6)) {
        size_t rest = most_bits - bits->bits;
        if (rest >= 9 && chance(controls)) {
            unsigned code = below(4);
            bool cut = code == 2 && behind_cr == bits->bits && behind_cr > 0;
            if (cut && bits->bits < careful_until)
                code = 3;
            else if (cut)
                note_line_end(behind_cr - 9);
            maker_code(bits, 0x1fc | code, 9);
            behind_cr = code == 1 ? bits->bits : 0;
            if (code == 3)
                add_text('\r', 1);
            add_text("\t\r\n\n"[code], 1);
        } else if (rest >= 7 && chance(letters)) {
            unsigned character = between(64, 126);
            maker_code(bits, character, 7);
            add_text(character, 1);
        } else {
            unsigned character = between(32, 63);
            maker_code(bits, character - 32, 6);
            add_text(character, 1);
        }
    }
}

/* Whether a character may not follow another in Compact Numeric. */
static bool makes_pair(unsigned before, unsigned character)
{
    if (before == '+' || before == '-')
        return character != 0 && strchr("+-#=E\r\n", character) != NULL;
    return before == '.' && (character == '.' || character == ':');
}

static const char numeric_characters[] = "0123456789 +,-./", special_characters[] = "\n#=:E";
static const unsigned sign_codes[] = {0xb, 0xd, 0xe}, special_codes[] = {0xbb, 0xbd, 0xdb, 0xee, 0xdd};

/* All codes are used, so that data is full. `longest`: no special character but the line end. */
static void make_numeric(struct maker_bits *bits, size_t most_bits, bool longest)
{
    unsigned specials = chance(30) ? 60 : 10, signs = chance(30) ? 60 : 10, before = 0;
    while (bits->bits < most_bits) {
        unsigned code = chance(signs) ? sign_codes[below(3)] : below(16), character = numeric_characters[code];
        bool two = most_bits - bits->bits >= 8 && chance(specials);
        if (two) {
            unsigned special = longest ? 0 : below(5);
            code = special_codes[special];
            character = special_characters[special];
        }
        if (makes_pair(before, character))
            continue;
        if (two)
            maker_code(bits, code >> 4, 4);
        maker_code(bits, code & 15, 4);
        if (character == '\n')
            add_text('\r', 1);
        add_text(character, 1);
        before = character;
    }
}

/* `longest`: line ends only; `shortest`: codes of five bits only. */
static void make_shef(struct maker_bits *bits, size_t most_bits, bool longest, bool shortest)
{
    unsigned letters = shortest ? 0 : chance(30) ? 80 : 20;
    while (one_more(most_bits - bits->bits, longest ? 8 : 5)) {
        if (longest || (most_bits - bits->bits >= 6 && chance(letters))) {
            unsigned code = longest || chance(10) ? 26 : below(31);
            maker_code(bits, 32 + code, 6);
            if (code == 26)
                add_text('\r', 1);
            add_text("ABCDEFGHIJKLMNOPQRSTUVWXYZ\n#=:;"[code], 1);
        } else {
            unsigned code = below(16);
            maker_code(bits, code, 5);
            add_text(numeric_characters[code], 1);
        }
    }
}

/* A last piece that is wrong, or right, or looks like fill: anything in up to 24 bits, with weight on ones. */
static void make_ending(struct maker_bits *bits)
{
    unsigned width = between(1, 24);
    uint32_t ending = random_64();
    if (chance(60))
        ending = ~0u;
    if (chance(30))
        ending &= ~(1u << below(width));
    if (chance(20))
        ending &= ~0xffu >> below(8);
    maker_put(bits, ending, width);
}

/* Compact Pseudo Binary: fewer values than are announced, and at most five bits of the next. */
static void announce_too_many(struct maker_bits *bits)
{
    size_t count = below(chance(30) ? 126 : 5);
    if ((bits->bits + 6 * count) % 8 == 2) /* six bits to the end of a byte are another value */
        count++;
    maker_code(bits, 0x80 | (between(count + 1, 128) - 1), 8);
    for (; count > 0; count--)
        maker_code(bits, below(64), 6);
    made.bad = bits->bits;
}

/* Bits at the end of a byte, too few for any code of the format, whose shortest has so many, and not all ones. */
static void end_too_early(struct maker_bits *bits, unsigned shortest)
{
    while (bits->bits % 8 == 0 || 8 - bits->bits % 8 >= shortest)
        maker_code(bits, below(1u << (shortest - 1)), shortest);
    unsigned rest = 8 - bits->bits % 8;
    made.bad = bits->bits;
    maker_put(bits, random_64() & ~(1u << below(rest)), rest);
}

/* Behind readable codes one that is surely not. */
static void make_malformed(unsigned format, struct maker_bits *bits)
{
    made.malformed = true;
    if (format == 1 && chance(60))
        announce_too_many(bits);
    else if (format == 3 && chance(60)) {
        made.bad = bits->bits;
        maker_put(bits, 0x3f, 6);
        maker_put(bits, chance(50) ? ~0u : random_64(), between(2, 24));
        for (unsigned more = chance(50) ? below(90) : 0; more > 0; more--)
            maker_put(bits, random_64(), 8);
    } else if (format == 4 && bits->bits % 8 == 0) { /* nine bits are needed */
        made.bad = bits->bits;
        maker_put(bits, 0xfe | below(2), 8);
    } else
        end_too_early(bits, shortest_code[format]);
    while (bits->bits % 8 != 0)
        maker_put(bits, chance(80), 1);
}

static size_t make_data(unsigned format, bool for_1200, uint8_t *data)
{
    bool longest = format >= 1 && format <= 3 && chance(6), shortest = format >= 3 && !longest && chance(8);
    size_t most = most_data(for_1200), length = longest || shortest ? most : some_length(for_1200);
    struct maker_bits bits = {data, 0, 0};
    if (format == 0) {
        random_bytes(data, length);
        memcpy(made_text, data, length);
        made.text_length = length;
        return length;
    }
    unsigned dice = below(100);
    if (dice < 10) { /* any bytes */
        made.known = false;
        random_bytes(data, length);
        if (chance(30))
            memset(data, 0xff, below(length + 1));
        else if (chance(30)) /* of signs and points */
            for (size_t i = 0; i < length; i++)
                data[i] = sign_codes[below(3)] << 4 | sign_codes[below(3)];
        return length;
    }
    if (format == 1) {
        make_pseudo_binary(&bits, 8 * length, longest);
        find_cuts();
    } else if (format == 2)
        make_numeric(&bits, 8 * length, longest);
    else if (format == 3)
        make_shef(&bits, 8 * length, longest, shortest);
    else
        make_full_ascii(&bits, 8 * length, shortest);
    if (dice < 35 && length <= most - 10) {
        made.known = false;
        make_ending(&bits);
        while (bits.bits % 8 != 0)
            maker_put(&bits, chance(80), 1);
        return bits.bits / 8;
    }
    if (dice < 40) { /* a code damaged, or the fill */
        made.known = false;
        length = maker_fill(&bits);
        data[chance(50) ? length - 1 : below(length)] ^= 1u << below(8);
        return length;
    }
    if (dice < 45 && bits.bits > 8) { /* cut to fewer bytes */
        made.known = false;
        maker_fill(&bits);
        return between(1, bits.bits / 8);
    }
    if (dice < (length < SECTION - 10 ? 58 : 68) && format != 2 && length <= most - 100)
        make_malformed(format, &bits);
    made.codes = bits.codes;
    made.bits_before_fill = bits.bits;
    return maker_fill(&bits);
}

static void flip(uint8_t *bytes, size_t bit)
{
    bytes[bit / 8] ^= 0x80u >> bit % 8;
}

static void damage_header(void)
{
    unsigned dice = below(100), flips = dice < 50 ? 0 : dice < 68 ? 1 : dice < 86 ? 2 : dice < 93 ? 3 : MOST_FLIPPED;
    made.mask = 0;
    for (unsigned i = 0; i < flips; i++) {
        unsigned bit;
        do
            bit = chance(10) ? 0 : below(HEADER_BITS);
        while (made.mask & 0x80000000 >> bit);
        flip(made.packet, bit);
        made.mask |= 0x80000000 >> bit;
    }
    made.flipped = flips;
}

/* Of a section: where its data stands in the packet, and how long that is. */

static size_t section_place(unsigned section)
{
    return maker_place((size_t)section * SECTION);
}

static size_t section_length(unsigned section)
{
    size_t rest = made.data_length - (size_t)section * SECTION;
    return rest < SECTION ? rest : SECTION;
}

static unsigned sections_made(void)
{
    return (made.data_length + SECTION - 1) / SECTION;
}

/* Only a data byte of a section or two neighbouring ones, or only one or both bytes of its checksum, each made any other. Answers which. */
static unsigned damage_section(unsigned section)
{
    size_t length = section_length(section), first;
    unsigned kind = below(length > 1 ? 4 : 3);
    if (length == 1 && kind == 1)
        kind = 3;
    if (kind >= 2)
        first = kind == 2 ? length + below(2) : length;
    else
        first = chance(20) ? 0 : chance(20) ? length - 1 - kind : below(length - kind);
    for (unsigned i = 0; i <= kind % 2; i++)
        made.packet[section_place(section) + first + i] ^= between(1, 255);
    return kind;
}

static void damage_data(void)
{
    unsigned sections = sections_made();
    made.section = chance(40) ? sections - 1 : below(sections);
    made.kind = damage_section(made.section);
    made.others = false;
    for (unsigned section = made.section + 1; section < sections; section++)
        if (chance(25)) {
            damage_section(section);
            made.others = true;
        }
    made.damaged = made.known;
    made.known = false;
}

static void flip_data(void)
{
    made.known = false;
    for (unsigned i = between(1, 3); i > 0; i--) {
        unsigned section = below(sections_made());
        if (chance(30))
            flip(made.packet + section_place(section) + section_length(section), below(16));
        else
            flip(made.packet + section_place(section), below(8 * section_length(section)));
    }
}

/* A valid header that says something else. */
static void other_header(unsigned flag)
{
    static const unsigned lengths[] = {0, 0, 1, 3999, 4000, 4001, 4002, 8001, 15999, 16000, 16001, 16002, 0x3fff};
    unsigned too_long = most_data(rate_1200) + 1;
    made.known = made.of_data = false;
    if (chance(50))
        flag = chance(40) ? 0x40 | below(FORMATS) << 2 : below(128);
    made.flag = flag;
    types_made |= 1u << (flag >> 2);
    if (chance(60))
        made.header_length = chance(35) ? too_long : chance(50) ? lengths[below(sizeof lengths / sizeof *lengths)] : below(0x4000);
    uint32_t header = maker_header(flag, made.header_length);
    for (int i = 0; i < 4; i++)
        made.packet[i] = header >> (24 - 8 * i);
}

static void cut_packet(void)
{
    made.cut = made.of_data;
    made.known = made.damaged = false;
    made.length = chance(30) ? made.length - 1 : chance(30) ? made.length - between(1, 7) : chance(30) ? below(8) % made.length : below(made.length);
}

static void add_tail(void)
{
    size_t more = chance(5) ? between(1, LONG_TAIL) : chance(2) ? LONG_TAIL : between(1, 40);
    random_bytes(made.packet + made.length, more);
    made.length += more;
}

static unsigned some_format(void)
{
    return chance(8) ? 0 : between(1, 4);
}

static void make_packet(void)
{
    made.known = true;
    made.headed = made.of_data = made.cut = made.damaged = made.malformed = made.departs = false;
    made.flag = 0;
    made.text_length = made.codes = made.departs_at = made.bits_more = 0;
    if (chance(4)) { /* any bytes at all */
        made.known = false;
        made.length = below(80);
        random_bytes(made.packet, made.length);
        return;
    }
    made.format = some_format();
    made.sync = below(2);
    made.data_length = made.header_length = make_data(made.format, rate_1200 || chance(5), made.packet + 4);
    unsigned flag = made.flag = 0x40 | made.format << 2 | made.sync << 1;
    made.length = maker_close(made.packet, flag, made.data_length);
    made.headed = made.of_data = true;
    if (chance(10))
        other_header(flag);
    damage_header();
    if (chance(8))
        flip_data();
    else if (chance(sections_made() > 1 ? 30 : 15))
        damage_data();
    if (chance(8))
        cut_packet();
    else if (chance(30))
        add_tail();
}

/* Reading: the most header bits to mend, as the caller names them, or one by the default. */

struct naming {
    uint32_t mend;
    bool by_default;
};

/* Mostly one that may be named; or near them; or one that only its upper bits tell from them; or any. */
static uint32_t some_mend(void)
{
    static const uint32_t others[] = {3, 255, 256, 257, 258, 65536, 65537, 65538, 0x80000000, 0xffffffff};
    switch (below(50)) {
    case 0:
        return between(3, 16);
    case 1:
        return others[below(10)];
    case 2:
        return below(3) | random_64() << (chance(50) ? 8 : 16);
    case 3:
        return random_64();
    default:
        return chance(20) ? 0 : chance(25) ? 1 : 2;
    }
}

static struct naming some_naming(void)
{
    bool by_default = chance(25);
    return (struct naming){by_default ? 1 : some_mend(), by_default};
}

static rosopyat_read_answer read_by_library(struct naming naming, bool at_1200, const uint8_t *packet, size_t length, uint8_t *text, size_t room)
{
    if (naming.by_default)
        return rosopyat_read(at_1200, packet, length, text, room);
    return rosopyat_read_mending(naming.mend, at_1200, packet, length, text, room);
}

static rosopyat_read_answer read_independently(struct naming naming, const uint8_t *packet, size_t length, uint8_t *text, size_t room)
{
    if (naming.by_default)
        return independent_read(rate_1200, packet, length, text, room);
    return independent_read_mending(naming.mend, rate_1200, packet, length, text, room);
}

static bool may_be_named(uint32_t mend)
{
    return mend <= MOST_MENDED;
}

/* Whether the header that was made must be found. */
static bool is_found(uint32_t mend)
{
    return made.headed && may_be_named(mend) && made.flipped <= mend;
}

/* Whether none may be found: two valid headers differ in at least five bits. */
static bool is_lost(uint32_t mend)
{
    return made.headed && made.flipped > mend && made.flipped + mend < 5;
}

static bool same_read_answer(rosopyat_read_answer a, rosopyat_read_answer b)
{
    return a.refusal == b.refusal && a.number == b.number && a.format == b.format && a.sync == b.sync && a.mended == b.mended && a.mask == b.mask &&
           a.codes == b.codes && a.data_length == b.data_length && a.text_length == b.text_length && a.used == b.used;
}

static bool read_as_made(rosopyat_read_answer answer, const uint8_t *text)
{
    return answer.refusal == 0 && answer.format == made.format && answer.sync == made.sync && answer.mended == made.flipped && answer.mask == made.mask &&
           answer.data_length == made.data_length && answer.used == maker_length(made.data_length) && answer.text_length == made.text_length &&
           memcmp(text, made_text, made.text_length) == 0;
}

/* Nothing but the refusal and its number is told. */
static bool only_refused_with(rosopyat_read_answer answer, uint32_t refusal, size_t number)
{
    return same_read_answer(answer, (rosopyat_read_answer){.refusal = refusal, .number = number});
}

static bool only_refused(rosopyat_read_answer answer, uint32_t refusal)
{
    return only_refused_with(answer, refusal, 0);
}

static bool malformed_as_made(rosopyat_read_answer answer)
{
    return same_read_answer(answer, (rosopyat_read_answer){.refusal = 7, .number = made.bad, .codes = made.codes});
}

static uint32_t received_header(void)
{
    uint32_t header = 0;
    for (int i = 0; i < 4; i++)
        header = header << 8 | made.packet[i];
    return header;
}

/* What holds of the mask in any answer, whether the packet's outcome is known or not; NULL where it is so. */
static const char *compare_mask(rosopyat_read_answer answer)
{
    if (answer.refusal != 0)
        return answer.mask == 0 ? NULL : "a refusal has a mask";
    if ((unsigned)__builtin_popcount(answer.mask) != answer.mended)
        return "the mask has not as many ones as bits were mended";
    uint32_t header = received_header() ^ answer.mask;
    return header == maker_header(header >> 24, header >> 10) ? NULL : "the mask does not give a valid header back";
}

/* The same of the codes. Where the header of malformed data is not known from the making, it may be that of SHEF, whose codes are the shortest. */
static const char *compare_codes(uint32_t mend, rosopyat_read_answer answer)
{
    if (answer.refusal == 0)
        return answer.codes <= most_codes(answer.format, 8 * answer.data_length) ? NULL : "more codes than the data can have";
    if (answer.refusal != 7)
        return answer.codes == 0 ? NULL : "a refusal has codes";
    uint32_t header = received_header() ^ made.mask;
    unsigned format = is_found(mend) ? header >> 26 & 7 : 3;
    size_t length = is_found(mend) ? header >> 10 & 0x3fff : made.length - 6;
    if (answer.number > 8 * length)
        return "the bad place is behind the data";
    return answer.codes <= most_codes(format, answer.number) ? NULL : "more codes than the bits before the bad place can have";
}

static void count_damage(void)
{
    outcomes[rate_1200 ? DAMAGED_SECTION + 4 * made.section + made.kind : DAMAGED + made.kind]++;
    outcomes[DAMAGED_SECTIONS] += made.others;
    outcomes[DAMAGED_MENDED + 3 * rate_1200 + made.flipped]++;
}

static void count_malformed(void)
{
    unsigned section = made.bad / (8 * SECTION);
    outcomes[MADE_MALFORMED + made.format]++;
    outcomes[MADE_MALFORMED_MOST_CODES + made.format] += made.codes == most_codes(made.format, 8 * made.data_length);
    if (rate_1200 && section < sections_made()) {
        outcomes[MALFORMED_IN_SECTION + section]++;
        outcomes[MALFORMED_OVER_END] += section + 1 < sections_made();
    }
}

/* What is known from the making, whatever the two implementations say; NULL where it is so. */
static const char *compare_making(uint32_t mend, rosopyat_read_answer answer, const uint8_t *text, size_t room)
{
    if (!may_be_named(mend))
        return only_refused(answer, 17) ? NULL : "the number of bits to mend is not refused";
    if (is_lost(mend) && made.length >= 4)
        return only_refused(answer, 2) ? NULL : "the header is not refused";
    if (!is_found(mend))
        return NULL;
    if (made.of_data && made.length >= 4 && made.data_length > most_data(rate_1200)) {
        outcomes[TOO_LONG_FOR_300]++;
        return only_refused(answer, 4) ? NULL : "several sections are not refused at 300";
    }
    if (made.cut) {
        outcomes[CUT_OFF + rate_1200] += made.length >= 4;
        outcomes[CUT_OFF_CHECKSUMS] += made.length >= made.data_length + 6;
        return only_refused(answer, made.length < 4 ? 1 : 5) ? NULL : "the packet is not refused as cut";
    }
    if (made.damaged) {
        if (!only_refused_with(answer, 6, made.section))
            return "the damage is not refused by checksum";
        count_damage();
    }
    if (!made.known)
        return answer.refusal != 0 || answer.mask == made.mask ? NULL : "the mask is not that of the flipped bits";
    if (made.malformed) {
        if (!malformed_as_made(answer))
            return "the data is not refused as made";
        count_malformed();
        return NULL;
    }
    if (room < made.text_length)
        return answer.refusal == 8 && answer.number == made.text_length ? NULL : "the text made has no room, and that is not the answer";
    if (!read_as_made(answer, text))
        return "the packet is not read as made";
    if (answer.codes != made.codes)
        return "the codes are not as many as were made";
    outcomes[MADE_AND_READ]++;
    outcomes[MADE_VALUE_63] += made.format == 1 && memchr(made_text, '?', made.text_length) != NULL;
    return NULL;
}

/* The library's answer and text once more, by another call that is to give the same; `differ` says that it does not. */
static const char *compare_again(rosopyat_read_answer answer, struct naming naming, bool at_1200, struct place packet, struct place text, const char *differ)
{
    memcpy(library_output + text.start, untouched + text.start, answer.text_length);
    rosopyat_read_answer again = read_by_library(naming, at_1200, at_place(input, packet), packet.length, at_place(library_output, text), text.length);
    const char *wrong = compare_input(packet);
    if (!wrong && !same_read_answer(answer, again))
        wrong = differ;
    return wrong ? wrong : compare_outputs(text, again.text_length);
}

/* By naming one bit, where that is the default. */
static const char *compare_default(struct naming naming, rosopyat_read_answer answer, struct place packet, struct place text)
{
    if (!naming.by_default)
        return NULL;
    return compare_again(answer, (struct naming){1, false}, rate_1200, packet, text, "the default is not the answer with one bit named");
}

/* At the other rate, where the header is found and says that there is no more than one section. */
static const char *compare_rates(struct naming naming, rosopyat_read_answer answer, struct place packet, struct place text)
{
    if (!is_found(naming.mend) || made.header_length > SECTION)
        return NULL;
    outcomes[SAME_AT_BOTH_RATES]++;
    return compare_again(answer, naming, !rate_1200, packet, text, "the answer is another at the other rate");
}

/* What was read, written again in its format: no legal packet of the text is shorter. */
static const char *compare_written_again(rosopyat_read_answer answer, const uint8_t *text)
{
    static uint8_t again[ROSOPYAT_MOST_PACKET_1200];
    if (answer.refusal != 0)
        return NULL;
    rosopyat_write_answer written = rosopyat_write(rate_1200, answer.format, answer.sync, text, answer.text_length, again, sizeof again);
    if (written.refusal != 0)
        return "what was read is not written again";
    outcomes[written.length < answer.used ? AGAIN_SHORTER : AGAIN_AS_LONG]++;
    return written.length <= answer.used ? NULL : "what was read is written again in more bytes";
}

/* Whether a refusal is of data in one of the formats: which one, the header tells that was made and found. */
static bool refused_in_format(uint32_t mend, uint32_t refusal)
{
    return is_found(mend) && refusal > 3 && made.flag >> 5 == 2 && (made.flag >> 2 & 7) < FORMATS;
}

static void count_refusal(struct naming naming, rosopyat_read_answer answer, size_t room)
{
    bool too_many = answer.refusal == 17;
    outcomes[READ_REFUSED + answer.refusal]++;
    outcomes[TOO_MANY_SHORT] += too_many && made.length < 4;
    outcomes[TOO_MANY_LOW_8_OURS] += too_many && may_be_named(naming.mend & 0xff);
    outcomes[TOO_MANY_LOW_16_OURS] += too_many && may_be_named(naming.mend & 0xffff);
    outcomes[NO_ROOM_ONE_SHORT] += answer.refusal == 8 && room + 1 == answer.number;
    if (refused_in_format(naming.mend, answer.refusal)) {
        read_answers[rate_1200][made.flag >> 2 & 7][answer.refusal]++;
        outcomes[OTHER_LENGTH + rate_1200] += answer.refusal == 4 && made.header_length == most_data(rate_1200) + 1;
    }
}

/* With more bits flipped than named. */
static void count_flipped(struct naming naming)
{
    if (!made.headed || made.length < 4 || made.flipped <= naming.mend)
        return;
    outcomes[naming.by_default ? FLIPPED_BY_DEFAULT + made.flipped : FLIPPED_NAMED + 5 * naming.mend + made.flipped]++;
}

/* At 1200, where it is one of the lengths around the ends of sections. */
static void count_length(unsigned outcome, size_t data_length)
{
    for (unsigned i = 0; i < LENGTHS; i++)
        outcomes[outcome + i] += rate_1200 && data_length == length_at(i);
}

static void count_reading(struct naming naming, rosopyat_read_answer answer, size_t room)
{
    if (may_be_named(naming.mend))
        count_flipped(naming);
    if (answer.refusal != 0) {
        count_refusal(naming, answer, room);
        return;
    }
    read_answers[rate_1200][answer.format][0]++;
    outcomes[MENDED_0 + answer.mended]++;
    for (unsigned bit = 0; bit < HEADER_BITS; bit++)
        mended_bits[bit] += answer.mask >> bit & 1;
    outcomes[naming.by_default ? MENDED_BY_DEFAULT + answer.mended : MENDED_NAMED + 3 * naming.mend + answer.mended]++;
    outcomes[READ_SYNC_0 + answer.sync]++;
    outcomes[READ_DATA_1 + rate_1200] += answer.data_length == 1;
    outcomes[READ_DATA_4000] += !rate_1200 && answer.data_length == 4000;
    count_length(READ_LENGTH_1200, answer.data_length);
    outcomes[READ_LONGEST + rate_1200] += answer.text_length == most_text(rate_1200);
    outcomes[READ_LONGEST_NUMERIC + rate_1200] += answer.format == 2 && answer.text_length == (rate_1200 ? 32000 : 8000);
    outcomes[READ_LONGEST_SHEF + rate_1200] += answer.format == 3 && answer.text_length == (rate_1200 ? 42666 : 10666);
    outcomes[READ_MOST_CODES + 5 * rate_1200 + answer.format] +=
        answer.data_length == most_data(rate_1200) && answer.codes == most_codes(answer.format, 8 * most_data(rate_1200));
    outcomes[READ_ROOM_EXACT] += room == answer.text_length;
    outcomes[READ_ROOM_ONE_MORE] += room == answer.text_length + 1;
    outcomes[READ_TRAILING] += made.length > answer.used;
    outcomes[READ_LONG_TAIL] += made.length > answer.used + 4000;
}

/* A packet, and the bits to mend. */
static struct naming make_reading(void)
{
    struct naming naming = some_naming();
    make_packet();
    if (!may_be_named(naming.mend) && chance(20)) /* 17 comes before 1 */
        made.length = below(4);
    return naming;
}

static bool reader_case(void)
{
    struct naming naming = make_reading();
    struct place packet = place_input(made.packet, made.length);
    rosopyat_read_answer needed = read_independently(naming, input + packet.start, packet.length, untouched + REGION, 0);
    size_t room = some_room(needed.refusal == 8 ? needed.number : below(100));
    struct place text = new_place(room);

    rosopyat_read_answer ours = read_by_library(naming, rate_1200, at_place(input, packet), packet.length, at_place(library_output, text), room);
    const char *wrong = compare_input(packet);
    rosopyat_read_answer theirs = read_independently(naming, input + packet.start, packet.length, independent_output + text.start, room);
    if (!wrong)
        wrong = compare_input(packet);
    if (!wrong && !same_read_answer(ours, theirs))
        wrong = "the answers differ";
    if (!wrong)
        wrong = compare_outputs(text, ours.text_length);
    if (!wrong)
        wrong = compare_mask(ours);
    if (!wrong)
        wrong = compare_codes(naming.mend, ours);
    if (!wrong)
        wrong = compare_making(naming.mend, ours, library_output + text.start, room);
    if (!wrong)
        wrong = compare_written_again(ours, library_output + text.start);
    if (!wrong)
        wrong = compare_default(naming, ours, packet, text);
    if (!wrong)
        wrong = compare_rates(naming, ours, packet, text);
    if (wrong) {
        printf("differs: reader: %s\n", wrong);
        dump_case();
        printf("%s bps, %" PRIu32 " bits to mend%s, text room %zu\n", rate_name(), naming.mend, naming.by_default ? " by default" : "", room);
        dump_read_answer("library    ", ours);
        dump_read_answer("independent", theirs);
        dump_bytes("packet", input_copy + packet.start, packet.length);
        dump_outputs("text", text, ours.text_length, theirs.text_length);
        if (made.known)
            dump_bytes("text as made", made_text, made.text_length);
        return false;
    }
    put_back(text, ours.text_length);
    count_reading(naming, ours, room);
    return true;
}

/* Texts for the writer. */

/* A line end of one or two characters, or another of those that the table has. */
static size_t make_piece(uint8_t *text, const char *others, unsigned line_ends)
{
    if (chance(line_ends)) {
        unsigned kind = below(4);
        text[0] = kind == 0 ? '\n' : '\r';
        text[1] = '\n';
        return kind < 2 ? 1 : 2;
    }
    text[0] = others[below(strlen(others))];
    return 1;
}

/* A value of Compact Pseudo Binary: so many per cent are 63, as 3F or 7F. */
static unsigned some_value(unsigned sixty_threes)
{
    return chance(sixty_threes) ? 0x3f | below(2) << 6 : between(64, 127);
}

/* Values, spaces or slashes; `runs`: no values. */
static size_t make_run(uint8_t *text, bool few, bool runs, unsigned sixty_threes)
{
    unsigned kind = runs ? below(2) : below(few ? 40 : 4);
    size_t run = kind >= 2 ? some_run(chance(10) ? 300 : 130) : runs ? between(14, 64) : some_run(chance(5) ? 50 : 17);
    for (size_t i = 0; i < run; i++)
        text[i] = kind >= 2 ? some_value(sixty_threes) : kind == 1 ? '/' : ' ';
    return run;
}

/* `runs`: of Compact Pseudo Binary no values. */
static size_t make_pieces(unsigned format, uint8_t *text, size_t least, bool runs)
{
    size_t length = 0;
    bool few = chance(30);
    unsigned line_ends = chance(5) ? 99 : few ? 3 : 20, pairs = chance(70) ? 0 : chance(50) ? 2 : 20, sixty_threes = chance(30) ? 60 : 4;
    unsigned always = below(2 * 27); /* in every second text all pairs are the same */
    while (length < least) {
        if (format == 0)
            text[length++] = random_64() >> 56;
        else if (format == 1)
            length += make_run(text + length, few, runs, sixty_threes);
        else if (format == 2) {
            size_t piece = make_piece(text + length, few ? "0123456789 ,/." : "0123456789 +,-./+-.#=:E", line_ends);
            if (length > 0 && makes_pair(text[length - 1], text[length]))
                text[length++] = '0' + below(10);
            else
                length += piece;
            if (chance(pairs)) { /* mostly without a code */
                unsigned pair = always < 27 ? always : below(27);
                text[length++] = "+-."[pair / 9];
                text[length++] = "+-.#=:E\r\n"[pair % 9];
            }
        } else if (format == 3) {
            static const char all[] = "0123456789 +,-./#=:;ABCDEFGHIJKLMNOPQRSTUVWXYZ";
            length += make_piece(text + length, few ? "0123456789 .:" : all, line_ends);
        } else if (chance(few ? 3 : 30)) {
            unsigned code = below(5);
            if (code >= 3)
                text[length++] = '\r';
            text[length++] = "\t\r\n\n\n"[code];
        } else
            text[length++] = between(32, 126);
    }
    return length;
}

/* The longest part whose data has at most so many bytes, for both sides of that edge. The library is asked, which is the faster of the two: where they have not
 * the same edge, one of the parts around it tells. */
static size_t longest_part(unsigned format, const uint8_t *text, size_t length, size_t most)
{
    size_t fits = 1, exceeds = length + 1;
    while (exceeds - fits > 1) {
        size_t middle = fits + (exceeds - fits) / 2;
        rosopyat_write_answer asked = rosopyat_write(true, format, false, text, middle, untouched + REGION, 0);
        if (asked.refusal == 11 || (asked.refusal == 8 && asked.number > maker_length(most)))
            exceeds = middle;
        else
            fits = middle;
    }
    return fits;
}

static size_t make_text(uint32_t format, uint8_t *text)
{
    unsigned dice = below(100), coded = format < FORMATS ? format : 0;
    if (dice < 3)
        return 0;
    if (dice < 10) {
        unsigned sections = rate_1200 || chance(10) ? between(1, MOST_SECTIONS) : 1;
        bool runs = coded == 1 && chance(60);
        size_t length = make_pieces(coded, text, sections * (coded == 0 ? 4100 : runs ? 86000 : 11000), runs);
        size_t fits = longest_part(coded, text, length, sections * SECTION);
        size_t part = chance(60) ? fits : chance(70) ? fits + 1 : fits + between(2, 10);
        return part < length ? part : length;
    }
    if (dice < 14)
        return make_pieces(coded, text, between(1, rate_1200 ? 60000 : 20000), chance(3));
    size_t length = make_pieces(coded, text, some_length(false), chance(3));
    return chance(50) ? length : between(1, length);
}

static bool same_write_answer(rosopyat_write_answer a, rosopyat_write_answer b)
{
    return a.refusal == b.refusal && a.number == b.number && a.length == b.length;
}

static bool is_ours(uint32_t format)
{
    return format < FORMATS;
}

/* Of a packet of so many bytes. */
static size_t data_length_of(size_t packet_length)
{
    size_t data_length = packet_length - 6;
    while (maker_length(data_length) > packet_length)
        data_length--;
    return data_length;
}

static void count_writing(rosopyat_write_answer answer, size_t room, uint32_t format, bool sync, const uint8_t *text, size_t length)
{
    if (is_ours(format))
        write_answers[rate_1200][format][answer.refusal]++;
    if (answer.refusal != 0) {
        outcomes[WRITE_NO_PAIR] +=
            answer.refusal == 9 && format == 2 && answer.number > 0 && makes_pair(text[answer.number - 1], text[answer.number]);
        outcomes[WRITE_NO_3E] += answer.refusal == 9 && format == 1 && text[answer.number] == 0x3e;
        outcomes[WRITE_REFUSED + answer.refusal]++;
        outcomes[WRITE_LOW_8_OURS] += answer.refusal == 12 && is_ours(format & 0xff);
        outcomes[WRITE_LOW_16_OURS] += answer.refusal == 12 && is_ours(format & 0xffff);
        outcomes[WRITE_ONE_SHORT] += answer.refusal == 8 && room + 1 == answer.number;
        outcomes[WRITE_SHORT_OF_CHECKSUMS] += answer.refusal == 8 && room >= data_length_of(answer.number) + 6;
        return;
    }
    outcomes[WRITE_SYNC_1] += sync;
    outcomes[WRITE_DATA_4000] += !rate_1200 && answer.length == 4006;
    count_length(WRITE_LENGTH_1200, data_length_of(answer.length));
    outcomes[WRITE_LONG_TEXT + rate_1200] += length > (rate_1200 ? ROSOPYAT_MOST_TEXT : 50000);
    outcomes[WRITE_ROOM_EXACT] += room == answer.length;
}

static bool space_or_slash(unsigned character)
{
    return character == ' ' || character == '/';
}

/* How many indicators, values and codes a text has, as it comes back. An indicator is for 128 values or for 16 spaces or slashes at most: `run` counts those
 * that stand right before a character and are of its kind. A CR with LF after it has one code, but two in Compact Numeric. */
static size_t codes_of(uint32_t format, const uint8_t *text, size_t length)
{
    size_t codes = 0, run = 0;
    for (size_t i = 0; format != 0 && i < length; i++) {
        bool blank = space_or_slash(text[i]), same = i > 0 && (blank ? text[i - 1] == text[i] : !space_or_slash(text[i - 1]));
        run = same ? run + 1 : 0;
        if (format == 1)
            codes += blank ? run % 16 == 0 : 1 + (run % 128 == 0);
        else if (format == 2)
            codes += strchr("#=:E", text[i]) ? 2 : 1; /* CR and LF have one each, so to speak */
        else
            codes += !(text[i] == '\n' && i > 0 && text[i - 1] == '\r');
    }
    return codes;
}

static void count_value_63(const uint8_t *text, size_t length, size_t at)
{
    outcomes[text[at] == '?' ? WRITTEN_3F : WRITTEN_7F]++;
    outcomes[WRITTEN_FIRST_63] += at > 0 && space_or_slash(text[at - 1]);
    outcomes[WRITTEN_LAST_63] += at + 1 < length && space_or_slash(text[at + 1]);
}

/* What a text comes back as, in `normal`, and its length: in Compact Pseudo Binary with each 7F as 3F; in Compact Numeric and SHEF with all line ends as CR
 * LF, and in Numeric with a space behind it where it has an odd number of codes. */
static uint8_t normal[2 * LONG_TEXT + 1];

static size_t make_normal(uint32_t format, const uint8_t *text, size_t text_length)
{
    size_t length = 0;
    for (size_t i = 0; i < text_length; i++) {
        bool cr = text[i] == '\r', lf = text[i] == '\n', cr_before = i > 0 && text[i - 1] == '\r';
        if (format == 1 && (text[i] == '?' || text[i] == 0x7f)) {
            normal[length++] = '?';
            count_value_63(text, text_length, i);
        } else if ((format != 2 && format != 3) || (!cr && !lf))
            normal[length++] = text[i];
        else if (cr || !cr_before) {
            memcpy(normal + length, "\r\n", 2);
            length += 2;
            outcomes[WRITTEN_LINE_END + (lf ? 2 : i + 1 < text_length && text[i + 1] == '\n' ? 0 : 1)]++;
        }
    }
    if (format == 2 && codes_of(format, normal, length) % 2 == 1) {
        normal[length++] = ' ';
        outcomes[WRITTEN_SPACE]++;
    }
    return length;
}

/* Reads the library's packet back into the other output, which is put back by the caller, and writes what came back again. */
static bool reads_back(struct place packet, size_t length, uint32_t format, bool sync, const uint8_t *text, size_t text_length)
{
    static uint8_t again[ROSOPYAT_MOST_PACKET_1200];
    uint8_t *back = independent_output;
    size_t normal_length = make_normal(format, text, text_length);
    rosopyat_read_answer answer = rosopyat_read(rate_1200, library_output + packet.start, length, back, REGION);
    bool same = answer.refusal == 0 && answer.format == format && answer.sync == sync && answer.mended == 0 && answer.mask == 0 &&
                answer.codes == codes_of(format, normal, normal_length) && maker_length(answer.data_length) == length && answer.used == length &&
                answer.text_length == normal_length && memcmp(back, normal, normal_length) == 0;
    rosopyat_write_answer rewritten = rosopyat_write(rate_1200, format, sync, back, answer.text_length, again, sizeof again);
    same &= rewritten.refusal == 0 && rewritten.length == length && memcmp(again, library_output + packet.start, length) == 0;
    memcpy(back, untouched, answer.text_length);
    return same;
}

/* At the other rate a text has the same packet, or, if that has several sections, none: they are for 1200 alone. */
static bool same_at_both_rates(struct place packet, size_t length, uint32_t format, bool sync, const uint8_t *text, size_t text_length)
{
    static uint8_t other[ROSOPYAT_MOST_PACKET_1200];
    rosopyat_write_answer answer = rosopyat_write(!rate_1200, format, sync, text, text_length, other, sizeof other);
    if (length > ROSOPYAT_MOST_PACKET)
        return same_write_answer(answer, (rosopyat_write_answer){.refusal = 11});
    return same_write_answer(answer, (rosopyat_write_answer){.length = length}) && memcmp(other, library_output + packet.start, length) == 0;
}

static unsigned other_character(unsigned kind)
{
    switch (kind) {
    case 0: /* that makes a pair in Compact Numeric with what may stand beside it */
        return "+-."[below(3)];
    case 1: /* that has no code in Compact SHEF */
        return between('a', 'z');
    case 2:
    case 3: /* that stands at the edge of the values of Compact Pseudo Binary: 3E has no code */
        return between(0x3e, 0x3f);
    default:
        return chance(30) ? between(31, 33) : chance(30) ? between(126, 128) : random_64() >> 56;
    }
}

/* One to three characters made any others, mostly without a code. */
static void damage_text(size_t length)
{
    unsigned kind = below(7);
    for (unsigned i = between(1, 3); i > 0; i--)
        made_text[chance(20) ? length - 1 : below(length)] = other_character(kind);
}

/* Mostly one of ours; or near them; or one that only its upper bits tell from ours; or any. */
static uint32_t some_number(void)
{
    static const uint32_t others[] = {5, 256, 257, 258, 259, 260, 65538, 65540, 0xffffffff};
    uint32_t format = some_format();
    switch (below(40)) {
    case 0:
        return below(16);
    case 1:
        return others[below(9)];
    case 2:
        return format | random_64() << (chance(50) ? 8 : 16);
    case 3:
        return random_64();
    default:
        return format;
    }
}

/* A text, in made_text, for a format. Answers its length. */
static size_t make_writing(uint32_t *format, bool *sync)
{
    *format = some_number();
    *sync = below(2);
    size_t length = make_text(*format, made_text);
    if (length > 0 && chance(10))
        damage_text(length);
    return length;
}

static bool writer_case(void)
{
    uint32_t format;
    bool sync;
    size_t length = make_writing(&format, &sync);
    struct place text = place_input(made_text, length);
    rosopyat_write_answer needed = independent_write(rate_1200, format, sync, input + text.start, length, untouched + REGION, 0);
    size_t room = some_room(needed.refusal == 8 ? needed.number : below(100));
    struct place packet = new_place(room);

    rosopyat_write_answer ours = rosopyat_write(rate_1200, format, sync, at_place(input, text), length, at_place(library_output, packet), room);
    const char *wrong = compare_input(text);
    rosopyat_write_answer theirs = independent_write(rate_1200, format, sync, input + text.start, length, independent_output + packet.start, room);
    if (!wrong)
        wrong = compare_input(text);
    if (!wrong && !same_write_answer(ours, theirs))
        wrong = "the answers differ";
    if (!wrong)
        wrong = compare_outputs(packet, ours.length);
    if (!wrong && ours.refusal == 0 && !reads_back(packet, ours.length, format, sync, input + text.start, length))
        wrong = "the packet does not read back";
    if (!wrong && ours.refusal == 0 && !same_at_both_rates(packet, ours.length, format, sync, input + text.start, length))
        wrong = "the packet is another at the other rate";
    if (wrong) {
        printf("differs: writer: %s\n", wrong);
        dump_case();
        printf("%s bps, format %u sync %u packet room %zu\n", rate_name(), format, sync, room);
        dump_write_answer("library    ", ours);
        dump_write_answer("independent", theirs);
        dump_bytes("text", input_copy + text.start, length);
        dump_outputs("packet", packet, ours.length, theirs.length);
        return false;
    }
    outcomes[WRITTEN_AND_READ] += ours.refusal == 0;
    outcomes[WRITE_ONLY_AT_1200] +=
        ours.refusal == 11 && !rate_1200 && independent_write(true, format, sync, input + text.start, length, untouched + REGION, 0).refusal == 8;
    put_back(packet, ours.length);
    count_writing(ours, room, format, sync, input + text.start, length);
    return true;
}

/* Judging. */

static bool same_judge_answer(rosopyat_judge_answer a, rosopyat_judge_answer b)
{
    return a.refusal == b.refusal && a.number == b.number && a.codes == b.codes && a.as_ours == b.as_ours && a.departs_at == b.departs_at && a.more == b.more;
}

/* Whether the packet's outcome is known from the making, and it is one that is accepted. */
static bool is_known(uint32_t mend)
{
    return is_found(mend) && made.known && !made.malformed && made.data_length <= most_data(rate_1200);
}

static const char *compare_judged_making(uint32_t mend, rosopyat_judge_answer answer)
{
    if (!is_known(mend))
        return NULL;
    size_t fewest = (made.bits_before_fill - made.bits_more + 7) / 8;
    rosopyat_judge_answer wanted = {.as_ours = !made.departs};
    if (made.departs) {
        wanted.departs_at = made.departs_at;
        wanted.more = made.data_length - fewest;
    }
    return same_judge_answer(answer, wanted) ? NULL : "the packet is not judged as made";
}

/* Of so many data bits that two packets both have: the first that they have not alike, or `bits`. */
static size_t first_other_bit(const uint8_t *one, const uint8_t *other, size_t bits)
{
    size_t byte = 0;
    while (byte < bits / 8 && one[maker_place(byte)] == other[maker_place(byte)])
        byte++;
    if (byte == bits / 8)
        return bits;
    return 8 * byte + __builtin_clz(one[maker_place(byte)] ^ other[maker_place(byte)]) - 24;
}

/* By the library's reader, which has room for any text, and its writer. */
static const char *compare_judged_writing(uint32_t mend, rosopyat_judge_answer answer, const uint8_t *packet, rosopyat_read_answer *read)
{
    static uint8_t text[ROSOPYAT_MOST_TEXT_1200], again[ROSOPYAT_MOST_PACKET_1200];
    *read = rosopyat_read_mending(mend, rate_1200, packet, made.length, text, sizeof text);
    rosopyat_judge_answer refused = {.refusal = read->refusal, .number = read->number, .codes = read->codes};
    if (read->refusal != 0)
        return same_judge_answer(answer, refused) ? NULL : "it is not refused as the reader refuses it";
    rosopyat_write_answer written = rosopyat_write(rate_1200, read->format, read->sync, text, read->text_length, again, sizeof again);
    if (written.refusal != 0 || written.length > read->used)
        return "what was read is not written again in as many bytes or fewer";
    size_t bits = 8 * data_length_of(written.length), departs_at = first_other_bit(packet, again, bits);
    bool departs = departs_at < bits;
    if (!departs && written.length < read->used)
        return "what is written again is the start of the data alone";
    rosopyat_judge_answer wanted = {.as_ours = !departs, .departs_at = departs ? departs_at : 0, .more = read->data_length - bits / 8};
    if (!same_judge_answer(answer, wanted))
        return "the answer is not by what is written again";
    return !departs || read->format == 1 || read->format == 4 ? NULL : "it departs where the format leaves no choice";
}

/* At the other rate, where the header is found and says that there is no more than one section. */
static const char *compare_judged_rates(uint32_t mend, rosopyat_judge_answer answer, struct place packet)
{
    if (!is_found(mend) || made.header_length > SECTION)
        return NULL;
    rosopyat_judge_answer other = rosopyat_judge(mend, !rate_1200, at_place(input, packet), packet.length);
    outcomes[JUDGED_AT_BOTH_RATES + !answer.as_ours] += answer.refusal == 0;
    return same_judge_answer(answer, other) ? compare_input(packet) : "the answer is another at the other rate";
}

static void count_departing(rosopyat_judge_answer answer, rosopyat_read_answer read)
{
    outcomes[JUDGED_DEPARTS + 10 * rate_1200 + 2 * read.format + (answer.more > 0)]++;
    outcomes[JUDGED_DEPARTS_IN_SECTION + answer.departs_at / (8 * SECTION)] += read.data_length > SECTION;
    outcomes[JUDGED_DEPARTS_LAST] += answer.departs_at / 8 + 1 == read.data_length - answer.more;
}

static void count_judging(uint32_t mend, rosopyat_judge_answer answer, rosopyat_read_answer read)
{
    bool departs = !answer.as_ours;
    if (answer.refusal != 0) {
        outcomes[JUDGE_REFUSED + answer.refusal]++;
        if (refused_in_format(mend, answer.refusal))
            judge_answers[rate_1200][made.flag >> 2 & 7][answer.refusal]++;
        return;
    }
    judge_answers[rate_1200][read.format][0]++;
    outcomes[JUDGED_AS_OURS + 5 * rate_1200 + read.format] += answer.as_ours;
    outcomes[JUDGED_SECTIONS + 2 * read.format + departs] += read.data_length > SECTION;
    outcomes[JUDGED_MENDED + 2 * read.mended + departs]++;
    outcomes[JUDGED_TRAILING + departs] += made.length > read.used;
    outcomes[(is_known(mend) ? JUDGED_AS_MADE : JUDGED_UNKNOWN) + departs]++;
    outcomes[JUDGED_CUT + made.cut_kind] += is_known(mend) && departs;
    if (departs)
        count_departing(answer, read);
}

/* The packet that was made. */
static bool judge_packet(uint32_t mend)
{
    struct place packet = place_input(made.packet, made.length);
    rosopyat_read_answer read = {0};
    rosopyat_judge_answer ours = rosopyat_judge(mend, rate_1200, at_place(input, packet), packet.length);
    const char *wrong = compare_input(packet);
    rosopyat_judge_answer theirs = independent_judge(mend, rate_1200, input + packet.start, packet.length);
    if (!wrong)
        wrong = compare_input(packet);
    if (!wrong && !same_judge_answer(ours, theirs))
        wrong = "the answers differ";
    if (!wrong)
        wrong = compare_judged_making(mend, ours);
    if (!wrong)
        wrong = compare_judged_writing(mend, ours, input + packet.start, &read);
    if (!wrong)
        wrong = compare_judged_rates(mend, ours, packet);
    if (wrong) {
        printf("differs: judge: %s\n", wrong);
        dump_case();
        printf("%s bps, %" PRIu32 " bits to mend\n", rate_name(), mend);
        dump_judge_answer("library    ", ours);
        dump_judge_answer("independent", theirs);
        dump_bytes("packet", input_copy + packet.start, packet.length);
        return false;
    }
    count_judging(mend, ours, read);
    return true;
}

/* The packet of a reader case. */
static bool judge_read_case(void)
{
    return judge_packet(make_reading().mend);
}

/* What the library writes of the text of a writer case, given room, with header bits flipped. */
static bool judge_written_case(void)
{
    uint32_t format;
    bool sync;
    size_t length = make_writing(&format, &sync);
    rosopyat_write_answer written = rosopyat_write(rate_1200, format, sync, made_text, length, made.packet, ROSOPYAT_MOST_PACKET_1200);
    if (written.refusal != 0)
        return true;
    made.known = made.headed = made.of_data = true;
    made.cut = made.damaged = made.malformed = made.departs = false;
    made.format = format;
    made.sync = sync;
    made.flag = 0x40 | format << 2 | sync << 1;
    made.length = written.length;
    made.data_length = made.header_length = data_length_of(written.length);
    damage_header();
    if (chance(30))
        add_tail();
    uint32_t mend = some_mend();
    if (!judge_packet(mend))
        return false;
    if (is_found(mend)) {
        outcomes[JUDGED_WRITTEN + made.flipped]++;
        outcomes[JUDGED_WRITTEN_SECTIONS] += made.data_length > SECTION;
    }
    return true;
}

static void prepare(void)
{
    struct sigaction action = {0};
    action.sa_handler = touched_outside;
    sigaction(SIGSEGV, &action, NULL);
    sigaction(SIGBUS, &action, NULL);
    input = new_region();
    input_copy = new_region();
    library_output = new_region();
    independent_output = new_region();
    untouched = new_region();
    state = seed;
    random_bytes(untouched, REGION);
    memcpy(library_output, untouched, REGION);
    memcpy(independent_output, untouched, REGION);
}

static bool print_answers(const char *side, bool at_1200, unsigned format, const uint64_t *answers, unsigned meant)
{
    bool missing = false;
    printf("%10" PRIu64 "  %s accepted %s%s", answers[0], side, formats[format].name, at_1200 ? " at 1200" : "");
    for (unsigned refusal = 0; refusal < REFUSALS; refusal++) {
        if (refusal > 0 && answers[refusal] > 0)
            printf(", refused %u: %" PRIu64, refusal, answers[refusal]);
        if ((meant >> refusal & 1) && answers[refusal] == 0) {
            printf(", %u NEVER OCCURRED", refusal);
            missing = true;
        }
    }
    printf("\n");
    return missing;
}

/* Whether it never occurred, though it was meant to. */
static bool print_outcome(uint64_t occurred, const char *name, bool meant)
{
    bool never = meant && occurred == 0;
    printf("%10" PRIu64 "  %s%s\n", occurred, name, never ? ": NEVER OCCURRED" : "");
    return never;
}

static bool print_mended_bits(bool meant)
{
    bool missing = false;
    for (unsigned bit = HEADER_BITS; bit-- > 0;) {
        char name[64];
        unsigned part = 0;
        while (part < PARTS - 1 && !(parts[part].mask >> bit & 1))
            part++;
        sprintf(name, "reader accepted, with header bit %u mended, %s", bit, parts[part].name);
        missing |= print_outcome(mended_bits[bit], name, meant);
    }
    return missing;
}

static bool print_outcomes(bool all_meant)
{
    bool missing = false;
    for (unsigned i = 0; i < RATES * FORMATS; i++) {
        unsigned rate = i / FORMATS, format = i % FORMATS;
        missing |= print_answers("reader", rate, format, read_answers[rate][format], all_meant ? formats[format].read : 0);
        missing |= print_answers("writer", rate, format, write_answers[rate][format], all_meant ? formats[format].written : 0);
        missing |= print_answers("judge", rate, format, judge_answers[rate][format], all_meant ? formats[format].read & ~(1u << ROSOPYAT_NO_ROOM) : 0);
    }
    for (int i = 0; i < OUTCOMES; i++)
        if (outcome_name[i])
            missing |= print_outcome(outcomes[i], outcome_name[i], all_meant);
    missing |= print_mended_bits(all_meant);
    printf("%10d  of the 32 types in a header\n", __builtin_popcount(types_made));
    return !missing && (!all_meant || types_made == ~0u);
}

/* The one or the other for each case, by its number. Whether all went through without a difference. */
static bool go_through(uint64_t first, uint64_t cases, bool (*of_reader)(void), bool (*of_writer)(void))
{
    for (case_number = first; case_number < first + cases; case_number++) {
        state = (seed + 1) * 0xd1342543de82ef95 + case_number * 0xaf251af3b0f025b5;
        rate_1200 = chance(45);
        if (!(chance(60) ? of_reader() : of_writer()))
            return false;
    }
    return true;
}

int main(int count, char **words)
{
    uint64_t cases = count > 1 ? strtoull(words[1], NULL, 10) : MEANT_CASES;
    seed = count > 2 ? strtoull(words[2], NULL, 10) : (uint64_t)time(NULL);
    uint64_t first = count > 3 ? strtoull(words[3], NULL, 10) : 0;
    bool judging_alone = count > 4 && strcmp(words[4], "judging") == 0;
    printf("seed %" PRIu64 ", %" PRIu64 " cases\n", seed, cases);
    fflush(stdout);
    prepare();
    if (!judging_alone && !go_through(first, cases, reader_case, writer_case))
        return 1;
    if (!go_through(first, cases, judge_read_case, judge_written_case))
        return 1;
    bool complete = print_outcomes(cases >= MEANT_CASES && !judging_alone);
    printf("%" PRIu64 " cases, no difference%s\n", cases, complete ? "" : ", but an outcome never occurred");
    return !complete;
}
