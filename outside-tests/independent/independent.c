#include "independent.h"

#include <string.h>

/* Bits of a row of bytes, numbered from the top of the first byte down. */

static unsigned bit_at(const uint8_t *data, size_t at)
{
    return data[at / 8] >> (7 - at % 8) & 1;
}

static unsigned bits_at(const uint8_t *data, size_t at, unsigned width)
{
    unsigned value = 0;
    for (unsigned i = 0; i < width; i++)
        value = value << 1 | bit_at(data, at + i);
    return value;
}

/* Bits are only counted when data is NULL. */
struct bit_row {
    uint8_t *data;
    size_t bits;
};

static void put_bits(struct bit_row *row, unsigned value, unsigned width)
{
    while (width-- > 0) {
        if (row->data) {
            unsigned mask = 0x80u >> row->bits % 8;
            if (value >> width & 1)
                row->data[row->bits / 8] |= mask;
            else
                row->data[row->bits / 8] &= ~mask;
        }
        row->bits++;
    }
}

/* The header: flag 8 bits, length 14, check 10. The low 31 bits are a multiple of the generator; the flag has an odd number of ones. */

static uint32_t remainder_of(uint32_t word)
{
    const uint32_t generator = 0x769; /* x^10 + x^9 + x^8 + x^6 + x^5 + x^3 + 1 */
    for (int i = 30; i >= 10; i--)
        if (word >> i & 1)
            word ^= generator << (i - 10);
    return word;
}

static unsigned ones(uint32_t word)
{
    unsigned count = 0;
    for (int i = 0; i < 32; i++)
        count += word >> i & 1;
    return count;
}

static bool valid_header(uint32_t header)
{
    uint32_t word = header & 0x7fffffff;
    return remainder_of(word) == 0 && ones(header >> 24) % 2 == 1;
}

/* The valid header that is reached by turning over no bit, or one, or two, where as many are named. */
static bool find_header(uint32_t received, uint32_t mend, uint32_t *header)
{
    *header = received;
    if (valid_header(*header))
        return true;
    if (mend == 0)
        return false;
    for (int i = 0; i < 32; i++) {
        *header = received ^ 1u << i;
        if (valid_header(*header))
            return true;
    }
    if (mend == 1)
        return false;
    for (int i = 0; i < 32; i++)
        for (int j = 0; j < i; j++) {
            *header = received ^ 1u << i ^ 1u << j;
            if (valid_header(*header))
                return true;
        }
    return false;
}

/* A one for each of the 32 bits that was received other than it is in the valid header. */
static uint32_t turned_over(uint32_t received, uint32_t header)
{
    uint32_t mask = 0;
    for (int i = 0; i < 32; i++)
        if ((received >> i & 1) != (header >> i & 1))
            mask |= 1u << i;
    return mask;
}

static uint16_t checksum(const uint8_t *data, size_t length)
{
    unsigned sum = 0xffff;
    for (size_t i = 0; i < length; i++) {
        sum ^= (unsigned)data[i] << 8;
        for (int k = 0; k < 8; k++)
            sum = sum & 0x8000 ? (sum << 1 ^ 0xd175) & 0xffff : sum << 1;
    }
    return sum;
}

/* Sections (001, Figure 3 and 3.3): behind every 4,000 data bytes, and behind what remains of the data, stands the checksum of just these bytes. */

enum { SECTION = 4000, MOST_SECTIONS = 4, HEADER = 4, CHECKSUM = 2 };

static size_t most_data(bool rate_1200)
{
    return rate_1200 ? MOST_SECTIONS * SECTION : SECTION;
}

static size_t packet_size(size_t length)
{
    size_t sections = (length + SECTION - 1) / SECTION;
    return HEADER + length + CHECKSUM * sections;
}

/* The data bytes of a section that begins where so many remain. */
static size_t section_size(size_t remain)
{
    return remain < SECTION ? remain : SECTION;
}

/* Puts the data of all sections together. Answers false when a checksum differs, with the number of the first section in *bad of which it does. */
static bool read_sections(const uint8_t *packet, size_t length, uint8_t *data, size_t *bad)
{
    const uint8_t *from = packet + HEADER;
    size_t done = 0;
    *bad = 0;
    while (done < length) {
        size_t size = section_size(length - done);
        uint16_t sum = checksum(from, size);
        if (sum != (from[size] | from[size + 1] << 8))
            return false;
        memcpy(data + done, from, size);
        done += size;
        from += size + CHECKSUM;
        ++*bad;
    }
    return true;
}

static void write_sections(uint8_t *packet, size_t length, const uint8_t *data)
{
    uint8_t *to = packet + HEADER;
    size_t done = 0;
    while (done < length) {
        size_t size = section_size(length - done);
        uint16_t sum = checksum(data + done, size);
        memcpy(to, data + done, size);
        to[size] = sum & 0xff;
        to[size + 1] = sum >> 8;
        done += size;
        to += size + CHECKSUM;
    }
}

/* Reading. A reader of data counts the characters, and writes them where text is not NULL; and it counts the indicators, values and codes that it takes, in
 * *codes. It answers false when the data is malformed, with the bit in *bad at which the first unreadable piece starts. */

static bool at_end(const uint8_t *data, size_t bits, size_t at)
{
    if (bits - at > 7)
        return false;
    for (; at < bits; at++)
        if (!bit_at(data, at))
            return false;
    return true;
}

static void put_character(uint8_t *text, size_t *count, unsigned character)
{
    if (text)
        text[*count] = character;
    ++*count;
}

static bool read_open(const uint8_t *data, size_t length, uint8_t *text, size_t *count, size_t *codes)
{
    *count = 0;
    *codes = 0;
    for (size_t i = 0; i < length; i++)
        put_character(text, count, data[i]);
    return true;
}

/* Compact Pseudo Binary: the values 0 to 62 are the characters 64 to 126, and 63 is the question mark. */
static unsigned character_of(unsigned value)
{
    return value == 63 ? '?' : 64 + value;
}

static bool read_pseudo_binary(const uint8_t *data, size_t length, uint8_t *text, size_t *count, size_t *codes, size_t *bad)
{
    size_t bits = 8 * length;
    size_t at = 0;
    *count = 0;
    *codes = 0;
    while (!at_end(data, bits, at)) {
        *bad = at;
        if (bit_at(data, at)) {
            if (bits - at < 8)
                return false;
            unsigned run = bits_at(data, at + 1, 7) + 1;
            at += 8;
            ++*codes;
            for (; run > 0; run--) {
                *bad = at;
                if (bits - at < 6)
                    return false;
                put_character(text, count, character_of(bits_at(data, at, 6)));
                at += 6;
                ++*codes;
            }
        } else {
            if (bits - at < 6)
                return false;
            unsigned run = bits_at(data, at + 2, 4) + 1;
            for (unsigned i = 0; i < run; i++)
                put_character(text, count, bit_at(data, at + 1) ? '/' : ' ');
            at += 6;
            ++*codes;
        }
    }
    return true;
}

/* Compact Numeric and SHEF. Table 4's characters by their codes; those of Table 6 with six bits, where six ones are no code. A line end stands as LF in
 * the tables and in a piece of text, and reads as CR LF. */

static const char numeric_characters[] = "0123456789 +,-./";
static const char shef_characters[] = "ABCDEFGHIJKLMNOPQRSTUVWXYZ\n#=:;";

static void put_piece(uint8_t *text, size_t *count, unsigned piece)
{
    if (piece == '\n')
        put_character(text, count, '\r');
    put_character(text, count, piece);
}

/* Table 5: what two characters of Table 4 in a row mean, or 0. */
static unsigned meaning_of(unsigned first, unsigned second)
{
    if (first == '+' && second == '+')
        return '\n';
    if (first == '+' && second == '-')
        return '#';
    if (first == '-' && second == '+')
        return '=';
    if (first == '.' && second == '.')
        return ':';
    if (first == '-' && second == '-')
        return 'E';
    return 0;
}

static bool read_numeric(const uint8_t *data, size_t length, uint8_t *text, size_t *count, size_t *codes)
{
    size_t bits = 8 * length;
    size_t at = 0;
    *count = 0;
    *codes = 0;
    while (at < bits) {
        unsigned first = numeric_characters[bits_at(data, at, 4)], meaning = 0;
        if ((first == '+' || first == '-' || first == '.') && bits - at > 4)
            meaning = meaning_of(first, numeric_characters[bits_at(data, at + 4, 4)]);
        put_piece(text, count, meaning ? meaning : first);
        at += meaning ? 8 : 4;
        *codes += meaning ? 2 : 1;
    }
    return true;
}

static bool read_shef(const uint8_t *data, size_t length, uint8_t *text, size_t *count, size_t *codes, size_t *bad)
{
    size_t bits = 8 * length;
    size_t at = 0;
    *count = 0;
    *codes = 0;
    while (!at_end(data, bits, at)) {
        *bad = at;
        if (!bit_at(data, at)) {
            if (bits - at < 5)
                return false;
            put_piece(text, count, numeric_characters[bits_at(data, at, 5)]);
            at += 5;
            ++*codes;
            continue;
        }
        if (bits - at < 6)
            return false;
        unsigned code = bits_at(data, at, 6);
        if (code == 0x3f)
            return false;
        put_piece(text, count, shef_characters[code - 0x20]);
        at += 6;
        ++*codes;
    }
    return true;
}

static bool read_full_ascii(const uint8_t *data, size_t length, uint8_t *text, size_t *count, size_t *codes, size_t *bad)
{
    size_t bits = 8 * length;
    size_t at = 0;
    *count = 0;
    *codes = 0;
    while (!at_end(data, bits, at)) {
        *bad = at;
        if (!bit_at(data, at)) {
            if (bits - at < 6)
                return false;
            put_character(text, count, 32 + bits_at(data, at, 6));
            at += 6;
            ++*codes;
            continue;
        }
        if (bits - at < 7)
            return false;
        unsigned code = bits_at(data, at, 7);
        if (code != 0x7f) {
            put_character(text, count, code);
            at += 7;
            ++*codes;
            continue;
        }
        if (bits - at < 9)
            return false;
        switch (bits_at(data, at + 7, 2)) {
        case 0:
            put_character(text, count, '\t');
            break;
        case 1:
            put_character(text, count, '\r');
            break;
        case 2:
            put_character(text, count, '\n');
            break;
        case 3:
            put_character(text, count, '\r');
            put_character(text, count, '\n');
            break;
        }
        at += 9;
        ++*codes;
    }
    return true;
}

static bool read_data(unsigned format, const uint8_t *data, size_t length, uint8_t *text, size_t *count, size_t *codes, size_t *bad)
{
    if (format == 0)
        return read_open(data, length, text, count, codes);
    if (format == 1)
        return read_pseudo_binary(data, length, text, count, codes, bad);
    if (format == 2)
        return read_numeric(data, length, text, count, codes);
    if (format == 3)
        return read_shef(data, length, text, count, codes, bad);
    return read_full_ascii(data, length, text, count, codes, bad);
}

static rosopyat_read_answer refuse_reading(uint32_t refusal, size_t number)
{
    rosopyat_read_answer answer = {0};
    answer.refusal = refusal;
    answer.number = number;
    return answer;
}

static rosopyat_read_answer refuse_malformed(size_t bad, size_t codes)
{
    rosopyat_read_answer answer = refuse_reading(7, bad);
    answer.codes = codes;
    return answer;
}

rosopyat_read_answer independent_read_mending(uint32_t mend, bool rate_1200, const uint8_t *packet, size_t packet_length, uint8_t *text, size_t text_room)
{
    if (mend > 2)
        return refuse_reading(17, 0);
    if (packet_length < 4)
        return refuse_reading(1, 0);
    uint32_t received = (uint32_t)packet[0] << 24 | (uint32_t)packet[1] << 16 | (uint32_t)packet[2] << 8 | packet[3];
    uint32_t header;
    if (!find_header(received, mend, &header))
        return refuse_reading(2, 0);
    unsigned mended = ones(received ^ header);

    unsigned flag = header >> 24;
    unsigned type = flag >> 5 & 3, format = flag >> 2 & 7;
    if ((flag & 1) != 0 || type != 2 || format > 4)
        return refuse_reading(3, 0);
    size_t length = header >> 10 & 0x3fff;
    if (length == 0 || length > most_data(rate_1200))
        return refuse_reading(4, 0);
    if (packet_length < packet_size(length))
        return refuse_reading(5, 0);
    uint8_t data[MOST_SECTIONS * SECTION];
    size_t count = 0, codes = 0, bad = 0;
    if (!read_sections(packet, length, data, &bad))
        return refuse_reading(6, bad);

    if (!read_data(format, data, length, NULL, &count, &codes, &bad))
        return refuse_malformed(bad, codes);
    if (text_room < count)
        return refuse_reading(8, count);
    read_data(format, data, length, text, &count, &codes, &bad);

    rosopyat_read_answer answer = {0};
    answer.format = format;
    answer.sync = flag >> 1 & 1;
    answer.mended = mended;
    answer.mask = turned_over(received, header);
    answer.codes = codes;
    answer.data_length = length;
    answer.text_length = count;
    answer.used = packet_size(length);
    return answer;
}

rosopyat_read_answer independent_read(bool rate_1200, const uint8_t *packet, size_t packet_length, uint8_t *text, size_t text_room)
{
    return independent_read_mending(1, rate_1200, packet, packet_length, text, text_room);
}

/* Writing. */

/* The code of a character in Table 4, or NO_CODE. */
enum { NO_CODE = 0x40 };

static unsigned numeric_code(unsigned character)
{
    if (character >= '0' && character <= '9')
        return character - '0';
    if (character == ' ')
        return 10;
    if (character >= '+' && character <= '/')
        return 11 + character - '+';
    return NO_CODE;
}

/* Table 5: the two characters of Table 4 that stand for a piece of text, or NULL. */
static const char *pair_for(unsigned piece)
{
    switch (piece) {
    case '\n':
        return "++";
    case '#':
        return "+-";
    case '=':
        return "-+";
    case ':':
        return "..";
    case 'E':
        return "--";
    default:
        return NULL;
    }
}

/* The code of a piece of text in Table 6, or NO_CODE. Those from 0x20 on have six bits, the others five. */
static unsigned shef_code(unsigned piece)
{
    if (piece >= 'A' && piece <= 'Z')
        return 0x20 + piece - 'A';
    switch (piece) {
    case '\n':
        return 0x3a;
    case '#':
        return 0x3b;
    case '=':
        return 0x3c;
    case ':':
        return 0x3d;
    case ';':
        return 0x3e;
    default:
        return numeric_code(piece);
    }
}

/* The piece of text at `at`: a character, or a line end (CR LF, CR or LF), which stands as LF. Answers how many characters it has. */
static size_t take_piece(const uint8_t *text, size_t length, size_t at, unsigned *piece)
{
    *piece = text[at] == '\r' ? '\n' : text[at];
    return text[at] == '\r' && at + 1 < length && text[at + 1] == '\n' ? 2 : 1;
}

static bool has_code(unsigned format, unsigned piece)
{
    if (format == 1)
        return (piece >= 64 && piece <= 127) || piece == '?' || piece == ' ' || piece == '/';
    if (format == 2)
        return numeric_code(piece) != NO_CODE || pair_for(piece) != NULL;
    if (format == 3)
        return shef_code(piece) != NO_CODE;
    if (format == 4)
        return (piece >= 32 && piece <= 126) || piece == '\t' || piece == '\n';
    return true;
}

static size_t put_base(unsigned *base, unsigned piece)
{
    const char *pair = pair_for(piece);
    base[0] = pair ? (unsigned)pair[0] : piece;
    base[1] = pair ? pair[1] : 0;
    return pair ? 2 : 1;
}

/* Compact Numeric: whether two pieces in a row, written down in characters of Table 4, read back as the two. */
static bool reads_back(unsigned before, unsigned piece)
{
    unsigned base[5] = {0}, back[2] = {before, piece};
    size_t count = put_base(base, before), at = 0;
    count += put_base(base + count, piece);
    for (int i = 0; i < 2; i++) {
        unsigned meaning = meaning_of(base[at], base[at + 1]);
        if ((meaning ? meaning : base[at]) != back[i])
            return false;
        at += meaning ? 2 : 1;
    }
    return at == count;
}

/* The index of the first character that has no code where it stands, or the length. */
static size_t first_uncoded(unsigned format, const uint8_t *text, size_t length)
{
    unsigned before = 0, piece;
    size_t at = 0, taken;
    for (; at < length; at += taken) {
        taken = take_piece(text, length, at, &piece);
        if (!has_code(format, piece) || (format == 2 && at > 0 && !reads_back(before, piece)))
            break;
        before = piece;
    }
    return at;
}

/* Of space, slash and value: the kind of a character, and how many of it stand together, at most `most`. */

static int kind_of(unsigned character)
{
    return character == ' ' ? 0 : character == '/' ? 1 : 2;
}

static size_t run_length(const uint8_t *text, size_t length, size_t most)
{
    size_t run = 0;
    while (run < length && run < most && kind_of(text[run]) == kind_of(text[0]))
        run++;
    return run;
}

/* The value of a character: 127 is 63 too. */
static unsigned value_of(unsigned character)
{
    return character == '?' ? 63 : character - 64;
}

static void write_pseudo_binary(struct bit_row *row, const uint8_t *text, size_t length)
{
    size_t i = 0;
    while (i < length) {
        int kind = kind_of(text[i]);
        size_t run = run_length(text + i, length - i, kind == 2 ? 128 : 16);
        if (kind == 2) {
            put_bits(row, 1, 1);
            put_bits(row, run - 1, 7);
            for (size_t k = 0; k < run; k++)
                put_bits(row, value_of(text[i + k]), 6);
        } else {
            put_bits(row, kind, 2);
            put_bits(row, run - 1, 4);
        }
        i += run;
    }
}

static void write_numeric(struct bit_row *row, const uint8_t *text, size_t length)
{
    unsigned piece;
    for (size_t i = 0; i < length;) {
        i += take_piece(text, length, i, &piece);
        const char *pair = pair_for(piece);
        put_bits(row, numeric_code(pair ? (unsigned)pair[0] : piece), 4);
        if (pair)
            put_bits(row, numeric_code(pair[1]), 4);
    }
    if (row->bits % 8 != 0)
        put_bits(row, numeric_code(' '), 4);
}

static void write_shef(struct bit_row *row, const uint8_t *text, size_t length)
{
    unsigned piece;
    for (size_t i = 0; i < length;) {
        i += take_piece(text, length, i, &piece);
        unsigned code = shef_code(piece);
        put_bits(row, code, code < 0x20 ? 5 : 6);
    }
}

static void write_full_ascii(struct bit_row *row, const uint8_t *text, size_t length)
{
    for (size_t i = 0; i < length; i++) {
        unsigned character = text[i];
        if (character == '\t')
            put_bits(row, 0x7f << 2 | 0, 9);
        else if (character == '\n')
            put_bits(row, 0x7f << 2 | 2, 9);
        else if (character == '\r' && i + 1 < length && text[i + 1] == '\n') {
            put_bits(row, 0x7f << 2 | 3, 9);
            i++;
        } else if (character == '\r')
            put_bits(row, 0x7f << 2 | 1, 9);
        else if (character < 64)
            put_bits(row, character - 32, 6);
        else
            put_bits(row, character, 7);
    }
}

static void write_data(unsigned format, struct bit_row *row, const uint8_t *text, size_t length)
{
    if (format == 1)
        write_pseudo_binary(row, text, length);
    else if (format == 2)
        write_numeric(row, text, length);
    else if (format == 3)
        write_shef(row, text, length);
    else if (format == 4)
        write_full_ascii(row, text, length);
    else {
        for (size_t i = 0; row->data && i < length; i++)
            row->data[i] = text[i];
        row->bits += 8 * length;
    }
    while (row->bits % 8 != 0)
        put_bits(row, 1, 1);
}

static rosopyat_write_answer refuse_writing(uint32_t refusal, size_t number)
{
    rosopyat_write_answer answer = {0};
    answer.refusal = refusal;
    answer.number = number;
    return answer;
}

rosopyat_write_answer independent_write(bool rate_1200, uint32_t format, bool sync, const uint8_t *text, size_t text_length, uint8_t *packet,
                                        size_t packet_room)
{
    if (format > 4)
        return refuse_writing(12, 0);
    if (text_length == 0)
        return refuse_writing(10, 0);
    size_t uncoded = first_uncoded(format, text, text_length);
    if (uncoded < text_length)
        return refuse_writing(9, uncoded);
    struct bit_row row = {NULL, 0};
    write_data(format, &row, text, text_length);
    size_t length = row.bits / 8;
    if (length > most_data(rate_1200))
        return refuse_writing(11, 0);
    if (packet_room < packet_size(length))
        return refuse_writing(8, packet_size(length));

    uint8_t data[MOST_SECTIONS * SECTION];
    row.data = data;
    row.bits = 0;
    write_data(format, &row, text, text_length);
    uint32_t flag = 0x40u | format << 2 | (uint32_t)sync << 1;
    if (ones(flag) % 2 == 0)
        flag |= 0x80;
    uint32_t header = flag << 24 | (uint32_t)length << 10;
    header |= remainder_of(header & 0x7fffffff);
    for (int i = 0; i < 4; i++)
        packet[i] = header >> (24 - 8 * i);
    write_sections(packet, length, data);

    rosopyat_write_answer answer = {0};
    answer.length = packet_size(length);
    return answer;
}

/* Judging: the text that a packet carries is written again, and the bits of both are laid side by side. */

enum { MOST_TEXT = MOST_SECTIONS * SECTION * 8 / 6 * 16 }; /* as many indicators as there is room for, of 16 slashes each */

static size_t first_other_bit(const uint8_t *one, const uint8_t *other, size_t bits)
{
    size_t at = 0;
    while (at < bits && bit_at(one, at) == bit_at(other, at))
        at++;
    return at;
}

static rosopyat_judge_answer refuse_judging(rosopyat_read_answer read)
{
    rosopyat_judge_answer answer = {0};
    answer.refusal = read.refusal;
    answer.number = read.number;
    answer.codes = read.codes;
    return answer;
}

rosopyat_judge_answer independent_judge(uint32_t mend, bool rate_1200, const uint8_t *packet, size_t packet_length)
{
    uint8_t text[MOST_TEXT];
    uint8_t data[MOST_SECTIONS * SECTION];
    uint8_t ours[MOST_SECTIONS * SECTION];
    size_t bad = 0;
    rosopyat_read_answer read = independent_read_mending(mend, rate_1200, packet, packet_length, text, sizeof text);
    if (read.refusal != 0)
        return refuse_judging(read);
    read_sections(packet, read.data_length, data, &bad);
    struct bit_row row = {ours, 0};
    write_data(read.format, &row, text, read.text_length);

    rosopyat_judge_answer answer = {0};
    size_t same = first_other_bit(data, ours, row.bits);
    answer.more = read.data_length - row.bits / 8;
    answer.as_ours = same == row.bits && answer.more == 0;
    if (!answer.as_ours)
        answer.departs_at = same;
    return answer;
}
