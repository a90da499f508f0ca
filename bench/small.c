#include "small.h"
#include "words.h"

/* The longest text but Pseudo Binary's, and the longest data; behind each, what is written too much: sixteen bytes, and a run of 128 values. */
enum { MOST_OWN_TEXT = 42668 + 16, MOST_OWN_DATA = MOST_DATA + 112 };

/* The checksum: what four bit steps make of half a byte at the top of the register, which is at the top of the word, so that no mask is needed. */

static const uint32_t half_byte[16] = {0x00000000, 0xd1750000, 0x739f0000, 0xa2ea0000, 0xe73e0000, 0x364b0000, 0x94a10000, 0x45d40000,
                                       0x1f090000, 0xce7c0000, 0x6c960000, 0xbde30000, 0xf8370000, 0x29420000, 0x8ba80000, 0x5add0000};

static inline uint32_t step(uint32_t sum)
{
    return sum << 4 ^ half_byte[sum >> 28];
}

static inline uint32_t load_32(const uint8_t *from)
{
    uint32_t word;
    memcpy(&word, from, 4);
    return __builtin_bswap32(word);
}

/* The third and the fourth byte of a word wait below the register and move up into it. */
static ALWAYS_INLINE uint32_t sum_serially(uint32_t sum, const uint8_t *data, size_t length)
{
    size_t i = 0;
    for (; i + 4 <= length; i += 4) {
        sum ^= load_32(data + i);
        for (int k = 0; k < 8; k++)
            sum = step(sum);
    }
    for (; i < length; i++)
        sum = step(step(sum ^ (uint32_t)data[i] << 24));
    return sum;
}

#ifdef FOUR_PARTS
enum { PART = 24 };

/* The register behind 24 zero bytes: times x^192, which is x^11 + x^10 + x^4 + x^3 + x^2. */
static inline uint32_t after_zeros(uint32_t sum)
{
    uint32_t r = sum >> 16, v = r << 2 ^ r << 3 ^ r << 4 ^ r << 10 ^ r << 11;
    return step(step(step(v >> 16 << 20))) ^ v << 16;
}

/* The parts of a turn start from zero and wait for no other; those of the turn before are put together beside them. */
static ALWAYS_INLINE uint32_t sum_in_parts(uint32_t sum, const uint8_t *data, size_t turns)
{
    uint32_t a = 0, b = 0, c = 0, d = 0;
    for (size_t turn = 0; turn < turns; turn++, data += 4 * PART) {
        if (turn > 0)
            sum = after_zeros(after_zeros(after_zeros(after_zeros(sum) ^ a) ^ b) ^ c) ^ d;
        a = b = c = d = 0;
        for (int i = 0; i < PART; i += 4) {
            a ^= load_32(data + i);
            b ^= load_32(data + PART + i);
            c ^= load_32(data + 2 * PART + i);
            d ^= load_32(data + 3 * PART + i);
            for (int k = 0; k < 8; k++) {
                a = step(a);
                b = step(b);
                c = step(c);
                d = step(d);
            }
        }
    }
    return after_zeros(after_zeros(after_zeros(after_zeros(sum) ^ a) ^ b) ^ c) ^ d;
}
#endif

static inline uint16_t checksum(const uint8_t *data, size_t length)
{
    uint32_t sum = 0xffff0000;
#ifdef FOUR_PARTS
    size_t turns = length / (4 * PART);
    if (turns > 0)
        sum = sum_in_parts(sum, data, turns);
    data += turns * 4 * PART;
    length -= turns * 4 * PART;
#endif
    return sum_serially(sum, data, length) >> 16;
}

/* The remainder of the low 31 bits. The generator g divides x^31 + 1; the quotient is the upper 21 bits times (x^31 + 1) / g, without carries, less its
 * low 21 bits. Both g without its first term, 1101101001, and the other, 1101010111100100101001, are made of few factors. */
static inline uint32_t check_bits(uint32_t header)
{
    uint64_t upper = header >> 10 & 0x1fffff, product = upper ^ upper << 5;
    product ^= product << 13 ^ upper << 11;
    product ^= product << 3 ^ upper << 12 ^ upper << 20;
    uint32_t quotient = product >> 21;
    quotient ^= quotient << 3;
    return (header ^ quotient ^ quotient << 5 ^ quotient << 6) & 0x3ff;
}

/* All ones where the ones of a word are odd. */
static inline uint32_t odd(uint32_t word)
{
    return -(uint32_t)__builtin_parity(word);
}

/* The one or two of 31 bits that leave a remainder, or 0. With a for a root of x^5 + x^2 + 1, bit i is a^i: the remainder has the values s at a and t at
 * its cube, and bits i and k are wrong where a^i + a^k = s and a^3i + a^3k = t. So bit i is one of two, or, where s = a^i, the only one, if and only if
 * (s + a^i)^3 + a^3i = t. That is worked out for all i at once: bit i of z0 to z4 is that of a^i, of y0 to y4 that of a^3i, of w0 to w4 that of s + a^i. */
static uint32_t wrong_bits(uint32_t rest)
{
    const uint32_t z0 = 0x2ec7cd21, z1 = 0x5d8f9a42, z2 = 0x15d8f9a4, z3 = 0x2bb1f348, z4 = 0x5763e690;
    const uint32_t y0 = 0x351df261, y1 = 0x4c2d477c, y2 = 0x5a8ef930, y3 = 0x2616a3be, y4 = 0x77c985a8;
    uint32_t w0 = z0 ^ odd(rest & z0), w1 = z1 ^ odd(rest & z1), w2 = z2 ^ odd(rest & z2), w3 = z3 ^ odd(rest & z3), w4 = z4 ^ odd(rest & z4);
    uint32_t cube0 = w0 ^ (w1 & (w2 ^ w3)) ^ (w2 & w3) ^ (w0 & w4);
    uint32_t cube1 = (w0 & (w1 ^ w3)) ^ w2 ^ (w3 | w4);
    uint32_t cube2 = (w0 & (w1 ^ w2)) ^ (w1 & w2) ^ (w4 & ~(w0 ^ w2 ^ w3));
    uint32_t cube3 = w1 ^ (w2 | w3) ^ (w4 & ~(w0 ^ w2));
    uint32_t cube4 = (w2 & (w0 ^ w1)) ^ (w3 & ~(w1 ^ w2)) ^ (w4 & (w0 ^ w1 ^ w2 ^ w3));
    uint32_t others = (cube0 ^ y0 ^ odd(rest & y0)) | (cube1 ^ y1 ^ odd(rest & y1)) | (cube2 ^ y2 ^ odd(rest & y2)) | (cube3 ^ y3 ^ odd(rest & y3)) |
                      (cube4 ^ y4 ^ odd(rest & y4));
    return ~others & 0x7fffffff;
}

/* Eight characters or codes in a word, each below 128: the top bit of each that is a value, or is that or more. Other bits do not count. */

static inline uint64_t is(uint64_t eight, unsigned value)
{
    return ~((eight ^ EACH(value)) + EACH(0x7f));
}

static inline uint64_t from(uint64_t eight, unsigned value)
{
    return eight + EACH(0x80 - value);
}

/* A one for each top bit; the sum of eight numbers; all ones for each one. */

static inline uint64_t each_one(uint64_t top_bits)
{
    return top_bits >> 7 & EACH(1);
}

static inline unsigned sum_of(uint64_t eight)
{
    return eight * EACH(1) >> 56;
}

static inline uint64_t filled(uint64_t ones)
{
    return (ones << 8) - ones;
}

/* Eight bytes from `at` on, the first at the top; zeros behind the last. */
static ALWAYS_INLINE uint64_t load_word(const uint8_t *bytes, size_t length, size_t at)
{
    if (likely(at + 8 <= length))
        return load_64(bytes + at);
    if (likely(length >= 8))
        return load_64(bytes + length - 8) << (64 - 8 * (length - at));
    return load_some(bytes + at, length - at);
}

/* Reading Full ASCII and SHEF: the next bits of the data are held at the top of a word. */

struct in {
    const uint8_t *next, *end;
    uint64_t held;
    unsigned have; /* that count; those below them are right or zero */
};

/* At least 56 bits, or all that are left. */
static ALWAYS_INLINE void refill(struct in *in)
{
    if (likely(in->end - in->next >= 8)) {
        in->held |= load_64(in->next) >> in->have;
        in->next += (63 - in->have) / 8;
        in->have |= 56;
    } else
        for (; in->have <= 56 && in->next < in->end; in->have += 8)
            in->held |= (uint64_t)*in->next++ << (56 - in->have);
}

static inline void skip(struct in *in, unsigned width)
{
    in->held <<= width;
    in->have -= width;
}

static inline size_t put_control(uint8_t *text, unsigned control)
{
    text[0] = control == 0 ? '\t' : control == 2 ? '\n' : '\r';
    text[1] = '\n'; /* written again where it is too much */
    return control == 3 ? 2 : 1;
}

/* The fewer than 56 bits at the end. */
static bool end_of_full_ascii(struct in in, size_t length, uint8_t *text, size_t *count, size_t *codes, size_t *bad)
{
    for (; in.have > 7 || !all_ones(in.held, in.have); ++*codes) {
        unsigned code = in.held >> 57, width = in.held >> 63 ? code == 0x7f ? 9 : 7 : 6;
        if (in.have < width) {
            *bad = 8 * length - in.have;
            return false;
        }
        if (width == 9)
            *count += put_control(text + *count, in.held >> 55 & 3);
        else
            text[(*count)++] = width == 7 ? code : (code >> 1) + 32;
        skip(&in, width);
    }
    return true;
}

static ALWAYS_INLINE bool text_of_full_ascii(const uint8_t *data, size_t length, uint8_t *text, size_t *count, size_t *codes, size_t *bad)
{
    struct in in = {data, data + length, 0, 0};
    size_t done = 0, passed = 0;
    for (refill(&in); in.have >= 56; refill(&in), passed += 6)
        for (int i = 0; i < 6; i++) { /* six of at most nine bits */
            unsigned code = in.held >> 57, seven = in.held >> 63;
            if (unlikely(code == 0x7f)) {
                done += put_control(text + done, in.held >> 55 & 3);
                skip(&in, 9);
                continue;
            }
            text[done++] = seven ? code : (code >> 1) + 32;
            in.held = seven ? in.held << 7 : in.held << 6;
            in.have -= 6 + seven;
        }
    *count = done;
    *codes = passed;
    return end_of_full_ascii(in, length, text, count, codes, bad);
}

/* Compact SHEF: six bits where the first is a one, else five. A line end is 58, six ones are no code. */

enum { LINE_END = 58, SIX_ONES = 63 };

/* Of codes of four bits the characters: digits, space and + , - . / */
static inline uint64_t base_characters(uint64_t codes)
{
    uint64_t not_ten = (codes ^ EACH(10)) + EACH(15);
    return codes + EACH('0') - ((codes + EACH(6)) & EACH(16)) - (~not_ten >> 4 & EACH(1)) * 10;
}

/* Of six bits, the first a one, the characters: A to Z, behind these # = : ; */
static inline uint64_t letters(uint64_t codes)
{
    return codes + EACH(33) - each_one(from(codes, 59)) * 57 + each_one(from(codes, 60)) * 25 - each_one(from(codes, 61)) * 4;
}

static inline uint64_t shef_characters(uint64_t codes, uint64_t mask)
{
    return (letters(codes) & mask) | (base_characters(codes >> 1 & EACH(15)) & ~mask);
}

static bool end_of_shef(struct in in, size_t length, uint8_t *text, size_t *count, size_t *codes, size_t *bad)
{
    for (; in.have > 7 || !all_ones(in.held, in.have); ++*codes) {
        unsigned code = in.held >> 58, six = in.held >> 63;
        if (in.have < 5 + six || code == SIX_ONES) {
            *bad = 8 * length - in.have;
            return false;
        }
        if (code == LINE_END)
            text[(*count)++] = '\r';
        text[(*count)++] = code == LINE_END ? '\n' : shef_characters(code, -(uint64_t)six);
        skip(&in, 5 + six);
    }
    return true;
}

/* The first eight codes, six bits from the start of each on in a byte; answers how many bits all have. */
static ALWAYS_INLINE unsigned take_eight(uint64_t held, uint64_t *codes)
{
    uint64_t buffer = (held & ~(uint64_t)0xff) | 0x80; /* the last one bit tells how far all has moved */
    *codes = 0;
    for (int i = 0; i < 8; i++) {
        uint64_t five = buffer << 5;
        *codes = *codes << 8 | buffer >> 58;
        buffer = buffer >> 63 ? 2 * five : five;
    }
    return __builtin_ctzll(buffer) - 7;
}

static ALWAYS_INLINE bool text_of_shef(const uint8_t *data, size_t length, uint8_t *text, size_t *count, size_t *codes, size_t *bad)
{
    struct in in = {data, data + length, 0, 0};
    size_t done = 0, passed = 0;
    for (refill(&in); in.have >= 56; refill(&in)) {
        uint64_t eight;
        unsigned width = take_eight(in.held, &eight);
        uint64_t others = (is(eight, LINE_END) | is(eight, SIX_ONES)) & EACH(0x80), six = eight >> 5 & EACH(1);
        store_64(text + done, shef_characters(eight, filled(six)));
        if (likely(others == 0)) {
            skip(&in, width);
            done += 8;
            passed += 8;
            continue;
        }
        unsigned before = __builtin_clzll(others) / 8;
        if (before > 0)
            skip(&in, 5 * before + sum_of(six >> (64 - 8 * before)));
        done += before;
        passed += before;
        if (in.held >> 58 == SIX_ONES) {
            *codes = passed;
            *bad = 8 * (in.next - data) - in.have;
            return false;
        }
        text[done++] = '\r';
        text[done++] = '\n';
        passed++;
        skip(&in, 6);
    }
    *count = done;
    *codes = passed;
    return end_of_shef(in, length, text, count, codes, bad);
}

/* Compact Numeric. Two codes in a row that are both + or -, or both points, mean another character; such pairs are taken from the front. */

/* Eight codes, from four bits to a byte each. */
static inline uint64_t spread_codes(uint32_t eight)
{
    uint64_t v = (uint64_t)(eight >> 16) << 32 | (eight & 0xffff);
    v = (v << 8 | v) & 0x00ff00ff00ff00ff;
    return (v << 4 | v) & EACH(15);
}

/* Of BB, BD, DB, DD, EE: CR, of which LF is to follow, # = E : */
static inline unsigned meaning_of(unsigned two)
{
    unsigned left = two >> 6 & 1, right = two >> 2 & 1, points = ~two & 1;
    return '\r' + left * ('=' - '\r') + right * ('#' - '\r') - (left & right) * ('=' + '#' - '\r' - 'E') - points * ('E' - ':');
}

/* Up to 14 codes and the pair behind them in one turn. What a code is stands in its lowest bit in `sign` and `point`: + is 1011, - is 1101, a point 1110.
 * What is written too much is written again. */
static ALWAYS_INLINE size_t text_of_numeric(const uint8_t *data, size_t length, uint8_t *text)
{
    size_t at = 0, end = 2 * length, done = 0;
    while (at < end) {
        uint64_t word = load_word(data, length, at / 2) << 4 * (at % 2);
        uint64_t sign = word >> 3 & word & (word >> 2 ^ word >> 1), point = word >> 3 & word >> 2 & word >> 1 & ~word;
        uint64_t pairs = ((sign & sign << 4) | (point & point << 4)) & 0x1111111111111100;
        unsigned most = likely(end - at >= 14) ? 14 : end - at;
        unsigned plain = __builtin_clzll(pairs | (uint64_t)1 << (60 - 4 * most)) / 4, two = word << 4 * plain >> 56;
        store_64(text + done, base_characters(spread_codes(word >> 32)));
        store_64(text + done + 8, base_characters(spread_codes(word)));
        done += plain;
        at += plain;
        if (plain == most)
            continue;
        text[done] = meaning_of(two);
        text[done + 1] = '\n';
        done += 1 + (two == 0xbb);
        at += 2;
    }
    return done;
}

/* Both readers have a copy of all this, so that the number of bits to mend costs nothing where it is known. */
static ALWAYS_INLINE rosopyat_read_answer read_packet(uint32_t mend, bool rate_1200, const uint8_t *packet, size_t packet_length, uint8_t *text,
                                                      size_t text_room)
{
    if (mend > 2)
        return refuse_reading(17, 0);
    if (packet_length < 4)
        return refuse_reading(1, 0);
    uint32_t header = load_32(packet), mask = 0, rest = check_bits(header), mended = 0;
    if (unlikely(rest != 0)) {
        mask = mend == 0 ? 0 : wrong_bits(rest);
        mended = mask == 0 ? 3 : (mask & (mask - 1)) == 0 ? 1 : 2;
    }
    if (!__builtin_parity((header ^ mask) >> 24)) {
        mask |= 0x80000000;
        mended++;
    }
    if (mended > mend)
        return refuse_reading(2, 0);
    header ^= mask;
    unsigned flag = header >> 24, format = flag >> 2 & 7;
    if ((flag & 0x61) != 0x40 || format > 4)
        return refuse_reading(3, 0);
    size_t length = header >> 10 & 0x3fff;
    if (length - 1 >= most_data(rate_1200))
        return refuse_reading(4, 0);
    if (packet_length < packet_size(length))
        return refuse_reading(5, 0);
    uint8_t joined[MOST_DATA + 2], own[MOST_OWN_TEXT];
    size_t count = length, codes = 0, bad;
    const uint8_t *data = data_in_one_part(packet, length, joined, &bad);
    if (!data)
        return refuse_reading(6, bad);

    bool readable = true;
    if (format == 1)
        readable = measure_pseudo_binary(data, length, &count, &codes, &bad);
    else if (format == 2) {
        count = text_of_numeric(data, length, own);
        codes = 2 * length;
    } else if (format == 3)
        readable = text_of_shef(data, length, own, &count, &codes, &bad);
    else if (format == 4)
        readable = text_of_full_ascii(data, length, own, &count, &codes, &bad);
    if (!readable)
        return refuse_malformed(bad, codes);
    if (text_room < count)
        return refuse_reading(8, count);
    if (format == 1)
        text_of_pseudo_binary(data, length, text, count);
    else
        memcpy(text, format == 0 ? data : own, count);
    return (rosopyat_read_answer){.format = format,
                                  .sync = flag >> 1 & 1,
                                  .mended = mended,
                                  .mask = mask,
                                  .codes = codes,
                                  .data_length = length,
                                  .text_length = count,
                                  .used = packet_size(length)};
}

rosopyat_read_answer small_read(bool rate_1200, const uint8_t *packet, size_t packet_length, uint8_t *text, size_t text_room)
{
    return read_packet(1, rate_1200, packet, packet_length, text, text_room);
}

rosopyat_read_answer small_read_mending(uint32_t mend, bool rate_1200, const uint8_t *packet, size_t packet_length, uint8_t *text, size_t text_room)
{
    return read_packet(mend, rate_1200, packet, packet_length, text, text_room);
}

/* Writing: the data is built once, in memory of our own, since a refusal may change nothing. Where it gets too long it is begun again over itself: then
 * only whether all characters have codes is still to be found out. */

struct out {
    uint8_t *next, *limit;
    uint64_t held; /* bits that are still to be written, at the top; zeros below them */
    unsigned have; /* fewer than 8 */
    bool too_long;
};

/* A value of 1 to 56 bits. */
static ALWAYS_INLINE void put(struct out *out, uint64_t value, unsigned width)
{
    out->have += width;
    out->held |= value << (64 - out->have);
    store_64(out->next, out->held);
    out->next += out->have / 8;
    out->held <<= out->have & 56;
    out->have &= 7;
}

static inline void keep_within(struct out *out, uint8_t *own)
{
    if (unlikely(out->next > out->limit)) {
        out->too_long = true;
        out->next = own;
    }
}

/* Codes of `narrow` bits, or of `more` more where `wide` has a one, put side by side: first two, then four, then eight. */
static ALWAYS_INLINE uint64_t side_by_side(uint64_t codes, uint64_t wide, unsigned narrow, unsigned more)
{
    const unsigned times = (1u << more) - 1;
    uint64_t last = wide & 0x0001000100010001, left = (codes & 0xff00ff00ff00ff00) >> (8 - narrow);
    left += (left & ((last << 16) - last)) * times;
    uint64_t two = left | (codes & 0x00ff00ff00ff00ff);

    left = (two & 0xffff0000ffff0000) >> (16 - 2 * narrow);
    last = wide & 0x0000000100000001;
    left += (left & ((last << 32) - last)) * times;
    last = wide >> 8 & 0x0000000100000001;
    left += (left & ((last << 32) - last)) * times;
    uint64_t four = left | (two & 0x0000ffff0000ffff);

    unsigned right = (uint32_t)wide * 0x01010101u >> 24;
    return four >> 32 << (4 * narrow + more * right) | (uint32_t)four;
}

/* The first `count` of eight codes, at least one. */
static ALWAYS_INLINE void put_codes(struct out *out, uint64_t codes, uint64_t wide, unsigned count, unsigned narrow, unsigned more)
{
    codes >>= 64 - 8 * count;
    wide >>= 64 - 8 * count;
    unsigned width = narrow * count + more * sum_of(wide);
    uint64_t value = side_by_side(codes, wide, narrow, more);
    if (8 * (narrow + more) > 56 && unlikely(width > 56)) {
        put(out, value >> 32, width - 32);
        put(out, (uint32_t)value, 32);
    } else
        put(out, value, width);
}

static ALWAYS_INLINE bool data_of_pseudo_binary(const uint8_t *text, size_t length, uint8_t *own, struct out *out, size_t *bad)
{
    size_t at = 0;
    while (at < length) {
        unsigned character = text[at];
        keep_within(out, own);
        if (is_value(character)) {
            size_t run = run_of_values(text, length, at, 128), end = at + run;
            put(out, 0x80 | (run - 1), 8);
            for (; at + 8 <= end; at += 8)
                put(out, gather(load_64(text + at)), 48);
            if (at < end) {
                put(out, gather(load_word(text, length, at) >> (64 - 8 * (end - at))), 6 * (end - at));
                at = end;
            }
        } else if (character == ' ' || character == '/') {
            size_t run = run_of(character, text, length, at, 16);
            put(out, (character == '/' ? 0x10 : 0) | (run - 1), 6);
            at += run;
        } else {
            *bad = at;
            return false;
        }
    }
    return true;
}

/* The length of a line end: CR LF, CR or LF; 0 of anything else. */
static inline size_t line_end(const uint8_t *text, size_t length, size_t at)
{
    if (text[at] == '\r')
        return at + 1 < length && text[at + 1] == '\n' ? 2 : 1;
    return text[at] == '\n' ? 1 : 0;
}

static ALWAYS_INLINE bool data_of_full_ascii(const uint8_t *text, size_t length, uint8_t *own, struct out *out, size_t *bad)
{
    size_t at = 0;
    while (at < length) {
        uint64_t eight = load_word(text, length, at), low = eight & EACH(0x7f);
        uint64_t others = (~from(low, 32) | from(low, 127) | eight) & EACH(0x80);
        uint64_t seven = eight >> 6 & EACH(1), codes = low & ~((~low & EACH(0x40)) >> 1);
        keep_within(out, own);
        if (likely(others == 0)) {
            put_codes(out, codes, seven, 8, 6, 1);
            at += 8;
            continue;
        }
        unsigned before = __builtin_clzll(others) / 8;
        if (before > 0)
            put_codes(out, codes, seven, before, 6, 1);
        at += before;
        if (at == length)
            break;
        size_t taken = text[at] == '\t' ? 1 : line_end(text, length, at);
        if (taken == 0) {
            *bad = at;
            return false;
        }
        put(out, taken == 2 ? 0x1ff : text[at] == '\t' ? 0x1fc : text[at] == '\r' ? 0x1fd : 0x1fe, 9);
        at += taken;
    }
    return true;
}

/* Of characters: a base character's code is its low four bits, but the space's is 10; a letter's its low five and 31. */
static ALWAYS_INLINE bool data_of_shef(const uint8_t *text, size_t length, uint8_t *own, struct out *out, size_t *bad)
{
    size_t at = 0;
    while (at < length) {
        uint64_t eight = load_word(text, length, at), low = eight & EACH(0x7f);
        uint64_t space = is(low, ' '), hash = is(low, '#'), equals = is(low, '='), from_colon = from(low, ':'), behind = from(low, '<');
        uint64_t plain = (from(low, '+') & ~behind) | (from(low, 'A') & ~from(low, 'Z' + 1)) | space | hash | equals;
        uint64_t others = (~plain | eight) & EACH(0x80), letter = low >> 6 & EACH(1);
        uint64_t codes = (low & (EACH(15) | letter << 4)) + letter * 31 + each_one(space) * 10 + each_one(from_colon & ~behind) * 51 +
                         each_one(equals) * 47 + each_one(hash) * 56;
        uint64_t six = each_one(from_colon | hash);
        keep_within(out, own);
        if (likely(others == 0)) {
            put_codes(out, codes, six, 8, 5, 1);
            at += 8;
            continue;
        }
        unsigned before = __builtin_clzll(others) / 8;
        if (before > 0)
            put_codes(out, codes, six, before, 5, 1);
        at += before;
        if (at == length)
            break;
        size_t taken = line_end(text, length, at);
        if (taken == 0) {
            *bad = at;
            return false;
        }
        put(out, LINE_END, 6);
        at += taken;
    }
    return true;
}

/* Eight codes of four bits, from a byte each. */
static inline uint32_t gather_codes(uint64_t v)
{
    v = (v >> 4 | v) & 0x00ff00ff00ff00ff;
    v = (v >> 8 | v) & 0x0000ffff0000ffff;
    return v >> 16 | v;
}

/* A sign may have no sign after it and nothing whose codes begin with one, a point no point and no colon. */
static ALWAYS_INLINE bool data_of_numeric(const uint8_t *text, size_t length, uint8_t *own, struct out *out, size_t *bad)
{
    size_t at = 0;
    uint64_t sign_before = 0, point_before = 0;
    while (at < length) {
        uint64_t eight = load_word(text, length, at), low = eight & EACH(0x7f);
        uint64_t space = is(low, ' '), hash = is(low, '#'), equals = is(low, '='), colon = is(low, ':'), e = is(low, 'E');
        uint64_t sign = (is(low, '+') | is(low, '-')) & EACH(0x80), point = is(low, '.') & EACH(0x80);
        uint64_t special = hash | equals | e, plain = (from(low, '+') & ~from(low, ';')) | space | special;
        uint64_t clash = ((sign >> 8 | sign_before) & (sign | special)) | ((point >> 8 | point_before) & (point | colon));
        uint64_t others = (~plain | clash | eight) & EACH(0x80);
        uint64_t base_codes = (low & EACH(15)) + each_one(space) * 10, two = each_one(special | colon);
        uint64_t codes = base_codes + each_one(hash) * (0xbd - 3) + each_one(equals) * (0xdb - 13) + each_one(colon) * (0xee - 10) + each_one(e) * (0xdd - 5);
        keep_within(out, own);
        if (likely(others == 0)) {
            if (two == 0)
                put(out, gather_codes(base_codes), 32);
            else
                put_codes(out, codes, two, 8, 4, 4);
            sign_before = sign << 56;
            point_before = point << 56;
            at += 8;
            continue;
        }
        unsigned before = __builtin_clzll(others) / 8;
        if (before > 0)
            put_codes(out, codes, two, before, 4, 4);
        at += before;
        if (at == length)
            break;
        size_t taken = line_end(text, length, at);
        if (taken == 0 || (at > 0 && (text[at - 1] == '+' || text[at - 1] == '-'))) {
            *bad = at;
            return false;
        }
        put(out, 0xbb, 8);
        sign_before = point_before = 0;
        at += taken;
    }
    return true;
}

/* The data of a text, its length, which is one more than the most where it is too long, and whether all characters have a code. */
static ALWAYS_INLINE bool data_of(unsigned format, const uint8_t *text, size_t length, uint8_t *own, size_t most, size_t *data_length, size_t *bad)
{
    struct out out = {.next = own, .limit = own + most};
    bool coded = format == 1   ? data_of_pseudo_binary(text, length, own, &out, bad)
                 : format == 2 ? data_of_numeric(text, length, own, &out, bad)
                 : format == 3 ? data_of_shef(text, length, own, &out, bad)
                               : data_of_full_ascii(text, length, own, &out, bad);
    if (out.have > 0)
        *out.next++ = out.held >> 56 | (format == 2 ? 10 : 0xffu >> out.have);
    *data_length = out.too_long ? most + 1 : (size_t)(out.next - own);
    return coded;
}

rosopyat_write_answer small_write(bool rate_1200, uint32_t format, bool sync, const uint8_t *text, size_t text_length, uint8_t *packet, size_t packet_room)
{
    if (format > 4)
        return refuse_writing(12, 0);
    if (text_length == 0)
        return refuse_writing(10, 0);
    uint8_t own[MOST_OWN_DATA];
    size_t length = text_length, most = most_data(rate_1200), bad;
    if (format != 0 && !data_of(format, text, text_length, own, most, &length, &bad))
        return refuse_writing(9, bad);
    if (length > most)
        return refuse_writing(11, 0);
    if (packet_room < packet_size(length))
        return refuse_writing(8, packet_size(length));

    uint32_t flag = 0x40u | format << 2 | (uint32_t)sync << 1;
    flag |= (uint32_t)!__builtin_parity(flag) << 7;
    uint32_t header = flag << 24 | (uint32_t)length << 10;
    store_32(packet, header | check_bits(header));
    put_sections(packet, format == 0 ? text : own, length);
    return (rosopyat_write_answer){.length = packet_size(length)};
}
