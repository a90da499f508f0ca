#include "tuned.h"
#include "words.h"

enum { MOST_FULL_ASCII = 28446, MOST_NUMERIC = 32004, MOST_SHEF = 42668, NOT_MENDABLE = 3 };

static uint32_t checksum_table[256];
static uint16_t check_table[4][256];   /* what each header byte leaves as remainder; the top bit of the first is no part of it */
static uint32_t mending_table[1024];   /* the at most two of 31 bits that leave a remainder */
static uint8_t mending_count[1024];    /* how many those are, or NOT_MENDABLE */
static uint8_t ascii_code[256], ascii_width[256];
static uint8_t shef_code[256], shef_width[256];
static uint8_t shef_character[64];     /* by six bits, of which a code has the first five or all; CONTROL for a line end and for six ones */
static uint16_t shef_seen[256];        /* the width, and above it what is no plain character */
static uint32_t numeric_next[256];     /* see text_of_numeric */
static uint32_t numeric_text[4 * 256];
static uint32_t numeric_seen[256];     /* see measure_text_numeric */
static uint16_t numeric_number[256];   /* the characters that are not line ends, numbered from 1 */
static uint32_t numeric_two[32 * 32];  /* the codes of one such character or two, and above them, from bit 16, their width */

enum { CONTROL = 0, LINE_END = 58, SIX_ONES = 63, SHEF_OTHER = 0x100 };
enum { IS_LF = 1, FIRST_SIGN = 8, FIRST_POINT = 16, NO_CODE = 32, ONE_CODE = 0x400, TWO_CODES = 0x800 };
enum { BEFORE = 16, IS_CR = IS_LF << BEFORE, LAST_SIGN = FIRST_SIGN << BEFORE, LAST_POINT = FIRST_POINT << BEFORE, ANY = NO_CODE << BEFORE };

static uint32_t remainder_of(uint32_t word)
{
    for (int i = 30; i >= 10; i--)
        if (word >> i & 1)
            word ^= 0x769u << (i - 10);
    return word;
}

static const char base[] = "0123456789 +,-./", six_bits[] = "ABCDEFGHIJKLMNOPQRSTUVWXYZ\r#=:;";
static const char special[] = "\r#=:E";
static const uint8_t special_code[] = {0xbb, 0xbd, 0xdb, 0xee, 0xdd};

static void prepare_shef(void)
{
    for (unsigned i = 0; i < 256; i++)
        shef_seen[i] = SHEF_OTHER;
    for (unsigned i = 0; i < 16; i++) {
        unsigned character = base[i];
        shef_code[character] = i;
        shef_width[character] = shef_seen[character] = 5;
        shef_character[2 * i] = shef_character[2 * i + 1] = character;
    }
    for (unsigned i = 0; i < 31; i++) {
        unsigned character = six_bits[i];
        shef_code[character] = 32 + i;
        shef_width[character] = shef_seen[character] = 6;
        shef_character[32 + i] = character;
    }
    shef_seen['\r'] = SHEF_OTHER;
    shef_character[LINE_END] = shef_character[SIX_ONES] = CONTROL;
}

/* What two codes mean, or 0. */
static unsigned meaning_of(unsigned codes)
{
    for (int i = 0; i < 5; i++)
        if (special_code[i] == codes)
            return special[i];
    return 0;
}

/* The characters of a byte with what was put off before it, a code or 0, and the code that is put off. */
static void prepare_numeric_byte(unsigned state, unsigned before, unsigned byte)
{
    static const unsigned states[16] = {[0xb] = 1, [0xd] = 2, [0xe] = 3};
    unsigned codes[4], count = 0, put = 0;
    uint32_t text = 0;
    if (before)
        codes[count++] = before;
    codes[count++] = byte >> 4;
    codes[count++] = byte & 15;
    unsigned at = 0;
    while (at < count && !(at + 1 == count && states[codes[at]])) {
        unsigned meaning = at + 1 < count ? meaning_of(codes[at] << 4 | codes[at + 1]) : 0;
        text |= (meaning ? meaning : (unsigned)base[codes[at]]) << 8 * put++;
        if (meaning == '\r')
            text |= (uint32_t)'\n' << 8 * put++;
        at += meaning ? 2 : 1;
    }
    numeric_text[state << 8 | byte] = text | put << 24;
    numeric_next[byte] |= (at < count ? states[codes[at]] * 8 : 0) << 8 * state;
}

static void put_number(unsigned character, unsigned number, uint32_t codes)
{
    numeric_number[character] = number;
    numeric_two[number] = codes;
}

static void prepare_numeric(void)
{
    for (unsigned byte = 0; byte < 256; byte++) {
        prepare_numeric_byte(0, 0, byte);
        prepare_numeric_byte(1, 0xb, byte);
        prepare_numeric_byte(2, 0xd, byte);
        prepare_numeric_byte(3, 0xe, byte);
        numeric_seen[byte] = NO_CODE;
    }
    for (unsigned i = 0; i < 16; i++) {
        unsigned character = base[i];
        put_number(character, 1 + i, i | 4 << 16);
        numeric_seen[character] = ONE_CODE | ANY;
    }
    for (unsigned i = 0; i < 5; i++) {
        unsigned character = special[i];
        if (character != '\r')
            put_number(character, 16 + i, special_code[i] | 8 << 16);
        numeric_seen[character] = TWO_CODES | ANY | (character == ':' ? FIRST_POINT : FIRST_SIGN);
    }
    numeric_seen['+'] |= FIRST_SIGN | LAST_SIGN;
    numeric_seen['-'] |= FIRST_SIGN | LAST_SIGN;
    numeric_seen['.'] |= FIRST_POINT | LAST_POINT;
    numeric_seen['\n'] = numeric_seen['\r'] | IS_LF;
    numeric_seen['\r'] |= IS_CR;
    for (unsigned i = 1; i < 21; i++)
        for (unsigned k = 1; k < 21; k++) {
            uint32_t left = numeric_two[i], right = numeric_two[k];
            numeric_two[i << 5 | k] = (left & 0xffff) << (right >> 16) | (right & 0xffff) | ((left >> 16) + (right >> 16)) << 16;
        }
}

void tuned_prepare(void)
{
    prepare_shef();
    prepare_numeric();
    for (unsigned i = 0; i < 256; i++) {
        unsigned sum = i << 8;
        for (int k = 0; k < 8; k++)
            sum = sum & 0x8000 ? sum << 1 ^ 0xd175 : sum << 1;
        checksum_table[i] = sum << 16;
        for (int k = 0; k < 4; k++)
            check_table[k][i] = remainder_of((i << (24 - 8 * k)) & 0x7fffffff);
        ascii_width[i] = i < 64 ? 6 : 7;
        ascii_code[i] = i < 64 ? i - 32 : i;
    }
    memset(mending_count, NOT_MENDABLE, sizeof mending_count);
    mending_count[0] = 0;
    for (int i = 0; i < 31; i++) {
        uint32_t rest = remainder_of(1u << i);
        mending_table[rest] = 1u << i;
        mending_count[rest] = 1;
        for (int k = 0; k < i; k++) {
            uint32_t both = rest ^ remainder_of(1u << k);
            mending_table[both] = 1u << i | 1u << k;
            mending_count[both] = 2;
        }
    }
}

static inline uint16_t checksum(const uint8_t *data, size_t length)
{
    uint32_t sum = 0xffff0000; /* at the top of the word: no mask is needed */
    for (size_t i = 0; i < length; i++)
        sum = sum << 8 ^ checksum_table[sum >> 24 ^ data[i]];
    return sum >> 16;
}

static inline unsigned check_bits(uint32_t word)
{
    return check_table[0][word >> 24] ^ check_table[1][word >> 16 & 255] ^ check_table[2][word >> 8 & 255] ^ check_table[3][word & 255];
}

/* Compact Full ASCII: taken apart once, into memory of our own, since a refusal may change nothing. */

static ALWAYS_INLINE bool text_of_full_ascii(const uint8_t *data, size_t length, uint8_t *text, size_t *count, size_t *codes, size_t *bad)
{
    size_t bits = 8 * length, at = 0, done = 0, passed = 0;
    while (bits - at >= 64) {
        uint64_t buffer = load_64(data + at / 8) << at % 8;
        unsigned taken = 0;
        for (int i = 0; i < 6; i++) { /* six of at most nine bits */
            unsigned code = buffer >> 57, seven = buffer >> 63;
            if (unlikely(code == 0x7f)) {
                unsigned control = buffer >> 55 & 3;
                text[done] = "\t\r\n\r"[control];
                text[done + 1] = '\n';
                done += control == 3 ? 2 : 1;
                buffer <<= 9;
                taken += 9;
                continue;
            }
            text[done++] = seven ? code : (code >> 1) + 32;
            buffer = seven ? buffer << 7 : buffer << 6;
            taken += 6 + seven;
        }
        passed += 6;
        at += taken;
    }
    for (;;) {
        size_t rest = bits - at;
        uint64_t top = rest == 0 ? 0 : window(data, length, at);
        if (rest <= 7 && all_ones(top, rest))
            break;
        unsigned code = top >> 57, width = top >> 63 ? code == 0x7f ? 9 : 7 : 6;
        if (rest < width) {
            *codes = passed;
            *bad = at;
            return false;
        }
        if (width == 9) {
            unsigned control = top >> 55 & 3;
            text[done++] = "\t\r\n\r"[control];
            if (control == 3)
                text[done++] = '\n';
        } else
            text[done++] = width == 7 ? code : (code >> 1) + 32;
        passed++;
        at += width;
    }
    *count = done;
    *codes = passed;
    return true;
}

/* Compact Numeric. A + - or . at the end of a byte may begin a pair that ends in the next: it is put off until then. So a byte is read in one of four
 * states: nothing was put off before it, or one of the three. numeric_text has the characters of a byte in a state, the first lowest, and on top how many
 * they are; numeric_next[byte], shifted by a state times 8, the next state times 8, so that one shift leads from state to state. */

static ALWAYS_INLINE size_t text_of_numeric(const uint8_t *data, size_t length, uint8_t *text)
{
    size_t done = 0;
    uint32_t state = 0;
    for (size_t i = 0; i < length; i++) {
        uint32_t some = numeric_text[(state & 24) << 5 | data[i]];
        memcpy(text + done, &some, 4); /* what is too much is written again */
        done += some >> 24;
        state = numeric_next[data[i]] >> (state & 31);
    }
    if (state & 24)
        text[done++] = "\0+-."[state >> 3 & 3];
    return done;
}

/* Compact SHEF: taken apart once, as Full ASCII. */

static ALWAYS_INLINE bool text_of_shef(const uint8_t *data, size_t length, uint8_t *text, size_t *count, size_t *codes, size_t *bad)
{
    size_t bits = 8 * length, at = 0, done = 0, passed = 0;
    while (bits - at >= 64) {
        uint64_t buffer = load_64(data + at / 8) << at % 8;
        unsigned taken = 0;
        for (int i = 0; i < 9; i++) { /* nine of at most six bits */
            unsigned code = buffer >> 58, six = buffer >> 63, character = shef_character[code];
            if (unlikely(character == CONTROL)) {
                if (code == SIX_ONES) {
                    *codes = passed + i;
                    *bad = at + taken;
                    return false;
                }
                text[done++] = '\r';
                character = '\n';
            }
            text[done++] = character;
            buffer = six ? buffer << 6 : buffer << 5;
            taken += 5 + six;
        }
        passed += 9;
        at += taken;
    }
    for (;;) {
        size_t rest = bits - at;
        uint64_t top = rest == 0 ? 0 : window(data, length, at);
        if (rest <= 7 && all_ones(top, rest))
            break;
        unsigned code = top >> 58, width = 5 + (top >> 63);
        if (rest < width || code == SIX_ONES) {
            *codes = passed;
            *bad = at;
            return false;
        }
        if (code == LINE_END)
            text[done++] = '\r';
        text[done++] = code == LINE_END ? '\n' : shef_character[code];
        passed++;
        at += width;
    }
    *count = done;
    *codes = passed;
    return true;
}

/* What a valid header says, and what was mended in it. */
struct opened {
    uint32_t mask;
    unsigned mended, flag, format;
    size_t length;
};

/* Why a packet is refused by its header and its length alone, or 0. */
static ALWAYS_INLINE uint32_t open_packet(uint32_t mend, bool rate_1200, const uint8_t *packet, size_t packet_length, struct opened *opened)
{
    if (mend > 2)
        return 17;
    if (packet_length < 4)
        return 1;
    uint32_t header;
    memcpy(&header, packet, 4);
    header = __builtin_bswap32(header);
    unsigned rest = check_bits(header), mended = mending_count[rest];
    uint32_t mask = mending_table[rest];
    if (!__builtin_parity((header ^ mask) >> 24)) {
        mask |= 0x80000000;
        mended++;
    }
    if (mended > mend)
        return 2;
    header ^= mask;
    unsigned flag = header >> 24, format = flag >> 2 & 7;
    if ((flag & 0x61) != 0x40 || format > 4)
        return 3;
    size_t length = header >> 10 & 0x3fff;
    if (length - 1 >= most_data(rate_1200))
        return 4;
    *opened = (struct opened){mask, mended, flag, format, length};
    return packet_length < packet_size(length) ? 5 : 0;
}

/* Both readers have a copy of all this, so that the number of bits to mend costs nothing where it is known. */
static ALWAYS_INLINE rosopyat_read_answer read_packet(uint32_t mend, bool rate_1200, const uint8_t *packet, size_t packet_length, uint8_t *text,
                                                      size_t text_room)
{
    struct opened opened;
    uint32_t refusal = open_packet(mend, rate_1200, packet, packet_length, &opened);
    if (refusal != 0)
        return refuse_reading(refusal, 0);
    unsigned format = opened.format;
    size_t length = opened.length, count = length, codes = 0, bad;
    uint8_t joined[MOST_DATA + 2];
    const uint8_t *data = data_in_one_part(packet, length, joined, &bad);
    if (!data)
        return refuse_reading(6, bad);

    if (format == 0) {
        if (text_room < count)
            return refuse_reading(8, count);
        memcpy(text, data, count);
    } else if (format == 1) {
        if (!measure_pseudo_binary(data, length, &count, &codes, &bad))
            return refuse_malformed(bad, codes);
        if (text_room < count)
            return refuse_reading(8, count);
        text_of_pseudo_binary(data, length, text, count);
    } else if (format == 2) {
        uint8_t own[MOST_NUMERIC];
        count = text_of_numeric(data, length, own);
        codes = 2 * length;
        if (text_room < count)
            return refuse_reading(8, count);
        memcpy(text, own, count);
    } else if (format == 3) {
        uint8_t own[MOST_SHEF];
        if (!text_of_shef(data, length, own, &count, &codes, &bad))
            return refuse_malformed(bad, codes);
        if (text_room < count)
            return refuse_reading(8, count);
        memcpy(text, own, count);
    } else {
        uint8_t own[MOST_FULL_ASCII];
        if (!text_of_full_ascii(data, length, own, &count, &codes, &bad))
            return refuse_malformed(bad, codes);
        if (text_room < count)
            return refuse_reading(8, count);
        memcpy(text, own, count);
    }
    return (rosopyat_read_answer){.format = format,
                                  .sync = opened.flag >> 1 & 1,
                                  .mended = opened.mended,
                                  .mask = opened.mask,
                                  .codes = codes,
                                  .data_length = length,
                                  .text_length = count,
                                  .used = packet_size(length)};
}

rosopyat_read_answer tuned_read(bool rate_1200, const uint8_t *packet, size_t packet_length, uint8_t *text, size_t text_room)
{
    return read_packet(1, rate_1200, packet, packet_length, text, text_room);
}

rosopyat_read_answer tuned_read_mending(uint32_t mend, bool rate_1200, const uint8_t *packet, size_t packet_length, uint8_t *text, size_t text_room)
{
    return read_packet(mend, rate_1200, packet, packet_length, text, text_room);
}

/* Judging, as a packet is read: no text is put together. Open and Numeric are as ours once the checksums are right, SHEF once its codes are read. */

static rosopyat_judge_answer refuse_judging(uint32_t refusal, size_t number, size_t codes)
{
    return (rosopyat_judge_answer){.refusal = refusal, .number = number, .codes = codes};
}

/* Pseudo Binary: a run is what indicators of one kind count that follow one another. */

enum { VALUES = 2, NO_KIND = 3 }; /* spaces are 0, slashes 1 */
static const size_t nowhere = SIZE_MAX;

struct indicator {
    unsigned kind, count, most, width; /* `most` is what one of its kind counts at most */
};

static ALWAYS_INLINE struct indicator indicator_of(uint64_t top)
{
    if (top >> 63)
        return (struct indicator){VALUES, (top >> 56 & 0x7f) + 1, 128, 8};
    return (struct indicator){top >> 62, (top >> 58 & 15) + 1, 16, 6};
}

static inline unsigned values_under(struct indicator indicator)
{
    return indicator.kind == VALUES ? indicator.count : 0;
}

struct cuts {
    unsigned kind;  /* of the run */
    unsigned room;  /* how many more of the run our last indicator may count: one of theirs that counts no more is one that ours does not have */
    size_t spared;  /* the bits of those that ours does not have */
    size_t last_at; /* where the last of theirs stands */
    size_t departs; /* where the first of theirs stands that counts fewer than ours, or nowhere */
};

static ALWAYS_INLINE void add_cut(struct cuts *cuts, struct indicator next, size_t at)
{
    if (next.kind != cuts->kind)
        cuts->room = 0;
    else if (cuts->room > 0 && cuts->departs == nowhere)
        cuts->departs = cuts->last_at;
    bool spared = next.count <= cuts->room;
    cuts->room += (spared ? 0 : next.most) - next.count;
    cuts->spared += spared ? next.width : 0;
    cuts->kind = next.kind;
    cuts->last_at = at;
}

/* The first bit that is not ours in an indicator that counts fewer than ours, which counts as many of the run as it may. */
static size_t departure_of(const uint8_t *data, size_t length, size_t from)
{
    struct indicator theirs = indicator_of(window(data, length, from)), next = theirs;
    unsigned run = 0;
    for (size_t at = from; run < theirs.most && 8 * length - at >= theirs.width; at += next.width + 6 * values_under(next)) {
        next = indicator_of(window(data, length, at));
        if (next.kind != theirs.kind)
            break;
        run += next.count;
    }
    unsigned ours = run < theirs.most ? run : theirs.most;
    return from + theirs.width - (32 - __builtin_clz((theirs.count - 1) ^ (ours - 1)));
}

static rosopyat_judge_answer judge_pseudo_binary(const uint8_t *data, size_t length)
{
    struct cuts cuts = {NO_KIND, 0, 0, 0, nowhere};
    size_t at = 0, passed = 0, have = 0; /* how many bits of `top` count */
    uint64_t top = 0;
    for (;;) {
        size_t rest = 8 * length - at;
        if (have < 8) {
            top = window(data, length + 2, at);
            have = 57;
        }
        if (unlikely(rest <= 7)) {
            if (all_ones(top, rest))
                break;
            if (rest < 6 || top >> 63)
                return refuse_judging(7, at, passed);
        }
        struct indicator next = indicator_of(top);
        size_t width = next.width + 6 * values_under(next);
        if (unlikely(rest < width)) {
            size_t whole = (rest - 8) / 6;
            return refuse_judging(7, at + 8 + 6 * whole, passed + 1 + whole);
        }
        add_cut(&cuts, next, at);
        passed += 1 + values_under(next);
        at += width;
        have = have < width ? 0 : have - width;
        top <<= width % 64;
    }
    bool as_ours = cuts.departs == nowhere;
    return (rosopyat_judge_answer){
        .as_ours = as_ours, .departs_at = as_ours ? 0 : departure_of(data, length, cuts.departs), .more = length - (at - cuts.spared + 7) / 8};
}

/* Nine codes of at most six bits at a time, as long as 64 bits are left and none is six ones. */
static inline void pass_shef(const uint8_t *data, size_t bits, size_t *at, size_t *passed)
{
    while (bits - *at >= 64) {
        uint64_t buffer = load_64(data + *at / 8) << *at % 8;
        unsigned taken = 9 * 5, bad = 0;
        for (int i = 0; i < 9; i++) {
            unsigned six = buffer >> 63;
            bad |= buffer >= (uint64_t)SIX_ONES << 58;
            buffer = six ? buffer << 6 : buffer << 5;
            taken += six;
        }
        if (unlikely(bad))
            return;
        *passed += 9;
        *at += taken;
    }
}

static rosopyat_judge_answer judge_shef(const uint8_t *data, size_t length)
{
    size_t bits = 8 * length, at = 0, passed = 0;
    pass_shef(data, bits, &at, &passed);
    for (;;) {
        size_t rest = bits - at;
        uint64_t top = rest == 0 ? 0 : window(data, length, at);
        if (rest <= 7 && all_ones(top, rest))
            return (rosopyat_judge_answer){.as_ours = 1};
        unsigned width = 5 + (top >> 63);
        if (rest < width || top >> 58 == SIX_ONES)
            return refuse_judging(7, at, passed);
        passed++;
        at += width;
    }
}

/* Full ASCII: of CR and LF in two codes ours is one, which has a one where CR's has its only zero. */

struct lines {
    size_t at, passed, in_two, departs_at;
};

static inline void pass_control(const uint8_t *data, size_t length, struct lines *lines)
{
    enum { CR_AND_LF = 0x1fd << 9 | 0x1fe };
    if (8 * length - lines->at >= 18 && window(data, length, lines->at) >> 46 == CR_AND_LF) {
        if (lines->in_two++ == 0)
            lines->departs_at = lines->at + 7;
        lines->passed++;
        lines->at += 9;
    }
    lines->passed++;
    lines->at += 9;
}

/* Eight codes at a time of at most seven bits, or up to a control code and that, as long as 64 bits are left. */
static inline void pass_full_ascii(const uint8_t *data, size_t length, struct lines *lines)
{
    while (8 * length - lines->at >= 64) {
        uint64_t buffer = load_64(data + lines->at / 8) << lines->at % 8;
        unsigned taken = 0;
        int i = 0;
        for (; i < 8 && likely(buffer >> 57 != 0x7f); i++) {
            unsigned seven = buffer >> 63;
            buffer = seven ? buffer << 7 : buffer << 6;
            taken += 6 + seven;
        }
        lines->passed += i;
        lines->at += taken;
        if (i < 8)
            pass_control(data, length, lines);
    }
}

static rosopyat_judge_answer judge_full_ascii(const uint8_t *data, size_t length)
{
    struct lines lines = {0, 0, 0, 0};
    pass_full_ascii(data, length, &lines);
    for (;;) {
        size_t rest = 8 * length - lines.at;
        uint64_t top = rest == 0 ? 0 : window(data, length, lines.at);
        if (rest <= 7 && all_ones(top, rest))
            break;
        unsigned width = top >> 63 ? top >> 57 == 0x7f ? 9 : 7 : 6;
        if (rest < width)
            return refuse_judging(7, lines.at, lines.passed);
        if (width == 9)
            pass_control(data, length, &lines);
        else {
            lines.passed++;
            lines.at += width;
        }
    }
    return (rosopyat_judge_answer){
        .as_ours = lines.in_two == 0, .departs_at = lines.departs_at, .more = length - (lines.at - 9 * lines.in_two + 7) / 8};
}

rosopyat_judge_answer tuned_judge(uint32_t mend, bool rate_1200, const uint8_t *packet, size_t packet_length)
{
    struct opened opened;
    uint32_t refusal = open_packet(mend, rate_1200, packet, packet_length, &opened);
    if (refusal != 0)
        return refuse_judging(refusal, 0, 0);
    uint8_t joined[MOST_DATA + 2];
    size_t bad;
    const uint8_t *data = data_in_one_part(packet, opened.length, joined, &bad);
    if (!data)
        return refuse_judging(6, bad, 0);
    if (opened.format == 1)
        return judge_pseudo_binary(data, opened.length);
    if (opened.format == 3)
        return judge_shef(data, opened.length);
    if (opened.format == 4)
        return judge_full_ascii(data, opened.length);
    return (rosopyat_judge_answer){.as_ours = 1};
}

/* The bits that a text takes, or the index of its first character without a code. */
static bool measure_text_pseudo_binary(const uint8_t *text, size_t length, size_t *bits, size_t *bad)
{
    size_t at = 0, sum = 0;
    while (at < length) {
        unsigned character = text[at];
        if (is_value(character)) {
            size_t run = run_of_values(text, length, at, SIZE_MAX);
            sum += 6 * run + (run + 127) / 128 * 8;
            at += run;
        } else if (character == ' ' || character == '/') {
            size_t run = run_of(character, text, length, at, SIZE_MAX);
            sum += (run + 15) / 16 * 6;
            at += run;
        } else {
            *bad = at;
            return false;
        }
    }
    *bits = sum;
    return true;
}

struct out {
    uint8_t *next;
    uint64_t held; /* the low `have` bits are still to be written; the others do not count */
    unsigned have; /* fewer than 32 */
};

static inline void put(struct out *out, uint64_t value, unsigned width)
{
    out->held = out->held << width | value;
    out->have += width;
    if (out->have >= 32) {
        out->have -= 32;
        store_32(out->next, out->held >> out->have);
        out->next += 4;
    }
}

static inline void finish(struct out *out)
{
    if (out->have % 8 != 0) {
        unsigned fill = 8 - out->have % 8;
        out->held = out->held << fill | ((1u << fill) - 1);
        out->have += fill;
    }
    for (; out->have > 0; out->have -= 8)
        *out->next++ = out->held >> (out->have - 8);
}

static void data_of_pseudo_binary(const uint8_t *text, size_t length, uint8_t *data)
{
    struct out out = {data, 0, 0};
    size_t at = 0;
    while (at < length) {
        unsigned character = text[at];
        if (is_value(character)) {
            size_t run = run_of_values(text, length, at, 128), end = at + run;
            put(&out, 0x80 | (run - 1), 8);
            for (; at + 8 <= end; at += 8) {
                uint64_t eight = gather(load_64(text + at));
                put(&out, eight >> 24, 24);
                put(&out, eight & 0xffffff, 24);
            }
            for (; at < end; at++)
                put(&out, text[at] & 63, 6);
        } else {
            size_t run = run_of(character, text, length, at, 16);
            put(&out, (character == '/' ? 0x10 : 0) | (run - 1), 6);
            at += run;
        }
    }
    finish(&out);
}

/* Eight characters that have a plain code: none below 32, none above 126. */
static inline bool all_plain(uint64_t eight)
{
    uint64_t low = (eight & EACH(0x60)) + EACH(0x60); /* the top bit of each that is 32 or more */
    return (eight & EACH(0x80)) == 0 && (low & EACH(0x80)) == EACH(0x80) && ((eight + EACH(1)) & EACH(0x80)) == 0;
}

static bool measure_text_full_ascii(const uint8_t *text, size_t length, size_t *bits, size_t *bad)
{
    size_t at = 0, sum = 0;
    while (at < length) {
        if (at + 8 <= length) {
            uint64_t eight;
            memcpy(&eight, text + at, 8);
            if (all_plain(eight)) {
                sum += 48 + ((eight & EACH(0x40)) >> 6) * EACH(1) / ((uint64_t)1 << 56);
                at += 8;
                continue;
            }
        }
        size_t end = at + 8 < length ? at + 8 : length;
        for (; at < end; at++) {
            unsigned character = text[at];
            if (character >= 32 && character <= 126)
                sum += character < 64 ? 6 : 7;
            else if (character == '\r') {
                sum += 9;
                if (at + 1 < length && text[at + 1] == '\n')
                    at++;
            } else if (character == '\t' || character == '\n')
                sum += 9;
            else {
                *bad = at;
                return false;
            }
        }
    }
    *bits = sum;
    return true;
}

/* Four characters, the first lowest. */

static inline bool none_below_32(uint32_t four)
{
    return (((four & 0x60606060) + 0x60606060) & 0x80808080) == 0x80808080;
}

static inline void put_four(struct out *out, uint32_t four, const uint8_t *code, const uint8_t *width)
{
    unsigned a = four & 255, b = four >> 8 & 255, c = four >> 16 & 255, d = four >> 24;
    unsigned left = code[a] << width[b] | code[b], right = code[c] << width[d] | code[d];
    unsigned right_width = width[c] + width[d];
    put(out, (uint64_t)left << right_width | right, width[a] + width[b] + right_width);
}

static void data_of_full_ascii(const uint8_t *text, size_t length, uint8_t *data)
{
    struct out out = {data, 0, 0};
    size_t at = 0;
    while (at < length) {
        if (at + 4 <= length) {
            uint32_t four;
            memcpy(&four, text + at, 4);
            if (likely(none_below_32(four))) {
                put_four(&out, four, ascii_code, ascii_width);
                at += 4;
                continue;
            }
        }
        unsigned character = text[at++];
        if (likely(character >= 32))
            put(&out, ascii_code[character], ascii_width[character]);
        else if (character == '\r' && at < length && text[at] == '\n') {
            put(&out, 0x1ff, 9);
            at++;
        } else
            put(&out, character == '\t' ? 0x1fc : character == '\r' ? 0x1fd : 0x1fe, 9);
    }
    finish(&out);
}

/* Compact Numeric. What is seen of a character: whether it is LF, whether its codes begin with + or - or with ., whether it has none; how many they are;
 * and, sixteen bits above the first four, with which of these in the next it makes a pair: CR with LF, which then has no codes of its own, + - . with what
 * may not follow them, and every character with one that has no code. So the pairs of eight characters, added up, are the line ends of two characters, up
 * to four; eight and more tell of a character without a code. */

static bool measure_text_numeric(const uint8_t *text, size_t length, size_t *bits, size_t *bad)
{
    size_t at = 0, codes = 0;
    uint32_t before = ANY;
    for (; at + 8 <= length; at += 8) {
        uint32_t all = 0, pairs = 0, first = before;
        for (int i = 0; i < 8; i++) {
            uint32_t seen = numeric_seen[text[at + i]];
            all += seen;
            pairs += before >> BEFORE & seen;
            before = seen;
        }
        if (unlikely(pairs >= 8)) {
            before = first;
            break;
        }
        codes += all % IS_CR / ONE_CODE - 2 * pairs;
    }
    for (; at < length; at++) {
        uint32_t seen = numeric_seen[text[at]], pair = before >> BEFORE & seen;
        if (pair >= 8) {
            *bad = at;
            return false;
        }
        codes += seen % IS_CR / ONE_CODE - 2 * pair;
        before = seen;
    }
    *bits = 4 * codes;
    return true;
}

static void data_of_numeric(const uint8_t *text, size_t length, uint8_t *data)
{
    struct out out = {data, 0, 0};
    size_t at = 0;
    while (at < length) {
        if (at + 4 <= length) {
            uint32_t four;
            memcpy(&four, text + at, 4);
            if (likely(none_below_32(four))) {
                uint32_t left = numeric_two[numeric_number[four & 255] << 5 | numeric_number[four >> 8 & 255]];
                uint32_t right = numeric_two[numeric_number[four >> 16 & 255] << 5 | numeric_number[four >> 24]];
                put(&out, (left & 0xffff) << (right >> 16) | (right & 0xffff), (left >> 16) + (right >> 16));
                at += 4;
                continue;
            }
        }
        unsigned character = text[at++];
        if (likely(character >= 32)) {
            uint32_t codes = numeric_two[numeric_number[character]];
            put(&out, codes & 0xffff, codes >> 16);
        } else {
            put(&out, 0xbb, 8);
            if (character == '\r' && at < length && text[at] == '\n')
                at++;
        }
    }
    if (out.have % 8 != 0)
        put(&out, 0xa, 4);
    finish(&out);
}

/* Compact SHEF. */

static bool measure_text_shef(const uint8_t *text, size_t length, size_t *bits, size_t *bad)
{
    size_t at = 0, sum = 0;
    while (at < length) {
        if (at + 8 <= length) {
            unsigned eight = 0;
            for (int i = 0; i < 8; i++)
                eight += shef_seen[text[at + i]];
            if (likely(eight < SHEF_OTHER)) {
                sum += eight;
                at += 8;
                continue;
            }
        }
        size_t end = at + 8 < length ? at + 8 : length;
        for (; at < end; at++) {
            unsigned character = text[at], seen = shef_seen[character];
            if (seen < SHEF_OTHER)
                sum += seen;
            else if (character == '\r' || character == '\n') {
                sum += 6;
                if (character == '\r' && at + 1 < length && text[at + 1] == '\n')
                    at++;
            } else {
                *bad = at;
                return false;
            }
        }
    }
    *bits = sum;
    return true;
}

static void data_of_shef(const uint8_t *text, size_t length, uint8_t *data)
{
    struct out out = {data, 0, 0};
    size_t at = 0;
    while (at < length) {
        if (at + 4 <= length) {
            uint32_t four;
            memcpy(&four, text + at, 4);
            if (likely(none_below_32(four))) {
                put_four(&out, four, shef_code, shef_width);
                at += 4;
                continue;
            }
        }
        unsigned character = text[at++];
        if (likely(character >= 32))
            put(&out, shef_code[character], shef_width[character]);
        else {
            put(&out, LINE_END, 6);
            if (character == '\r' && at < length && text[at] == '\n')
                at++;
        }
    }
    finish(&out);
}

typedef bool measure_text(const uint8_t *, size_t, size_t *, size_t *);
typedef void data_of_text(const uint8_t *, size_t, uint8_t *);
static measure_text *const measures[5] = {NULL, measure_text_pseudo_binary, measure_text_numeric, measure_text_shef, measure_text_full_ascii};
static data_of_text *const data_of[5] = {NULL, data_of_pseudo_binary, data_of_numeric, data_of_shef, data_of_full_ascii};

rosopyat_write_answer tuned_write(bool rate_1200, uint32_t format, bool sync, const uint8_t *text, size_t text_length, uint8_t *packet, size_t packet_room)
{
    if (format > 4)
        return refuse_writing(12, 0);
    if (text_length == 0)
        return refuse_writing(10, 0);
    size_t bits = 8 * text_length, bad;
    if (format != 0 && !measures[format](text, text_length, &bits, &bad))
        return refuse_writing(9, bad);
    if (bits > 8 * most_data(rate_1200))
        return refuse_writing(11, 0);
    size_t length = (bits + 7) / 8;
    if (packet_room < packet_size(length))
        return refuse_writing(8, packet_size(length));

    if (format != 0)
        data_of[format](text, text_length, packet + 4);
    uint32_t flag = 0x40u | format << 2 | (uint32_t)sync << 1;
    flag |= (uint32_t)!__builtin_parity(flag) << 7;
    uint32_t header = flag << 24 | (uint32_t)length << 10;
    store_32(packet, header | check_bits(header));
    put_sections(packet, format == 0 ? text : packet + 4, length);
    return (rosopyat_write_answer){.length = packet_size(length)};
}
