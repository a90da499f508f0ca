/* No packet of a text is shorter than the writer's, through rosopyat.h: linked once with the independent implementation under the library's names, and once
 * with the library. The fewest bits before the fill of a text are found by looking through all ways to build it: from the text's end, over every indicator and
 * every code of the format's table that says what stands at a place, whatever the writer would choose. What is built is what the text comes back as (RULES,
 * Formats).
 *
 * Each text must be written, at both rates and with either sync bit, as a packet of just the bytes that these bits need, with data that says the text in just
 * these bits. One byte less of room must be refused with that number of bytes (8). Where the data bytes are more than the rate's most it must be refused with
 * 11, and where nothing says the text with 9.
 *
 * Each text is also built by makers that waste bits. Their packets must be read as the text, and have no fewer bytes. Their bits may be so many times the
 * fewest: 16 in Pseudo Binary, 2 in Full ASCII, 1 in the others; and some text must come to just that. */
#include "maker.h"
#include "rosopyat.h"

#include <stdio.h>
#include <stdlib.h>
#include <string.h>

enum { FORMATS = 5, SECTIONS = 4, MOST_WRONG = 5, LONGEST = 345000, MOST_MADE = 300000, BEHIND = 16, UNTOUCHED = 0xa5, NOTHING = -1, NO_WAY = 0x40000000 };

static unsigned below(unsigned limit)
{
    static uint64_t state = 1;
    state = state * 6364136223846793005 + 1442695040888963407;
    return (state >> 32) * limit >> 32;
}

static size_t most_data(bool rate_1200)
{
    return rate_1200 ? ROSOPYAT_MOST_DATA_1200 : ROSOPYAT_MOST_DATA;
}

/* The tables of 001, section 4. */

/* A code of one or two characters. Two begin with one character at most: CR, and CR LF. */
struct entry {
    unsigned characters; /* 0: no entry */
    uint8_t second;
    unsigned code, width;
};

static struct entry entries[FORMATS][256][2];
static const unsigned numeric_pairs[] = {0xbb, 0xbd, 0xdb, 0xee, 0xdd};

static void add_entry(unsigned format, unsigned first, int second, unsigned code, unsigned width)
{
    struct entry *entry = entries[format][first];
    entry += entry->characters > 0;
    *entry = (struct entry){second == NOTHING ? 1 : 2, second, code, width};
}

static void make_tables(void)
{
    static const char base[] = "0123456789 +,-./", special[] = "#=:E", more[] = "#=:;";
    for (unsigned i = 0; i < 256; i++)
        add_entry(ROSOPYAT_OPEN, i, NOTHING, i, 8);
    for (unsigned i = 0; i < 16; i++) {
        add_entry(ROSOPYAT_NUMERIC, base[i], NOTHING, i, 4);
        add_entry(ROSOPYAT_SHEF, base[i], NOTHING, i, 5);
    }
    add_entry(ROSOPYAT_NUMERIC, '\r', '\n', numeric_pairs[0], 8);
    add_entry(ROSOPYAT_SHEF, '\r', '\n', 0x3a, 6);
    for (unsigned i = 0; i < 4; i++) {
        add_entry(ROSOPYAT_NUMERIC, special[i], NOTHING, numeric_pairs[i + 1], 8);
        add_entry(ROSOPYAT_SHEF, more[i], NOTHING, 0x3b + i, 6);
    }
    for (unsigned i = 0; i < 26; i++)
        add_entry(ROSOPYAT_SHEF, 'A' + i, NOTHING, 0x20 + i, 6);
    for (unsigned i = 32; i < 127; i++)
        add_entry(ROSOPYAT_FULL_ASCII, i, NOTHING, i < 64 ? i - 32 : i, i < 64 ? 6 : 7);
    add_entry(ROSOPYAT_FULL_ASCII, '\t', NOTHING, 0x1fc, 9);
    add_entry(ROSOPYAT_FULL_ASCII, '\r', NOTHING, 0x1fd, 9);
    add_entry(ROSOPYAT_FULL_ASCII, '\n', NOTHING, 0x1fe, 9);
    add_entry(ROSOPYAT_FULL_ASCII, '\r', '\n', 0x1ff, 9);
}

static bool stands_at(const struct entry *entry, const uint8_t *text, size_t length, size_t at)
{
    return entry->characters == 1 || (entry->characters == 2 && at + 1 < length && text[at + 1] == entry->second);
}

/* Numeric: whether the receiver would take the code of the first, which is in Table 4, together with the first code of the second. */
static bool makes_a_pair(unsigned first, unsigned second)
{
    const struct entry *one = entries[ROSOPYAT_NUMERIC][first], *other = entries[ROSOPYAT_NUMERIC][second == '\n' ? '\r' : second];
    if (one->width != 4 || other->width == 0)
        return false;
    unsigned both = one->code << 4 | other->code >> (other->width - 4);
    for (unsigned i = 0; i < sizeof numeric_pairs / sizeof *numeric_pairs; i++)
        if (both == numeric_pairs[i])
            return true;
    return false;
}

/* Pseudo Binary: an indicator of a kind holds the count less one in its low bits; so many bits for each character follow. */
struct kind {
    unsigned indicator, width, each, most;
};
static const struct kind space = {0x00, 6, 0, 16}, slash = {0x10, 6, 0, 16}, value = {0x80, 8, 6, 128};

static const struct kind *kind_of(unsigned character)
{
    if (character == ' ')
        return &space;
    if (character == '/')
        return &slash;
    return character >= 63 && character <= 126 ? &value : NULL;
}

/* All ways. best[i] has the fewest bits of what stands from i on. */

static uint32_t best[LONGEST + 1];

static uint32_t least(uint32_t one, uint32_t other)
{
    return one < other ? one : other;
}

static uint32_t best_indicator(const uint8_t *text, size_t length, size_t at)
{
    const struct kind *kind = kind_of(text[at]);
    uint32_t bits = NO_WAY;
    for (size_t run = 1; kind && run <= kind->most && at + run <= length && kind_of(text[at + run - 1]) == kind; run++)
        bits = least(bits, kind->width + run * kind->each + best[at + run]);
    return bits;
}

static uint32_t best_code(unsigned format, const uint8_t *text, size_t length, size_t at)
{
    uint32_t bits = NO_WAY;
    if (format == ROSOPYAT_NUMERIC && at + 1 < length && makes_a_pair(text[at], text[at + 1]))
        return NO_WAY;
    const struct entry *entry = entries[format][text[at]];
    for (int i = 0; i < 2; i++)
        if (stands_at(&entry[i], text, length, at))
            bits = least(bits, entry[i].width + best[at + entry[i].characters]);
    return bits;
}

static void look_through(unsigned format, const uint8_t *text, size_t length)
{
    best[length] = 0;
    for (size_t at = length; at-- > 0;)
        best[at] = format == ROSOPYAT_PSEUDO_BINARY ? best_indicator(text, length, at) : best_code(format, text, length, at);
}

/* The text that is tried, what it comes back as, and the fewest bits of that. */

static struct {
    unsigned format;
    const uint8_t *text;
    size_t text_length, length;
    uint8_t back[LONGEST];
    uint32_t bits;
    size_t bytes;
} tried;

static unsigned texts, packets, wrong;

static void expect(bool as_wanted, const char *what)
{
    if (as_wanted)
        return;
    wrong++;
    printf("wrong: %s: format %u, %zu characters, fewest bits %u:", what, tried.format, tried.text_length, (unsigned)tried.bits);
    for (size_t i = 0; i < tried.text_length && i < 32; i++)
        printf(" %02X", tried.text[i]);
    printf("%s\n", tried.text_length > 32 ? " and so on" : "");
    if (wrong == MOST_WRONG)
        exit(1); /* the first few say enough */
}

static size_t come_back(unsigned format, const uint8_t *text, size_t length, uint8_t *back)
{
    bool one_line_end = format == ROSOPYAT_NUMERIC || format == ROSOPYAT_SHEF;
    size_t count = 0;
    for (size_t i = 0; i < length; i++) {
        if (one_line_end && (text[i] == '\r' || text[i] == '\n')) {
            i += text[i] == '\r' && i + 1 < length && text[i + 1] == '\n';
            back[count++] = '\r';
            back[count++] = '\n';
        } else
            back[count++] = format == ROSOPYAT_PSEUDO_BINARY && text[i] == 0x7f ? 0x3f : text[i];
    }
    return count;
}

static void look_at(unsigned format, const uint8_t *text, size_t length)
{
    tried.format = format;
    tried.text = text;
    tried.text_length = length;
    tried.length = come_back(format, text, length, tried.back);
    look_through(format, tried.back, tried.length);
    if (format == ROSOPYAT_NUMERIC && best[0] % 8 != 0) {
        tried.back[tried.length++] = ' ';
        look_through(format, tried.back, tried.length);
    }
    tried.bits = best[0];
    tried.bytes = (tried.bits + 7) / 8;
}

/* The data that was written, and how much of it was taken as codes of the text. */

static struct {
    uint8_t data[ROSOPYAT_MOST_DATA_1200];
    size_t bits, taken;
} written;

static unsigned next_bits(unsigned width)
{
    unsigned bits = 0;
    for (size_t at = written.taken; at < written.taken + width && at < written.bits; at++)
        bits = bits << 1 | (written.data[at / 8] >> (7 - at % 8) & 1);
    return bits;
}

static bool take(unsigned code, unsigned width)
{
    if (written.taken + width > written.bits || next_bits(width) != code)
        return false;
    written.taken += width;
    return true;
}

/* The characters from `at` on that the next indicator and its values say, or 0. */
static size_t take_run(size_t at)
{
    const struct kind *kind = kind_of(tried.back[at]);
    size_t run = (next_bits(kind->width) & (kind->most - 1)) + 1;
    if (at + run > tried.length || !take(kind->indicator | (run - 1), kind->width))
        return 0;
    for (size_t i = at; i < at + run; i++)
        if (kind_of(tried.back[i]) != kind || !take(kind->each > 0 ? tried.back[i] & 63 : 0, kind->each))
            return 0;
    return run;
}

static size_t take_code(size_t at)
{
    const struct entry *entry = entries[tried.format][tried.back[at]];
    for (int i = 0; i < 2; i++)
        if (stands_at(&entry[i], tried.back, tried.length, at) && take(entry[i].code, entry[i].width))
            return entry[i].characters;
    return 0;
}

/* Whether the packet's data says what the text comes back as in just the fewest bits, with nothing but fill behind them. */
static bool says_the_text(const uint8_t *packet)
{
    for (size_t i = 0; i < tried.bytes; i++)
        written.data[i] = packet[maker_place(i)];
    written.bits = 8 * tried.bytes;
    written.taken = 0;
    for (size_t at = 0, more; at < tried.length; at += more) {
        more = tried.format == ROSOPYAT_PSEUDO_BINARY ? take_run(at) : take_code(at);
        if (more == 0)
            return false;
    }
    unsigned fill = written.bits - written.taken;
    return written.taken == tried.bits && fill < 8 && next_bits(fill) == (1u << fill) - 1;
}

/* Writing. */

static uint8_t buffer[ROSOPYAT_MOST_PACKET_1200 + BEHIND];

static rosopyat_write_answer write_it(bool rate_1200, bool sync, size_t room)
{
    memset(buffer, UNTOUCHED, room + BEHIND);
    return rosopyat_write(rate_1200, tried.format, sync, tried.text, tried.text_length, buffer, room);
}

static bool untouched(size_t from, size_t to)
{
    while (from < to && buffer[from] == UNTOUCHED)
        from++;
    return from == to;
}

/* Which character has no code is not asked here. */
static void expect_refused(bool rate_1200, bool sync, size_t room, unsigned refusal, size_t number, const char *what)
{
    rosopyat_write_answer answer = write_it(rate_1200, sync, room);
    expect(answer.refusal == refusal && (refusal == ROSOPYAT_NO_CODE || answer.number == number) && answer.length == 0, what);
    expect(untouched(0, room + BEHIND), "a refusal changed the buffer");
}

static void try_writing(bool rate_1200, bool sync)
{
    if (tried.bits == NO_WAY) {
        expect_refused(rate_1200, sync, 64, ROSOPYAT_NO_CODE, 0, "nothing says the text, and it is not refused with 9");
        return;
    }
    if (tried.bytes > most_data(rate_1200)) {
        expect_refused(rate_1200, sync, ROSOPYAT_MOST_PACKET_1200, ROSOPYAT_TOO_LONG, 0, "fits in no packet, and is not refused with 11");
        expect_refused(rate_1200, sync, 0, ROSOPYAT_TOO_LONG, 0, "fits in no packet, and is not refused with 11 where there is no room");
        return;
    }
    size_t packet_length = maker_length(tried.bytes);
    expect_refused(rate_1200, sync, packet_length - 1, ROSOPYAT_NO_ROOM, packet_length, "one byte less is not refused with 8 and the fewest bytes");
    rosopyat_write_answer answer = write_it(rate_1200, sync, packet_length);
    expect(answer.refusal == ROSOPYAT_ACCEPTED && answer.number == 0 && answer.length == packet_length, "not written in the fewest bytes");
    expect(untouched(packet_length, packet_length + BEHIND), "bytes behind the packet changed");
    expect(says_the_text(buffer), "the data does not say the text in the fewest bits");
}

/* Makers that waste bits. */

enum way { SINGLY, AT_RANDOM, WAYS };

static uint8_t made[MOST_MADE];

static void make_runs(struct maker_bits *bits, enum way way)
{
    for (size_t at = 0, run; at < tried.length; at += run) {
        const struct kind *kind = kind_of(tried.back[at]);
        unsigned most = way == SINGLY ? 1 : 1 + below(kind->most);
        for (run = 1; run < most && at + run < tried.length && kind_of(tried.back[at + run]) == kind;)
            run++;
        maker_put(bits, kind->indicator | (run - 1), kind->width);
        for (size_t i = at; kind->each > 0 && i < at + run; i++)
            maker_put(bits, tried.back[i] & 63, kind->each);
    }
}

static void make_codes(struct maker_bits *bits, enum way way)
{
    for (size_t at = 0; at < tried.length;) {
        const struct entry *entry = entries[tried.format][tried.back[at]];
        unsigned which = way == AT_RANDOM && stands_at(&entry[1], tried.back, tried.length, at) ? below(2) : 0;
        maker_put(bits, entry[which].code, entry[which].width);
        at += entry[which].characters;
    }
}

/* How many times the fewest bits a maker may take at most, by the format's number, and whether one took just that. */
static const unsigned most_times[FORMATS] = {1, 16, 1, 1, 2};
static bool came_to_most[FORMATS];

/* Answers the bytes of the data, which may be too many for a packet. */
static size_t make(enum way way, struct maker_bits *bits)
{
    *bits = (struct maker_bits){made + 4, 0, 0};
    if (most_times[tried.format] * tried.bytes + 8 > sizeof made) {
        printf("%zu data bytes are too many for a wasteful maker here\n", tried.bytes);
        exit(2);
    }
    if (tried.format == ROSOPYAT_PSEUDO_BINARY)
        make_runs(bits, way);
    else
        make_codes(bits, way);
    expect(bits->bits >= tried.bits, "a wasteful maker takes fewer bits than the fewest");
    expect(bits->bits <= (size_t)most_times[tried.format] * tried.bits, "a wasteful maker takes more than so many times the fewest bits");
    came_to_most[tried.format] |= bits->bits == (size_t)most_times[tried.format] * tried.bits;
    return maker_fill(bits);
}

static void try_reading(enum way way)
{
    static uint8_t read[ROSOPYAT_MOST_TEXT_1200];
    struct maker_bits bits;
    size_t data_length = make(way, &bits);
    if (data_length > ROSOPYAT_MOST_DATA_1200)
        return;
    size_t packet_length = maker_close(made, MAKER_FLAG_OPEN | tried.format << 2, data_length);
    expect(packet_length >= maker_length(tried.bytes), "a wasteful maker takes fewer bytes than the fewest");
    packets++;
    for (int rate = 0; rate < 2; rate++) {
        if (data_length > most_data(rate))
            continue;
        rosopyat_read_answer answer = rosopyat_read(rate, made, packet_length, read, sizeof read);
        bool as_made = answer.refusal == ROSOPYAT_ACCEPTED && answer.format == tried.format && answer.data_length == data_length;
        expect(as_made && answer.text_length == tried.length && memcmp(read, tried.back, tried.length) == 0,
               "the packet of a wasteful maker is not read as the text");
    }
}

static void try_text(unsigned format, const uint8_t *text, size_t length)
{
    look_at(format, text, length);
    texts++;
    for (int rate = 0; rate < 2; rate++)
        for (int sync = 0; sync < 2; sync++)
            try_writing(rate, sync);
    for (enum way way = 0; way < WAYS && tried.bits != NO_WAY; way++)
        try_reading(way);
}

/* Texts. */

static uint8_t draft[LONGEST];
static size_t draft_length;

static void add(const char *characters)
{
    for (; *characters; characters++)
        draft[draft_length++] = *characters;
}

static void try_short(void)
{
    static const struct {
        unsigned format, longest;
        const char *alphabet;
    } rows[] = {{ROSOPYAT_OPEN, 4, "\r\nA"},
                {ROSOPYAT_PSEUDO_BINARY, 9, "A /"},
                {ROSOPYAT_NUMERIC, 5, "\r\n0 +.:"},
                {ROSOPYAT_SHEF, 7, "\r\n0A"},
                {ROSOPYAT_FULL_ASCII, 6, "\r\n\t0A"}};
    for (unsigned row = 0; row < sizeof rows / sizeof *rows; row++)
        for (unsigned length = 1, count = strlen(rows[row].alphabet), all = count; length <= rows[row].longest; length++, all *= count)
            for (unsigned number = 0; number < all; number++) {
                for (unsigned i = 0, rest = number; i < length; i++, rest /= count)
                    draft[i] = rows[row].alphabet[rest % count];
                try_text(rows[row].format, draft, length);
            }
}

/* Runs by themselves, and between two others. */
static void try_runs(void)
{
    enum { PIECES = 5, LONGEST_RUN = 300 };
    static const struct {
        unsigned format;
        const char *piece[PIECES];
    } rows[] = {{ROSOPYAT_OPEN, {"\r\n", "A"}},
                {ROSOPYAT_PSEUDO_BINARY, {"A", " ", "/"}},
                {ROSOPYAT_NUMERIC, {"\r\n", "\n", "0", ":"}},
                {ROSOPYAT_SHEF, {"\r\n", "\n", "0", "A"}},
                {ROSOPYAT_FULL_ASCII, {"\r\n", "\r", "\n", "0", "A"}}};
    for (unsigned row = 0; row < sizeof rows / sizeof *rows; row++)
        for (unsigned which = 0; which < PIECES && rows[row].piece[which]; which++)
            for (unsigned run = 1; run <= LONGEST_RUN; run++)
                for (unsigned beside = 0; beside < PIECES && rows[row].piece[beside]; beside++) {
                    draft_length = 0;
                    add(beside == which ? "" : rows[row].piece[beside]);
                    for (unsigned i = 0; i < run; i++)
                        add(rows[row].piece[which]);
                    add(beside == which ? "" : rows[row].piece[beside]);
                    try_text(rows[row].format, draft, draft_length);
                }
}

/* In Numeric nothing is added that has no code there. */
static void add_coded(unsigned format, unsigned character)
{
    if (format != ROSOPYAT_NUMERIC || draft_length == 0 || !makes_a_pair(draft[draft_length - 1], character))
        draft[draft_length++] = character;
}

static unsigned alphabet_of(unsigned format, uint8_t *alphabet)
{
    unsigned count = 0;
    for (unsigned i = 0; i < 256; i++) {
        look_at(format, &(uint8_t){i}, 1);
        if (tried.bits != NO_WAY)
            alphabet[count++] = i;
    }
    return count;
}

/* Runs of spaces and of slashes, or line ends, between runs of any characters of the format. */
static void make_random(unsigned format, size_t least_length)
{
    static const char *const pieces[] = {" ", "/", "\r\n", "\r", "\n"};
    static const unsigned longest_runs[] = {1, 4, 40, 300};
    uint8_t alphabet[256];
    unsigned count = alphabet_of(format, alphabet);
    for (draft_length = 0; draft_length < least_length;) {
        const char *piece = format == ROSOPYAT_PSEUDO_BINARY ? pieces[below(2)] : pieces[2 + below(3)];
        bool any = below(2);
        for (unsigned run = 1 + below(longest_runs[below(4)]); run > 0; run--)
            if (any)
                add_coded(format, alphabet[below(count)]);
            else
                for (const char *character = piece; *character; character++)
                    add_coded(format, *character);
    }
}

static void try_random(void)
{
    for (unsigned format = 0; format < FORMATS; format++)
        for (unsigned i = 0; i < 300; i++) {
            make_random(format, i % 30 == 0 ? 4000 : 1 + below(300));
            try_text(format, draft, draft_length);
        }
}

/* The next longer part up to the text's end that something says. */
static size_t next_longer(size_t from)
{
    do
        from--;
    while (from > 0 && best[from] == NO_WAY);
    return from;
}

/* With LF for CR LF: in Numeric and SHEF it comes back as it was. */
static void try_with_lone_line_ends(unsigned format, const uint8_t *text, size_t length)
{
    static uint8_t other[LONGEST];
    size_t count = 0;
    for (size_t i = 0; i < length; i++)
        if (text[i] != '\r')
            other[count++] = text[i];
    try_text(format, other, count);
}

/* Of a text that is too long, both sides of the end of each section: the longest part up to its end that does not go over it, and the next longer. */
static void try_ends(unsigned format)
{
    static uint8_t back[LONGEST];
    size_t length = come_back(format, draft, draft_length, back), from[SECTIONS][2];
    look_through(format, back, length);
    for (unsigned section = 0; section < SECTIONS; section++) {
        size_t *const ends = from[section];
        ends[0] = length;
        for (ends[1] = next_longer(length); ends[1] > 0 && best[ends[1]] <= 8 * MAKER_SECTION * (section + 1); ends[1] = next_longer(ends[1]))
            ends[0] = ends[1];
    }
    for (unsigned section = 0; section < SECTIONS; section++)
        for (int over = 0; over < 2; over++) {
            size_t at = from[section][over];
            try_text(format, back + at, length - at);
            if (format == ROSOPYAT_NUMERIC || format == ROSOPYAT_SHEF)
                try_with_lone_line_ends(format, back + at, length - at);
            expect((tried.bytes > MAKER_SECTION * (section + 1)) == over, "not the side of a section's end that was sought");
        }
}

static void try_long(void)
{
    static const struct {
        unsigned format;
        const char *piece;
    } rows[] = {{ROSOPYAT_OPEN, "A"},     {ROSOPYAT_PSEUDO_BINARY, "A"}, {ROSOPYAT_PSEUDO_BINARY, " "}, {ROSOPYAT_PSEUDO_BINARY, "/"},
                {ROSOPYAT_NUMERIC, "00"}, {ROSOPYAT_NUMERIC, "\r\n"},    {ROSOPYAT_SHEF, "0"},          {ROSOPYAT_SHEF, "A"},
                {ROSOPYAT_SHEF, "\r\n"},  {ROSOPYAT_FULL_ASCII, "0"},    {ROSOPYAT_FULL_ASCII, "A"},    {ROSOPYAT_FULL_ASCII, "\r\n"}};
    for (unsigned row = 0; row < sizeof rows / sizeof *rows; row++) {
        look_at(rows[row].format, (const uint8_t *)rows[row].piece, strlen(rows[row].piece));
        unsigned count = 8 * (ROSOPYAT_MOST_DATA_1200 + 10) / tried.bits * (rows[row].format == ROSOPYAT_PSEUDO_BINARY ? slash.most : 1);
        for (draft_length = 0; count > 0; count--)
            add(rows[row].piece);
        try_ends(rows[row].format);
    }
    for (unsigned format = 0; format < FORMATS; format++)
        for (int i = 0; i < 3; i++) {
            make_random(format, 4 * ROSOPYAT_MOST_DATA_1200);
            try_ends(format);
        }
}

/* The bytes are worked out by hand. A slash by itself has 6 bits, a value 14, a line end in two codes 18: 4,000 bytes hold 5,333, 2,285 and 1,777 of them, and
 * no more. In the fullest runs 16 slashes have 6 bits and 128 values 776: 4,000 bytes hold 16 times 5,333 slashes, 16,000 hold 16 times 21,333, and no more. */
static void try_named(void)
{
    static const struct {
        const char *what;
        unsigned format;
        const char *piece;
        unsigned count;
        size_t singly, fewest;
    } rows[] = {
        {"5,333 slashes", ROSOPYAT_PSEUDO_BINARY, "/", 5333, 4000, 251},
        {"5,334 slashes", ROSOPYAT_PSEUDO_BINARY, "/", 5334, 4001, 251},
        {"85,328 slashes", ROSOPYAT_PSEUDO_BINARY, "/", 85328, 63996, 4000},
        {"85,329 slashes", ROSOPYAT_PSEUDO_BINARY, "/", 85329, 63997, 4001},
        {"341,328 slashes", ROSOPYAT_PSEUDO_BINARY, "/", 341328, 255996, 16000},
        {"341,329 slashes", ROSOPYAT_PSEUDO_BINARY, "/", 341329, 255997, 16001},
        {"16 spaces", ROSOPYAT_PSEUDO_BINARY, " ", 16, 12, 1},
        {"128 values", ROSOPYAT_PSEUDO_BINARY, "A", 128, 224, 97},
        {"2,285 values", ROSOPYAT_PSEUDO_BINARY, "A", 2285, 3999, 1732},
        {"2,286 values", ROSOPYAT_PSEUDO_BINARY, "A", 2286, 4001, 1733},
        {"1,777 line ends", ROSOPYAT_FULL_ASCII, "\r\n", 1777, 3999, 2000},
        {"1,778 line ends", ROSOPYAT_FULL_ASCII, "\r\n", 1778, 4001, 2001},
    };
    for (unsigned row = 0; row < sizeof rows / sizeof *rows; row++) {
        struct maker_bits bits;
        draft_length = 0;
        for (unsigned i = 0; i < rows[row].count; i++)
            add(rows[row].piece);
        try_text(rows[row].format, draft, draft_length);
        expect(tried.bytes == rows[row].fewest && make(SINGLY, &bits) == rows[row].singly, rows[row].what);
    }
}

int main(void)
{
    make_tables();
    try_named();
    try_short();
    try_runs();
    try_random();
    try_long();
    for (unsigned format = 0; format < FORMATS; format++)
        if (!came_to_most[format]) {
            wrong++;
            printf("wrong: in format %u no wasteful maker took %u times the fewest bits\n", format, most_times[format]);
        }
    printf("%u texts, each in its fewest bits, %u packets of wasteful makers, %u wrong\n", texts, packets, wrong);
    return wrong != 0;
}
