/* Packets of any maker judged, through rosopyat.h: linked once with the independent implementation under the library's names, and once with the library. What
 * must come of a packet is worked out while it is put together, or by hand: no writer is asked.
 *
 * In Pseudo Binary data departs at the first indicator that does not count what the fullest would count there, in the first bit in which the two counts differ.
 * In Full ASCII it departs at the first line end in two codes, in the last bit but one of the CR's: that code ends in 01, and the one code of both in 11. The
 * data bytes more are those of the bits that were put, less those that the text needs in the fullest runs and with each line end in one code.
 *
 * Runs are cut at every place and in all pieces, and so are line ends; in data of several sections in each, and over its end; in the longest texts, and in
 * those that are made in the most bytes. Beside that the published packets are judged (file given), packets worked out by hand under every pattern of up to
 * two flipped header bits, and what is refused. The run ends at the first wrong answer. */
#include "maker.h"
#include "rosopyat.h"

#include <ctype.h>
#include <stdio.h>
#include <stdlib.h>
#include <string.h>

/* The struct as the library lays it out, and what a caller names. */
_Static_assert(sizeof(rosopyat_judge_answer) == 48 && offsetof(rosopyat_judge_answer, number) == 8 && offsetof(rosopyat_judge_answer, codes) == 16 &&
                   offsetof(rosopyat_judge_answer, as_ours) == 24 && offsetof(rosopyat_judge_answer, departs_at) == 32 &&
                   offsetof(rosopyat_judge_answer, more) == 40,
               "layout of the judge's answer");
_Static_assert(_Generic(&rosopyat_judge, rosopyat_judge_answer(*)(uint32_t, bool, const uint8_t *, size_t): 1, default: 0), "parameters of the judge");

enum { SECTION_BITS = 8 * MAKER_SECTION, SECTIONS = 4, MOST_MENDED = 2, BEHIND = 8, SHOWN = 64 };

/* How many answers were as they must be; of those that depart also how many in no more bytes, and at the last bit of a section or the first of another. */
static struct {
    unsigned as_ours, departing, as_long, before_seam, behind_seam, refused;
} judged;

static void count_answer(rosopyat_judge_answer answer)
{
    bool departs = answer.refusal == 0 && !answer.as_ours;
    judged.as_ours += answer.as_ours;
    judged.refused += answer.refusal != 0;
    judged.departing += departs;
    judged.as_long += departs && answer.more == 0;
    judged.before_seam += departs && answer.departs_at % SECTION_BITS == SECTION_BITS - 1;
    judged.behind_seam += departs && answer.departs_at >= SECTION_BITS && answer.departs_at % SECTION_BITS == 0;
}

static void print_answer(const char *name, rosopyat_judge_answer a)
{
    printf("%s: refusal %u number %zu codes %zu as_ours %u departs_at %zu more %zu\n", name, a.refusal, a.number, a.codes, a.as_ours, a.departs_at, a.more);
}

static void expect(const char *what, uint32_t mend, bool rate_1200, const uint8_t *packet, size_t packet_length, rosopyat_judge_answer wanted)
{
    rosopyat_judge_answer got = rosopyat_judge(mend, rate_1200, packet, packet_length);
    if (got.refusal == wanted.refusal && got.number == wanted.number && got.codes == wanted.codes && got.as_ours == wanted.as_ours &&
        got.departs_at == wanted.departs_at && got.more == wanted.more) {
        count_answer(wanted);
        return;
    }
    printf("wrong: %s, at %s bps with %u bits to mend, %zu bytes:", what, rate_1200 ? "1200" : "300", (unsigned)mend, packet_length);
    for (size_t i = 0; i < packet_length && i < SHOWN; i++)
        printf(" %02X", packet[i]);
    printf("%s\n", packet_length > SHOWN ? " and so on" : "");
    print_answer("judged", got);
    print_answer("wanted", wanted);
    exit(1);
}

static void expect_refused(const char *what, uint32_t mend, bool rate_1200, const uint8_t *packet, size_t packet_length, unsigned refusal, size_t number,
                           size_t codes)
{
    expect(what, mend, rate_1200, packet, packet_length, (rosopyat_judge_answer){.refusal = refusal, .number = number, .codes = codes});
}

/* The packet that is put together: where it departs, if it does, and how many bits its text needs, so far. */
static struct {
    uint8_t packet[ROSOPYAT_MOST_PACKET_1200 + BEHIND];
    struct maker_bits bits;
    size_t fewest, departs_at, data_length, length;
    bool departs;
} made;

static void begin(void)
{
    made.bits = (struct maker_bits){made.packet + 4, 0, 0};
    made.fewest = made.departs_at = 0;
    made.departs = false;
}

static void depart(size_t bit)
{
    if (!made.departs)
        made.departs_at = bit;
    made.departs = true;
}

static void close_packet(unsigned format)
{
    made.data_length = maker_fill(&made.bits);
    made.length = maker_close(made.packet, MAKER_FLAG_OPEN | format << 2, made.data_length);
    for (unsigned i = 0; i < BEHIND; i++)
        made.packet[made.length + i] = i % 2 == 0 ? 0xff : made.bits.codes + i;
}

/* At both rates, by itself and with bytes behind it. Several sections are for 1200 alone. */
static void judge_made(const char *what, unsigned format)
{
    close_packet(format);
    rosopyat_judge_answer wanted = {.as_ours = !made.departs, .departs_at = made.departs_at, .more = made.data_length - (made.fewest + 7) / 8};
    if (made.data_length > MAKER_SECTION)
        expect_refused(what, 0, false, made.packet, made.length, ROSOPYAT_OTHER_LENGTH, 0, 0);
    else {
        expect(what, 0, false, made.packet, made.length, wanted);
        expect(what, 1, false, made.packet, made.length + BEHIND, wanted);
    }
    expect(what, 2, true, made.packet, made.length, wanted);
    expect(what, 0, true, made.packet, made.length + BEHIND, wanted);
}

/* Runs of Pseudo Binary (001, 4.2.2.1). An indicator has the count less one in its low bits; so many bits for each character follow. */

enum kind { SPACES, SLASHES, VALUES, KINDS };

static const struct {
    unsigned indicator, width, each, most;
} kinds[KINDS] = {{0x00, 6, 0, 16}, {0x10, 6, 0, 16}, {0x80, 8, 6, 128}};

static unsigned fullest(enum kind kind, unsigned rest)
{
    return rest < kinds[kind].most ? rest : kinds[kind].most;
}

/* In which of an indicator's bits two counts differ first. */
static unsigned differ_at(enum kind kind, unsigned one, unsigned other)
{
    unsigned at = 0;
    while ((one - 1) >> (kinds[kind].width - 1 - at) == (other - 1) >> (kinds[kind].width - 1 - at))
        at++;
    return at;
}

/* An indicator, and its values, where `rest` characters remain of the run. */
static void put_indicator(enum kind kind, unsigned count, unsigned rest)
{
    if (count != fullest(kind, rest))
        depart(made.bits.bits + differ_at(kind, count, fullest(kind, rest)));
    maker_code(&made.bits, kinds[kind].indicator | (count - 1), kinds[kind].width);
    for (unsigned i = 0; i < count && kinds[kind].each > 0; i++)
        maker_code(&made.bits, (5 * rest + 7 * i) % 64, kinds[kind].each);
}

static void need_run(enum kind kind, unsigned length)
{
    unsigned indicators = (length + kinds[kind].most - 1) / kinds[kind].most;
    made.fewest += indicators * kinds[kind].width + length * kinds[kind].each;
}

/* A part of a run, in the fullest indicators for just that part; `rest` characters remain of the run with it. */
static void put_part(enum kind kind, unsigned part, unsigned rest)
{
    while (part > 0) {
        unsigned count = fullest(kind, part);
        put_indicator(kind, count, rest);
        part -= count;
        rest -= count;
    }
}

/* A run that is cut behind so many characters, or whole where they are none. */
static void put_run(enum kind kind, unsigned length, unsigned place)
{
    need_run(kind, length);
    put_part(kind, place, length);
    put_part(kind, length - place, length - place);
}

static void put_whole(enum kind kind, unsigned length)
{
    put_run(kind, length, 0);
}

/* A run that is cut behind each character for which there is a one, from the lowest bit on. */
static void put_pieces(enum kind kind, unsigned length, uint32_t cuts)
{
    unsigned count;
    need_run(kind, length);
    for (unsigned done = 0; done < length; done += count) {
        for (count = 1; count < fullest(kind, length - done) && !(cuts >> (done + count - 1) & 1);)
            count++;
        put_indicator(kind, count, length - done);
    }
}

/* A whole run beside one of another kind; none where it would be of the same. */
static void put_beside(enum kind kind, enum kind beside, unsigned length)
{
    if (beside != kind)
        put_whole(beside, length);
}

enum { BESIDE = KINDS * KINDS, SHORT_RUN = 40 };
static const unsigned longest_run[KINDS] = {40, 40, 300};

static void try_cut(enum kind kind, unsigned length, unsigned place, unsigned beside)
{
    begin();
    put_beside(kind, beside / KINDS, 1 + (length + place) % 4);
    put_run(kind, length, place);
    put_beside(kind, beside % KINDS, 1 + place % 3);
    judge_made("a run cut at one place", ROSOPYAT_PSEUDO_BINARY);
}

/* Every run, cut at every place, with none and with every other kind before and behind it; the longer ones with one choice of these. */
static void single_cuts(void)
{
    for (enum kind kind = 0; kind < KINDS; kind++)
        for (unsigned length = 1; length <= longest_run[kind]; length++)
            for (unsigned place = 0; place < length; place++)
                for (unsigned beside = 0; beside < BESIDE; beside++)
                    if (length <= SHORT_RUN || beside == (length + place) % BESIDE)
                        try_cut(kind, length, place, beside);
}

static void try_pieces(enum kind kind, unsigned length, uint32_t cuts, unsigned beside)
{
    begin();
    put_beside(kind, beside / KINDS, 1 + length % 4);
    put_pieces(kind, length, cuts);
    put_beside(kind, beside % KINDS, 1 + length % 3);
    judge_made("a run in any pieces", ROSOPYAT_PSEUDO_BINARY);
}

/* Short runs in all pieces that there are; of spaces and slashes also such as are more than one indicator holds. */
static void all_pieces(void)
{
    static const unsigned longest[KINDS] = {18, 18, 13};
    for (enum kind kind = 0; kind < KINDS; kind++)
        for (unsigned length = 1; length <= longest[kind]; length++)
            for (uint32_t cuts = 0; cuts < 1u << (length - 1); cuts++)
                for (unsigned beside = 0; beside < BESIDE; beside++)
                    if (length <= 9 || beside == (length + cuts) % BESIDE)
                        try_pieces(kind, length, cuts, beside);
}

/* Three runs, each whole or cut at any place: the first that is cut tells where it departs. */
static void three_runs(void)
{
    static const unsigned lengths[] = {1, 2, 2, 3, 3, 3, 4, 4, 4, 4}, places[] = {0, 0, 1, 0, 1, 2, 0, 1, 2, 3};
    for (unsigned of = 0; of < KINDS * KINDS * KINDS; of++)
        for (unsigned cuts = 0; cuts < 1000; cuts++) {
            enum kind first = of / 9, second = of / 3 % 3, third = of % 3;
            if (first == second || second == third)
                continue;
            begin();
            put_run(first, lengths[cuts / 100], places[cuts / 100]);
            put_run(second, lengths[cuts / 10 % 10], places[cuts / 10 % 10]);
            put_run(third, lengths[cuts % 10], places[cuts % 10]);
            judge_made("three runs", ROSOPYAT_PSEUDO_BINARY);
        }
}

/* Up to twelve whole runs, and behind them one that is cut. */
static void last_runs(void)
{
    for (enum kind kind = 0; kind < KINDS; kind++)
        for (unsigned before = 1; before <= 12; before++)
            for (unsigned length = 2; length <= 20; length++)
                for (unsigned place = 1; place < length; place++) {
                    begin();
                    for (unsigned i = before; i > 0; i--)
                        put_whole((kind + i) % KINDS, 1 + (5 * i + length) % 19);
                    put_run(kind, length, place);
                    judge_made("the last run alone cut", ROSOPYAT_PSEUDO_BINARY);
                }
}

/* Line ends of Full ASCII (001, 4.5). */

static void put_code(unsigned code, unsigned width)
{
    maker_code(&made.bits, code, width);
    made.fewest += width;
}

/* A CR here has no LF behind it. */
static void put_character(unsigned character)
{
    if (character == '\t')
        put_code(0x1fc, 9);
    else if (character == '\r')
        put_code(0x1fd, 9);
    else if (character == '\n')
        put_code(0x1fe, 9);
    else
        put_code(character < 64 ? character - 32 : character, character < 64 ? 6 : 7);
}

static void put_line_end(bool cut)
{
    if (!cut) {
        put_code(0x1ff, 9);
        return;
    }
    depart(made.bits.bits + 7);
    maker_code(&made.bits, 0x1fd, 9);
    maker_code(&made.bits, 0x1fe, 9);
    made.fewest += 9;
}

static const char text[] = "Stage 1.23 m\tOK~\n?\r@";

/* The text with a line end at each place for which there is a one, cut where there is one in `cuts` too. */
static void try_line_ends(const char *what, uint32_t places, uint32_t cuts)
{
    begin();
    for (unsigned i = 0; i < sizeof text; i++) {
        if (places >> i & 1)
            put_line_end(cuts >> i & 1);
        if (i + 1 < sizeof text)
            put_character(text[i]);
    }
    judge_made(what, ROSOPYAT_FULL_ASCII);
}

static void single_line_ends(void)
{
    for (unsigned one = 0; one < sizeof text; one++)
        for (unsigned other = 0; other < sizeof text; other++) {
            uint32_t places = 1u << one | 1u << other;
            try_line_ends("one or two line ends, whole", places, 0);
            try_line_ends("one or two line ends, one cut", places, 1u << one);
            try_line_ends("one or two line ends, cut", places, places);
        }
}

/* Every choice of those to cut. */
static void many_line_ends(void)
{
    const uint32_t everywhere = (1u << sizeof text) - 1, some = 0x000c9255;
    for (uint32_t cuts = 0; cuts <= everywhere; cuts++)
        if ((cuts & some) == cuts)
            try_line_ends("several line ends", some, cuts);
    for (unsigned i = 0; i < sizeof text; i++)
        for (unsigned k = 0; k < sizeof text; k++)
            try_line_ends("line ends everywhere", everywhere, 1u << i | 1u << k);
    try_line_ends("line ends everywhere", everywhere, 0);
    try_line_ends("line ends everywhere, all cut", everywhere, everywhere);
}

/* Right behind one another, and with a CR before them or an LF behind them that is by itself. */
static void line_ends_in_a_row(void)
{
    for (unsigned beside = 0; beside < 4; beside++)
        for (unsigned count = 1; count <= 9; count++)
            for (uint32_t cuts = 0; cuts < 1u << count; cuts++) {
                begin();
                if (beside & 1)
                    put_character('\r');
                for (unsigned i = 0; i < count; i++)
                    put_line_end(cuts >> i & 1);
                if (beside & 2)
                    put_character('\n');
                judge_made("line ends in a row", ROSOPYAT_FULL_ASCII);
            }
}

/* Sections, at 1200 bps. */

/* Whole runs up to a bit, which is an even number of bits on, 50 or more. A run of the kind may stand before and behind them. */
static void put_runs_up_to(size_t bit, enum kind kind)
{
    enum kind blank = kind == SLASHES ? SPACES : SLASHES;
    put_whole(blank, 16);
    while ((bit - made.bits.bits) % 6 != 0) {
        put_whole(VALUES, 1);
        put_whole(blank, 16);
    }
    while (made.bits.bits < bit)
        put_whole(blank, 16);
}

/* A full run, cut behind the first character or before the last, that starts at a bit of data with so many sections. */
static void try_in_sections(const char *what, unsigned sections, enum kind kind, size_t bit, bool at_last)
{
    begin();
    put_runs_up_to(bit, kind);
    put_run(kind, kinds[kind].most, at_last ? kinds[kind].most - 1 : 1);
    put_runs_up_to(sections * SECTION_BITS - 100, kind);
    judge_made(what, ROSOPYAT_PSEUDO_BINARY);
}

static void cuts_in_sections(void)
{
    for (unsigned sections = 2; sections <= SECTIONS; sections++)
        for (enum kind kind = 0; kind < KINDS; kind++)
            for (unsigned section = 0; section < sections; section++) {
                try_in_sections("a run cut in a section", sections, kind, section * SECTION_BITS + 7000, section % 2);
                try_in_sections("a run cut late in a section", sections, kind, (section + 1) * SECTION_BITS - 3000, true);
            }
}

/* Around the end of the last section but one. */
static void cuts_over_seams(void)
{
    for (unsigned sections = 2; sections <= SECTIONS; sections++)
        for (enum kind kind = 0; kind < KINDS; kind++)
            for (unsigned before = 0; before <= 10; before += 2)
                for (int at_last = 0; at_last < 2; at_last++)
                    try_in_sections("a run cut over the end of a section", sections, kind, (sections - 1) * SECTION_BITS + 2 - before, at_last);
}

/* One in each section from `first` on: the first counts. */
static void cuts_from_section(unsigned first, enum kind kind)
{
    begin();
    for (unsigned section = first; section < SECTIONS; section++) {
        put_runs_up_to(section * SECTION_BITS + 500, kind);
        put_run(kind, 9, 3);
    }
    judge_made("a run cut in each section from one on", ROSOPYAT_PSEUDO_BINARY);
}

static void cuts_in_each_section(void)
{
    for (unsigned first = 0; first < SECTIONS; first++)
        for (enum kind kind = 0; kind < KINDS; kind++)
            cuts_from_section(first, kind);
}

static void put_characters_up_to(size_t bit)
{
    while ((bit - made.bits.bits) % 6 != 0)
        put_character('A');
    while (made.bits.bits < bit)
        put_character('0');
}

static void line_ends_over_seams(void)
{
    for (unsigned sections = 2; sections <= SECTIONS; sections++)
        for (unsigned before = 0; before <= 20; before++)
            for (int cut = 0; cut < 2; cut++) {
                begin();
                put_characters_up_to((sections - 1) * SECTION_BITS + 1 - before);
                put_line_end(cut);
                put_characters_up_to(sections * SECTION_BITS - 50 * before - 100);
                judge_made("a line end over the end of a section", ROSOPYAT_FULL_ASCII);
            }
}

/* The longest texts, and those in the most bytes. */

static void expect_made(const char *what, size_t data_length, bool departs, size_t departs_at, size_t more)
{
    if (made.data_length == data_length && made.departs == departs && made.departs_at == departs_at && made.data_length - (made.fewest + 7) / 8 == more)
        return;
    printf("wrong: %s: made in %zu bytes with %zu fewest bits, not as by hand\n", what, made.data_length, made.fewest);
    exit(1);
}

/* So many slashes, of which so many first and so many last are put apart, if any; and what is worked out by hand. */
static void try_longest(const char *what, unsigned slashes, unsigned first, unsigned last, size_t data_length, size_t departs_at, size_t more)
{
    begin();
    need_run(SLASHES, slashes);
    put_part(SLASHES, first, slashes);
    put_part(SLASHES, slashes - first - last, slashes - first);
    put_part(SLASHES, last, last);
    judge_made(what, ROSOPYAT_PSEUDO_BINARY);
    expect_made(what, data_length, first + last > 0, departs_at, more);
}

/* 128,000 bits hold 21,333 indicators and two bits of fill. Of 341,312 slashes ours are 21,332 indicators, which are 15,999 bytes. With 8 put apart there are
 * 21,331 full ones and two for 8, which are 16,000; where they stand last, behind 127,986 bits. */
static void longest(void)
{
    try_longest("the longest text", 341328, 0, 0, 16000, 0, 0);
    try_longest("the longest text at 300", 85328, 0, 0, 4000, 0, 0);
    try_longest("the longest text less one", 341327, 0, 0, 16000, 0, 0);
    try_longest("the longest less 16, with 8 first", 341312, 8, 0, 16000, 2, 1);
    try_longest("the longest less 16, with 8 last", 341312, 0, 8, 16000, 127986 + 2, 1);
}

/* Each by itself. */
static void try_singly(const char *what, enum kind kind, unsigned length, size_t data_length, size_t departs_at, size_t more)
{
    begin();
    need_run(kind, length);
    for (unsigned rest = length; rest > 0; rest--)
        put_indicator(kind, 1, rest);
    judge_made(what, ROSOPYAT_PSEUDO_BINARY);
    expect_made(what, data_length, true, departs_at, more);
}

static void try_line_ends_singly(const char *what, unsigned count, size_t data_length, size_t more)
{
    begin();
    for (unsigned i = 0; i < count; i++)
        put_line_end(true);
    judge_made(what, ROSOPYAT_FULL_ASCII);
    expect_made(what, data_length, true, 7, more);
}

/* A slash by itself has 6 bits, a value 14, a line end in two codes 18. In the fullest runs 5,333 slashes have 334 indicators, which are 251 bytes, 21,333 have
 * 1,334, which are 1,001. 2,285 values have 18 indicators, which are 1,732 bytes with the values; 9,142 have 72, which are 6,929. A line end in one code has 9
 * bits: 1,777 have 2,000 bytes, 7,111 have 8,000. */
static void in_most_bytes(void)
{
    try_singly("5,333 slashes singly", SLASHES, 5333, 4000, 2, 3749);
    try_singly("21,333 slashes singly", SLASHES, 21333, 16000, 2, 14999);
    try_singly("5,333 spaces singly", SPACES, 5333, 4000, 2, 3749);
    try_singly("21,333 spaces singly", SPACES, 21333, 16000, 2, 14999);
    try_singly("2,285 values singly", VALUES, 2285, 3999, 1, 2267);
    try_singly("9,142 values singly", VALUES, 9142, 15999, 1, 9070);
    try_line_ends_singly("1,777 line ends in two codes", 1777, 3999, 1999);
    try_line_ends_singly("7,111 line ends in two codes", 7111, 16000, 8000);
}

/* Data worked out by hand, bit by bit. */

static const struct row {
    const char *what;
    unsigned format;
    const char *data;
    size_t data_length;
    bool departs;
    size_t departs_at, more;
} rows[] = {
    {"a byte of Open", 0, "x", 1, false, 0, 0},
    {"CR LF in Open", 0, "\r\n", 2, false, 0, 0},
    {"a slash", 1, "\x43", 1, false, 0, 0},
    {"2 slashes in 1 and 1", 1, "\x41\x0f", 2, true, 5, 1}, /* ours: 47 */
    {"2 spaces in 1 and 1", 1, "\x00\x0f", 2, true, 5, 1},  /* ours: 07 */
    {"17 slashes in 16 and 1", 1, "\x7d\x0f", 2, false, 0, 0},
    {"17 slashes in 1 and 16", 1, "\x41\xff", 2, true, 2, 0}, /* ours: 7D 0F */
    {"17 slashes in 15 and 2", 1, "\x79\x1f", 2, true, 5, 0},
    {"4 slashes, 4 spaces, and so once more", 1, "\x4c\x34\xc3", 3, false, 0, 0},
    {"AB", 1, "\x81\x04\x2f", 3, false, 0, 0},
    {"A and B", 1, "\x80\x06\x00\x2f", 4, true, 7, 1},                /* ours: 81 04 2F */
    {"a space, A and B", 1, "\x02\x00\x18\x00\xbf", 5, true, 13, 1},  /* ours: 02 04 10 BF */
    {"AB, 2 slashes in 1 and 1", 1, "\x81\x04\x24\x10", 4, true, 25, 0}, /* ours: 81 04 24 7F */
    {"a pair of Numeric over two bytes", 2, "\x1e\xe2", 2, false, 0, 0},
    {"two line ends of Numeric", 2, "\xbb\xbb", 2, false, 0, 0},
    {"two line ends of SHEF", 3, "\xeb\xaf", 2, false, 0, 0},
    {"SHEF with seven bits of fill", 3, "\x00\x00\x00\x7f", 4, false, 0, 0},
    {"AB in Full ASCII", 4, "\x83\x0b", 2, false, 0, 0},
    {"CR LF", 4, "\xff\xff", 2, false, 0, 0},
    {"CR and LF", 4, "\xfe\xff\xbf", 3, true, 7, 1},          /* ours: FF FF */
    {"A, CR and LF", 4, "\x83\xfd\xff\x7f", 4, true, 14, 2},  /* ours: 83 FF */
    {"LF and CR", 4, "\xff\x7f\x7f", 3, false, 0, 0},
    {"CR, CR LF", 4, "\xfe\xff\xff", 3, false, 0, 0},
    {"CR, CR and LF", 4, "\xfe\xff\x7f\xdf", 4, true, 16, 1}, /* ours: FE FF FF */
    {"CR LF, LF", 4, "\xff\xff\xbf", 3, false, 0, 0},
};
enum { ROWS = sizeof rows / sizeof *rows, MOST_BY_HAND = 16 };

static size_t make_row(const struct row *row, uint8_t *packet)
{
    memcpy(packet + 4, row->data, row->data_length);
    return maker_close(packet, MAKER_FLAG_OPEN | row->format << 2, row->data_length);
}

static void flip_header(uint8_t *packet, uint32_t bits)
{
    for (int i = 0; i < 4; i++)
        packet[i] ^= bits >> (24 - 8 * i);
}

/* With as many bits named as were flipped it is as without; with fewer, refused: two valid headers differ in five bits or more. */
static void expect_flipped(const char *what, bool rate_1200, uint8_t *packet, size_t length, uint32_t bits, rosopyat_judge_answer wanted)
{
    rosopyat_judge_answer refused = {.refusal = ROSOPYAT_NO_HEADER};
    flip_header(packet, bits);
    for (uint32_t mend = 0; mend <= MOST_MENDED; mend++)
        expect(what, mend, rate_1200, packet, length, (uint32_t)__builtin_popcount(bits) <= mend ? wanted : refused);
    flip_header(packet, bits);
}

static void try_row(const struct row *row)
{
    uint8_t packet[MOST_BY_HAND];
    size_t length = make_row(row, packet);
    rosopyat_judge_answer wanted = {.as_ours = !row->departs, .departs_at = row->departs_at, .more = row->more};
    for (int rate = 0; rate < 2; rate++) {
        expect_flipped(row->what, rate, packet, length, 0, wanted);
        for (unsigned one = 0; one < 32; one++)
            for (unsigned other = 0; other <= one; other++)
                expect_flipped(row->what, rate, packet, length, 1u << one | 1u << other, wanted);
    }
}

static void by_hand(void)
{
    for (unsigned i = 0; i < ROWS; i++)
        try_row(&rows[i]);
}

/* A packet of two sections, with one bit flipped, or it and the next. */
static void flipped_sections(void)
{
    try_in_sections("two sections", 2, SLASHES, 40000, true);
    rosopyat_judge_answer wanted = {.departs_at = made.departs_at, .more = made.data_length - (made.fewest + 7) / 8};
    for (unsigned bit = 0; bit < 32; bit++) {
        expect_flipped("two sections", true, made.packet, made.length, 1u << bit, wanted);
        expect_flipped("two sections", true, made.packet, made.length, 1u << bit | 1u << (bit + 1) % 32, wanted);
    }
}

/* The published packets, none of which departs. Table 11 has 152 values in runs of 128 and 24. Table 13 has 64 values, 4 slashes, 4 spaces, 4 slashes, 4
 * spaces and 72 values, each in one run. Table 19 has no line end. The others are in formats that leave no choice. */

static size_t hexadecimal(const char *from, uint8_t *to)
{
    size_t length = 0;
    unsigned value;
    while (isxdigit((unsigned char)from[0]) && sscanf(from, "%2x", &value) == 1) {
        to[length++] = value;
        from += 2;
    }
    return length;
}

static void judge_published(const char *title, const uint8_t *packet, size_t length)
{
    for (uint32_t mend = 0; mend <= MOST_MENDED; mend++)
        for (int rate = 0; rate < 2; rate++)
            expect(title, mend, rate, packet, length, (rosopyat_judge_answer){.as_ours = 1});
}

static unsigned published(const char *path)
{
    uint8_t packet[4096];
    size_t length = 0;
    unsigned packets = 0;
    char line[256], title[256] = "";
    FILE *file = fopen(path, "r");
    if (!file) {
        perror(path);
        exit(2);
    }
    for (bool more = true; more;) {
        more = fgets(line, sizeof line, file);
        if (length > 0 && (!more || line[0] == '#')) {
            judge_published(title, packet, length);
            packets++;
            length = 0;
        }
        if (more && strncmp(line, "## ", 3) == 0)
            sprintf(title, "%.*s", (int)strcspn(line + 3, "\n"), line + 3);
        if (more && strncmp(line, "packet ", 7) == 0)
            length += hexadecimal(line + 7, packet + length);
    }
    fclose(file);
    return packets;
}

/* What is refused. */

static void too_many_bits(void)
{
    static const uint32_t above[] = {3, 4, 255, 256, 257, 258, 65536, 65537, 65538, 0x80000000, 0xffffffff};
    uint8_t packet[MOST_BY_HAND];
    for (unsigned i = 0; i < sizeof above / sizeof *above; i++) {
        expect_refused("too many bits", above[i], i % 2, NULL, 0, ROSOPYAT_TOO_MANY_BITS, 0, 0);
        for (unsigned row = 0; row < ROWS; row++) {
            size_t packet_length = make_row(&rows[row], packet);
            for (size_t length = 0; length <= packet_length; length++)
                expect_refused("too many bits", above[i], length % 2, packet, length, ROSOPYAT_TOO_MANY_BITS, 0, 0);
        }
    }
}

static void cut_off(void)
{
    uint8_t packet[MOST_BY_HAND];
    for (unsigned row = 0; row < ROWS; row++) {
        size_t packet_length = make_row(&rows[row], packet);
        for (size_t length = 0; length < packet_length; length++)
            for (uint32_t mend = 0; mend <= MOST_MENDED; mend++)
                expect_refused("cut off", mend, length % 2, packet, length, length < 4 ? ROSOPYAT_SHORT : ROSOPYAT_CUT_OFF, 0, 0);
    }
    expect_refused("no bytes", 0, false, NULL, 0, ROSOPYAT_SHORT, 0, 0);
}

/* Valid headers of every flag, before the byte 43: in Pseudo Binary that is a slash and fill, in Numeric the digits 4 and 3, in Full ASCII the digit 0 and
 * fill; but in SHEF the digit 8, and behind it three bits that are neither fill nor a code. */
static void flags(void)
{
    for (unsigned flag = 0; flag < 128; flag++)
        for (int rate = 0; rate < 2; rate++) {
            uint8_t packet[MOST_BY_HAND];
            packet[4] = 0x43;
            size_t length = maker_close(packet, flag, 1);
            unsigned format = flag >> 2 & 7;
            if (flag >> 5 != 2 || (flag & 1) != 0 || format > 4)
                expect_refused("another type", 2, rate, packet, length, ROSOPYAT_OTHER_TYPE, 0, 0);
            else if (format == ROSOPYAT_SHEF)
                expect_refused("a byte of SHEF", 2, rate, packet, length, ROSOPYAT_MALFORMED, 5, 1);
            else
                expect("a byte", 2, rate, packet, length, (rosopyat_judge_answer){.as_ours = 1});
        }
}

/* Lengths that no packet has, with all bytes that they ask for and with the header alone. */
static void other_lengths(void)
{
    static const size_t lengths[] = {4001, 4002, 8000, 12001, 16000, 16001, 16002, 16383};
    static uint8_t packet[17000];
    for (unsigned format = 0; format < 5; format++) {
        for (unsigned i = 0; i < sizeof lengths / sizeof *lengths; i++) {
            memset(packet, 0, sizeof packet);
            size_t packet_length = maker_close(packet, MAKER_FLAG_OPEN | format << 2, lengths[i]);
            expect_refused("another length", 1, false, packet, packet_length, ROSOPYAT_OTHER_LENGTH, 0, 0);
            expect_refused("another length", 1, false, packet, 4, ROSOPYAT_OTHER_LENGTH, 0, 0);
            if (lengths[i] > ROSOPYAT_MOST_DATA_1200) {
                expect_refused("another length", 1, true, packet, packet_length, ROSOPYAT_OTHER_LENGTH, 0, 0);
                expect_refused("another length", 1, true, packet, 4, ROSOPYAT_OTHER_LENGTH, 0, 0);
            }
        }
        uint32_t header = maker_header(MAKER_FLAG_OPEN | format << 2, 0);
        memset(packet, 0, 4);
        flip_header(packet, header);
        for (int rate = 0; rate < 2; rate++)
            expect_refused("no data", 1, rate, packet, 100, ROSOPYAT_OTHER_LENGTH, 0, 0);
    }
}

/* Four sections, each of which is damaged by itself, and then with those behind it; and cut off at every byte. */
static void damaged_sections(void)
{
    for (unsigned section = 0; section < SECTIONS; section++)
        for (unsigned place = 0; place < 4; place++) {
            const size_t places[] = {0, MAKER_SECTION - 2 - section, MAKER_SECTION, MAKER_SECTION + 1};
            try_in_sections("four sections", SECTIONS, SLASHES, 5000, false);
            for (unsigned behind = section; behind < SECTIONS - 1; behind++) {
                made.packet[4 + behind * (MAKER_SECTION + 2) + places[place]] ^= 0x11;
                expect_refused("damaged sections", 0, true, made.packet, made.length, ROSOPYAT_CHECKSUM, section, 0);
            }
            made.packet[made.length - 1 - place] ^= 0x80;
            expect_refused("damaged sections", 0, true, made.packet, made.length, ROSOPYAT_CHECKSUM, section, 0);
        }
    try_in_sections("four sections", SECTIONS, SLASHES, 5000, false);
    for (size_t length = 4; length < made.length; length++)
        expect_refused("sections cut off", 2, true, made.packet, length, ROSOPYAT_CUT_OFF, 0, 0);
}

static void expect_malformed(const char *what, unsigned format, const char *data, size_t data_length, size_t bit, size_t codes)
{
    uint8_t packet[MOST_BY_HAND];
    memcpy(packet + 4, data, data_length);
    size_t length = maker_close(packet, MAKER_FLAG_OPEN | format << 2, data_length);
    for (int rate = 0; rate < 2; rate++)
        expect_refused(what, 0, rate, packet, length, ROSOPYAT_MALFORMED, bit, codes);
    packet[length - 1] ^= 1;
    expect_refused("a checksum before that", 0, false, packet, length, ROSOPYAT_CHECKSUM, 0, 0);
}

/* Up to the bad place it is as ours, or it departs before. */
static void malformed(void)
{
    expect_malformed("128 values announced", 1, "\xff", 1, 8, 1);
    expect_malformed("three values announced", 1, "\x82\x04\x2f", 3, 20, 3);
    expect_malformed("2 slashes in 1 and 1, and zeros", 1, "\x41\x00", 2, 12, 2);
    expect_malformed("A and B, and zeros", 1, "\x80\x06\x00\x20", 4, 28, 4);
    expect_malformed("six ones", 3, "\xff", 1, 0, 0);
    expect_malformed("Z, six ones", 3, "\xe7\xff", 2, 6, 1);
    expect_malformed("eight ones", 4, "\xff", 1, 0, 0);
    expect_malformed("CR and LF, and six bits of seven", 4, "\xfe\xff\xa0", 3, 18, 2);
}

/* A run that is cut, and then so many values missing, in each section. */
static void malformed_sections(void)
{
    for (unsigned section = 0; section < SECTIONS; section++)
        for (unsigned missing = 1; missing < 128; missing += 9) {
            begin();
            put_run(SLASHES, 7, 3);
            put_runs_up_to(section * SECTION_BITS + 20000, SLASHES);
            maker_code(&made.bits, 0xff, 8);
            while (made.bits.bits % 8 != 4 || made.bits.bits < section * SECTION_BITS + 20000 + 6 * (128 - missing))
                maker_code(&made.bits, 0x2a, 6);
            size_t bad = made.bits.bits, codes = made.bits.codes;
            close_packet(ROSOPYAT_PSEUDO_BINARY);
            expect_refused("values missing", 1, true, made.packet, made.length, ROSOPYAT_MALFORMED, bad, codes);
        }
}

static void other_makers(void)
{
    single_cuts();
    all_pieces();
    three_runs();
    last_runs();
    single_line_ends();
    many_line_ends();
    line_ends_in_a_row();
    cuts_in_sections();
    cuts_over_seams();
    cuts_in_each_section();
    line_ends_over_seams();
    longest();
    in_most_bytes();
}

static void refusals(void)
{
    too_many_bits();
    cut_off();
    flags();
    other_lengths();
    damaged_sections();
    malformed();
    malformed_sections();
}

int main(int count, char **words)
{
    if (count != 2) {
        fprintf(stderr, "usage: judging FILE\n");
        return 2;
    }
    by_hand();
    flipped_sections();
    bool all = published(words[1]) == 6;
    other_makers();
    refusals();
    all &= judged.as_long > 0 && judged.before_seam > 0 && judged.behind_seam > 0;
    if (!all)
        printf("wrong: not six published packets, or none that departs in as many bytes, or at a section's last bit or first\n");
    printf("judged as made: %u as ours, %u departing (%u in as many bytes, %u at the last bit of a section, %u at the first of the next), %u refused\n",
           judged.as_ours, judged.departing, judged.as_long, judged.before_seam, judged.behind_seam, judged.refused);
    return !all;
}
