/* Every text of one, two and three of Compact Numeric's 22 characters, written and read or refused, through rosopyat.h: linked once with the independent
 * implementation under the library's names, and once with the library. What must come of a text is found by reading alone: all data of one to three bytes
 * is taken apart here by 001's Tables 4 and 5, which gives the set of texts that some data carries. A text is written as the one data that carries what it
 * comes back as. Where none does, it is refused with the index of its first character up to and including which none does. Then all data of one and two
 * bytes is read, and what it reads as is written. All that is read has two codes a byte. */
#include "maker.h"
#include "rosopyat.h"

#include <stdio.h>
#include <stdlib.h>
#include <string.h>

/* Pieces of text: a character of Table 4 by its code, then those of Table 5. */
enum { SPACE = 10, TABLE_4 = 16, LINE_END = 16, PIECES = 21, MOST_PIECES = 4, MOST_CODES = 6, MOST_TEXT = 16 };

static const char *const meanings[PIECES] = {"0", "1", "2", "3", "4", "5", "6", "7", "8", "9", " ", "+", ",", "-", ".", "/", "\r\n", "#", "=", ":", "E"};
static const char characters[] = "0123456789 +,-./\r\n#=:E";

struct row {
    unsigned count, piece[MOST_CODES];
};

/* Which piece two codes are, by Table 5, or PIECES. */
static unsigned pair_of(unsigned first, unsigned second)
{
    static const char *const numeric_characters[] = {"++", "+-", "-+", "..", "--"};
    for (unsigned i = TABLE_4; i < PIECES; i++)
        if (meanings[first][0] == numeric_characters[i - TABLE_4][0] && meanings[second][0] == numeric_characters[i - TABLE_4][1])
            return i;
    return PIECES;
}

static unsigned pairs[TABLE_4][TABLE_4];

/* The pieces of data of up to three bytes, which stands as a number. */
static struct row taken_apart(uint32_t data, unsigned length)
{
    struct row row = {0};
    for (unsigned at = 0; at < 2 * length; at++) {
        unsigned rest = 2 * length - 1 - at, first = data >> 4 * rest & 15;
        unsigned pair = rest > 0 ? pairs[first][data >> 4 * (rest - 1) & 15] : PIECES;
        at += pair < PIECES;
        row.piece[row.count++] = pair < PIECES ? pair : first;
    }
    return row;
}

/* The data that carries a row of up to four pieces; `found` is how many there are. */
static struct {
    uint32_t data;
    uint8_t length, found;
} carried[(PIECES + 1) * (PIECES + 1) * (PIECES + 1) * (PIECES + 1)];

static unsigned place_of(struct row row)
{
    unsigned place = 0;
    for (unsigned i = 0; i < row.count; i++)
        place = place * (PIECES + 1) + row.piece[i] + 1;
    return place;
}

static void find_carried(void)
{
    for (unsigned i = 0; i < TABLE_4; i++)
        for (unsigned k = 0; k < TABLE_4; k++)
            pairs[i][k] = pair_of(i, k);
    for (unsigned length = 1; length <= 3; length++)
        for (uint32_t data = 0; data < 1u << 8 * length; data++) {
            struct row row = taken_apart(data, length);
            if (row.count > MOST_PIECES)
                continue;
            unsigned place = place_of(row);
            carried[place].data = data;
            carried[place].length = length;
            carried[place].found++;
        }
}

/* What a text comes back as: each line end as one piece, and a space behind an odd number of codes. */
static struct row comes_back(const char *text, size_t length)
{
    struct row row = {0};
    unsigned codes = 0;
    for (size_t i = 0; i < length; i++) {
        unsigned piece = 0;
        if (text[i] == '\n' && i > 0 && text[i - 1] == '\r')
            continue;
        if (text[i] == '\r' || text[i] == '\n')
            piece = LINE_END;
        else
            while (meanings[piece][0] != text[i])
                piece++;
        row.piece[row.count++] = piece;
        codes += piece < TABLE_4 ? 1 : 2;
    }
    if (codes % 2 == 1)
        row.piece[row.count++] = SPACE;
    return row;
}

static size_t text_of(struct row row, char *text)
{
    text[0] = 0;
    for (unsigned i = 0; i < row.count; i++)
        strcat(text, meanings[row.piece[i]]);
    return strlen(text);
}

static unsigned wrong;

static void expect(bool as_wanted, const char *what, const char *text, size_t length)
{
    if (as_wanted)
        return;
    wrong++;
    printf("wrong: %s:", what);
    for (size_t i = 0; i < length; i++)
        printf(" %02X", (unsigned char)text[i]);
    printf("\n");
}

static size_t make_packet(uint8_t *packet, uint32_t data, unsigned length)
{
    for (unsigned i = 0; i < length; i++)
        packet[4 + i] = data >> 8 * (length - 1 - i);
    return maker_close(packet, MAKER_FLAG_OPEN | ROSOPYAT_NUMERIC << 2, length);
}

static void expect_written(const char *text, size_t length, const uint8_t *packet, size_t packet_length)
{
    uint8_t got[32];
    rosopyat_write_answer answer = rosopyat_write(false, ROSOPYAT_NUMERIC, false, (const uint8_t *)text, length, got, sizeof got);
    bool same = answer.refusal == ROSOPYAT_ACCEPTED && answer.number == 0 && answer.length == packet_length && memcmp(got, packet, packet_length) == 0;
    expect(same, "not written as the data that carries it", text, length);
}

static void expect_read(const uint8_t *packet, size_t packet_length, const char *text, size_t length)
{
    uint8_t got[MOST_TEXT];
    rosopyat_read_answer answer = rosopyat_read(false, packet, packet_length, got, sizeof got);
    bool same = answer.refusal == ROSOPYAT_ACCEPTED && answer.format == ROSOPYAT_NUMERIC && answer.codes == 2 * (packet_length - 6) &&
                answer.data_length == packet_length - 6 && answer.text_length == length && memcmp(got, text, length) == 0;
    expect(same, "not read", text, length);
}

/* One text; whether it is refused. */
static bool try_text(const char *text, size_t length)
{
    uint8_t packet[32];
    char back[MOST_TEXT];
    for (size_t i = 1; i <= length; i++)
        if (carried[place_of(comes_back(text, i))].found == 0) {
            rosopyat_write_answer answer = rosopyat_write(false, ROSOPYAT_NUMERIC, false, (const uint8_t *)text, length, packet, sizeof packet);
            expect(answer.refusal == ROSOPYAT_NO_CODE && answer.number == i - 1, "not refused at the character without a code", text, length);
            return true;
        }
    struct row row = comes_back(text, length);
    unsigned place = place_of(row);
    size_t packet_length = make_packet(packet, carried[place].data, carried[place].length), back_length = text_of(row, back);
    expect(carried[place].found == 1, "carried by more than one data", text, length);
    expect_written(text, length, packet, packet_length);
    expect_read(packet, packet_length, back, back_length);
    expect_written(back, back_length, packet, packet_length);
    return false;
}

static void try_texts(size_t length, unsigned refused_wanted)
{
    unsigned texts = 1, refused = 0;
    for (size_t i = 0; i < length; i++)
        texts *= sizeof characters - 1;
    for (unsigned number = 0; number < texts; number++) {
        char text[3];
        unsigned rest = number;
        for (size_t i = 0; i < length; i++, rest /= sizeof characters - 1)
            text[i] = characters[rest % (sizeof characters - 1)];
        refused += try_text(text, length);
    }
    printf("%5u texts of %zu: %u written and read, %u refused\n", texts, length, texts - refused, refused);
    if (refused != refused_wanted) {
        wrong++;
        printf("wrong: %u are to be refused\n", refused_wanted);
    }
}

static void try_data(unsigned length)
{
    for (uint32_t data = 0; data < 1u << 8 * length; data++) {
        uint8_t packet[32];
        char text[MOST_TEXT];
        size_t text_length = text_of(taken_apart(data, length), text);
        size_t packet_length = make_packet(packet, data, length);
        expect_read(packet, packet_length, text, text_length);
        expect_written(text, text_length, packet, packet_length);
    }
    printf("%5u data of %u: read and written\n", 1u << 8 * length, length);
}

int main(void)
{
    find_carried();
    try_texts(1, 0);
    /* + and - have seven that may not follow them, . two; of three characters the first two or, with another before them, the last two */
    try_texts(2, 2 * 7 + 2);
    try_texts(3, 16 * 22 + 2 * 7 * 20 + 2 * 21);
    try_data(1);
    try_data(2);
    printf("%u wrong\n", wrong);
    return wrong != 0;
}
