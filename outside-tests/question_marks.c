/* Value 63 of Compact Pseudo Binary, as 3F and as 7F, in every place of a run of 1, 8, 127, 128 and 129 values, through rosopyat.h: linked once with the
 * independent implementation under the library's names, and once with the library. The run stands by itself, or with a space or a slash before it, behind
 * it, and both. A text's data is put together here, beside the text: indicators for 128 values at most, the remainder last. The text must be written as
 * that data, the data be read as the text with 3F for value 63 in as many codes as were put together, and that text be written as the same data. */
#include "maker.h"
#include "rosopyat.h"

#include <stdio.h>
#include <string.h>

enum { FULLEST = 128, MOST_TEXT = 144, MOST_PACKET = 128 };

/* A text as it is written, as it comes back, and the packet for both. */
static struct {
    uint8_t written[MOST_TEXT], back[MOST_TEXT], packet[MOST_PACKET];
    size_t length, packet_length, codes;
} made;

static void add(unsigned written, unsigned back)
{
    made.written[made.length] = written;
    made.back[made.length++] = back;
}

/* A space, a slash, or nothing for 0. */
static void add_beside(struct maker_bits *bits, unsigned character)
{
    if (character == 0)
        return;
    maker_code(bits, character == '/' ? 0x10 : 0x00, 6);
    add(character, character);
}

/* Values that vary, none of them 63 but the one at `place`. */
static void add_values(struct maker_bits *bits, unsigned count, unsigned place, unsigned written)
{
    for (unsigned i = 0; i < count; i++) {
        unsigned rest = count - i, value = i == place ? 63 : (5 * i + place) % 63;
        if (i % FULLEST == 0)
            maker_code(bits, 0x80 | ((rest < FULLEST ? rest : FULLEST) - 1), 8);
        maker_code(bits, value, 6);
        if (i == place)
            add(written, 0x3f);
        else
            add(64 + value, 64 + value);
    }
}

static void make(unsigned before, unsigned count, unsigned place, unsigned written, unsigned behind)
{
    struct maker_bits bits = {made.packet + 4, 0, 0};
    made.length = 0;
    add_beside(&bits, before);
    add_values(&bits, count, place, written);
    add_beside(&bits, behind);
    made.codes = bits.codes;
    made.packet_length = maker_close(made.packet, MAKER_FLAG_PSEUDO_BINARY, maker_fill(&bits));
}

static bool is_written(const uint8_t *text)
{
    uint8_t got[MOST_PACKET];
    rosopyat_write_answer answer = rosopyat_write(false, ROSOPYAT_PSEUDO_BINARY, false, text, made.length, got, sizeof got);
    return answer.refusal == ROSOPYAT_ACCEPTED && answer.number == 0 && answer.length == made.packet_length &&
           memcmp(got, made.packet, made.packet_length) == 0;
}

static bool is_read(void)
{
    uint8_t got[MOST_TEXT];
    rosopyat_read_answer answer = rosopyat_read(false, made.packet, made.packet_length, got, sizeof got);
    return answer.refusal == ROSOPYAT_ACCEPTED && answer.format == ROSOPYAT_PSEUDO_BINARY && answer.codes == made.codes &&
           answer.data_length == made.packet_length - 6 && answer.text_length == made.length && memcmp(got, made.back, made.length) == 0;
}

static unsigned texts, wrong;

static void expect(bool as_wanted, const char *what)
{
    if (as_wanted)
        return;
    wrong++;
    printf("wrong: %s:", what);
    for (size_t i = 0; i < made.length; i++)
        printf(" %02X", made.written[i]);
    printf("\n");
}

static void try_place(unsigned count, unsigned place)
{
    static const unsigned beside[] = {0, ' ', '/'}, sixty_threes[] = {0x3f, 0x7f};
    for (int before = 0; before < 3; before++)
        for (int behind = 0; behind < 3; behind++)
            for (int as = 0; as < 2; as++) {
                make(beside[before], count, place, sixty_threes[as], beside[behind]);
                texts++;
                expect(is_written(made.written), "not written as it was put together");
                expect(is_read(), "not read with 3F for value 63");
                expect(is_written(made.back), "not written the same when it came back");
            }
}

int main(void)
{
    static const unsigned counts[] = {1, 8, 127, 128, 129};
    for (int i = 0; i < 5; i++)
        for (unsigned place = 0; place < counts[i]; place++)
            try_place(counts[i], place);
    printf("%u texts with a value 63, %u wrong\n", texts, wrong);
    return wrong != 0 || texts != (1 + 8 + 127 + 128 + 129) * 3 * 3 * 2;
}
