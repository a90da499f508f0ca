/* The tables of docs/AIR-TIME.md, of packets that the library writes and reads. Whatever is not as it should be ends the program with status 1 and a reason.
 *
 *     air_time messages FILE    the messages of 001's section 5, as FILE has them, in every format that has codes for them
 *     air_time waste            texts that another maker spreads over a whole packet of 300 bps, and what they take here */
#include "maker.h"
#include "rosopyat.h"

#include <ctype.h>
#include <stdarg.h>
#include <stdio.h>
#include <stdlib.h>
#include <string.h>

enum { FORMATS = 5, MOST_LINE = 256 };

static const char *const format_names[FORMATS] = {"Open", "Pseudo Binary", "Numeric", "SHEF", "Full ASCII"};

static void fail(const char *reason, ...)
{
    va_list words;
    va_start(words, reason);
    fputs("air_time: ", stderr);
    vfprintf(stderr, reason, words);
    fputc('\n', stderr);
    va_end(words);
    exit(1);
}

/* In a row of a table: the number, with a comma before its last three digits, and what stands behind it. */
static void print_number(size_t number, const char *behind)
{
    if (number < 1000)
        printf(" %zu%s", number, behind);
    else
        printf(" %zu,%03zu%s", number / 1000, number % 1000, behind);
}

/* A message: its text, and the packet that 001 has for it. */

static struct message {
    char name[MOST_LINE];
    uint8_t text[ROSOPYAT_MOST_TEXT], packet[ROSOPYAT_MOST_PACKET];
    size_t text_length, packet_length;
} message;

static rosopyat_read_answer read_or_fail(const char *name, const uint8_t *packet, size_t packet_length, uint8_t *text)
{
    rosopyat_read_answer answer = rosopyat_read(false, packet, packet_length, text, ROSOPYAT_MOST_TEXT);
    if (answer.refusal != ROSOPYAT_ACCEPTED || answer.used != packet_length)
        fail("%s: its packet of %zu bytes is not read: refusal %u, number %zu", name, packet_length, (unsigned)answer.refusal, answer.number);
    return answer;
}

/* The messages have no 7F, and no line ends other than CR LF: they come back as they are, but in Numeric with a space behind an odd number of codes. */
static void expect_back(const char *name, unsigned format, const uint8_t *text, size_t text_length, const uint8_t *back, size_t back_length)
{
    bool space_behind = format == ROSOPYAT_NUMERIC && back_length == text_length + 1 && back[text_length] == ' ';
    if ((back_length != text_length && !space_behind) || memcmp(back, text, text_length) != 0)
        fail("%s: what is written in %s is not read back", name, format_names[format]);
}

/* A cell: packet bits over the rate, rounded up to thousandths. */
static void print_seconds(size_t packet_length, unsigned rate)
{
    size_t thousandths = (8 * 1000 * packet_length + rate - 1) / rate;
    printf(" %zu.%03zu |", thousandths / 1000, thousandths % 1000);
}

static void print_row(unsigned format, size_t data_length, size_t packet_length)
{
    printf("| %s |", message.name);
    print_number(message.text_length, " |");
    printf(" %s |", format_names[format]);
    print_number(data_length, " |");
    print_number(packet_length, " |");
    print_seconds(packet_length, 300);
    print_seconds(packet_length, 1200);
    printf("\n");
}

/* The message in a format, if that has codes for it, as that of its section must. */
static void write_message(unsigned format, const rosopyat_read_answer *published)
{
    static uint8_t packet[ROSOPYAT_MOST_PACKET], packet_1200[ROSOPYAT_MOST_PACKET], back[ROSOPYAT_MOST_TEXT];
    rosopyat_write_answer answer = rosopyat_write(false, format, published->sync, message.text, message.text_length, packet, sizeof packet);
    if (answer.refusal == ROSOPYAT_NO_CODE && format != published->format)
        return;
    if (answer.refusal != ROSOPYAT_ACCEPTED)
        fail("%s: not written in %s: refusal %u, number %zu", message.name, format_names[format], (unsigned)answer.refusal, answer.number);
    rosopyat_write_answer at_1200 = rosopyat_write(true, format, published->sync, message.text, message.text_length, packet_1200, sizeof packet_1200);
    if (at_1200.refusal != ROSOPYAT_ACCEPTED || at_1200.length != answer.length || memcmp(packet_1200, packet, answer.length) != 0)
        fail("%s: in %s not the same packet at both rates", message.name, format_names[format]);
    rosopyat_read_answer read = read_or_fail(message.name, packet, answer.length, back);
    expect_back(message.name, format, message.text, message.text_length, back, read.text_length);
    if (format == published->format && (answer.length != message.packet_length || memcmp(packet, message.packet, answer.length) != 0))
        fail("%s: %zu bytes in %s, and not the published packet of %zu", message.name, answer.length, format_names[format], message.packet_length);
    print_row(format, read.data_length, answer.length);
}

/* Open Binary has no message beside its packet (001, 5.1): there the data is the message. */
static void print_message(void)
{
    static uint8_t text[ROSOPYAT_MOST_TEXT];
    rosopyat_read_answer published = read_or_fail(message.name, message.packet, message.packet_length, text);
    if (message.text_length == 0) {
        memcpy(message.text, text, published.text_length);
        message.text_length = published.text_length;
    }
    for (unsigned format = 0; format < FORMATS; format++)
        write_message(format, &published);
}

/* The bytes of a line's hexadecimal digits, put at the end of `to`. */
static void add_bytes(const char *digits, uint8_t *to, size_t *length, size_t most)
{
    unsigned byte;
    for (; isxdigit((unsigned char)digits[0]) && sscanf(digits, "%2x", &byte) == 1; digits += 2) {
        if (*length == most)
            fail("%s: more than %zu bytes", message.name, most);
        to[(*length)++] = byte;
    }
}

/* The section and its name, without the tables in which it is printed. */
static void take_name(const char *title)
{
    size_t length = strcspn(title, "(\n");
    while (length > 0 && title[length - 1] == ' ')
        length--;
    memcpy(message.name, title, length);
    message.name[length] = 0;
}

static void print_messages(const char *path)
{
    char line[MOST_LINE];
    bool any = false;
    FILE *file = fopen(path, "r");
    if (!file)
        fail("%s cannot be read", path);
    printf("| message of 001 | characters | format | data bytes | packet bytes | seconds at 300 bps | seconds at 1200 bps |\n"
           "|---|---|---|---|---|---|---|\n");
    for (bool more = true; more;) {
        more = fgets(line, sizeof line, file);
        if (message.packet_length > 0 && (!more || line[0] == '#')) {
            print_message();
            any = true;
            message.packet_length = message.text_length = 0;
        }
        if (more && strncmp(line, "## ", 3) == 0)
            take_name(line + 3);
        else if (more && strncmp(line, "packet ", 7) == 0)
            add_bytes(line + 7, message.packet, &message.packet_length, sizeof message.packet);
        else if (more && strncmp(line, "text ", 5) == 0)
            add_bytes(line + 5, message.text, &message.text_length, sizeof message.text);
    }
    fclose(file);
    if (!any)
        fail("%s has no packet", path);
    printf("\nSeconds are those of the packet's bits alone: packet bytes times 8 over the rate, rounded up to thousandths, so that nobody plans too little.\n"
           "In the format of its own section a message has just the packet that 001 publishes. A format without a row lacks a code for some character.\n");
}

/* What another maker may send one piece of text as, by itself. */
struct waste {
    const char *what, *as;
    unsigned format;
    const char *piece;
    unsigned codes[2], widths[2];
};

/* The packet of `count` pieces, each by itself, and their text. */
static size_t make_waste(const struct waste *waste, unsigned count, uint8_t *packet, uint8_t *text)
{
    struct maker_bits bits = {packet + 4, 0, 0};
    for (unsigned i = 0; i < count; i++) {
        maker_code(&bits, waste->codes[0], waste->widths[0]);
        maker_code(&bits, waste->codes[1], waste->widths[1]);
        memcpy(text + i * strlen(waste->piece), waste->piece, strlen(waste->piece));
    }
    return maker_close(packet, MAKER_FLAG_OPEN | waste->format << 2, maker_fill(&bits));
}

/* The data bytes of a packet, which must be read as that text. */
static size_t data_bytes(const char *name, unsigned format, const uint8_t *packet, size_t packet_length, const uint8_t *text, size_t text_length)
{
    static uint8_t back[ROSOPYAT_MOST_TEXT];
    rosopyat_read_answer answer = read_or_fail(name, packet, packet_length, back);
    if (answer.format != format)
        fail("%s: read as format %u", name, (unsigned)answer.format);
    expect_back(name, format, text, text_length, back, answer.text_length);
    return answer.data_length;
}

/* As many as the other maker gets into a packet. */
static void print_waste(const struct waste *waste)
{
    static uint8_t packet[ROSOPYAT_MOST_PACKET], text[ROSOPYAT_MOST_TEXT];
    unsigned count = 8 * ROSOPYAT_MOST_DATA / (waste->widths[0] + waste->widths[1]);
    size_t text_length = count * strlen(waste->piece), packet_length = make_waste(waste, count, packet, text);
    size_t theirs = data_bytes(waste->what, waste->format, packet, packet_length, text, text_length);
    rosopyat_write_answer answer = rosopyat_write(false, waste->format, false, text, text_length, packet, sizeof packet);
    if (answer.refusal != ROSOPYAT_ACCEPTED)
        fail("%u %s: not written: refusal %u, number %zu", count, waste->what, (unsigned)answer.refusal, answer.number);
    size_t ours = data_bytes(waste->what, waste->format, packet, answer.length, text, text_length);
    size_t hundredths = (2 * 100 * theirs + ours) / (2 * ours);
    printf("|");
    print_number(count, "");
    printf(" %s | %s | %s |", waste->what, format_names[waste->format], waste->as);
    print_number(theirs, " |");
    print_number(ours, " |");
    printf(" %zu.%02zu |\n", hundredths / 100, hundredths % 100);
}

static void print_wastes(void)
{
    static const struct waste wastes[] = {
        {"slashes", "an indicator for each", ROSOPYAT_PSEUDO_BINARY, "/", {0x10, 0}, {6, 0}},
        {"values", "an indicator for each", ROSOPYAT_PSEUDO_BINARY, "A", {0x80, 1}, {8, 6}},
        {"line ends CR LF", "two codes for each", ROSOPYAT_FULL_ASCII, "\r\n", {0x1fd, 0x1fe}, {9, 9}},
    };
    printf("| text | format | as the other maker sends it | data bytes of the other maker | data bytes here | factor |\n"
           "|---|---|---|---|---|---|\n");
    for (unsigned i = 0; i < sizeof wastes / sizeof *wastes; i++)
        print_waste(&wastes[i]);
    printf("\nEach is the longest such text that the other maker gets into one packet at 300 bps. The factor is the data bytes of the other maker\n"
           "over those here, rounded to two decimals.\n");
}

int main(int count, char **words)
{
    if (count == 3 && strcmp(words[1], "messages") == 0)
        print_messages(words[2]);
    else if (count == 2 && strcmp(words[1], "waste") == 0)
        print_wastes();
    else
        fail("usage: air_time messages FILE, or air_time waste");
    if (fflush(stdout) != 0)
        fail("standard output cannot be written");
    return 0;
}
