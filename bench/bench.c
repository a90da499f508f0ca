/* Times the library, plain C (the independent implementation: bit by bit, double loop, bitwise checksum), tuned C and small C, which does not judge, in one
 * run, one after the other within each round, and prints the library's time over each of the others': bench [ROUNDS]. */
#define _POSIX_C_SOURCE 200809L
#include "independent.h"
#include "maker.h"
#include "rosopyat.h"
#include "small.h"
#include "tuned.h"

#include <stdio.h>
#include <stdlib.h>
#include <string.h>
#include <time.h>

enum { MOST_ROUNDS = 101, IMPLEMENTATIONS = 4, JUDGES = 3, LONG_TEXT = 48000 };

typedef rosopyat_read_answer reader(bool, const uint8_t *, size_t, uint8_t *, size_t);
typedef rosopyat_read_answer mending_reader(uint32_t, bool, const uint8_t *, size_t, uint8_t *, size_t);
typedef rosopyat_write_answer writer(bool, uint32_t, bool, const uint8_t *, size_t, uint8_t *, size_t);
typedef rosopyat_judge_answer judge(uint32_t, bool, const uint8_t *, size_t);

static reader *const readers[IMPLEMENTATIONS] = {rosopyat_read, independent_read, tuned_read, small_read};
static mending_reader *const mending_readers[IMPLEMENTATIONS] = {rosopyat_read_mending, independent_read_mending, tuned_read_mending, small_read_mending};
static writer *const writers[IMPLEMENTATIONS] = {rosopyat_write, independent_write, tuned_write, small_write};
static judge *const judges[JUDGES] = {rosopyat_judge, independent_judge, tuned_judge};

static uint8_t source[LONG_TEXT + 400], packet[ROSOPYAT_MOST_PACKET_1200], output[ROSOPYAT_MOST_TEXT], first_output[ROSOPYAT_MOST_TEXT];

/* Realistic texts, the same in each run. */

static uint32_t state;

static unsigned below(unsigned limit)
{
    state = state * 1664525 + 1013904223;
    return (uint64_t)state * limit >> 32;
}

static void make_open(void)
{
    for (int i = 0; i < LONG_TEXT; i++)
        source[i] = below(256);
}

static unsigned value_character(unsigned value)
{
    return value == 63 ? '?' : 64 + value;
}

/* Readings of three characters that wander, some of them missing, and a space before each group of twelve. */
static void make_pseudo_binary(void)
{
    size_t length = 0;
    unsigned reading = 20000;
    for (int i = 0; length < LONG_TEXT; i++) {
        if (i % 12 == 0)
            source[length++] = ' ';
        reading += below(41) - 20;
        bool missing = below(16) == 0;
        for (int k = 12; k >= 0; k -= 6)
            source[length++] = missing ? '/' : value_character(reading >> k & 63);
    }
}

/* Lines of a station's number, a time and numbers parted by commas, as the message of 001's 5.3. */
static void make_numeric(void)
{
    size_t length = 0;
    for (int i = 0; length < LONG_TEXT; i++)
        length += sprintf((char *)source + length, "%u %02u:%02u:00 %u,%u,%u.%u,%u.%u,%s%u.%u,%u,%u.%u,%u.%02u,%u\r\n", 1 + below(4), i / 6 % 24, i % 6 * 10,
                          below(360), below(360), below(10), below(10), below(10), below(10), below(4) == 0 ? "-" : "", below(30), below(10),
                          90 + below(10), 740 + below(30), below(10), below(2), below(100), below(200));
}

/* Messages of groups of a code, two numbers and readings, one of them with fifteen that wander, as the message of 001's 5.4. */
static void make_shef(void)
{
    static const char *const codes[] = {"VB", "YB", "YBI", "YBT", "YF", "YR", "YI", "YV", "YVI", "TW"};
    size_t length = 0;
    unsigned stage = 190039;
    while (length < LONG_TEXT) {
        length += sprintf((char *)source + length, ":HG %u #5", below(60));
        for (int i = 0; i < 15; i++) {
            stage += below(3) - 1;
            length += sprintf((char *)source + length, " %u.%03u", stage / 1000, stage % 1000);
        }
        for (int i = 0; i < 10; i++)
            length += sprintf((char *)source + length, " :%s %u #60 %s%u.%u", codes[i], below(60), below(5) == 0 ? "-" : "", below(40), below(10));
        length += sprintf((char *)source + length, "\r\n");
    }
}

/* Lines of a time, a word and numbers. */
static void make_full_ascii(void)
{
    static const char *const words[] = {"Stage", "Rain", "Battery", "Air temp", "Flow", "STATUS OK"};
    size_t length = 0;
    for (int i = 0; length < LONG_TEXT; i++)
        length += sprintf((char *)source + length, "%02u:%02u:00 %s %u.%02u,%u,-%u.%u\r\n", i / 6 % 24, i % 6 * 10, words[below(6)], below(90), below(100),
                          below(1000), below(20), below(10));
}

/* The longest part of the source whose data is at most `size` bytes. */
static size_t part_for(unsigned format, size_t size)
{
    size_t fits = 1, exceeds = LONG_TEXT, most_packet = size + 4 + (size + 3999) / 4000 * 2;
    while (exceeds - fits > 1) {
        size_t middle = fits + (exceeds - fits) / 2;
        rosopyat_write_answer answer = tuned_write(true, format, false, source, middle, packet, 0);
        if (answer.refusal == ROSOPYAT_TOO_LONG || answer.number > most_packet)
            exceeds = middle;
        else
            fits = middle;
    }
    return fits;
}

/* Packets of another maker, of the source's characters, a piece after the other: in Pseudo Binary an indicator counts at most `most` of one kind, and in Full
 * ASCII each character has a code of its own. */

struct piece {
    size_t characters;
    uint32_t code; /* with the values under it */
    unsigned width;
};

static bool is_value(unsigned character)
{
    return character != ' ' && character != '/';
}

static struct piece piece_of_values(const uint8_t *text, size_t most)
{
    struct piece piece = {0, 0, 8};
    for (; piece.characters < most && is_value(text[piece.characters]); piece.characters++, piece.width += 6)
        piece.code = piece.code << 6 | (text[piece.characters] == '?' ? 63 : text[piece.characters] - 64);
    piece.code |= (0x80 | (piece.characters - 1)) << (piece.width - 8);
    return piece;
}

static struct piece piece_of_pseudo_binary(const uint8_t *text, size_t most)
{
    if (is_value(text[0]))
        return piece_of_values(text, most);
    size_t run = 1;
    while (run < most && text[run] == text[0])
        run++;
    return (struct piece){run, (text[0] == '/' ? 0x10 : 0) | (run - 1), 6};
}

static struct piece next_value(const uint8_t *text)
{
    return piece_of_pseudo_binary(text, 1);
}

static struct piece next_reading(const uint8_t *text)
{
    return piece_of_pseudo_binary(text, 3);
}

static struct piece next_character(const uint8_t *text)
{
    unsigned character = text[0];
    if (character < 32)
        return (struct piece){1, character == '\r' ? 0x1fd : 0x1fe, 9};
    return character < 64 ? (struct piece){1, character - 32, 6} : (struct piece){1, character, 7};
}

/* Puts as many pieces into a packet as `size` data bytes have room for, and answers how many bytes they are. */
static size_t put_pieces(struct piece (*next)(const uint8_t *), unsigned flag, size_t size)
{
    struct maker_bits row = {packet + 4, 0, 0};
    const uint8_t *text = source;
    for (struct piece piece = next(text); row.bits + piece.width <= 8 * size; piece = next(text)) {
        maker_put(&row, piece.code, piece.width);
        text += piece.characters;
    }
    size_t data_length = maker_fill(&row);
    maker_close(packet, flag, data_length);
    return data_length;
}

/* One row of the table. */

struct job {
    enum { READ, READ_MENDING, WRITE, JUDGE } call;
    uint32_t mend; /* the header bits that are named */
    bool rate_1200;
    unsigned format;
    size_t text_length, packet_length;
    uint32_t refusal, as_ours; /* that all must answer */
};

static int sides(const struct job *job)
{
    return job->call == JUDGE ? JUDGES : IMPLEMENTATIONS;
}

static uint32_t once(const struct job *job, int who)
{
    if (job->call == READ)
        return readers[who](job->rate_1200, packet, job->packet_length, output, sizeof output).refusal;
    if (job->call == READ_MENDING)
        return mending_readers[who](job->mend, job->rate_1200, packet, job->packet_length, output, sizeof output).refusal;
    if (job->call == JUDGE)
        return judges[who](job->mend, job->rate_1200, packet, job->packet_length).refusal;
    return writers[who](job->rate_1200, job->format, true, source, job->text_length, output, sizeof output).refusal;
}

/* What a reading answers, which all must answer alike; nothing of the other calls. */
static rosopyat_read_answer reading_of(const struct job *job, int who)
{
    if (job->call == READ)
        return readers[who](job->rate_1200, packet, job->packet_length, output, sizeof output);
    if (job->call == READ_MENDING)
        return mending_readers[who](job->mend, job->rate_1200, packet, job->packet_length, output, sizeof output);
    return (rosopyat_read_answer){0};
}

static bool same_reading(rosopyat_read_answer a, rosopyat_read_answer b)
{
    return a.refusal == b.refusal && a.number == b.number && a.format == b.format && a.sync == b.sync && a.mended == b.mended && a.mask == b.mask &&
           a.codes == b.codes && a.data_length == b.data_length && a.text_length == b.text_length && a.used == b.used;
}

/* The same of a judging. */
static rosopyat_judge_answer judging_of(const struct job *job, int who)
{
    return job->call == JUDGE ? judges[who](job->mend, job->rate_1200, packet, job->packet_length) : (rosopyat_judge_answer){0};
}

static bool same_judging(rosopyat_judge_answer a, rosopyat_judge_answer b)
{
    return a.refusal == b.refusal && a.number == b.number && a.codes == b.codes && a.as_ours == b.as_ours && a.departs_at == b.departs_at && a.more == b.more;
}

static double seconds(void)
{
    struct timespec now;
    clock_gettime(CLOCK_PROCESS_CPUTIME_ID, &now);
    return now.tv_sec + now.tv_nsec * 1e-9;
}

static double time_of(const struct job *job, int who, long repeats)
{
    double start = seconds();
    for (long i = 0; i < repeats; i++)
        once(job, who);
    return (seconds() - start) / repeats;
}

static int ascending(const void *a, const void *b)
{
    double x = *(const double *)a, y = *(const double *)b;
    return (x > y) - (x < y);
}

static double median(double *values, int count)
{
    qsort(values, count, sizeof *values, ascending);
    return count % 2 ? values[count / 2] : (values[count / 2 - 1] + values[count / 2]) / 2;
}

static void same_outputs(const struct job *job)
{
    for (int who = 0; who < sides(job); who++) {
        memset(output, 0, sizeof output);
        uint32_t refusal = once(job, who);
        if (who == 0)
            memcpy(first_output, output, sizeof output);
        bool same = refusal == job->refusal && memcmp(first_output, output, sizeof output) == 0;
        same = same && same_reading(reading_of(job, who), reading_of(job, 0)) && same_judging(judging_of(job, who), judging_of(job, 0));
        if (!same || judging_of(job, who).as_ours != job->as_ours) {
            fprintf(stderr, "the implementations differ\n");
            exit(1);
        }
    }
}

/* How often a side is called in a round. */
static long repeats_of(const struct job *job, int who)
{
    const double sample = 0.01;
    long repeats = 1;
    while (time_of(job, who, repeats) * repeats < sample)
        repeats *= 2;
    return repeats;
}

static void print_median(bool there, double *values, int rounds)
{
    if (there)
        printf(" %.2f |", median(values, rounds));
    else
        printf(" – |");
}

static void measure(const char *what, const char *format_name, size_t size, const struct job *job, int rounds)
{
    double times[IMPLEMENTATIONS][MOST_ROUNDS], ratios[IMPLEMENTATIONS][MOST_ROUNDS]; /* in µs; the library's time over each */
    long repeats[IMPLEMENTATIONS];
    same_outputs(job);
    for (int who = 0; who < sides(job); who++)
        repeats[who] = repeats_of(job, who);
    for (int round = 0; round < rounds; round++)
        for (int who = 0; who < sides(job); who++) {
            times[who][round] = time_of(job, who, repeats[who]) * 1e6;
            ratios[who][round] = times[0][round] / times[who][round];
        }
    printf("| %s | %s | %zu |", what, format_name, size);
    for (int who = 0; who < IMPLEMENTATIONS; who++)
        print_median(who < sides(job), times[who], rounds);
    for (int who = 1; who < IMPLEMENTATIONS; who++)
        print_median(who < sides(job), ratios[who], rounds);
    printf("\n");
    fflush(stdout);
}

static void print_heading(void)
{
    printf("| | format | data bytes | library, µs | plain C, µs | tuned C, µs | small C, µs | library / plain | library / tuned | library / small |\n");
    printf("|---|---|---|---|---|---|---|---|---|---|\n");
}

static void measure_wrong_headers(int rounds)
{
    static const struct {
        const char *what;
        int wrong;
        uint32_t mend, refusal;
    } rows[] = {{"read, 1 header bit wrong, 2 named", 1, 2, 0},
                {"read, 2 header bits wrong, 2 named", 2, 2, 0},
                {"refuse, 3 header bits wrong, 2 named", 3, 2, 2},
                {"refuse, 2 header bits wrong, 1 named", 2, 1, 2}};
    printf("\nWith wrong header bits. The library and tuned C look the bits to mend up in a table of 1,024 entries; small C works them\n"
           "out:\n\n");
    print_heading();
    for (int r = 0; r < 4; r++) {
        struct job job = {.call = READ_MENDING, .mend = rows[r].mend, .refusal = rows[r].refusal};
        state = 1;
        make_open();
        job.packet_length = tuned_write(false, 0, true, source, 100, packet, sizeof packet).length;
        for (int i = 0; i < rows[r].wrong; i++)
            packet[i] ^= 4;
        measure(rows[r].what, "Open", 100, &job, rounds);
    }
}

struct other_maker {
    const char *what, *what_at_1200, *format_name;
    unsigned flag;
    void (*make)(void);
    struct piece (*next)(const uint8_t *);
};

static void measure_other_maker(const struct other_maker *maker, bool rate_1200, int rounds)
{
    state = 1;
    maker->make();
    size_t data_length = put_pieces(maker->next, maker->flag, rate_1200 ? ROSOPYAT_MOST_DATA_1200 : ROSOPYAT_MOST_DATA);
    struct job job = {.call = JUDGE, .mend = 1, .rate_1200 = rate_1200, .packet_length = maker_length(data_length)};
    measure(rate_1200 ? maker->what_at_1200 : maker->what, maker->format_name, data_length, &job, rounds);
}

static void measure_other_makers(int rounds)
{
    static const struct other_maker makers[] = {
        {"judge, another maker's values", "judge at 1200, another maker's values", "Pseudo Binary", MAKER_FLAG_PSEUDO_BINARY, make_pseudo_binary, next_value},
        {"judge, another maker's readings", "judge at 1200, another maker's readings", "Pseudo Binary", MAKER_FLAG_PSEUDO_BINARY, make_pseudo_binary,
         next_reading},
        {"judge, another maker's lines", "judge at 1200, another maker's lines", "Full ASCII", MAKER_FLAG_FULL_ASCII, make_full_ascii, next_character}};
    printf("\nAnother maker's packets of the same texts, which depart from ours: each value, slash and space has an indicator of its own (values), or each\n"
           "reading and space has (readings); each CR LF is two codes (lines):\n\n");
    print_heading();
    for (int m = 0; m < 3; m++) {
        measure_other_maker(&makers[m], false, rounds);
        measure_other_maker(&makers[m], true, rounds);
    }
}

int main(int count, char **words)
{
    static const struct {
        unsigned format;
        const char *name;
        void (*make)(void);
    } formats[] = {{0, "Open", make_open},
                   {1, "Pseudo Binary", make_pseudo_binary},
                   {2, "Numeric", make_numeric},
                   {3, "SHEF", make_shef},
                   {4, "Full ASCII", make_full_ascii}};
    static const struct {
        bool rate_1200;
        size_t size;
        const char *read, *write, *judge;
    } rows[] = {{false, 100, "read", "write", "judge"},
                {false, 1000, "read", "write", "judge"},
                {false, 4000, "read", "write", "judge"},
                {true, 8000, "read at 1200", "write at 1200", "judge at 1200"},
                {true, 16000, "read at 1200", "write at 1200", "judge at 1200"}};
    int rounds = count > 1 ? atoi(words[1]) : 15;
    if (rounds < 1 || rounds > MOST_ROUNDS)
        rounds = 15;

    tuned_prepare();
    print_heading();
    for (int f = 0; f < 5; f++) {
        state = 1;
        formats[f].make();
        for (int r = 0; r < 5; r++) {
            struct job job = {.call = READ, .rate_1200 = rows[r].rate_1200, .format = formats[f].format};
            job.text_length = part_for(job.format, rows[r].size);
            job.packet_length = tuned_write(job.rate_1200, job.format, true, source, job.text_length, packet, sizeof packet).length;
            size_t data_length = tuned_read(job.rate_1200, packet, job.packet_length, output, sizeof output).data_length;
            measure(rows[r].read, formats[f].name, data_length, &job, rounds);
            job.call = WRITE;
            measure(rows[r].write, formats[f].name, data_length, &job, rounds);
            job.call = JUDGE;
            job.mend = 1;
            job.as_ours = 1;
            measure(rows[r].judge, formats[f].name, data_length, &job, rounds);
        }
    }
    measure_other_makers(rounds);
    measure_wrong_headers(rounds);
    return 0;
}
