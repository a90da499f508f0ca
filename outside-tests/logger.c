/* Holds the writer of the archive for loggers to the independent implementation, and measures its stack: logger [CASES].
 *
 * Fixed cases come first, then as many random ones as are named, from a fixed seed. A difference in any member of an answer or any byte of a buffer or
 * behind it, a byte changed though the text was refused, or a touch of the page behind the text ends the run with status 1. So does an answer that never
 * occurred: in both parts each refusal, in each format at each rate all that it can answer, and the lengths around the end of each section.
 *
 * Every call of the logger's writer runs on a stack of its own, full of a pattern. The deepest byte that any call changed counts, less that of a call of
 * logger_nothing: so the return address and the arguments do not count. A changed byte may be the pattern's by chance: there are two, used in turn. */
#define _GNU_SOURCE
#include "independent.h"

#include <signal.h>
#include <stdio.h>
#include <stdlib.h>
#include <string.h>
#include <sys/mman.h>
#include <ucontext.h>
#include <unistd.h>

/* The script links rosopyat_write of the archive under this name. */
typedef rosopyat_write_answer writer(bool, uint32_t, bool, const uint8_t *, size_t, uint8_t *, size_t);
writer logger_write, logger_nothing;

enum { RATES = 2, FORMATS = 5, REFUSALS = 13, GUARD = 32, LARGE = 20000, BUFFER = LARGE + 2 * GUARD, PAGE = 4096, MOST_TEXT = 88 * PAGE, STACK = 8 * PAGE };

/* Random numbers. */

static uint64_t state = 1;

static uint64_t random_64(void)
{
    uint64_t z = state += 0x9e3779b97f4a7c15;
    z = (z ^ z >> 30) * 0xbf58476d1ce4e5b9;
    z = (z ^ z >> 27) * 0x94d049bb133111eb;
    return z ^ z >> 31;
}

static unsigned below(unsigned limit)
{
    return (random_64() >> 32) * limit >> 32;
}

static unsigned between(unsigned low, unsigned high)
{
    return low + below(high - low + 1);
}

static bool chance(unsigned percent)
{
    return below(100) < percent;
}

static unsigned one_of(const char *characters)
{
    return characters[below(strlen(characters))];
}

/* Memory: the text ends at a page that may not be touched, and the stack starts behind one. */

static uint8_t *text_end, *stack;
static uint8_t untouched[BUFFER], ours[BUFFER], theirs[BUFFER];
static unsigned long case_number;

static void touched_outside(int signal_number)
{
    (void)signal_number;
    printf("differs: case %lu: memory outside of the text or of the stack was touched\n", case_number);
    fflush(stdout);
    _exit(1);
}

static uint8_t *new_memory(size_t length)
{
    uint8_t *memory = mmap(NULL, length, PROT_READ | PROT_WRITE, MAP_PRIVATE | MAP_ANONYMOUS, -1, 0);
    if (memory == MAP_FAILED) {
        perror("mmap");
        exit(2);
    }
    return memory;
}

static void forbid(uint8_t *page)
{
    if (mprotect(page, PAGE, PROT_NONE) != 0) {
        perror("mprotect");
        exit(2);
    }
}

static void prepare(void)
{
    static uint8_t handler_stack[65536];
    stack_t other = {.ss_sp = handler_stack, .ss_size = sizeof handler_stack};
    struct sigaction action = {0};
    action.sa_handler = touched_outside;
    action.sa_flags = SA_ONSTACK;
    sigaltstack(&other, NULL);
    sigaction(SIGSEGV, &action, NULL);
    sigaction(SIGBUS, &action, NULL);
    text_end = new_memory(MOST_TEXT + PAGE) + MOST_TEXT;
    forbid(text_end);
    stack = new_memory(PAGE + STACK) + PAGE;
    forbid(stack - PAGE);
    for (size_t i = 0; i < BUFFER; i++)
        untouched[i] = random_64() >> 56;
    memcpy(ours, untouched, BUFFER);
    memcpy(theirs, untouched, BUFFER);
}

/* Calls on the measured stack. */

static struct call {
    bool rate_1200;
    uint32_t format;
    bool sync;
    const uint8_t *text;
    size_t text_length, room;
} call;

static writer *volatile called;
static rosopyat_write_answer answer;
static ucontext_t here, there;
static size_t deepest; /* of all calls so far */

static void make_call(void)
{
    answer = called(call.rate_1200, call.format, call.sync, call.text, call.text_length, ours + GUARD, call.room);
}

static size_t depth_with(unsigned pattern)
{
    memset(stack, pattern, STACK);
    getcontext(&there);
    there.uc_stack.ss_sp = stack;
    there.uc_stack.ss_size = STACK;
    there.uc_link = &here;
    makecontext(&there, make_call, 0);
    swapcontext(&here, &there);
    const uint64_t eight = pattern * UINT64_C(0x0101010101010101);
    size_t same = 0;
    while (same < STACK && memcmp(stack + same, &eight, 8) == 0)
        same += 8;
    while (same < STACK && stack[same] == pattern)
        same++;
    return STACK - same;
}

static rosopyat_write_answer call_on_stack(writer *function)
{
    called = function;
    size_t depth = depth_with(case_number % 2 == 0 ? 0xa5 : 0x5a);
    if (depth > deepest)
        deepest = depth;
    return answer;
}

/* One case. */

/* Packets of so many bytes must occur: around the end of each section, of one at 300, of four at 1200. */
static const struct {
    bool rate_1200;
    unsigned data_length, packet_length;
} lengths[] = {{false, 3999, 4005}, {false, 4000, 4006}, {true, 3999, 4005},   {true, 4000, 4006},   {true, 4001, 4009},   {true, 7999, 8007},
               {true, 8000, 8008},  {true, 8001, 8011},  {true, 12000, 12010}, {true, 12001, 12013}, {true, 15999, 16011}, {true, 16000, 16012}};
enum { LENGTHS = sizeof lengths / sizeof *lengths };

static unsigned long random_or_fixed[2][REFUSALS], by_format[RATES][FORMATS][REFUSALS], of_length[LENGTHS], longest_texts[RATES];
static bool is_random;

static size_t most_text(bool rate_1200)
{
    return rate_1200 ? ROSOPYAT_MOST_TEXT_1200 : ROSOPYAT_MOST_TEXT;
}

static void count_answer(rosopyat_write_answer a)
{
    random_or_fixed[is_random][a.refusal]++;
    if (call.format < FORMATS)
        by_format[call.rate_1200][call.format][a.refusal]++;
    for (unsigned i = 0; i < LENGTHS; i++)
        of_length[i] += call.rate_1200 == lengths[i].rate_1200 && a.length == lengths[i].packet_length;
    longest_texts[call.rate_1200] += a.refusal == 0 && call.text_length == most_text(call.rate_1200);
}

static const char *compare(rosopyat_write_answer a, rosopyat_write_answer b)
{
    if (a.refusal != b.refusal || a.number != b.number || a.length != b.length)
        return "the answers differ";
    if (a.refusal >= REFUSALS || a.length > call.room)
        return "no such answer";
    if (memcmp(ours, untouched, GUARD) != 0)
        return "bytes before the buffer changed";
    if (memcmp(ours + GUARD + a.length, untouched + GUARD + a.length, LARGE + GUARD - a.length) != 0)
        return "bytes behind the packet changed";
    return memcmp(ours, theirs, BUFFER) != 0 ? "the packets differ" : NULL;
}

static void write_case(void)
{
    rosopyat_write_answer a = call_on_stack(logger_write);
    rosopyat_write_answer b = independent_write(call.rate_1200, call.format, call.sync, call.text, call.text_length, theirs + GUARD, call.room);
    const char *wrong = compare(a, b);
    if (wrong) {
        printf("differs: case %lu: %s\n", case_number, wrong);
        printf("%s bps, format %u sync %u room %zu, text of %zu bytes:", call.rate_1200 ? "1200" : "300", call.format, call.sync, call.room, call.text_length);
        for (size_t i = 0; i < call.text_length && i < 64; i++)
            printf(" %02X", call.text[i]);
        printf("%s\n", call.text_length > 64 ? " ..." : "");
        printf("logger     : refusal %u number %zu length %zu\n", a.refusal, a.number, a.length);
        printf("independent: refusal %u number %zu length %zu\n", b.refusal, b.number, b.length);
        exit(1);
    }
    memcpy(ours + GUARD, untouched + GUARD, a.length);
    memcpy(theirs + GUARD, untouched + GUARD, a.length);
    count_answer(a);
    case_number++;
}

/* The room that the text of `call` needs, or any where it is refused. */
static size_t room_needed(void)
{
    rosopyat_write_answer asked = independent_write(call.rate_1200, call.format, call.sync, call.text, call.text_length, NULL, 0);
    return asked.refusal == 8 ? asked.number : 100;
}

static void set_text(uint32_t format, const uint8_t *text, size_t length)
{
    call.format = format;
    call.text_length = length;
    call.text = text_end - length;
    memcpy(text_end - length, text, length);
}

/* At both rates, with and without sync, in each kind of room. */
static void write_in_rooms(uint32_t format, const uint8_t *text, size_t length)
{
    set_text(format, text, length);
    for (unsigned rate = 0; rate < RATES; rate++) {
        call.rate_1200 = rate;
        size_t needed = room_needed();
        const size_t rooms[] = {needed, needed - 1, 0, LARGE};
        for (unsigned i = 0; i < 8; i++) {
            call.room = rooms[i / 2];
            call.sync = i % 2;
            write_case();
        }
    }
}

/* Texts. */

/* Whether Compact Numeric has no code for a character behind another. */
static bool makes_pair(unsigned before, unsigned character)
{
    if (before == '+' || before == '-')
        return character != 0 && strchr("+-#=E\r\n", character) != NULL;
    return before == '.' && (character == '.' || character == ':');
}

static unsigned some_character(unsigned format, unsigned blanks)
{
    switch (format) {
    case 1:
        return chance(blanks) ? one_of(" /") : between(63, 127);
    case 2:
        return one_of("0123456789 +,-./#=:E\r\n");
    case 3:
        return one_of("0123456789 +,-./#=:;ABCDEFGHIJKLMNOPQRSTUVWXYZ\r\n");
    case 4:
        return chance(blanks) ? one_of("\t\r\n") : between(32, 126);
    default:
        return random_64() >> 56;
    }
}

/* Puts a digit for each character that has no code there. */
static void part_pairs(uint8_t *text, size_t length)
{
    for (size_t i = 1; i < length; i++)
        if (makes_pair(text[i - 1], text[i]))
            text[i] = '0' + i % 10;
}

/* Exactly so many characters; sometimes in runs of the same. In Compact Numeric few have no code where they stand. */
static void make_text(unsigned format, uint8_t *text, size_t length)
{
    unsigned blanks = chance(50) ? 1 : chance(80) ? 20 : 100, longest = chance(60) ? 1 : chance(50) ? 20 : 300;
    bool line_ends = chance(10), pairs = chance(5);
    for (size_t i = 0; i < length;) {
        unsigned character = some_character(format, blanks);
        for (size_t run = between(1, longest); run > 0 && i < length; run--)
            text[i++] = character;
    }
    for (size_t i = 1; line_ends && format >= 2 && i < length; i += between(2, 9))
        memcpy(text + i - 1, "\r\n", 2);
    if (format == 2 && !pairs)
        part_pairs(text, length);
}

/* Long texts of each format, and how much of each has data of at most so many bytes. The first of each is the longest that a packet can hold. */

static const size_t most_packet[] = {4005, 4006, 8007, 8008, 12010, 16011, 16012};
enum { LONG_TEXTS = 4, CUTS = sizeof most_packet / sizeof *most_packet };

static struct long_text {
    uint8_t text[MOST_TEXT];
    size_t cut[CUTS];
} long_texts[FORMATS][LONG_TEXTS];

static size_t longest_part(unsigned format, const uint8_t *text, size_t length, size_t most)
{
    size_t fits = 1, exceeds = length;
    while (exceeds - fits > 1) {
        size_t middle = fits + (exceeds - fits) / 2;
        rosopyat_write_answer asked = independent_write(true, format, false, text, middle, NULL, 0);
        if (asked.refusal == 8 && asked.number <= most)
            fits = middle;
        else
            exceeds = middle;
    }
    return fits;
}

static void make_long_text(unsigned format, unsigned index)
{
    struct long_text *made = &long_texts[format][index];
    size_t length = format == 1 && index < 2 ? 350000 : 48000;
    make_text(format, made->text, length);
    if (format == 2)
        part_pairs(made->text, length);
    for (size_t i = 0; index == 0 && i < length; i++)
        made->text[i] = format == 1 ? '/' : i % 2 == 0 ? '\r' : '\n';
    for (size_t i = 0; format == 1 && index == 1 && i < length; i++)
        made->text[i] = " /"[i / 97 % 2];
    for (unsigned cut = 0; cut < CUTS; cut++)
        made->cut[cut] = longest_part(format, made->text, length, most_packet[cut]);
}

static void make_long_texts(void)
{
    for (unsigned format = 0; format < FORMATS; format++)
        for (unsigned index = 0; index < LONG_TEXTS; index++)
            make_long_text(format, index);
}

/* Fixed cases. */

static const uint32_t no_formats[] = {5, 6, 7, 8, 9, 15, 16, 255, 256, 257, 260, 65536, 65540, 0x40000004, 0x80000000, 0xfffffffc, 0xffffffff};
enum { NO_FORMATS = sizeof no_formats / sizeof *no_formats };

/* Each character by itself, and behind those that may change its meaning. */
static void write_characters(unsigned format)
{
    for (unsigned character = 0; character < 256; character++) {
        write_in_rooms(format, &(const uint8_t){character}, 1);
        for (const char *before = "1+-.\r/@"; *before; before++)
            write_in_rooms(format, (const uint8_t[]){*before, character}, 2);
    }
}

static void write_fixed(void)
{
    uint8_t text[300];
    for (unsigned format = 0; format < FORMATS; format++) {
        for (size_t length = 0; length <= sizeof text; length++) {
            make_text(format, text, length);
            write_in_rooms(format, text, length);
        }
        write_characters(format);
        for (unsigned index = 0; index < LONG_TEXTS; index++)
            for (unsigned cut = 0; cut < CUTS; cut++)
                for (unsigned more = 0; more < 3; more++)
                    write_in_rooms(format, long_texts[format][index].text, long_texts[format][index].cut[cut] - 1 + more);
    }
    for (unsigned i = 0; i < NO_FORMATS; i++)
        for (size_t length = 0; length <= sizeof text; length += 100)
            write_in_rooms(no_formats[i], text, length);
}

/* Random cases. */

static size_t some_length(void)
{
    unsigned dice = below(100);
    return dice < 3 ? 0 : dice < 45 ? between(1, 8) : dice < 75 ? between(1, 64) : dice < 99 ? between(1, 600) : between(600, call.rate_1200 ? 60000 : 20000);
}

static uint32_t some_format(void)
{
    return chance(97) ? below(FORMATS) : chance(50) ? no_formats[below(NO_FORMATS)] : random_64();
}

static size_t some_room(size_t needed)
{
    switch (below(6)) {
    case 0:
        return needed - 1;
    case 1:
        return below(needed);
    case 2:
        return chance(50) ? 0 : LARGE;
    case 3:
        return needed + below(2000);
    default:
        return needed;
    }
}

static void write_random(void)
{
    static uint8_t text[MOST_TEXT];
    uint32_t format = some_format();
    unsigned made_for = format < FORMATS ? format : below(FORMATS);
    call.rate_1200 = below(RATES);
    size_t length = some_length();
    if (chance(1)) {
        const struct long_text *from = &long_texts[made_for][below(LONG_TEXTS)];
        length = from->cut[below(CUTS)] + below(4) - 1;
        memcpy(text, from->text, length);
    } else
        make_text(made_for, text, length);
    if (length > 0 && chance(10))
        for (unsigned i = between(1, 3); i > 0; i--)
            text[chance(30) ? length - 1 : below(length)] = random_64() >> 56;
    set_text(format, text, length);
    call.sync = below(2);
    call.room = some_room(room_needed());
    write_case();
}

/* The end. */

static bool print_counts(const char *name, const unsigned long *counts, unsigned meant)
{
    bool missing = false;
    printf("%s: accepted %lu", name, counts[0]);
    for (unsigned refusal = 8; refusal < REFUSALS; refusal++)
        if (meant >> refusal & 1)
            printf(", refused %u %lu", refusal, counts[refusal]);
    for (unsigned refusal = 0; refusal < REFUSALS; refusal++)
        missing |= (meant >> refusal & 1) && counts[refusal] == 0;
    printf("%s\n", missing ? ": ONE NEVER OCCURRED" : "");
    return missing;
}

static bool print_count(const char *name, size_t length, unsigned long count)
{
    printf("of %zu %s: %lu%s\n", length, name, count, count == 0 ? ": NEVER OCCURRED" : "");
    return count == 0;
}

/* A bit for each answer that must occur. */
static bool all_occurred(void)
{
    static const char *const names[FORMATS] = {"Open", "Pseudo Binary", "Numeric", "SHEF", "Full ASCII"};
    bool missing = print_counts("fixed cases", random_or_fixed[0], 0x1f01);
    missing |= print_counts("random cases", random_or_fixed[1], 0x1f01);
    for (unsigned rate = 0; rate < RATES; rate++) {
        printf("at %s bps\n", rate ? "1200" : "300");
        for (unsigned format = 0; format < FORMATS; format++)
            missing |= print_counts(names[format], by_format[rate][format], format == 0 ? 0xd01 : 0xf01);
        for (unsigned i = 0; i < LENGTHS; i++)
            if (lengths[i].rate_1200 == rate)
                missing |= print_count("data bytes", lengths[i].data_length, of_length[i]);
        missing |= print_count("characters", most_text(rate), longest_texts[rate]);
    }
    return !missing;
}

int main(int count, char **words)
{
    unsigned long cases = count > 1 ? strtoul(words[1], NULL, 10) : 100000;
    prepare();
    make_long_texts();
    for (case_number = 0; case_number < 2; case_number++)
        call_on_stack(logger_nothing);
    size_t nothing = deepest;
    deepest = 0;
    write_fixed();
    is_random = true;
    for (unsigned long i = 0; i < cases; i++)
        write_random();
    bool complete = all_occurred();
    printf("%lu cases, no difference%s\n", case_number, complete ? "" : ", but an answer never occurred");
    printf("stack %zu bytes\n", deepest - nothing);
    return !complete;
}
