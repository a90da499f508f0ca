/* Answers for the test of the printed sheet, through rosopyat.h: linked once with the independent implementation under the library's names, and once with
 * the library. A line of standard input names how many header bits may be mended, and has a packet in hexadecimal digits; for each a line of standard output
 * has the refusal, how many header bits were mended, and their mask. */
#include "rosopyat.h"

#include <stdio.h>
#include <string.h>

enum { MOST_PACKET = 16 };

/* The bytes of a row of hexadecimal digits; 0 where it is none. */
static size_t bytes_of(const char *digits, uint8_t *bytes)
{
    size_t length = strlen(digits) / 2;
    if (length * 2 != strlen(digits))
        return 0;
    for (size_t i = 0; i < length; i++)
        if (sscanf(digits + 2 * i, "%2hhx", &bytes[i]) != 1)
            return 0;
    return length;
}

int main(void)
{
    static uint8_t text[ROSOPYAT_MOST_TEXT];
    uint8_t packet[MOST_PACKET];
    char digits[2 * MOST_PACKET + 1];
    unsigned mend;
    int taken;
    while ((taken = scanf("%u %32s", &mend, digits)) == 2) {
        size_t length = bytes_of(digits, packet);
        if (length == 0) {
            fprintf(stderr, "%s is no packet\n", digits);
            return 1;
        }
        rosopyat_read_answer answer = rosopyat_read_mending(mend, false, packet, length, text, sizeof text);
        printf("%u %u %08X\n", (unsigned)answer.refusal, (unsigned)answer.mended, (unsigned)answer.mask);
    }
    return taken != EOF;
}
