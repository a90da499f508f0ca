/* Writes the text of a file as a packet to standard output: write_file FORMAT FILE, where FORMAT is a number of rosopyat_format, 0 to 4.
 * Status 0: written; 1: refused; 2: a file could not be read or written, or FORMAT is no number. The message is one of 300 bps; for one of 1200 say true for
 * the first false, and ROSOPYAT_MOST_TEXT_1200 and ROSOPYAT_MOST_PACKET_1200 for the sizes. */
#include "rosopyat.h"

#include <stdio.h>
#include <stdlib.h>

int main(int count, char **words)
{
    /* one byte more than the longest text has, so that a longer file is refused and not cut */
    static uint8_t text[ROSOPYAT_MOST_TEXT + 1], packet[ROSOPYAT_MOST_PACKET];
    char *end = NULL;
    unsigned long format = count == 3 ? strtoul(words[1], &end, 10) : 0;
    if (count != 3 || words[1][0] < '0' || words[1][0] > '9' || *end != 0) {
        fprintf(stderr, "usage: write_file FORMAT FILE\n");
        return 2;
    }
    FILE *file = fopen(words[2], "rb");
    if (!file) {
        perror(words[2]);
        return 2;
    }
    size_t length = fread(text, 1, sizeof text, file);
    if (ferror(file)) { /* as of a directory */
        perror(words[2]);
        return 2;
    }
    fclose(file);

    /* what 32 bits do not hold is no format either: it must not be cut to one */
    uint32_t named = format < UINT32_MAX ? format : UINT32_MAX;
    rosopyat_write_answer answer = rosopyat_write(false, named, false, text, length, packet, sizeof packet);
    if (answer.refusal != ROSOPYAT_ACCEPTED) {
        fprintf(stderr, "refused %u, number %zu\n", answer.refusal, answer.number);
        return 1;
    }
    if (fwrite(packet, 1, answer.length, stdout) != answer.length || fflush(stdout) != 0) {
        perror("standard output");
        return 2;
    }
    return 0;
}
