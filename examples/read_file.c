/* Reads a packet from a file and prints its text: read_file FILE. Status 0: printed; 1: refused; 2: a file could not be read or written. At most one wrong
 * header bit is mended, as on a live channel; for a weak recording that is known to hold a packet call rosopyat_read_mending with 2. Where a bit was mended,
 * a line on standard error says how many, and by the mask which: mended 1, mask 01000000 for the spare bit. The message is one of 300 bps; for one of 1200 say
 * true for false, and ROSOPYAT_MOST_PACKET_1200 and ROSOPYAT_MOST_TEXT_1200 for the sizes. */
#include "rosopyat.h"

#include <inttypes.h>
#include <stdio.h>

int main(int count, char **words)
{
    static uint8_t packet[ROSOPYAT_MOST_PACKET], text[ROSOPYAT_MOST_TEXT];
    if (count != 2) {
        fprintf(stderr, "usage: read_file FILE\n");
        return 2;
    }
    FILE *file = fopen(words[1], "rb");
    if (!file) {
        perror(words[1]);
        return 2;
    }
    size_t length = fread(packet, 1, sizeof packet, file);
    if (ferror(file)) { /* as of a directory */
        perror(words[1]);
        return 2;
    }
    fclose(file);

    rosopyat_read_answer answer = rosopyat_read(false, packet, length, text, sizeof text);
    if (answer.refusal != ROSOPYAT_ACCEPTED) {
        fprintf(stderr, "refused %u, number %zu\n", answer.refusal, answer.number);
        return 1;
    }
    if (answer.mended != 0)
        fprintf(stderr, "mended %" PRIu32 ", mask %08" PRIX32 "\n", answer.mended, answer.mask);
    if (fwrite(text, 1, answer.text_length, stdout) != answer.text_length || fflush(stdout) != 0) {
        perror("standard output");
        return 2;
    }
    return 0;
}
