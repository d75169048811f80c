/*
 * Settles the file named on the command line and prints its report, as firmware would do it: fixed buffers, one call, one number.
 * Ends with 0 where a report was written, with 1 where the file is refused, and with 2 where it could not be read or the answer not be written.
 */
#include <inttypes.h>
#include <stdio.h>

#include "settlement.h"

/* A file of one byte more is too long, and the unit says so. */
static uint8_t file[65537];
static uint8_t space[SETTLEMENT_LONGEST_REPORT];

int main(int argc, char **argv)
{
    if (argc != 2) {
        fprintf(stderr, "usage: %s FILE\n", argv[0]);
        return 2;
    }
    FILE *in = fopen(argv[1], "rb");
    if (in == NULL) {
        perror(argv[1]);
        return 2;
    }
    size_t file_len = fread(file, 1, sizeof file, in);
    /* Where reading fails, what came before it is not the file: the unit would settle or refuse something else. */
    if (ferror(in)) {
        perror(argv[1]);
        return 2;
    }
    fclose(in);

    uint64_t answer = settlement_report(file, file_len, space, sizeof space);
    int refused = answer < SETTLEMENT_SHORTEST_REPORT;
    if (refused) {
        printf("Refused:,%" PRIu64 ",,\n", answer);
    } else {
        fwrite(space, 1, (size_t)answer, stdout);
    }
    /* Bytes may be held back until now, so that only here it shows whether all were written. */
    if (fflush(stdout) != 0 || ferror(stdout)) {
        perror("standard output");
        return 2;
    }
    return refused;
}
