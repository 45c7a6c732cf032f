/* The fingerprint of a label record in a file: fingerprint RECORD
 * Exit status: 0 done, 1 the record is refused, 2 it could not be read, or the answer not be written. */
#include "tulgranie.h"

#include <inttypes.h>
#include <stdio.h>

int main(int argc, char **argv)
{
    static uint8_t record[8193]; /* one byte more than a record may have, so that a longer one is refused */
    if (argc != 2) {
        fprintf(stderr, "usage: fingerprint RECORD\n");
        return 2;
    }
    FILE *file = fopen(argv[1], "rb");
    if (!file) {
        perror(argv[1]);
        return 2;
    }
    size_t length = fread(record, 1, sizeof record, file);
    if (ferror(file)) { /* what came before the error is no record: it may even be a good one with another fingerprint */
        perror(argv[1]);
        return 2;
    }
    fclose(file);
    tulgranie_answer answer = tulgranie_fingerprint(record, length, tulgranie_default_secrets());
    if (answer.number != 0) {
        fprintf(stderr, "refused: %" PRIu64 " at %" PRIu64 "\n", answer.number, answer.place);
        return 1;
    }
    return printf("%016" PRIx64 "\n", answer.fingerprint) < 0 || fflush(stdout) != 0 ? 2 : 0;
}
