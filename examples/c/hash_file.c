/* The hash of a file, read in parts: hash_file FILE
 * Exit status: 0 done, 1 the file has more than 2^64 - 1 bytes, 2 it could not be read, or the answer not be written. */
#include "tulgranie.h"

#include <inttypes.h>
#include <stdio.h>

int main(int argc, char **argv)
{
    uint8_t part[8192];
    size_t n;
    if (argc != 2) {
        fprintf(stderr, "usage: hash_file FILE\n");
        return 2;
    }
    FILE *file = fopen(argv[1], "rb");
    if (!file) {
        perror(argv[1]);
        return 2;
    }
    tulgranie_stream stream = tulgranie_stream_open(tulgranie_default_secrets(), true, false);
    while ((n = fread(part, 1, sizeof part, file)) > 0) {
        tulgranie_stream_wrote wrote = tulgranie_stream_write(&stream, part, n);
        if (wrote.number != 0) {
            fprintf(stderr, "refused: %" PRIu64 ", room for %" PRIu64 "\n", wrote.number, wrote.room);
            return 1;
        }
    }
    if (ferror(file)) {
        perror(argv[1]);
        return 2;
    }
    fclose(file);
    uint64_t hash = tulgranie_stream_finish(&stream).hash;
    return printf("%016" PRIx64 "\n", hash) < 0 || fflush(stdout) != 0 ? 2 : 0;
}
