/* loop ROUNDS FILE...: reads each table file and gives it to starlark_check_file, ROUNDS times over: what `ducat check --module` is compared with.
 * Prints the number of files with errors in a round, and of refused ones, so that both sides are seen to do the same work. */
#include <stdio.h>
#include <stdlib.h>
#include "starlark.h"

#define MOST_BYTES 59905 /* one more than a table file has */

static unsigned char file[MOST_BYTES];
static uint32_t errors[STARLARK_ERROR_WORDS * STARLARK_ERRORS];

int main(int argc, char **argv) {
    uint32_t out[12];
    long bad = 0, refused = 0;
    if (argc < 3)
        return 2;
    for (int rounds = atoi(argv[1]); rounds > 0; rounds--) {
        bad = refused = 0;
        for (int i = 2; i < argc; i++) {
            FILE *in = fopen(argv[i], "rb");
            if (!in)
                return 2;
            size_t len = fread(file, 1, sizeof file, in);
            fclose(in);
            if (starlark_check_file(file, len, errors, sizeof errors / sizeof *errors, out))
                refused++;
            else
                bad += out[0] != 0;
        }
    }
    printf("%ld with errors, %ld refused\n", bad, refused);
    return 0;
}
