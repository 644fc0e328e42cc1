/*
 * Reads a lay-up, one line from standard input, and prints its fewest split in edition 1: the size
 * and then the end of each block, a line each. At the top of the repository, after
 * `make lib`:
 *
 *   cc -I include -o target/fewest examples/fewest.c target/staticlib/libcegridom.a
 *
 * and then, for example, printf abaabaababaabaabababa | target/fewest
 */
#include <cegridom.h>

#include <inttypes.h>
#include <stdio.h>

/* One symbol more than the limit is read, so that the library sees a word that is too long. */
static uint8_t word[CEGRIDOM_LIMIT + 1];
static uint32_t ends[CEGRIDOM_MOST_ENDS(CEGRIDOM_LIMIT)];
static uint32_t work[CEGRIDOM_WORK_PLACES(CEGRIDOM_LIMIT)];

int main(void) {
    size_t n = 0;
    int symbol;
    while (n < sizeof word && (symbol = getchar()) != EOF && symbol != '\n') {
        word[n++] = (uint8_t)symbol;
    }
    if (ferror(stdin)) {
        /* what was read may be half a line */
        fputs("fewest: the input could not be read\n", stderr);
        return 1;
    }
    uint32_t size, index;
    uint32_t result = cegridom_best_split(word, n, CEGRIDOM_EDITION_1, CEGRIDOM_FEWEST, ends,
                                          sizeof ends / sizeof *ends, work,
                                          sizeof work / sizeof *work, &size, &index);
    if (result == CEGRIDOM_NO_SPLIT) {
        puts("no split");
        return 0;
    }
    if (result != CEGRIDOM_ACCEPTED) {
        fprintf(stderr, "fewest: refused: %s\n", cegridom_message(result));
        return 1;
    }
    printf("%" PRIu32 "\n", size);
    for (uint32_t i = 0; i < size; i++) {
        printf("%" PRIu32 "\n", ends[i]);
    }
    return 0;
}
