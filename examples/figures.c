/* Counts the records of a log, block by block, and prints how many there are of each answer, how many are refused and
 * were given, and the mean age.
 *
 *     figures LOG
 *
 * The exit status is 0 where all of the log was counted, 1 where bytes are left at its end or records lie past the limit,
 * which is told on standard error, and 2 where the log cannot be read or the use is wrong.
 *
 *     cc -I include examples/figures.c target/staticlib/libsupertab_c.a -o figures
 *     ./figures crew.log
 */
#include <stdio.h>

#include "supertab.h"

/* Whole records, so that only the last block can end within one. */
enum { BLOCK = 512 * SUPERTAB_RECORD_LENGTH };

/* Prints each answer that has records, and what the others of the figures are. */
static void print_figures(const int64_t *figures) {
    for (int number = 0; number < 24; number++) {
        long long count = figures[SUPERTAB_FIGURE_ANSWERS + number];
        if (count != 0) {
            printf("answer %d: %lld\n", number, count);
        }
    }
    printf("refused: %lld\n", (long long)figures[SUPERTAB_FIGURE_REFUSED]);
    printf("given: %lld\n", (long long)figures[SUPERTAB_FIGURE_GIVEN]);
    long long sum = figures[SUPERTAB_FIGURE_AGE_SUM], count = figures[SUPERTAB_FIGURE_AGE_COUNT];
    if (count != 0) {
        /* Rounded down to a tenth. */
        printf("mean age: %lld / %lld = %lld.%lld\n", sum, count, sum / count, sum * 10 / count % 10);
    } else {
        printf("mean age: none\n");
    }
}

int main(int count, char **words) {
    static uint8_t block[BLOCK];
    int64_t figures[SUPERTAB_FIGURES_LENGTH], past_limit = 0;
    size_t length, left;
    if (count != 2) {
        fprintf(stderr, "use: figures LOG\n");
        return 2;
    }
    FILE *file = fopen(words[1], "rb");
    if (file == NULL) {
        perror(words[1]);
        return 2;
    }
    (void)supertab_figures_new(figures, SUPERTAB_FIGURES_LENGTH);
    do {
        int64_t refused = 0;
        length = fread(block, 1, sizeof block, file);
        left = length % SUPERTAB_RECORD_LENGTH;
        /* Of whole records only those past the limit can be refused, and they are counted here. */
        (void)supertab_figures_feed(figures, SUPERTAB_FIGURES_LENGTH, block, length - left, &refused, 1);
        past_limit += refused;
    } while (length == sizeof block);
    if (ferror(file)) {
        perror(words[1]);
        return 2;
    }
    fclose(file);
    print_figures(figures);
    if (left != 0) {
        fprintf(stderr, "%s: %zu bytes are left at the end; look for a cut\n", words[1], left);
    }
    if (past_limit != 0) {
        fprintf(stderr, "%s: %lld records lie past the limit and are not counted\n", words[1], (long long)past_limit);
    }
    return left != 0 || past_limit != 0;
}
