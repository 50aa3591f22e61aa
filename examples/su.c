/* Asks a su file one question, and prints the answer as the program supertab does with --su.
 *
 *     su FILE TARGET USER [GROUP ...]
 *
 * The exit status is 0 for a decision, 1 for a refusal, 2 where the file cannot be read or the use is wrong.
 *
 *     cc -I include examples/su.c target/staticlib/libsupertab_c.a -o su
 *     ./su docs/worked.suauth root ann crew
 */
#include <stdio.h>
#include <string.h>

#include "supertab.h"

/* One byte more than a su file may have, so that one that is too long is seen to be. */
static uint8_t file[32769];

/* The groups as strings one behind the other, each ended by a zero byte. */
static uint8_t groups[32768];

/* Adds a group with its zero byte; 0 where there is no room. */
static int add_group(size_t *length, const char *group) {
    size_t more = strlen(group) + 1;
    if (more > sizeof groups - *length) {
        return 0;
    }
    memcpy(groups + *length, group, more);
    *length += more;
    return 1;
}

/* Prints the answer, and gives the exit status. */
static int print_answer(uint8_t number, long long line_or_place) {
    switch (number) {
    case SUPERTAB_SU_NOPASS:
        printf("nopass %lld\n", line_or_place);
        return 0;
    case SUPERTAB_SU_OWNPASS:
        printf("ownpass %lld\n", line_or_place);
        return 0;
    case SUPERTAB_SU_NO_RULE:
        printf("none\n");
        return 0;
    case SUPERTAB_SU_DENY:
        printf("deny %lld\n", line_or_place);
        return 0;
    default:
        printf("refused %d %lld\n", number, line_or_place);
        return 1;
    }
}

int main(int count, char **words) {
    int64_t report[SUPERTAB_SU_REPORT_LENGTH];
    size_t groups_length = 0;
    int good = count >= 4;
    for (int i = 4; good && i < count; i++) {
        good = add_group(&groups_length, words[i]);
    }
    if (!good) {
        fprintf(stderr, "use: su FILE TARGET USER [GROUP ...]\n");
        return 2;
    }
    FILE *from = fopen(words[1], "rb");
    if (from == NULL) {
        perror(words[1]);
        return 2;
    }
    size_t length = fread(file, 1, sizeof file, from);
    if (ferror(from)) {
        perror(words[1]);
        return 2;
    }
    fclose(from);
    uint8_t number = supertab_su_answer(file, length,
                                        (const uint8_t *)words[2], strlen(words[2]),
                                        (const uint8_t *)words[3], strlen(words[3]),
                                        groups, groups_length, report, SUPERTAB_SU_REPORT_LENGTH);
    return print_answer(number, report[0]);
}
