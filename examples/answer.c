/* Asks a table one question, and prints the answer as the program supertab does.
 *
 *     answer TABLE COMMAND USER GROUPS HOST MINUTE AGE [ARGUMENT ...]
 *
 * GROUPS is joined by commas, `-` for none; AGE is in minutes, `-` for never. The exit status is 0 for a decision, 1 for
 * a refusal, 2 where the table cannot be read or the use is wrong.
 *
 *     cc -I include examples/answer.c target/staticlib/libsupertab_c.a -o answer
 *     ./answer docs/worked.tab setclock ann - van2 1049 15
 */
#include <stdio.h>
#include <stdlib.h>
#include <string.h>

#include "supertab.h"

/* One byte more than a table may have, so that one that is too long is seen to be. */
static uint8_t table[32769];

/* Strings one behind the other, each ended by a zero byte. */
struct strings {
    uint8_t bytes[32768];
    size_t length;
};

/* Adds a string with its zero byte; 0 where there is no room. */
static int add(struct strings *list, const char *text, size_t length) {
    if (length + 1 > sizeof list->bytes - list->length) {
        return 0;
    }
    memcpy(list->bytes + list->length, text, length);
    list->bytes[list->length + length] = 0;
    list->length += length + 1;
    return 1;
}

/* Adds the pieces that commas make of a text. */
static int add_pieces(struct strings *list, const char *text) {
    for (;;) {
        size_t length = strcspn(text, ",");
        if (!add(list, text, length)) {
            return 0;
        }
        if (text[length] == 0) {
            return 1;
        }
        text += length + 1;
    }
}

/* The whole text as a number from low to high. */
static int read_number(const char *text, long low, long high, long *number) {
    char *end;
    *number = strtol(text, &end, 10);
    return end != text && *end == 0 && low <= *number && *number <= high;
}

/* Prints an option that is set: a string of the buffer that is not empty. */
static void print_option(const char *name, const uint8_t *buffer, int64_t begin, int64_t end) {
    if (begin < end) {
        printf(" %s=%s", name, (const char *)buffer + begin);
    }
}

/* Prints the answer, and gives the exit status. */
static int print_answer(uint8_t number, const uint8_t *buffer, const int64_t *report) {
    long long line = report[SUPERTAB_REPORT_LINE_OR_PLACE];
    switch (number) {
    case SUPERTAB_PERMIT:
    case SUPERTAB_PASSWORD:
        /* The path begins the buffer, and its zero byte ends it. */
        printf("%s %lld %s", number == SUPERTAB_PERMIT ? "permit" : "password", line, (const char *)buffer);
        print_option("uid", buffer, report[SUPERTAB_REPORT_PATH_END] + 1, report[SUPERTAB_REPORT_UID_END]);
        print_option("euid", buffer, report[SUPERTAB_REPORT_UID_END] + 1, report[SUPERTAB_REPORT_EUID_END]);
        print_option("gid", buffer, report[SUPERTAB_REPORT_EUID_END] + 1, report[SUPERTAB_REPORT_GID_END]);
        print_option("egid", buffer, report[SUPERTAB_REPORT_GID_END] + 1, report[SUPERTAB_REPORT_EGID_END]);
        printf("\n");
        return 0;
    case SUPERTAB_NO_ENTRY:
        printf("none\n");
        return 0;
    case SUPERTAB_STOPPED_BY_NARGS:
        printf("stopped %lld nargs\n", line);
        return 0;
    case SUPERTAB_STOPPED_BY_ARGUMENT:
        printf("stopped %lld arg\n", line);
        return 0;
    case SUPERTAB_STOPPED_BY_PATH:
        printf("stopped %lld path\n", line);
        return 0;
    default:
        printf("refused %d %lld\n", number, line);
        return 1;
    }
}

int main(int count, char **words) {
    static struct strings groups, arguments;
    static uint8_t buffer[SUPERTAB_BUFFER_LENGTH];
    int64_t report[SUPERTAB_REPORT_LENGTH];
    long minute, age = 0;
    int good = count >= 8 && read_number(words[6], 0, 10079, &minute);
    bool authenticated = good && strcmp(words[7], "-") != 0;
    good = good && (!authenticated || read_number(words[7], INT32_MIN, INT32_MAX, &age));
    good = good && (strcmp(words[4], "-") == 0 || add_pieces(&groups, words[4]));
    for (int i = 8; good && i < count; i++) {
        good = add(&arguments, words[i], strlen(words[i]));
    }
    if (!good) {
        fprintf(stderr, "use: answer TABLE COMMAND USER GROUPS HOST MINUTE AGE [ARGUMENT ...]\n");
        return 2;
    }
    FILE *file = fopen(words[1], "rb");
    if (file == NULL) {
        perror(words[1]);
        return 2;
    }
    size_t length = fread(table, 1, sizeof table, file);
    if (ferror(file)) {
        perror(words[1]);
        return 2;
    }
    fclose(file);
    uint8_t number = supertab_answer(table, length,
                                     (const uint8_t *)words[2], strlen(words[2]),
                                     (const uint8_t *)words[3], strlen(words[3]),
                                     groups.bytes, groups.length,
                                     (const uint8_t *)words[5], strlen(words[5]),
                                     (uint32_t)minute, authenticated, (int32_t)age,
                                     arguments.bytes, arguments.length,
                                     buffer, sizeof buffer, report, SUPERTAB_REPORT_LENGTH);
    return print_answer(number, buffer, report);
}
