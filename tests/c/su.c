/* The su function from C: the example of suauth(5) ("001") with questions worked out by hand, each answer, the forms of
 * the groups, refusals in their order, every cut, and what stays as it was. Whatever is passed ends at memory that cannot
 * be read. Prints each failure, and a last line 'N passed, M failed'. */
#define _GNU_SOURCE
#include <stdio.h>
#include <stdlib.h>
#include <string.h>
#include <sys/mman.h>

#include "supertab.h"

enum { LIMIT = 32768, PAGE = 65536, NUMBER_BEFORE = -99 };

/* The report lies between guards, which no call may change. */
enum { GUARD = 16, NUMBERS = 3 * GUARD };

#define FIRST "root:ann:DENY\n"

/* Its rules are the lines 6, 11, 18 and 19. */
static const char example[] = "# sample /etc/suauth file\n"
                              "#\n"
                              "# A couple of privileged usernames may\n"
                              "# su to root with their own password.\n"
                              "#\n"
                              "root:chris,birddog:OWNPASS\n"
                              "#\n"
                              "# Anyone else may not su to root unless in\n"
                              "# group wheel. This is how BSD does things.\n"
                              "#\n"
                              "root:ALL EXCEPT GROUP wheel:DENY\n"
                              "#\n"
                              "# Perhaps terry and birddog are accounts\n"
                              "# owned by the same person.\n"
                              "# Access can be arranged between them\n"
                              "# with no password.\n"
                              "#\n"
                              "terry:birddog:NOPASS\n"
                              "birddog:terry:NOPASS\n"
                              "#\n";

/* A question; groups are a string of C with a `;` for each zero byte. */
struct asked {
    const char *target, *user, *groups;
};

static const struct asked usual = {"root", "ann", ""};

static int64_t numbers[NUMBERS];
static int64_t *const report = numbers + GUARD;
static uint8_t *ends[4];
static int passed, failed;

static void expect(const char *name, bool holds) {
    if (holds) {
        passed++;
    } else {
        failed++;
        printf("su: %s\n", name);
    }
}

/* Memory for each of the four arrays that are read, with pages behind it that cannot be. */
static void begin(void) {
    for (int i = 0; i < 4; i++) {
        uint8_t *memory = mmap(NULL, 2 * PAGE, PROT_READ | PROT_WRITE, MAP_PRIVATE | MAP_ANONYMOUS, -1, 0);
        if (memory == MAP_FAILED || mprotect(memory + PAGE, PAGE, PROT_NONE) != 0) {
            perror("su: memory");
            exit(1);
        }
        ends[i] = memory + PAGE;
    }
}

/* The bytes at the end of the memory with this index. */
static const uint8_t *lent(int index, const void *bytes, size_t length) {
    return memcpy(ends[index] - length, bytes, length);
}

/* Calls with a report of so many numbers, all of which hold the same beforehand. */
static uint8_t ask_with(const void *file, size_t length, const struct asked *a, size_t count) {
    char groups[4096];
    size_t target_length = strlen(a->target), user_length = strlen(a->user), groups_length = strlen(a->groups);
    for (size_t i = 0; i < groups_length; i++) {
        groups[i] = a->groups[i] == ';' ? 0 : a->groups[i];
    }
    for (int i = 0; i < NUMBERS; i++) {
        numbers[i] = NUMBER_BEFORE;
    }
    return supertab_su_answer(lent(0, file, length), length, lent(1, a->target, target_length), target_length,
                              lent(2, a->user, user_length), user_length, lent(3, groups, groups_length), groups_length,
                              report, count);
}

/* All numbers but so many at the front of the report are as they were. */
static bool others_stay(size_t count) {
    for (size_t i = 0; i < NUMBERS; i++) {
        if ((i < GUARD || i >= GUARD + count) && numbers[i] != NUMBER_BEFORE) {
            return false;
        }
    }
    return true;
}

/* The answer, and the line or the place; no other number is written, however long the report is. */
static void expect_of(const char *name, const void *file, size_t length, const struct asked *a, uint8_t number,
                      int64_t told) {
    static const size_t counts[] = {1, 2, 3, GUARD};
    for (size_t i = 0; i < sizeof counts / sizeof counts[0]; i++) {
        expect(name, ask_with(file, length, a, counts[i]) == number && report[0] == told && others_stay(1));
    }
}

/* The same for a string of C. */
static void expect_told(const char *file, struct asked a, uint8_t number, int64_t told) {
    expect_of(file, file, strlen(file), &a, number, told);
}

/* The questions to the example, with their answers and lines. */
static const struct {
    struct asked asked;
    uint8_t number;
    int64_t line;
} worked[] = {
    {{"root", "chris", ""}, SUPERTAB_SU_OWNPASS, 6},
    {{"root", "birddog", "wheel;"}, SUPERTAB_SU_OWNPASS, 6},
    {{"root", "terry", ""}, SUPERTAB_SU_DENY, 11},
    {{"root", "ann", "crew;wheels;"}, SUPERTAB_SU_DENY, 11},
    {{"root", "root", "root;"}, SUPERTAB_SU_DENY, 11},
    {{"root", "terry", "wheel;"}, SUPERTAB_SU_NO_RULE, 0},
    {{"root", "ann", "crew;bench;wheel;"}, SUPERTAB_SU_NO_RULE, 0},
    {{"terry", "birddog", ""}, SUPERTAB_SU_NOPASS, 18},
    {{"birddog", "terry", "wheel;"}, SUPERTAB_SU_NOPASS, 19},
    {{"terry", "chris", ""}, SUPERTAB_SU_NO_RULE, 0},
    {{"birddog", "birddog", ""}, SUPERTAB_SU_NO_RULE, 0},
};

/* What a beginning of the example answers: within a line 13 with the line's beginning; between lines the answer of the
 * whole where its line is there, else no rule. */
static void expect_cut(size_t length, const struct asked *a, uint8_t number, int64_t line) {
    size_t lines = 0, start = 0;
    for (size_t i = 0; i < length; i++) {
        if (example[i] == '\n') {
            lines++;
            start = i + 1;
        }
    }
    if (start != length) {
        expect_of("a cut line", example, length, a, SUPERTAB_SU_CUT_SHORT, (int64_t)start);
    } else if (number != SUPERTAB_SU_NO_RULE && (size_t)line <= lines) {
        expect_of("cut behind the rule", example, length, a, number, line);
    } else {
        expect_of("cut before the rule", example, length, a, SUPERTAB_SU_NO_RULE, 0);
    }
}

static void the_example(void) {
    for (size_t i = 0; i < sizeof worked / sizeof worked[0]; i++) {
        expect_told(example, worked[i].asked, worked[i].number, worked[i].line);
        for (size_t length = 0; length < sizeof example; length++) {
            expect_cut(length, &worked[i].asked, worked[i].number, worked[i].line);
        }
    }
}

static void each_answer(void) {
    expect_told("root:ann:NOPASS\n", usual, SUPERTAB_SU_NOPASS, 1);
    expect_told("#\n\nroot:ann:OWNPASS\n", usual, SUPERTAB_SU_OWNPASS, 3);
    expect_told("root:bo:DENY\n", usual, SUPERTAB_SU_NO_RULE, 0);
    expect_told("", usual, SUPERTAB_SU_NO_RULE, 0);
    expect_told("root:bo:DENY\nALL:ALL:DENY\nroot:ann:NOPASS\n", usual, SUPERTAB_SU_DENY, 2);
    expect_told(FIRST, (struct asked){"root", "a b", ""}, SUPERTAB_SU_BAD_QUESTION, 0);
    expect_told(FIRST "#\r\n", usual, SUPERTAB_SU_REFUSED_BYTE, 15);
    expect_told(FIRST "root:ann:DENY", usual, SUPERTAB_SU_CUT_SHORT, 14);
    expect_told(FIRST " root:ann:deny\n", usual, SUPERTAB_SU_MALFORMED, 14);
}

/* At most 32,768 bytes; a file with more is 11, whatever they are. */
static void lengths(void) {
    static char file[LIMIT + 1];
    memset(file, '\n', sizeof file);
    expect_of("32,768 bytes", file, LIMIT, &usual, SUPERTAB_SU_NO_RULE, 0);
    expect_of("32,769 bytes", file, LIMIT + 1, &usual, SUPERTAB_SU_LONG_FILE, LIMIT);
    /* 32,754 empty lines. */
    memcpy(file + LIMIT - strlen(FIRST), FIRST, strlen(FIRST));
    expect_of("the last line", file, LIMIT, &usual, SUPERTAB_SU_DENY, 32755);
    file[LIMIT - 1] = 'x';
    expect_of("the last byte", file, LIMIT, &usual, SUPERTAB_SU_CUT_SHORT, LIMIT - 14);
    file[LIMIT - 1] = 0x7F;
    expect_of("the last byte refused", file, LIMIT, &usual, SUPERTAB_SU_REFUSED_BYTE, LIMIT - 1);
    memset(file, 0, sizeof file);
    expect_of("11 ahead of 12", file, LIMIT + 1, &usual, SUPERTAB_SU_LONG_FILE, LIMIT);
    expect_of("10 ahead of 11", file, LIMIT + 1, &(struct asked){"", "ann", ""}, SUPERTAB_SU_BAD_QUESTION, 0);
}

static void every_byte(void) {
    for (int byte = 0; byte < 256; byte++) {
        const uint8_t file[] = {'#', '\n', '#', (uint8_t)byte, '\n'};
        bool taken = byte == '\t' || byte == '\n' || (byte >= 0x20 && byte <= 0x7E);
        expect_of("a byte of a comment", file, sizeof file, &usual, taken ? SUPERTAB_SU_NO_RULE : SUPERTAB_SU_REFUSED_BYTE,
                  taken ? 0 : 3);
    }
}

/* Lists as strings one behind the other, each ended by a zero byte. */
static void groups(void) {
    static const char *const bad[] = {"wheel", ";", ";wheel;", "wheel;;", "crew;wheel", "a b;", "crew,wheel;", "a:;"};
    static const char file[] = "root:GROUP wheel:NOPASS\nroot:ALL EXCEPT GROUP crew:OWNPASS\n";
    expect_told(file, (struct asked){"root", "ann", "wheel;"}, SUPERTAB_SU_NOPASS, 1);
    expect_told(file, (struct asked){"root", "ann", "crew;wheel;"}, SUPERTAB_SU_NOPASS, 1);
    expect_told(file, (struct asked){"root", "wheel", ""}, SUPERTAB_SU_OWNPASS, 2);
    expect_told(file, (struct asked){"root", "ann", "whee;l;"}, SUPERTAB_SU_OWNPASS, 2);
    expect_told(file, (struct asked){"root", "ann", "crew;"}, SUPERTAB_SU_NO_RULE, 0);
    for (size_t i = 0; i < sizeof bad / sizeof bad[0]; i++) {
        expect_told(file, (struct asked){"root", "ann", bad[i]}, SUPERTAB_SU_BAD_QUESTION, 0);
    }
    /* 32 groups of 32 bytes, the last of which the file names. */
    char many[33 * 33 + 1], rule[64];
    memset(many, 'g', sizeof many);
    for (size_t i = 0; i < 33; i++) {
        many[33 * i + 32] = ';';
    }
    many[33 * 31] = 'h';
    many[33 * 33] = 0;
    snprintf(rule, sizeof rule, "root:GROUP %.32s:NOPASS\n", many + 33 * 31);
    expect_told(rule, (struct asked){"root", "ann", many}, SUPERTAB_SU_BAD_QUESTION, 0);
    many[33 * 32] = 0;
    expect_told(rule, (struct asked){"root", "ann", many}, SUPERTAB_SU_NOPASS, 1);
    /* One byte more in the first. */
    memmove(many + 1, many, 33 * 32);
    many[33 * 32 + 1] = 0;
    expect_told(rule, (struct asked){"root", "ann", many}, SUPERTAB_SU_BAD_QUESTION, 0);
}

/* A name of a question has 1 to 32 bytes of letters, digits, `.`, `_` and `-`. */
static void names(void) {
    char name[34] = "";
    for (size_t length = 0; length <= 33; length++) {
        bool good = length >= 1 && length <= 32;
        uint8_t number = good ? SUPERTAB_SU_DENY : SUPERTAB_SU_BAD_QUESTION;
        expect_told("ALL:ALL:DENY\n", (struct asked){name, "ann", ""}, number, good);
        expect_told("ALL:ALL:DENY\n", (struct asked){"root", name, ""}, number, good);
        if (length < 33) {
            name[length] = "aZ09._-"[length % 7];
        }
    }
    expect_told("root:ALL EXCEPT bo:DENY\n", (struct asked){"root", "ALL", ""}, SUPERTAB_SU_DENY, 1);
}

/* A line is read whether it applies or not, and behind the one that decides. */
static void malformed(void) {
    static const char *const lines[] = {
        "root:ann", "root:ann:DENY:", "root:ann:PASS", "root: ann:DENY", "root::DENY", "root:ann,:DENY", "root:GROUP:DENY",
        "GROUP g:ann:DENY", "ALL,bo:ann:DENY", "root:ann EXCEPT bo:DENY", "root:ann,GROUP g:DENY",
        "root:ALL  EXCEPT bo:DENY", "root:GROUP g EXCEPT ann:DENY",
    };
    for (size_t i = 0; i < sizeof lines / sizeof lines[0]; i++) {
        char file[128];
        snprintf(file, sizeof file, "%s%s\n", FIRST, lines[i]);
        expect_told(file, usual, SUPERTAB_SU_MALFORMED, 14);
        expect_told(file, (struct asked){"bo", "bo", ""}, SUPERTAB_SU_MALFORMED, 14);
        snprintf(file, sizeof file, "%s\t%s\nroot:\nroot:ann:DE", FIRST, lines[i]);
        expect_told(file, usual, SUPERTAB_SU_MALFORMED, 14);
        snprintf(file, sizeof file, "%s%s\n\x80", FIRST, lines[i]);
        expect_told(file, usual, SUPERTAB_SU_REFUSED_BYTE, (int64_t)strlen(FIRST) + (int64_t)strlen(lines[i]) + 1);
    }
}

/* 255 is given ahead of every other answer, and writes nothing. */
static void no_number(void) {
    static const char *const files[] = {"", FIRST, "root", "x\n", "\x80"};
    static const char *const users[] = {"ann", ""};
    for (size_t i = 0; i < sizeof files / sizeof files[0]; i++) {
        for (size_t j = 0; j < 2; j++) {
            uint8_t number = ask_with(files[i], strlen(files[i]), &(struct asked){"root", users[j], ""}, 0);
            expect("a report of no number", number == SUPERTAB_SU_SMALL_REPORT && others_stay(0));
        }
    }
}

int main(void) {
    begin();
    the_example();
    each_answer();
    lengths();
    every_byte();
    groups();
    names();
    malformed();
    no_number();
    printf("%d passed, %d failed\n", passed, failed);
    return failed != 0;
}
