/* How much stack the whole call on a table takes, and the one on a su file: it is run on a thread whose stack was painted
 * beforehand, and the bytes that it touched are counted; what a thread takes by itself is subtracted. Each table and file
 * also has the answer that it must get, so that it is known to be read to where it matters. Fails above 68 KB, and above
 * 8 KB for a su file. Tables may be named as arguments, for a question by ann on van2 for setclock. Prints a line for each
 * table and file, and a last line 'N passed, M failed'. */
#define _GNU_SOURCE
#include <pthread.h>
#include <stdio.h>
#include <stdlib.h>
#include <string.h>
#include <sys/mman.h>

#include "supertab.h"

enum { STACK = 4 << 20, GUARD = 65536, PAINT = 0xA5, ANY = -1 };

#define GLOBAL ":global patterns=shell\n"

static uint8_t table[32769];
static size_t length;
static const char *command, *user, *host;
static uint8_t groups[4096], arguments[32768];
static size_t groups_length, arguments_length;
static int number;
static int passed, failed;

static void *idle(void *nothing) {
    return nothing;
}

static void *call(void *nothing) {
    /* These are no part of the call's stack. */
    static uint8_t buffer[SUPERTAB_BUFFER_LENGTH];
    static int64_t report[SUPERTAB_REPORT_LENGTH];
    number = supertab_answer(table, length, (const uint8_t *)command, strlen(command), (const uint8_t *)user, strlen(user),
                             groups, groups_length, (const uint8_t *)host, strlen(host), 600, false, 0, arguments,
                             arguments_length, buffer, sizeof buffer, report, SUPERTAB_REPORT_LENGTH);
    return nothing;
}

/* The table as a su file, and the command as the target. */
static void *su_call(void *nothing) {
    static int64_t report[SUPERTAB_SU_REPORT_LENGTH];
    number = supertab_su_answer(table, length, (const uint8_t *)command, strlen(command), (const uint8_t *)user,
                                strlen(user), groups, groups_length, report, SUPERTAB_SU_REPORT_LENGTH);
    return nothing;
}

/* The bytes that a thread touches of its stack; below the stack nothing can be written. */
static size_t touched(void *(*run)(void *)) {
    uint8_t *memory = mmap(NULL, GUARD + STACK, PROT_READ | PROT_WRITE, MAP_PRIVATE | MAP_ANONYMOUS, -1, 0);
    if (memory == MAP_FAILED || mprotect(memory, GUARD, PROT_NONE) != 0) {
        perror("stack: memory");
        exit(1);
    }
    uint8_t *stack = memory + GUARD;
    memset(stack, PAINT, STACK);
    pthread_attr_t attributes;
    pthread_t thread;
    pthread_attr_init(&attributes);
    if (pthread_attr_setstack(&attributes, stack, STACK) != 0 || pthread_create(&thread, &attributes, run, NULL) != 0) {
        fprintf(stderr, "stack: no thread\n");
        exit(1);
    }
    pthread_join(thread, NULL);
    pthread_attr_destroy(&attributes);
    size_t untouched = 0;
    while (untouched < STACK && stack[untouched] == PAINT) {
        untouched++;
    }
    munmap(memory, GUARD + STACK);
    return STACK - untouched;
}

/* A call, the most bytes of stack that it may take, and the most that it took. */
struct measured {
    void *(*run)(void *);
    size_t most, worst;
};

static struct measured of_table = {call, 68 * 1024, 0}, of_su_file = {su_call, 8 * 1024, 0};

static void measure_call(struct measured *m, const char *name, int wanted) {
    size_t before = touched(idle), all = touched(m->run);
    size_t taken = all > before ? all - before : 0;
    bool good = taken <= m->most && (wanted == ANY || number == wanted);
    printf("%-44s answer %3d  stack %7zu bytes%s\n", name, number, taken, good ? "" : "  FAILED");
    if (wanted != ANY && number != wanted) {
        printf("  the answer must be %d\n", wanted);
    }
    m->worst = taken > m->worst ? taken : m->worst;
    passed += good;
    failed += !good;
}

static void measure(const char *name, int wanted) {
    measure_call(&of_table, name, wanted);
}

/* Adds a text so many times. */
static void add(const char *text, size_t times) {
    for (size_t i = 0; i < times; i++) {
        size_t n = strlen(text);
        if (n > sizeof table - length) {
            fprintf(stderr, "stack: a table is too long\n");
            exit(1);
        }
        memcpy(table + length, text, n);
        length += n;
    }
}

static void begin(void) {
    length = 0;
    command = "c";
    user = "ann";
    host = "h";
    groups_length = arguments_length = 0;
    add(GLOBAL, 1);
}

/* A text repeated to so many bytes, between what stands before and behind it. */
static void repeated(const char *name, const char *before, const char *unit, size_t bytes, const char *behind, int wanted) {
    begin();
    add(before, 1);
    add(unit, bytes / strlen(unit));
    add(behind, 1);
    measure(name, wanted);
}

/* 64 arguments of 256 bytes, 32 groups. */
static void long_question(void) {
    for (int i = 0; i < 64; i++) {
        memset(arguments + arguments_length, 'a', 256);
        arguments_length += 256;
        arguments[arguments_length++] = 0;
    }
    for (int i = 0; i < 32; i++) {
        memset(groups + groups_length, 'g', 32);
        groups_length += 32;
        groups[groups_length++] = 0;
    }
}

static void patterns(void) {
    repeated("1,024 plain bytes in a command pattern", "", "x", 1024, " /p ann\n", SUPERTAB_NO_ENTRY);
    repeated("1,024 plain bytes in a user pattern", "c /p ", "x", 1024, "\n", SUPERTAB_NO_ENTRY);
    repeated("1,019 plain bytes in an argument pattern", "c /p ann arg1=", "x", 1019, "\n", SUPERTAB_PERMIT);
    repeated("1,024 times {", "", "{", 1024, " /p ann\n", SUPERTAB_MALFORMED);
    repeated("1,024 times { in a user pattern", "c /p ", "{", 1024, "\n", SUPERTAB_MALFORMED);
    repeated("{x repeated", "", "{x", 1024, " /p ann\n", SUPERTAB_MALFORMED);
    repeated("{x, repeated", "", "{x,", 1023, " /p ann\n", SUPERTAB_MALFORMED);
    repeated("{} repeated", "", "{}", 1024, " /p ann\n", SUPERTAB_NO_ENTRY);
    repeated("{,} repeated: too many expansions", "", "{,}", 1023, " /p ann\n", SUPERTAB_SIZE);
    repeated("{,} six times: 64 expansions", "c", "{,}", 18, " /p ann\n", SUPERTAB_PERMIT);
    repeated("commas in a user pattern: 64 expansions", "c /p ", "x,", 126, "ann\n", SUPERTAB_PERMIT);
    repeated("[a] repeated", "", "[a]", 1023, " /p ann\n", SUPERTAB_NO_ENTRY);
    repeated("escapes repeated", "", "\\x", 1024, " /p ann\n", SUPERTAB_NO_ENTRY);
    repeated("64 time items", "c /p ann time~", "0-24/mon,", 9 * 63, "mon\n", SUPERTAB_PERMIT);
    begin();
    char long_name[257];
    memset(long_name, 'x', 256);
    long_name[256] = 0;
    command = long_name;
    add("*x*x*x /p ann\n", 1);
    measure("three stars on a command of 256 bytes", SUPERTAB_PERMIT);
    begin();
    command = long_name;
    add("*y*y*y /p ann\n", 1);
    measure("three stars that match nothing", SUPERTAB_NO_ENTRY);
    begin();
    command = long_name;
    add("*x", 256);
    add(" /p ann\n", 1);
    measure("256 stars on a command of 256 bytes", SUPERTAB_PERMIT);
    begin();
    command = long_name;
    add("{", 1);
    add("*x", 256);
    add(",y} /p ann\n", 1);
    measure("256 stars in braces", SUPERTAB_PERMIT);
    begin();
    long_question();
    add("c /p ann arg1={", 1);
    add("*a", 256);
    add(",y}\n", 1);
    measure("256 stars in braces for an argument", SUPERTAB_PERMIT);
    repeated("1,023 stars", "", "*", 1023, " /p ann\n", SUPERTAB_PERMIT);
}

/* 64 names of 64 bytes with texts of 256 bytes. */
static void add_definitions(void) {
    for (int i = 0; i < 64; i++) {
        char name[65];
        snprintf(name, sizeof name, "N%02d", i);
        memset(name + 3, 'n', 61);
        name[64] = 0;
        add(":define ", 1);
        add(name, 1);
        add(" ", 1);
        add("t", 256);
        add("\n", 1);
    }
}

static void lines(void) {
    begin();
    add_definitions();
    add("c /p ann,$N00", 1);
    add("n", 61);
    add("\n", 1);
    measure("64 :define lines", SUPERTAB_PERMIT);
    begin();
    add(":if a == a ", 4);
    add("c /p ann\n", 1);
    measure("four :if deep", SUPERTAB_PERMIT);
    begin();
    add(":if a == a ", 4);
    add(":global auth=y\n", 1);
    measure(":global four :if deep", SUPERTAB_NO_ENTRY);
    begin();
    long_question();
    add("c /p ann arg1-64=a* group~x*\n", 1);
    measure("64 arguments", SUPERTAB_PERMIT);
    begin();
    /* `c /p ann`, then 61 fields that share 4,088 bytes with the blanks before them: 60 of 67 and one of 68. */
    add("c /p ann", 1);
    for (int i = 0; i < 60; i++) {
        add(" ", 1);
        add("x", 66);
    }
    add(" ", 1);
    add("x", 67);
    add("\n", 1);
    measure("a line of 4,096 bytes and 64 fields", SUPERTAB_PERMIT);
    begin();
    add("c /p", 1);
    add(" ann", 62);
    add(" ", 4096 - 4 - 4 * 62);
    add("\n", 1);
    measure("64 short fields on a line of 4,096 bytes", SUPERTAB_PERMIT);
}

/* The longest way through the call: all of it at once. */
static void all_at_once(void) {
    begin();
    long_question();
    add_definitions();
    add(":global auth=y timeout=15 arg1-64={a,b}*\n", 1);
    add(":if a == a ", 4);
    add("{c,{d,{e,{f,g}}}} /p {ann,{bo,{kim,lee}}}@{h,i} group~g*,x time~{0-24/{mon,tue},sun} arg1-64=a* nargs=64\n", 1);
    measure("all at once", SUPERTAB_PASSWORD);
}

static void begin_su(void) {
    length = groups_length = 0;
    command = "root";
    user = "ann";
}

/* A su file of a text repeated so many times, between what stands before and behind it. */
static void su_file(const char *name, const char *before, const char *unit, size_t times, const char *behind, int wanted) {
    add(before, 1);
    add(unit, times);
    add(behind, 1);
    measure_call(&of_su_file, name, wanted);
    begin_su();
}

static void su_files(void) {
    begin_su();
    su_file("a su file of one rule", "", "", 0, "root:ann:DENY\n", SUPERTAB_SU_DENY);
    /* 5, twice 16,377 and 9 bytes make 32,768. */
    su_file("a list of 16,378 names", "root:", "x,", 16377, "ann:DENY\n", SUPERTAB_SU_DENY);
    su_file("a list of users on the to side", "ALL EXCEPT ", "x,", 16000, "bo:ann:NOPASS\n", SUPERTAB_SU_NOPASS);
    long_question();
    su_file("900 groups, and 32 of the user", "root:ALL EXCEPT GROUP ", "ggggggggggggggggggggggggggggggg,", 900,
            "x:OWNPASS\n", SUPERTAB_SU_OWNPASS);
    su_file("2,520 rules that do not apply", "", "root:bo:DENY\n", 2520, "", SUPERTAB_SU_NO_RULE);
    su_file("a rule behind 2,000 comments", "", "# root:bo\n", 2000, "ALL:ALL:DENY\n", SUPERTAB_SU_DENY);
    su_file("32,768 empty lines", "", "\n", 32768, "", SUPERTAB_SU_NO_RULE);
    su_file("a malformed line behind the rule", "root:ann:DENY\n", "\t", 32000, "root:ann\n", SUPERTAB_SU_MALFORMED);
    su_file("a cut line of 32,768 bytes", "", "x", 32768, "", SUPERTAB_SU_CUT_SHORT);
    su_file("a refused byte", "root:ann:DENY\n", "#", 32000, "\r\n", SUPERTAB_SU_REFUSED_BYTE);
    su_file("a su file of 32,769 bytes", "", "\n", 32769, "", SUPERTAB_SU_LONG_FILE);
    user = "";
    su_file("a bad question", "", "\n", 32768, "", SUPERTAB_SU_BAD_QUESTION);
}

static void file(const char *name) {
    FILE *from = fopen(name, "rb");
    if (from == NULL) {
        perror(name);
        exit(2);
    }
    begin();
    length = fread(table, 1, sizeof table, from);
    fclose(from);
    command = "setclock";
    host = "van2";
    measure(name, ANY);
}

int main(int count, char **names) {
    begin();
    /* Once before, so that what the first call of a program does is not measured. */
    touched(call);
    touched(su_call);
    patterns();
    lines();
    all_at_once();
    su_files();
    for (int i = 1; i < count; i++) {
        file(names[i]);
    }
    printf("at most %zu bytes of stack, %zu are allowed\n", of_table.worst, of_table.most);
    printf("at most %zu bytes of stack for a su file, %zu are allowed\n", of_su_file.worst, of_su_file.most);
    printf("%d passed, %d failed\n", passed, failed);
    return failed != 0;
}
