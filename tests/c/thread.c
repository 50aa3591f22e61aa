/* Every call on a thread whose stack has SUPERTAB_STACK bytes and no more, on what takes most of it; a page below the stack
 * cannot be written. And every array as NULL with no elements. Prints each failure, and a last line 'N passed, M failed'. */
#define _GNU_SOURCE
#include <pthread.h>
#include <stdio.h>
#include <stdlib.h>
#include <string.h>
#include <sys/mman.h>

#include "supertab.h"

#define GLOBAL ":global patterns=shell\n"

enum { GUARD = 65536, LIMIT = 32768 };

static uint8_t table[LIMIT], buffer[SUPERTAB_BUFFER_LENGTH], record[SUPERTAB_RECORD_LENGTH];
static uint8_t groups[32 * 33], arguments[64 * 257], name[32], batch[8000];
static int64_t report[SUPERTAB_REPORT_LENGTH], fields[SUPERTAB_FIELDS_LENGTH], figures[SUPERTAB_FIGURES_LENGTH];
static int64_t su_report[SUPERTAB_SU_REPORT_LENGTH], past;
static size_t length;
static int number, passed, failed;

static void check(const char *what, int wanted) {
    bool good = number == wanted;
    passed += good;
    failed += !good;
    if (!good) {
        printf("%s: %d, not %d\n", what, number, wanted);
    }
}

static void add(const char *text) {
    memcpy(table + length, text, strlen(text));
    length += strlen(text);
}

/* The longest groups, arguments and name, and a table that takes them through all its layers. */
static void fill(void) {
    for (size_t i = 0; i < sizeof groups; i++) {
        groups[i] = i % 33 == 32 ? 0 : 'g';
    }
    for (size_t i = 0; i < sizeof arguments; i++) {
        arguments[i] = i % 257 == 256 ? 0 : 'a';
    }
    memset(name, 'n', sizeof name);
    memset(batch, 0x20, sizeof batch);
}

static void *of_table(void *nothing) {
    number = supertab_answer(table, length, (const uint8_t *)"c", 1, name, sizeof name, groups, sizeof groups,
                             (const uint8_t *)"h", 1, 600, true, 1, arguments, sizeof arguments, buffer, sizeof buffer,
                             report, SUPERTAB_REPORT_LENGTH);
    return nothing;
}

static void *of_su_file(void *nothing) {
    number = supertab_su_answer(table, length, name, sizeof name, name, sizeof name, groups, sizeof groups, su_report,
                                SUPERTAB_SU_REPORT_LENGTH);
    return nothing;
}

static void *written(void *nothing) {
    number = supertab_record_write(0, 7, 600, true, true, -1, record, sizeof record);
    return nothing;
}

static void *read_back(void *nothing) {
    number = supertab_record_read(record, sizeof record, fields, SUPERTAB_FIELDS_LENGTH);
    return nothing;
}

static void *cleared(void *nothing) {
    number = supertab_figures_new(figures, SUPERTAB_FIGURES_LENGTH);
    return nothing;
}

static void *fed(void *nothing) {
    number = supertab_figures_feed(figures, SUPERTAB_FIGURES_LENGTH, batch, sizeof batch, &past, 1);
    return nothing;
}

static void on_thread(const char *what, void *(*run)(void *), int wanted) {
    uint8_t *memory = mmap(NULL, GUARD + SUPERTAB_STACK, PROT_READ | PROT_WRITE, MAP_PRIVATE | MAP_ANONYMOUS, -1, 0);
    pthread_attr_t attributes;
    pthread_t thread;
    number = -1;
    if (memory == MAP_FAILED || mprotect(memory, GUARD, PROT_NONE) != 0 || pthread_attr_init(&attributes) != 0 ||
        pthread_attr_setstack(&attributes, memory + GUARD, SUPERTAB_STACK) != 0 ||
        pthread_create(&thread, &attributes, run, NULL) != 0) {
        fprintf(stderr, "thread: no thread of this stack\n");
        exit(1);
    }
    pthread_join(thread, NULL);
    pthread_attr_destroy(&attributes);
    munmap(memory, GUARD + SUPERTAB_STACK);
    check(what, wanted);
}

/* A table: the usual line, a text repeated as often, and what stands behind it. */
static void repeated(const char *before, const char *unit, size_t times, const char *behind) {
    length = 0;
    add(GLOBAL);
    add(before);
    for (size_t i = 0; i < times; i++) {
        add(unit);
    }
    add(behind);
}

static void threads(void) {
    repeated("", "{", 1024, " /p *\n");
    on_thread("1,024 opening braces", of_table, SUPERTAB_MALFORMED);
    repeated("c /p ", "{", 1024, "\n");
    on_thread("1,024 opening braces in a user pattern", of_table, SUPERTAB_MALFORMED);
    repeated("c /p * arg1-64=", "*", 256, "a\n");
    on_thread("256 stars in an argument pattern", of_table, SUPERTAB_PERMIT);
    repeated("", ":define A_B c\n", 2000, "c /p * nargs=64\n");
    on_thread("2,000 definitions", of_table, SUPERTAB_PERMIT);
    repeated(":if A == A :if A == A :if A == A :if A == A ", "c::/p ", 40, "group~{g,h}* *\n");
    on_thread("an entry behind four :if", of_table, SUPERTAB_PERMIT);
    length = 0;
    add("ALL:GROUP ");
    for (int i = 0; i < 5000; i++) {
        add("x,");
    }
    add("x:DENY\n");
    on_thread("a su file", of_su_file, SUPERTAB_SU_NO_RULE);
    on_thread("a record written", written, SUPERTAB_RECORD_DONE);
    on_thread("a record read", read_back, SUPERTAB_RECORD_DONE);
    on_thread("figures of none", cleared, SUPERTAB_FIGURES_DONE);
    on_thread("figures of a batch", fed, SUPERTAB_FIGURES_DONE);
}

/* Arrays of no elements may be NULL, each for itself and all together. */
static void nulls(void) {
    const uint8_t *word = (const uint8_t *)"c";
    repeated("", "c /p c nargs=0\n", 1, "");
    number = supertab_answer(table, length, word, 1, word, 1, NULL, 0, word, 1, 0, false, 0, NULL, 0, buffer, sizeof buffer,
                             report, SUPERTAB_REPORT_LENGTH);
    check("no group and no argument", SUPERTAB_PERMIT);
    number = supertab_answer(NULL, 0, word, 1, word, 1, NULL, 0, word, 1, 0, false, 0, NULL, 0, buffer, sizeof buffer, report,
                             SUPERTAB_REPORT_LENGTH);
    check("no table", SUPERTAB_NO_ENTRY);
    number = supertab_answer(table, length, NULL, 0, NULL, 0, NULL, 0, NULL, 0, 0, false, 0, NULL, 0, buffer, sizeof buffer,
                             report, SUPERTAB_REPORT_LENGTH);
    check("no command, user and host", SUPERTAB_BAD_QUESTION);
    number = supertab_answer(table, length, word, 1, word, 1, NULL, 0, word, 1, 0, false, 0, NULL, 0, NULL, 0, report,
                             SUPERTAB_REPORT_LENGTH);
    check("no buffer", SUPERTAB_SMALL_BUFFER);
    number = supertab_answer(NULL, 0, NULL, 0, NULL, 0, NULL, 0, NULL, 0, 0, false, 0, NULL, 0, NULL, 0, NULL, 0);
    check("nothing at all", SUPERTAB_SMALL_REPORT);
    number = supertab_record_write(0, 1, 0, false, false, 0, NULL, 0);
    check("no bytes for a record", SUPERTAB_RECORD_BYTES);
    number = supertab_record_read(NULL, 0, fields, SUPERTAB_FIELDS_LENGTH);
    check("no bytes of a record", SUPERTAB_RECORD_BYTES);
    number = supertab_record_read(NULL, 0, NULL, 0);
    check("no fields", SUPERTAB_RECORD_SMALL_FIELDS);
    number = supertab_figures_new(NULL, 0);
    check("no figures", SUPERTAB_FIGURES_UNUSABLE);
    number = supertab_figures_feed(figures, SUPERTAB_FIGURES_LENGTH, NULL, 0, &past, 1);
    check("an empty batch", SUPERTAB_FIGURES_DONE);
    number = supertab_figures_feed(NULL, 0, NULL, 0, NULL, 0);
    check("a batch for no figures", SUPERTAB_FIGURES_UNUSABLE);
    number = supertab_su_answer(NULL, 0, word, 1, word, 1, NULL, 0, su_report, SUPERTAB_SU_REPORT_LENGTH);
    check("no su file", SUPERTAB_SU_NO_RULE);
    number = supertab_su_answer(NULL, 0, NULL, 0, NULL, 0, NULL, 0, NULL, 0);
    check("nothing of a su file", SUPERTAB_SU_SMALL_REPORT);
}

int main(void) {
    fill();
    threads();
    nulls();
    printf("%d passed, %d failed\n", passed, failed);
    return failed == 0 ? 0 : 1;
}
