/* The call from C: what the header says of the result, the report and the buffer. Prints each failure, and a last line
 * 'N passed, M failed'. */
#include <stdio.h>
#include <string.h>

#include "supertab.h"

#define GLOBAL ":global patterns=shell\n"

static const char worked[] = GLOBAL
    ":define Crew ann,bo\n"
    "setclock /sbin/setclock $(Crew),t* !tmp auth=y timeout=15\n"
    "batlog /opt/batlog ann@van* time~{>=17:30/mon,<=8/tues} !time~0-1/tues\n"
    "cal/* /opt/*/run group~bench nargs=0-2\n";

/* What a call is given; lists are strings of C with a `;` for each zero byte. */
struct asked {
    const char *table;
    size_t cut;
    const char *command, *user, *groups, *host;
    uint32_t minute;
    bool authenticated;
    int32_t age;
    const char *arguments;
    size_t buffer_length, report_length;
};

/* The question that is asked where a test says nothing else. */
static const struct asked usual = {
    GLOBAL "c /p ann\n", SIZE_MAX, "c", "ann", "", "h", 0, false, 0, "", 2048, 24,
};

enum { BYTES = 4096, NUMBERS = 32, BYTE_BEFORE = 0xEE, NUMBER_BEFORE = -99 };

static uint8_t buffer[BYTES];
static int64_t report[NUMBERS];
static int passed, failed;

static size_t list(const char *text, uint8_t *bytes) {
    size_t length = strlen(text);
    for (size_t i = 0; i < length; i++) {
        bytes[i] = text[i] == ';' ? 0 : (uint8_t)text[i];
    }
    return length;
}

/* Fills buffer and report with what they hold beforehand, and calls. */
static uint8_t ask(const struct asked *a) {
    static uint8_t groups[BYTES], arguments[BYTES];
    size_t groups_length = list(a->groups, groups), arguments_length = list(a->arguments, arguments);
    size_t table_length = strlen(a->table);
    memset(buffer, BYTE_BEFORE, sizeof buffer);
    for (int i = 0; i < NUMBERS; i++) {
        report[i] = NUMBER_BEFORE;
    }
    return supertab_answer((const uint8_t *)a->table, a->cut < table_length ? a->cut : table_length,
                           (const uint8_t *)a->command, strlen(a->command),
                           (const uint8_t *)a->user, strlen(a->user), groups, groups_length,
                           (const uint8_t *)a->host, strlen(a->host), a->minute, a->authenticated, a->age,
                           arguments, arguments_length, buffer, a->buffer_length, report, a->report_length);
}

static void expect(const char *name, bool holds) {
    if (holds) {
        passed++;
    } else {
        failed++;
        printf("call: %s\n", name);
    }
}

/* All bytes of the buffer from a place on are as they were. */
static bool buffer_stays(size_t from) {
    for (size_t i = from; i < BYTES; i++) {
        if (buffer[i] != BYTE_BEFORE) {
            return false;
        }
    }
    return true;
}

/* All numbers of the report from an index on are as they were. */
static bool report_stays(size_t from) {
    for (size_t i = from; i < NUMBERS; i++) {
        if (report[i] != NUMBER_BEFORE) {
            return false;
        }
    }
    return true;
}

/* The report tells a line or place, perhaps a cause, and nothing else. */
static bool tells_only(int64_t line_or_place, int64_t cause) {
    for (int i = 0; i < SUPERTAB_REPORT_LENGTH; i++) {
        int64_t told = i == SUPERTAB_REPORT_LINE_OR_PLACE ? line_or_place : i == SUPERTAB_REPORT_CAUSE ? cause : 0;
        if (report[i] != told) {
            return false;
        }
    }
    return report_stays(SUPERTAB_REPORT_LENGTH);
}

/* A refusal or a decision without a path: number, line or place, cause; the buffer stays. */
static void expect_only(const char *name, const struct asked *a, uint8_t number, int64_t line_or_place, int64_t cause) {
    expect(name, ask(a) == number && tells_only(line_or_place, cause) && buffer_stays(0));
}

/* The buffer begins with these bytes, in which `;` is a zero byte, and its later bytes stay. */
static bool wrote(const char *text) {
    uint8_t bytes[BYTES];
    size_t length = list(text, bytes);
    return memcmp(buffer, bytes, length) == 0 && buffer_stays(length) && report[SUPERTAB_REPORT_WRITTEN] == (int64_t)length;
}

static void reports_that_are_too_short(void) {
    struct asked a = usual;
    for (a.report_length = 0; a.report_length < SUPERTAB_REPORT_LENGTH; a.report_length++) {
        expect("a short report is 255", ask(&a) == SUPERTAB_SMALL_REPORT && report_stays(0) && buffer_stays(0));
    }
    a.report_length = 23;
    a.buffer_length = 0;
    a.minute = 20000;
    expect("255 comes first of all", ask(&a) == SUPERTAB_SMALL_REPORT && report_stays(0) && buffer_stays(0));
}

static void buffers_that_are_too_short(void) {
    struct asked a = usual;
    a.buffer_length = SUPERTAB_BUFFER_LENGTH - 1;
    expect_only("2,047 bytes are 17", &a, SUPERTAB_SMALL_BUFFER, 0, 0);
    a.buffer_length = 0;
    a.minute = 10080;
    expect_only("17 comes ahead of 10", &a, SUPERTAB_SMALL_BUFFER, 0, 0);
}

static void questions(void) {
    struct asked a = usual;
    a.minute = 10080;
    expect_only("minute 10,080", &a, SUPERTAB_BAD_QUESTION, 0, 0);
    a.minute = UINT32_MAX;
    expect_only("the greatest minute", &a, SUPERTAB_BAD_QUESTION, 0, 0);
    /* Numbers of 16 bits would take this for 0. */
    a.minute = 65536;
    expect_only("minute 65,536", &a, SUPERTAB_BAD_QUESTION, 0, 0);
    a = usual;
    a.groups = "bench";
    expect_only("a list that does not end in a zero byte", &a, SUPERTAB_BAD_QUESTION, 0, 0);
    a.groups = ";";
    expect_only("an empty group", &a, SUPERTAB_BAD_QUESTION, 0, 0);
    a = usual;
    a.arguments = "a;b";
    expect_only("arguments that do not end in a zero byte", &a, SUPERTAB_BAD_QUESTION, 0, 0);
    a = usual;
    a.table = "";
    expect_only("an empty table", &a, SUPERTAB_NO_ENTRY, 0, 0);
}

static void permits(void) {
    struct asked a = usual;
    a.report_length = NUMBERS;
    a.buffer_length = BYTES;
    expect("permit", ask(&a) == SUPERTAB_PERMIT && wrote("/p;;;;;") && report_stays(24));
    for (int i = SUPERTAB_REPORT_AUTH; i <= SUPERTAB_REPORT_NARGS_HIGH; i++) {
        expect("an option that is not set is 0", report[i] == 0);
    }
    a.table = GLOBAL ":global gid=bin auth=y timeout=-7\nc /opt/* ann uid=root egid=<caller> nargs=1-64\n";
    a.arguments = ";";
    expect("password", ask(&a) == SUPERTAB_PASSWORD && wrote("/opt/c;root;;bin;<caller>;") && report_stays(24));
    static const int64_t told[SUPERTAB_REPORT_LENGTH] = {3, 26, 1, 1, -7, 1, 1, 64, 6, 11, 12, 16, 25};
    expect("the whole report of a permit", memcmp(report, told, sizeof told) == 0);
}

static void worked_cases(void) {
    struct asked a = usual;
    a.table = worked;
    a.command = "setclock";
    a.host = "van2";
    a.minute = 1049;
    a.authenticated = true;
    a.age = 15;
    expect("setclock at age 15", ask(&a) == SUPERTAB_PERMIT && report[0] == 3 && wrote("/sbin/setclock;;;;;"));
    expect("its options", report[SUPERTAB_REPORT_AUTH] == 1 && report[SUPERTAB_REPORT_TIMEOUT_SET] == 1 &&
                              report[SUPERTAB_REPORT_TIMEOUT] == 15 && report[SUPERTAB_REPORT_NARGS_SET] == 0);
    a.cut = 100;
    expect_only("cut after 100 bytes", &a, SUPERTAB_CUT_SHORT, 43, 0);
    a.cut = 101;
    expect("cut after 101 bytes", ask(&a) == SUPERTAB_PERMIT && report[0] == 3 && wrote("/sbin/setclock;;;;;"));
    a.cut = 0;
    expect_only("cut after 0 bytes", &a, SUPERTAB_NO_ENTRY, 0, 0);
    a.cut = SIZE_MAX;
    a.age = 16;
    expect("at age 16", ask(&a) == SUPERTAB_PASSWORD && report[0] == 3 && wrote("/sbin/setclock;;;;;"));
    a.age = -1;
    expect("at age -1", ask(&a) == SUPERTAB_PASSWORD);
    a.age = 15;
    a.authenticated = false;
    expect("never authenticated, whatever the age", ask(&a) == SUPERTAB_PASSWORD);
    a.user = "tmp";
    a.authenticated = true;
    expect_only("setclock by tmp", &a, SUPERTAB_NO_ENTRY, 0, 0);
    a.user = "kim";
    a.command = "cal/adc";
    a.groups = "ops;bench;";
    a.arguments = "a;b;c;";
    expect_only("three arguments", &a, SUPERTAB_STOPPED_BY_NARGS, 5, 0);
    a.arguments = "a;b;";
    expect("two arguments", ask(&a) == SUPERTAB_PERMIT && wrote("/opt/cal/adc/run;;;;;"));
    expect("their number", report[SUPERTAB_REPORT_NARGS_SET] == 1 && report[SUPERTAB_REPORT_NARGS_LOW] == 0 &&
                               report[SUPERTAB_REPORT_NARGS_HIGH] == 2);
}

static void refusals(void) {
    struct asked a = usual;
    a.table = GLOBAL "c /p\177 ann\n";
    expect_only("a refused byte", &a, SUPERTAB_REFUSED_BYTE, 27, 0);
    a.table = GLOBAL "c /p 'ann\n";
    expect_only("an open quote", &a, SUPERTAB_MALFORMED, 23, SUPERTAB_CAUSE_OPEN_QUOTE);
    a.table = GLOBAL "c /p {{{{{ann}}}}}\n";
    expect_only("braces 5 deep", &a, SUPERTAB_SIZE, 23, SUPERTAB_CAUSE_PATTERN_SIZE);
    a.table = "c /p ann\n";
    expect_only("an entry too early", &a, SUPERTAB_PATTERN_KIND, 0, SUPERTAB_CAUSE_ENTRY_TOO_EARLY);
    a.table = GLOBAL "c /p ann arg1=b\n";
    a.arguments = "a;";
    expect_only("an argument pattern", &a, SUPERTAB_STOPPED_BY_ARGUMENT, 2, 0);
}

int main(void) {
    reports_that_are_too_short();
    buffers_that_are_too_short();
    questions();
    permits();
    worked_cases();
    refusals();
    printf("%d passed, %d failed\n", passed, failed);
    return failed != 0;
}
