/* supertab.h: who may run which command, from a rule table in the style of super.tab.
 *
 * supertab_answer takes a table, a question and two lent buffers, and gives a numbered answer. supertab_record_write
 * packs such an answer into the eight bytes of a log record, supertab_record_read reads one back; supertab_figures_new
 * and supertab_figures_feed count such records. supertab_su_answer answers from a su file. They keep nothing between
 * calls, need no heap and may be called from several threads at once; a thread needs SUPERTAB_STACK bytes of stack for
 * them. Link libsupertab_c.a, which is built for x86-64 Linux.
 *
 * For C11 and for C++. The manual page supertab(1) has the rules of a table and of a su file in brief.
 */
#ifndef SUPERTAB_H
#define SUPERTAB_H

#include <stdbool.h>
#include <stddef.h>
#include <stdint.h>

#ifdef __cplusplus
extern "C" {
#endif

/* The answer. 0 to 5 are decisions, 10 to 18 refusals. */
enum {
    /* The command may be run. */
    SUPERTAB_PERMIT = 0,
    /* It may be run once the user has given the password. */
    SUPERTAB_PASSWORD = 1,
    /* No entry accepts the question. */
    SUPERTAB_NO_ENTRY = 2,
    /* The deciding entry does not allow this number of arguments. */
    SUPERTAB_STOPPED_BY_NARGS = 3,
    /* An argument does not match an argument pattern that covers it. */
    SUPERTAB_STOPPED_BY_ARGUMENT = 4,
    /* The path is longer than 1,024 bytes. */
    SUPERTAB_STOPPED_BY_PATH = 5,
    /* The question is not as the arguments below say. */
    SUPERTAB_BAD_QUESTION = 10,
    /* The table has more than 32,768 bytes. */
    SUPERTAB_LONG_TABLE = 11,
    /* The table has a byte other than tab, newline and 0x20 to 0x7E. */
    SUPERTAB_REFUSED_BYTE = 12,
    /* The table is cut short: its last control line is not ended. */
    SUPERTAB_CUT_SHORT = 13,
    /* A control line is malformed. */
    SUPERTAB_MALFORMED = 14,
    /* A control line passes a size. */
    SUPERTAB_SIZE = 15,
    /* An entry stands before patterns=shell, or another kind of patterns is asked for. */
    SUPERTAB_PATTERN_KIND = 16,
    /* The answer buffer has fewer than SUPERTAB_BUFFER_LENGTH bytes. */
    SUPERTAB_SMALL_BUFFER = 17,
    /* :define makes more than 64 names. */
    SUPERTAB_TOO_MANY_NAMES = 18,
    /* The report has fewer than SUPERTAB_REPORT_LENGTH numbers: nothing was looked at, nothing was written. */
    SUPERTAB_SMALL_REPORT = 255
};

/* The fewest elements of the two lent arrays. */
enum {
    /* Bytes of the answer buffer. */
    SUPERTAB_BUFFER_LENGTH = 2048,
    /* Numbers of the report. */
    SUPERTAB_REPORT_LENGTH = 24
};

enum {
    /* The bytes of stack that suffice for a thread which makes these calls and does nothing else that is large.
     * supertab_answer takes most, 42 KB (measured, with every table and question of the tests); supertab_su_answer takes
     * less than 1 KB. The rest is for a system's own share of a thread's stack. */
    SUPERTAB_STACK = 98304
};

/* The numbers of the report, by their index. One that means nothing for the answer is 0. */
enum {
    /* Answers 0, 1, 3, 4 and 5: the deciding line, which is the number, from 1, of the first physical line of its
     * control line. Answer 2: 0. Refusals: the place, counted in bytes from 0: 10 and 17: 0; 11: 32,768; 12: the byte;
     * 13, 14, 15, 16 and 18: where the control line begins. */
    SUPERTAB_REPORT_LINE_OR_PLACE = 0,
    /* Answers 0 and 1: how many bytes of the buffer were written. */
    SUPERTAB_REPORT_WRITTEN = 1,
    /* Answers 0 and 1: 1 where auth=y is in force. */
    SUPERTAB_REPORT_AUTH = 2,
    /* Answers 0 and 1: 1 where a timeout is set, and its minutes, from -32,768 to 32,767. */
    SUPERTAB_REPORT_TIMEOUT_SET = 3,
    SUPERTAB_REPORT_TIMEOUT = 4,
    /* Answers 0 and 1: 1 where nargs is set, and the least and the most number of arguments, from 0 to 64. */
    SUPERTAB_REPORT_NARGS_SET = 5,
    SUPERTAB_REPORT_NARGS_LOW = 6,
    SUPERTAB_REPORT_NARGS_HIGH = 7,
    /* Answers 0 and 1: the place in the buffer of the zero byte that ends each of the five strings. The path begins at
     * 0, each other string behind the zero byte of the one before it. An option that is not set is an empty string. */
    SUPERTAB_REPORT_PATH_END = 8,
    SUPERTAB_REPORT_UID_END = 9,
    SUPERTAB_REPORT_EUID_END = 10,
    SUPERTAB_REPORT_GID_END = 11,
    SUPERTAB_REPORT_EGID_END = 12,
    /* 13 to 20 are 0 and kept for later. */
    /* Answers 14, 15, 16 and 18: the cause, one of those below. */
    SUPERTAB_REPORT_CAUSE = 21
    /* 22 and 23 are 0 and kept for later. */
};

/* The causes for which a control line is refused, each with the answer that it gives. New ones go last. */
enum {
    /* 15: the joined line has more than 4,096 bytes. */
    SUPERTAB_CAUSE_LINE_LENGTH = 1,
    /* 14: a continuation line, or the line itself, is not indented as it must be. */
    SUPERTAB_CAUSE_INDENT = 2,
    /* 14: a quote is open at the line's end. */
    SUPERTAB_CAUSE_OPEN_QUOTE = 3,
    /* 15: there are more than 64 fields. */
    SUPERTAB_CAUSE_FIELD_COUNT = 4,
    /* 14: `$` before no name, or before an unknown one. */
    SUPERTAB_CAUSE_VARIABLE = 5,
    /* 15: a field has more than 1,024 bytes after substitution. */
    SUPERTAB_CAUSE_FIELD_LENGTH = 6,
    /* 14: a set is open, empty or has a range that runs backwards, a brace list is open, a `}` closes none, or a
     * backslash is last. */
    SUPERTAB_CAUSE_PATTERN = 7,
    /* 15: braces are more than 4 deep, or have more than 64 expansions. */
    SUPERTAB_CAUSE_PATTERN_SIZE = 8,
    /* 15: the name of a variable has more than 64 bytes. */
    SUPERTAB_CAUSE_NAME_LENGTH = 9,
    /* 15: the text of a variable has more than 256 bytes. */
    SUPERTAB_CAUSE_TEXT_LENGTH = 10,
    /* 15: a user or group name in an option has more than 64 bytes. */
    SUPERTAB_CAUSE_ID_LENGTH = 11,
    /* 15: a fifth :if stands inside the others. */
    SUPERTAB_CAUSE_IF_DEPTH = 12,
    /* 14: a user or group alternative has an empty part, a second `@`, or a byte that cannot stand there. */
    SUPERTAB_CAUSE_ALTERNATIVE = 13,
    /* 14: a time item is none of the forms. */
    SUPERTAB_CAUSE_TIME_ITEM = 14,
    /* 14: no option has the name before `=` on this kind of line. */
    SUPERTAB_CAUSE_OPTION_NAME = 15,
    /* 14: the value is none that the option takes. */
    SUPERTAB_CAUSE_OPTION_VALUE = 16,
    /* 16: the pattern kind is not `shell`. */
    SUPERTAB_CAUSE_PATTERN_KIND = 17,
    /* 16: an entry stands before patterns=shell. */
    SUPERTAB_CAUSE_ENTRY_TOO_EARLY = 18,
    /* 14: no line begins with this colon word. */
    SUPERTAB_CAUSE_COLON_WORD = 19,
    /* 14: the name of a variable is malformed or built in. */
    SUPERTAB_CAUSE_DEFINE_NAME = 20,
    /* 14: the operator is neither `==` nor `!=`. */
    SUPERTAB_CAUSE_OPERATOR = 21,
    /* 14: `::` stands behind the pairs. */
    SUPERTAB_CAUSE_LATE_PAIR = 22,
    /* 14: the path does not begin with `/`, or has a blank. */
    SUPERTAB_CAUSE_PATH = 23,
    /* 14: a field stands behind the last one that the line takes. */
    SUPERTAB_CAUSE_SURPLUS_FIELD = 24,
    /* 14: a part of the line is missing. */
    SUPERTAB_CAUSE_MISSING_PART = 25,
    /* 14: the same option stands twice. */
    SUPERTAB_CAUSE_OPTION_TWICE = 26,
    /* 18: there are more than 64 names. */
    SUPERTAB_CAUSE_TOO_MANY_NAMES = 27
};

/* Answers a question from a table.
 *
 * Every array is a pointer and the number of its elements. The pointer may be NULL where the number is 0, and only there.
 * `buffer` and `report` overlap nothing else that is passed. Any bytes and any numbers may be passed: what is not as said
 * here is answered by a number and never read past its end.
 *
 *   table          the whole table, at most 32,768 bytes; no zero byte ends it
 *   command        1 to 256 bytes from 0x21 to 0x7E without `:`, not beginning with `/`; no component between slashes is
 *                  empty, `.` or `..`
 *   user           1 to 32 bytes of letters, digits, `.`, `_` and `-`
 *   groups         the groups of the user, at most 32 of the same form as the user: strings one behind the other, each
 *                  ended by a zero byte, so that the last byte is zero; no bytes for no group
 *   host           1 to 255 bytes of the same alphabet
 *   minute         the minute of the week, 0 to 10,079; Monday 0:00 is 0; a larger one makes the question bad
 *   authenticated  false where the user never gave the password; `age` is then not looked at
 *   age            the minutes since the user last gave it; below zero where the clock went back
 *   args           the arguments of the command, at most 64 of at most 256 bytes from 0x20 to 0x7E: strings as in
 *                  `groups`; no bytes for no argument, one zero byte for one empty argument
 *   buffer         at least 2,048 bytes. Answers 0 and 1 write five strings at its front, each ended by a zero byte:
 *                  path, uid, euid, gid, egid. Later bytes stay, and every other answer leaves all of it as it was.
 *   report         at least 24 numbers. The first 24 are written, by every answer but 255; later numbers stay.
 *
 * The result is the answer. Where several apply: 255 first, then 17, 10, 11, 12, then the control lines in their order,
 * the first faulty one deciding; a table that is cut short comes behind the faults of its whole lines. Only a table
 * without a fault gives a decision.
 */
uint8_t supertab_answer(const uint8_t *table, size_t table_length,
                        const uint8_t *command, size_t command_length,
                        const uint8_t *user, size_t user_length,
                        const uint8_t *groups, size_t groups_length,
                        const uint8_t *host, size_t host_length,
                        uint32_t minute,
                        bool authenticated, int32_t age,
                        const uint8_t *args, size_t args_length,
                        uint8_t *buffer, size_t buffer_length,
                        int64_t *report, size_t report_length);

/* The result of the two functions below. */
enum {
    /* The record was written, or read. */
    SUPERTAB_RECORD_DONE = 0,
    /* The record is of another version than 1. */
    SUPERTAB_RECORD_VERSION = 1,
    /* The answer's number is none of 0 to 5 and 11 to 23. */
    SUPERTAB_RECORD_NUMBER = 2,
    /* The minute of the week is above 10,079. */
    SUPERTAB_RECORD_MINUTE = 3,
    /* There are not eight bytes. */
    SUPERTAB_RECORD_BYTES = 4,
    /* There are fewer than SUPERTAB_FIELDS_LENGTH numbers for the fields: nothing was looked at, nothing was written. */
    SUPERTAB_RECORD_SMALL_FIELDS = 255
};

enum {
    /* The bytes of a record. */
    SUPERTAB_RECORD_LENGTH = 8,
    /* The fewest numbers that are lent for the fields. */
    SUPERTAB_FIELDS_LENGTH = 6
};

/* The fields of a record that was read, by their index. */
enum {
    /* The answer, 0 to 5 or 11 to 23. */
    SUPERTAB_FIELD_NUMBER = 0,
    /* The deciding line, 0 to 65,535. */
    SUPERTAB_FIELD_LINE = 1,
    /* The minute of the week, 0 to 10,079. */
    SUPERTAB_FIELD_MINUTE = 2,
    /* 1 where auth=y was in force. */
    SUPERTAB_FIELD_AUTH = 3,
    /* 0 where the user had never given the password, else 1; and the minutes since then, from -16,777,215 to 16,777,215,
     * which are 0 where the one before is 0. */
    SUPERTAB_FIELD_AUTHENTICATED = 4,
    SUPERTAB_FIELD_AGE = 5
};

/* Packs an answer into the eight bytes of a log record.
 *
 *   number         the answer, as supertab_answer gave it; 10 has no record
 *   line           the deciding line, report[SUPERTAB_REPORT_LINE_OR_PLACE]; stored as 0 for 2 and for refusals
 *   minute         the minute of the week, as it was asked
 *   auth           report[SUPERTAB_REPORT_AUTH]; stored as false for all answers but 0 and 1
 *   authenticated  as it was asked
 *   age            as it was asked; a size above 16,777,215 is stored as that
 *   record         exactly 8 bytes
 *
 * The bits, most significant first: version 3 (1), answer 5, line 16, minute 14, auth 1, age below zero 1, size of the
 * age 24; "never" is the sign with size 0.
 *
 * The result is 0, or where several apply the first of 4, 2, 3. A record that is refused leaves the bytes as they were.
 */
uint8_t supertab_record_write(uint8_t number, uint16_t line, uint32_t minute, bool auth,
                              bool authenticated, int32_t age,
                              uint8_t *record, size_t record_length);

/* Reads a log record.
 *
 *   record         exactly 8 bytes
 *   fields         at least 6 numbers, which overlap no byte of the record. Only result 0 writes the first 6; later
 *                  numbers stay.
 *
 * The result is 0, or where several apply the first of 255, 4, 1, 2, 3: a record that is refused shows nothing. The
 * bits are told as they stand, a line or auth beside an answer that has none too.
 */
uint8_t supertab_record_read(const uint8_t *record, size_t record_length,
                             int64_t *fields, size_t fields_length);

/* The result of the two functions below. */
enum {
    /* The figures are written. */
    SUPERTAB_FIGURES_DONE = 0,
    /* The bytes of the batch are no multiple of eight: nothing of it was looked at, nothing was written. */
    SUPERTAB_FIGURES_NOT_WHOLE = 1,
    /* Records of the batch lie past the limit of SUPERTAB_FIGURES_LIMIT; those before them count. */
    SUPERTAB_FIGURES_PAST_LIMIT = 2,
    /* What is lent is too short, or its numbers are no figures: nothing was looked at, nothing was written. */
    SUPERTAB_FIGURES_UNUSABLE = 255
};

enum {
    /* The fewest numbers that are lent for the figures. */
    SUPERTAB_FIGURES_LENGTH = 64,
    /* The most records that are given to the same figures. */
    SUPERTAB_FIGURES_LIMIT = 1000000
};

/* The figures of the records given so far, by their index. A count is 0 to 1,000,000. */
enum {
    /* How many records have the answer 0; each other answer, to 23, stands at its own number. 6 to 10 are 0. */
    SUPERTAB_FIGURE_ANSWERS = 0,
    /* How many are of Monday; the other weekdays follow, to Sunday at 30. 31 is 0 and kept for later. */
    SUPERTAB_FIGURE_WEEKDAYS = 24,
    /* How many are of the hour from 0:00 to 0:59; the other hours of the day follow, to 23 at 55. */
    SUPERTAB_FIGURE_HOURS = 32,
    /* Of the records with answer 0 or 1: the sum of the ages below zero, from -16,777,215,000,000 to 0; the sum of the
     * other ages, from 0 to 16,777,215,000,000; and how many these others are. The mean of the others is the second by the
     * third. "Never" is in none of them. */
    SUPERTAB_FIGURE_BELOW_ZERO_SUM = 56,
    SUPERTAB_FIGURE_AGE_SUM = 57,
    SUPERTAB_FIGURE_AGE_COUNT = 58,
    /* How many records supertab_record_read refuses; they are counted nowhere above. */
    SUPERTAB_FIGURE_REFUSED = 59,
    /* How many records were given. The answers and the refused ones make this number, so do the weekdays and the refused
     * ones, and the hours and the refused ones. */
    SUPERTAB_FIGURE_GIVEN = 60
    /* 61 to 63 are 0 and kept for later. */
};

/* The figures of no records: 64 zeros.
 *
 *   figures        at least 64 numbers; later ones stay
 *
 * The result is 0, or 255 for fewer, and then nothing is written.
 */
uint8_t supertab_figures_new(int64_t *figures, size_t figures_length);

/* Adds a batch of log records to figures.
 *
 *   figures        at least 64 numbers, as supertab_figures_new or this function left them; later ones stay
 *   batch          records of eight bytes, one behind the other; none is a batch too
 *   refused        at least 1 number; results 0 and 2 write the first, how many records of the batch lie past the limit;
 *                  later ones stay
 *
 * No two of the three overlap. The result is 0, or the first of 255, 1 and 2 that applies; 255 is given where an array is
 * too short, a count is outside 0 to 1,000,000, or a sum is outside its bounds above. 255 and 1 write nothing. With 2 the
 * records before the limit count, and those past it are not among those given.
 *
 * How the records are divided into batches changes no figure.
 */
uint8_t supertab_figures_feed(int64_t *figures, size_t figures_length,
                              const uint8_t *batch, size_t batch_length,
                              int64_t *refused, size_t refused_length);

/* The answer from a su file. 0 to 3 are decisions, 10 to 14 refusals. */
enum {
    /* NOPASS: the user becomes the target, and no password is asked for. */
    SUPERTAB_SU_NOPASS = 0,
    /* OWNPASS: the user becomes the target once he or she has given his or her own password. */
    SUPERTAB_SU_OWNPASS = 1,
    /* No rule applies. */
    SUPERTAB_SU_NO_RULE = 2,
    /* DENY: the user does not become the target, and no password is asked for. */
    SUPERTAB_SU_DENY = 3,
    /* The question is not as the arguments below say. */
    SUPERTAB_SU_BAD_QUESTION = 10,
    /* The file has more than 32,768 bytes. */
    SUPERTAB_SU_LONG_FILE = 11,
    /* The file has a byte other than tab, newline and 0x20 to 0x7E. */
    SUPERTAB_SU_REFUSED_BYTE = 12,
    /* The file is cut short: its last line is not ended by a newline. */
    SUPERTAB_SU_CUT_SHORT = 13,
    /* A line is malformed, whether it would apply or not. */
    SUPERTAB_SU_MALFORMED = 14,
    /* The report has fewer than SUPERTAB_SU_REPORT_LENGTH numbers: nothing was looked at, nothing was written. */
    SUPERTAB_SU_SMALL_REPORT = 255
};

enum {
    /* The fewest numbers of the report. */
    SUPERTAB_SU_REPORT_LENGTH = 1
};

/* Answers from a su file whether a user may become another one, the target.
 *
 * What is said of arrays and of pointers at supertab_answer holds here too.
 *
 *   file           the whole file, at most 32,768 bytes; no zero byte ends it
 *   target         whom the user wants to become: 1 to 32 bytes of letters, digits, `.`, `_` and `-`
 *   user           who asks, of the same form
 *   groups         the groups of the user, at most 32 of the same form: strings one behind the other, each ended by a
 *                  zero byte, so that the last byte is zero; no bytes for no group
 *   report         at least 1 number. The first is written, by every answer but 255: for 0, 1 and 3 the deciding line,
 *                  which is its number, from 1; 0 for 2; for a refusal the place, counted in bytes from 0: 10: 0; 11:
 *                  32,768; 12: the byte; 13 and 14: where the line begins. Later numbers stay.
 *
 * The result is the answer. The first line whose rule applies decides, and yet all lines are read before the answer.
 * Where several answers apply: 255 first, then 10, 11, 12, then the lines in their order, the first malformed one
 * deciding; 13 comes last, behind the faults of the whole lines. Only a file without a fault gives a decision. A file
 * that was cut short never gives another rule's answer: where the whole gives a decision, each beginning of it gives
 * that one, 2 or 13.
 */
uint8_t supertab_su_answer(const uint8_t *file, size_t file_length,
                           const uint8_t *target, size_t target_length,
                           const uint8_t *user, size_t user_length,
                           const uint8_t *groups, size_t groups_length,
                           int64_t *report, size_t report_length);

/* The exported functions above take no NULL. From here on their names stand for the functions below, which give them a
 * place that is valid for every array of no elements; behind an #undef of its name the exported one is had again. */
static inline const uint8_t *supertab_bytes_or(const uint8_t *bytes, size_t length, const uint8_t *none) {
    return length == 0 ? none : bytes;
}

static inline int64_t *supertab_numbers_or(int64_t *numbers, size_t length, int64_t *none) {
    return length == 0 ? none : numbers;
}

static inline uint8_t supertab_answer_or_null(const uint8_t *table, size_t table_length,
                                              const uint8_t *command, size_t command_length,
                                              const uint8_t *user, size_t user_length,
                                              const uint8_t *groups, size_t groups_length,
                                              const uint8_t *host, size_t host_length,
                                              uint32_t minute,
                                              bool authenticated, int32_t age,
                                              const uint8_t *args, size_t args_length,
                                              uint8_t *buffer, size_t buffer_length,
                                              int64_t *report, size_t report_length) {
    uint8_t none = 0, no_buffer = 0;
    int64_t no_report = 0;
    return supertab_answer(supertab_bytes_or(table, table_length, &none), table_length,
                           supertab_bytes_or(command, command_length, &none), command_length,
                           supertab_bytes_or(user, user_length, &none), user_length,
                           supertab_bytes_or(groups, groups_length, &none), groups_length,
                           supertab_bytes_or(host, host_length, &none), host_length,
                           minute, authenticated, age,
                           supertab_bytes_or(args, args_length, &none), args_length,
                           buffer_length == 0 ? &no_buffer : buffer, buffer_length,
                           supertab_numbers_or(report, report_length, &no_report), report_length);
}

static inline uint8_t supertab_record_write_or_null(uint8_t number, uint16_t line, uint32_t minute, bool auth,
                                                    bool authenticated, int32_t age,
                                                    uint8_t *record, size_t record_length) {
    uint8_t none = 0;
    return supertab_record_write(number, line, minute, auth, authenticated, age,
                                 record_length == 0 ? &none : record, record_length);
}

static inline uint8_t supertab_record_read_or_null(const uint8_t *record, size_t record_length,
                                                   int64_t *fields, size_t fields_length) {
    uint8_t none = 0;
    int64_t no_fields = 0;
    return supertab_record_read(supertab_bytes_or(record, record_length, &none), record_length,
                                supertab_numbers_or(fields, fields_length, &no_fields), fields_length);
}

static inline uint8_t supertab_figures_new_or_null(int64_t *figures, size_t figures_length) {
    int64_t none = 0;
    return supertab_figures_new(supertab_numbers_or(figures, figures_length, &none), figures_length);
}

static inline uint8_t supertab_figures_feed_or_null(int64_t *figures, size_t figures_length,
                                                    const uint8_t *batch, size_t batch_length,
                                                    int64_t *refused, size_t refused_length) {
    uint8_t none = 0;
    int64_t no_figures = 0, no_refused = 0;
    return supertab_figures_feed(supertab_numbers_or(figures, figures_length, &no_figures), figures_length,
                                 supertab_bytes_or(batch, batch_length, &none), batch_length,
                                 supertab_numbers_or(refused, refused_length, &no_refused), refused_length);
}

static inline uint8_t supertab_su_answer_or_null(const uint8_t *file, size_t file_length,
                                                 const uint8_t *target, size_t target_length,
                                                 const uint8_t *user, size_t user_length,
                                                 const uint8_t *groups, size_t groups_length,
                                                 int64_t *report, size_t report_length) {
    uint8_t none = 0;
    int64_t no_report = 0;
    return supertab_su_answer(supertab_bytes_or(file, file_length, &none), file_length,
                              supertab_bytes_or(target, target_length, &none), target_length,
                              supertab_bytes_or(user, user_length, &none), user_length,
                              supertab_bytes_or(groups, groups_length, &none), groups_length,
                              supertab_numbers_or(report, report_length, &no_report), report_length);
}

#define supertab_answer supertab_answer_or_null
#define supertab_record_write supertab_record_write_or_null
#define supertab_record_read supertab_record_read_or_null
#define supertab_figures_new supertab_figures_new_or_null
#define supertab_figures_feed supertab_figures_feed_or_null
#define supertab_su_answer supertab_su_answer_or_null

#ifdef __cplusplus
}
#endif

#endif
