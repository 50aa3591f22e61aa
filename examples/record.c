/* Asks one question and packs the answer into a log record, whose eight bytes are printed in hexadecimal; then reads the
 * record back.
 *
 *     cc -I include examples/record.c target/staticlib/libsupertab_c.a -o record
 *     ./record
 */
#include <stdio.h>

#include "supertab.h"

static const char table[] = ":global patterns=shell\nsetclock /sbin/setclock ann auth=y timeout=15\n";

/* A string of C as a pointer and the number of its bytes. */
#define STRING(text) (const uint8_t *)(text), sizeof(text) - 1

int main(void) {
    const uint32_t minute = 1049;
    const bool authenticated = true;
    const int32_t age = 15;
    uint8_t buffer[SUPERTAB_BUFFER_LENGTH], record[SUPERTAB_RECORD_LENGTH];
    int64_t report[SUPERTAB_REPORT_LENGTH], fields[SUPERTAB_FIELDS_LENGTH];
    uint8_t number = supertab_answer(STRING(table), STRING("setclock"), STRING("ann"), STRING(""), STRING("van2"),
                                     minute, authenticated, age, STRING(""),
                                     buffer, sizeof buffer, report, SUPERTAB_REPORT_LENGTH);
    /* A line has 16 bits; the place that a refusal has instead is not stored. */
    uint8_t result = supertab_record_write(number, (uint16_t)report[SUPERTAB_REPORT_LINE_OR_PLACE], minute,
                                           report[SUPERTAB_REPORT_AUTH] != 0, authenticated, age, record, sizeof record);
    if (result != SUPERTAB_RECORD_DONE) {
        fprintf(stderr, "answer %d has no record: refused %d\n", number, result);
        return 1;
    }
    for (size_t i = 0; i < sizeof record; i++) {
        printf("%02x%c", record[i], i + 1 < sizeof record ? ' ' : '\n');
    }
    result = supertab_record_read(record, sizeof record, fields, SUPERTAB_FIELDS_LENGTH);
    if (result != SUPERTAB_RECORD_DONE) {
        fprintf(stderr, "the record is refused: %d\n", result);
        return 1;
    }
    printf("answer %lld, line %lld, minute %lld, auth=%c, ", (long long)fields[SUPERTAB_FIELD_NUMBER],
           (long long)fields[SUPERTAB_FIELD_LINE], (long long)fields[SUPERTAB_FIELD_MINUTE],
           fields[SUPERTAB_FIELD_AUTH] != 0 ? 'y' : 'n');
    if (fields[SUPERTAB_FIELD_AUTHENTICATED] != 0) {
        printf("age %lld\n", (long long)fields[SUPERTAB_FIELD_AGE]);
    } else {
        printf("age never\n");
    }
    return 0;
}
