/* The two record functions from C: bytes worked out by hand, every known number, refusals in their order, and what
 * stays as it was. Prints each failure, and a last line 'N passed, M failed'. */
#include <stdio.h>
#include <string.h>

#include "supertab.h"

enum { CAP = 16777215, NEVER = 0, BYTE_BEFORE = 0xEE, NUMBER_BEFORE = -99 };

/* What is lent lies between guards, which no call may change. */
enum { GUARD = 16, BYTES = 64, NUMBERS = 32 };

static uint8_t bytes[BYTES];
static int64_t numbers[NUMBERS];
static int passed, failed;

/* What the writer is given, in the order of its arguments. */
struct given {
    uint8_t number;
    uint16_t line;
    uint32_t minute;
    bool auth, authenticated;
    int32_t age;
};

static const struct given usual = {0, 7, 600, true, true, 30};

static void expect(const char *name, bool holds) {
    if (holds) {
        passed++;
    } else {
        failed++;
        printf("record: %s\n", name);
    }
}

/* Writes at a place of the bytes, all of which hold the same beforehand. */
static uint8_t write_at(size_t place, size_t length, const struct given *g) {
    memset(bytes, BYTE_BEFORE, sizeof bytes);
    return supertab_record_write(g->number, g->line, g->minute, g->auth, g->authenticated, g->age, bytes + place, length);
}

/* Reads into numbers behind the guard, all of which hold the same beforehand. */
static uint8_t read_into(const uint8_t *record, size_t length, size_t count) {
    for (int i = 0; i < NUMBERS; i++) {
        numbers[i] = NUMBER_BEFORE;
    }
    return supertab_record_read(record, length, numbers + GUARD, count);
}

/* All bytes but so many behind the place are as they were. */
static bool other_bytes_stay(size_t place, size_t count) {
    for (size_t i = 0; i < BYTES; i++) {
        if ((i < place || i >= place + count) && bytes[i] != BYTE_BEFORE) {
            return false;
        }
    }
    return true;
}

/* All numbers but so many behind the guard are as they were. */
static bool other_numbers_stay(size_t count) {
    for (size_t i = 0; i < NUMBERS; i++) {
        if ((i < GUARD || i >= GUARD + count) && numbers[i] != NUMBER_BEFORE) {
            return false;
        }
    }
    return true;
}

/* The six fields are these, and no other number was written. */
static bool fields_are(int64_t number, int64_t line, int64_t minute, int64_t auth, int64_t authenticated, int64_t age) {
    const int64_t told[SUPERTAB_FIELDS_LENGTH] = {number, line, minute, auth, authenticated, age};
    return memcmp(numbers + GUARD, told, sizeof told) == 0 && other_numbers_stay(SUPERTAB_FIELDS_LENGTH);
}

/* 0 to 5 and 11 to 23. */
static bool known(unsigned number) {
    return number <= 5 || (number >= 11 && number <= 23);
}

/* A record by its bits; those of line, auth, sign and size are 0. */
static void lay_out(uint8_t *record, unsigned version, unsigned number, unsigned minute) {
    memset(record, 0, SUPERTAB_RECORD_LENGTH);
    record[0] = (uint8_t)(version << 5 | number);
    record[3] = (uint8_t)(minute >> 6);
    record[4] = (uint8_t)(minute << 2);
}

/* Writes exactly these bytes, at every place of a word, and they are read as these fields. */
static void expect_record(const char *name, struct given g, const uint8_t *wanted,
                          int64_t line, int64_t auth, int64_t age) {
    for (size_t place = GUARD; place < GUARD + 8; place++) {
        expect(name, write_at(place, SUPERTAB_RECORD_LENGTH, &g) == SUPERTAB_RECORD_DONE &&
                         memcmp(bytes + place, wanted, SUPERTAB_RECORD_LENGTH) == 0 &&
                         other_bytes_stay(place, SUPERTAB_RECORD_LENGTH));
        expect(name, read_into(bytes + place, SUPERTAB_RECORD_LENGTH, SUPERTAB_FIELDS_LENGTH) == SUPERTAB_RECORD_DONE &&
                         fields_are(g.number, line, g.minute, auth, g.authenticated, age));
    }
}

static void by_hand(void) {
    /* 001 00000; 7; 600 in 14 bits, auth, no sign: 600 * 4 + 2 = 0x0962; 30. */
    expect_record("a permit", usual, (const uint8_t[]){0x20, 0x00, 0x07, 0x09, 0x62, 0x00, 0x00, 0x1E}, 7, 1, 30);
    /* 001 00010; line and auth are dropped, and the sign alone is "never". */
    expect_record("no entry", (struct given){2, 7, 0, true, NEVER, 0},
                  (const uint8_t[]){0x22, 0x00, 0x00, 0x00, 0x01, 0x00, 0x00, 0x00}, 0, 0, 0);
    /* 001 10111; 10,079 * 4 + 1 = 0x9D7D; the least age is stored as the cap. */
    expect_record("a refusal", (struct given){23, 65535, 10079, true, true, INT32_MIN},
                  (const uint8_t[]){0x37, 0x00, 0x00, 0x9D, 0x7D, 0xFF, 0xFF, 0xFF}, 0, 0, -CAP);
    expect_record("all bits of a password", (struct given){1, 65535, 10079, true, true, INT32_MIN},
                  (const uint8_t[]){0x21, 0xFF, 0xFF, 0x9D, 0x7F, 0xFF, 0xFF, 0xFF}, 65535, 1, -CAP);
    expect_record("age 0 has no sign", (struct given){5, 258, 1, false, true, 0},
                  (const uint8_t[]){0x25, 0x01, 0x02, 0x00, 0x04, 0x00, 0x00, 0x00}, 258, 0, 0);
    expect_record("age -1", (struct given){4, 1, 0, true, true, -1},
                  (const uint8_t[]){0x24, 0x00, 0x01, 0x00, 0x01, 0x00, 0x00, 0x01}, 1, 0, -1);
    /* The age of one who never gave the password is not looked at. */
    expect_record("never, whatever the age", (struct given){3, 9, 0, false, NEVER, 12345},
                  (const uint8_t[]){0x23, 0x00, 0x09, 0x00, 0x01, 0x00, 0x00, 0x00}, 9, 0, 0);
}

static void ages(void) {
    static const int32_t given[] = {CAP - 1, CAP, CAP + 1, INT32_MAX, 1 - CAP, -CAP, -CAP - 1, INT32_MIN};
    static const int32_t stored[] = {CAP - 1, CAP, CAP, CAP, 1 - CAP, -CAP, -CAP, -CAP};
    for (size_t i = 0; i < sizeof given / sizeof given[0]; i++) {
        struct given g = usual;
        g.age = given[i];
        expect("a cap", write_at(GUARD, 8, &g) == SUPERTAB_RECORD_DONE && read_into(bytes + GUARD, 8, 6) == 0 &&
                            fields_are(0, 7, 600, 1, 1, stored[i]));
    }
}

static void numbers_given(void) {
    for (unsigned number = 0; number < 256; number++) {
        struct given g = usual;
        g.number = (uint8_t)number;
        uint8_t result = write_at(GUARD, 8, &g);
        if (known(number)) {
            bool has_line = number <= 1 || (number >= 3 && number <= 5);
            expect("a known number", result == SUPERTAB_RECORD_DONE && read_into(bytes + GUARD, 8, 6) == 0 &&
                                         fields_are(number, has_line ? 7 : 0, 600, number <= 1, 1, 30));
        } else {
            expect("an unknown number", result == SUPERTAB_RECORD_NUMBER && other_bytes_stay(0, 0));
        }
        g.minute = 10080;
        result = write_at(GUARD, 8, &g);
        expect("2 goes ahead of 3", result == (known(number) ? SUPERTAB_RECORD_MINUTE : SUPERTAB_RECORD_NUMBER) &&
                                        other_bytes_stay(0, 0));
    }
}

static void minutes(void) {
    /* Numbers of 14 or 16 bits would take some of these for minutes of the week. */
    static const uint32_t bad[] = {10080, 16383, 16384, 65535, 65536, 65536 + 600, INT32_MAX, UINT32_MAX};
    struct given g = usual;
    for (size_t i = 0; i < sizeof bad / sizeof bad[0]; i++) {
        g.minute = bad[i];
        expect("a bad minute", write_at(GUARD, 8, &g) == SUPERTAB_RECORD_MINUTE && other_bytes_stay(0, 0));
    }
    for (g.minute = 0; g.minute < 10080; g.minute++) {
        if (write_at(GUARD, 8, &g) != 0 || read_into(bytes + GUARD, 8, 6) != 0 || !fields_are(0, 7, g.minute, 1, 1, 30)) {
            break;
        }
    }
    expect("every minute of the week", g.minute == 10080);
}

static void lengths(void) {
    struct given bad = usual;
    bad.number = 10;
    bad.minute = 10080;
    for (size_t length = 0; length <= BYTES - GUARD; length++) {
        if (length == SUPERTAB_RECORD_LENGTH) {
            continue;
        }
        expect("4 for the writer", write_at(GUARD, length, &usual) == SUPERTAB_RECORD_BYTES && other_bytes_stay(0, 0));
        expect("4 first of all", write_at(GUARD, length, &bad) == SUPERTAB_RECORD_BYTES && other_bytes_stay(0, 0));
        expect("4 for the reader", read_into(bytes, length, 6) == SUPERTAB_RECORD_BYTES && other_numbers_stay(0));
        /* These bytes begin as a good record does. */
        (void)write_at(0, 8, &usual);
        expect("4 whatever the bytes are", read_into(bytes, length, 6) == SUPERTAB_RECORD_BYTES && other_numbers_stay(0));
    }
}

static void refused_records(void) {
    static const unsigned minute[] = {0, 10079, 10080, 16383};
    uint8_t record[SUPERTAB_RECORD_LENGTH];
    for (unsigned version = 0; version < 8; version++) {
        for (unsigned number = 0; number < 32; number++) {
            for (size_t i = 0; i < sizeof minute / sizeof minute[0]; i++) {
                lay_out(record, version, number, minute[i]);
                uint8_t wanted = version != 1        ? SUPERTAB_RECORD_VERSION
                                 : !known(number)    ? SUPERTAB_RECORD_NUMBER
                                 : minute[i] > 10079 ? SUPERTAB_RECORD_MINUTE
                                                     : SUPERTAB_RECORD_DONE;
                uint8_t result = read_into(record, 8, 6);
                expect("1, 2, 3 in this order, and nothing is shown",
                       result == wanted &&
                           (result == 0 ? fields_are(number, 0, minute[i], 0, 1, 0) : other_numbers_stay(0)));
            }
        }
    }
}

static void any_bits_are_read(void) {
    const uint8_t record[] = {0x22, 0x00, 0x07, 0x09, 0x63, 0x00, 0x00, 0x1E};
    expect("a line and auth beside 2", read_into(record, 8, 6) == 0 && fields_are(2, 7, 600, 1, 1, -30));
    const uint8_t refusal[] = {0x2D, 0xFF, 0xFF, 0x00, 0x03, 0x00, 0x00, 0x00};
    expect("a line and auth beside 13", read_into(refusal, 8, 6) == 0 && fields_are(13, 65535, 0, 1, 0, 0));
}

static void numbers_lent(void) {
    uint8_t good[SUPERTAB_RECORD_LENGTH], bad[SUPERTAB_RECORD_LENGTH];
    lay_out(good, 1, 0, 0);
    lay_out(bad, 7, 31, 16383);
    for (size_t count = 0; count < SUPERTAB_FIELDS_LENGTH; count++) {
        expect("fewer than 6 numbers", read_into(good, 8, count) == SUPERTAB_RECORD_SMALL_FIELDS && other_numbers_stay(0));
        expect("255 ahead of 1", read_into(bad, 8, count) == SUPERTAB_RECORD_SMALL_FIELDS && other_numbers_stay(0));
        expect("255 ahead of 4", read_into(bad, 7, count) == SUPERTAB_RECORD_SMALL_FIELDS && other_numbers_stay(0));
        expect("255 for no bytes", read_into(bad, 0, count) == SUPERTAB_RECORD_SMALL_FIELDS && other_numbers_stay(0));
    }
    for (size_t count = SUPERTAB_FIELDS_LENGTH; count <= NUMBERS - GUARD; count++) {
        expect("later numbers stay", read_into(good, 8, count) == 0 && fields_are(0, 0, 0, 0, 1, 0));
        expect("all numbers stay", read_into(bad, 8, count) == SUPERTAB_RECORD_VERSION && other_numbers_stay(0));
    }
}

int main(void) {
    by_hand();
    ages();
    numbers_given();
    minutes();
    lengths();
    refused_records();
    any_bits_are_read();
    numbers_lent();
    printf("%d passed, %d failed\n", passed, failed);
    return failed != 0;
}
