/* The two figures functions from C: figures worked out by hand, refusals in their order, numbers that are no figures, the
 * limit, and what stays as it was. Prints each failure, and a last line 'N passed, M failed'. */
#include <stdio.h>
#include <stdlib.h>
#include <string.h>

#include "supertab.h"

enum { LENGTH = SUPERTAB_FIGURES_LENGTH, LIMIT = SUPERTAB_FIGURES_LIMIT, BYTES = SUPERTAB_RECORD_LENGTH };
enum { NUMBER_BEFORE = -99, REFUSED_BEFORE = 77 };

/* What is lent lies between guards, which no call may change. */
enum { GUARD = 16, NUMBERS = GUARD + LENGTH + GUARD, COUNTS = 3 * GUARD };

/* The greatest size of an age, and of a sum of ages. */
static const int64_t cap = 16777215, most = 16777215000000;

static int64_t numbers[NUMBERS], counts[COUNTS];
static int64_t *const figures = numbers + GUARD, *const refused = counts + GUARD;
static int passed, failed;

/* A permit on Monday at 10:00 (600 * 4 + 2 = 0x0962) with age 30, the same with the greatest age, a password on Sunday at
 * 23:59 (10,079 * 4 + 3 = 0x9D7F) with the least age, a permit on Tuesday at 0:00 (1,440 * 4 = 0x1680) with age 0, and a
 * record of version 0. */
#define PERMIT 0x20, 0x00, 0x07, 0x09, 0x62, 0x00, 0x00, 0x1E
#define OLDEST 0x20, 0x00, 0x07, 0x09, 0x62, 0xFF, 0xFF, 0xFF
#define LEAST 0x21, 0xFF, 0xFF, 0x9D, 0x7F, 0xFF, 0xFF, 0xFF
#define ZERO 0x20, 0x00, 0x01, 0x16, 0x80, 0x00, 0x00, 0x00
#define UNREAD 0x00, 0x00, 0x00, 0x00, 0x00, 0x00, 0x00, 0x00

static const uint8_t permit[] = {PERMIT}, oldest[] = {OLDEST}, least[] = {LEAST}, unread[] = {UNREAD};

/* Nine records that are read, and six that are refused. */
static const uint8_t worked[] = {
    PERMIT,
    UNREAD,
    0x21, 0x00, 0x03, 0x10, 0x67, 0x00, 0x00, 0x00, /* a password, Monday 17:29 (1,049 * 4 + 3 = 0x1067), never */
    0x20, 0x00, 0x05, 0x00, 0x01, 0x00, 0x00, 0x00, /* a permit, Monday 0:00, never */
    ZERO,
    0x21, 0x00, 0x01, 0x16, 0x7D, 0x00, 0x00, 0x05, /* a password, Monday 23:59 (1,439 * 4 + 1 = 0x167D), age -5 */
    0x40, 0x00, 0x07, 0x09, 0x62, 0x00, 0x00, 0x1E, /* version 2 */
    0x22, 0x00, 0x00, 0x9D, 0x7C, 0x00, 0x00, 0x0F, /* no entry, Sunday 23:59, age 15 */
    0x26, 0x00, 0x07, 0x09, 0x62, 0x00, 0x00, 0x1E, /* the numbers 6, 10 and 24 */
    0x2A, 0x00, 0x07, 0x09, 0x62, 0x00, 0x00, 0x1E,
    0x38, 0x00, 0x07, 0x09, 0x62, 0x00, 0x00, 0x1E,
    0x37, 0x00, 0x00, 0x9D, 0x7D, 0xFF, 0xFF, 0xFF, /* the refusal 23, Sunday 23:59, the least age */
    LEAST,
    0x20, 0x00, 0x07, 0x9D, 0x80, 0x00, 0x00, 0x1E, /* a permit at minute 10,080 */
    OLDEST,
};

/* Their figures: all others are 0. The ages are -5 - 16,777,215 and 30 + 0 + 16,777,215. */
static const int64_t worked_figures[LENGTH] = {
    [0] = 4, [1] = 3, [2] = 1, [23] = 1,
    [24] = 5, [25] = 1, [30] = 3,
    [32 + 0] = 2, [32 + 10] = 2, [32 + 17] = 1, [32 + 23] = 4,
    [56] = -16777220, [57] = 16777245, [58] = 3, [59] = 6, [60] = 15,
};

static void expect(const char *name, bool holds) {
    if (holds) {
        passed++;
    } else {
        failed++;
        printf("figures: %s\n", name);
    }
}

/* The figures of no records, between guards. */
static void begin(void) {
    for (size_t i = 0; i < NUMBERS; i++) {
        numbers[i] = NUMBER_BEFORE;
    }
    (void)supertab_figures_new(figures, LENGTH);
}

/* Feeds a batch with the usual lengths; the number of refused records holds another one beforehand. */
static uint8_t feed(const uint8_t *batch, size_t length) {
    for (size_t i = 0; i < COUNTS; i++) {
        counts[i] = REFUSED_BEFORE;
    }
    return supertab_figures_feed(figures, LENGTH, batch, length, refused, 1);
}

/* The figures are these, and no number beside them was written. */
static bool figures_are(const int64_t *wanted) {
    for (size_t i = 0; i < NUMBERS; i++) {
        if ((i < GUARD || i >= GUARD + LENGTH) && numbers[i] != NUMBER_BEFORE) {
            return false;
        }
    }
    return memcmp(figures, wanted, LENGTH * sizeof *wanted) == 0;
}

/* So many records were told to be refused, and no number beside that was written. */
static bool refused_are(int64_t wanted) {
    for (size_t i = 0; i < COUNTS; i++) {
        if (i != GUARD && counts[i] != REFUSED_BEFORE) {
            return false;
        }
    }
    return *refused == wanted;
}

/* A batch of the same record, so many times; it is on the heap, so that nothing behind it can be read unseen. */
static uint8_t *repeated(const uint8_t *record, size_t times) {
    uint8_t *batch = malloc(times * BYTES);
    if (batch == NULL) {
        perror("figures: memory");
        exit(1);
    }
    for (size_t i = 0; i < times; i++) {
        memcpy(batch + i * BYTES, record, BYTES);
    }
    return batch;
}

/* Feeds the same record so many times in one batch. */
static uint8_t feed_times(const uint8_t *record, size_t times) {
    uint8_t *batch = repeated(record, times);
    uint8_t result = feed(batch, times * BYTES);
    free(batch);
    return result;
}

static void new_figures(void) {
    static const int64_t zeros[LENGTH];
    for (size_t length = 0; length <= LENGTH + GUARD; length++) {
        for (size_t i = 0; i < NUMBERS; i++) {
            numbers[i] = NUMBER_BEFORE;
        }
        uint8_t result = supertab_figures_new(figures, length);
        if (length < LENGTH) {
            bool stay = true;
            for (size_t i = 0; i < NUMBERS; i++) {
                stay = stay && numbers[i] == NUMBER_BEFORE;
            }
            expect("fewer than 64 numbers for new figures", result == SUPERTAB_FIGURES_UNUSABLE && stay);
        } else {
            expect("64 zeros, and later numbers stay", result == SUPERTAB_FIGURES_DONE && figures_are(zeros));
        }
    }
    begin();
    expect("no record is a batch", feed(worked, 0) == SUPERTAB_FIGURES_DONE && refused_are(0) && figures_are(zeros));
}

static void by_hand(void) {
    begin();
    expect("the worked records", feed(worked, sizeof worked) == SUPERTAB_FIGURES_DONE && refused_are(0));
    expect("the worked figures", figures_are(worked_figures));
    for (size_t first = 0; first <= sizeof worked; first += BYTES) {
        for (size_t second = first; second <= sizeof worked; second += BYTES) {
            begin();
            bool done = feed(worked, first) == 0 && feed(worked + first, second - first) == 0 &&
                        feed(worked + second, sizeof worked - second) == 0;
            expect("other batches, the same figures", done && refused_are(0) && figures_are(worked_figures));
        }
    }
    /* The records are bytes, which may lie anywhere. */
    for (size_t place = 0; place < BYTES; place++) {
        uint8_t moved[sizeof worked + BYTES];
        memcpy(moved + place, worked, sizeof worked);
        begin();
        expect("records at any place", feed(moved + place, sizeof worked) == 0 && figures_are(worked_figures));
    }
}

static void every_number_and_minute(void) {
    for (unsigned number = 0; number < 32; number++) {
        uint8_t record[BYTES] = {PERMIT};
        int64_t wanted[LENGTH] = {0};
        record[0] = (uint8_t)(0x20 | number);
        if (number <= 5 || (number >= 11 && number <= 23)) {
            wanted[number] = wanted[SUPERTAB_FIGURE_WEEKDAYS] = wanted[SUPERTAB_FIGURE_HOURS + 10] = 1;
        } else {
            wanted[SUPERTAB_FIGURE_REFUSED] = 1;
        }
        if (number <= 1) {
            wanted[SUPERTAB_FIGURE_AGE_SUM] = 30;
            wanted[SUPERTAB_FIGURE_AGE_COUNT] = 1;
        }
        wanted[SUPERTAB_FIGURE_GIVEN] = 1;
        begin();
        expect("every number", feed(record, BYTES) == SUPERTAB_FIGURES_DONE && figures_are(wanted));
    }
    for (unsigned day = 0; day < 7; day++) {
        for (unsigned hour = 0; hour < 24; hour++) {
            /* The first and the last minute of the hour. */
            for (unsigned minute = day * 1440 + hour * 60, end = minute + 59; minute <= end; minute += 59) {
                const uint8_t record[BYTES] = {0x2B, 0, 0, (uint8_t)(minute >> 6), (uint8_t)(minute << 2), 0, 0, 9};
                int64_t wanted[LENGTH] = {[11] = 1, [60] = 1};
                wanted[SUPERTAB_FIGURE_WEEKDAYS + day] = wanted[SUPERTAB_FIGURE_HOURS + hour] = 1;
                begin();
                expect("every hour", feed(record, BYTES) == SUPERTAB_FIGURES_DONE && figures_are(wanted));
            }
        }
    }
}

static void not_whole(void) {
    begin();
    (void)feed(worked, sizeof worked);
    for (size_t length = 0; length < sizeof worked; length++) {
        if (length % BYTES != 0) {
            expect("no multiple of eight", feed(worked, length) == SUPERTAB_FIGURES_NOT_WHOLE &&
                                               refused_are(REFUSED_BEFORE) && figures_are(worked_figures));
        }
    }
}

static void the_limit(void) {
    begin();
    /* All ages are the greatest, so that the sum is the greatest too. */
    const int64_t full[LENGTH] = {[0] = LIMIT, [24] = LIMIT, [42] = LIMIT, [57] = most, [58] = LIMIT, [60] = LIMIT};
    expect("the last record", feed_times(oldest, LIMIT) == SUPERTAB_FIGURES_DONE && refused_are(0) && figures_are(full));
    for (size_t times = 1; times <= 3; times++) {
        expect("past the limit", feed_times(least, times) == SUPERTAB_FIGURES_PAST_LIMIT && refused_are((int64_t)times));
        expect("past the limit all figures stay", figures_are(full));
    }
    expect("no record at the limit", feed(permit, 0) == SUPERTAB_FIGURES_DONE && refused_are(0) && figures_are(full));
    expect("1 ahead of 2",
           feed(worked, 17) == SUPERTAB_FIGURES_NOT_WHOLE && refused_are(REFUSED_BEFORE) && figures_are(full));
    begin();
    expect("three past it at once",
           feed_times(oldest, LIMIT + 3) == SUPERTAB_FIGURES_PAST_LIMIT && refused_are(3) && figures_are(full));
    begin();
    const int64_t low[LENGTH] = {[1] = LIMIT, [30] = LIMIT, [55] = LIMIT, [56] = -most, [60] = LIMIT};
    expect("the least sum", feed_times(least, LIMIT) == SUPERTAB_FIGURES_DONE && figures_are(low));
    expect("past the least sum", feed(least, BYTES) == SUPERTAB_FIGURES_PAST_LIMIT && refused_are(1) && figures_are(low));
    /* Records that are not read are given too; of the batch at the limit the first two count. */
    begin();
    expect("records that are not read", feed_times(unread, LIMIT - 2) == SUPERTAB_FIGURES_DONE && refused_are(0));
    static const uint8_t batch[] = {PERMIT, ZERO, LEAST, UNREAD};
    const int64_t mixed[LENGTH] = {[0] = 2, [24] = 1, [25] = 1, [32] = 1, [42] = 1, [57] = 30, [58] = 2, [59] = LIMIT - 2,
                                   [60] = LIMIT};
    expect("a batch across the limit", feed(batch, sizeof batch) == SUPERTAB_FIGURES_PAST_LIMIT && refused_are(2));
    expect("the earlier ones count", figures_are(mixed));
}

/* 255 in every way, ahead of 1 and 2, and nothing is written. */
static void unusable(void) {
    static const size_t lengths[] = {0, 1, BYTES, sizeof worked};
    begin();
    (void)feed(worked, sizeof worked);
    for (size_t i = 0; i < sizeof lengths / sizeof lengths[0]; i++) {
        for (size_t length = 0; length < LENGTH; length++) {
            (void)feed(worked, 0);
            expect("fewer than 64 numbers", supertab_figures_feed(figures, length, worked, lengths[i], refused, 1) ==
                                                    SUPERTAB_FIGURES_UNUSABLE &&
                                                refused_are(0) && figures_are(worked_figures));
        }
        expect("no number for the refused ones",
               supertab_figures_feed(figures, LENGTH, worked, lengths[i], refused, 0) == SUPERTAB_FIGURES_UNUSABLE &&
                   refused_are(0) && figures_are(worked_figures));
    }
    /* Past the limit too. */
    begin();
    const int64_t before[LENGTH] = {[0] = -1, [SUPERTAB_FIGURE_GIVEN] = LIMIT};
    memcpy(figures, before, sizeof before);
    expect("255 ahead of 2", feed(permit, BYTES) == SUPERTAB_FIGURES_UNUSABLE && refused_are(REFUSED_BEFORE) &&
                                 figures_are(before));
}

/* A number outside its bounds, with batches of every kind; the bounds themselves are taken. */
static void no_figures(void) {
    for (size_t index = 0; index <= SUPERTAB_FIGURE_GIVEN; index++) {
        if ((index >= 6 && index <= 10) || index == 31) {
            continue; /* These are kept for later. */
        }
        int64_t low = index == SUPERTAB_FIGURE_BELOW_ZERO_SUM ? -most : 0;
        int64_t high = index == SUPERTAB_FIGURE_AGE_SUM ? most : index == SUPERTAB_FIGURE_BELOW_ZERO_SUM ? 0 : LIMIT;
        const int64_t bad[] = {low - 1, high + 1, INT64_MIN, INT64_MAX};
        for (size_t i = 0; i < sizeof bad / sizeof bad[0]; i++) {
            int64_t before[LENGTH] = {0};
            before[index] = bad[i];
            for (size_t length = 0; length <= 2 * BYTES; length++) {
                begin();
                figures[index] = bad[i];
                expect("numbers that are no figures", feed(worked, length) == SUPERTAB_FIGURES_UNUSABLE &&
                                                          refused_are(REFUSED_BEFORE) && figures_are(before));
            }
        }
        const int64_t good[] = {low, high};
        for (size_t i = 0; i < sizeof good / sizeof good[0]; i++) {
            int64_t before[LENGTH] = {0};
            begin();
            before[index] = figures[index] = good[i];
            expect("the bounds of figures",
                   feed(worked, 0) == SUPERTAB_FIGURES_DONE && refused_are(0) && figures_are(before));
            expect("1 at the bounds", feed(worked, 9) == SUPERTAB_FIGURES_NOT_WHOLE && figures_are(before));
        }
    }
}

static void later_numbers(void) {
    for (size_t length = LENGTH; length <= LENGTH + GUARD; length++) {
        for (size_t count = 1; count <= GUARD; count++) {
            begin();
            (void)feed(worked, 0);
            uint8_t result = supertab_figures_feed(figures, length, worked, sizeof worked, refused, count);
            expect("later numbers stay", result == SUPERTAB_FIGURES_DONE && refused_are(0) && figures_are(worked_figures));
        }
    }
}

/* As many records as may be given, one in each batch. */
static void one_by_one(void) {
    begin();
    bool done = true;
    for (int i = 0; i < LIMIT; i++) {
        done = done && feed(i % 2 == 0 ? oldest : least, BYTES) == SUPERTAB_FIGURES_DONE && *refused == 0;
    }
    const int64_t half = LIMIT / 2;
    const int64_t wanted[LENGTH] = {[0] = half, [1] = half, [24] = half, [30] = half, [42] = half, [55] = half,
                                    [56] = -cap * half, [57] = cap * half, [58] = half, [60] = LIMIT};
    expect("a million batches", done && figures_are(wanted));
    expect("and one more", feed(permit, BYTES) == SUPERTAB_FIGURES_PAST_LIMIT && refused_are(1) && figures_are(wanted));
}

int main(void) {
    new_figures();
    by_hand();
    every_number_and_minute();
    not_whole();
    the_limit();
    unusable();
    no_figures();
    later_numbers();
    one_by_one();
    printf("%d passed, %d failed\n", passed, failed);
    return failed != 0;
}
