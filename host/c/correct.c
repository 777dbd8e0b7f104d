/*
 * Corrects records of a roll, each by itself: a trip gets another check-out, which its member has proved, or is cancelled. Says what
 * the roll charges before and after, and what changes for each payer.
 *
 *     correct TARIFF ROLL N TIME [N TIME]...
 *
 * N is the record's number, from 1. TIME is the clock time of the check-out on its own day, as 04:20, or `never` where the trip is
 * cancelled. C99 and C++11.
 */
#include "milecopper.h"

#include <stdio.h>
#include <stdlib.h>
#include <string.h>

/* A tariff, a roll and room for what a correction tells. */
struct work {
    uint8_t *tariff;
    size_t tariff_len;
    uint8_t *roll;
    size_t roll_len;
    uint8_t *statements;
    size_t room;
    uint8_t differences[MILECOPPER_DIFFERENCES_BYTES];
};

/* The bytes of a file, to be freed by the caller. */
static uint8_t *bytes_of(const char *name, size_t *length)
{
    uint8_t *bytes = NULL;
    long end = -1;
    FILE *file = fopen(name, "rb");
    if (file != NULL && fseek(file, 0, SEEK_END) == 0)
        end = ftell(file);
    if (end >= 0 && fseek(file, 0, SEEK_SET) == 0)
        bytes = (uint8_t *)malloc(end > 0 ? (size_t)end : 1);
    if (bytes == NULL || fread(bytes, 1, (size_t)end, file) != (size_t)end) {
        fprintf(stderr, "correct: %s cannot be read\n", name);
        exit(1);
    }
    fclose(file);
    *length = (size_t)end;
    return bytes;
}

/* The bytes of the record that begins at `at`; 0 where its frame is broken, or the roll ends there. */
static size_t record_at(const struct work *work, size_t at)
{
    size_t size;
    if (work->roll_len - at < MILECOPPER_HEAD_BYTES)
        return 0;
    size = MILECOPPER_KIND_AT + milecopper_number(work->roll + at + MILECOPPER_LENGTH_AT, 2);
    return size < MILECOPPER_HEAD_BYTES || size > work->roll_len - at ? 0 : size;
}

/* Where record n of the roll begins; its end where there is none. `n` is set to the records before that. */
static size_t find(const struct work *work, unsigned long *n)
{
    size_t at = 0;
    unsigned long passed;
    for (passed = 1; passed < *n && record_at(work, at) > 0; passed += 1)
        at += record_at(work, at);
    *n = passed - 1;
    return at;
}

/* The sum of all charges of the roll as it is, settled trip by trip. */
static int64_t charged_before(const struct work *work)
{
    uint8_t book[MILECOPPER_BOOK_BYTES] = {0};
    uint8_t statement[MILECOPPER_LARGEST_STATEMENT_BYTES];
    int64_t total = 0;
    size_t at;
    for (at = 0; record_at(work, at) > 0; at += record_at(work, at)) {
        uint64_t answer = milecopper_settle(work->tariff, work->tariff_len, book, sizeof book, work->roll + at, record_at(work, at),
                                            statement, sizeof statement);
        total += milecopper_statement_total(statement, answer);
    }
    return total;
}

/* The sum of all charges of the statements that were written. */
static int64_t charged(const struct work *work, uint64_t answer)
{
    const uint8_t *end = work->statements + milecopper_bytes_written(answer);
    const uint8_t *record;
    int64_t total = 0;
    for (record = work->statements; record < end; record += milecopper_record_bytes(record))
        total += milecopper_record_total(record);
    return total;
}

static uint64_t correct(struct work *work, unsigned long n, const uint8_t *replacement, size_t replacement_len)
{
    return milecopper_correct(work->tariff, work->tariff_len, work->roll, work->roll_len, (uint32_t)n, replacement, replacement_len,
                              work->statements, work->room, work->differences, sizeof work->differences);
}

static void print_money(int64_t cents)
{
    int64_t size = cents < 0 ? -cents : cents;
    printf("%s%lld.%02lld euro", cents < 0 ? "-" : "", (long long)(size / 100), (long long)(size % 100));
}

static void print_difference(const char *payer, unsigned number, int64_t difference)
{
    if (difference == 0)
        return;
    printf("  %s", payer);
    if (number > 0)
        printf(" %u", number);
    printf(": ");
    print_money(difference);
    printf("\n");
}

/* Who pays more or less; nobody else is named. */
static void print_differences(const uint8_t *differences)
{
    unsigned i;
    print_difference("account holder", 0, milecopper_holder_difference(differences));
    for (i = 0; i < MILECOPPER_MOST_ADULTS; i += 1)
        print_difference("adult", i + 1, milecopper_adult_difference(differences, i));
    for (i = 0; i < MILECOPPER_MOST_CHILDREN; i += 1)
        print_difference("child", i + 1, milecopper_child_difference(differences, i));
    for (i = 0; i < MILECOPPER_MOST_BICYCLES; i += 1)
        print_difference("bicycle", i + 1, milecopper_bicycle_difference(differences, i));
}

/* The record with the clock time of its check-out replaced, or nothing; its length. */
static size_t replaced(uint8_t *trip, const uint8_t *record, size_t size, const char *when)
{
    unsigned hour = 0;
    unsigned minute = 0;
    if (strcmp(when, "never") == 0 || size > MILECOPPER_LARGEST_TRIP_BYTES)
        return 0;
    if (sscanf(when, "%u:%u", &hour, &minute) != 2) {
        fprintf(stderr, "correct: '%s' is no time\n", when);
        exit(2);
    }
    memcpy(trip, record, size);
    if (size >= MILECOPPER_TRIP_STOPS_AT) {
        milecopper_put_number(trip + MILECOPPER_TRIP_CHECK_OUT_AT + MILECOPPER_STAMP_HOUR_AT, 1, hour);
        milecopper_put_number(trip + MILECOPPER_TRIP_CHECK_OUT_AT + MILECOPPER_STAMP_MINUTE_AT, 1, minute);
    }
    return size;
}

static void tell(struct work *work, unsigned long n, const char *when)
{
    uint8_t trip[MILECOPPER_LARGEST_TRIP_BYTES];
    unsigned long before_it = n;
    size_t at = find(work, &before_it);
    size_t size = record_at(work, at);
    size_t trip_len = replaced(trip, work->roll + at, size, when);
    int64_t before = charged_before(work);
    int64_t after;
    uint64_t answer;
    if (trip_len == 0)
        printf("Trip %lu cancelled: ", n);
    else
        printf("Trip %lu checked out at %s: ", n, when);
    answer = correct(work, n, trip, trip_len);
    if (!milecopper_accepted(answer)) {
        printf("refused (%d). %s\n", (int)milecopper_refusal_of(answer), milecopper_refusal_text(milecopper_refusal_of(answer)));
        return;
    }
    after = charged(work, answer);
    print_money(before);
    printf(" before, ");
    print_money(after);
    printf(" now.\n");
    print_differences(work->differences);
    if (before + milecopper_differences_total(work->differences) != after) {
        fprintf(stderr, "correct: the differences of trip %lu are not those of its sums\n", n);
        exit(1);
    }
}

int main(int argc, char **argv)
{
    struct work work;
    unsigned long many = MILECOPPER_MOST_ROLL_RECORDS + 1;
    int i;
    if (argc < 5 || argc % 2 == 0) {
        fprintf(stderr, "usage: correct TARIFF ROLL N TIME [N TIME]...\n");
        return 2;
    }
    work.tariff = bytes_of(argv[1], &work.tariff_len);
    work.roll = bytes_of(argv[2], &work.roll_len);
    find(&work, &many);
    work.room = MILECOPPER_LARGEST_STATEMENT_BYTES * many;
    work.statements = (uint8_t *)malloc(work.room > 0 ? work.room : 1);
    if (work.statements == NULL)
        return 1;
    for (i = 3; i < argc; i += 2)
        tell(&work, strtoul(argv[i], NULL, 10), argv[i + 1]);
    free(work.tariff);
    free(work.roll);
    free(work.statements);
    return 0;
}
