/*
 * Quotes a roll of trips on one account one after another, starting from a fresh book, says what each costs and which cap cuts
 * it, and posts it.
 *
 *     night TARIFF ROLL [STATEMENT]
 *
 * TARIFF holds a tariff's bytes and ROLL trip records, one after another. The charge records of all trips go to the file STATEMENT, one after
 * another, where one is named; kept.c reads them. C99 and C++11.
 */
#include "milecopper.h"

#include <stdio.h>
#include <stdlib.h>

struct bytes {
    uint8_t *start;
    size_t length;
};

/* What has been posted so far. The slices are blocks of exactly their length, so that memcheck sees a byte beyond them. */
struct night {
    struct bytes tariff;
    struct bytes book;
    struct bytes statement;
    FILE *kept; /* or null */
    uint32_t opening; /* of the window of the last posted trip */
    unsigned posted;
    unsigned refused;
    uint64_t cents;
};

/* A block of zeros, to be freed by the caller. Its pointer is not null, not even with length 0. */
static struct bytes zeros(size_t length)
{
    struct bytes block = {NULL, 0};
    block.start = (uint8_t *)calloc(length > 0 ? length : 1, 1);
    block.length = length;
    if (block.start == NULL) {
        fprintf(stderr, "night: out of memory\n");
        exit(1);
    }
    return block;
}

/* The bytes of a file, to be freed by the caller. */
static struct bytes bytes_of(const char *name)
{
    struct bytes all = {NULL, 0};
    long length = -1;
    FILE *file = fopen(name, "rb");
    if (file != NULL && fseek(file, 0, SEEK_END) == 0)
        length = ftell(file);
    if (length >= 0 && fseek(file, 0, SEEK_SET) == 0)
        all = zeros((size_t)length);
    if (all.start == NULL || fread(all.start, 1, all.length, file) != all.length) {
        fprintf(stderr, "night: %s cannot be read\n", name);
        exit(1);
    }
    fclose(file);
    return all;
}

static void print_money(uint64_t cents)
{
    printf("%lu.%02lu euro", (unsigned long)(cents / 100), (unsigned long)(cents % 100));
}

/* Whose charge number i of the record is: "the account holder", "adult 1" and so on. */
static void print_whose(const uint8_t *record, unsigned i)
{
    unsigned adults = milecopper_record_adults(record);
    unsigned persons = milecopper_record_persons(record);
    if (i == 0)
        printf("the account holder");
    else if (i <= adults)
        printf("adult %u", i);
    else if (i < persons)
        printf("child %u", i - adults);
    else
        printf("bicycle %u", i - persons + 1);
}

/* Prints " (7.00 euro less by the second-class cap of area 1)" where a cap cut charge number i of the record. */
static void print_cut(const uint8_t *record, unsigned i)
{
    if (i >= milecopper_record_persons(record) || milecopper_record_reduction(record, i) == 0)
        return;
    printf(" (");
    print_money(milecopper_record_reduction(record, i));
    printf(" less by %s of area %u)", milecopper_cap_text(milecopper_record_cap_class(record, i)),
           milecopper_record_cap_area(record, i));
}

/* What a part of a trip costs; `part` is 0 where the trip is in one. */
static void print_part(unsigned number, unsigned part, const uint8_t *record)
{
    unsigned charges = milecopper_record_charges(record);
    unsigned i;

    printf("Trip %u, ", number);
    if (part > 0)
        printf("part %u, ", part);
    printf("%u km and %u minutes in area %u, costs ", milecopper_record_km(record), milecopper_record_minutes(record),
           milecopper_record_area(record));
    print_money(milecopper_record_total(record));
    if (charges == 1)
        print_cut(record, 0);
    for (i = 0; charges > 1 && i < charges; i += 1) {
        printf("%s", i == 0 ? ": " : ", ");
        print_money(milecopper_record_charge(record, i));
        printf(" for ");
        print_whose(record, i);
        print_cut(record, i);
    }
    printf(".\n");
}

static void print_quote(const struct night *night, unsigned number, uint64_t quote)
{
    const uint8_t *record = night->statement.start;
    const uint8_t *end = record + milecopper_bytes_written(quote);
    uint32_t opening = milecopper_record_opening(record);
    unsigned part = record + milecopper_record_bytes(record) < end ? 1 : 0;

    if (night->posted == 0 || opening != night->opening)
        printf("A window opens at minute %lu.\n", (unsigned long)opening);
    for (; record < end; record += milecopper_record_bytes(record)) {
        print_part(number, part, record);
        part += 1;
    }
}

static void count_posted(struct night *night, uint64_t quote)
{
    night->opening = milecopper_record_opening(night->statement.start);
    night->posted += 1;
    night->cents += milecopper_statement_total(night->statement.start, quote);
    if (night->kept != NULL)
        fwrite(night->statement.start, 1, milecopper_bytes_written(quote), night->kept);
}

static void print_refused(struct night *night, unsigned number, uint64_t answer)
{
    enum milecopper_refusal refusal = milecopper_refusal_of(answer);
    printf("Trip %u is refused (%d). %s", number, (int)refusal, milecopper_refusal_text(refusal));
    if (refusal <= MILECOPPER_TARIFF_VALUE)
        printf(" Look at byte %lu of it.", (unsigned long)milecopper_place(answer));
    printf("\n");
    night->refused += 1;
}

/* Quotes the trip in these bytes, shows the price, and posts it. An app asks its user in between; where the posting is refused
 * with MILECOPPER_OTHER_RECORD, the price has changed since, and it quotes again. */
static void take(struct night *night, unsigned number, const uint8_t *trip, size_t length)
{
    uint64_t quote = milecopper_quote(night->tariff.start, night->tariff.length,
                                      night->book.start, night->book.length,
                                      trip, length,
                                      night->statement.start, night->statement.length);
    uint64_t answer = quote;
    if (milecopper_accepted(quote)) {
        print_quote(night, number, quote);
        answer = milecopper_post(night->tariff.start, night->tariff.length,
                                 night->book.start, night->book.length,
                                 trip, length,
                                 night->statement.start, milecopper_bytes_written(quote));
    }
    if (milecopper_accepted(answer))
        count_posted(night, quote);
    else
        print_refused(night, number, answer);
}

/* The bytes of the next record; all that is left where its frame is broken, which a quote then refuses. */
static size_t next_record(const uint8_t *rest, size_t left)
{
    size_t length = left < 4 ? 0 : milecopper_number(rest, 2);
    int whole = length >= 2 && length <= 1024 && length <= left - 2;
    return whole ? 2 + length : left;
}

static void take_roll(struct night *night, struct bytes roll)
{
    unsigned number = 0;
    size_t place = 0;
    while (place < roll.length) {
        size_t length = next_record(roll.start + place, roll.length - place);
        number += 1;
        take(night, number, roll.start + place, length);
        place += length;
    }
    printf("%u trips posted, %u refused; together ", night->posted, night->refused);
    print_money(night->cents);
    printf(".\n");
}

int main(int argc, char **argv)
{
    struct night night = {{NULL, 0}, {NULL, 0}, {NULL, 0}, NULL, 0, 0, 0, 0};
    struct bytes roll;
    if (argc != 3 && argc != 4) {
        fprintf(stderr, "usage: night TARIFF ROLL [STATEMENT]\n");
        return 2;
    }
    night.tariff = bytes_of(argv[1]);
    night.book = zeros(MILECOPPER_BOOK_BYTES); /* a fresh book */
    night.statement = zeros(MILECOPPER_LARGEST_STATEMENT_BYTES);
    roll = bytes_of(argv[2]);
    if (argc == 4)
        night.kept = fopen(argv[3], "wb");
    take_roll(&night, roll);
    free(night.tariff.start);
    free(night.book.start);
    free(night.statement.start);
    free(roll.start);
    if (argc == 4 && (night.kept == NULL || fclose(night.kept) != 0)) {
        fprintf(stderr, "night: %s cannot be written\n", argv[3]);
        return 1;
    }
    return 0;
}
