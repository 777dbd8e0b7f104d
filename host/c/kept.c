/*
 * Reads a statement that was kept, charge records one after another, and says what each tells.
 *
 *     kept STATEMENT
 *
 * A record that is refused is told and passed over, where its frame is whole. C99 and C++11.
 */
#include "milecopper.h"

#include <stdio.h>
#include <stdlib.h>

/* The bytes of a file, to be freed by the caller. */
static uint8_t *bytes_of(const char *name, size_t *length)
{
    uint8_t *bytes = NULL;
    long end = -1;
    FILE *file = fopen(name, "rb");
    if (file != NULL && fseek(file, 0, SEEK_END) == 0)
        end = ftell(file);
    if (end >= 0 && fseek(file, 0, SEEK_SET) == 0)
        bytes = (uint8_t *)malloc(end > 0 ? (size_t)end : 1);
    if (bytes == NULL || fread(bytes, 1, (size_t)end, file) != (size_t)end) {
        fprintf(stderr, "kept: %s cannot be read\n", name);
        exit(1);
    }
    fclose(file);
    *length = (size_t)end;
    return bytes;
}

static void print_money(uint64_t cents)
{
    printf("%lu.%02lu euro", (unsigned long)(cents / 100), (unsigned long)(cents % 100));
}

/* Whose charge number i is; a record of kind 4 does not say. */
static void print_whose(const uint8_t *fields, unsigned i)
{
    unsigned adults = milecopper_fields_adults(fields);
    unsigned persons = 1 + adults + milecopper_fields_children(fields);
    if (milecopper_fields_kind(fields) == MILECOPPER_CHARGES_ALONE_KIND)
        printf("charge %u", i + 1);
    else if (i == 0)
        printf("the account holder");
    else if (i <= adults)
        printf("adult %u", i);
    else if (i < persons)
        printf("child %u", i - adults);
    else
        printf("bicycle %u", i - persons + 1);
}

static void print_charge(const uint8_t *fields, unsigned i)
{
    print_money(milecopper_fields_charge(fields, i));
    printf(" for ");
    print_whose(fields, i);
    if (milecopper_fields_reduction(fields, i) > 0) {
        printf(" (");
        print_money(milecopper_fields_reduction(fields, i));
        printf(" less by %s of area %u)", milecopper_cap_text(milecopper_fields_cap_class(fields, i)),
               milecopper_fields_cap_area(fields, i));
    }
}

static void print_record(unsigned number, const uint8_t *fields)
{
    unsigned i;
    printf("Record %u, window from minute %lu, %u km and %u minutes in area %u: ", number,
           (unsigned long)milecopper_fields_opening(fields), milecopper_fields_km(fields), milecopper_fields_minutes(fields),
           milecopper_fields_area(fields));
    for (i = 0; i < milecopper_fields_charges(fields); i += 1) {
        printf("%s", i == 0 ? "" : ", ");
        print_charge(fields, i);
    }
    printf(".\n");
}

static void print_refused(unsigned number, enum milecopper_refusal refusal)
{
    printf("Record %u is refused (%d). %s\n", number, (int)refusal, milecopper_refusal_text(refusal));
}

/* How far behind `at` the next record begins: by its length where it was read or its frame is whole, else behind everything. */
static size_t step(const uint8_t *statement, size_t length, size_t at, uint64_t answer)
{
    if (milecopper_accepted(answer))
        return milecopper_record_read(answer);
    if (milecopper_refusal_of(answer) == MILECOPPER_RECORD_BROKEN)
        return length - at;
    return MILECOPPER_KIND_AT + milecopper_number(statement + at + MILECOPPER_LENGTH_AT, 2);
}

int main(int argc, char **argv)
{
    uint8_t fields[MILECOPPER_LARGEST_FIELDS_BYTES];
    uint8_t *statement;
    size_t length;
    size_t at = 0;
    unsigned number = 0;
    uint64_t cents = 0;
    if (argc != 2) {
        fprintf(stderr, "usage: kept STATEMENT\n");
        return 2;
    }
    statement = bytes_of(argv[1], &length);
    while (at < length) {
        uint64_t answer = milecopper_read(statement, length, at, fields, sizeof fields);
        number += 1;
        if (milecopper_accepted(answer)) {
            print_record(number, fields);
            cents += milecopper_fields_total(fields);
        } else {
            print_refused(number, milecopper_refusal_of(answer));
        }
        at += step(statement, length, at, answer);
    }
    printf("%u records; together ", number);
    print_money(cents);
    printf(".\n");
    free(statement);
    return 0;
}
