/*
 * Calls the library and the header's functions as an app might, rightly and wrongly: empty slices with a null pointer, a
 * tariff checked alone, bytes that are no record, records read back, members on a page, a monthly ceiling, a corrected roll, and records
 * written by the header's writers.
 *
 *     calls TARIFF ROLL
 *
 * Each record of TARIFF and of ROLL is read by the header's places and written again, and has to come out the same.
 * C99 and C++11; bytes that are looked at stand before a protected page, where the system has one.
 */
#define _DEFAULT_SOURCE
#include "milecopper.h"

#include <stdio.h>
#include <stdlib.h>
#include <string.h>
#include <sys/mman.h>
#include <unistd.h>

static int faults;

static void check(int well, const char *what)
{
    if (!well) {
        printf("calls: %s\n", what);
        faults += 1;
    }
}

/* So many bytes that end where a page begins which nobody may touch. They are never given back. */
static uint8_t *guarded(size_t length)
{
    size_t page = (size_t)sysconf(_SC_PAGESIZE);
    size_t pages = length / page + 1;
    uint8_t *start =
        (uint8_t *)mmap(NULL, (pages + 1) * page, PROT_READ | PROT_WRITE, MAP_PRIVATE | MAP_ANONYMOUS, -1, 0);
    if (start == MAP_FAILED || mprotect(start + pages * page, page, PROT_NONE) != 0) {
        perror("calls");
        exit(1);
    }
    return start + pages * page - length;
}

/* The bytes of a file. */
static uint8_t *bytes_of(const char *name, size_t *length)
{
    static uint8_t room[1 << 16];
    FILE *file = fopen(name, "rb");
    uint8_t *bytes;
    if (file == NULL) {
        perror(name);
        exit(1);
    }
    *length = fread(room, 1, sizeof room, file);
    fclose(file);
    bytes = guarded(*length);
    memcpy(bytes, room, *length);
    return bytes;
}

static uint64_t refused(enum milecopper_refusal refusal, uint32_t place)
{
    return ((uint64_t)refusal << 32) + place;
}

/* A null pointer beside a length of 0, in each place. */
static void nulls(const uint8_t *tariff, size_t tariff_len, const uint8_t *trip, size_t trip_len)
{
    uint8_t *book = guarded(MILECOPPER_BOOK_BYTES);
    uint8_t *statement = guarded(MILECOPPER_LARGEST_STATEMENT_BYTES);
    size_t all = MILECOPPER_LARGEST_STATEMENT_BYTES;
    check(milecopper_check_tariff(NULL, 0) == refused(MILECOPPER_TARIFF_MISSHAPEN, 0), "no tariff to check");
    check(milecopper_settle(NULL, 0, book, MILECOPPER_BOOK_BYTES, trip, trip_len, statement, all) ==
              refused(MILECOPPER_TARIFF_MISSHAPEN, 0), "no tariff");
    check(milecopper_settle(tariff, tariff_len, NULL, 0, trip, trip_len, statement, all) ==
              refused(MILECOPPER_BOOK_UNSOUND, 0), "no book");
    check(milecopper_settle(tariff, tariff_len, book, MILECOPPER_BOOK_BYTES, NULL, 0, statement, all) ==
              refused(MILECOPPER_TRIP_MISSHAPEN, 0), "no trip");
    check(milecopper_settle(tariff, tariff_len, book, MILECOPPER_BOOK_BYTES, trip, trip_len, NULL, 0) ==
              refused(MILECOPPER_NO_ROOM, 0), "no statement");
    check(milecopper_settle(NULL, 0, NULL, 0, NULL, 0, NULL, 0) == refused(MILECOPPER_TARIFF_MISSHAPEN, 0), "nothing");
    check(milecopper_quote(NULL, 0, book, MILECOPPER_BOOK_BYTES, trip, trip_len, statement, all) ==
              refused(MILECOPPER_TARIFF_MISSHAPEN, 0), "no tariff to quote by");
    check(milecopper_quote(tariff, tariff_len, NULL, 0, trip, trip_len, statement, all) ==
              refused(MILECOPPER_BOOK_UNSOUND, 0), "no book to quote on");
    check(milecopper_quote(tariff, tariff_len, book, MILECOPPER_BOOK_BYTES, NULL, 0, statement, all) ==
              refused(MILECOPPER_TRIP_MISSHAPEN, 0), "no trip to quote");
    check(milecopper_quote(tariff, tariff_len, book, MILECOPPER_BOOK_BYTES, trip, trip_len, NULL, 0) ==
              refused(MILECOPPER_NO_ROOM, 0), "no room for a quote");
    check(milecopper_post(NULL, 0, book, MILECOPPER_BOOK_BYTES, trip, trip_len, statement, all) ==
              refused(MILECOPPER_TARIFF_MISSHAPEN, 0), "no tariff to post by");
    check(milecopper_post(tariff, tariff_len, NULL, 0, trip, trip_len, statement, all) ==
              refused(MILECOPPER_BOOK_UNSOUND, 0), "no book to post in");
    check(milecopper_post(tariff, tariff_len, book, MILECOPPER_BOOK_BYTES, NULL, 0, statement, all) ==
              refused(MILECOPPER_TRIP_MISSHAPEN, 0), "no trip to post");
    check(milecopper_post(tariff, tariff_len, book, MILECOPPER_BOOK_BYTES, trip, trip_len, NULL, 0) ==
              refused(MILECOPPER_OTHER_RECORD, 0), "no record to post");
    check(milecopper_accepted(milecopper_settle(tariff, tariff_len, book, MILECOPPER_BOOK_BYTES, trip, trip_len,
                                                statement, all)), "everything");
}

/* A tariff checked alone. */
static void tariffs(const uint8_t *tariff, size_t length)
{
    uint8_t *other = guarded(length);
    check(milecopper_check_tariff(tariff, length) == length, "a faultless tariff");
    check(milecopper_check_tariff(tariff, length - 1) == refused(MILECOPPER_TARIFF_BROKEN, (uint32_t)length - 13),
          "a tariff without its last byte");
    memcpy(other, tariff, length);
    other[MILECOPPER_EDITION_BYTES + MILECOPPER_AREA_BYTES + MILECOPPER_AREA_LEVEL_AT] = MILECOPPER_STATE;
    check(milecopper_check_tariff(other, length) ==
              refused(MILECOPPER_TARIFF_VALUE, MILECOPPER_EDITION_BYTES + MILECOPPER_AREA_BYTES), "two states");
    check(milecopper_check_tariff(tariff + MILECOPPER_EDITION_BYTES, length - MILECOPPER_EDITION_BYTES) ==
              refused(MILECOPPER_TARIFF_MISSHAPEN, 0), "a tariff that no edition opens");
}

/* Everything that the header reads of a record, on any bytes and for any number of a charge. */
static void looked_at(const uint8_t *record)
{
    static const unsigned numbers[] = {0, 1, 20, 21, 30, 31, 255, 256, 65535, 2147483647u, 4294967295u};
    size_t i;
    check(milecopper_record_persons(record) >= 1 && milecopper_record_persons(record) <= MILECOPPER_MOST_PERSONS,
          "the persons of any bytes");
    check(milecopper_record_charges(record) <= MILECOPPER_MOST_CHARGES, "the charges of any bytes");
    check(milecopper_record_bytes(record) >= MILECOPPER_SMALLEST_RECORD_BYTES &&
              milecopper_record_bytes(record) <= MILECOPPER_LARGEST_RECORD_BYTES, "the length of any bytes");
    (void)milecopper_record_opening(record);
    (void)milecopper_record_area(record);
    (void)milecopper_record_km(record);
    (void)milecopper_record_minutes(record);
    (void)milecopper_record_total(record);
    for (i = 0; i < sizeof numbers / sizeof numbers[0]; i += 1) {
        unsigned number = numbers[i];
        if (number >= milecopper_record_charges(record))
            check(milecopper_record_charge(record, number) == 0, "a charge that is not there");
        if (number >= milecopper_record_persons(record)) {
            check(milecopper_record_reduction(record, number) == 0, "a reduction that is not there");
            check(milecopper_record_cap_area(record, number) == MILECOPPER_NO_CAP_AREA, "the area of no cap");
            check(milecopper_record_cap_class(record, number) == MILECOPPER_NO_CAP, "the class of no cap");
        }
        (void)milecopper_record_charge(record, number);
        (void)milecopper_record_reduction(record, number);
        (void)milecopper_record_cap_area(record, number);
        (void)milecopper_cap_text(milecopper_record_cap_class(record, number));
    }
}

/* Bytes that are no record: zeros, ones, and many others. */
static void any_bytes(void)
{
    uint8_t *record = guarded(MILECOPPER_LARGEST_RECORD_BYTES);
    uint8_t *statement = guarded(MILECOPPER_LARGEST_STATEMENT_BYTES);
    uint32_t seed = 1;
    int round;
    size_t i;
    memset(record, 0, MILECOPPER_LARGEST_RECORD_BYTES);
    looked_at(record);
    check(milecopper_record_total(record) == 0, "the sum of zeros");
    check(!milecopper_is_record(record, MILECOPPER_LARGEST_RECORD_BYTES), "zeros are no record");
    check(milecopper_statement_total(statement, MILECOPPER_LARGEST_STATEMENT_BYTES) == 0, "the sum of a blank statement");
    memset(record, 0xFF, MILECOPPER_LARGEST_RECORD_BYTES);
    looked_at(record);
    check(!milecopper_is_record(record, MILECOPPER_LARGEST_RECORD_BYTES), "ones are no record");
    for (round = 0; round < 2000; round += 1) {
        for (i = 0; i < MILECOPPER_LARGEST_STATEMENT_BYTES; i += 1) {
            seed = seed * 1664525u + 1013904223u;
            statement[i] = (uint8_t)(seed >> 24);
        }
        memcpy(record, statement, MILECOPPER_LARGEST_RECORD_BYTES);
        looked_at(record);
        (void)milecopper_statement_total(statement, MILECOPPER_LARGEST_STATEMENT_BYTES);
        (void)milecopper_statement_total(statement, seed);
        for (i = 0; i <= MILECOPPER_SMALLEST_RECORD_BYTES; i += 1)
            (void)milecopper_is_record(record + MILECOPPER_LARGEST_RECORD_BYTES - i, i);
    }
}

/* What settling writes is a record, whole and not cut short. */
static void written(const uint8_t *tariff, size_t tariff_len, const uint8_t *trip, size_t trip_len)
{
    uint8_t book[MILECOPPER_BOOK_BYTES] = {0};
    uint8_t statement[MILECOPPER_LARGEST_STATEMENT_BYTES];
    size_t length = milecopper_bytes_written(
        milecopper_settle(tariff, tariff_len, book, sizeof book, trip, trip_len, statement, sizeof statement));
    check(length == milecopper_record_bytes(statement), "one record");
    check(milecopper_is_record(statement, sizeof statement) && milecopper_is_record(statement, length), "it is a record");
    check(!milecopper_is_record(statement, length - 1), "a record cut short");
    statement[MILECOPPER_KIND_AT] = 4;
    check(!milecopper_is_record(statement, length), "a record of another kind");
    statement[MILECOPPER_KIND_AT] = MILECOPPER_CHARGE_KIND;
    statement[MILECOPPER_CHARGE_BICYCLES_AT] = 0;
    check(!milecopper_is_record(statement, length), "a record with a bicycle less");
}

/* What settling writes is read back field by field; and what comes of other offsets, other bytes and fields that are too short. */
static void read_back(const uint8_t *tariff, size_t tariff_len, const uint8_t *trip, size_t trip_len)
{
    uint8_t book[MILECOPPER_BOOK_BYTES] = {0};
    uint8_t statement[MILECOPPER_LARGEST_STATEMENT_BYTES];
    size_t length = milecopper_bytes_written(
        milecopper_settle(tariff, tariff_len, book, sizeof book, trip, trip_len, statement, sizeof statement));
    uint8_t *record = guarded(length);
    size_t told = MILECOPPER_FIELDS_CHARGES_AT + MILECOPPER_FIELDS_EACH_BYTES * (size_t)milecopper_record_charges(statement);
    uint8_t *fields = guarded(told);
    unsigned i;
    memcpy(record, statement, length);
    check(milecopper_read(record, length, 0, fields, told - 1) == refused(MILECOPPER_NO_ROOM, 0), "fields a byte too short");
    check(milecopper_read(record, length, 0, NULL, 0) == refused(MILECOPPER_NO_ROOM, 0), "no fields");
    check(fields[0] == 0, "a refused reading writes nothing");
    check(milecopper_record_read(milecopper_read(record, length, 0, fields, told)) == length, "a record read back");
    check(milecopper_fields_kind(fields) == MILECOPPER_CHARGE_KIND, "its kind");
    check(milecopper_fields_opening(fields) == milecopper_record_opening(record), "its opening");
    check(milecopper_fields_area(fields) == milecopper_record_area(record), "its area");
    check(milecopper_fields_km(fields) == milecopper_record_km(record), "its kilometres");
    check(milecopper_fields_minutes(fields) == milecopper_record_minutes(record), "its minutes");
    check(milecopper_fields_adults(fields) == milecopper_record_adults(record), "its adults");
    check(milecopper_fields_children(fields) == milecopper_record_children(record), "its children");
    check(milecopper_fields_bicycles(fields) == milecopper_record_bicycles(record), "its bicycles");
    check(milecopper_fields_charges(fields) == milecopper_record_charges(record), "its charges");
    check(milecopper_fields_total(fields) == milecopper_record_total(record), "its sum");
    for (i = 0; i <= milecopper_record_charges(record); i += 1) { /* the last is not there */
        check(milecopper_fields_charge(fields, i) == milecopper_record_charge(record, i), "each charge");
        check(milecopper_fields_reduction(fields, i) == milecopper_record_reduction(record, i), "each reduction");
        check(milecopper_fields_cap_area(fields, i) == milecopper_record_cap_area(record, i), "each cap's area");
        check(milecopper_fields_cap_class(fields, i) == milecopper_record_cap_class(record, i), "each cap's class");
    }
    check(milecopper_read(record, length - 1, 0, fields, told) == refused(MILECOPPER_RECORD_BROKEN, 0), "a record cut short");
    check(milecopper_read(record, length, length, fields, told) == refused(MILECOPPER_RECORD_BROKEN, 0), "nothing is left");
    check(milecopper_read(record, length, (size_t)-1, fields, told) == refused(MILECOPPER_RECORD_BROKEN, 0), "beyond the end");
    check(milecopper_read(NULL, 0, 0, fields, told) == refused(MILECOPPER_RECORD_BROKEN, 0), "no statement");
    check(milecopper_read(NULL, 0, 0, NULL, 0) == refused(MILECOPPER_RECORD_BROKEN, 0), "nothing to read");
    check(milecopper_read(trip, trip_len, 0, fields, told) == refused(MILECOPPER_RECORD_MISSHAPEN, 0), "a trip is no charge record");
    record[MILECOPPER_CHARGE_AREA_AT] = MILECOPPER_MOST_AREAS;
    check(milecopper_read(record, length, 0, NULL, 0) == refused(MILECOPPER_RECORD_VALUE, 0), "an area that there is not");
}

/* A record of kind 4, of two charges. */
static void charges_alone(void)
{
    uint8_t *record = guarded(21);
    uint8_t *fields = guarded(MILECOPPER_FIELDS_CHARGES_AT + 2 * MILECOPPER_FIELDS_EACH_BYTES);
    milecopper_put_number(record + MILECOPPER_LENGTH_AT, 2, 19);
    milecopper_put_number(record + MILECOPPER_KIND_AT, 2, MILECOPPER_CHARGES_ALONE_KIND);
    milecopper_put_number(record + MILECOPPER_CHARGE_OPENING_AT, 4, 14113370);
    milecopper_put_number(record + MILECOPPER_CHARGE_KM_AT, 2, 5);
    milecopper_put_number(record + MILECOPPER_CHARGE_MINUTES_AT, 2, 25);
    milecopper_put_number(record + MILECOPPER_CHARGES_ALONE_AT, 4, 320);
    milecopper_put_number(record + MILECOPPER_CHARGES_ALONE_AT + 4, 4, 160);
    check(milecopper_read(record, 21, 0, fields, 34) == 21, "a record of kind 4");
    check(milecopper_fields_kind(fields) == MILECOPPER_CHARGES_ALONE_KIND && milecopper_fields_charges(fields) == 2, "its two charges");
    check(milecopper_fields_opening(fields) == 14113370 && milecopper_fields_km(fields) == 5, "its opening and its kilometres");
    check(milecopper_fields_minutes(fields) == 25 && milecopper_fields_area(fields) == 0, "its minutes and its area");
    check(milecopper_fields_charge(fields, 0) == 320 && milecopper_fields_charge(fields, 1) == 160, "charges without whose they are");
    check(milecopper_fields_reduction(fields, 1) == 0 && milecopper_fields_cap_area(fields, 1) == MILECOPPER_NO_CAP_AREA,
          "nothing taken off");
    check(milecopper_fields_cap_class(fields, 1) == MILECOPPER_NO_CAP && milecopper_fields_adults(fields) == 0, "no cap and no party");
}

/* Any bytes as fields: nothing behind the largest is read. */
static void any_fields(void)
{
    uint8_t *fields = guarded(MILECOPPER_LARGEST_FIELDS_BYTES);
    memset(fields, 0xFF, MILECOPPER_LARGEST_FIELDS_BYTES);
    check(milecopper_fields_charges(fields) == MILECOPPER_MOST_CHARGES, "the charges of any fields");
    check(milecopper_fields_charge(fields, 30) == 0xFFFFFFFFu && milecopper_fields_charge(fields, 31) == 0, "the last charge");
    (void)milecopper_fields_total(fields);
}

/* Members of two associations on a page: added, settled, closed; what is refused changes nothing, and nobody else's place is
 * touched, the other association's half least of all. */
static void members(const uint8_t *tariff, size_t tariff_len, const uint8_t *trip, size_t trip_len)
{
    uint8_t *page = guarded(MILECOPPER_PAGE_BYTES);
    uint8_t *before = guarded(MILECOPPER_PAGE_BYTES);
    uint8_t book[MILECOPPER_BOOK_BYTES] = {0};
    uint8_t statement[MILECOPPER_LARGEST_STATEMENT_BYTES];
    uint8_t alone[MILECOPPER_LARGEST_STATEMENT_BYTES];
    size_t all = MILECOPPER_PAGE_BYTES;
    uint32_t member;
    uint64_t answer;
    check(milecopper_add(NULL, 0, 0, 1) == refused(MILECOPPER_WRONG_PAGE, 0), "no page to add to");
    check(milecopper_close(NULL, 0, 1, 1) == refused(MILECOPPER_WRONG_PAGE, 0), "no page to close on");
    check(milecopper_close(NULL, 0, 2, 0) == refused(MILECOPPER_WRONG_ASSOCIATION, 0), "no association, and no page either");
    check(milecopper_settle_member(tariff, tariff_len, NULL, 0, 0, 1, trip, trip_len, statement, sizeof statement) ==
              refused(MILECOPPER_WRONG_PAGE, 0), "no page to settle on");
    check(milecopper_settle_member(NULL, 0, NULL, 0, 2, 0, NULL, 0, NULL, 0) == refused(MILECOPPER_TARIFF_MISSHAPEN, 0),
          "nothing to settle a member by");
    for (member = 1; member <= MILECOPPER_PLACES_OF_EACH; member += 1) {
        check(milecopper_add(page, all, 1, member) == MILECOPPER_PLACE_BYTES && milecopper_member_in(page, 5 + member) == member,
              "each member of association 1 in its next place");
        check(milecopper_add(page, all, 0, member) == MILECOPPER_PLACE_BYTES && milecopper_member_in(page, member - 1) == member,
              "and one with the same number of association 0");
    }
    memcpy(before, page, all);
    check(milecopper_add(page, all, 0, 7) == refused(MILECOPPER_NO_PLACE, 0), "a seventh member");
    check(milecopper_add(page, all, 0, 6) == refused(MILECOPPER_WRONG_MEMBER, 0), "a member who is there already");
    check(milecopper_close(page, all, 1, 7) == refused(MILECOPPER_WRONG_MEMBER, 0), "a member who is not there");
    check(milecopper_add(page, all, 2, 7) == refused(MILECOPPER_WRONG_ASSOCIATION, 0), "a third association");
    check(milecopper_add(page, all, 0, 0) == refused(MILECOPPER_WRONG_PAGE, 0), "member 0");
    check(milecopper_close(page, all, 0, MILECOPPER_LARGEST_MEMBER + 1) == refused(MILECOPPER_WRONG_PAGE, 0), "too large a number");
    check(milecopper_add(page, all - 1, 0, 7) == refused(MILECOPPER_WRONG_PAGE, 0), "a page a byte too short");
    check(milecopper_settle_member(tariff, tariff_len, page, all, 1, 5, trip, trip_len, NULL, 0) == refused(MILECOPPER_NO_ROOM, 0),
          "a member without a statement");
    check(memcmp(before, page, all) == 0, "a refusal changes no byte of a page");
    answer = milecopper_settle_member(tariff, tariff_len, page, all, 1, 5, trip, trip_len, statement, sizeof statement);
    check(answer == milecopper_settle(tariff, tariff_len, book, sizeof book, trip, trip_len, alone, sizeof alone) &&
              milecopper_accepted(answer), "a member's trip is answered as on a book of its own");
    check(memcmp(statement, alone, milecopper_bytes_written(answer)) == 0, "its charge records");
    check(memcmp(milecopper_book_in(page, 10), book, sizeof book) == 0, "its book");
    memcpy(milecopper_book_in(before, 10), book, sizeof book);
    check(memcmp(before, page, all) == 0, "and nothing else of the page");
    check(milecopper_close(page, all, 1, 5) == MILECOPPER_PLACE_BYTES, "an account closed");
    memset(before + 10 * MILECOPPER_PLACE_BYTES, 0, MILECOPPER_PLACE_BYTES);
    check(memcmp(before, page, all) == 0, "its place is cleared, and nothing else");
    check(milecopper_add(page, all, 0, 7) == refused(MILECOPPER_NO_PLACE, 0), "a free place of the other association is no room");
    check(milecopper_add(page, all, 1, MILECOPPER_LARGEST_MEMBER) == MILECOPPER_PLACE_BYTES, "the largest number");
    check(milecopper_member_in(page, 10) == MILECOPPER_LARGEST_MEMBER, "in the place that is free");
    milecopper_put_number(page + 11 * MILECOPPER_PLACE_BYTES, 4, 1);
    check(milecopper_close(page, all, 1, 2) == refused(MILECOPPER_WRONG_PAGE, 0), "a number stored twice");
    check(milecopper_close(page, all, 0, 2) == MILECOPPER_PLACE_BYTES, "which is nothing to the other association");
}

/* A trip under a ceiling: first within it, then cut by it, then over it; and what is refused, which changes nothing. */
static void ceilings(const uint8_t *tariff, size_t tariff_len, const uint8_t *trip, size_t trip_len)
{
    uint8_t *kept = guarded(MILECOPPER_KEPT_BYTES);
    uint8_t *due = guarded(MILECOPPER_DUE_BYTES + 1);
    uint8_t *book = guarded(MILECOPPER_BOOK_BYTES);
    uint8_t *statement = guarded(MILECOPPER_LARGEST_STATEMENT_BYTES);
    uint8_t alone[MILECOPPER_BOOK_BYTES] = {0};
    uint8_t records[MILECOPPER_LARGEST_STATEMENT_BYTES];
    uint8_t before[MILECOPPER_KEPT_BYTES];
    size_t pair = MILECOPPER_KEPT_BYTES;
    size_t all = MILECOPPER_LARGEST_STATEMENT_BYTES;
    uint64_t settled = milecopper_settle(tariff, tariff_len, alone, sizeof alone, trip, trip_len, records, sizeof records);
    uint32_t charged = milecopper_statement_total(records, settled);
    uint32_t month;

    check(milecopper_settle_month(0, NULL, 0, NULL, 0, NULL, 0, NULL, 0, NULL, 0, NULL, 0) == refused(MILECOPPER_WRONG_CEILING, 0),
          "nothing is kept");
    check(milecopper_settle_month(MILECOPPER_LARGEST_CEILING + 1, kept, pair, NULL, 0, NULL, 0, NULL, 0, NULL, 0, NULL, 0) ==
              refused(MILECOPPER_WRONG_CEILING, 0), "too high a ceiling");
    check(milecopper_settle_month(0, kept, pair, NULL, 0, NULL, 0, NULL, 0, NULL, 0, NULL, 0) ==
              refused(MILECOPPER_TARIFF_MISSHAPEN, 0), "no tariff under a ceiling");
    check(milecopper_settle_month(0, kept, pair, tariff, tariff_len, book, MILECOPPER_BOOK_BYTES, trip, trip_len, statement, all, NULL,
                                  0) == refused(MILECOPPER_NO_ROOM, 0), "no room for what is due");
    check(milecopper_settle_month(0, kept, pair, tariff, tariff_len, book, MILECOPPER_BOOK_BYTES, trip, trip_len, NULL, 0, due,
                                  MILECOPPER_DUE_BYTES) == refused(MILECOPPER_NO_ROOM, 0), "no statement under a ceiling");
    check(milecopper_kept_month(kept) == 0 && milecopper_kept_amount(kept) == 0 && book[0] == 0 && due[0] == 0,
          "what is refused under a ceiling changes nothing");

    due[MILECOPPER_DUE_BYTES] = 99;
    check(milecopper_settle_month(MILECOPPER_LARGEST_CEILING, kept, pair, tariff, tariff_len, book, MILECOPPER_BOOK_BYTES, trip,
                                  trip_len, statement, all, due, MILECOPPER_DUE_BYTES + 1) == settled,
          "a trip under a ceiling is answered as without it");
    check(memcmp(book, alone, sizeof alone) == 0 && memcmp(statement, records, milecopper_bytes_written(settled)) == 0,
          "its book and its records");
    check(milecopper_number(due, MILECOPPER_DUE_BYTES) == charged && due[MILECOPPER_DUE_BYTES] == 99, "all of it is due");
    month = 12 * (milecopper_number(trip + MILECOPPER_TRIP_CHECK_IN_AT, 2) - 2000) +
            trip[MILECOPPER_TRIP_CHECK_IN_AT + MILECOPPER_STAMP_MONTH_AT] - 1u;
    check(milecopper_kept_month(kept) == month && milecopper_kept_amount(kept) == charged, "its month and its amount");

    /* once more on a fresh book, with 1 cent left, and then under a lower ceiling */
    memset(book, 0, MILECOPPER_BOOK_BYTES);
    check(milecopper_settle_month(charged + 1, kept, pair, tariff, tariff_len, book, MILECOPPER_BOOK_BYTES, trip, trip_len, statement,
                                  all, due, MILECOPPER_DUE_BYTES) == settled, "a trip with 1 cent left");
    check(milecopper_number(due, MILECOPPER_DUE_BYTES) == 1 && milecopper_kept_amount(kept) == charged + 1, "1 cent is due");
    check(memcmp(book, alone, sizeof alone) == 0, "the book counts all of it");
    memset(book, 0, MILECOPPER_BOOK_BYTES);
    check(milecopper_settle_month(1, kept, pair, tariff, tariff_len, book, MILECOPPER_BOOK_BYTES, trip, trip_len, statement, all, due,
                                  MILECOPPER_DUE_BYTES) == settled, "a trip over the ceiling");
    check(milecopper_number(due, MILECOPPER_DUE_BYTES) == 0 && milecopper_kept_amount(kept) == charged + 1, "nothing is due");

    /* what is kept is damaged */
    milecopper_put_number(kept + MILECOPPER_KEPT_AMOUNT_AT, 4, MILECOPPER_LARGEST_CEILING + 1);
    memcpy(before, kept, pair);
    memset(book, 0, MILECOPPER_BOOK_BYTES);
    check(milecopper_settle_month(1, kept, pair, tariff, tariff_len, book, MILECOPPER_BOOK_BYTES, trip, trip_len, statement, all, due,
                                  MILECOPPER_DUE_BYTES) == refused(MILECOPPER_WRONG_CEILING, 0), "too high an amount");
    check(memcmp(before, kept, pair) == 0 && book[0] == 0, "which stays, and the book with it");
}

/* The roll of all trips settled one after another: its statements in `statements`, whose room is enough, and their bytes. */
static size_t settled(const uint8_t *tariff, size_t tariff_len, const uint8_t *roll, size_t roll_len, uint8_t *statements)
{
    uint8_t book[MILECOPPER_BOOK_BYTES] = {0};
    size_t at;
    size_t size;
    size_t written = 0;
    for (at = 0; at < roll_len; at += size) {
        size = MILECOPPER_KIND_AT + milecopper_number(roll + at, 2);
        written += milecopper_bytes_written(milecopper_settle(tariff, tariff_len, book, sizeof book, roll + at, size,
                                                              statements + written, MILECOPPER_LARGEST_STATEMENT_BYTES));
    }
    return written;
}

/* The roll's first trip, of so many bytes, replaced by itself and by nothing; and what is refused, which writes nothing. */
static void corrections(const uint8_t *tariff, size_t tariff_len, const uint8_t *roll, size_t roll_len, const uint8_t *trip, size_t first)
{
    size_t room = MILECOPPER_LARGEST_STATEMENT_BYTES * (roll_len / MILECOPPER_TRIP_STOPS_AT);
    size_t all = MILECOPPER_DIFFERENCES_BYTES;
    uint8_t *own = guarded(room);
    uint8_t *rest = guarded(room);
    uint8_t *statements = guarded(room);
    uint8_t *differences = guarded(all + 1);
    size_t own_bytes = settled(tariff, tariff_len, roll, roll_len, own);
    size_t rest_bytes = settled(tariff, tariff_len, roll + first, roll_len - first, rest);
    unsigned i;

    check(milecopper_correct(NULL, 0, NULL, 0, 1, NULL, 0, NULL, 0, NULL, 0) == refused(MILECOPPER_NO_RECORD, 0), "no roll");
    check(milecopper_correct(NULL, 0, roll, roll_len, 0, NULL, 0, NULL, 0, NULL, 0) == refused(MILECOPPER_NO_RECORD, 0), "record 0");
    check(milecopper_correct(NULL, 0, roll, roll_len, MILECOPPER_MOST_ROLL_RECORDS + 1, NULL, 0, NULL, 0, NULL, 0) ==
              refused(MILECOPPER_NO_RECORD, 0), "too high a number");
    check(milecopper_correct(NULL, 0, roll, first - 1, 1, NULL, 0, NULL, 0, NULL, 0) == refused(MILECOPPER_NO_RECORD, 0),
          "a record that is cut");
    check(milecopper_correct(NULL, 0, roll, roll_len, 1, NULL, 0, NULL, 0, NULL, 0) == refused(MILECOPPER_TARIFF_MISSHAPEN, 0),
          "no tariff to correct by");
    check(milecopper_correct(tariff, tariff_len, roll, roll_len, 1, trip, first, NULL, 0, differences, all) ==
              refused(MILECOPPER_NO_ROOM, 0), "no room for the statements");
    check(milecopper_correct(tariff, tariff_len, roll, roll_len, 1, trip, first, statements, own_bytes - 1, differences, all) ==
              refused(MILECOPPER_NO_ROOM, 0), "a byte too few for the statements");
    check(milecopper_correct(tariff, tariff_len, roll, roll_len, 1, trip, first, statements, room, differences, all - 1) ==
              refused(MILECOPPER_NO_ROOM, 0), "a byte too few for the differences");
    check(statements[0] == 0 && differences[0] == 0, "a refused correction writes nothing");

    memset(differences, 99, all + 1);
    check(milecopper_correct(tariff, tariff_len, roll, roll_len, 1, trip, first, statements, own_bytes, differences, all + 1) ==
              own_bytes, "a record for itself");
    check(memcmp(statements, own, own_bytes) == 0, "the roll's own statements");
    for (i = 0; i < MILECOPPER_PAYERS; i += 1)
        check(milecopper_difference(differences, i) == 0, "no difference");
    check(differences[all] == 99, "a byte behind the differences stays");

    check(milecopper_correct(tariff, tariff_len, roll, roll_len, 1, NULL, 0, statements, room, differences, all) == rest_bytes,
          "a trip that is cancelled");
    check(memcmp(statements, rest, rest_bytes) == 0, "the statements of the others");
    check(milecopper_differences_total(differences) != 0, "which cost something else");
    check(milecopper_correct(tariff, tariff_len, roll, first, 1, NULL, 0, NULL, 0, differences, all) == 0, "the only trip cancelled");
    check(milecopper_differences_total(differences) == -MILECOPPER_AS(int64_t, milecopper_record_total(own)),
          "all of it is given back");
}

/* ---- The writers. */

/* The fields that both kinds of area have. */
static struct milecopper_area area_of(const uint8_t *from)
{
    struct milecopper_area area;
    unsigned i;
    area.level = from[MILECOPPER_AREA_LEVEL_AT];
    area.parent = from[MILECOPPER_AREA_PARENT_AT];
    area.base_price = milecopper_number(from + MILECOPPER_AREA_BASE_PRICE_AT, 2);
    area.price_per_km = milecopper_number(from + MILECOPPER_AREA_PRICE_PER_KM_AT, 2);
    area.validity = milecopper_number(from + MILECOPPER_AREA_VALIDITY_AT, 2);
    area.surcharge = from[MILECOPPER_AREA_SURCHARGE_AT];
    area.reduction = from[MILECOPPER_AREA_REDUCTION_AT];
    area.trip_cap = from[MILECOPPER_AREA_TRIP_CAP_AT];
    for (i = 0; i < MILECOPPER_TRIP_CAP_FIELDS; i += 1)
        area.trip_cap_fields[i] = milecopper_number(from + MILECOPPER_AREA_TRIP_CAP_FIELDS_AT + 2 * i, 2);
    area.day_cap = milecopper_number(from + MILECOPPER_AREA_DAY_CAP_AT, 2);
    area.bicycle_flat = milecopper_number(from + MILECOPPER_AREA_BICYCLE_FLAT_AT, 2);
    return area;
}

static size_t area_again(const uint8_t *from, uint8_t *to, size_t room)
{
    struct milecopper_area area = area_of(from);
    return milecopper_put_area(to, room, &area);
}

static size_t aachen_area_again(const uint8_t *from, uint8_t *to, size_t room)
{
    struct milecopper_aachen_area area;
    unsigned i;
    area.common = area_of(from);
    for (i = 0; i < MILECOPPER_TRIP_CAP_FIELDS; i += 1)
        area.child_tickets[i] = milecopper_number(from + MILECOPPER_AREA_CHILD_TICKETS_AT + 2 * i, 2);
    area.bicycle_price = milecopper_number(from + MILECOPPER_AREA_BICYCLE_PRICE_AT, 2);
    area.town = from[MILECOPPER_AREA_TOWN_AT];
    return milecopper_put_aachen_area(to, room, &area);
}

static struct milecopper_stamp stamp_of(const uint8_t *from)
{
    struct milecopper_stamp stamp;
    stamp.year = milecopper_number(from + MILECOPPER_STAMP_YEAR_AT, 2);
    stamp.month = from[MILECOPPER_STAMP_MONTH_AT];
    stamp.day = from[MILECOPPER_STAMP_DAY_AT];
    stamp.hour = from[MILECOPPER_STAMP_HOUR_AT];
    stamp.minute = from[MILECOPPER_STAMP_MINUTE_AT];
    stamp.offset = from[MILECOPPER_STAMP_OFFSET_AT];
    return stamp;
}

static struct milecopper_trip trip_of(const uint8_t *from, uint16_t *stops)
{
    struct milecopper_trip trip;
    unsigned i;
    trip.check_in = stamp_of(from + MILECOPPER_TRIP_CHECK_IN_AT);
    trip.check_out = stamp_of(from + MILECOPPER_TRIP_CHECK_OUT_AT);
    trip.travel_class = from[MILECOPPER_TRIP_CLASS_AT];
    trip.level = from[MILECOPPER_TRIP_LEVEL_AT];
    trip.adults = from[MILECOPPER_TRIP_ADULTS_AT];
    trip.children = from[MILECOPPER_TRIP_CHILDREN_AT];
    trip.bicycles = from[MILECOPPER_TRIP_BICYCLES_AT];
    trip.stop_count = from[MILECOPPER_TRIP_STOP_COUNT_AT];
    for (i = 0; i < trip.stop_count; i += 1)
        stops[i] = (uint16_t)milecopper_number(from + MILECOPPER_TRIP_STOPS_AT + 2 * i, 2);
    trip.stops = stops;
    return trip;
}

/* The record written again; its length, or 0 where it is of no kind that can be written. */
static size_t record_again(const uint8_t *from, uint8_t *to, size_t room)
{
    uint16_t stops[255];
    struct milecopper_trip trip;
    switch (milecopper_number(from + MILECOPPER_KIND_AT, 2)) {
    case MILECOPPER_EDITION_KIND:
        return milecopper_put_edition(to, room, milecopper_number(from + MILECOPPER_EDITION_YEAR_AT, 2),
                                      from[MILECOPPER_EDITION_MONTH_AT], from[MILECOPPER_EDITION_DAY_AT]);
    case MILECOPPER_AREA_KIND:
        return area_again(from, to, room);
    case MILECOPPER_AACHEN_AREA_KIND:
        return aachen_area_again(from, to, room);
    case MILECOPPER_FACTOR_KIND:
        return milecopper_put_factor(to, room, from[MILECOPPER_FACTOR_FACTOR_AT], from[MILECOPPER_FACTOR_MARK_AT]);
    case MILECOPPER_STOP_KIND:
        return milecopper_put_stop(to, room, from[MILECOPPER_STOP_AREA_AT], milecopper_number(from + MILECOPPER_STOP_X_AT, 4),
                                   milecopper_number(from + MILECOPPER_STOP_Y_AT, 4));
    case MILECOPPER_TRIP_KIND:
        trip = trip_of(from, stops);
        return milecopper_put_trip(to, room, &trip);
    }
    return 0;
}

static void all_again(const uint8_t *from, size_t length)
{
    uint8_t *to = guarded(length);
    size_t at = 0;
    while (at < length) {
        size_t size = record_again(from + at, to + at, length - at);
        check(size > 0 && record_again(from + at, to + at, size) == size, "a record written again, in just enough room");
        check(record_again(from + at, to + at, size - 1) == 0, "a record without room");
        if (size == 0)
            return;
        at += size;
    }
    check(at == length && memcmp(from, to, length) == 0, "records written again are the same");
}

/* An edition of the state alone, with two stops: base price 500, day cap 600. */
#define STATE_ALONE_BYTES (MILECOPPER_EDITION_BYTES + MILECOPPER_AREA_BYTES + MILECOPPER_FACTOR_BYTES + 2 * MILECOPPER_STOP_BYTES)

static size_t state_alone(uint8_t *bytes, unsigned year)
{
    static const struct milecopper_area state = {MILECOPPER_STATE, 0, 500, 0, 360, 0, 0, MILECOPPER_NO_TRIP_CAP,
                                                 {0, 0, 0, 0, 0}, 600, 0};
    size_t length = 0;
    length += milecopper_put_edition(bytes + length, STATE_ALONE_BYTES - length, year, 11, 1);
    length += milecopper_put_area(bytes + length, STATE_ALONE_BYTES - length, &state);
    length += milecopper_put_factor(bytes + length, STATE_ALONE_BYTES - length, 1, 0);
    length += milecopper_put_stop(bytes + length, STATE_ALONE_BYTES - length, 0, 0, 0);
    length += milecopper_put_stop(bytes + length, STATE_ALONE_BYTES - length, 0, 1000, 0);
    return length;
}

/* A second edition, as the header says it, from the day after the first trip: the state alone. Then the first edition is dropped. */
static void editions(const uint8_t *tariff, size_t tariff_len, const uint8_t *trip, size_t trip_len)
{
    uint8_t *both = guarded(tariff_len + STATE_ALONE_BYTES);
    uint8_t *second = both + tariff_len;
    uint8_t book[MILECOPPER_BOOK_BYTES] = {0};
    uint8_t statement[MILECOPPER_LARGEST_STATEMENT_BYTES];
    uint8_t again[MILECOPPER_LARGEST_TRIP_BYTES];
    uint16_t stops[255];
    struct milecopper_trip next = trip_of(trip, stops);
    size_t length = tariff_len + STATE_ALONE_BYTES;
    size_t again_len;
    memcpy(both, tariff, tariff_len);
    check(state_alone(second, 2026) == STATE_ALONE_BYTES && milecopper_check_tariff(both, length) == length, "two editions");
    check(milecopper_settle(second, STATE_ALONE_BYTES, book, sizeof book, trip, trip_len, statement, sizeof statement) ==
              refused(MILECOPPER_NO_EDITION, 0), "a trip before the first edition");

    /* the window goes on under its edition */
    check(milecopper_book_edition(book) == 0, "a fresh book has no edition");
    check(milecopper_accepted(milecopper_settle(both, length, book, sizeof book, trip, trip_len, statement, sizeof statement)),
          "a trip under the first edition");
    check(milecopper_book_edition(book) == 1, "the book's edition");
    next.check_in.month = next.check_out.month = 11;
    next.check_in.day = next.check_out.day = 1;
    next.check_in.hour = next.check_out.hour = 12;
    again_len = milecopper_put_trip(again, sizeof again, &next);
    check(milecopper_accepted(milecopper_settle(both, length, book, sizeof book, again, again_len, statement, sizeof statement)),
          "a trip of that window, the second edition in force");
    check(milecopper_book_edition(book) == 1 && milecopper_record_area(statement) != 0, "the window's edition settles it");

    /* the next one opens under the second */
    next.check_in.day = next.check_out.day = 3;
    again_len = milecopper_put_trip(again, sizeof again, &next);
    check(milecopper_accepted(milecopper_settle(both, length, book, sizeof book, again, again_len, statement, sizeof statement)),
          "a trip under the second edition");
    check(milecopper_book_edition(book) == 2 && milecopper_record_area(statement) == 0, "which settles it");

    /* without the first, the second is 1 */
    check(milecopper_settle(second, STATE_ALONE_BYTES, book, sizeof book, trip, trip_len, statement, sizeof statement) ==
              refused(MILECOPPER_BOOK_UNSOUND, 0), "an edition that is not there");
    milecopper_put_number(book + MILECOPPER_BOOK_EDITION_AT, 4, 1);
    next.check_in = next.check_out;
    next.bicycles = 0;
    again_len = milecopper_put_trip(again, sizeof again, &next);
    check(milecopper_accepted(milecopper_settle(second, STATE_ALONE_BYTES, book, sizeof book, again, again_len, statement,
                                                sizeof statement)),
          "the window goes on under the edition that was the second");
    check(milecopper_record_total(statement) == 100, "with its cap");
}

/* An edition that is changed while a window is open, as the header says it: the state alone, with the stops of the trip's numbers. */
static void another_tariff(const uint8_t *tariff, size_t tariff_len, const uint8_t *trip, size_t trip_len)
{
    uint8_t other[STATE_ALONE_BYTES];
    uint8_t book[MILECOPPER_BOOK_BYTES] = {0};
    uint8_t statement[MILECOPPER_LARGEST_STATEMENT_BYTES];
    uint8_t again[MILECOPPER_LARGEST_TRIP_BYTES];
    uint16_t stops[255];
    struct milecopper_trip next = trip_of(trip, stops);
    size_t length = state_alone(other, 2000);
    size_t again_len;
    uint32_t paid;
    check(milecopper_check_tariff(other, length) == sizeof other, "a tariff by the header's writers");

    /* without a bicycle: what was paid under the first counts for the second's cap of 600 */
    next.bicycles = 0;
    again_len = milecopper_put_trip(again, sizeof again, &next);
    milecopper_settle(tariff, tariff_len, book, sizeof book, again, again_len, statement, sizeof statement);
    paid = milecopper_record_total(statement);
    check(paid > 100 && paid < 600, "the first tariff's price");
    next.check_in = next.check_out;
    again_len = milecopper_put_trip(again, sizeof again, &next);
    check(milecopper_accepted(milecopper_settle(other, length, book, sizeof book, again, again_len, statement, sizeof statement)),
          "a trip under another tariff");
    check(milecopper_record_total(statement) == 600 - paid, "another tariff's cap, and what was paid before");

    /* with one, carried in an area that the second lacks: the book is not sound under it, whenever the next trip is */
    memset(book, 0, sizeof book);
    check(milecopper_accepted(milecopper_settle(tariff, tariff_len, book, sizeof book, trip, trip_len, statement, sizeof statement)),
          "a trip with a bicycle");
    next.check_in.year += 1;
    next.check_out.year += 1;
    again_len = milecopper_put_trip(again, sizeof again, &next);
    check(milecopper_settle(other, length, book, sizeof book, again, again_len, statement, sizeof statement) ==
              refused(MILECOPPER_BOOK_UNSOUND, 0), "a bicycle in an area that is gone");
}

/* Numbers that do not fit: nothing is written. */
static void too_large(const uint8_t *trip)
{
    uint8_t bytes[MILECOPPER_LARGEST_TRIP_BYTES] = {0};
    uint8_t blank[MILECOPPER_LARGEST_TRIP_BYTES] = {0};
    uint16_t stops[255];
    struct milecopper_trip other = trip_of(trip, stops);
    struct milecopper_area area = {0, 0, 0, 0, 0, 0, 0, 0, {0, 0, 0, 0, 65536}, 0, 0};
    struct milecopper_aachen_area aachen = {{0, 0, 0, 0, 0, 0, 0, 0, {0, 0, 0, 0, 0}, 0, 0}, {0, 0, 0, 0, 65536}, 0, 0};
    other.adults = 256;
    check(milecopper_put_trip(bytes, sizeof bytes, &other) == 0, "256 adults");
    other = trip_of(trip, stops);
    other.check_out.year = 65536;
    check(milecopper_put_trip(bytes, sizeof bytes, &other) == 0, "the year 65536");
    other = trip_of(trip, stops);
    other.stop_count = 256;
    check(milecopper_put_trip(bytes, sizeof bytes, &other) == 0, "256 stops");
    check(milecopper_put_area(bytes, sizeof bytes, &area) == 0, "a trip cap of 65536");
    check(milecopper_put_aachen_area(bytes, sizeof bytes, &aachen) == 0, "a child ticket of 65536");
    check(milecopper_put_factor(bytes, sizeof bytes, 256, 0) == 0, "the factor 256");
    check(milecopper_put_edition(bytes, sizeof bytes, 65536, 1, 1) == 0, "an edition of the year 65536");
    check(milecopper_put_stop(bytes, sizeof bytes, 256, 0, 0) == 0, "a stop in area 256");
    check(memcmp(bytes, blank, sizeof bytes) == 0, "what does not fit is not written");
}

int main(int argc, char **argv)
{
    size_t tariff_len;
    size_t roll_len;
    size_t trip_len;
    uint8_t *tariff;
    uint8_t *roll;
    uint8_t *trip;
    if (argc != 3) {
        fprintf(stderr, "usage: calls TARIFF ROLL\n");
        return 2;
    }
    tariff = bytes_of(argv[1], &tariff_len);
    roll = bytes_of(argv[2], &roll_len);
    trip_len = MILECOPPER_KIND_AT + milecopper_number(roll, 2); /* the first of the roll */
    trip = guarded(trip_len);
    memcpy(trip, roll, trip_len);
    nulls(tariff, tariff_len, trip, trip_len);
    tariffs(tariff, tariff_len);
    any_bytes();
    written(tariff, tariff_len, trip, trip_len);
    read_back(tariff, tariff_len, trip, trip_len);
    charges_alone();
    any_fields();
    members(tariff, tariff_len, trip, trip_len);
    ceilings(tariff, tariff_len, trip, trip_len);
    corrections(tariff, tariff_len, roll, roll_len, trip, trip_len);
    all_again(tariff, tariff_len);
    all_again(roll, roll_len);
    editions(tariff, tariff_len, trip, trip_len);
    another_tariff(tariff, tariff_len, trip, trip_len);
    too_large(trip);
    return faults == 0 ? 0 : 1;
}
