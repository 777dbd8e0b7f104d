/* What include/milecopper.h says by itself, without the library: sizes, answers, texts, the fields of a record. */
#include "milecopper.h"

#include <stdio.h>
#include <string.h>

static int faults;

static void check(int well, const char *what)
{
    if (!well) {
        printf("header: %s\n", what);
        faults += 1;
    }
}

static void sizes(void)
{
    check(MILECOPPER_BOOK_BYTES == 4 * (3 + 21 * 32 * 2 + 2 * MILECOPPER_MOST_BICYCLES + 1), "the book");
    check(MILECOPPER_MOST_PERSONS == 1 + MILECOPPER_MOST_ADULTS + MILECOPPER_MOST_CHILDREN, "the persons");
    check(MILECOPPER_MOST_CHARGES == MILECOPPER_MOST_PERSONS + MILECOPPER_MOST_BICYCLES, "the charges");
    check(milecopper_record_bytes_for(0, 0, 0) == MILECOPPER_SMALLEST_RECORD_BYTES, "the smallest record");
    check(milecopper_record_bytes_for(10, 10, 10) == MILECOPPER_LARGEST_RECORD_BYTES, "the largest record");
    check(milecopper_record_bytes_for(1, 2, 3) == 16 + 10 * 4 + 4 * 3, "a record's length by its party");
    check(MILECOPPER_LARGEST_TRIP_BYTES == 4 + 2 * MILECOPPER_STAMP_BYTES + 6 + 2 * MILECOPPER_MOST_STOPS_IN_A_TRIP,
          "the largest trip");
    check(MILECOPPER_LARGEST_STATEMENT_BYTES == MILECOPPER_MOST_PARTS * MILECOPPER_LARGEST_RECORD_BYTES,
          "the largest statement");
    check(MILECOPPER_BOOK_EDITION_AT + 4 == MILECOPPER_BOOK_BYTES, "the book's last word");
    /* The state's record is the shorter one. */
    check(MILECOPPER_LARGEST_TARIFF_BYTES ==
              MILECOPPER_MOST_EDITIONS *
                  (MILECOPPER_EDITION_BYTES + MILECOPPER_AREA_BYTES + MILECOPPER_AACHEN_AREA_BYTES * (MILECOPPER_MOST_AREAS - 1) +
                   MILECOPPER_FACTOR_BYTES * MILECOPPER_MOST_AREAS + MILECOPPER_STOP_BYTES * MILECOPPER_MOST_STOPS),
          "the largest tariff");
    check(MILECOPPER_DECIDING_TARIFF_BYTES == MILECOPPER_LARGEST_TARIFF_BYTES + 2 + 1024, "the bytes that decide");
    check(MILECOPPER_FIELDS_CHARGES_AT + MILECOPPER_FIELDS_EACH_BYTES == MILECOPPER_SMALLEST_FIELDS_BYTES &&
              MILECOPPER_FIELDS_CHARGES_AT + MILECOPPER_FIELDS_EACH_BYTES * MILECOPPER_MOST_CHARGES ==
                  MILECOPPER_LARGEST_FIELDS_BYTES, "the fields of the smallest and of the largest record");
    check(MILECOPPER_TRIP_STOPS_AT + 2 * MILECOPPER_MOST_STOPS_IN_A_TRIP == MILECOPPER_LARGEST_TRIP_BYTES, "a trip's stops");
    check(MILECOPPER_PLACE_BYTES == MILECOPPER_PLACE_BOOK_AT + MILECOPPER_BOOK_BYTES, "a place");
    check(MILECOPPER_PAGE_BYTES == MILECOPPER_PLACES * MILECOPPER_PLACE_BYTES, "a page");
    check(MILECOPPER_PLACES == MILECOPPER_ASSOCIATIONS * MILECOPPER_PLACES_OF_EACH, "the associations' places");
    check(MILECOPPER_TRIP_CHECK_IN_AT + MILECOPPER_STAMP_BYTES == MILECOPPER_TRIP_CHECK_OUT_AT, "a trip's stamps");
    check(MILECOPPER_KEPT_MONTH_AT + 4 == MILECOPPER_KEPT_AMOUNT_AT && MILECOPPER_KEPT_AMOUNT_AT + 4 == MILECOPPER_KEPT_BYTES,
          "what is kept under a ceiling");
    check(MILECOPPER_PAYERS == MILECOPPER_MOST_CHARGES &&
              MILECOPPER_DIFFERENCES_BYTES == MILECOPPER_DIFFERENCE_BYTES * MILECOPPER_PAYERS, "the differences");
    check(MILECOPPER_HOLDER_DIFFERENCE_AT + MILECOPPER_DIFFERENCE_BYTES == MILECOPPER_ADULTS_DIFFERENCES_AT &&
              MILECOPPER_ADULTS_DIFFERENCES_AT + MILECOPPER_DIFFERENCE_BYTES * MILECOPPER_MOST_ADULTS ==
                  MILECOPPER_CHILDREN_DIFFERENCES_AT &&
              MILECOPPER_CHILDREN_DIFFERENCES_AT + MILECOPPER_DIFFERENCE_BYTES * MILECOPPER_MOST_CHILDREN ==
                  MILECOPPER_BICYCLES_DIFFERENCES_AT &&
              MILECOPPER_BICYCLES_DIFFERENCES_AT + MILECOPPER_DIFFERENCE_BYTES * MILECOPPER_MOST_BICYCLES ==
                  MILECOPPER_DIFFERENCES_BYTES, "where the payers' differences stand");
}

/* Only the types are looked at; nothing is called. */
static void only_read(void)
{
    const uint8_t *read = NULL;
    uint8_t *written = NULL;
    check(sizeof(milecopper_quote(read, 0, read, 0, read, 0, written, 0)) == 8, "a quote's book is only read");
    check(sizeof(milecopper_post(read, 0, written, 0, read, 0, read, 0)) == 8, "a posting's record is only read");
    check(sizeof(milecopper_read(read, 0, 0, written, 0)) == 8, "a reading's statement is only read");
    check(sizeof(milecopper_settle_member(read, 0, written, 0, 1, 1, read, 0, written, 0)) == 8, "a member's trip is only read");
    check(sizeof(milecopper_settle_month(1, written, 0, read, 0, written, 0, read, 0, written, 0, written, 0)) == 8,
          "under a ceiling the tariff and the trip are only read");
    check(sizeof(milecopper_correct(read, 0, read, 0, 1, read, 0, written, 0, written, 0)) == 8,
          "a correction's tariff, roll and replacement are only read");
    check(sizeof(milecopper_add(written, 0, 1, 1)) == 8 && sizeof(milecopper_close(written, 0, 1, 1)) == 8, "a page is written");
}

static void answers(void)
{
    uint64_t accepted = 26;
    uint64_t refused = ((uint64_t)3 << 32) + 29;
    check(milecopper_accepted(accepted) && milecopper_bytes_written(accepted) == 26, "an accepted trip");
    check(milecopper_refusal_of(accepted) == MILECOPPER_NOT_REFUSED && milecopper_place(accepted) == 0, "no refusal");
    check(!milecopper_accepted(refused) && milecopper_bytes_written(refused) == 0, "a refused trip");
    check(milecopper_refusal_of(refused) == MILECOPPER_TARIFF_VALUE && milecopper_place(refused) == 29, "its refusal");
    check(milecopper_refusal_of((uint64_t)12 << 32) == MILECOPPER_NO_ROOM, "the last refusal of settling and of a quote");
    check(milecopper_refusal_of((uint64_t)13 << 32) == MILECOPPER_OTHER_RECORD, "the last refusal of a posting");
    check(milecopper_refusal_of((uint64_t)17 << 32) == MILECOPPER_MISTAP, "a mistap");
    check(milecopper_refusal_of((uint64_t)22 << 32) == MILECOPPER_NO_EDITION, "no edition yet");
    check(milecopper_refusal_of((uint64_t)16 << 32) == MILECOPPER_RECORD_VALUE, "the last refusal of a record that is read");
    check(milecopper_record_read(accepted) == 26 && milecopper_record_read(refused) == 0, "a record that was read");
    check(milecopper_refusal_of((uint64_t)18 << 32) == MILECOPPER_WRONG_PAGE, "a page that is wrong");
    check(milecopper_refusal_of((uint64_t)19 << 32) == MILECOPPER_WRONG_MEMBER, "a member who is not there, or is already");
    check(milecopper_refusal_of((uint64_t)20 << 32) == MILECOPPER_NO_PLACE, "no free place");
    check(milecopper_refusal_of((uint64_t)21 << 32) == MILECOPPER_WRONG_ASSOCIATION, "no such association");
    check(milecopper_refusal_of((uint64_t)24 << 32) == MILECOPPER_WRONG_CEILING, "a ceiling that is wrong");
    check(milecopper_refusal_of((uint64_t)23 << 32) == MILECOPPER_NO_RECORD, "no record to correct");
    check(milecopper_accepted(0) && milecopper_bytes_written(0) == 0, "a corrected roll without a statement");
    check(milecopper_bytes_written(34864620) == 34864620, "the largest statements of a roll");
    check(milecopper_bytes_written(MILECOPPER_PLACE_BYTES) == MILECOPPER_PLACE_BYTES, "a member who was added");
    check(milecopper_bytes_written(MILECOPPER_BOOK_BYTES) == MILECOPPER_BOOK_BYTES, "a posted trip");
}

static void texts(void)
{
    int one;
    int other;
    for (one = 0; one <= 24; one += 1)
        for (other = 0; other < one; other += 1)
            check(strcmp(milecopper_refusal_text((enum milecopper_refusal)one),
                         milecopper_refusal_text((enum milecopper_refusal)other)) != 0, "two refusals with one text");
    for (one = 0; one <= 3; one += 1)
        for (other = 0; other < one; other += 1)
            check(strcmp(milecopper_cap_text((unsigned)one), milecopper_cap_text((unsigned)other)) != 0,
                  "two caps with one text");
}

static void records(void)
{
    /* Length 56, kind 6; opening 0x01020304, area 5, 0x0607 km, 0x0809 minutes; an adult, a child, 3 bicycles. The holder
     * is charged 258, and nothing was taken off; the adult 70,000, 65,537 less by area 31's second-class cap; the child 3,
     * 1 less by the state's all-classes cap; the bicycles 400, 0 and 9. */
    static const uint8_t record[] = {56, 0, 6, 0, 4, 3, 2, 1, 5, 7, 6, 9, 8, 1, 1, 3,
                                     2, 1, 0, 0, 0, 0, 0, 0, 255, 0,
                                     0x70, 0x11, 1, 0, 1, 0, 1, 0, 31, 2,
                                     3, 0, 0, 0, 1, 0, 0, 0, 0, 1,
                                     0x90, 1, 0, 0, 0, 0, 0, 0, 9, 0, 0, 0};
    static const uint32_t charges[] = {258, 70000, 3, 400, 0, 9};
    static const uint32_t reductions[] = {0, 65537, 1};
    static const unsigned areas[] = {MILECOPPER_NO_CAP_AREA, 31, 0};
    static const unsigned classes[] = {MILECOPPER_NO_CAP, MILECOPPER_SECOND_CLASS_CAP, MILECOPPER_ALL_CLASSES_CAP};
    unsigned i;
    check(milecopper_record_bytes(record) == sizeof record, "a record's length");
    check(milecopper_record_opening(record) == 0x01020304, "a record's opening");
    check(milecopper_record_area(record) == 5, "a record's area");
    check(milecopper_record_km(record) == 0x0607, "a record's kilometres");
    check(milecopper_record_minutes(record) == 0x0809, "a record's minutes");
    check(milecopper_record_adults(record) == 1 && milecopper_record_children(record) == 1, "those carried");
    check(milecopper_record_bicycles(record) == 3, "the bicycles");
    check(milecopper_record_persons(record) == 3 && milecopper_record_charges(record) == 6, "the number of charges");
    check(milecopper_record_bytes_for(1, 1, 3) == sizeof record, "the length for its party");
    for (i = 0; i < milecopper_record_charges(record); i += 1)
        check(milecopper_record_charge(record, i) == charges[i], "a charge");
    for (i = 0; i < milecopper_record_persons(record); i += 1) {
        check(milecopper_record_reduction(record, i) == reductions[i], "a reduction");
        check(milecopper_record_cap_area(record, i) == areas[i], "a cap's area");
        check(milecopper_record_cap_class(record, i) == classes[i], "a cap's class");
    }
    check(milecopper_record_total(record) == 70670, "the sum of the charges");
    check(milecopper_statement_total(record, sizeof record) == 70670, "the sum of a statement with one record");
    check(milecopper_number((const uint8_t *)"\xff\xff\xff\xff", 4) == 0xFFFFFFFFu, "the largest number");
}

/* Numbers and books by their places. */
static void pages(void)
{
    static uint8_t page[MILECOPPER_PAGE_BYTES];
    milecopper_put_number(page + 11 * MILECOPPER_PLACE_BYTES, 4, MILECOPPER_LARGEST_MEMBER);
    check(milecopper_member_in(page, 11) == MILECOPPER_LARGEST_MEMBER, "the member in the last place");
    check(milecopper_member_in(page, 10) == MILECOPPER_FREE_PLACE && milecopper_member_in(page, 12) == MILECOPPER_FREE_PLACE,
          "no member");
    check(milecopper_book_in(page, 0) == page + 4 && milecopper_book_in(page, 12) == NULL, "books and no book");
    check(milecopper_book_in(page, 11) + MILECOPPER_BOOK_BYTES == page + MILECOPPER_PAGE_BYTES, "the last book ends the page");
}

/* The last word, which is a number as any other. */
static void books(void)
{
    static uint8_t book[MILECOPPER_BOOK_BYTES];
    check(milecopper_book_edition(book) == 0, "the edition of a fresh book");
    book[MILECOPPER_BOOK_BYTES - 4] = 2;
    check(milecopper_book_edition(book) == 2, "the edition of a book");
}

/* A month and an amount, whose bytes all differ. */
static void months(void)
{
    static const uint8_t kept[MILECOPPER_KEPT_BYTES] = {65, 1, 2, 3, 64, 66, 15, 4};
    check(milecopper_kept_month(kept) == 0x03020141, "the month that is kept");
    check(milecopper_kept_amount(kept) == 0x040f4240, "the amount that is kept");
}

/* Differences of each payer, above 0 and below it, and at both ends. */
static void differences(void)
{
    static uint8_t told[MILECOPPER_DIFFERENCES_BYTES];
    unsigned i;
    for (i = 0; i < MILECOPPER_PAYERS; i += 1) { /* payer i: -i where it is odd */
        milecopper_put_number(told + 8 * i, 4, i % 2 == 0 ? i : 0u - i);
        milecopper_put_number(told + 8 * i + 4, 4, i % 2 == 0 ? 0 : 0xFFFFFFFFu);
    }
    check(milecopper_holder_difference(told) == 0 && milecopper_difference(told, 0) == 0, "the holder's difference");
    check(milecopper_adult_difference(told, 0) == -1 && milecopper_adult_difference(told, 9) == 10, "adults' differences");
    check(milecopper_child_difference(told, 0) == -11 && milecopper_child_difference(told, 9) == 20, "children's differences");
    check(milecopper_bicycle_difference(told, 0) == -21 && milecopper_bicycle_difference(told, 9) == 30, "bicycles' differences");
    check(milecopper_adult_difference(told, 10) == 0 && milecopper_child_difference(told, 10) == 0 &&
              milecopper_bicycle_difference(told, 10) == 0 && milecopper_difference(told, 31) == 0, "no such payer");
    check(milecopper_differences_total(told) == 15, "the sum of the differences");
    check(milecopper_signed_number((const uint8_t *)"\x00\x00\x00\x00\x01\x00\x00\x00") == 4294967296, "above 32 bits");
    check(milecopper_signed_number((const uint8_t *)"\xff\xff\xff\xff\xff\xff\xff\x7f") == INT64_MAX, "the largest difference");
    check(milecopper_signed_number((const uint8_t *)"\x00\x00\x00\x00\x00\x00\x00\x80") == INT64_MIN, "the least difference");
}

/* Fields as a reading tells them, of a record with an adult and a bicycle. */
static void fields(void)
{
    static const uint8_t told[] = {6, 3, 1, 0, 1, 5, 7, 6, 9, 8, 4, 3, 2, 1,
                                   2, 1, 0, 0, 0, 0, 0, 0, 255, 0,
                                   0x70, 0x11, 1, 0, 1, 0, 1, 0, 31, 2,
                                   0x90, 1, 0, 0, 0, 0, 0, 0, 255, 0};
    static const uint32_t charges[] = {258, 70000, 400, 0};
    static const uint32_t reductions[] = {0, 65537, 0, 0};
    static const unsigned areas[] = {255, 31, 255, 255};
    static const unsigned classes[] = {0, 2, 0, 0};
    unsigned i;
    check(milecopper_fields_kind(told) == MILECOPPER_CHARGE_KIND && milecopper_fields_charges(told) == 3, "kind and charges");
    check(milecopper_fields_adults(told) == 1 && milecopper_fields_children(told) == 0, "the adults and children that are told");
    check(milecopper_fields_bicycles(told) == 1 && milecopper_fields_area(told) == 5, "the bicycles and the area that are told");
    check(milecopper_fields_km(told) == 0x0607 && milecopper_fields_minutes(told) == 0x0809, "the ride that is told");
    check(milecopper_fields_opening(told) == 0x01020304, "the opening that is told");
    for (i = 0; i < 4; i += 1) { /* the last is not there */
        check(milecopper_fields_charge(told, i) == charges[i], "a charge that is told");
        check(milecopper_fields_reduction(told, i) == reductions[i], "a reduction that is told");
        check(milecopper_fields_cap_area(told, i) == areas[i], "a cap's area that is told");
        check(milecopper_fields_cap_class(told, i) == classes[i], "a cap's class that is told");
    }
    check(milecopper_fields_total(told) == 70658, "the sum of the charges that are told");
}

/* Two records behind each other, walked as the header's example does. */
static void two_records(void)
{
    static const uint8_t statement[] = {24, 0, 6, 0, 0, 0, 0, 0, 6, 21, 0, 70, 0, 0, 0, 0, 14, 3, 0, 0, 0, 0, 0, 0, 255, 0,
                                        24, 0, 6, 0, 0, 0, 0, 0, 6, 20, 0, 0, 0, 0, 0, 0, 1, 3, 0, 0, 13, 0, 0, 0, 6, 2};
    uint64_t answer = sizeof statement;
    const uint8_t *end = statement + milecopper_bytes_written(answer);
    const uint8_t *record;
    int seen = 0;
    for (record = statement; record < end; record += milecopper_record_bytes(record)) {
        seen += 1;
        check(milecopper_record_charges(record) == 1, "a record's charges among two");
        check(milecopper_record_minutes(record) == (seen == 1 ? 70u : 0u), "a part's minutes");
        check(milecopper_record_total(record) == (seen == 1 ? 782u : 769u), "a part's sum");
        check(milecopper_record_reduction(record, 0) == (seen == 1 ? 0u : 13u), "a part's reduction");
        check(milecopper_record_cap_area(record, 0) == (seen == 1 ? 255u : 6u), "the area of a part's cap");
    }
    check(seen == MILECOPPER_MOST_PARTS && record == end, "two records");
    check(milecopper_statement_total(statement, answer) == 1551, "the sum of both");
    check(milecopper_statement_total(statement, (uint64_t)12 << 32) == 0, "the sum of a refusal");
}

int main(void)
{
    sizes();
    only_read();
    answers();
    texts();
    records();
    fields();
    books();
    months();
    differences();
    pages();
    two_records();
    return faults == 0 ? 0 : 1;
}
