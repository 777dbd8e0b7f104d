/*
 * milecopper.h: prices one trip, charges it against an account's book and writes its charge records: one, or two where
 * the trip went out and back. milecopper_settle does so at once. An app that shows the price first does it in two steps:
 * milecopper_quote writes the charge records and leaves the book, milecopper_post writes the book. milecopper_read reads charge
 * records that were kept, of this kind and of the kind before it, wherever they come from. An app with several members may keep
 * twelve of their books on one page, six for each of two associations: milecopper_add, milecopper_close and
 * milecopper_settle_member. Where a member pays no more than a ceiling in a month, milecopper_settle_month settles and tells what
 * is still due. Where one trip of a roll has to be corrected, milecopper_correct settles the roll afresh and tells what changes for
 * each payer.
 *
 * For C99 and later and C++11 and later. `host/install PREFIX` in the source's folder builds and installs this file, a
 * static and a shared library and a file for pkg-config below the folder PREFIX. Then:
 *
 *     export PKG_CONFIG_PATH=PREFIX/lib/pkgconfig
 *     cc app.c $(pkg-config --cflags --libs milecopper)
 *
 *     static uint8_t book[MILECOPPER_BOOK_BYTES];            // all zero: a fresh book, one for each account
 *     uint8_t statement[MILECOPPER_LARGEST_STATEMENT_BYTES];
 *     uint64_t answer = milecopper_settle(tariff, tariff_len, book, sizeof book,
 *                                         trip, trip_len, statement, sizeof statement);
 *     const uint8_t *end = statement + milecopper_bytes_written(answer);
 *     const uint8_t *record;
 *     for (record = statement; record < end; record += milecopper_record_bytes(record))
 *         printf("%lu cents\n", (unsigned long)milecopper_record_total(record));
 *     if (!milecopper_accepted(answer))
 *         puts(milecopper_refusal_text(milecopper_refusal_of(answer)));
 *
 * In two steps:
 *
 *     uint64_t quote = milecopper_quote(tariff, tariff_len, book, sizeof book,
 *                                       trip, trip_len, statement, sizeof statement);
 *     if (milecopper_accepted(quote)) {
 *         // show milecopper_statement_total(statement, quote), wait for a yes; then
 *         answer = milecopper_post(tariff, tariff_len, book, sizeof book,
 *                                  trip, trip_len, statement, milecopper_bytes_written(quote));
 *         // MILECOPPER_OTHER_RECORD: the trip has another price by now; begin again with the quote
 *     }
 *
 * A statement that was kept, `kept_len` bytes of charge records one after another, is read record by record:
 *
 *     uint8_t fields[MILECOPPER_LARGEST_FIELDS_BYTES];
 *     size_t at = 0;
 *     while (at < kept_len) {
 *         uint64_t read = milecopper_read(kept, kept_len, at, fields, sizeof fields);
 *         if (!milecopper_accepted(read)) {
 *             puts(milecopper_refusal_text(milecopper_refusal_of(read)));
 *             break;
 *         }
 *         printf("%lu cents\n", (unsigned long)milecopper_fields_total(fields));
 *         at += milecopper_record_read(read);
 *     }
 *
 * Two associations' members on one page, each by a number of the app's choice:
 *
 *     static uint8_t page[MILECOPPER_PAGE_BYTES];            // all zero: a new page, every place is free
 *     answer = milecopper_add(page, sizeof page, 0, 4711);   // a fresh book for member 4711 of association 0
 *     answer = milecopper_add(page, sizeof page, 1, 4711);   // and one for somebody else, 4711 of association 1
 *     answer = milecopper_settle_member(tariff, tariff_len, page, sizeof page, 0, 4711,
 *                                       trip, trip_len, statement, sizeof statement);
 *     answer = milecopper_close(page, sizeof page, 0, 4711); // the book is gone, and the place is free again
 *
 * Under a ceiling of 150 euro in each calendar month:
 *
 *     static uint8_t collected[MILECOPPER_KEPT_BYTES];       // all zero: nothing was collected yet; one beside each book
 *     uint8_t due[MILECOPPER_DUE_BYTES];
 *     answer = milecopper_settle_month(15000, collected, sizeof collected, tariff, tariff_len, book, sizeof book,
 *                                      trip, trip_len, statement, sizeof statement, due, sizeof due);
 *     if (milecopper_accepted(answer))
 *         printf("%lu of %lu cents\n", (unsigned long)milecopper_number(due, MILECOPPER_DUE_BYTES),
 *                (unsigned long)milecopper_statement_total(statement, answer));
 *
 * A roll, `roll_len` bytes of `many` trips one after another, in which the third one gets other bytes:
 *
 *     uint8_t differences[MILECOPPER_DIFFERENCES_BYTES];
 *     size_t room = many * MILECOPPER_LARGEST_STATEMENT_BYTES; // enough for every roll of so many records
 *     uint8_t *statements = malloc(room);
 *     answer = milecopper_correct(tariff, tariff_len, roll, roll_len, 3, trip, trip_len,
 *                                 statements, room, differences, sizeof differences);
 *     if (milecopper_accepted(answer))
 *         printf("the account holder: %lld cents\n", (long long)milecopper_holder_difference(differences));
 *
 * A tariff is a file of one or two editions, each a date and then its areas, factor records and stops, with numbers of its own. An
 * edition is valid from the first minute of its date in UTC. The one in force when a 24-hour window opens settles the whole window:
 * the book keeps its number, 1 or 2, and decides while the window is open, whatever the dates say.
 *
 * All numbers in a tariff, a book, a page, a trip and a charge record are little-endian on every machine, so these bytes can
 * be stored and sent as they are. No slice needs any alignment.
 *
 * A trip is a record of kind MILECOPPER_TRIP_KIND. Its check-in and its check-out are stamps of MILECOPPER_STAMP_BYTES
 * bytes each: a local date of 2000 to 2099 and a clock time (year in 2 bytes, month, day, hour, minute), then the hours
 * that this clock is ahead of UTC, 1 for winter time and 2 for summer time. Durations, windows, the order of trips, the
 * book and the opening minute count UTC. So in the night in October 02:50 summer time to 02:10 winter time is 20 minutes,
 * and so is 01:50 winter time to 03:10 summer time in the night in March. An offset is not compared with the season.
 *
 * Duties of the caller
 *
 *   - Each pointer points to at least as many bytes as the length beside it says. `tariff`, `trip`, `roll` and `replacement` are
 *     only read, and so are a quote's `book`, a posting's `record` and a reading's `statement`. Else `book`, `page`, `statement`,
 *     `fields`, `kept`, `due`, `statements` and `differences` may be written within their lengths, and only there.
 *   - The slices of a call do not overlap, not even in part.
 *   - A pointer beside a length of 0 is ignored. It may be null, as that of an empty std::vector is.
 *   - A tariff has at most MILECOPPER_LARGEST_TARIFF_BYTES bytes, a trip MILECOPPER_LARGEST_TRIP_BYTES, a book exactly
 *     MILECOPPER_BOOK_BYTES and a page MILECOPPER_PAGE_BYTES; other lengths may be offered, and are refused. A statement of
 *     MILECOPPER_LARGEST_STATEMENT_BYTES has room for every trip, and fields of MILECOPPER_LARGEST_FIELDS_BYTES for every
 *     record. What is kept under a ceiling has exactly MILECOPPER_KEPT_BYTES, and MILECOPPER_DUE_BYTES have room for what is
 *     due. For a corrected roll MILECOPPER_LARGEST_STATEMENT_BYTES for each of its records are enough, and
 *     MILECOPPER_DIFFERENCES_BYTES for the differences. Any length that a size_t holds may be given, any offset, any ceiling,
 *     and any number of an association, of a member or of a record.
 *   - A fresh book is MILECOPPER_BOOK_BYTES bytes, all zero. From then on only this library writes into it. Each
 *     account has a book of its own, and the caller keeps it from one trip to the next. An account's trips are
 *     settled or posted in the order in which they were ridden.
 *   - A new page is MILECOPPER_PAGE_BYTES bytes, all zero, and from then on only this library writes into it. Each association
 *     gives its members numbers, 1 to MILECOPPER_LARGEST_MEMBER, whatever the other's are, and keeps one while that member has
 *     an account on the page. Closing a member discards the book, open window included: a member who is added again begins with
 *     a fresh one.
 *   - What is kept under a ceiling belongs to its book: fresh it is MILECOPPER_KEPT_BYTES bytes, all zero, and from then on
 *     only this library writes into it. The caller keeps both from one trip to the next, and settles all trips of the book that
 *     count with milecopper_settle_month.
 *   - During a call no other thread writes any of its slices, and none reads its book or its statement, unless the call
 *     only reads them. Calls on different books may run at the same time, on any threads, and so may quotes on one book and
 *     readings of one statement. They may share one tariff. A page is one slice, so calls on one page do not run at the same
 *     time, whoever the members are and of whichever association.
 *   - Where milecopper_check_tariff is called, at least 512 bytes of stack are free.
 *   - Where milecopper_settle is called, at least 832 bytes of stack are free.
 *   - Where milecopper_quote is called, at least 1,536 bytes of stack are free.
 *   - Where milecopper_post is called, at least 2,048 bytes of stack are free.
 *   - Where milecopper_read is called, at least 512 bytes of stack are free.
 *   - Where milecopper_add is called, at least 256 bytes of stack are free.
 *   - Where milecopper_close is called, at least 256 bytes of stack are free.
 *   - Where milecopper_settle_member is called, at least 1,280 bytes of stack are free.
 *   - Where milecopper_settle_month is called, at least 1,536 bytes of stack are free.
 *   - Where milecopper_correct is called, at least 8,192 bytes of stack are free.
 *
 * What the library does not do
 *
 *   - It allocates nothing and keeps nothing: no memory, no pointer, no state from one call to the next. All
 *     slices belong to the caller before, during and after the call. It reads no clock and no file and prints nothing.
 *   - It sets no errno, raises and handles no signal, takes no lock and never waits, so it may be called in a signal
 *     handler, too. It always comes back: every call ends, and never with exit, abort or longjmp.
 *   - A trip that is refused changes no byte of the book or the statement. One that is accepted replaces the book, but not in a
 *     quote, and writes its charge records one after another at the start of the statement, but not in a posting; the
 *     statement's further bytes stay as they were. The parts of a broken trip are accepted together or refused together. A
 *     record that is refused changes no byte of the fields; of one that is read the fields stand at their start, and the
 *     further bytes stay as they were. Under a ceiling a refusal changes no byte of what is kept and of what is due either; an
 *     accepted trip writes all of the first, and the first MILECOPPER_DUE_BYTES bytes of the second. A correction that is
 *     refused changes no byte of statements and differences; one that is accepted writes both at their starts.
 *   - A call on a page that is refused changes no byte of the page. One that is accepted changes the bytes of that member's
 *     place alone: all of them in adding and closing, its book in settling. What stands in other places, in free ones too,
 *     stays as it is.
 *   - It tells an association nothing of the other. For the same call, pages that agree in the association's own places give the
 *     same answer, "no room" included, the same charge records and the same places afterwards, whatever the other association's
 *     places hold. This is about answers: whoever must not read the other's bytes must not be given the page.
 *   - It does not find every damage. A book is refused (4) where its words contradict each other; a wrong sum mostly does not.
 *     A charge record is refused (16) where a number is none that settling writes; one with another charge in it mostly has
 *     none such. A page is refused (18) by its length and the numbers in the association's places; of its books only the one
 *     that is settled on is looked at. What is kept under a ceiling is refused (24) by its length and by an amount above the
 *     most; any month may stand in it. Keep a checksum of your own beside a book, a page or a statement that is stored or sent.
 *
 * Another tariff
 *
 *   Prices, areas and stops that change on a day come as a second edition in the same tariff, with that day's date: put
 *   milecopper_put_edition and the new areas, factor records and stops behind the old ones before the day comes. Windows that are
 *   open go on under the first edition, the next ones open under the second, and every number may mean something else in it. The
 *   app reads the numbers of areas in charge records, and gives those of stops, by the edition of the trip's window: where the trip
 *   belongs to the open window that of the book (milecopper_book_edition), else the one in force at its check-in.
 *
 *   A tariff has two editions at most. To drop the first one, once no book has a window open under it, take its bytes out of the
 *   tariff. Then go through all books once, by the last word, at MILECOPPER_BOOK_EDITION_AT, that each has by then: a book in which
 *   it is 1 becomes fresh, all zero, since its window was of the edition that is gone; where it is 2, it becomes 1, and the book is
 *   else left alone. Now there is room for the next edition. Nowhere else does the caller write into a book.
 *
 *   A book knows areas by their numbers and its edition's number, and no tariff. Where an edition itself is changed while a
 *   window is open under it, the trips from then on have the new prices, and its caps are compared with what was charged before
 *   in the area of the same number. A bicycle that was carried in an area which the book's edition lacks now makes the book
 *   unsound (4), also for a trip that would open the next window. What is promised of caps is promised under one tariff: leave
 *   an edition as it is.
 *
 * Storing book and statement, so that a power cut loses neither
 *
 *   The book and the charge records belong together; keep both in one file of the account, with the number of the trip that
 *   they are of, and replace it as a whole:
 *
 *   1. Read the file ACCOUNT, and settle the next trip on its book in memory, or quote and post it. Refused: there is
 *      nothing to store; tell why, and take the trip off your list.
 *   2. Write trip number, new book and charge records to a file beside it, ACCOUNT.new; fsync it, and close it.
 *   3. Rename ACCOUNT.new to ACCOUNT, which replaces it at once or not at all; fsync the folder.
 *   4. Now tell what was charged, put the records into whatever else keeps them, and only then take the trip off your
 *      list.
 *
 *   After a power cut ACCOUNT is the old file or the new one. Where its number is below that of the first trip on the
 *   list, begin at 1: from the same bytes come the same bytes. Where it is that number, go on at 4. Where members share a page,
 *   the page is kept so in the place of the book, with one list of trips; adding and closing are entries of that list. Under a
 *   ceiling what is kept goes into the same file, and what is due is told at 4.
 */
#ifndef MILECOPPER_H
#define MILECOPPER_H

#include <stddef.h>
#include <stdint.h>

/* The version. The number stands here alone: the library's file names, its pkg-config file, its constant
 * milecopper_version and what the scripts say all come from these lines. */
#define MILECOPPER_VERSION_MAJOR 0
#define MILECOPPER_VERSION_MINOR 18
#define MILECOPPER_VERSION_PATCH 1
#define MILECOPPER_VERSION_AS_TEXT(major, minor, patch) #major "." #minor "." #patch
#define MILECOPPER_VERSION_AS_WRITTEN(major, minor, patch) MILECOPPER_VERSION_AS_TEXT(major, minor, patch)
#define MILECOPPER_VERSION \
    MILECOPPER_VERSION_AS_WRITTEN(MILECOPPER_VERSION_MAJOR, MILECOPPER_VERSION_MINOR, MILECOPPER_VERSION_PATCH)

/* The stack that has to be free whatever is called: the most of what stands above. */
#define MILECOPPER_MOST_STACK_BYTES 8192

/* The book's length, and where its last word stands, the edition of the open window; 0 in a fresh book. A book of 5,468 bytes, from
 * before editions, is refused with 4: put the word 1 behind it where its first word is not 0, else the word 0. Begin with a fresh
 * one instead of a book of 5,428 bytes, from before areas of kind 8. */
#define MILECOPPER_BOOK_BYTES 5472
#define MILECOPPER_BOOK_EDITION_AT 5468

/* A page of accounts: places one after another, each a member's number in 4 bytes, 1 to MILECOPPER_LARGEST_MEMBER, and then the
 * book. A place with the number MILECOPPER_FREE_PLACE is free, and its other bytes are not looked at. */
#define MILECOPPER_PLACES 12
/* Two associations share it. Association 0 has the first six places, association 1 the others: those of association a begin with
 * place MILECOPPER_PLACES_OF_EACH * a. */
#define MILECOPPER_ASSOCIATIONS 2
#define MILECOPPER_PLACES_OF_EACH 6
#define MILECOPPER_PLACE_BYTES 5476
#define MILECOPPER_PAGE_BYTES 65712
#define MILECOPPER_PLACE_MEMBER_AT 0
#define MILECOPPER_PLACE_BOOK_AT 4
#define MILECOPPER_FREE_PLACE 0
#define MILECOPPER_LARGEST_MEMBER 999999999

/* A monthly ceiling, at most so many cents. What is kept beside a book for it: the month 4 bytes, in months since January 2000, and
 * the amount collected in it 4, at most as many cents. What is due: 4 bytes. */
#define MILECOPPER_LARGEST_CEILING 1000000
#define MILECOPPER_KEPT_BYTES 8
#define MILECOPPER_KEPT_MONTH_AT 0
#define MILECOPPER_KEPT_AMOUNT_AT 4
#define MILECOPPER_DUE_BYTES 4

/* A roll that is corrected has at most so many records. The differences: for each payer 8 bytes, in two's complement; first the account
 * holder, then the adults, the children and the bicycles, ten of each, by their numbers. */
#define MILECOPPER_MOST_ROLL_RECORDS 65535
#define MILECOPPER_PAYERS 31
#define MILECOPPER_DIFFERENCE_BYTES 8
#define MILECOPPER_DIFFERENCES_BYTES 248
#define MILECOPPER_HOLDER_DIFFERENCE_AT 0
#define MILECOPPER_ADULTS_DIFFERENCES_AT 8
#define MILECOPPER_CHILDREN_DIFFERENCES_AT 88
#define MILECOPPER_BICYCLES_DIFFERENCES_AT 168

/* Charge records: the smallest has one person, the largest MILECOPPER_MOST_PERSONS and MILECOPPER_MOST_BICYCLES. Each of
 * them has a charge. */
#define MILECOPPER_SMALLEST_RECORD_BYTES 26
#define MILECOPPER_LARGEST_RECORD_BYTES 266
#define MILECOPPER_MOST_PERSONS 21
#define MILECOPPER_MOST_CHARGES 31

/* Every record has a head: its length in 2 bytes, which counts what comes behind it, and its kind in 2. */
#define MILECOPPER_HEAD_BYTES 4
#define MILECOPPER_LENGTH_AT 0
#define MILECOPPER_KIND_AT 2
#define MILECOPPER_AREA_KIND 1
#define MILECOPPER_STOP_KIND 2
#define MILECOPPER_CHARGES_ALONE_KIND 4
#define MILECOPPER_FACTOR_KIND 5
#define MILECOPPER_CHARGE_KIND 6
#define MILECOPPER_TRIP_KIND 7
#define MILECOPPER_AACHEN_AREA_KIND 8
#define MILECOPPER_EDITION_KIND 9

/* Where the fields of a charge record stand, from its first byte: opening minute 4 bytes, area 1, kilometres 2, minutes
 * 2, those carried 1 each, then for each person ten bytes and for each bicycle four. In a person's: charge and reduction 4
 * each, area and class of the cap 1 each. */
#define MILECOPPER_CHARGE_OPENING_AT 4
#define MILECOPPER_CHARGE_AREA_AT 8
#define MILECOPPER_CHARGE_KM_AT 9
#define MILECOPPER_CHARGE_MINUTES_AT 11
#define MILECOPPER_CHARGE_ADULTS_AT 13
#define MILECOPPER_CHARGE_CHILDREN_AT 14
#define MILECOPPER_CHARGE_BICYCLES_AT 15
#define MILECOPPER_CHARGE_PERSONS_AT 16
#define MILECOPPER_CHARGE_PERSON_BYTES 10
#define MILECOPPER_CHARGE_BICYCLE_BYTES 4
#define MILECOPPER_PERSON_CHARGE_AT 0
#define MILECOPPER_PERSON_REDUCTION_AT 4
#define MILECOPPER_PERSON_CAP_AREA_AT 8
#define MILECOPPER_PERSON_CAP_CLASS_AT 9

/* A charge record of kind 4, from before reductions were told: opening minute, area, kilometres and minutes at the same
 * places, and then the charges, 4 bytes each, without whose they are. */
#define MILECOPPER_CHARGES_ALONE_AT 13

/* What milecopper_read tells of a record of either kind: its kind, the number of its charges, the numbers of adults, children
 * and bicycles, the area 1 byte each, kilometres and minutes 2 each, the opening minute 4, then for each charge ten bytes:
 * charge and reduction 4 each, area and class of the cap 1 each. Kind 4 has 0 adults, children and bicycles, since it does not
 * say whose the charges are. For a bicycle, and in kind 4, reduction, area and class are as where nothing was taken off. */
#define MILECOPPER_FIELDS_KIND_AT 0
#define MILECOPPER_FIELDS_CHARGE_COUNT_AT 1
#define MILECOPPER_FIELDS_ADULTS_AT 2
#define MILECOPPER_FIELDS_CHILDREN_AT 3
#define MILECOPPER_FIELDS_BICYCLES_AT 4
#define MILECOPPER_FIELDS_AREA_AT 5
#define MILECOPPER_FIELDS_KM_AT 6
#define MILECOPPER_FIELDS_MINUTES_AT 8
#define MILECOPPER_FIELDS_OPENING_AT 10
#define MILECOPPER_FIELDS_CHARGES_AT 14
#define MILECOPPER_FIELDS_EACH_BYTES 10
#define MILECOPPER_FIELDS_CHARGE_AT 0
#define MILECOPPER_FIELDS_REDUCTION_AT 4
#define MILECOPPER_FIELDS_CAP_AREA_AT 8
#define MILECOPPER_FIELDS_CAP_CLASS_AT 9
#define MILECOPPER_SMALLEST_FIELDS_BYTES 24
#define MILECOPPER_LARGEST_FIELDS_BYTES 324

/* What a record says of the cap that cut a person's charge: its area, and which of that area's two caps it is. */
#define MILECOPPER_NO_CAP_AREA 255
#define MILECOPPER_NO_CAP 0
#define MILECOPPER_ALL_CLASSES_CAP 1
#define MILECOPPER_SECOND_CLASS_CAP 2

/* A trip is charged in one part or, where it is broken, in two, each with a charge record of its own. */
#define MILECOPPER_MOST_PARTS 2
#define MILECOPPER_LARGEST_STATEMENT_BYTES 532

/* Whom and what an account holder may take along on one trip. */
#define MILECOPPER_MOST_ADULTS 10
#define MILECOPPER_MOST_CHILDREN 10
#define MILECOPPER_MOST_BICYCLES 10

/* A trip record: the length of each of its two stamps and the offsets from UTC that they may have; its stops, and its
 * length with the most stops. */
#define MILECOPPER_STAMP_BYTES 7
#define MILECOPPER_WINTER_OFFSET 1
#define MILECOPPER_SUMMER_OFFSET 2
#define MILECOPPER_FEWEST_STOPS_IN_A_TRIP 2
#define MILECOPPER_MOST_STOPS_IN_A_TRIP 32
#define MILECOPPER_LARGEST_TRIP_BYTES 88

/* Where its fields stand: the stamps, then 1 byte each, then the stops' numbers, 2 bytes each. In a stamp: year 2 bytes,
 * month, day, hour, minute and the hours ahead of UTC 1 each. */
#define MILECOPPER_TRIP_CHECK_IN_AT 4
#define MILECOPPER_TRIP_CHECK_OUT_AT 11
#define MILECOPPER_TRIP_CLASS_AT 18
#define MILECOPPER_TRIP_LEVEL_AT 19
#define MILECOPPER_TRIP_ADULTS_AT 20
#define MILECOPPER_TRIP_CHILDREN_AT 21
#define MILECOPPER_TRIP_BICYCLES_AT 22
#define MILECOPPER_TRIP_STOP_COUNT_AT 23
#define MILECOPPER_TRIP_STOPS_AT 24
#define MILECOPPER_STAMP_YEAR_AT 0
#define MILECOPPER_STAMP_MONTH_AT 2
#define MILECOPPER_STAMP_DAY_AT 3
#define MILECOPPER_STAMP_HOUR_AT 4
#define MILECOPPER_STAMP_MINUTE_AT 5
#define MILECOPPER_STAMP_OFFSET_AT 6

/* A trip's ticket level. */
#define MILECOPPER_NO_LEVEL 0
#define MILECOPPER_LEVEL_K 1
#define MILECOPPER_LEVEL_A 2
#define MILECOPPER_LEVEL_B 3
#define MILECOPPER_LEVEL_C 4
#define MILECOPPER_LEVEL_D 5

/* What a tariff may hold, in each edition areas of both kinds together, and its length with the most of each: a factor record for
 * each area, where none is a city, and every area but the state of kind 8. Of what is longer so many bytes decide which refusal it
 * gets, the largest record behind the largest tariff. */
#define MILECOPPER_MOST_EDITIONS 2
#define MILECOPPER_MOST_AREAS 32
#define MILECOPPER_MOST_STOPS 1000
#define MILECOPPER_LARGEST_TARIFF_BYTES 29062
#define MILECOPPER_DECIDING_TARIFF_BYTES 30088

/* The records of a tariff, and where their fields stand. That which opens an edition: the year 2 bytes, month and day 1 each. An area's: level, parent 1 byte each, base price, price per
 * kilometre, validity 2 each, surcharge and reduction in percent, sort of trip cap 1 each, five fields of the trip cap, day
 * cap, bicycle flat 2 each. A factor record's: 1 each. A stop's: area 1, x and y in metres 4 each. */
#define MILECOPPER_EDITION_BYTES 8
#define MILECOPPER_EDITION_YEAR_AT 4
#define MILECOPPER_EDITION_MONTH_AT 6
#define MILECOPPER_EDITION_DAY_AT 7
#define MILECOPPER_AREA_BYTES 29
#define MILECOPPER_AREA_LEVEL_AT 4
#define MILECOPPER_AREA_PARENT_AT 5
#define MILECOPPER_AREA_BASE_PRICE_AT 6
#define MILECOPPER_AREA_PRICE_PER_KM_AT 8
#define MILECOPPER_AREA_VALIDITY_AT 10
#define MILECOPPER_AREA_SURCHARGE_AT 12
#define MILECOPPER_AREA_REDUCTION_AT 13
#define MILECOPPER_AREA_TRIP_CAP_AT 14
#define MILECOPPER_AREA_TRIP_CAP_FIELDS_AT 15
#define MILECOPPER_AREA_DAY_CAP_AT 25
#define MILECOPPER_AREA_BICYCLE_FLAT_AT 27
/* An area of kind 8 has the same fields at the same places, its bicycle cap in the flat's, and behind them five child tickets
 * and the bicycle's price per trip, 2 bytes each, and the town mark, 1. */
#define MILECOPPER_AACHEN_AREA_BYTES 42
#define MILECOPPER_AREA_CHILD_TICKETS_AT 29
#define MILECOPPER_AREA_BICYCLE_PRICE_AT 39
#define MILECOPPER_AREA_TOWN_AT 41
#define MILECOPPER_FACTOR_BYTES 6
#define MILECOPPER_FACTOR_FACTOR_AT 4
#define MILECOPPER_FACTOR_MARK_AT 5
#define MILECOPPER_STOP_BYTES 13
#define MILECOPPER_STOP_AREA_AT 4
#define MILECOPPER_STOP_X_AT 5
#define MILECOPPER_STOP_Y_AT 9

/* An area's level, the sort of its trip cap with how many fields it has, and the day cap that means none. */
#define MILECOPPER_STATE 0
#define MILECOPPER_REGION 1
#define MILECOPPER_CITY 2
#define MILECOPPER_NO_TRIP_CAP 0
#define MILECOPPER_FLAT_TRIP_CAP 1
#define MILECOPPER_TRIP_CAP_BY_LEVEL 2
#define MILECOPPER_TRIP_CAP_FIELDS 5
#define MILECOPPER_NO_DAY_CAP 65535

/* The town mark of a city of kind 8: what is dropped from the price of rides inside it. */
#define MILECOPPER_NOTHING_DROPPED 0
#define MILECOPPER_BASE_PRICE_DROPPED 1
#define MILECOPPER_PRICE_PER_KM_DROPPED 2

/* The factor of a factor record. */
#define MILECOPPER_SMALLEST_FACTOR 1
#define MILECOPPER_LARGEST_FACTOR 9

/* A window is open for so many minutes, and takes so many trips; a broken one counts as two. No trip may last longer
 * than a window. */
#define MILECOPPER_WINDOW_MINUTES 1440
#define MILECOPPER_MOST_TRIPS_IN_A_WINDOW 256

/* Why a trip, a record or a page was refused. Where several apply, the answer is the first of them in this order. Settling and a
 * quote give 1 to 12, 17 and 22, a posting 1 to 11, 17, 22 and 13, a reading 14 to 16 and then 12; adding gives 21 and 18 to
 * 20, closing 21, 18 and 19, and settling a member 1 to 3, 21, 18, 19, and then what settling gives. Settling under a ceiling
 * gives 24, and then what settling gives. A correction gives 23, 1 to 3 and 12. */
enum milecopper_refusal {
    MILECOPPER_NOT_REFUSED = 0,
    MILECOPPER_WRONG_CEILING = 24,    /* ceiling: it or the amount that is kept is above 1,000,000; or what is kept has
                                       * another length */
    MILECOPPER_NO_RECORD = 23,        /* roll that is corrected: it has no nth record, or that record's frame is broken */
    MILECOPPER_TARIFF_BROKEN = 1,     /* tariff: a record's frame is broken */
    MILECOPPER_TARIFF_MISSHAPEN = 2,  /* tariff: kind, length, order or number of records wrong, or one is missing */
    MILECOPPER_TARIFF_VALUE = 3,      /* tariff: a value outside its range, or an edition not after the one before */
    MILECOPPER_WRONG_ASSOCIATION = 21, /* page: the association is not 0 or 1 */
    MILECOPPER_WRONG_PAGE = 18,       /* page: wrong length; the number asked for, or one stored in the association's places,
                                       * outside its range; or one stored twice there */
    MILECOPPER_WRONG_MEMBER = 19,     /* page: the association has no such member; or it has one already, when adding */
    MILECOPPER_NO_PLACE = 20,         /* page: no place of the association is free */
    MILECOPPER_BOOK_UNSOUND = 4,      /* book: wrong length, or words that cannot stand together */
    MILECOPPER_TRIP_MISSHAPEN = 5,    /* trip: frame, kind or length wrong, or bytes after the record */
    MILECOPPER_TRIP_COUNTS = 6,       /* trip: class, ticket level, party or number of stops out of range; or first class
                                       * in a town that has none, which is tested right after 7 */
    MILECOPPER_NO_SUCH_TIME = 8,      /* trip: a stamp's date, clock time or offset is none, or it is before minute 0 */
    MILECOPPER_TRIP_BACKWARD = 9,     /* trip: check-out before check-in, or over 1,440 minutes after it */
    MILECOPPER_MISTAP = 17,           /* trip: all its stops are one stop, and it lasts under 3 minutes */
    MILECOPPER_BEFORE_LAST_TRIP = 10, /* trip: check-in before the book's last check-out */
    MILECOPPER_NO_EDITION = 22,       /* trip: it opens a window before the tariff's first edition is valid */
    MILECOPPER_UNKNOWN_STOP = 7,      /* trip: a stop number that its edition of the tariff lacks */
    MILECOPPER_WINDOW_FULL = 11,      /* trip: it, or its second part, would be the 257th of its window */
    MILECOPPER_NO_ROOM = 12,          /* statement shorter than the charge records, fields shorter than what is told, or under
                                       * a ceiling fewer than 4 bytes for what is due; of a correction, not all statements
                                       * fit, or fewer than 248 bytes for the differences */
    MILECOPPER_OTHER_RECORD = 13,     /* record: not exactly the bytes that a quote would write now */
    MILECOPPER_RECORD_BROKEN = 14,    /* charge record: its frame is broken, or no byte is left */
    MILECOPPER_RECORD_MISSHAPEN = 15, /* charge record: another kind, or a length that fits no party */
    MILECOPPER_RECORD_VALUE = 16      /* charge record: a field outside its range */
};

#ifdef __cplusplus
extern "C" {
#endif

/* The library's own version: MILECOPPER_VERSION, where this header is of the same version as the library. */
extern const char milecopper_version[];

/*
 * Checks a tariff alone: the whole of it, with its editions, once, before trips are settled under it. Only reads.
 *
 * Faultless: the tariff's length, at most MILECOPPER_LARGEST_TARIFF_BYTES. Else the refusal, 1 to 3, times 2^32, plus
 * the place: what settling under it answers. Settling checks the tariff each time, so nobody has to call this.
 */
uint64_t milecopper_check_tariff(const uint8_t *tariff, size_t tariff_len);

/*
 * Settles one trip. The duties of the caller stand at the top of this file.
 *
 * Accepted: the number of bytes written to the statement, MILECOPPER_SMALLEST_RECORD_BYTES to
 * MILECOPPER_LARGEST_STATEMENT_BYTES: those of one charge record, or of two. Refused: the refusal's number times 2^32,
 * plus the place. The functions below take the answer apart.
 */
uint64_t milecopper_settle(const uint8_t *tariff, size_t tariff_len,
                           uint8_t *book, size_t book_len,
                           const uint8_t *trip, size_t trip_len,
                           uint8_t *statement, size_t statement_len);

/*
 * Quotes one trip: writes the charge records that settling it would write, and leaves the book.
 *
 * Accepted: the number of bytes written to the statement, as by milecopper_settle. A statement of
 * MILECOPPER_LARGEST_STATEMENT_BYTES has room for every trip. Refused: as by milecopper_settle, by 1 to 12, 17 or 22, and the
 * statement stays as it was. A quote answers whatever settling would answer. A trip may be quoted any number of times, and a
 * quote need not be posted.
 */
uint64_t milecopper_quote(const uint8_t *tariff, size_t tariff_len,
                          const uint8_t *book, size_t book_len,
                          const uint8_t *trip, size_t trip_len,
                          uint8_t *statement, size_t statement_len);

/*
 * Posts one trip by its quote: brings the book up to date, as settling it would. `record` is what milecopper_quote wrote
 * for this trip, and `record_len` the number of bytes that it answered: of a broken trip both records, in their order.
 *
 * Accepted: the number of bytes written, which is the book's length, MILECOPPER_BOOK_BYTES. Refused: as by
 * milecopper_settle, by 1 to 11, 17 or 22, as all is checked again; then by 13, MILECOPPER_OTHER_RECORD, where the record is not
 * exactly the bytes that a quote on this book would write now, but has a byte more, a byte less or a byte off, or is one
 * of two records, or the two swapped where they differ. There is no 12, as no statement is written. A refusal leaves the
 * book as it was.
 *
 * Only the bytes count. A quote from before another trip was posted is accepted if this trip still costs the same, is cut
 * by the same caps and lies in the same window. If not, 13 says so: quote again, and show the new price. A quote and at
 * once its posting leave the charge records and the book that milecopper_settle leaves.
 */
uint64_t milecopper_post(const uint8_t *tariff, size_t tariff_len,
                         uint8_t *book, size_t book_len,
                         const uint8_t *trip, size_t trip_len,
                         const uint8_t *record, size_t record_len);

/*
 * Reads the charge record that begins `at` bytes behind the statement's start: one of kind 6, which settling writes, or of
 * kind 4, which it wrote before. The statement is only read, and what comes after the record is ignored.
 *
 * Accepted: the record's length in bytes, so that the next begins at `at` and this. Its fields stand at the start of `fields`;
 * milecopper_fields_charge and the others give them. Refused, times 2^32: by 14, MILECOPPER_RECORD_BROKEN, also where
 * nothing is left or `at` is beyond the end; by 15, MILECOPPER_RECORD_MISSHAPEN; by 16, MILECOPPER_RECORD_VALUE; and then by
 * 12, MILECOPPER_NO_ROOM, where `fields` is shorter than what is told: MILECOPPER_FIELDS_CHARGES_AT bytes and
 * MILECOPPER_FIELDS_EACH_BYTES for each charge. A refusal leaves the fields as they were.
 *
 * What settling or a quote wrote is never refused by 14 to 16, and the fields are those that it was written from. After 15 and
 * 16 the caller may go on after the record, whose length stands in its head; after 14 it cannot.
 */
uint64_t milecopper_read(const uint8_t *statement, size_t statement_len, size_t at,
                         uint8_t *fields, size_t fields_len);

/*
 * Adds a member of an association to a page: the number and a fresh book, all zero, whatever stood there, in the lowest free
 * place of the association's six. The same number in the other association is somebody else.
 *
 * Accepted: the number of bytes written, MILECOPPER_PLACE_BYTES. Refused, times 2^32: by 21, MILECOPPER_WRONG_ASSOCIATION, where
 * `association` is not 0 or 1; by 18, MILECOPPER_WRONG_PAGE, where the page has another length, `member` is 0 or above
 * MILECOPPER_LARGEST_MEMBER, or in the association's places a number is above that, or one but 0 stands twice; by 19,
 * MILECOPPER_WRONG_MEMBER, where the association has the member already, also where no place is free; and then by 20,
 * MILECOPPER_NO_PLACE, which is so exactly where the association's own six places are taken. A refusal leaves the page as it was.
 * What stands in the other association's places does not matter and does not change, here and below.
 */
uint64_t milecopper_add(uint8_t *page, size_t page_len, uint32_t association, uint32_t member);

/*
 * Closes a member's account: the whole place is cleared, number and book, and is free from then on. An open window is discarded
 * with it, and whether the book is sound is not checked.
 *
 * Accepted: the number of bytes written, MILECOPPER_PLACE_BYTES. Refused, times 2^32: by 21 and 18 as milecopper_add is, and by 19
 * where the association has no such member. A refusal leaves the page as it was.
 */
uint64_t milecopper_close(uint8_t *page, size_t page_len, uint32_t association, uint32_t member);

/*
 * Settles one trip of a member on that member's book, where it stands on the page. Answer, charge records and book are what
 * milecopper_settle would give on that book by itself; no other byte of the page changes, and no other member's book is looked at.
 *
 * Accepted: the number of bytes written to the statement, as by milecopper_settle. Refused: by 1 to 3, then by 21 and 18 as
 * milecopper_add is and by 19 where the association has no such member, and then by 4 to 12, 17 and 22, as by
 * milecopper_settle; page and statement stay as they were. A trip is quoted and posted on the book in a place
 * (milecopper_book_in) as on any other.
 */
uint64_t milecopper_settle_member(const uint8_t *tariff, size_t tariff_len,
                                  uint8_t *page, size_t page_len, uint32_t association, uint32_t member,
                                  const uint8_t *trip, size_t trip_len,
                                  uint8_t *statement, size_t statement_len);

/*
 * Settles one trip under a monthly ceiling, in cents. Answer, charge records and book are milecopper_settle's: a ceiling cuts
 * no charge and no record, and the caps of a window count what is charged. What is cut is what is collected: `due` is the sum
 * of all charges of the trip, of both records, with carried persons and bicycles, as far as the ceiling leaves room for it over
 * the amount that was already collected in that month; 0 where the ceiling is reached, or passed since it was lowered.
 *
 * The month is that of the check-in, also of a broken trip, and months are those of UTC: a trip that is checked in on the first
 * of a month at 00:30 winter time belongs to the month before. `kept` is MILECOPPER_KEPT_BYTES bytes, all zero at first: a
 * month, in months since January 2000, and the amount collected in it (milecopper_kept_month, milecopper_kept_amount). Where
 * the trip's month is not the one that is kept, be it an earlier one, the month's amount starts at 0. Afterwards `kept` is the
 * trip's month and its amount with what is due, also where nothing is due.
 *
 * Accepted: the number of bytes written to the statement, as by milecopper_settle; what is due stands in the first
 * MILECOPPER_DUE_BYTES bytes of `due` (milecopper_number), and further ones stay as they were. Refused: first by 24,
 * MILECOPPER_WRONG_CEILING, where the ceiling or the amount in `kept` is above MILECOPPER_LARGEST_CEILING or `kept` has not
 * MILECOPPER_KEPT_BYTES bytes; then as by milecopper_settle, in the same order, and by 12 also where `due` has fewer than
 * MILECOPPER_DUE_BYTES bytes. A refusal changes no byte of `kept`, book, statement and `due`.
 *
 * There is no quote, no posting and no page under a ceiling. What would be due is told by a call on copies of book and `kept`. A
 * member's book on a page is lent where it stands (milecopper_book_in), with what is kept for that member.
 */
uint64_t milecopper_settle_month(uint32_t ceiling, uint8_t *kept, size_t kept_len,
                                 const uint8_t *tariff, size_t tariff_len,
                                 uint8_t *book, size_t book_len,
                                 const uint8_t *trip, size_t trip_len,
                                 uint8_t *statement, size_t statement_len,
                                 uint8_t *due, size_t due_len);

/*
 * Corrects one record of a roll: the roll is settled afresh with `replacement` in the place of its nth record, and compared
 * with the roll as it was.
 *
 * The roll is trip records one after another, of one account, and its first trip is settled on a fresh book. It ends with its
 * last record, with a broken frame, which counts as a record, or after MILECOPPER_MOST_ROLL_RECORDS records; what stands behind
 * that is not looked at. `n` counts from 1. The nth record may be of any kind, and need not be a trip that was accepted.
 *
 * The replacement takes its place as it is, whatever its length. Where it is no whole trip record it is refused there with 5
 * and charges nothing, and the others are settled all the same: so an empty one, of 0 bytes, cancels the trip. Both rolls are
 * settled from fresh books, so a change may move later windows and their charges, too, and a trip may be accepted in one of
 * them and refused in the other, with 10 for instance. No such refusal ends the call, and none is told: it leaves no charge
 * record.
 *
 * Accepted: the bytes of all statements of the corrected roll. They stand at the start of `statements`, one behind another, in
 * the order of the roll, and are read as one statement is (milecopper_record_bytes). It may be 0, where no trip of the
 * corrected roll is accepted. MILECOPPER_LARGEST_STATEMENT_BYTES for each record of the roll are always enough. The first
 * MILECOPPER_DIFFERENCES_BYTES bytes of `differences` become for each payer the sum of all its charges in the corrected roll
 * less that in the roll as it was, in cents: below 0 where less is charged now (milecopper_holder_difference and the others).
 * Who rides in only one of them has the sum 0 in the other. Further bytes of both stay as they were.
 *
 * Refused, in this order: by 23, MILECOPPER_NO_RECORD, where the roll has no nth record, n being 0 or above
 * MILECOPPER_MOST_ROLL_RECORDS or beyond the last one, or where the nth one's frame is broken; by 1 to 3 with the place; by 12
 * where not all statements fit or `differences` has fewer than MILECOPPER_DIFFERENCES_BYTES bytes. A refusal writes nothing.
 *
 * The roll is settled three times: it takes as long as so many calls of milecopper_settle. No byte of the roll is copied or
 * changed. What the account's book is after the corrected roll is not told: settle the roll on a fresh book with
 * milecopper_settle.
 */
uint64_t milecopper_correct(const uint8_t *tariff, size_t tariff_len,
                            const uint8_t *roll, size_t roll_len, uint32_t n,
                            const uint8_t *replacement, size_t replacement_len,
                            uint8_t *statements, size_t statements_len,
                            uint8_t *differences, size_t differences_len);

#ifdef __cplusplus
}
#define MILECOPPER_AS(type, value) static_cast<type>(value)
#else
#define MILECOPPER_AS(type, value) ((type)(value))
#endif

/* ---- The answer ----
 *
 * `answer` is one that milecopper_settle, milecopper_quote, milecopper_post, milecopper_read, milecopper_add, milecopper_close,
 * milecopper_settle_member, milecopper_settle_month, milecopper_correct or milecopper_check_tariff gave.
 */

/* 1 if the trip was accepted, the record read, the member added or closed, or the roll corrected, else 0. */
static inline int milecopper_accepted(uint64_t answer)
{
    return (answer >> 32) == 0;
}

/* The number of bytes written: the length of the charge records at the start of the statement, of a corrected roll of all its
 * statements, by a posting the book's, by adding and closing a place's; 0 if it was refused. */
static inline size_t milecopper_bytes_written(uint64_t answer)
{
    return milecopper_accepted(answer) ? MILECOPPER_AS(size_t, answer) : 0;
}

/* The length of the record that milecopper_read has read: the next one begins so many bytes behind it. 0 if it was refused. */
static inline size_t milecopper_record_read(uint64_t answer)
{
    return milecopper_bytes_written(answer);
}

/* Why the trip, the record, the page, the ceiling or the correction was refused; MILECOPPER_NOT_REFUSED if it was accepted. */
static inline enum milecopper_refusal milecopper_refusal_of(uint64_t answer)
{
    return MILECOPPER_AS(enum milecopper_refusal, answer >> 32);
}

/*
 * For refusals 1 to 3 the offset in the tariff of the faulty record's first byte, or the tariff's length where it ends
 * with a record still due. Else 0.
 */
static inline uint32_t milecopper_place(uint64_t answer)
{
    return milecopper_accepted(answer) ? 0 : MILECOPPER_AS(uint32_t, answer & 0xFFFFFFFFu);
}

/* A sentence that someone at the desk understands. The text is constant and must not be freed. */
static inline const char *milecopper_refusal_text(enum milecopper_refusal refusal)
{
    switch (refusal) {
    case MILECOPPER_NOT_REFUSED:
        return "The trip was accepted.";
    case MILECOPPER_WRONG_CEILING:
        return "The monthly ceiling is above 10,000 euro, or what was kept of the amount collected in the month is damaged.";
    case MILECOPPER_NO_RECORD:
        return "There is no trip with this number in the list that is corrected, or the list is damaged there.";
    case MILECOPPER_TARIFF_BROKEN:
        return "The price file is damaged: one of its records is cut short or has an impossible length.";
    case MILECOPPER_TARIFF_MISSHAPEN:
        return "The price file is put together wrongly: a record is missing, too many, out of order or of the wrong kind.";
    case MILECOPPER_TARIFF_VALUE:
        return "The price file holds a number that is not allowed.";
    case MILECOPPER_WRONG_ASSOCIATION:
        return "There is no such association: it is number 0 or number 1.";
    case MILECOPPER_WRONG_PAGE:
        return "The page of accounts is damaged, or the number asked for is not one of 1 to 999,999,999.";
    case MILECOPPER_WRONG_MEMBER:
        return "There is no account for this member on the page; or there is one already, where it should be opened.";
    case MILECOPPER_NO_PLACE:
        return "All six places of the association are taken. One of its accounts has to be closed first, or another page begun.";
    case MILECOPPER_BOOK_UNSOUND:
        return "The account's book is damaged, or it was kept with a different price file or by an older version.";
    case MILECOPPER_TRIP_MISSHAPEN:
        return "The trip's data are damaged, or they are not a trip.";
    case MILECOPPER_TRIP_COUNTS:
        return "The trip's class, ticket level, number of people or bicycles, or number of stops is not allowed; a town that "
               "drops part of the price has no first class.";
    case MILECOPPER_NO_SUCH_TIME:
        return "The trip has a date or a time of day that does not exist, or one outside the years 2000 to 2099, or a clock "
               "that shows neither winter nor summer time.";
    case MILECOPPER_TRIP_BACKWARD:
        return "The trip ends before it starts, or it lasts longer than 24 hours.";
    case MILECOPPER_MISTAP:
        return "The trip was checked in and straight out again: at one stop, in less than 3 minutes. It costs nothing.";
    case MILECOPPER_BEFORE_LAST_TRIP:
        return "The trip starts before this account's last trip ended.";
    case MILECOPPER_NO_EDITION:
        return "The trip starts before the first day for which the price file has prices.";
    case MILECOPPER_UNKNOWN_STOP:
        return "The trip uses a stop that is not in the price file, or not in the edition under which it is charged.";
    case MILECOPPER_WINDOW_FULL:
        return "With this trip the account would have more than 256 trips within the same 24 hours.";
    case MILECOPPER_NO_ROOM:
        return "There is not enough room to write down what the trip costs.";
    case MILECOPPER_OTHER_RECORD:
        return "The price that was confirmed is not what this trip costs now, or it was damaged. Ask for the price again.";
    case MILECOPPER_RECORD_BROKEN:
        return "The statement is damaged: it is cut short here, or something else than a record begins here.";
    case MILECOPPER_RECORD_MISSHAPEN:
        return "This record of the statement is no charge record, or it is too long or too short for one.";
    case MILECOPPER_RECORD_VALUE:
        return "This charge record of the statement holds a number that no charge record has.";
    }
    return "This is no answer that the library gives.";
}

/* ---- Numbers ---- */

/* The little-endian number of `width` bytes, at most 4, that starts at `bytes`. */
static inline uint32_t milecopper_number(const uint8_t *bytes, size_t width)
{
    uint32_t number = 0;
    while (width > 0) {
        width -= 1;
        number = (number << 8) | bytes[width];
    }
    return number;
}

/* Writes the number to the `width` bytes that start at `bytes`; what does not fit in them is left out. */
static inline void milecopper_put_number(uint8_t *bytes, size_t width, uint32_t number)
{
    size_t i;
    for (i = 0; i < width; i += 1) {
        bytes[i] = MILECOPPER_AS(uint8_t, number & 0xFFu);
        number >>= 8;
    }
}

/* ---- The book ---- */

/* The number of the edition under which the book's window was opened, 1 or 2; 0 in a fresh book. */
static inline uint32_t milecopper_book_edition(const uint8_t *book)
{
    return milecopper_number(book + MILECOPPER_BOOK_EDITION_AT, 4);
}

/* ---- The monthly ceiling ---- */

/* The month that is kept, in months since January 2000: of 2026 those are 312 to 323. */
static inline uint32_t milecopper_kept_month(const uint8_t *kept)
{
    return milecopper_number(kept + MILECOPPER_KEPT_MONTH_AT, 4);
}

/* What was collected in it, in cents. */
static inline uint32_t milecopper_kept_amount(const uint8_t *kept)
{
    return milecopper_number(kept + MILECOPPER_KEPT_AMOUNT_AT, 4);
}

/* ---- The differences of a correction ----
 *
 * `differences` has MILECOPPER_DIFFERENCES_BYTES bytes, as milecopper_correct has written them. Carried persons and bicycles
 * are counted from 0, as in a charge record.
 */

/* The number of 8 bytes, in two's complement, that starts at `bytes`. */
static inline int64_t milecopper_signed_number(const uint8_t *bytes)
{
    uint64_t low = milecopper_number(bytes, 4);
    uint64_t number = low | MILECOPPER_AS(uint64_t, milecopper_number(bytes + 4, 4)) << 32;
    /* below 0 it is -1 less what its complement says, which every int64_t can hold */
    return number >> 63 == 0 ? MILECOPPER_AS(int64_t, number) : -1 - MILECOPPER_AS(int64_t, ~number);
}

/* What payer number i, counted from 0, pays more since the correction, in cents; below 0 where it is less. The account holder is 0,
 * then come ten adults, ten children and ten bicycles. 0 where there is no such payer. */
static inline int64_t milecopper_difference(const uint8_t *differences, unsigned i)
{
    if (i >= MILECOPPER_PAYERS)
        return 0;
    return milecopper_signed_number(differences + MILECOPPER_DIFFERENCE_BYTES * MILECOPPER_AS(size_t, i));
}

/* That of the account holder. */
static inline int64_t milecopper_holder_difference(const uint8_t *differences)
{
    return milecopper_signed_number(differences + MILECOPPER_HOLDER_DIFFERENCE_AT);
}

/* That of adult i, counted from 0; 0 where there is no such, here and below. */
static inline int64_t milecopper_adult_difference(const uint8_t *differences, unsigned i)
{
    if (i >= MILECOPPER_MOST_ADULTS)
        return 0;
    return milecopper_difference(differences + MILECOPPER_ADULTS_DIFFERENCES_AT, i);
}

/* That of child i. */
static inline int64_t milecopper_child_difference(const uint8_t *differences, unsigned i)
{
    if (i >= MILECOPPER_MOST_CHILDREN)
        return 0;
    return milecopper_difference(differences + MILECOPPER_CHILDREN_DIFFERENCES_AT, i);
}

/* That of bicycle i. */
static inline int64_t milecopper_bicycle_difference(const uint8_t *differences, unsigned i)
{
    if (i >= MILECOPPER_MOST_BICYCLES)
        return 0;
    return milecopper_difference(differences + MILECOPPER_BICYCLES_DIFFERENCES_AT, i);
}

/* The sum of all payers' differences: what the account pays more, or less. */
static inline int64_t milecopper_differences_total(const uint8_t *differences)
{
    int64_t total = 0;
    unsigned i;
    for (i = 0; i < MILECOPPER_PAYERS; i += 1)
        total += milecopper_difference(differences, i);
    return total;
}

/* ---- The page ----
 *
 * `page` has MILECOPPER_PAGE_BYTES bytes. This goes through the members of association 1, in the order of their places:
 *
 *     unsigned place;
 *     for (place = MILECOPPER_PLACES_OF_EACH; place < 2 * MILECOPPER_PLACES_OF_EACH; place += 1)
 *         if (milecopper_member_in(page, place) != MILECOPPER_FREE_PLACE)
 *             printf("member %lu\n", (unsigned long)milecopper_member_in(page, place));
 */

/* The number of the member in a place, counted from 0; MILECOPPER_FREE_PLACE where it is free, or there is no such place. */
static inline uint32_t milecopper_member_in(const uint8_t *page, unsigned place)
{
    if (place >= MILECOPPER_PLACES)
        return MILECOPPER_FREE_PLACE;
    return milecopper_number(page + MILECOPPER_PLACE_BYTES * MILECOPPER_AS(size_t, place) + MILECOPPER_PLACE_MEMBER_AT, 4);
}

/* The book in a place, MILECOPPER_BOOK_BYTES bytes; a null pointer where there is no such place. */
static inline uint8_t *milecopper_book_in(uint8_t *page, unsigned place)
{
    if (place >= MILECOPPER_PLACES)
        return NULL;
    return page + MILECOPPER_PLACE_BYTES * MILECOPPER_AS(size_t, place) + MILECOPPER_PLACE_BOOK_AT;
}

/* ---- The charge record ----
 *
 * `record` is the start of a statement into which an accepted trip was settled or quoted. Where the trip was broken, the record
 * of its second part stands right behind that of the first, at `record + milecopper_record_bytes(record)`; the answer
 * says how many bytes there are in all. The charges stand in this order: the account holder, the adults, the children,
 * the bicycles, each as many as the trip carried. The first of them are the persons'; a person's charge has a reduction
 * beside it, and the cap that is named for it. Money is in cents. This goes through all charges:
 *
 *     unsigned persons = milecopper_record_persons(record);
 *     unsigned i;
 *     for (i = 0; i < milecopper_record_charges(record); i += 1) {
 *         printf("%lu cents", (unsigned long)milecopper_record_charge(record, i));
 *         if (i < persons && milecopper_record_reduction(record, i) > 0)
 *             printf(", %lu less by %s of area %u", (unsigned long)milecopper_record_reduction(record, i),
 *                    milecopper_cap_text(milecopper_record_cap_class(record, i)),
 *                    milecopper_record_cap_area(record, i));
 *         printf("\n");
 *     }
 *
 * On bytes that are no charge record these functions give some number, and they are safe all the same: none reads behind
 * the first MILECOPPER_LARGEST_RECORD_BYTES bytes. Whether bytes that were stored or sent are a record, and a whole one,
 * milecopper_is_record says.
 */

/* The length of each record of a trip that carries so many. The statement needs as many bytes, and twice as many where
 * the trip is broken, which cannot be with two stops. */
static inline size_t milecopper_record_bytes_for(unsigned adults, unsigned children, unsigned bicycles)
{
    size_t persons = MILECOPPER_AS(size_t, 1) + adults + children;
    return MILECOPPER_CHARGE_PERSONS_AT + MILECOPPER_CHARGE_PERSON_BYTES * persons +
           MILECOPPER_CHARGE_BICYCLE_BYTES * MILECOPPER_AS(size_t, bicycles);
}

/* The number in a byte of the record, or `most` where it is above that. */
static inline unsigned milecopper_record_count(const uint8_t *record, size_t at, unsigned most)
{
    return record[at] < most ? record[at] : most;
}

/* Whom and what the trip carried, besides the account holder. */
static inline unsigned milecopper_record_adults(const uint8_t *record)
{
    return milecopper_record_count(record, MILECOPPER_CHARGE_ADULTS_AT, MILECOPPER_MOST_ADULTS);
}

static inline unsigned milecopper_record_children(const uint8_t *record)
{
    return milecopper_record_count(record, MILECOPPER_CHARGE_CHILDREN_AT, MILECOPPER_MOST_CHILDREN);
}

static inline unsigned milecopper_record_bicycles(const uint8_t *record)
{
    return milecopper_record_count(record, MILECOPPER_CHARGE_BICYCLES_AT, MILECOPPER_MOST_BICYCLES);
}

/* The number of persons, the account holder among them: 1 to MILECOPPER_MOST_PERSONS. */
static inline unsigned milecopper_record_persons(const uint8_t *record)
{
    return 1 + milecopper_record_adults(record) + milecopper_record_children(record);
}

/* The number of charges: 1 to MILECOPPER_MOST_CHARGES. */
static inline unsigned milecopper_record_charges(const uint8_t *record)
{
    return milecopper_record_persons(record) + milecopper_record_bicycles(record);
}

/* The record's length in bytes, MILECOPPER_SMALLEST_RECORD_BYTES to MILECOPPER_LARGEST_RECORD_BYTES. */
static inline size_t milecopper_record_bytes(const uint8_t *record)
{
    return milecopper_record_bytes_for(milecopper_record_adults(record), milecopper_record_children(record),
                                       milecopper_record_bicycles(record));
}

/* 1 if the `length` bytes begin with a whole charge record of this kind, else 0: its length, its kind and the numbers of
 * those carried are as they have to be. Reads no byte behind `length`. */
static inline int milecopper_is_record(const uint8_t *bytes, size_t length)
{
    if (length < MILECOPPER_SMALLEST_RECORD_BYTES)
        return 0;
    return milecopper_number(bytes + MILECOPPER_KIND_AT, 2) == MILECOPPER_CHARGE_KIND &&
           bytes[MILECOPPER_CHARGE_ADULTS_AT] <= MILECOPPER_MOST_ADULTS &&
           bytes[MILECOPPER_CHARGE_CHILDREN_AT] <= MILECOPPER_MOST_CHILDREN &&
           bytes[MILECOPPER_CHARGE_BICYCLES_AT] <= MILECOPPER_MOST_BICYCLES &&
           milecopper_number(bytes + MILECOPPER_LENGTH_AT, 2) + MILECOPPER_KIND_AT == milecopper_record_bytes(bytes) &&
           milecopper_record_bytes(bytes) <= length;
}

/* The minute at which the trip's window opened, the same for both parts. Minutes count UTC; minute 0 is 2000-01-01 00:00
 * UTC. */
static inline uint32_t milecopper_record_opening(const uint8_t *record)
{
    return milecopper_number(record + MILECOPPER_CHARGE_OPENING_AT, 4);
}

/* The number of the part's area in the edition of the window. */
static inline unsigned milecopper_record_area(const uint8_t *record)
{
    return record[MILECOPPER_CHARGE_AREA_AT];
}

/* The started kilometres between the part's first stop and its last. */
static inline unsigned milecopper_record_km(const uint8_t *record)
{
    return milecopper_number(record + MILECOPPER_CHARGE_KM_AT, 2);
}

/* The minutes from check-in to check-out, counted in UTC; 0 for a second part. */
static inline unsigned milecopper_record_minutes(const uint8_t *record)
{
    return milecopper_number(record + MILECOPPER_CHARGE_MINUTES_AT, 2);
}

/* The start of the bytes of person number i, counted from 0. */
static inline const uint8_t *milecopper_record_person(const uint8_t *record, unsigned i)
{
    return record + MILECOPPER_CHARGE_PERSONS_AT + MILECOPPER_CHARGE_PERSON_BYTES * MILECOPPER_AS(size_t, i);
}

/* Charge number i in cents, counted from 0: first the persons', then the bicycles'; 0 where the record has no such. */
static inline uint32_t milecopper_record_charge(const uint8_t *record, unsigned i)
{
    unsigned persons = milecopper_record_persons(record);
    if (i >= milecopper_record_charges(record))
        return 0;
    if (i < persons)
        return milecopper_number(milecopper_record_person(record, i) + MILECOPPER_PERSON_CHARGE_AT, 4);
    return milecopper_number(milecopper_record_person(record, persons) +
                             MILECOPPER_CHARGE_BICYCLE_BYTES * MILECOPPER_AS(size_t, i - persons), 4);
}

/* What caps took off the price of person number i in cents, counted from 0: the price is the charge and this together.
 * 0 where the record has no such person. */
static inline uint32_t milecopper_record_reduction(const uint8_t *record, unsigned i)
{
    if (i >= milecopper_record_persons(record))
        return 0;
    return milecopper_number(milecopper_record_person(record, i) + MILECOPPER_PERSON_REDUCTION_AT, 4);
}

/* The number in that edition of the area whose cap is named for that; MILECOPPER_NO_CAP_AREA if nothing was taken off, or
 * the record has no such person. */
static inline unsigned milecopper_record_cap_area(const uint8_t *record, unsigned i)
{
    if (i >= milecopper_record_persons(record))
        return MILECOPPER_NO_CAP_AREA;
    return milecopper_record_person(record, i)[MILECOPPER_PERSON_CAP_AREA_AT];
}

/* Which cap of that area it is: MILECOPPER_SECOND_CLASS_CAP or MILECOPPER_ALL_CLASSES_CAP; MILECOPPER_NO_CAP if nothing
 * was taken off, or the record has no such person. */
static inline unsigned milecopper_record_cap_class(const uint8_t *record, unsigned i)
{
    if (i >= milecopper_record_persons(record))
        return MILECOPPER_NO_CAP;
    return milecopper_record_person(record, i)[MILECOPPER_PERSON_CAP_CLASS_AT];
}

/* A few words for what milecopper_record_cap_class gives. The text is constant and must not be freed. */
static inline const char *milecopper_cap_text(unsigned cap_class)
{
    switch (cap_class) {
    case MILECOPPER_NO_CAP:
        return "no cap";
    case MILECOPPER_ALL_CLASSES_CAP:
        return "the all-classes cap";
    case MILECOPPER_SECOND_CLASS_CAP:
        return "the second-class cap";
    }
    return "no cap that the library names";
}

/* The sum of the record's charges in cents; reductions are not in it. */
static inline uint32_t milecopper_record_total(const uint8_t *record)
{
    uint32_t total = 0;
    unsigned charges = milecopper_record_charges(record);
    unsigned i;
    for (i = 0; i < charges; i += 1)
        total += milecopper_record_charge(record, i);
    return total;
}

/* The sum of all charges of the trip in cents: of one record, or of two. `answer` is what settling or quoting it gave, not
 * what posting it gave. */
static inline uint32_t milecopper_statement_total(const uint8_t *statement, uint64_t answer)
{
    size_t written = milecopper_bytes_written(answer);
    size_t at = 0;
    uint32_t total = 0;
    unsigned part;
    for (part = 0; part < MILECOPPER_MOST_PARTS && at < written; part += 1) {
        total += milecopper_record_total(statement + at);
        at += milecopper_record_bytes(statement + at);
    }
    return total;
}

/* ---- The fields that were read ----
 *
 * `fields` is what milecopper_read has written of a record that it accepted. This goes through all charges:
 *
 *     unsigned i;
 *     for (i = 0; i < milecopper_fields_charges(fields); i += 1)
 *         printf("%lu cents, %lu taken off\n", (unsigned long)milecopper_fields_charge(fields, i),
 *                (unsigned long)milecopper_fields_reduction(fields, i));
 *
 * In kind 6 they are in the order of a charge record: account holder, adults, children, bicycles. On other bytes these
 * functions give some number, and none reads behind the first MILECOPPER_LARGEST_FIELDS_BYTES bytes.
 */

/* MILECOPPER_CHARGE_KIND or MILECOPPER_CHARGES_ALONE_KIND. */
static inline unsigned milecopper_fields_kind(const uint8_t *fields)
{
    return fields[MILECOPPER_FIELDS_KIND_AT];
}

/* How many charges there are: 1 to MILECOPPER_MOST_CHARGES. */
static inline unsigned milecopper_fields_charges(const uint8_t *fields)
{
    return milecopper_record_count(fields, MILECOPPER_FIELDS_CHARGE_COUNT_AT, MILECOPPER_MOST_CHARGES);
}

/* Whom and what the trip carried, besides the account holder; 0 in kind 4, which does not say. */
static inline unsigned milecopper_fields_adults(const uint8_t *fields)
{
    return fields[MILECOPPER_FIELDS_ADULTS_AT];
}

static inline unsigned milecopper_fields_children(const uint8_t *fields)
{
    return fields[MILECOPPER_FIELDS_CHILDREN_AT];
}

static inline unsigned milecopper_fields_bicycles(const uint8_t *fields)
{
    return fields[MILECOPPER_FIELDS_BICYCLES_AT];
}

/* The number of the part's area in the edition of the window. */
static inline unsigned milecopper_fields_area(const uint8_t *fields)
{
    return fields[MILECOPPER_FIELDS_AREA_AT];
}

/* The started kilometres between the part's first stop and its last. */
static inline unsigned milecopper_fields_km(const uint8_t *fields)
{
    return milecopper_number(fields + MILECOPPER_FIELDS_KM_AT, 2);
}

/* The part's minutes. */
static inline unsigned milecopper_fields_minutes(const uint8_t *fields)
{
    return milecopper_number(fields + MILECOPPER_FIELDS_MINUTES_AT, 2);
}

/* The minute at which the trip's window opened, counted in UTC from 2000-01-01 00:00 UTC. */
static inline uint32_t milecopper_fields_opening(const uint8_t *fields)
{
    return milecopper_number(fields + MILECOPPER_FIELDS_OPENING_AT, 4);
}

/* The start of the bytes of charge number i, counted from 0. */
static inline const uint8_t *milecopper_fields_each(const uint8_t *fields, unsigned i)
{
    return fields + MILECOPPER_FIELDS_CHARGES_AT + MILECOPPER_FIELDS_EACH_BYTES * MILECOPPER_AS(size_t, i);
}

/* Charge number i in cents, counted from 0; 0 where there is no such. */
static inline uint32_t milecopper_fields_charge(const uint8_t *fields, unsigned i)
{
    if (i >= milecopper_fields_charges(fields))
        return 0;
    return milecopper_number(milecopper_fields_each(fields, i) + MILECOPPER_FIELDS_CHARGE_AT, 4);
}

/* What caps took off it in cents; 0 for a bicycle, in kind 4, and where there is no such charge. */
static inline uint32_t milecopper_fields_reduction(const uint8_t *fields, unsigned i)
{
    if (i >= milecopper_fields_charges(fields))
        return 0;
    return milecopper_number(milecopper_fields_each(fields, i) + MILECOPPER_FIELDS_REDUCTION_AT, 4);
}

/* The area of the cap that is named for that; MILECOPPER_NO_CAP_AREA where nothing was taken off. */
static inline unsigned milecopper_fields_cap_area(const uint8_t *fields, unsigned i)
{
    if (i >= milecopper_fields_charges(fields))
        return MILECOPPER_NO_CAP_AREA;
    return milecopper_fields_each(fields, i)[MILECOPPER_FIELDS_CAP_AREA_AT];
}

/* Which cap of that area it is, as milecopper_record_cap_class says it; MILECOPPER_NO_CAP where nothing was taken off. */
static inline unsigned milecopper_fields_cap_class(const uint8_t *fields, unsigned i)
{
    if (i >= milecopper_fields_charges(fields))
        return MILECOPPER_NO_CAP;
    return milecopper_fields_each(fields, i)[MILECOPPER_FIELDS_CAP_CLASS_AT];
}

/* The sum of the charges in cents; reductions are not in it. */
static inline uint32_t milecopper_fields_total(const uint8_t *fields)
{
    uint32_t total = 0;
    unsigned charges = milecopper_fields_charges(fields);
    unsigned i;
    for (i = 0; i < charges; i += 1)
        total += milecopper_fields_charge(fields, i);
    return total;
}

/* ---- Writing trips and tariffs ----
 *
 * Each function writes one record to the start of `bytes`, of which there are `room`, and gives its length. It gives 0, and
 * writes nothing, where there is not enough room or a number does not fit its field; what a number means is not looked
 * at, since checking and settling do that. A tariff is one edition or two: the date from which it is valid, its areas, then its
 * factor records, then its stops:
 *
 *     uint8_t tariff[MILECOPPER_LARGEST_TARIFF_BYTES];
 *     size_t length = 0;
 *     length += milecopper_put_edition(tariff + length, sizeof tariff - length, 2000, 1, 1);
 *     length += milecopper_put_area(tariff + length, sizeof tariff - length, &state);
 *     length += milecopper_put_factor(tariff + length, sizeof tariff - length, 3, 0);
 *     length += milecopper_put_stop(tariff + length, sizeof tariff - length, 0, 300000, 200000);
 *     if (!milecopper_accepted(milecopper_check_tariff(tariff, length)))
 *         ...
 */

/* A local date and clock time; `offset` is how many hours this clock is ahead of UTC. */
struct milecopper_stamp {
    unsigned year;
    unsigned month;
    unsigned day;
    unsigned hour;
    unsigned minute;
    unsigned offset;
};

struct milecopper_trip {
    struct milecopper_stamp check_in;
    struct milecopper_stamp check_out;
    unsigned travel_class;
    unsigned level;
    unsigned adults;
    unsigned children;
    unsigned bicycles;
    const uint16_t *stops;
    unsigned stop_count;
};

struct milecopper_area {
    unsigned level;
    unsigned parent;
    unsigned base_price;
    unsigned price_per_km;
    unsigned validity;
    unsigned surcharge;
    unsigned reduction;
    unsigned trip_cap;
    unsigned trip_cap_fields[MILECOPPER_TRIP_CAP_FIELDS];
    unsigned day_cap;
    unsigned bicycle_flat;
};

/* An area of kind 8; `common.bicycle_flat` is the bicycle's cap in a window. */
struct milecopper_aachen_area {
    struct milecopper_area common;
    unsigned child_tickets[MILECOPPER_TRIP_CAP_FIELDS];
    unsigned bicycle_price;
    unsigned town;
};

/* Writes a record's head: its whole length in bytes is `length`. */
static inline void milecopper_put_head(uint8_t *bytes, size_t length, uint32_t kind)
{
    milecopper_put_number(bytes + MILECOPPER_LENGTH_AT, 2, MILECOPPER_AS(uint32_t, length - MILECOPPER_KIND_AT));
    milecopper_put_number(bytes + MILECOPPER_KIND_AT, 2, kind);
}

static inline int milecopper_stamp_fits(const struct milecopper_stamp *stamp)
{
    return stamp->year <= 0xFFFFu && stamp->month <= 0xFFu && stamp->day <= 0xFFu && stamp->hour <= 0xFFu &&
           stamp->minute <= 0xFFu && stamp->offset <= 0xFFu;
}

static inline void milecopper_put_stamp(uint8_t *bytes, const struct milecopper_stamp *stamp)
{
    milecopper_put_number(bytes + MILECOPPER_STAMP_YEAR_AT, 2, stamp->year);
    milecopper_put_number(bytes + MILECOPPER_STAMP_MONTH_AT, 1, stamp->month);
    milecopper_put_number(bytes + MILECOPPER_STAMP_DAY_AT, 1, stamp->day);
    milecopper_put_number(bytes + MILECOPPER_STAMP_HOUR_AT, 1, stamp->hour);
    milecopper_put_number(bytes + MILECOPPER_STAMP_MINUTE_AT, 1, stamp->minute);
    milecopper_put_number(bytes + MILECOPPER_STAMP_OFFSET_AT, 1, stamp->offset);
}

static inline size_t milecopper_put_trip(uint8_t *bytes, size_t room, const struct milecopper_trip *trip)
{
    size_t length = MILECOPPER_TRIP_STOPS_AT + 2 * MILECOPPER_AS(size_t, trip->stop_count);
    unsigned i;
    if (!milecopper_stamp_fits(&trip->check_in) || !milecopper_stamp_fits(&trip->check_out) ||
        trip->travel_class > 0xFFu || trip->level > 0xFFu || trip->adults > 0xFFu || trip->children > 0xFFu ||
        trip->bicycles > 0xFFu || trip->stop_count > 0xFFu || length > room)
        return 0;
    milecopper_put_head(bytes, length, MILECOPPER_TRIP_KIND);
    milecopper_put_stamp(bytes + MILECOPPER_TRIP_CHECK_IN_AT, &trip->check_in);
    milecopper_put_stamp(bytes + MILECOPPER_TRIP_CHECK_OUT_AT, &trip->check_out);
    milecopper_put_number(bytes + MILECOPPER_TRIP_CLASS_AT, 1, trip->travel_class);
    milecopper_put_number(bytes + MILECOPPER_TRIP_LEVEL_AT, 1, trip->level);
    milecopper_put_number(bytes + MILECOPPER_TRIP_ADULTS_AT, 1, trip->adults);
    milecopper_put_number(bytes + MILECOPPER_TRIP_CHILDREN_AT, 1, trip->children);
    milecopper_put_number(bytes + MILECOPPER_TRIP_BICYCLES_AT, 1, trip->bicycles);
    milecopper_put_number(bytes + MILECOPPER_TRIP_STOP_COUNT_AT, 1, trip->stop_count);
    for (i = 0; i < trip->stop_count; i += 1)
        milecopper_put_number(bytes + MILECOPPER_TRIP_STOPS_AT + 2 * MILECOPPER_AS(size_t, i), 2, trip->stops[i]);
    return length;
}

/* Opens an edition that is valid from this date on. */
static inline size_t milecopper_put_edition(uint8_t *bytes, size_t room, unsigned year, unsigned month, unsigned day)
{
    if (room < MILECOPPER_EDITION_BYTES || year > 0xFFFFu || month > 0xFFu || day > 0xFFu)
        return 0;
    milecopper_put_head(bytes, MILECOPPER_EDITION_BYTES, MILECOPPER_EDITION_KIND);
    milecopper_put_number(bytes + MILECOPPER_EDITION_YEAR_AT, 2, year);
    milecopper_put_number(bytes + MILECOPPER_EDITION_MONTH_AT, 1, month);
    milecopper_put_number(bytes + MILECOPPER_EDITION_DAY_AT, 1, day);
    return MILECOPPER_EDITION_BYTES;
}

static inline int milecopper_area_fits(const struct milecopper_area *area)
{
    unsigned i;
    for (i = 0; i < MILECOPPER_TRIP_CAP_FIELDS; i += 1)
        if (area->trip_cap_fields[i] > 0xFFFFu)
            return 0;
    return area->level <= 0xFFu && area->parent <= 0xFFu && area->base_price <= 0xFFFFu && area->price_per_km <= 0xFFFFu &&
           area->validity <= 0xFFFFu && area->surcharge <= 0xFFu && area->reduction <= 0xFFu && area->trip_cap <= 0xFFu &&
           area->day_cap <= 0xFFFFu && area->bicycle_flat <= 0xFFFFu;
}

/* Writes the fields that both kinds of area have. */
static inline void milecopper_put_area_fields(uint8_t *bytes, const struct milecopper_area *area)
{
    unsigned i;
    milecopper_put_number(bytes + MILECOPPER_AREA_LEVEL_AT, 1, area->level);
    milecopper_put_number(bytes + MILECOPPER_AREA_PARENT_AT, 1, area->parent);
    milecopper_put_number(bytes + MILECOPPER_AREA_BASE_PRICE_AT, 2, area->base_price);
    milecopper_put_number(bytes + MILECOPPER_AREA_PRICE_PER_KM_AT, 2, area->price_per_km);
    milecopper_put_number(bytes + MILECOPPER_AREA_VALIDITY_AT, 2, area->validity);
    milecopper_put_number(bytes + MILECOPPER_AREA_SURCHARGE_AT, 1, area->surcharge);
    milecopper_put_number(bytes + MILECOPPER_AREA_REDUCTION_AT, 1, area->reduction);
    milecopper_put_number(bytes + MILECOPPER_AREA_TRIP_CAP_AT, 1, area->trip_cap);
    for (i = 0; i < MILECOPPER_TRIP_CAP_FIELDS; i += 1)
        milecopper_put_number(bytes + MILECOPPER_AREA_TRIP_CAP_FIELDS_AT + 2 * MILECOPPER_AS(size_t, i), 2,
                              area->trip_cap_fields[i]);
    milecopper_put_number(bytes + MILECOPPER_AREA_DAY_CAP_AT, 2, area->day_cap);
    milecopper_put_number(bytes + MILECOPPER_AREA_BICYCLE_FLAT_AT, 2, area->bicycle_flat);
}

static inline size_t milecopper_put_area(uint8_t *bytes, size_t room, const struct milecopper_area *area)
{
    if (room < MILECOPPER_AREA_BYTES || !milecopper_area_fits(area))
        return 0;
    milecopper_put_head(bytes, MILECOPPER_AREA_BYTES, MILECOPPER_AREA_KIND);
    milecopper_put_area_fields(bytes, area);
    return MILECOPPER_AREA_BYTES;
}

static inline int milecopper_aachen_area_fits(const struct milecopper_aachen_area *area)
{
    unsigned i;
    for (i = 0; i < MILECOPPER_TRIP_CAP_FIELDS; i += 1)
        if (area->child_tickets[i] > 0xFFFFu)
            return 0;
    return milecopper_area_fits(&area->common) && area->bicycle_price <= 0xFFFFu && area->town <= 0xFFu;
}

/* Kind 8. */
static inline size_t milecopper_put_aachen_area(uint8_t *bytes, size_t room, const struct milecopper_aachen_area *area)
{
    unsigned i;
    if (room < MILECOPPER_AACHEN_AREA_BYTES || !milecopper_aachen_area_fits(area))
        return 0;
    milecopper_put_head(bytes, MILECOPPER_AACHEN_AREA_BYTES, MILECOPPER_AACHEN_AREA_KIND);
    milecopper_put_area_fields(bytes, &area->common);
    for (i = 0; i < MILECOPPER_TRIP_CAP_FIELDS; i += 1)
        milecopper_put_number(bytes + MILECOPPER_AREA_CHILD_TICKETS_AT + 2 * MILECOPPER_AS(size_t, i), 2,
                              area->child_tickets[i]);
    milecopper_put_number(bytes + MILECOPPER_AREA_BICYCLE_PRICE_AT, 2, area->bicycle_price);
    milecopper_put_number(bytes + MILECOPPER_AREA_TOWN_AT, 1, area->town);
    return MILECOPPER_AACHEN_AREA_BYTES;
}

static inline size_t milecopper_put_factor(uint8_t *bytes, size_t room, unsigned factor, unsigned mark)
{
    if (room < MILECOPPER_FACTOR_BYTES || factor > 0xFFu || mark > 0xFFu)
        return 0;
    milecopper_put_head(bytes, MILECOPPER_FACTOR_BYTES, MILECOPPER_FACTOR_KIND);
    milecopper_put_number(bytes + MILECOPPER_FACTOR_FACTOR_AT, 1, factor);
    milecopper_put_number(bytes + MILECOPPER_FACTOR_MARK_AT, 1, mark);
    return MILECOPPER_FACTOR_BYTES;
}

static inline size_t milecopper_put_stop(uint8_t *bytes, size_t room, unsigned area, uint32_t x, uint32_t y)
{
    if (room < MILECOPPER_STOP_BYTES || area > 0xFFu)
        return 0;
    milecopper_put_head(bytes, MILECOPPER_STOP_BYTES, MILECOPPER_STOP_KIND);
    milecopper_put_number(bytes + MILECOPPER_STOP_AREA_AT, 1, area);
    milecopper_put_number(bytes + MILECOPPER_STOP_X_AT, 4, x);
    milecopper_put_number(bytes + MILECOPPER_STOP_Y_AT, 4, y);
    return MILECOPPER_STOP_BYTES;
}

#endif
