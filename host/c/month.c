/*
 * Settles the trips of a roll for one account under a monthly ceiling, and says of each what it costs, what of it is due and what
 * the month comes to by then. What would be due is asked first, on copies, as an app that shows the price before does it.
 *
 *     month CEILING TARIFF ROLL
 *
 * CEILING is in cents. C99 and C++11.
 */
#include "milecopper.h"

#include <stdio.h>
#include <stdlib.h>

/* An account: its book, and what is kept beside it. */
struct account {
    uint8_t book[MILECOPPER_BOOK_BYTES];
    uint8_t kept[MILECOPPER_KEPT_BYTES];
};

static struct account driver; /* all zero: a fresh book, and nothing collected yet */

/* The bytes of a file, to be freed by the caller. */
static uint8_t *bytes_of(const char *name, size_t *length)
{
    uint8_t *bytes = NULL;
    long end = -1;
    FILE *file = fopen(name, "rb");
    if (file != NULL && fseek(file, 0, SEEK_END) == 0)
        end = ftell(file);
    if (end >= 0 && fseek(file, 0, SEEK_SET) == 0)
        bytes = (uint8_t *)malloc(end > 0 ? (size_t)end : 1);
    if (bytes == NULL || fread(bytes, 1, (size_t)end, file) != (size_t)end) {
        fprintf(stderr, "month: %s cannot be read\n", name);
        exit(1);
    }
    fclose(file);
    *length = (size_t)end;
    return bytes;
}

static void print_money(uint32_t cents)
{
    printf("%lu.%02lu euro", (unsigned long)(cents / 100), (unsigned long)(cents % 100));
}

/* A trip settled on an account: the answer, its charges and what is due of them. */
static uint64_t settle(struct account *account, uint32_t ceiling, const uint8_t *tariff, size_t tariff_len, const uint8_t *trip,
                       size_t trip_len, uint32_t *charged, uint32_t *due)
{
    uint8_t statement[MILECOPPER_LARGEST_STATEMENT_BYTES];
    uint8_t bytes[MILECOPPER_DUE_BYTES] = {0};
    uint64_t answer = milecopper_settle_month(ceiling, account->kept, sizeof account->kept, tariff, tariff_len, account->book,
                                              sizeof account->book, trip, trip_len, statement, sizeof statement, bytes, sizeof bytes);
    *charged = milecopper_statement_total(statement, answer);
    *due = milecopper_number(bytes, sizeof bytes);
    return answer;
}

/* What would be due: the same call on a copy, which is thrown away. */
static uint32_t would_be_due(uint32_t ceiling, const uint8_t *tariff, size_t tariff_len, const uint8_t *trip, size_t trip_len)
{
    struct account copy = driver;
    uint32_t charged;
    uint32_t due;
    settle(&copy, ceiling, tariff, tariff_len, trip, trip_len, &charged, &due);
    return due;
}

static void tell(unsigned number, uint32_t ceiling, const uint8_t *tariff, size_t tariff_len, const uint8_t *trip, size_t trip_len)
{
    uint32_t asked = would_be_due(ceiling, tariff, tariff_len, trip, trip_len);
    uint32_t charged;
    uint32_t due;
    uint64_t answer = settle(&driver, ceiling, tariff, tariff_len, trip, trip_len, &charged, &due);
    uint32_t month = milecopper_kept_month(driver.kept);
    if (!milecopper_accepted(answer)) {
        printf("Trip %u is refused (%d). %s\n", number, (int)milecopper_refusal_of(answer),
               milecopper_refusal_text(milecopper_refusal_of(answer)));
        return;
    }
    if (due != asked) {
        fprintf(stderr, "month: trip %u was told another amount before\n", number);
        exit(1);
    }
    printf("Trip %u: ", number);
    print_money(charged);
    printf(", of which ");
    print_money(due);
    printf(" is due. %lu-%02lu: ", (unsigned long)(2000 + month / 12), (unsigned long)(1 + month % 12));
    print_money(milecopper_kept_amount(driver.kept));
    printf(" collected.\n");
}

int main(int argc, char **argv)
{
    size_t tariff_len;
    size_t roll_len;
    size_t at = 0;
    unsigned number = 0;
    uint32_t ceiling;
    uint8_t *tariff;
    uint8_t *roll;
    if (argc != 4) {
        fprintf(stderr, "usage: month CEILING TARIFF ROLL\n");
        return 2;
    }
    ceiling = (uint32_t)strtoul(argv[1], NULL, 10);
    tariff = bytes_of(argv[2], &tariff_len);
    roll = bytes_of(argv[3], &roll_len);
    printf("The ceiling is ");
    print_money(ceiling);
    printf(" a month, counted in UTC by the check-in.\n");
    while (at + MILECOPPER_HEAD_BYTES <= roll_len) {
        size_t size = MILECOPPER_KIND_AT + milecopper_number(roll + at + MILECOPPER_LENGTH_AT, 2);
        if (size > roll_len - at)
            break;
        number += 1;
        tell(number, ceiling, tariff, tariff_len, roll + at, size);
        at += size;
    }
    free(tariff);
    free(roll);
    return 0;
}
