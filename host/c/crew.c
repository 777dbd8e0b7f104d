/*
 * Keeps the books of two crews on one page, the train crew's as association 0 and the engineering crew's as association 1: adds
 * three members, settles the trips of a roll for them in turn, closes an account and gives its place to another member.
 *
 *     crew TARIFF ROLL
 *
 * C99 and C++11.
 */
#include "milecopper.h"

#include <stdio.h>
#include <stdlib.h>

static uint8_t page[MILECOPPER_PAGE_BYTES]; /* all zero: every place is free */

struct member {
    uint32_t association;
    uint32_t number;
};

/* The bytes of a file, to be freed by the caller. */
static uint8_t *bytes_of(const char *name, size_t *length)
{
    uint8_t *bytes = NULL;
    long end = -1;
    FILE *file = fopen(name, "rb");
    if (file != NULL && fseek(file, 0, SEEK_END) == 0)
        end = ftell(file);
    if (end >= 0 && fseek(file, 0, SEEK_SET) == 0)
        bytes = (uint8_t *)malloc(end > 0 ? (size_t)end : 1);
    if (bytes == NULL || fread(bytes, 1, (size_t)end, file) != (size_t)end) {
        fprintf(stderr, "crew: %s cannot be read\n", name);
        exit(1);
    }
    fclose(file);
    *length = (size_t)end;
    return bytes;
}

/* What came of a call for a member; of a trip that was settled, what it costs. */
static void tell(const char *what, struct member whose, uint64_t answer)
{
    enum milecopper_refusal refusal = milecopper_refusal_of(answer);
    printf("%s member %lu of association %lu: ", what, (unsigned long)whose.number, (unsigned long)whose.association);
    if (refusal == MILECOPPER_NOT_REFUSED)
        printf("%lu bytes written.\n", (unsigned long)milecopper_bytes_written(answer));
    else
        printf("refused (%d). %s\n", (int)refusal, milecopper_refusal_text(refusal));
}

static void add(struct member whose)
{
    tell("Adding", whose, milecopper_add(page, sizeof page, whose.association, whose.number));
}

static void settle(const uint8_t *tariff, size_t tariff_len, struct member whose, const uint8_t *trip, size_t trip_len)
{
    uint8_t statement[MILECOPPER_LARGEST_STATEMENT_BYTES];
    uint64_t answer = milecopper_settle_member(tariff, tariff_len, page, sizeof page, whose.association, whose.number, trip,
                                               trip_len, statement, sizeof statement);
    if (milecopper_accepted(answer))
        printf("A trip of member %lu of association %lu: %lu cents.\n", (unsigned long)whose.number,
               (unsigned long)whose.association, (unsigned long)milecopper_statement_total(statement, answer));
    else
        tell("A trip of", whose, answer);
}

int main(int argc, char **argv)
{
    static const struct member crew[] = {{0, 4711}, {0, 815}, {1, 815}}; /* the last two are two people */
    static const struct member later = {0, 7};
    size_t tariff_len;
    size_t roll_len;
    size_t at = 0;
    unsigned i;
    uint8_t *tariff;
    uint8_t *roll;
    if (argc != 3) {
        fprintf(stderr, "usage: crew TARIFF ROLL\n");
        return 2;
    }
    tariff = bytes_of(argv[1], &tariff_len);
    roll = bytes_of(argv[2], &roll_len);
    for (i = 0; i < 3; i += 1)
        add(crew[i]);
    add(crew[1]);
    for (i = 0; at + MILECOPPER_HEAD_BYTES <= roll_len; i += 1) {
        size_t size = MILECOPPER_KIND_AT + milecopper_number(roll + at + MILECOPPER_LENGTH_AT, 2);
        if (size > roll_len - at)
            break;
        settle(tariff, tariff_len, crew[i % 3], roll + at, size);
        at += size;
    }
    tell("Closing", crew[0], milecopper_close(page, sizeof page, crew[0].association, crew[0].number));
    settle(tariff, tariff_len, crew[0], roll, MILECOPPER_KIND_AT + milecopper_number(roll + MILECOPPER_LENGTH_AT, 2));
    add(later);
    for (i = 0; i < MILECOPPER_PLACES; i += 1)
        if (milecopper_member_in(page, i) != MILECOPPER_FREE_PLACE)
            printf("Place %u: member %lu of association %u.\n", i, (unsigned long)milecopper_member_in(page, i),
                   i / MILECOPPER_PLACES_OF_EACH);
    free(tariff);
    free(roll);
    return 0;
}
