/* Makes each call of the benchmark once by the library and once by the tuned side, between two marks that the emulator's trace shows. Both have to
 * do the same. A program of its own, without a C library: `cases.h` has the cases, as `bench --cases` prints them. */
typedef unsigned long size;
typedef unsigned char byte;

struct call {
    const byte *tariff, *book, *trip;
    size tariff_len, book_len, trip_len, room;
    int checks_alone;
};
#include "cases.h"

size milecopper_settle(const byte *, size, byte *, size, const byte *, size, byte *, size);
size milecopper_check_tariff(const byte *, size);
size tuned_settle(const byte *, size, byte *, size, const byte *, size, byte *, size);
size tuned_check_tariff(const byte *, size);

/* Copying and filling count as a loop of moves of 16 bytes. */
typedef char wide __attribute__((vector_size(16), aligned(1)));
#define STEP __asm__ volatile("" : "+r"(to))

void *memset(void *memory, int value, size many) {
    byte *to = memory, *end = to + many;
    if (many < 16) {
        for (; to < end; to++) { *to = (byte)value; STEP; }
        return memory;
    }
    wide all = (wide){0} + (char)value;
    for (; to + 16 <= end; to += 16) { *(wide *)to = all; STEP; }
    *(wide *)(end - 16) = all;
    return memory;
}

void *memcpy(void *memory, const void *source, size many) {
    byte *to = memory, *end = to + many;
    const byte *from = source;
    if (many < 16) {
        for (; to < end; to++, from++) { *to = *from; STEP; }
        return memory;
    }
    for (; to + 16 <= end; to += 16, from += 16) { *(wide *)to = *(const wide *)from; STEP; }
    *(wide *)(end - 16) = *(const wide *)((const byte *)source + many - 16);
    return memory;
}

int memcmp(const void *one, const void *other, size many) {
    const byte *a = one, *b = other;
    for (; many > 0; many--, a++, b++)
        if (*a != *b) return *a - *b;
    return 0;
}

__attribute__((noinline)) void mark_start(void) { __asm__ volatile("nop"); }
__attribute__((noinline)) void mark_end(void) { __asm__ volatile("nop"); }

static size nothing(void) { return 0; }

static byte books[2][5472], statements[2][532];

/* side 2 does nothing: what is left is what the call itself costs */
__attribute__((noinline)) static size make(const struct call *call, int side, byte *book, byte *statement) {
    if (side == 2) return nothing();
    if (call->checks_alone)
        return (side ? tuned_check_tariff : milecopper_check_tariff)(call->tariff, call->tariff_len);
    return (side ? tuned_settle : milecopper_settle)(call->tariff, call->tariff_len, book, call->book_len, call->trip, call->trip_len, statement,
                                                     call->room);
}

int run(void) {
    for (size at = 0; at < sizeof calls / sizeof *calls; at++) {
        size answers[3];
        for (int side = 0; side < 3; side++) {
            byte *book = books[side % 2], *statement = statements[side % 2];
            if (side < 2) memcpy(book, calls[at].book, calls[at].book_len), memset(statement, 0x5b, sizeof statements[0]);
            mark_start();
            answers[side] = make(&calls[at], side, book, statement);
            mark_end();
        }
        if (answers[0] != answers[1] || memcmp(books[0], books[1], calls[at].book_len) || memcmp(statements[0], statements[1], sizeof statements[0]))
            return 1;
    }
    return 0;
}

__asm__(".globl _start\n_start: xor %ebp, %ebp\n and $-16, %rsp\n call run\n mov %eax, %edi\n mov $60, %eax\n syscall\n");
