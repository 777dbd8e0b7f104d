/*
 * Makes calls of the library on a painted stack, and writes how many bytes of it each function took at most: for an x86-64 that is emulated
 * (host/stack-check). On standard input comes call after call: the function's place in FUNCTIONS, a reading's offset, an association, a ceiling or
 * a record's number, a member's number, the lengths of six slices, and their bytes.
 * On standard output goes a number for each function. All numbers have 8 bytes.
 */
typedef __UINT64_TYPE__ word;
typedef __INT64_TYPE__ number;

word painted_depth(const void *function, const word given[14], word *stack, word size, word *answer);
word milecopper_settle(const void *, word, void *, word, const void *, word, void *, word);
word milecopper_quote(const void *, word, const void *, word, const void *, word, void *, word);
word milecopper_post(const void *, word, void *, word, const void *, word, const void *, word);
word milecopper_check_tariff(const void *, word);
word milecopper_read(const void *, word, word, void *, word);
word milecopper_add(void *, word, unsigned, unsigned);
word milecopper_close(void *, word, unsigned, unsigned);
word milecopper_settle_member(const void *, word, void *, word, unsigned, unsigned, const void *, word, void *, word);
word milecopper_settle_month(unsigned, void *, word, const void *, word, void *, word, const void *, word, void *, word, void *, word);
word milecopper_correct(const void *, word, const void *, word, unsigned, const void *, word, void *, word, void *, word);
number read(int, void *, word);
number write(int, const void *, word);

/* As in host/src/stack.rs: each function, how many slices stand before its numbers, and how many these are. */
enum { HEAD = 3, SLICES = 6, ALL = SLICES, LONGEST = 1 << 17, WORDS = 1 << 11 };
static const struct { const void *start; int before, numbers; } FUNCTIONS[] = {
    { (const void *)milecopper_settle, ALL, 0 },       { (const void *)milecopper_quote, ALL, 0 }, { (const void *)milecopper_post, ALL, 0 },
    { (const void *)milecopper_check_tariff, ALL, 0 }, { (const void *)milecopper_read, 1, 1 },    { (const void *)milecopper_add, 1, 2 },
    { (const void *)milecopper_close, 1, 2 },          { (const void *)milecopper_settle_member, 2, 2 },
    { (const void *)milecopper_settle_month, 0, 1 },   { (const void *)milecopper_correct, 2, 1 }
};
enum { MANY = sizeof FUNCTIONS / sizeof *FUNCTIONS };
static unsigned char slices[SLICES][LONGEST];
static word stack[WORDS] __attribute__((aligned(16)));

static int read_all(void *bytes, word many) {
    for (word had = 0; had < many;) {
        number got = read(0, (char *)bytes + had, many - had);
        if (got <= 0) return 0;
        had += (word)got;
    }
    return 1;
}

int main(void) {
    word head[HEAD + SLICES], most[MANY] = { 0 }, given[2 * SLICES + 2] = { 0 }, answer;
    while (read_all(head, sizeof head)) {
        if (head[0] >= MANY) return 2;
        word *next = given;
        for (int i = 0; i < SLICES; i++) {
            if (i == FUNCTIONS[head[0]].before)
                for (int k = 0; k < FUNCTIONS[head[0]].numbers; k++) *next++ = head[1 + k];
            if (head[HEAD + i] > LONGEST || !read_all(slices[i], head[HEAD + i])) return 2;
            *next++ = (word)slices[i];
            *next++ = head[HEAD + i];
        }
        word depth = painted_depth(FUNCTIONS[head[0]].start, given, stack, WORDS, &answer);
        if (depth > most[head[0]]) most[head[0]] = depth;
    }
    return write(1, most, sizeof most) == sizeof most ? 0 : 2;
}
