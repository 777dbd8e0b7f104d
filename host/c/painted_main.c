/*
 * Linked with the program and with `--wrap=main`: runs its `main` on a painted stack, and tells on standard error how many bytes of it were taken.
 */
typedef __UINT64_TYPE__ word;

word painted_depth(const void *function, const word given[14], word *stack, word size, word *answer);
int __real_main(void);
int dprintf(int, const char *, ...);

enum { WORDS = 1 << 16 };
static word stack[WORDS] __attribute__((aligned(16)));

int __wrap_main(void) {
    static const word nothing[14];
    word answer, depth = painted_depth((const void *)__real_main, nothing, stack, WORDS, &answer);
    dprintf(2, "%llu\n", (unsigned long long)depth);
    return (int)answer;
}
