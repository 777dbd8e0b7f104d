/*
 * The stack that a call takes, found by painting the stack that it runs on. For x86-64 and aarch64, and without a header: the compiler that
 * makes it for an emulated x86-64 has none.
 */
typedef __UINT64_TYPE__ word;

/* Calls the function with fourteen words, its stack ending at `top`, a multiple of 16. The frame pointer keeps the way back to our own. Words that have
 * no register are passed on the stack: PASSED of them, and they are the caller's. */
word called_on(const void *function, const word given[14], const word *top);
#if defined __x86_64__
enum { PASSED = 8 };
__asm__(".text\n.globl called_on\n.type called_on, @function\ncalled_on:\n"
        "push %rbp\n mov %rsp, %rbp\n mov %rdx, %rsp\n mov %rdi, %rax\n mov %rsi, %r10\n"
        "push 104(%r10)\n push 96(%r10)\n push 88(%r10)\n push 80(%r10)\n push 72(%r10)\n push 64(%r10)\n push 56(%r10)\n push 48(%r10)\n"
        "mov 40(%r10), %r9\n mov 32(%r10), %r8\n"
        "mov 24(%r10), %rcx\n mov 16(%r10), %rdx\n mov 8(%r10), %rsi\n mov (%r10), %rdi\n"
        "call *%rax\n mov %rbp, %rsp\n pop %rbp\n ret\n");
#elif defined __aarch64__
enum { PASSED = 6 };
__asm__(".text\n.globl called_on\n.type called_on, %function\ncalled_on:\n"
        "stp x29, x30, [sp, #-16]!\n mov x29, sp\n mov sp, x2\n mov x9, x0\n mov x10, x1\n"
        "ldp x0, x1, [x10, #96]\n stp x0, x1, [sp, #-16]!\n ldp x0, x1, [x10, #80]\n stp x0, x1, [sp, #-16]!\n"
        "ldp x0, x1, [x10, #64]\n stp x0, x1, [sp, #-16]!\n"
        "ldp x0, x1, [x10]\n ldp x2, x3, [x10, #16]\n ldp x4, x5, [x10, #32]\n ldp x6, x7, [x10, #48]\n"
        "blr x9\n mov sp, x29\n ldp x29, x30, [sp], #16\n ret\n");
#else
#error "no way to a stack of one's choice on this processor"
#endif

/*
 * How many bytes of stack a call takes below its caller's, counted in whole words. The stack has `size` words, an even number, and begins at a
 * multiple of 16; a call that took all of it would need more. `answer` gets what the function answers.
 */
word painted_depth(const void *function, const word given[14], word *stack, word size, word *answer) {
    const word paint = 0x5b9d31c7e50f8ba3; /* a word that no call leaves */
    for (word i = 0; i < size; i++) stack[i] = paint;
    *answer = called_on(function, given, stack + size);
    word lowest = 0;
    while (lowest < size - PASSED && stack[lowest] == paint) lowest++;
    return 8 * (size - PASSED - lowest);
}
