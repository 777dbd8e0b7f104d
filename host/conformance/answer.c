/* Answers the cases of the conformance suite by the library (README.md): a line from standard input is a call, and a line with its answer goes to
 * standard output. Build it with
 *
 *     cc answer.c $(pkg-config --cflags --libs milecopper) -o answer
 */
#define _POSIX_C_SOURCE 200809L
#include <milecopper.h>
#include <stdio.h>
#include <stdlib.h>
#include <string.h>

enum { MOST_WORDS = 16 };

/* What a call is given: NAME=VALUE. The bytes have memory of their own, of just their length. */
struct word {
    char *name, *value;
    uint8_t *bytes;
    size_t length;
};

static struct word words[MOST_WORDS];
static size_t many;

static void fail(const char *what)
{
    fprintf(stderr, "answer: %s\n", what);
    exit(1);
}

static struct word *word(const char *name)
{
    size_t i;
    for (i = 0; i < many; i += 1)
        if (strcmp(words[i].name, name) == 0)
            return &words[i];
    fail(name);
    return NULL;
}

static unsigned digit(char letter)
{
    const char *digits = "0123456789abcdef", *found = letter ? strchr(digits, letter) : NULL;
    if (found == NULL)
        fail("a digit that is none");
    return (unsigned)(found - digits);
}

/* The bytes of a slice, which is made of its digits when it is asked for first. */
static uint8_t *bytes(const char *name)
{
    struct word *own = word(name);
    size_t i;
    if (own->bytes != NULL)
        return own->bytes;
    own->length = strlen(own->value) / 2;
    own->bytes = malloc(own->length > 0 ? own->length : 1);
    if (own->bytes == NULL)
        fail("no memory");
    for (i = 0; i < own->length; i += 1)
        own->bytes[i] = (uint8_t)(16 * digit(own->value[2 * i]) + digit(own->value[2 * i + 1]));
    return own->bytes;
}

static size_t length(const char *name)
{
    bytes(name);
    return word(name)->length;
}

static uint64_t number(const char *name)
{
    return strtoull(word(name)->value, NULL, 10);
}

#define SLICE(name) bytes(name), length(name)
#define SMALL(name) ((uint32_t)number(name))

static uint64_t call(const char *function)
{
    if (strcmp(function, "milecopper_check_tariff") == 0)
        return milecopper_check_tariff(SLICE("tariff"));
    if (strcmp(function, "milecopper_settle") == 0)
        return milecopper_settle(SLICE("tariff"), SLICE("book"), SLICE("trip"), SLICE("statement"));
    if (strcmp(function, "milecopper_quote") == 0)
        return milecopper_quote(SLICE("tariff"), SLICE("book"), SLICE("trip"), SLICE("statement"));
    if (strcmp(function, "milecopper_post") == 0)
        return milecopper_post(SLICE("tariff"), SLICE("book"), SLICE("trip"), SLICE("record"));
    if (strcmp(function, "milecopper_read") == 0)
        return milecopper_read(SLICE("statement"), (size_t)number("at"), SLICE("fields"));
    if (strcmp(function, "milecopper_add") == 0)
        return milecopper_add(SLICE("page"), SMALL("association"), SMALL("member"));
    if (strcmp(function, "milecopper_close") == 0)
        return milecopper_close(SLICE("page"), SMALL("association"), SMALL("member"));
    if (strcmp(function, "milecopper_settle_member") == 0)
        return milecopper_settle_member(SLICE("tariff"), SLICE("page"), SMALL("association"), SMALL("member"), SLICE("trip"),
                                        SLICE("statement"));
    if (strcmp(function, "milecopper_settle_month") == 0)
        return milecopper_settle_month(SMALL("ceiling"), SLICE("kept"), SLICE("tariff"), SLICE("book"), SLICE("trip"),
                                       SLICE("statement"), SLICE("due"));
    if (strcmp(function, "milecopper_correct") == 0)
        return milecopper_correct(SLICE("tariff"), SLICE("roll"), SMALL("n"), SLICE("replacement"), SLICE("statements"),
                                  SLICE("differences"));
    fail(function);
    return 0;
}

/* The words behind the function's name. */
static void take_words(void)
{
    char *text;
    many = 0;
    while ((text = strtok(NULL, " \r\n")) != NULL) {
        char *value = strchr(text, '=');
        if (value == NULL || many == MOST_WORDS)
            fail("a line that is no case");
        *value = '\0';
        words[many].name = text;
        words[many].value = value + 1;
        words[many].bytes = NULL;
        many += 1;
    }
}

/* The answer, and every slice as it is now. */
static void tell(uint64_t answer)
{
    size_t i, at;
    printf("%llu", (unsigned long long)answer);
    for (i = 0; i < many; i += 1) {
        if (words[i].bytes == NULL)
            continue;
        printf(" %s=", words[i].name);
        for (at = 0; at < words[i].length; at += 1) {
            putchar("0123456789abcdef"[words[i].bytes[at] >> 4]);
            putchar("0123456789abcdef"[words[i].bytes[at] & 15]);
        }
        free(words[i].bytes);
    }
    putchar('\n');
}

int main(void)
{
    char *line = NULL;
    size_t room = 0;
    while (getline(&line, &room, stdin) > 0) {
        char *function = strtok(line, " \r\n");
        if (function == NULL)
            fail("an empty line");
        take_words();
        tell(call(function));
    }
    free(line);
    return fflush(stdout) == 0 && !ferror(stdout) ? 0 : 1;
}
