/*
 * What the programs call of the toolchain's own C code, for Arm, for which the toolchain has none (host/built): the number of the last error, and a
 * heap. The rest is the C library's.
 */
#include <errno.h>
#include <stdlib.h>

int rattle_errno(void) {
    return errno;
}

void rattle_set_errno(int error) {
    errno = error;
}

/* Whether there is memory, and where; where there is none, the place of a byte. */
struct tried {
    _Bool ok;
    void *place;
};

static struct tried tried(void *place) {
    static char none;
    return place ? (struct tried){1, place} : (struct tried){0, &none};
}

struct tried rattle_alloc(size_t size, size_t align) {
    return tried(malloc(size ? size : align));
}

struct tried rattle_realloc(void *place, size_t kept, size_t size, size_t align) {
    (void)kept;
    return tried(realloc(place, size ? size : align));
}

void rattle_dealloc(void *place) {
    free(place);
}
