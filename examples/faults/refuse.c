/* SPDX-License-Identifier: BSD-3-Clause */
/* Refuses allocations of a program: the one of the number REFUSE_FROM, counted from 1, and where REFUSE_MORE is 1 all after
   it too. For each it writes a byte to the file descriptor REFUSE_TELL. It is loaded by LD_PRELOAD, and stands on glibc. */
#include <stddef.h>
#include <stdlib.h>
#include <unistd.h>

extern void *__libc_malloc(size_t size);
extern void *__libc_realloc(void *block, size_t size);
extern void *__libc_calloc(size_t count, size_t size);

static long number, from = -1, more, tell;

static long word(const char *name) {
    const char *text = getenv(name);
    return text ? atol(text) : 0;
}

__attribute__((constructor)) static void begin(void) {
    more = word("REFUSE_MORE");
    tell = word("REFUSE_TELL");
    number = 0;
    from = word("REFUSE_FROM");
}

/* Whether the next allocation is refused. What is allocated before the program begins isn't counted. */
static int refuses(void) {
    if (from < 0)
        return 0;
    number++;
    if (number != from && !(more && number > from))
        return 0;
    if (write((int)tell, "r", 1) != 1)
        abort();
    return 1;
}

void *malloc(size_t size) {
    return refuses() ? NULL : __libc_malloc(size);
}

void *realloc(void *block, size_t size) {
    return refuses() ? NULL : __libc_realloc(block, size);
}

void *calloc(size_t count, size_t size) {
    return refuses() ? NULL : __libc_calloc(count, size);
}
