// Refuses one allocation of the program that it is loaded into: the one of the number REFUSED, counted from 1 over all
// threads. The file REACHED tells by being there that the program came so far.
#include <errno.h>
#include <fcntl.h>
#include <stdatomic.h>
#include <stdlib.h>
#include <unistd.h>

extern void *__libc_malloc(size_t size);
extern void *__libc_realloc(void *block, size_t size);

static atomic_ulong calls;
static unsigned long number;
static const char *reached;

__attribute__((constructor)) static void begin(void) {
    const char *text = getenv("REFUSED");
    reached = getenv("REACHED");
    number = text ? strtoul(text, NULL, 10) : 0;
    atomic_store(&calls, 0);
}

static int is_refused(void) {
    if (atomic_fetch_add(&calls, 1) + 1 != number) return 0;
    int file = open(reached, O_WRONLY | O_CREAT | O_TRUNC, 0600);
    if (file >= 0) close(file);
    errno = ENOMEM;
    return 1;
}

void *malloc(size_t size) { return number && is_refused() ? NULL : __libc_malloc(size); }

void *realloc(void *block, size_t size) { return number && is_refused() ? NULL : __libc_realloc(block, size); }
