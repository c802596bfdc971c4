/* Refuses one allocation of a program, or all from one on, for tools/try-memory, which has it loaded before the C library.

   REFUSED=N is the number of the allocation, from 1; with REFUSED_ON set those after it are refused as well. Once one was
   refused the file REFUSED_MARK is there. */
#include <errno.h>
#include <fcntl.h>
#include <stddef.h>
#include <stdlib.h>
#include <unistd.h>

extern void *__libc_malloc(size_t), *__libc_calloc(size_t, size_t), *__libc_realloc(void *, size_t);
extern void *__libc_memalign(size_t, size_t);

static unsigned long refused, made;
static int on;
static const char *mark;

__attribute__((constructor)) static void begin(void) {
    const char *number = getenv("REFUSED");
    on = getenv("REFUSED_ON") != NULL;
    mark = getenv("REFUSED_MARK");
    refused = number ? strtoul(number, NULL, 10) : 0;
    made = 0;
}

/* Whether the next allocation is to be refused. */
static int refuses(void) {
    if (refused == 0 || ++made < refused || (made > refused && !on))
        return 0;
    if (made == refused && mark)
        close(open(mark, O_CREAT | O_WRONLY, 0600));
    errno = ENOMEM;
    return 1;
}

void *malloc(size_t size) {
    return refuses() ? NULL : __libc_malloc(size);
}

void *calloc(size_t count, size_t size) {
    return refuses() ? NULL : __libc_calloc(count, size);
}

void *realloc(void *old, size_t size) {
    return refuses() ? NULL : __libc_realloc(old, size);
}

void *aligned_alloc(size_t align, size_t size) {
    return refuses() ? NULL : __libc_memalign(align, size);
}

int posix_memalign(void **made_at, size_t align, size_t size) {
    if (refuses())
        return ENOMEM;
    *made_at = __libc_memalign(align, size);
    return *made_at ? 0 : ENOMEM;
}
