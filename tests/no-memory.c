/* Makes one request for memory fail, that of the number in FAIL_AT, counted from 1, in a program that this is loaded
   before; writes into the file that COUNT_TO names how many there were. tests/outside uses it. */
#include <errno.h>
#include <stdio.h>
#include <stdlib.h>

extern void *__libc_malloc(size_t size);
extern void *__libc_calloc(size_t count, size_t size);
extern void *__libc_realloc(void *old, size_t size);
extern void *__libc_memalign(size_t align, size_t size);

static long count;

static int fails(void)
{
    static long at = -1;
    if (at == -1) {
        const char *said = getenv("FAIL_AT");
        at = said ? atol(said) : 0;
    }
    count++;
    if (count == at)
        errno = ENOMEM;
    return count == at;
}

void *malloc(size_t size) { return fails() ? NULL : __libc_malloc(size); }
void *calloc(size_t many, size_t size) { return fails() ? NULL : __libc_calloc(many, size); }
void *realloc(void *old, size_t size) { return fails() ? NULL : __libc_realloc(old, size); }
void *aligned_alloc(size_t align, size_t size) { return fails() ? NULL : __libc_memalign(align, size); }

int posix_memalign(void **made, size_t align, size_t size)
{
    if (fails())
        return ENOMEM;
    *made = __libc_memalign(align, size);
    return *made ? 0 : ENOMEM;
}

__attribute__((destructor)) static void report(void)
{
    const char *name = getenv("COUNT_TO");
    long whole = count;
    FILE *file = name ? fopen(name, "w") : NULL;
    if (file) {
        fprintf(file, "%ld\n", whole);
        fclose(file);
    }
}
