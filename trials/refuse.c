/* Refuses the request for memory whose number REFUSED has, and writes how many there were to the file COUNTED.
   Preloaded before the C library; number 0 refuses none. */
#include <errno.h>
#include <fcntl.h>
#include <stddef.h>
#include <stdlib.h>
#include <unistd.h>

extern void *__libc_malloc(size_t size);
extern void *__libc_calloc(size_t count, size_t size);
extern void *__libc_realloc(void *old, size_t size);
extern void *__libc_memalign(size_t align, size_t size);

static long refused = -1, requests = 0;

static int is_refused(void)
{
    if (refused < 0) {
        const char *said = getenv("REFUSED");
        refused = said ? atol(said) : 0;
    }
    if (++requests != refused)
        return 0;
    errno = ENOMEM;
    return 1;
}

void *malloc(size_t size) { return is_refused() ? NULL : __libc_malloc(size); }
void *calloc(size_t count, size_t size) { return is_refused() ? NULL : __libc_calloc(count, size); }
void *realloc(void *old, size_t size) { return is_refused() ? NULL : __libc_realloc(old, size); }
void *memalign(size_t align, size_t size) { return is_refused() ? NULL : __libc_memalign(align, size); }
void *aligned_alloc(size_t align, size_t size) { return is_refused() ? NULL : __libc_memalign(align, size); }

int posix_memalign(void **found, size_t align, size_t size)
{
    *found = is_refused() ? NULL : __libc_memalign(align, size);
    return *found ? 0 : ENOMEM;
}

__attribute__((destructor)) static void tell(void)
{
    const char *path = getenv("COUNTED");
    char digits[24];
    int at = sizeof digits, file;
    long left = requests;
    if (!path || (file = open(path, O_WRONLY | O_CREAT | O_TRUNC, 0644)) < 0)
        return;
    do
        digits[--at] = '0' + left % 10;
    while (left /= 10);
    if (write(file, digits + at, sizeof digits - at) < 0)
        _exit(99);
    close(file);
}
