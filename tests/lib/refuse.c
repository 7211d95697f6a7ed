/* Loaded before the C library (LD_PRELOAD), it refuses allocations of a program, as malloc does if there is
   no memory: the allocation of the number REFUSED, counted from 1, and with REFUSED_ON=1 each after it too. As the
   program ends it writes how many it asked for to the file that ASKED names. For the C library of GNU. */
#include <errno.h>
#include <fcntl.h>
#include <stdio.h>
#include <stdlib.h>
#include <unistd.h>

void *__libc_malloc(size_t size);
void *__libc_calloc(size_t count, size_t size);
void *__libc_realloc(void *old, size_t size);
void *__libc_memalign(size_t alignment, size_t size);

static unsigned long asked;

static int refused(void)
{
    static unsigned long refused;
    static int on, known;
    if (!known) {
        const char *number = getenv("REFUSED");
        refused = number ? strtoul(number, NULL, 10) : 0;
        on = getenv("REFUSED_ON") != NULL;
        known = 1;
    }
    asked++;
    int none = refused != 0 && (asked == refused || (on && asked > refused));
    if (none)
        errno = ENOMEM;
    return none;
}

void *malloc(size_t size)
{
    return refused() ? NULL : __libc_malloc(size);
}

void *calloc(size_t count, size_t size)
{
    return refused() ? NULL : __libc_calloc(count, size);
}

void *realloc(void *old, size_t size)
{
    return refused() ? NULL : __libc_realloc(old, size);
}

void *memalign(size_t alignment, size_t size)
{
    return refused() ? NULL : __libc_memalign(alignment, size);
}

void *aligned_alloc(size_t alignment, size_t size)
{
    return memalign(alignment, size);
}

int posix_memalign(void **made, size_t alignment, size_t size)
{
    void *room = memalign(alignment, size);
    if (room == NULL)
        return ENOMEM;
    *made = room;
    return 0;
}

__attribute__((destructor)) static void tell(void)
{
    const char *path = getenv("ASKED");
    int file = path ? open(path, O_WRONLY | O_CREAT | O_TRUNC, 0600) : -1;
    if (file >= 0) {
        dprintf(file, "%lu\n", asked);
        close(file);
    }
}
