/* An allocator to be preloaded that counts the calls which ask for memory and refuses some of them.

   REFUSE_AT=N refuses the Nth call alone, REFUSE_FROM=N each from the Nth on. With COUNT_TO=PATH the number of calls
   and the number of refused ones are written there at the program's end. Only what is asked for once the program's
   own code may run counts. All is done by the allocator of the GNU C library. */
#include <errno.h>
#include <fcntl.h>
#include <stdio.h>
#include <stdlib.h>
#include <unistd.h>

extern void *__libc_malloc(size_t size);
extern void *__libc_calloc(size_t count, size_t size);
extern void *__libc_realloc(void *old, size_t size);
extern void *__libc_memalign(size_t alignment, size_t size);

static int counting;
static unsigned long calls, refused, only, from;

/* The number in an environment variable, 0 where there is none. */
static unsigned long number_of(const char *name)
{
    const char *text = getenv(name);
    return text ? strtoul(text, NULL, 10) : 0;
}

__attribute__((constructor)) static void begin(void)
{
    only = number_of("REFUSE_AT");
    from = number_of("REFUSE_FROM");
    counting = 1;
}

__attribute__((destructor)) static void end(void)
{
    char line[64];
    const char *path = getenv("COUNT_TO");
    counting = 0;
    if (!path)
        return;
    int file = open(path, O_WRONLY | O_CREAT | O_TRUNC, 0600);
    int length = snprintf(line, sizeof line, "%lu %lu\n", calls, refused);
    if (write(file, line, length) != length)
        _exit(99);
    close(file);
}

/* Counts a call, and answers whether it is refused. */
static int is_refused(void)
{
    if (!counting)
        return 0;
    calls++;
    if (calls != only && (!from || calls < from))
        return 0;
    refused++;
    errno = ENOMEM;
    return 1;
}

void *malloc(size_t size)
{
    return is_refused() ? NULL : __libc_malloc(size);
}

void *calloc(size_t count, size_t size)
{
    return is_refused() ? NULL : __libc_calloc(count, size);
}

void *realloc(void *old, size_t size)
{
    return is_refused() ? NULL : __libc_realloc(old, size);
}

void *memalign(size_t alignment, size_t size)
{
    return is_refused() ? NULL : __libc_memalign(alignment, size);
}

void *aligned_alloc(size_t alignment, size_t size)
{
    return memalign(alignment, size);
}

int posix_memalign(void **place, size_t alignment, size_t size)
{
    void *made = memalign(alignment, size);
    if (made)
        *place = made;
    return made ? 0 : ENOMEM;
}
