/* Counts the calls of malloc, calloc and realloc, and the octets that are live, of the program that it is preloaded
   into, which asks counted_malloc. It takes glibc, whose own calls stand behind these. */
#include <malloc.h>
#include <stddef.h>
#include <stdint.h>

extern void *__libc_malloc(size_t), *__libc_calloc(size_t, size_t), *__libc_realloc(void *, size_t);
extern void *__libc_memalign(size_t, size_t);
extern void __libc_free(void *);
static int64_t calls, live, most;

static void *taken(void *at)
{
    if (at) {
        live += malloc_usable_size(at) + 8; /* glibc keeps 8 octets beside each */
        if (live > most)
            most = live;
    }
    return at;
}

void free(void *at)
{
    if (at)
        live -= malloc_usable_size(at) + 8;
    __libc_free(at);
}

void *malloc(size_t size)
{
    calls++;
    return taken(__libc_malloc(size));
}

void *calloc(size_t count, size_t size)
{
    calls++;
    return taken(__libc_calloc(count, size));
}

void *realloc(void *at, size_t size)
{
    size_t before = at ? malloc_usable_size(at) + 8 : 0;
    void *to = __libc_realloc(at, size);
    calls++;
    if (to || size == 0)
        live -= before;
    return taken(to);
}

void *aligned_alloc(size_t alignment, size_t size)
{
    calls++;
    return taken(__libc_memalign(alignment, size));
}

int posix_memalign(void **to, size_t alignment, size_t size)
{
    *to = aligned_alloc(alignment, size);
    return *to ? 0 : 12;
}

/* The calls so far, the octets live, and the most that were live since this was asked last. */
void counted_malloc(int64_t to[3])
{
    to[0] = calls;
    to[1] = live;
    to[2] = most;
    most = live;
}
