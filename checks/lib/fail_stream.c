/* Preloaded before others: the read of standard input with the number in FAIL_READ fails, and each later one; and so
 * does the write to standard output with the number in FAIL_WRITE. */
#define _GNU_SOURCE
#include <dlfcn.h>
#include <errno.h>
#include <stdlib.h>
#include <unistd.h>

static int fails(const char *name, int *count)
{
    const char *from = getenv(name);
    return from && ++*count >= atoi(from);
}

ssize_t read(int file, void *octets, size_t size)
{
    static int count;
    ssize_t (*next)(int, void *, size_t) = (ssize_t (*)(int, void *, size_t))dlsym(RTLD_NEXT, "read");
    if (file == STDIN_FILENO && fails("FAIL_READ", &count)) {
        errno = EIO;
        return -1;
    }
    return next(file, octets, size);
}

ssize_t write(int file, const void *octets, size_t size)
{
    static int count;
    ssize_t (*next)(int, const void *, size_t) = (ssize_t (*)(int, const void *, size_t))dlsym(RTLD_NEXT, "write");
    if (file == STDOUT_FILENO && fails("FAIL_WRITE", &count)) {
        errno = EIO;
        return -1;
    }
    return next(file, octets, size);
}
