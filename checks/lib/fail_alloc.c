// Preloaded: refuses the allocation of the number that the environment names in FAIL_ALLOC, counted from 1, and, where
// FAIL_AFTER is set, all after it. A refused allocation leaves a file of the name in REFUSED, where that is set.
//
// A program of `rt try` holds the address sanitizer, whose `malloc` no library can take the place of. MALLOC_AT and
// REALLOC_AT are where its two functions are in the program: they begin with a jump to those below then, which take
// memory of the sanitizer's `memalign`.
#define _GNU_SOURCE
#include <dlfcn.h>
#include <fcntl.h>
#include <link.h>
#include <malloc.h>
#include <stddef.h>
#include <stdlib.h>
#include <string.h>
#include <sys/mman.h>
#include <unistd.h>

enum { PAGE = 4096, ALIGNMENT = 16 };

static long asked;

static int is_refused(void) {
    const char *n = getenv("FAIL_ALLOC");
    long refused = n ? atol(n) : -1;
    asked++;
    if (asked != refused && !(refused > 0 && asked > refused && getenv("FAIL_AFTER"))) return 0;
    const char *name = getenv("REFUSED");
    if (name) close(open(name, O_CREAT | O_WRONLY, 0600));
    return 1;
}

void *malloc(size_t size) {
    static void *(*real)(size_t);
    if (!real) real = (void *(*)(size_t))dlsym(RTLD_NEXT, "malloc");
    return is_refused() ? NULL : real(size);
}

void *realloc(void *old, size_t size) {
    static void *(*real)(void *, size_t);
    if (!real) real = (void *(*)(void *, size_t))dlsym(RTLD_NEXT, "realloc");
    return is_refused() ? NULL : real(old, size);
}

static void *sanitized_malloc(size_t size) { return is_refused() ? NULL : memalign(ALIGNMENT, size); }

static void *sanitized_realloc(void *old, size_t size) {
    void *moved = is_refused() ? NULL : memalign(ALIGNMENT, size);
    if (!moved || !old) return moved;
    size_t kept = malloc_usable_size(old);
    memcpy(moved, old, kept < size ? kept : size);
    free(old);
    return moved;
}

// The function at this place of the program begins with: mov rax, TARGET; jmp rax.
static void lead(char *function, void *target) {
    char code[12] = {0x48, (char)0xB8, [10] = (char)0xFF, [11] = (char)0xE0};
    memcpy(code + 2, &target, sizeof target);
    char *page = function - (size_t)function % PAGE;
    if (mprotect(page, 2 * PAGE, PROT_READ | PROT_WRITE | PROT_EXEC)) abort();
    memcpy(function, code, sizeof code);
    if (mprotect(page, 2 * PAGE, PROT_READ | PROT_EXEC)) abort();
}

// The program is the first that is listed.
static int lead_both(struct dl_phdr_info *program, size_t size, void *unused) {
    (void)size;
    (void)unused;
    lead((char *)program->dlpi_addr + strtoul(getenv("MALLOC_AT"), NULL, 16), (void *)sanitized_malloc);
    lead((char *)program->dlpi_addr + strtoul(getenv("REALLOC_AT"), NULL, 16), (void *)sanitized_realloc);
    return 1;
}

__attribute__((constructor)) static void begin(void) {
    if (getenv("MALLOC_AT") && getenv("REALLOC_AT")) dl_iterate_phdr(lead_both, NULL);
}
