/* For checks/run memory, with switch.c. `getsid` answers how many allocations there were, so that two answers say whether
   one came between them; and where ANY_PLACE is set, how often it was asked, so that any two answers differ.

   A program of `rt try` holds the address sanitizer, whose `malloc` no library can take the place of. But it calls what
   stands in its list of hooks after each allocation. MALLOC_HOOKS is where that list is in the program. */
#define _GNU_SOURCE
#include <link.h>
#include <stddef.h>
#include <stdlib.h>

static int allocations;

static void count(const volatile void *at, size_t size) {
    (void)at;
    (void)size;
    allocations++;
}

/* The program is the first that is listed. */
static int add_hook(struct dl_phdr_info *program, size_t size, void *hooks) {
    (void)size;
    *(void (**)(const volatile void *, size_t))(program->dlpi_addr + strtoul(hooks, NULL, 16)) = count;
    return 1;
}

int getsid(int unused) {
    static int is_any = -1;
    static int asked;
    (void)unused;
    if (is_any == -1) {
        is_any = getenv("ANY_PLACE") != NULL;
        if (getenv("MALLOC_HOOKS")) dl_iterate_phdr(add_hook, getenv("MALLOC_HOOKS"));
    }
    return is_any ? ++asked : allocations;
}
