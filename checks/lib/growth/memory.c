/* memory CALL SHAPE: makes a call on 100 MB without room for what it writes, and prints how many kB of memory the process
 * has taken at most beyond the input, the status and the count. */
#include "simple_asn1.h"
#include <stdio.h>
#include <stdlib.h>
#include <string.h>
#include <sys/resource.h>

enum { SIZE = 100000000 };

static const struct {
    const char *name;
    size_t size;
    const char *item;
    const char *front; /* in the place of the first octets: the header of one encoding of all that follow */
} shapes[] = {
    {"NULLs", 2, "\x05\0", ""},
    {"empty groups", 2, "\x30\0", ""},
    {"groups", 8, "\x30\6\4\4\1\2\3\4", ""},
    {"nests", 16, "\x30\16\x31\14\xA0\12\x30\10\x61\6\x30\4\x05\0\x05\0", ""},
    {"attempts", 8, "\xA0\6\4\2\1\2\2\5", ""}, /* with a header that is cut off at the end */
    /* not canonical, by needless octets: of a number, of the lengths, of a subidentifier */
    {"long INTEGERs", 4, "\2\2\0\5", ""},
    {"long groups", 10, "\x30\x81\7\4\5\1\2\3\4\5", ""},
    {"long nests", 20, "\x30\x81\21\x31\x81\16\xA0\x81\13\x30\x81\10\x61\x81\5\x30\x81\2\5\0", ""},
    {"long attempts", 8, "\xA0\x81\5\4\1\1\2\5", ""},
    {"one INTEGER", 2, "\0\0", "\x02\x84\x05\xF5\xE0\xFA"},
    {"one OBJECT IDENTIFIER", 2, "\x80\5", "\x06\x84\x05\xF5\xE0\xFA"},
    {"a cut-off OBJECT IDENTIFIER", 2, "\5\x85", "\x06\x84\x05\xF5\xE0\xFA"},
};

static long most(void)
{
    struct rusage used;
    getrusage(RUSAGE_SELF, &used);
    return used.ru_maxrss;
}

static int fill(uint8_t *octets, const char *shape)
{
    for (size_t it = 0; it < sizeof shapes / sizeof *shapes; it++)
        if (!strcmp(shape, shapes[it].name)) {
            for (size_t place = 0; place < SIZE; place += shapes[it].size)
                memcpy(octets + place, shapes[it].item, shapes[it].size);
            memcpy(octets, shapes[it].front, strlen(shapes[it].front));
            return 1;
        }
    return 0;
}

/* the count is how many items what was signed has */
static simple_asn1_outcome signed_of(const uint8_t *octets)
{
    simple_asn1_signed_parts parts = simple_asn1_signed(octets, SIZE);
    simple_asn1_outcome found = {parts.status, parts.offset, parts.content.items};
    return found;
}

static simple_asn1_outcome called(const char *call, const uint8_t *octets)
{
    static const size_t steps[] = {1};
    static const simple_asn1_path path = {0, 1};
    static simple_asn1_value value;
    if (!strcmp(call, "read_strict"))
        return simple_asn1_read_strict(octets, SIZE, NULL, 0);
    if (!strcmp(call, "outline"))
        return simple_asn1_outline(octets, SIZE, NULL, 0);
    if (!strcmp(call, "values"))
        return simple_asn1_values(octets, SIZE, steps, 1, &path, 1, NULL, 0);
    if (!strcmp(call, "no values"))
        return simple_asn1_values(octets, SIZE, steps, 1, NULL, 0, NULL, 0);
    if (!strcmp(call, "a value"))
        return simple_asn1_values(octets, SIZE, steps, 1, &path, 1, &value, 1);
    if (!strcmp(call, "check"))
        return simple_asn1_check(octets, SIZE);
    if (!strcmp(call, "signed") || !strcmp(call, "signed triple"))
        return signed_of(octets);
    if (!strcmp(call, "rewrite") || !strcmp(call, "refused rewrite"))
        return simple_asn1_rewrite(octets, SIZE, NULL, 0);
    if (!strcmp(call, "departures"))
        return simple_asn1_departures(octets, SIZE, NULL, 0);
    return simple_asn1_read(octets, SIZE, NULL, 0);
}

/* At the end a header is cut off. */
static void cut_off(uint8_t *octets)
{
    octets[SIZE - 2] = 2;
    octets[SIZE - 1] = 5;
}

/* Calls of their own documents: `kept` of [0], which stays as it came, and `signed triple` of one around the items. */
static void change(const char *call, uint8_t *octets)
{
    if (!strcmp(call, "kept"))
        memcpy(octets, "\xA0\x84\x05\xF5\xE0\xFA", 6);
    if (!strcmp(call, "kept") || !strcmp(call, "refused rewrite"))
        cut_off(octets);
    if (!strcmp(call, "signed triple")) {
        memcpy(octets, "\x30\x84\x05\xF5\xE0\xFA\x30\x84\x05\xF5\xE0\xE8", 12);
        memcpy(octets + SIZE - 12, "\x30\5\6\3\x2B\x65\x70\3\3\0\xAB\xAB", 12);
    }
}

int main(int count, char **words)
{
    uint8_t *octets = malloc(SIZE);
    if (count != 3 || !octets || !fill(octets, words[2]))
        return 2;
    change(words[1], octets);
    long before = most();
    simple_asn1_outcome found = called(words[1], octets);
    printf("%ld %u %zu\n", most() - before, (unsigned)found.status, found.count);
    free(octets);
    return 0;
}
