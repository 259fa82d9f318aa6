/* What each block of outlines is: of each line of hex digits, a document, a line with the fields of each block, and the
 * value of each kind or why it has none. fuzzed.py compares them. */
#include "documents.h"

static uint8_t digit(int character)
{
    return character <= '9' ? character - '0' : character - 'a' + 10;
}

static void print_error(uint32_t status)
{
    printf("|!%s", simple_asn1_status_text(status));
}

static void print_octets(const uint8_t *octets, size_t size)
{
    for (size_t index = 0; index < size; index++)
        printf("%02x", octets[index]);
}

/* Where the text that a call writes is, into just as much room as it needs; and whether in digits of its octets. */
typedef simple_asn1_outcome written(const uint8_t *, size_t, size_t, uint8_t *, size_t);
static void print_text(written *call, const uint8_t *octets, size_t size, size_t offset, int in_digits)
{
    simple_asn1_outcome needed = call(octets, size, offset, NULL, 0);
    if (needed.status != SIMPLE_ASN1_OK && needed.status != SIMPLE_ASN1_NO_ROOM) {
        print_error(needed.status);
        return;
    }
    uint8_t *text = malloc(needed.count ? needed.count : 1);
    CHECK(text && call(octets, size, offset, text, needed.count).status == SIMPLE_ASN1_OK);
    putchar('|');
    if (in_digits)
        print_octets(text, needed.count);
    else
        fwrite(text, 1, needed.count, stdout);
    free(text);
}

static void print_bits(const uint8_t *octets, size_t size, size_t offset)
{
    simple_asn1_bit_string found = simple_asn1_bits(octets, size, offset);
    if (found.status != SIMPLE_ASN1_OK) {
        print_error(found.status);
        return;
    }
    printf("|%zu:", found.bits);
    print_octets(octets + found.start, found.size);
}

static void print_time(const uint8_t *octets, size_t size, size_t offset)
{
    simple_asn1_moment m = simple_asn1_time(octets, size, offset);
    if (m.status != SIMPLE_ASN1_OK) {
        print_error(m.status);
        return;
    }
    printf("|%04d-%02u-%02uT%02u:%02u:%02u", (int)m.year, m.month, m.day, m.hour, m.minute, m.second);
    if (m.nanosecond)
        printf(".%09u", m.nanosecond);
    putchar('Z');
}

static void print_block(const uint8_t *octets, size_t size, const simple_asn1_block *block)
{
    simple_asn1_integer number = simple_asn1_int64(octets, size, block->offset);
    printf("%zu|%zu|", block->offset, block->items);
    print_octets(simple_asn1_contents(octets, block), block->contents);
    if (number.status == SIMPLE_ASN1_OK)
        printf("|%lld", (long long)number.value);
    else
        print_error(number.status);
    print_bits(octets, size, block->offset);
    print_time(octets, size, block->offset);
    print_text(simple_asn1_text, octets, size, block->offset, 1);
    print_text(simple_asn1_oid, octets, size, block->offset, 0);
    putchar(';');
}

int main(void)
{
    static char line[1 << 16];
    static simple_asn1_block blocks[1 << 10];
    while (fgets(line, sizeof line, stdin)) {
        size_t size = strcspn(line, "\n") / 2;
        uint8_t *octets = malloc(size ? size : 1);
        CHECK(octets);
        for (size_t index = 0; index < size; index++)
            octets[index] = 16 * digit(line[2 * index]) + digit(line[2 * index + 1]);
        simple_asn1_outcome all = simple_asn1_outline(octets, size, blocks, sizeof blocks / sizeof *blocks);
        CHECK(all.status == SIMPLE_ASN1_OK);
        for (size_t index = 0; index < all.count; index++)
            print_block(octets, size, &blocks[index]);
        putchar('\n');
        free(octets);
    }
    return 0;
}
