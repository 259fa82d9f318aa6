/* The calls for bindings that make values of their own: what each puts, and what it refuses. The octets are worked out
 * by hand from X.690. */
#include "simple_asn1.h"
#include <stdio.h>
#include <stdlib.h>

#define CHECK(condition)                                              \
    do {                                                              \
        if (!(condition)) {                                           \
            fprintf(stderr, "values: line %d: %s\n", __LINE__, #condition); \
            exit(1);                                                  \
        }                                                             \
    } while (0)
#define OCTETS(...) (const uint8_t[]){__VA_ARGS__}, sizeof((const uint8_t[]){__VA_ARGS__})

static uint8_t out[64];

static int put(simple_asn1_outcome outcome, const void *octets, size_t size)
{
    return outcome.status == SIMPLE_ASN1_OK && outcome.offset == 0 && outcome.count == size &&
           memcmp(out, octets, size) == 0;
}

static int refused(simple_asn1_outcome outcome, uint32_t status, size_t offset, size_t count)
{
    return outcome.status == status && outcome.offset == offset && outcome.count == count;
}

static int fault(simple_asn1_refusal refusal, uint32_t status, size_t offset, uint64_t number, const char *text)
{
    return refusal.status == status && refusal.offset == offset && refusal.number == number &&
           put(refusal.text, text, strlen(text));
}

/* a subidentifier or tag number of 2^64 */
#define LARGE 0x82, 0x80, 0x80, 0x80, 0x80, 0x80, 0x80, 0x80, 0x80, 0x00

static void reading(void)
{
    uint64_t numbers[4] = {0, 0, 0, 7};
    CHECK(refused(simple_asn1_components(OCTETS(0x2A, 0x86, 0x48), numbers, 2), SIMPLE_ASN1_NO_ROOM, 0, 3));
    CHECK(refused(simple_asn1_components(OCTETS(0x2A, 0x86, 0x48), numbers, 4), SIMPLE_ASN1_OK, 0, 3));
    CHECK(numbers[0] == 1 && numbers[1] == 2 && numbers[2] == 840 && numbers[3] == 7);
    CHECK(refused(simple_asn1_components(OCTETS(0x2A, LARGE), numbers, 4), SIMPLE_ASN1_RANGE, 0, 0));
    CHECK(refused(simple_asn1_components(NULL, 0, numbers, 4), SIMPLE_ASN1_INCOMPLETE, 0, 0));
    CHECK(put(simple_asn1_dotted(OCTETS(0x2A, LARGE), out, 64), "1.2.18446744073709551616", 24));
    CHECK(refused(simple_asn1_dotted(OCTETS(0x2A, 0x86), out, 64), SIMPLE_ASN1_INCOMPLETE, 0, 0));
    uint8_t wide[22] = {6, 20, 0x55, 0x90}; /* 2^130 */
    memset(wide + 4, 0x80, 17);
    CHECK(put(simple_asn1_oid(wide, 22, 0, out, 64), "2.5.1361129467683753853853498429727072845824", 44));
    /* components and tags of any size, by their octets */
    CHECK(refused(simple_asn1_component(OCTETS(0x2A, 0x86, 0x48, LARGE, 0x05), 1), SIMPLE_ASN1_OK, 0, 2));
    CHECK(refused(simple_asn1_component(OCTETS(0x2A, 0x86, 0x48, LARGE, 0x05), 3), SIMPLE_ASN1_OK, 0, 10));
    CHECK(refused(simple_asn1_component(OCTETS(0x2A, 0x86, 0x48, LARGE, 0x05), 13), SIMPLE_ASN1_OK, 0, 1));
    CHECK(refused(simple_asn1_component(OCTETS(0x2A, 0x86, 0x48, LARGE, 0x05), 14), SIMPLE_ASN1_NO_SUCH_VALUE, 14, 0));
    CHECK(refused(simple_asn1_component(OCTETS(0x2A, 0x86, 0x48), 0), SIMPLE_ASN1_NO_SUCH_VALUE, 0, 0));
    CHECK(refused(simple_asn1_component(OCTETS(0x2A, 0x86, 0xC8), 1), SIMPLE_ASN1_INCOMPLETE, 1, 0));
    CHECK(refused(simple_asn1_component(NULL, 0, 0), SIMPLE_ASN1_NO_SUCH_VALUE, 0, 0));
    CHECK(refused(simple_asn1_tag_octets(OCTETS(0x05, 0x00, 0x9F, LARGE, 0x00), 2), SIMPLE_ASN1_OK, 0, 10));
    CHECK(refused(simple_asn1_tag_octets(OCTETS(0x05, 0x00), 0), SIMPLE_ASN1_OK, 0, 0));
    CHECK(refused(simple_asn1_tag_octets(OCTETS(0x1F, 0x05, 0x00), 0), SIMPLE_ASN1_OK, 0, 1));
    CHECK(refused(simple_asn1_tag_octets(OCTETS(0x05, 0x00), 1), SIMPLE_ASN1_NO_SUCH_VALUE, 1, 0));
    CHECK(put(simple_asn1_dotted(OCTETS(0xFF, 0x7F), out, simple_asn1_oid_room(2)), "2.175.127", 9));
    CHECK(put(simple_asn1_dotted(OCTETS(0xFF), out, simple_asn1_oid_room(1)), "2.175", 5));
    CHECK(put(simple_asn1_tag(OCTETS(0x9F, 0x1F, 0x00), 0, out, simple_asn1_tag_room(3)), "31", 2));
    CHECK(put(simple_asn1_shortest_oid(OCTETS(0x2A, 0x86, 0x48), out, 64), "\x2A\x86\x48", 3));
    CHECK(put(simple_asn1_shortest_oid(OCTETS(0x2A, 0x80, 0x86, 0x48, 0x80, 0x05), out, 64), "\x2A\x86\x48\x05", 4));
    CHECK(refused(simple_asn1_shortest_oid(OCTETS(0x2A, 0x86), out, 64), SIMPLE_ASN1_INCOMPLETE, 0, 0));
    CHECK(refused(simple_asn1_shortest_oid(OCTETS(0x2A, 0x80, 0x05), out, 1), SIMPLE_ASN1_NO_ROOM, 0, 2));

    simple_asn1_block block;
    CHECK(refused(simple_asn1_header(OCTETS(0x30, 0x03, 0x02, 0x01, 0x05), 2, &block, 1), SIMPLE_ASN1_OK, 0, 1));
    CHECK(block.tag == 2 && block.offset == 2 && block.header == 2 && block.contents == 1 && block.items == 0);
    CHECK(block.tag_class == 0 && block.constructed == 0 && block.next == 0 && block.depth == 0);
    CHECK(refused(simple_asn1_header(OCTETS(0x05, 0x00), 0, NULL, 0), SIMPLE_ASN1_NO_ROOM, 0, 1));
    CHECK(refused(simple_asn1_header(OCTETS(0x05, 0x00, 0x05), 2, &block, 1), SIMPLE_ASN1_NO_SUCH_VALUE, 2, 0));
    CHECK(put(simple_asn1_tag(OCTETS(0x05, 0x00, 0x9F, LARGE, 0x00), 2, out, 64), "18446744073709551616", 20));
    CHECK(refused(simple_asn1_tag(OCTETS(0x05), 0, out, 64), SIMPLE_ASN1_NO_SUCH_VALUE, 0, 0));

    CHECK(fault(simple_asn1_fault(OCTETS(0x05, 0x00), out, 64), SIMPLE_ASN1_OK, 0, 0, ""));
    CHECK(fault(simple_asn1_fault(OCTETS(0x05, 0x00, 0x01, 0x02, 0x00, 0x00), out, 64),
                SIMPLE_ASN1_BOOLEAN_LENGTH, 2, 2, ""));
    CHECK(fault(simple_asn1_fault(OCTETS(0x04, 0x89), out, 64), SIMPLE_ASN1_LENGTH, 0, 9, ""));
    CHECK(fault(simple_asn1_fault(OCTETS(0x03, 0x02, 0x0A, 0xFF), out, 64), SIMPLE_ASN1_BIT_STRING_LENGTH, 0, 2, ""));
    CHECK(fault(simple_asn1_fault(OCTETS(0x17, 0x01, 0x41), out, 64), SIMPLE_ASN1_DATE, 0, 0, "1"));
    CHECK(refused(simple_asn1_fault(OCTETS(0x17, 0x01, 0x41), NULL, 0).text, SIMPLE_ASN1_NO_ROOM, 0, 1));
}

static int has_bits(simple_asn1_bit_string found, uint32_t status, size_t start, size_t size, size_t bits)
{
    return found.status == status && found.start == start && found.size == size && found.bits == bits;
}

static void bits(void)
{
    CHECK(has_bits(simple_asn1_bits(OCTETS(0x03, 0x02, 0x04, 0xB0), 0), SIMPLE_ASN1_OK, 3, 1, 4));
    CHECK(has_bits(simple_asn1_bits(OCTETS(0x05, 0x00, 0x03, 0x03, 0x0A, 0xFF, 0xFF), 2), SIMPLE_ASN1_OK, 5, 2, 6));
    CHECK(has_bits(simple_asn1_bits(OCTETS(0x03, 0x02, 0x08, 0xFF), 0), SIMPLE_ASN1_OK, 3, 1, 0));
    CHECK(has_bits(simple_asn1_bits(OCTETS(0x03, 0x01, 0x00), 0), SIMPLE_ASN1_OK, 3, 0, 0));
    CHECK(has_bits(simple_asn1_bits(OCTETS(0x03, 0x00), 0), SIMPLE_ASN1_OK, 2, 0, 0));
    CHECK(has_bits(simple_asn1_bits(OCTETS(0x03, 0x81, 0x02, 0x04, 0xB0), 0), SIMPLE_ASN1_OK, 4, 1, 4));
    CHECK(has_bits(simple_asn1_bits(OCTETS(0x1F, 0x03, 0x02, 0x04, 0xB0), 0), SIMPLE_ASN1_OK, 4, 1, 4));
    /* the parts of a constructed one are not joined */
    CHECK(has_bits(simple_asn1_bits(OCTETS(0x23, 0x04, 0x03, 0x02, 0x00, 0xFF), 0), SIMPLE_ASN1_OK, 3, 3, 21));
    /* more unused bits than there are */
    CHECK(has_bits(simple_asn1_bits(OCTETS(0x03, 0x01, 0x07), 0), SIMPLE_ASN1_BIT_STRING_LENGTH, 0, 0, 0));
    CHECK(has_bits(simple_asn1_bits(OCTETS(0x03, 0x02, 0x09, 0x00), 0), SIMPLE_ASN1_BIT_STRING_LENGTH, 0, 0, 0));
    CHECK(has_bits(simple_asn1_bits(OCTETS(0x03, 0x03, 0xFF, 0x01, 0x02), 0), SIMPLE_ASN1_BIT_STRING_LENGTH, 0, 0, 0));
    /* another type, another class, and nothing */
    CHECK(has_bits(simple_asn1_bits(OCTETS(0x04, 0x02, 0x04, 0xB0), 0), SIMPLE_ASN1_NO_SUCH_VALUE, 0, 0, 0));
    CHECK(has_bits(simple_asn1_bits(OCTETS(0x83, 0x02, 0x04, 0xB0), 0), SIMPLE_ASN1_NO_SUCH_VALUE, 0, 0, 0));
    CHECK(has_bits(simple_asn1_bits(OCTETS(0x03, 0x02, 0x04), 0), SIMPLE_ASN1_NO_SUCH_VALUE, 0, 0, 0));
    CHECK(has_bits(simple_asn1_bits(OCTETS(0x03, 0x00), 2), SIMPLE_ASN1_NO_SUCH_VALUE, 0, 0, 0));
    CHECK(has_bits(simple_asn1_bits(NULL, 0, SIZE_MAX), SIMPLE_ASN1_NO_SUCH_VALUE, 0, 0, 0));
}

/* What is put in decimal, and read of it, has a bound: above it stands the status, and below it all is as ever. */
static void long_numbers(void)
{
    static uint8_t octets[1029], text[4099];
    octets[0] = 0x06, octets[1] = 0x82, octets[2] = 0x04, octets[3] = 0x00, octets[4] = 0x2A;
    memset(octets + 5, 0x01, 1024);
    /* 1.2, and .1 a thousand times and more */
    CHECK(refused(simple_asn1_oid(octets, 1028, 0, NULL, 0), SIMPLE_ASN1_NO_ROOM, 0, 3 + 2 * 1023));
    CHECK(refused(simple_asn1_dotted(octets + 4, 1024, NULL, 0), SIMPLE_ASN1_NO_ROOM, 0, 3 + 2 * 1023));
    CHECK(refused(simple_asn1_dotted(octets + 4, 1025, NULL, 0), SIMPLE_ASN1_TOO_LONG, 0, 0));
    octets[3] = 0x01;
    CHECK(refused(simple_asn1_oid(octets, 1029, 0, NULL, 0), SIMPLE_ASN1_TOO_LONG, 0, 0));
    /* one component, 128^1022, which has 2,154 digits */
    memset(octets + 5, 0x80, 1023);
    octets[3] = 0x00, octets[5] = 0x81, octets[1027] = 0x00;
    CHECK(refused(simple_asn1_oid(octets, 1028, 0, NULL, 0), SIMPLE_ASN1_NO_ROOM, 0, 4 + 2154));
    CHECK(refused(simple_asn1_component(octets + 4, 1024, 1), SIMPLE_ASN1_OK, 0, 1023));
    /* cut off, and too long */
    octets[1027] = 0x80;
    CHECK(refused(simple_asn1_oid(octets, 1028, 0, NULL, 0), SIMPLE_ASN1_INCOMPLETE, 0, 0));
    CHECK(refused(simple_asn1_dotted(octets + 4, 1025, NULL, 0), SIMPLE_ASN1_TOO_LONG, 0, 0));
    /* a tag number of 128^1022 in 1,024 identifier octets, and of 128^1023 in one more */
    octets[0] = 0x9F, octets[1] = 0x81;
    memset(octets + 2, 0x80, 1023);
    octets[1023] = 0x00, octets[1024] = 0x00;
    CHECK(refused(simple_asn1_tag(octets, 1025, 0, NULL, 0), SIMPLE_ASN1_NO_ROOM, 0, 2154));
    octets[1023] = 0x80, octets[1025] = 0x00;
    CHECK(refused(simple_asn1_tag(octets, 1026, 0, NULL, 0), SIMPLE_ASN1_TOO_LONG, 0, 0));
    CHECK(refused(simple_asn1_tag_octets(octets, 1026, 0), SIMPLE_ASN1_OK, 0, 1024));
    /* 1.2.1.1 .. of 4,097 characters, and of one more: ..12 */
    for (size_t index = 0; index < sizeof text; index++)
        text[index] = index % 2 ? '.' : '1';
    text[2] = '2';
    CHECK(refused(simple_asn1_put_oid(text, 4097, NULL, 0), SIMPLE_ASN1_NO_ROOM, 0, 2048));
    text[4097] = '2';
    CHECK(refused(simple_asn1_put_oid(text, 4098, NULL, 0), SIMPLE_ASN1_TOO_LONG, 0, 0));
    CHECK(refused(simple_asn1_put_oid(text + 1, 4098, NULL, 0), SIMPLE_ASN1_TOO_LONG, 0, 0));
    memset(text, '1', sizeof text);
    uint32_t status = simple_asn1_encoding(2, 0, text, 3072, NULL, 0, NULL, 0).status;
    CHECK(status == SIMPLE_ASN1_NO_ROOM);
    CHECK(refused(simple_asn1_encoding(2, 0, text, 3073, NULL, 0, NULL, 0), SIMPLE_ASN1_TOO_LONG, 0, 0));
    CHECK(refused(simple_asn1_encoding(4, 0, text, 3073, NULL, 0, NULL, 0), SIMPLE_ASN1_BAD_RECORD, 0, 0));
}

static void writing(void)
{
    CHECK(put(simple_asn1_raw_bits(OCTETS(0xFF), 1, out, 64), "\x07\xFF", 2));
    CHECK(put(simple_asn1_raw_bits(OCTETS(0xFF, 0xFF), 3, out, 64), "\x0D\xFF\xFF", 3));
    CHECK(refused(simple_asn1_raw_bits(OCTETS(0xFF), 9, out, 64), SIMPLE_ASN1_RANGE, 0, 0));
    CHECK(put(simple_asn1_raw_oid((const uint64_t[]){2, 5, 4, 3}, 4, out, 64), "\x55\x04\x03", 3));
    CHECK(refused(simple_asn1_raw_oid((const uint64_t[]){1}, 1, out, 64), SIMPLE_ASN1_NOT_OID, 0, 0));
    CHECK(refused(simple_asn1_raw_oid((const uint64_t[]){3, 1}, 2, out, 64), SIMPLE_ASN1_RANGE, 0, 0));
    CHECK(refused(simple_asn1_raw_oid((const uint64_t[]){1, 40}, 2, out, 64), SIMPLE_ASN1_RANGE, 1, 0));
    CHECK(put(simple_asn1_raw_text(19, OCTETS('*'), out, 64), "*", 1));
    CHECK(put(simple_asn1_raw_text(22, OCTETS(0xC3, 0xA9), out, 64), "\xE9", 1));
    CHECK(put(simple_asn1_raw_text(12, OCTETS(0xC3, 0xA9), out, 64), "\xC3\xA9", 2));
    CHECK(refused(simple_asn1_raw_text(22, OCTETS(0xC4, 0x80), out, 64), SIMPLE_ASN1_RANGE, 0, 0));
    CHECK(refused(simple_asn1_raw_text(22, OCTETS(0xC3), out, 64), SIMPLE_ASN1_UTF8, 0, 0));
    CHECK(refused(simple_asn1_raw_text(16, OCTETS('a'), out, 64), SIMPLE_ASN1_NO_SUCH_VALUE, 0, 0));
    simple_asn1_moment moment = {0, 2060, 1, 2, 3, 4, 5, 0};
    CHECK(put(simple_asn1_raw_time(23, &moment, out, 64), "600102030405Z", 13));
    CHECK(put(simple_asn1_raw_time(24, &moment, out, 64), "20600102030405Z", 15));
    CHECK(refused(simple_asn1_raw_time(4, &moment, out, 64), SIMPLE_ASN1_NO_SUCH_VALUE, 0, 0));
    moment.year = -1;
    CHECK(refused(simple_asn1_raw_time(24, &moment, out, 64), SIMPLE_ASN1_DATE, 0, 0));

    /* contents octets that are not canonical stay as they are */
    simple_asn1_block block = {0, 0, 0, 4, 0, 0, 0, 2, 1};
    CHECK(put(simple_asn1_spell(OCTETS(0x02, 0x02, 0x00, 0x05), &block, 1, out, 64), "\xA0\x04\x02\x02\x00\x05", 6));
    block.tag_class = 4;
    CHECK(refused(simple_asn1_spell(OCTETS(0x02, 0x02, 0x00, 0x05), &block, 1, out, 64), SIMPLE_ASN1_BAD_RECORD, 0, 0));
    const uint8_t *number = (const uint8_t *)"31x";
    CHECK(put(simple_asn1_encoding(1, 1, number, 2, OCTETS(0x05, 0x00), out, 64), "\x7F\x1F\x02\x05\x00", 5));
    CHECK(refused(simple_asn1_encoding(1, 1, number, 3, OCTETS(0x05, 0x00), out, 64), SIMPLE_ASN1_BAD_RECORD, 0, 0));
    CHECK(refused(simple_asn1_encoding(4, 1, number, 2, OCTETS(0x05, 0x00), out, 64), SIMPLE_ASN1_BAD_RECORD, 0, 0));
}

int main(void)
{
    reading();
    bits();
    long_numbers();
    writing();
    puts("values: each call puts what it says");
}
