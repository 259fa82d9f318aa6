/* Values that are put, those that are refused, too little room, and documents that a builder makes. The octets that are
 * wanted are by X.690; test_simple_asn1.py has more, by openssl. */
#include "documents.h"

#define TEXT(text) (const uint8_t *)(text), sizeof(text) - 1

static uint8_t out[64];

/* The call put these octets, and nothing behind them. */
static int put(simple_asn1_outcome o, const char *octets, size_t size)
{
    int same = o.status == SIMPLE_ASN1_OK && o.offset == 0 && o.count == size && memcmp(out, octets, size) == 0;
    for (size_t k = size; k < sizeof out; k++)
        same &= out[k] == 0xA5;
    memset(out, 0xA5, sizeof out);
    return same;
}

/* The call put nothing, for this reason. */
static int refused(simple_asn1_outcome o, uint32_t status, size_t count)
{
    for (size_t k = 0; k < sizeof out; k++)
        if (out[k] != 0xA5)
            return 0;
    return o.status == status && o.offset == 0 && o.count == count;
}

static void check_numbers(void)
{
    const uint8_t bits[] = {0xB0, 0x80};
    CHECK(put(simple_asn1_put_boolean(0, out, 1), "\x00", 1));
    CHECK(put(simple_asn1_put_boolean(1, out, 64), "\xFF", 1));
    CHECK(put(simple_asn1_put_boolean(2, out, 64), "\xFF", 1));
    CHECK(refused(simple_asn1_put_boolean(1, out, 0), SIMPLE_ASN1_NO_ROOM, 1));
    CHECK(put(simple_asn1_put_int64(0, out, 64), "\x00", 1));
    CHECK(put(simple_asn1_put_int64(127, out, 64), "\x7F", 1));
    CHECK(put(simple_asn1_put_int64(128, out, 64), "\x00\x80", 2));
    CHECK(put(simple_asn1_put_int64(-128, out, 64), "\x80", 1));
    CHECK(put(simple_asn1_put_int64(-129, out, 64), "\xFF\x7F", 2));
    CHECK(put(simple_asn1_put_int64(INT64_MAX, out, 8), "\x7F\xFF\xFF\xFF\xFF\xFF\xFF\xFF", 8));
    CHECK(put(simple_asn1_put_int64(INT64_MIN, out, 8), "\x80\x00\x00\x00\x00\x00\x00\x00", 8));
    CHECK(refused(simple_asn1_put_int64(INT64_MIN, out, 7), SIMPLE_ASN1_NO_ROOM, 8));
    CHECK(simple_asn1_put_int64(5, NULL, 0).count == 1);
    CHECK(put(simple_asn1_put_bits(bits, 2, 9, out, 64), "\x07\xB0\x80", 3));
    CHECK(put(simple_asn1_put_bits(bits, 2, 16, out, 64), "\x00\xB0\x80", 3));
    CHECK(put(simple_asn1_put_bits(NULL, 0, 0, out, 64), "", 0));
    CHECK(refused(simple_asn1_put_bits(bits, 2, 17, out, 64), SIMPLE_ASN1_RANGE, 0));
    CHECK(refused(simple_asn1_put_bits(bits, 2, 8, out, 64), SIMPLE_ASN1_RANGE, 0));
    CHECK(refused(simple_asn1_put_bits(bits, 1, 0, out, 64), SIMPLE_ASN1_RANGE, 0));
    CHECK(refused(simple_asn1_put_bits(bits, 2, SIZE_MAX, out, 64), SIMPLE_ASN1_RANGE, 0));
    CHECK(refused(simple_asn1_put_bits(bits, 2, 16, out, 2), SIMPLE_ASN1_NO_ROOM, 3));
}

static void check_identifiers(void)
{
    static const char *const none[] = {"", ".", "1.", ".1", "1..2", "1.02", "01.2", "1.-2", "1.+2", "1.2 ", "a", "1,2",
                                       "1.2\n", "1.\xC3\xA4", "1.\xFF"};
    static const char *const unwritten[] = {"1", "2", "3.1", "0.40", "1.40", "2.176", "2.999",
                                            "340282366920938463463374607431768211456.1"};
    CHECK(put(simple_asn1_put_oid(TEXT("1.2.840.113549"), out, 64), "\x2A\x86\x48\x86\xF7\x0D", 6));
    CHECK(put(simple_asn1_put_oid(TEXT("2.5.4.3"), out, 3), "\x55\x04\x03", 3));
    CHECK(put(simple_asn1_put_oid(TEXT("0.0"), out, 64), "\x00", 1));
    CHECK(put(simple_asn1_put_oid(TEXT("2.175.128"), out, 64), "\xFF\x81\x00", 3));
    CHECK(put(simple_asn1_put_oid(TEXT("2.25.340282366920938463463374607431768211456"), out, 64),
              "\x69\x84\x80\x80\x80\x80\x80\x80\x80\x80\x80\x80\x80\x80\x80\x80\x80\x80\x80\x00", 20));
    CHECK(refused(simple_asn1_put_oid(TEXT("2.5.4.3"), out, 2), SIMPLE_ASN1_NO_ROOM, 3));
    CHECK(refused(simple_asn1_put_oid(NULL, 0, out, 64), SIMPLE_ASN1_NOT_OID, 0));
    CHECK(refused(simple_asn1_put_oid(TEXT("1.2\0"), out, 64), SIMPLE_ASN1_NOT_OID, 0));
    for (size_t k = 0; k < sizeof none / sizeof *none; k++)
        CHECK(refused(simple_asn1_put_oid((const uint8_t *)none[k], strlen(none[k]), out, 64), SIMPLE_ASN1_NOT_OID, 0));
    for (size_t k = 0; k < sizeof unwritten / sizeof *unwritten; k++)
        CHECK(refused(simple_asn1_put_oid((const uint8_t *)unwritten[k], strlen(unwritten[k]), out, 64),
                      SIMPLE_ASN1_RANGE, 0));
}

static void check_texts(void)
{
    for (uint64_t tag = 0; tag < 40; tag++) {
        int is = tag == 12 || tag == 19 || tag == 20 || tag == 22 || tag == 28 || tag == 30;
        if (is)
            CHECK(put(simple_asn1_put_text(tag, TEXT("Test A-1 ?"), out, 64), "Test A-1 ?", 10));
        else
            CHECK(refused(simple_asn1_put_text(tag, TEXT("a"), out, 64), SIMPLE_ASN1_NO_SUCH_VALUE, 0));
    }
    CHECK(refused(simple_asn1_put_text(UINT64_MAX, TEXT("a"), out, 64), SIMPLE_ASN1_NO_SUCH_VALUE, 0));
    CHECK(refused(simple_asn1_put_text(((uint64_t)1 << 32) + 12, TEXT("a"), out, 64), SIMPLE_ASN1_NO_SUCH_VALUE, 0));
    CHECK(put(simple_asn1_put_text(12, TEXT("\xC3\xA4\xF0\x9F\x98\x80"), out, 6), "\xC3\xA4\xF0\x9F\x98\x80", 6));
    CHECK(put(simple_asn1_put_text(12, NULL, 0, NULL, 0), "", 0));
    CHECK(put(simple_asn1_put_text(22, TEXT("a@b\x7F\x00"), out, 64), "a@b\x7F\x00", 5));
    CHECK(refused(simple_asn1_put_text(22, TEXT("\xC3\xA9"), out, 64), SIMPLE_ASN1_RANGE, 0));
    CHECK(refused(simple_asn1_put_text(22, TEXT("\xE9"), out, 64), SIMPLE_ASN1_UTF8, 0));
    CHECK(refused(simple_asn1_put_text(12, TEXT("\xED\xA0\x80"), out, 64), SIMPLE_ASN1_UTF8, 0));
    CHECK(refused(simple_asn1_put_text(19, TEXT("a*"), out, 64), SIMPLE_ASN1_PRINTABLE, 0));
    CHECK(refused(simple_asn1_put_text(19, TEXT("\xC3\xA9"), out, 64), SIMPLE_ASN1_PRINTABLE, 0));
    CHECK(refused(simple_asn1_put_text(19, TEXT("abc"), out, 2), SIMPLE_ASN1_NO_ROOM, 3));
}

static simple_asn1_outcome put_time(uint64_t tag, int32_t year, uint32_t month, uint32_t day, uint32_t hour,
                                    uint32_t minute, uint32_t second, uint32_t nanosecond)
{
    simple_asn1_moment moment = {42, year, month, day, hour, minute, second, nanosecond};
    return simple_asn1_put_time(tag, &moment, out, sizeof out);
}

static void check_times(void)
{
    simple_asn1_moment moment = {0, 2026, 11, 25, 9, 8, 7, 0};
    CHECK(put(put_time(23, 2026, 11, 25, 9, 8, 7, 0), "261125090807Z", 13));
    CHECK(put(put_time(23, 1950, 1, 1, 0, 0, 0, 0), "500101000000Z", 13));
    CHECK(put(put_time(23, 2049, 12, 31, 23, 59, 59, 0), "491231235959Z", 13));
    CHECK(put(put_time(23, 2000, 2, 29, 0, 0, 0, 0), "000229000000Z", 13));
    CHECK(put(put_time(24, 2026, 11, 25, 9, 8, 7, 0), "20261125090807Z", 15));
    CHECK(put(put_time(24, 0, 1, 1, 0, 0, 0, 0), "00000101000000Z", 15));
    CHECK(put(put_time(24, 9999, 12, 31, 23, 59, 59, 999999999), "99991231235959.999999999Z", 25));
    CHECK(put(put_time(24, 2026, 11, 25, 9, 8, 7, 120000000), "20261125090807.12Z", 18));
    CHECK(put(put_time(24, 2026, 11, 25, 9, 8, 7, 1), "20261125090807.000000001Z", 25));
    CHECK(refused(put_time(23, 1949, 12, 31, 23, 59, 59, 0), SIMPLE_ASN1_DATE, 0));
    CHECK(refused(put_time(23, 2050, 1, 1, 0, 0, 0, 0), SIMPLE_ASN1_DATE, 0));
    CHECK(refused(put_time(23, 2026, 11, 25, 9, 8, 7, 1), SIMPLE_ASN1_DATE, 0));
    CHECK(refused(put_time(22, 2026, 11, 25, 9, 8, 7, 0), SIMPLE_ASN1_NO_SUCH_VALUE, 0));
    CHECK(refused(put_time(25, 0, 0, 0, 0, 0, 0, 0), SIMPLE_ASN1_NO_SUCH_VALUE, 0));
    for (uint64_t tag = 23; tag <= 24; tag++) {
        CHECK(refused(put_time(tag, 2026, 2, 29, 9, 8, 7, 0), SIMPLE_ASN1_DATE, 0));
        CHECK(refused(put_time(tag, 2026, 4, 31, 9, 8, 7, 0), SIMPLE_ASN1_DATE, 0));
        CHECK(refused(put_time(tag, 2026, 0, 1, 9, 8, 7, 0), SIMPLE_ASN1_DATE, 0));
        CHECK(refused(put_time(tag, 2026, 13, 1, 9, 8, 7, 0), SIMPLE_ASN1_DATE, 0));
        CHECK(refused(put_time(tag, 2026, 1, 0, 9, 8, 7, 0), SIMPLE_ASN1_DATE, 0));
        CHECK(refused(put_time(tag, 2026, 1, 1, 24, 8, 7, 0), SIMPLE_ASN1_DATE, 0));
        CHECK(refused(put_time(tag, 2026, 1, 1, 9, 60, 7, 0), SIMPLE_ASN1_DATE, 0));
        CHECK(refused(put_time(tag, 2026, 1, 1, 9, 8, 60, 0), SIMPLE_ASN1_DATE, 0));
        CHECK(refused(put_time(tag, 2026, 1, 1, 9, 8, 7, 1000000000), SIMPLE_ASN1_DATE, 0));
        CHECK(refused(put_time(tag, -1, 1, 1, 9, 8, 7, 0), SIMPLE_ASN1_DATE, 0));
        CHECK(refused(put_time(tag, 10000, 1, 1, 9, 8, 7, 0), SIMPLE_ASN1_DATE, 0));
        CHECK(refused(put_time(tag, INT32_MIN, 257, 257, 256, 256, 256, UINT32_MAX), SIMPLE_ASN1_DATE, 0));
    }
    CHECK(refused(simple_asn1_put_time(23, &moment, out, 12), SIMPLE_ASN1_NO_ROOM, 13));
    CHECK(refused(simple_asn1_put_time(24, &moment, out, 14), SIMPLE_ASN1_NO_ROOM, 15));
}

/* Each kind of block, with one that was read: SEQUENCE { 5, [0] { NULL, TRUE }, SEQUENCE {}, .. }. */
static void add_all(simple_asn1_builder *builder)
{
    static const uint8_t document[] = {0x31, 0x81, 6, 0xA1, 4, 2, 2, 0, 7};
    static const uint8_t bits[] = {0xB0};
    const simple_asn1_moment moment = {0, 2026, 11, 25, 9, 8, 7, 0};
    simple_asn1_block read[4];
    CHECK(simple_asn1_read(document, sizeof document, read, 4).count == 3);
    simple_asn1_open(builder, 0, 16);
    simple_asn1_add_int64(builder, 5);
    simple_asn1_open(builder, 2, 0);
    simple_asn1_add_null(builder);
    simple_asn1_add_boolean(builder, 1);
    simple_asn1_close(builder);
    simple_asn1_open(builder, 0, 16);
    simple_asn1_close(builder);
    simple_asn1_add_octets(builder, 0, 4, document, 2);
    simple_asn1_add_octets(builder, 2, 31, NULL, 0);
    simple_asn1_add_bits(builder, bits, 1, 4);
    simple_asn1_add_oid(builder, "1.2.840.113549");
    simple_asn1_add_text(builder, 19, "A1");
    simple_asn1_add_time(builder, 23, &moment);
    simple_asn1_add_block(builder, document, &read[0]);
    simple_asn1_close(builder);
    simple_asn1_add_null(builder);
}

static const uint8_t ALL[] =
    "\x30\x39\x02\x01\x05\xA0\x05\x05\x00\x01\x01\xFF\x30\x00\x04\x02\x31\x81\x9F\x1F\x00\x03\x02\x04\xB0"
    "\x06\x06\x2A\x86\x48\x86\xF7\x0D\x13\x02" "A1\x17\x0D" "261125090807Z\x31\x05\xA1\x03\x02\x01\x07\x05";

static void check_builder(void)
{
    uint8_t octets[64], document[sizeof ALL];
    simple_asn1_block blocks[14], read[20];
    simple_asn1_builder builder = simple_asn1_begin(octets, sizeof octets, blocks, 14);
    add_all(&builder);
    CHECK(builder.status == SIMPLE_ASN1_OK && builder.count == 14 && builder.open == 0);
    simple_asn1_outcome o = simple_asn1_finish(&builder, document, sizeof document);
    CHECK(o.status == SIMPLE_ASN1_OK && o.count == sizeof ALL && memcmp(document, ALL, sizeof ALL) == 0);
    o = simple_asn1_finish(&builder, document, sizeof document - 1);
    CHECK(o.status == SIMPLE_ASN1_NO_ROOM && o.count == sizeof ALL);
    /* the records are those that reading the document writes, but for what is inside the copied block */
    CHECK(simple_asn1_read_strict(document, sizeof document, read, 20).count == 16);
    for (size_t k = 0; k < 12; k++) {
        CHECK(read[k].tag == blocks[k].tag && read[k].tag_class == blocks[k].tag_class);
        CHECK(read[k].items == blocks[k].items && read[k].depth == blocks[k].depth);
        CHECK(read[k].constructed == blocks[k].constructed);
        CHECK(read[k].next == (k == 0 ? 15 : blocks[k].next) && (k != 0 || blocks[k].next == 13));
        CHECK(blocks[k].items || read[k].contents == blocks[k].contents);
    }

    /* with each smaller room it says what is needed, and goes no further than the room */
    size_t used = builder.used;
    for (size_t size = 0; size <= used; size++) {
        for (size_t room = 0; room <= 14; room++) {
            uint8_t *fewer = malloc(size ? size : 1);
            simple_asn1_block *few = malloc(room ? room * sizeof *few : 1);
            builder = simple_asn1_begin(fewer, size, few, room);
            add_all(&builder);
            CHECK(builder.used == used && builder.count == 14);
            o = simple_asn1_finish(&builder, document, sizeof document);
            if (size == used && room == 14)
                CHECK(o.status == SIMPLE_ASN1_OK && memcmp(document, ALL, sizeof ALL) == 0);
            else
                CHECK(o.status == SIMPLE_ASN1_NO_ROOM && o.count == 0 && o.offset == 0);
            free(fewer), free(few);
        }
    }
    builder = simple_asn1_begin(NULL, 0, NULL, 0);
    add_all(&builder);
    CHECK(builder.used == used && builder.count == 14);
}

/* The first error stays, with the index of its block. */
static void check_errors(void)
{
    uint8_t octets[64];
    simple_asn1_block blocks[8];
    const simple_asn1_moment moment = {0, 2026, 2, 29, 9, 8, 7, 0};
    simple_asn1_outcome o;
    simple_asn1_builder builder = simple_asn1_begin(octets, sizeof octets, blocks, 8);
    CHECK(simple_asn1_finish(&builder, out, sizeof out).status == SIMPLE_ASN1_EMPTY);
    simple_asn1_add_null(&builder);
    simple_asn1_open(&builder, 0, 16);
    simple_asn1_open(&builder, 0, 17);
    simple_asn1_close(&builder);
    o = simple_asn1_finish(&builder, out, sizeof out);
    CHECK(o.status == SIMPLE_ASN1_BAD_RECORD && o.offset == 1 && o.count == 0);
    simple_asn1_close(&builder);
    CHECK(simple_asn1_finish(&builder, octets, 0).count == 6);
    simple_asn1_close(&builder);
    simple_asn1_add_oid(&builder, "x");
    o = simple_asn1_finish(&builder, out, sizeof out);
    CHECK(o.status == SIMPLE_ASN1_BAD_RECORD && o.offset == 3 && o.count == 0);

    builder = simple_asn1_begin(octets, sizeof octets, blocks, 8);
    simple_asn1_add_null(&builder);
    simple_asn1_add_oid(&builder, "x");
    simple_asn1_add_time(&builder, 23, &moment);
    o = simple_asn1_finish(&builder, out, sizeof out);
    CHECK(o.status == SIMPLE_ASN1_NOT_OID && o.offset == 1 && o.count == 0);
    builder = simple_asn1_begin(octets, sizeof octets, blocks, 0); /* a bad value is told though room is short */
    simple_asn1_add_null(&builder);
    simple_asn1_add_time(&builder, 23, &moment);
    o = simple_asn1_finish(&builder, out, sizeof out);
    CHECK(o.status == SIMPLE_ASN1_DATE && o.offset == 1 && o.count == 0);
    builder = simple_asn1_begin(octets, sizeof octets, blocks, 8);
    simple_asn1_add_octets(&builder, 4, 0, NULL, 0);
    CHECK(simple_asn1_finish(&builder, out, sizeof out).status == SIMPLE_ASN1_BAD_RECORD);
    builder = simple_asn1_begin(octets, sizeof octets, blocks, 8);
    simple_asn1_add_octets(&builder, 0, 1, octets, 0);
    CHECK(simple_asn1_finish(&builder, out, sizeof out).status == SIMPLE_ASN1_BOOLEAN_LENGTH);
}

int main(void)
{
    memset(out, 0xA5, sizeof out);
    check_numbers();
    check_identifiers();
    check_texts();
    check_times();
    check_builder();
    check_errors();
    printf("values are put as they have to be, and refused; a builder makes documents\n");
    return 0;
}
