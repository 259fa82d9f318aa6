/* No octets, no room, records that are no tree; and each octet of documents cut off, and changed: edges FILE.der .. */
#include "documents.h"

static void check_nothing(void)
{
    CHECK(simple_asn1_version() == SIMPLE_ASN1_VERSION);
    simple_asn1_outcome o = simple_asn1_read(NULL, 0, NULL, 0);
    CHECK(o.status == SIMPLE_ASN1_EMPTY && o.offset == 0);
    CHECK(simple_asn1_read_strict(NULL, 0, NULL, 0).status == SIMPLE_ASN1_EMPTY);
    CHECK(simple_asn1_check(NULL, 0).status == SIMPLE_ASN1_EMPTY);
    CHECK(simple_asn1_rewrite(NULL, 0, NULL, 0).status == SIMPLE_ASN1_EMPTY);
    CHECK(simple_asn1_write(NULL, 0, NULL, 0, NULL, 0).status == SIMPLE_ASN1_EMPTY);
    CHECK(simple_asn1_int64(NULL, 0, 0).status == SIMPLE_ASN1_NO_SUCH_VALUE);
    CHECK(simple_asn1_int64(NULL, 0, SIZE_MAX).status == SIMPLE_ASN1_NO_SUCH_VALUE);
    CHECK(simple_asn1_bits(NULL, 0, 0).status == SIMPLE_ASN1_NO_SUCH_VALUE);
    CHECK(simple_asn1_time(NULL, 0, 0).status == SIMPLE_ASN1_NO_SUCH_VALUE);
    CHECK(simple_asn1_text(NULL, 0, 0, NULL, 0).status == SIMPLE_ASN1_NO_SUCH_VALUE);
    CHECK(simple_asn1_oid(NULL, 0, 0, NULL, 0).status == SIMPLE_ASN1_NO_SUCH_VALUE);
    CHECK(simple_asn1_signed(NULL, 0).status == SIMPLE_ASN1_EMPTY);
    CHECK(simple_asn1_certificate(NULL, 0).status == SIMPLE_ASN1_EMPTY);
    CHECK(simple_asn1_request(NULL, 0).status == SIMPLE_ASN1_EMPTY);
    CHECK(simple_asn1_revocation_list(NULL, 0).status == SIMPLE_ASN1_EMPTY);
    CHECK(simple_asn1_values(NULL, 0, NULL, 0, NULL, 0, NULL, 0).status == SIMPLE_ASN1_EMPTY);
    CHECK(simple_asn1_departures(NULL, 0, NULL, 0).status == SIMPLE_ASN1_EMPTY);
}

static void check_answers(void)
{
    const uint8_t five[] = {0x30, 3, 2, 1, 5};
    uint8_t out[16];
    simple_asn1_outcome o = simple_asn1_read(five, 5, NULL, 0);
    CHECK(o.status == SIMPLE_ASN1_NO_ROOM && o.count == 2);
    CHECK(simple_asn1_int64(five, 5, 2).value == 5);
    CHECK(simple_asn1_int64(five, 5, 0).status == SIMPLE_ASN1_NO_SUCH_VALUE);
    CHECK(simple_asn1_int64(five, 5, 4).status == SIMPLE_ASN1_NO_SUCH_VALUE);
    o = simple_asn1_rewrite(five, 5, out, 4);
    CHECK(o.status == SIMPLE_ASN1_NO_ROOM && o.count == 5);
    CHECK(simple_asn1_signed(five, 5).status == SIMPLE_ASN1_NOT_SIGNED);
    CHECK(simple_asn1_certificate(five, 5).status == SIMPLE_ASN1_NOT_CERTIFICATE);
    CHECK(simple_asn1_request(five, 5).status == SIMPLE_ASN1_NOT_REQUEST);
    CHECK(simple_asn1_revocation_list(five, 5).status == SIMPLE_ASN1_NOT_REVOCATION_LIST);
    o = simple_asn1_check(five, 5);
    CHECK(o.status == SIMPLE_ASN1_OK && o.offset == 0 && o.count == 0);

    const uint8_t cut[] = {0x30, 4, 2, 1, 5, 1};
    o = simple_asn1_read(cut, 6, NULL, 0);
    CHECK(o.status == SIMPLE_ASN1_INCOMPLETE && o.offset == 5);
    o = simple_asn1_check(cut, 6);
    CHECK(o.status == SIMPLE_ASN1_INCOMPLETE && o.offset == 5 && o.count == 0);
    o = simple_asn1_rewrite(cut, 6, out, sizeof out);
    CHECK(o.status == SIMPLE_ASN1_INCOMPLETE && o.offset == 5 && o.count == 0);
    const uint8_t loose[] = {5, 0, 1, 1, 42};
    o = simple_asn1_read_strict(loose, 5, NULL, 0);
    CHECK(o.status == SIMPLE_ASN1_NOT_CANONICAL && o.offset == 2);
    CHECK(simple_asn1_read(loose, 5, NULL, 0).count == 2);
    const uint8_t odd[] = {0x30, 7, 0x1E, 2, 0, 0xE4, 2, 1, 5};
    simple_asn1_block found[4] = {{0}};
    o = simple_asn1_read(odd, 9, NULL, 0);
    CHECK(o.status == SIMPLE_ASN1_UTF8 && o.offset == 2);
    o = simple_asn1_outline(odd, 9, found, 2);
    CHECK(o.status == SIMPLE_ASN1_NO_ROOM && o.count == 3 && found[0].next == 0);
    o = simple_asn1_outline(odd, 9, found, 4);
    CHECK(o.status == SIMPLE_ASN1_OK && o.count == 3);
    CHECK(found[0].items == 2 && found[0].next == 3 && found[3].next == 0);
    CHECK(found[1].tag == 30 && found[1].offset == 2 && found[1].contents == 2 && found[1].next == 2);
    CHECK(found[2].tag == 2 && found[2].offset == 6 && found[2].depth == 1);
    o = simple_asn1_outline(cut, 6, found, 4);
    CHECK(o.status == SIMPLE_ASN1_INCOMPLETE && o.offset == 5 && o.count == 0 && found[0].items == 2);
    const uint8_t wide[] = {2, 9, 1, 0, 0, 0, 0, 0, 0, 0, 0};
    CHECK(simple_asn1_int64(wide, 11, 0).status == SIMPLE_ASN1_RANGE);
    const uint8_t bad[] = {1, 2, 0, 0};
    CHECK(simple_asn1_int64(bad, 4, 0).status == SIMPLE_ASN1_NO_SUCH_VALUE);
    const uint8_t fraction[] = "\x18\x13" "20261123070322.125Z";
    simple_asn1_moment m = simple_asn1_time(fraction, 21, 0);
    CHECK(m.status == SIMPLE_ASN1_OK && m.year == 2026 && m.month == 11 && m.day == 23 && m.hour == 7);
    CHECK(m.minute == 3 && m.second == 22 && m.nanosecond == 125000000);
}

/* What paths lead to: numbers that fit, one that does not, leaves that have none, and nowhere. */
static void check_paths(void)
{
    const uint8_t octets[] = {0x30, 24, 2, 2, 0xFF, 0x7F, 0x1E, 2, 0, 0xE4, 0xA0, 3, 2, 1, 5,
                              2, 9, 1, 0, 0, 0, 0, 0, 0, 0, 0, 5, 0};
    const size_t steps[] = {0, 0, 0, 2, 0, 0, 3, 1, 0, 1, 1, 0, 0, 4, SIZE_MAX};
    const simple_asn1_path paths[] = {{0, 2},  {2, 3},  {5, 2},  {7, 1},  {8, 2},        {0, 0},
                                      {10, 2}, {12, 2}, {14, 1}, {14, 2}, {SIZE_MAX, 2}, {16, 0}};
    enum { SIZE = sizeof octets, STEPS = sizeof steps / sizeof *steps, COUNT = sizeof paths / sizeof *paths };
    simple_asn1_value values[COUNT + 1], before[COUNT + 1];
    memset(before, 0xA5, sizeof before);
    memcpy(values, before, sizeof values);
    simple_asn1_outcome o = simple_asn1_values(octets, SIZE, steps, STEPS, paths, COUNT, values, COUNT - 1);
    CHECK(o.status == SIMPLE_ASN1_NO_ROOM && o.count == COUNT && memcmp(values, before, sizeof values) == 0);
    o = simple_asn1_values(octets, SIZE - 1, steps, STEPS, paths, COUNT, values, COUNT);
    CHECK(o.status == SIMPLE_ASN1_INCOMPLETE && o.offset == 26 && o.count == 0);
    CHECK(memcmp(values, before, sizeof values) == 0);
    o = simple_asn1_values(octets, SIZE, steps, STEPS, paths, COUNT, values, COUNT + 1);
    CHECK(o.status == SIMPLE_ASN1_OK && o.offset == 0 && o.count == COUNT);
    CHECK(values[0].kind == SIMPLE_ASN1_KIND_INTEGER && values[0].number == -129 && values[0].offset == 2);
    CHECK(values[1].kind == SIMPLE_ASN1_KIND_INTEGER && values[1].number == 5 && values[1].offset == 12);
    CHECK(values[2].kind == SIMPLE_ASN1_KIND_BLOCK && values[2].number == 0 && values[2].contents == 9);
    CHECK(values[3].kind == SIMPLE_ASN1_KIND_BLOCK && values[3].tag == 5 && values[3].offset == 26);
    CHECK(values[4].kind == SIMPLE_ASN1_KIND_BLOCK && values[4].tag == 30 && values[4].header == 2);
    CHECK(values[4].tag_class == 0 && values[4].constructed == 0 && values[4].contents == 2);
    for (size_t i = 5; i < COUNT; i++) {
        CHECK(values[i].kind == SIMPLE_ASN1_KIND_NONE && values[i].tag == 0 && values[i].offset == 0);
        CHECK(values[i].header == 0 && values[i].contents == 0 && values[i].number == 0);
    }
    CHECK(memcmp(&values[COUNT], &before[COUNT], sizeof before[COUNT]) == 0);
}

/* Encodings that break one rule of DER each, by hand from X.690. */
static const struct {
    uint8_t octets[16];
    size_t size;
    uint32_t rule;
} departures[] = {
    {{0x9F, 5, 1, 0x41}, 4, SIMPLE_ASN1_RULE_LONG_IDENTIFIER},
    {{0x9F, 0x80, 0x1F, 1, 0x41}, 5, SIMPLE_ASN1_RULE_PADDED_TAG},
    {{0x30, 0x80, 5, 0, 0, 0}, 6, SIMPLE_ASN1_RULE_INDEFINITE_LENGTH},
    {{4, 0x81, 1, 0x41}, 4, SIMPLE_ASN1_RULE_LONG_LENGTH},
    {{4, 0x82, 0, 1, 0x41}, 5, SIMPLE_ASN1_RULE_LONG_LENGTH},
    {{0x0F, 1, 0x41}, 3, SIMPLE_ASN1_RULE_RESERVED_TAG},
    {{0x20, 0}, 2, SIMPLE_ASN1_RULE_RESERVED_TAG},
    {{0x10, 3, 2, 1, 5}, 5, SIMPLE_ASN1_RULE_NOT_CONSTRUCTED},
    {{8, 1, 0x41}, 3, SIMPLE_ASN1_RULE_NOT_CONSTRUCTED},
    {{0x22, 3, 2, 1, 5}, 5, SIMPLE_ASN1_RULE_NOT_PRIMITIVE},
    {{0x24, 3, 4, 1, 0x41}, 5, SIMPLE_ASN1_RULE_CONSTRUCTED_STRING},
    {{1, 0}, 2, SIMPLE_ASN1_RULE_BOOLEAN_SIZE},
    {{1, 1, 1}, 3, SIMPLE_ASN1_RULE_BOOLEAN_VALUE},
    {{2, 0}, 2, SIMPLE_ASN1_RULE_NO_INTEGER},
    {{2, 2, 0, 1}, 4, SIMPLE_ASN1_RULE_PADDED_INTEGER},
    {{0x0A, 2, 0, 1}, 4, SIMPLE_ASN1_RULE_PADDED_INTEGER},
    {{9, 3, 0x80, 0, 2}, 5, SIMPLE_ASN1_RULE_BINARY_REAL},
    {{9, 2, 1, 0x31}, 4, SIMPLE_ASN1_RULE_DECIMAL_REAL},
    {{9, 1, 0x44}, 3, SIMPLE_ASN1_RULE_SPECIAL_REAL},
    {{3, 0}, 2, SIMPLE_ASN1_RULE_UNUSED_COUNT},
    {{3, 2, 8, 0xFF}, 4, SIMPLE_ASN1_RULE_UNUSED_COUNT},
    {{3, 1, 3}, 3, SIMPLE_ASN1_RULE_UNUSED_OF_NONE},
    {{3, 2, 3, 0xFF}, 4, SIMPLE_ASN1_RULE_UNUSED_BITS},
    {{5, 1, 0}, 3, SIMPLE_ASN1_RULE_NULL_CONTENTS},
    {{6, 3, 0x2A, 0x80, 1}, 5, SIMPLE_ASN1_RULE_SUBIDENTIFIERS},
    {{0x0D, 0}, 2, SIMPLE_ASN1_RULE_SUBIDENTIFIERS},
    {{0x1F, 0x23, 0}, 3, SIMPLE_ASN1_RULE_IRI},
    {{0x12, 3, 0x61, 0x62, 0x63}, 5, SIMPLE_ASN1_RULE_CHARACTERS},
    {{0x1E, 2, 0xD8, 0}, 4, SIMPLE_ASN1_RULE_CHARACTERS},
    {{0x17, 0x0B, 0x32, 0x34, 0x30, 0x32, 0x32, 0x39, 0x31, 0x32, 0x30, 0x30, 0x5A}, 13, SIMPLE_ASN1_RULE_UTC_TIME},
    {{0x18, 0x0D, 0x32, 0x30, 0x32, 0x34, 0x30, 0x32, 0x32, 0x39, 0x31, 0x32, 0x30, 0x30, 0x5A}, 15, SIMPLE_ASN1_RULE_GENERALIZED_TIME},
    {{0x1F, 0x1F, 1, 0x2F}, 4, SIMPLE_ASN1_RULE_TIME},
    {{0x31, 6, 4, 1, 0x41, 2, 1, 5}, 8, SIMPLE_ASN1_RULE_ORDER},
    {{0x31, 6, 2, 1, 2, 2, 1, 1}, 8, SIMPLE_ASN1_RULE_ORDER},
    {{0x30, 2, 5, 1}, 4, SIMPLE_ASN1_RULE_NOT_ENCODINGS},
};

/* Each departure alone, and inside a SEQUENCE of the definite form, behind a NULL and before one. */
static void check_departures(void)
{
    uint8_t inside[32] = {0x30, 0, 5, 0};
    simple_asn1_departure found[2], before = {77, 77};
    for (size_t i = 0; i < sizeof departures / sizeof *departures; i++) {
        size_t size = departures[i].size;
        found[0] = before, found[1] = before;
        simple_asn1_outcome o = simple_asn1_departures(departures[i].octets, size, found, 2);
        CHECK(o.status == SIMPLE_ASN1_OK && o.offset == 0 && o.count == 1);
        CHECK(found[0].offset == 0 && found[0].rule == departures[i].rule);
        CHECK(found[1].offset == 77 && found[1].rule == 77);
        inside[1] = (uint8_t)(4 + size);
        memcpy(inside + 4, departures[i].octets, size);
        memcpy(inside + 4 + size, "\5", 2);
        o = simple_asn1_departures(inside, 6 + size, found, 2);
        CHECK(o.status == SIMPLE_ASN1_OK && o.offset == 0 && o.count == 1);
        CHECK(found[0].offset == 4 && found[0].rule == departures[i].rule);
    }

    const uint8_t der[] = {0x30, 10, 1, 1, 0xFF, 4, 2, 1, 1, 3, 1, 0};
    simple_asn1_outcome o = simple_asn1_departures(der, sizeof der, NULL, 0);
    CHECK(o.status == SIMPLE_ASN1_OK && o.offset == 0 && o.count == 0);
    /* a length that is not the shortest, a BOOLEAN inside, contents that are not encodings, and what stands behind */
    const uint8_t many[] = {0x30, 0x81, 3, 1, 1, 42, 0x31, 2, 5, 9, 5, 1, 0};
    simple_asn1_departure all[4];
    memset(all, 0xA5, sizeof all);
    o = simple_asn1_departures(many, sizeof many, all, 3);
    CHECK(o.status == SIMPLE_ASN1_NO_ROOM && o.offset == 0 && o.count == 4 && all[0].rule == 0xA5A5A5A5);
    o = simple_asn1_departures(many, sizeof many, all, 4);
    CHECK(o.status == SIMPLE_ASN1_OK && o.offset == 0 && o.count == 4);
    CHECK(all[0].offset == 0 && all[0].rule == SIMPLE_ASN1_RULE_LONG_LENGTH);
    CHECK(all[1].offset == 3 && all[1].rule == SIMPLE_ASN1_RULE_BOOLEAN_VALUE);
    CHECK(all[2].offset == 6 && all[2].rule == SIMPLE_ASN1_RULE_NOT_ENCODINGS);
    CHECK(all[3].offset == 10 && all[3].rule == SIMPLE_ASN1_RULE_NULL_CONTENTS);
    /* headers at fault at the top level: cut off, a length beyond size_t, and no end-of-contents octets */
    const uint8_t cut[] = {1, 1, 42, 5, 1}, large[] = {5, 0, 4, 0x89, 1}, open[] = {0x30, 0x80, 5, 0};
    found[0] = before;
    o = simple_asn1_departures(cut, sizeof cut, found, 2);
    CHECK(o.status == SIMPLE_ASN1_INCOMPLETE && o.offset == 3 && o.count == 0 && found[0].rule == 77);
    o = simple_asn1_departures(large, sizeof large, found, 2);
    CHECK(o.status == SIMPLE_ASN1_LENGTH && o.offset == 2 && o.count == 0 && found[0].rule == 77);
    o = simple_asn1_departures(open, sizeof open, found, 2);
    CHECK(o.status == SIMPLE_ASN1_INCOMPLETE && o.offset == 4 && o.count == 0 && found[0].rule == 77);
}

/* Each call for a value answers the fault of contents octets of its kind, and then no value. */
static void check_values_at_fault(void)
{
    uint8_t out[16];
    const uint8_t text[] = {12, 1, 0xC3};
    simple_asn1_outcome o = simple_asn1_text(text, 3, 0, out, sizeof out);
    CHECK(o.status == SIMPLE_ASN1_UTF8 && o.count == 0);
    const uint8_t printable[] = {0x30, 3, 19, 1, '*'};
    o = simple_asn1_text(printable, 5, 2, out, sizeof out);
    CHECK(o.status == SIMPLE_ASN1_PRINTABLE && o.offset == 2 && o.count == 0);
    const uint8_t oid[] = {6, 2, 0x2A, 0x80};
    o = simple_asn1_oid(oid, 4, 0, out, sizeof out);
    CHECK(o.status == SIMPLE_ASN1_INCOMPLETE && o.count == 0);
    const uint8_t date[] = "\x17\x0D" "261323070322Z";
    simple_asn1_moment m = simple_asn1_time(date, 15, 0);
    CHECK(m.status == SIMPLE_ASN1_DATE && m.year == 0 && m.month == 0);
    const uint8_t inside[] = {0x30, 3, 1, 1};
    CHECK(simple_asn1_text(inside, 4, 0, out, sizeof out).status == SIMPLE_ASN1_NO_SUCH_VALUE);
}

/* What stands in the caller's array behind the records that are written, and all of it at a refusal, stays. */
static void check_kept(void)
{
    const uint8_t two[] = {0x30, 3, 2, 1, 5};
    const uint8_t cut[] = {0x30, 4, 2, 1, 5};
    simple_asn1_block blocks[3], before[3];
    memset(before, 0xA5, sizeof before);
    memcpy(blocks, before, sizeof blocks);
    simple_asn1_outcome o = simple_asn1_read(cut, 5, blocks, 3);
    CHECK(o.status == SIMPLE_ASN1_INCOMPLETE && o.count == 0 && memcmp(blocks, before, sizeof blocks) == 0);
    o = simple_asn1_read_strict(cut, 5, blocks, 3);
    CHECK(o.status == SIMPLE_ASN1_INCOMPLETE && o.count == 0 && memcmp(blocks, before, sizeof blocks) == 0);
    o = simple_asn1_read(two, 5, blocks, 3);
    CHECK(o.status == SIMPLE_ASN1_OK && o.offset == 0 && o.count == 2);
    CHECK(memcmp(&blocks[2], &before[2], sizeof before[2]) == 0);
    o = simple_asn1_read_strict(two, 5, blocks, 3);
    CHECK(o.status == SIMPLE_ASN1_OK && memcmp(&blocks[2], &before[2], sizeof before[2]) == 0);
}

/* Tag numbers that a record can't hold, and the last two that it can. */
static void check_tags(void)
{
    uint8_t below[] = {0x9F, 0x81, 0xFF, 0xFF, 0xFF, 0xFF, 0xFF, 0xFF, 0xFF, 0xFF, 0x7E, 1, 0x2A};
    uint8_t above[] = {0x9F, 0x82, 0x80, 0x80, 0x80, 0x80, 0x80, 0x80, 0x80, 0x80, 0x00, 1, 0x2A};
    uint8_t out[16];
    simple_asn1_block block;
    CHECK(simple_asn1_read(below, sizeof below, &block, 1).status == SIMPLE_ASN1_OK && block.tag == UINT64_MAX - 1);
    simple_asn1_outcome o = simple_asn1_write(below, sizeof below, &block, 1, out, sizeof out);
    CHECK(o.status == SIMPLE_ASN1_OK && o.count == sizeof below && memcmp(out, below, sizeof below) == 0);
    CHECK(simple_asn1_read(above, sizeof above, &block, 1).status == SIMPLE_ASN1_OK && block.tag == UINT64_MAX);
    o = simple_asn1_write(above, sizeof above, &block, 1, out, sizeof out);
    CHECK(o.status == SIMPLE_ASN1_BAD_RECORD && o.offset == 0 && o.count == 0);
    below[10] = 0x7F;
    CHECK(simple_asn1_read(below, sizeof below, &block, 1).status == SIMPLE_ASN1_OK && block.tag == UINT64_MAX);
    CHECK(simple_asn1_write(below, sizeof below, &block, 1, out, sizeof out).status == SIMPLE_ASN1_BAD_RECORD);
}

/* A tree that was made by hand: SEQUENCE { INTEGER 42, [0] { NULL } }. */
static void check_made(void)
{
    const uint8_t values[] = {42};
    const uint8_t wanted[] = {0x30, 7, 2, 1, 42, 0xA0, 2, 5, 0};
    uint8_t out[16];
    simple_asn1_block made[4];
    memset(made, 0, sizeof made);
    made[0].tag = 16, made[0].items = 2;
    made[1].tag = 2, made[1].contents = 1;
    made[2].tag_class = 2, made[2].items = 1;
    made[3].tag = 5;
    simple_asn1_outcome o = simple_asn1_write(values, 1, made, 4, out, sizeof out);
    CHECK(o.status == SIMPLE_ASN1_OK && o.count == sizeof wanted && memcmp(out, wanted, sizeof wanted) == 0);
    made[0].items = 9;
    o = simple_asn1_write(values, 1, made, 4, out, sizeof out);
    CHECK(o.status == SIMPLE_ASN1_BAD_RECORD && o.offset == 0);
    made[0].items = SIZE_MAX;
    CHECK(simple_asn1_write(values, 1, made, 4, out, sizeof out).status == SIMPLE_ASN1_BAD_RECORD);
    made[0].items = 2, made[1].contents = 2;
    o = simple_asn1_write(values, 1, made, 4, out, sizeof out);
    CHECK(o.status == SIMPLE_ASN1_BAD_RECORD && o.offset == 1);
    made[1].offset = SIZE_MAX, made[1].header = SIZE_MAX;
    CHECK(simple_asn1_write(values, 1, made, 4, out, sizeof out).status == SIMPLE_ASN1_BAD_RECORD);
    made[1].offset = 0, made[1].header = 0, made[1].contents = 1, made[3].tag_class = 4;
    o = simple_asn1_write(values, 1, made, 4, out, sizeof out);
    CHECK(o.status == SIMPLE_ASN1_BAD_RECORD && o.offset == 3);
    made[1].contents = 2; /* of two, the last is named */
    o = simple_asn1_write(values, 1, made, 4, out, sizeof out);
    CHECK(o.status == SIMPLE_ASN1_BAD_RECORD && o.offset == 3);
    made[3].tag_class = 0, made[1].tag = 1, made[1].contents = 0;
    o = simple_asn1_write(values, 1, made, 4, out, sizeof out);
    CHECK(o.status == SIMPLE_ASN1_BOOLEAN_LENGTH);
}

/* Several blocks in one of another class, and none: a request's two attributes, say. One with a fault has none. */
static void check_tagged(void)
{
    const uint8_t several[] = {0xA0, 7, 2, 0x81, 1, 5, 2, 1, 6, 0xA1, 0, 0xA2, 4, 5, 0, 2, 1, 0x80, 2, 5, 0};
    const uint8_t shortest[] = {0xA0, 6, 2, 1, 5, 2, 1, 6, 0xA1, 0, 0xA2, 4, 5, 0, 2, 1, 0x80, 2, 5, 0};
    const size_t items[] = {2, 0, 0, 0, 0, 0}, next[] = {3, 2, 3, 4, 5, 6}, depth[] = {0, 1, 1, 0, 0, 0};
    simple_asn1_block blocks[6];
    uint8_t out[sizeof several];
    simple_asn1_outcome o = simple_asn1_read(several, sizeof several, blocks, 6);
    CHECK(o.status == SIMPLE_ASN1_OK && o.count == 6);
    for (size_t k = 0; k < 6; k++)
        CHECK(blocks[k].items == items[k] && blocks[k].next == next[k] && blocks[k].depth == depth[k]);
    CHECK(blocks[2].offset == 6 && simple_asn1_int64(several, sizeof several, blocks[2].offset).value == 6);
    o = simple_asn1_write(several, sizeof several, blocks, 6, out, sizeof out);
    CHECK(o.status == SIMPLE_ASN1_OK && o.count == sizeof shortest && memcmp(out, shortest, sizeof shortest) == 0);
    o = simple_asn1_rewrite(several, sizeof several, out, sizeof out);
    CHECK(o.status == SIMPLE_ASN1_OK && o.count == sizeof several && memcmp(out, several, sizeof several) == 0);
}

/* A triple whose content is several blocks in one of another class: the record counts them, as that of reading does. */
static void check_signed(void)
{
    const uint8_t octets[] = {0x30, 15, 0xA0, 4, 5, 0, 5, 0, 0x30, 3, 6, 1, 0x2A, 3, 2, 0, 0xAB};
    simple_asn1_block blocks[7];
    CHECK(simple_asn1_read(octets, sizeof octets, blocks, 7).count == 7 && blocks[1].items == 2);
    simple_asn1_signed_parts s = simple_asn1_signed(octets, sizeof octets);
    CHECK(s.status == SIMPLE_ASN1_OK && s.offset == 0);
    CHECK(s.content.tag_class == 2 && s.content.constructed == 1 && s.content.tag == 0 && s.content.items == 2);
    CHECK(s.content.offset == 2 && s.content.header == 2 && s.content.contents == 4);
    CHECK(s.content.next == 0 && s.content.depth == 0);
    CHECK(s.algorithm.tag == 6 && s.algorithm.offset == 10 && s.algorithm.contents == 1 && s.algorithm.items == 0);
    CHECK(s.signature.tag == 3 && s.signature.offset == 13 && s.signature.contents == 2);
    CHECK(s.algorithm.next == 0 && s.algorithm.depth == 0 && s.signature.next == 0 && s.signature.depth == 0);
}

static int is_at(const simple_asn1_block *part, size_t offset, size_t header, size_t contents)
{
    return part->offset == offset && part->header == header && part->contents == contents;
}

/* Each record of fields stands where `openssl asn1parse` shows it. */
static void check_request(void)
{
    simple_asn1_request_parts r = simple_asn1_request(a_request, sizeof a_request);
    CHECK(r.status == SIMPLE_ASN1_OK && r.offset == 0);
    CHECK(is_at(&r.certification_request, 0, 3, 210) && r.certification_request.next == 27);
    CHECK(is_at(&r.certification_request_info, 3, 3, 133) && r.certification_request_info.items == 4);
    CHECK(is_at(&r.version, 6, 2, 1) && is_at(&r.subject, 9, 2, 20));
    CHECK(is_at(&r.subject_public_key_info, 31, 2, 42) && is_at(&r.public_key_algorithm, 33, 2, 5));
    CHECK(is_at(&r.subject_public_key, 40, 2, 33));
    CHECK(is_at(&r.attributes, 75, 2, 62) && r.attributes.tag_class == 2 && r.attributes.items == 2);
    CHECK(is_at(&r.signature_algorithm, 139, 2, 5) && is_at(&r.signature, 146, 2, 65) && r.signature.depth == 1);
    CHECK(simple_asn1_certificate(a_request, sizeof a_request).status == SIMPLE_ASN1_NOT_CERTIFICATE);
    r = simple_asn1_request(a_revocation_list, sizeof a_revocation_list);
    CHECK(r.status == SIMPLE_ASN1_NOT_REQUEST && is_at(&r.certification_request, 0, 0, 0));
    r = simple_asn1_request(a_request, sizeof a_request - 1);
    CHECK(r.status == SIMPLE_ASN1_INCOMPLETE && r.offset == 0 && is_at(&r.signature, 0, 0, 0));
}

/* Of the entry that begins at an offset: its serial number, the moment and the extensions. Returns where it ends. */
static size_t check_entry(size_t at, size_t *parts)
{
    simple_asn1_block entry, part;
    CHECK(simple_asn1_header(a_revocation_list, sizeof a_revocation_list, at, &entry, 1).status == SIMPLE_ASN1_OK);
    size_t inside = at + entry.header, end = inside + entry.contents;
    while (inside < end) {
        CHECK(simple_asn1_header(a_revocation_list, sizeof a_revocation_list, inside, &part, 1).status ==
              SIMPLE_ASN1_OK);
        *parts++ = inside;
        inside += part.header + part.contents;
    }
    CHECK(inside == end);
    return end;
}

static void check_revocation_list(void)
{
    const uint8_t *octets = a_revocation_list;
    size_t size = sizeof a_revocation_list, first[2] = {0}, second[3] = {0};
    simple_asn1_revocation_list_parts l = simple_asn1_revocation_list(octets, size);
    CHECK(l.status == SIMPLE_ASN1_OK && l.offset == 0);
    CHECK(is_at(&l.certificate_list, 0, 3, 224) && is_at(&l.tbs_cert_list, 3, 3, 147) && l.tbs_cert_list.items == 7);
    CHECK(is_at(&l.version, 6, 2, 1) && is_at(&l.tbs_signature, 9, 2, 5) && is_at(&l.issuer, 16, 2, 20));
    CHECK(is_at(&l.this_update, 38, 2, 13) && is_at(&l.next_update, 53, 2, 15));
    CHECK(is_at(&l.revoked_certificates, 70, 2, 65) && l.revoked_certificates.items == 2);
    CHECK(is_at(&l.crl_extensions, 137, 2, 14) && l.crl_extensions.tag_class == 2);
    CHECK(is_at(&l.signature_algorithm, 153, 2, 5) && is_at(&l.signature, 160, 2, 65));
    size_t at = check_entry(l.revoked_certificates.offset + l.revoked_certificates.header, first);
    CHECK(at == 93 && first[0] == 74 && first[1] == 78 && simple_asn1_int64(octets, size, 74).value == 0x1234);
    CHECK(check_entry(at, second) == 137 && second[0] == 95 && second[1] == 108 && second[2] == 123);
    CHECK(simple_asn1_int64(octets, size, 95).status == SIMPLE_ASN1_RANGE);
    CHECK(simple_asn1_time(octets, size, 78).day == 1 && simple_asn1_time(octets, size, 108).day == 2);
    l = simple_asn1_revocation_list(a_request, sizeof a_request);
    CHECK(l.status == SIMPLE_ASN1_NOT_REVOCATION_LIST && is_at(&l.certificate_list, 0, 0, 0));
    l = simple_asn1_revocation_list(octets, size - 1);
    CHECK(l.status == SIMPLE_ASN1_INCOMPLETE && l.offset == 0 && is_at(&l.signature, 0, 0, 0));
}

/* Whether the octets are a document; all calls must agree on it. */
static int check_changed(const uint8_t *octets, size_t size)
{
    simple_asn1_signed(octets, size);
    simple_asn1_certificate(octets, size);
    simple_asn1_request(octets, size);
    simple_asn1_revocation_list(octets, size);
    simple_asn1_outcome o = simple_asn1_read(octets, size, NULL, 0);
    if (o.status != SIMPLE_ASN1_NO_ROOM) {
        CHECK(o.status >= SIMPLE_ASN1_EMPTY && o.status < SIMPLE_ASN1_NOT_CANONICAL && o.offset <= size);
        simple_asn1_outcome r = simple_asn1_rewrite(octets, size, NULL, 0), c = simple_asn1_check(octets, size);
        CHECK(r.status == o.status && r.offset == o.offset && c.status == o.status && c.offset == o.offset);
        return 0;
    }
    size_t count = o.count;
    CHECK(count <= size / 2 && simple_asn1_check(octets, size).status == SIMPLE_ASN1_OK);
    simple_asn1_block *blocks = malloc(count * sizeof *blocks);
    o = simple_asn1_read(octets, size, blocks, count);
    CHECK(o.status == SIMPLE_ASN1_OK && o.count == count);
    simple_asn1_outcome r = simple_asn1_rewrite(octets, size, NULL, 0);
    CHECK(r.status == SIMPLE_ASN1_NO_ROOM);
    uint8_t *canonical = malloc(r.count), *written = malloc(r.count);
    CHECK(simple_asn1_rewrite(octets, size, canonical, r.count).status == SIMPLE_ASN1_OK);
    simple_asn1_outcome w = simple_asn1_write(octets, size, blocks, count, written, r.count);
    int kept = 0;
    for (size_t k = 0; k < count; k++)
        kept |= blocks[k].tag_class != 0 && blocks[k].items > 1;
    CHECK(w.status == SIMPLE_ASN1_OK);
    CHECK(kept ? w.count <= r.count : w.count == r.count && memcmp(canonical, written, r.count) == 0);
    CHECK(simple_asn1_read_strict(canonical, r.count, NULL, 0).status == SIMPLE_ASN1_NO_ROOM);
    free(blocks), free(canonical), free(written);
    return 1;
}

/* Cuts a document off before each of its octets, and changes each of them; counts what is read and what is refused. */
static void change_each(const uint8_t *whole, size_t size, size_t *read, size_t *refused)
{
    for (size_t k = 0; k < 2 * size; k++) {
        /* of exactly its size, so that a sanitizer sees what is read past it */
        size_t n = k < size ? k : size;
        uint8_t *octets = malloc(n ? n : 1);
        memcpy(octets, whole, n);
        if (k >= size)
            octets[k - size] ^= (uint8_t)(1 << k % 8);
        if (check_changed(octets, n))
            ++*read;
        else
            ++*refused;
        free(octets);
    }
}

int main(int argc, char **argv)
{
    check_nothing();
    check_answers();
    check_paths();
    check_departures();
    check_values_at_fault();
    check_kept();
    check_tags();
    check_made();
    check_tagged();
    check_signed();
    check_request();
    check_revocation_list();
    size_t read = 0, refused = 0;
    change_each(a_request, sizeof a_request, &read, &refused);
    change_each(a_revocation_list, sizeof a_revocation_list, &read, &refused);
    for (int f = 1; f < argc; f++) {
        size_t size;
        uint8_t *whole = read_file(argv[f], &size);
        change_each(whole, size, &read, &refused);
        free(whole);
    }
    printf("edges are as they have to be; of changed documents %zu are read and %zu refused\n", read, refused);
    return 0;
}
