/* A target for libFuzzer: any octets are read, written and asked for values, and the answers have to go together. */
#include "simple_asn1.h"
#include <stdio.h>
#include <stdlib.h>
#include <string.h>

#define CHECK(holds)                                                                                                   \
    do {                                                                                                               \
        if (!(holds)) {                                                                                                \
            fprintf(stderr, "line %d: %s\n", __LINE__, #holds);                                                        \
            abort();                                                                                                   \
        }                                                                                                              \
    } while (0)

static void *room_for(size_t bytes)
{
    void *room = malloc(bytes ? bytes : 1);
    CHECK(room);
    return room;
}

/* The bits of a BIT STRING lie in its contents octets; there are none of any other block, or of one at fault. */
static void ask_bits(const uint8_t *octets, size_t size, const simple_asn1_block *block)
{
    simple_asn1_bit_string found = simple_asn1_bits(octets, size, block->offset);
    size_t start = block->offset + block->header, end = start + block->contents;
    if (found.status == SIMPLE_ASN1_OK) {
        CHECK(block->tag_class == 0 && block->tag == 3 && found.bits <= 8 * found.size);
        CHECK(start <= found.start && found.start + found.size == end && found.size + 1 >= block->contents);
    } else {
        CHECK(found.start == 0 && found.size == 0 && found.bits == 0);
    }
}

/* Each value of each block, into just as much room as it needs. */
static void ask_values(const uint8_t *octets, size_t size, const simple_asn1_block *block)
{
    simple_asn1_int64(octets, size, block->offset);
    ask_bits(octets, size, block);
    simple_asn1_time(octets, size, block->offset);
    simple_asn1_outcome text = simple_asn1_text(octets, size, block->offset, NULL, 0);
    if (text.status == SIMPLE_ASN1_NO_ROOM) {
        uint8_t *out = room_for(text.count);
        CHECK(simple_asn1_text(octets, size, block->offset, out, text.count).status == SIMPLE_ASN1_OK);
        free(out);
    }
    simple_asn1_outcome oid = simple_asn1_oid(octets, size, block->offset, NULL, 0);
    if (oid.status == SIMPLE_ASN1_NO_ROOM) {
        uint8_t *out = room_for(oid.count);
        CHECK(simple_asn1_oid(octets, size, block->offset, out, oid.count).status == SIMPLE_ASN1_OK);
        free(out);
    }
}

/* The contents octets of an OBJECT IDENTIFIER in canonical form mean the same components, in no more octets. */
static void shorten(const uint8_t *contents, size_t size)
{
    if (size > 1024) {
        CHECK(simple_asn1_dotted(contents, size, NULL, 0).status == SIMPLE_ASN1_TOO_LONG);
        return;
    }
    size_t length = simple_asn1_shortest_oid(contents, size, NULL, 0).count;
    CHECK(0 < length && length <= size);
    uint8_t *shortest = room_for(length);
    CHECK(simple_asn1_shortest_oid(contents, size, shortest, length).status == SIMPLE_ASN1_OK);
    size_t count = simple_asn1_dotted(contents, size, NULL, 0).count;
    uint8_t *text = room_for(count), *again = room_for(count);
    CHECK(simple_asn1_dotted(contents, size, text, count).status == SIMPLE_ASN1_OK);
    CHECK(simple_asn1_dotted(shortest, length, again, count).count == count && memcmp(text, again, count) == 0);
    free(shortest);
    free(text);
    free(again);
}

/* The canonical octets are those that the records spell, and are their own canonical octets. Several blocks in one of
 * another class are kept as they came, and spelled with the shortest headers. */
static void rewrite(const uint8_t *octets, size_t size, const simple_asn1_block *blocks, size_t count,
                    int any_tag_is_cut, int any_is_kept)
{
    size_t length = simple_asn1_rewrite(octets, size, NULL, 0).count;
    uint8_t *canonical = room_for(length), *again = room_for(length);
    CHECK(simple_asn1_rewrite(octets, size, canonical, length).status == SIMPLE_ASN1_OK);
    if (!any_tag_is_cut) {
        simple_asn1_outcome written = simple_asn1_write(octets, size, blocks, count, again, length);
        CHECK(written.status == SIMPLE_ASN1_OK);
        CHECK(any_is_kept ? written.count <= length
                          : written.count == length && memcmp(canonical, again, length) == 0);
    }
    simple_asn1_outcome rewritten = simple_asn1_rewrite(canonical, length, again, length);
    CHECK(rewritten.status == SIMPLE_ASN1_OK && rewritten.count == length && memcmp(canonical, again, length) == 0);
    int is_strict = simple_asn1_read_strict(octets, size, NULL, 0).status == SIMPLE_ASN1_NO_ROOM;
    CHECK(is_strict == (length == size && memcmp(canonical, octets, size) == 0));
    free(canonical);
    free(again);
}

/* By headers alone: contents octets are not checked, and asking for the value of a leaf at fault is no harm. */
static void look_at_outline(const uint8_t *octets, size_t size)
{
    simple_asn1_outcome asked = simple_asn1_outline(octets, size, NULL, 0);
    if (asked.status != SIMPLE_ASN1_NO_ROOM)
        return;
    simple_asn1_block *blocks = room_for(asked.count * sizeof *blocks);
    CHECK(simple_asn1_outline(octets, size, blocks, asked.count).status == SIMPLE_ASN1_OK);
    for (size_t index = 0; index < asked.count; index++) {
        CHECK(blocks[index].offset + blocks[index].header + blocks[index].contents <= size);
        ask_values(octets, size, &blocks[index]);
    }
    free(blocks);
}

static int is_within(const simple_asn1_block *part, const simple_asn1_block *whole)
{
    size_t end = whole->offset + whole->header + whole->contents;
    return whole->offset < part->offset && part->offset + part->header + part->contents <= end;
}

static void look_at_certificate(const uint8_t *octets, size_t size)
{
    simple_asn1_certificate_parts parts = simple_asn1_certificate(octets, size);
    if (parts.status == SIMPLE_ASN1_OK) {
        CHECK(parts.certificate.header + parts.certificate.contents <= size);
        CHECK(is_within(&parts.tbs_certificate, &parts.certificate));
        CHECK(is_within(&parts.subject, &parts.tbs_certificate));
        CHECK(is_within(&parts.subject_public_key, &parts.subject_public_key_info));
        CHECK(is_within(&parts.signature, &parts.certificate));
        CHECK(simple_asn1_time(octets, size, parts.not_before.offset).status == SIMPLE_ASN1_OK);
        CHECK(simple_asn1_time(octets, size, parts.not_after.offset).status == SIMPLE_ASN1_OK);
        CHECK(simple_asn1_bits(octets, size, parts.signature.offset).status == SIMPLE_ASN1_OK);
    }
}

static void look_at_request(const uint8_t *octets, size_t size)
{
    simple_asn1_request_parts parts = simple_asn1_request(octets, size);
    if (parts.status == SIMPLE_ASN1_OK) {
        CHECK(parts.certification_request.header + parts.certification_request.contents <= size);
        CHECK(is_within(&parts.certification_request_info, &parts.certification_request));
        CHECK(is_within(&parts.subject_public_key, &parts.subject_public_key_info));
        CHECK(is_within(&parts.attributes, &parts.certification_request_info));
        CHECK(simple_asn1_bits(octets, size, parts.signature.offset).status == SIMPLE_ASN1_OK);
    }
}

static void look_at_revocation_list(const uint8_t *octets, size_t size)
{
    simple_asn1_revocation_list_parts parts = simple_asn1_revocation_list(octets, size);
    if (parts.status == SIMPLE_ASN1_OK) {
        size_t at = parts.revoked_certificates.offset + parts.revoked_certificates.header, count = 0;
        size_t end = at + parts.revoked_certificates.contents;
        simple_asn1_block entry, serial_number, date;
        CHECK(is_within(&parts.tbs_cert_list, &parts.certificate_list));
        CHECK(simple_asn1_time(octets, size, parts.this_update.offset).status == SIMPLE_ASN1_OK);
        for (; at < end; at += entry.header + entry.contents, count++) {
            CHECK(simple_asn1_header(octets, size, at, &entry, 1).status == SIMPLE_ASN1_OK);
            CHECK(simple_asn1_header(octets, size, at + entry.header, &serial_number, 1).status == SIMPLE_ASN1_OK);
            date.offset = serial_number.offset + serial_number.header + serial_number.contents;
            CHECK(simple_asn1_time(octets, size, date.offset).status == SIMPLE_ASN1_OK);
        }
        CHECK(at == end && count == parts.revoked_certificates.items);
    }
}

static void look_at_signed(const uint8_t *octets, size_t size)
{
    simple_asn1_signed_parts parts = simple_asn1_signed(octets, size);
    if (parts.status == SIMPLE_ASN1_OK) {
        size_t end = parts.content.offset + parts.content.header + parts.content.contents;
        CHECK(end <= parts.algorithm.offset && parts.algorithm.offset < parts.signature.offset);
        CHECK(parts.signature.offset + parts.signature.header + parts.signature.contents <= size);
    }
}

/* Departures ascend by their offsets, and their rules exist. */
static void list_departures(const uint8_t *octets, size_t size)
{
    simple_asn1_outcome asked = simple_asn1_departures(octets, size, NULL, 0);
    if (asked.status != SIMPLE_ASN1_NO_ROOM) {
        CHECK(asked.count == 0 && asked.offset <= size);
        return;
    }
    simple_asn1_departure *departures = room_for(asked.count * sizeof *departures);
    CHECK(simple_asn1_departures(octets, size, departures, asked.count).status == SIMPLE_ASN1_OK);
    for (size_t index = 0; index < asked.count; index++) {
        const simple_asn1_departure *departure = &departures[index];
        CHECK(departure->offset < size && (index == 0 || departures[index - 1].offset <= departure->offset));
        CHECK(departure->rule >= SIMPLE_ASN1_RULE_LONG_IDENTIFIER);
        CHECK(departure->rule <= SIMPLE_ASN1_RULE_IDENTIFICATION);
    }
    free(departures);
}

int LLVMFuzzerTestOneInput(const uint8_t *octets, size_t size)
{
    list_departures(octets, size);
    look_at_outline(octets, size);
    simple_asn1_outcome asked = simple_asn1_read(octets, size, NULL, 0);
    if (asked.status != SIMPLE_ASN1_NO_ROOM) {
        CHECK(asked.status != SIMPLE_ASN1_OK && asked.offset <= size);
        CHECK(simple_asn1_rewrite(octets, size, NULL, 0).status == asked.status);
        return 0;
    }
    CHECK(asked.count <= size / 2);
    simple_asn1_block *blocks = room_for(asked.count * sizeof *blocks);
    CHECK(simple_asn1_read(octets, size, blocks, asked.count).status == SIMPLE_ASN1_OK);
    int any_tag_is_cut = 0, any_is_kept = 0;
    for (size_t index = 0; index < asked.count; index++) {
        const simple_asn1_block *block = &blocks[index];
        CHECK(block->next > index && block->next <= asked.count);
        CHECK(block->offset + block->header + block->contents <= size);
        any_tag_is_cut |= block->tag == UINT64_MAX;
        any_is_kept |= block->tag_class != 0 && block->items > 1;
        ask_values(octets, size, block);
        if (block->tag_class == 0 && block->tag == 6)
            shorten(simple_asn1_contents(octets, block), block->contents);
    }
    rewrite(octets, size, blocks, asked.count, any_tag_is_cut, any_is_kept);
    look_at_signed(octets, size);
    look_at_certificate(octets, size);
    look_at_request(octets, size);
    look_at_revocation_list(octets, size);
    free(blocks);
    return 0;
}
