/* The records of documents beside a walker of its own, and what the other calls answer of them:
 * certificates FILE.der .. */
#include "documents.h"

struct document {
    const uint8_t *octets;
    size_t size;
    const simple_asn1_block *blocks;
    size_t count;
};

/* The size of the header at an offset; its tag number and how many contents octets it tells. */
static size_t header_at(const struct document *d, size_t offset, size_t *tag, size_t *contents)
{
    size_t at = offset;
    *tag = d->octets[at++] & 31;
    if (*tag == 31) {
        *tag = 0;
        do
            *tag = *tag << 7 | (d->octets[at] & 127);
        while (d->octets[at++] & 128);
    }
    *contents = d->octets[at++];
    if (*contents & 128) {
        size_t k = *contents & 127;
        *contents = 0;
        while (k-- > 0)
            *contents = *contents << 8 | d->octets[at++];
    }
    return at - offset;
}

/* Looks at the record at the index and those inside it, which end by an offset; answers the index after them. */
static size_t walk(const struct document *d, size_t index, size_t depth, size_t end)
{
    const simple_asn1_block *b = &d->blocks[index];
    size_t tag, contents, header = header_at(d, b->offset, &tag, &contents);
    CHECK(b->tag == tag && b->header == header && b->contents == contents && b->depth == depth);
    CHECK(b->tag_class == d->octets[b->offset] >> 6 && b->constructed == (d->octets[b->offset] >> 5 & 1));
    CHECK(b->offset + header + contents <= end);
    size_t next = index + 1, at = b->offset + header;
    for (size_t n = 0; n < b->items; n++) {
        CHECK(next < d->count && d->blocks[next].offset == at);
        at += d->blocks[next].header + d->blocks[next].contents;
        next = walk(d, next, depth + 1, b->offset + header + contents);
    }
    CHECK(b->items == 0 || at == b->offset + header + contents);
    CHECK(b->next == next);
    return next;
}

static int is_string(uint64_t tag)
{
    return tag == 12 || tag == 19 || tag == 20 || tag == 22 || tag == 28 || tag == 30;
}

static int is_time(uint64_t tag)
{
    return tag == 23 || tag == 24;
}

/* Each call that gives a value answers at the blocks of its kind, and at no other. */
static void check_values(const struct document *d, const simple_asn1_block *b)
{
    int universal = b->tag_class == 0;
    uint8_t *text = malloc(b->contents + 1), oid[4096];
    simple_asn1_outcome o = simple_asn1_text(d->octets, d->size, b->offset, text, b->contents);
    if (universal && is_string(b->tag) && b->tag != 22) {
        CHECK(o.status == SIMPLE_ASN1_OK && o.count == b->contents);
        CHECK(memcmp(text, simple_asn1_contents(d->octets, b), o.count) == 0);
    } else if (!universal || b->tag != 22) {
        CHECK(o.status == SIMPLE_ASN1_NO_SUCH_VALUE && o.offset == b->offset);
    }
    free(text);
    o = simple_asn1_oid(d->octets, d->size, b->offset, oid, sizeof oid);
    CHECK(o.status == (universal && b->tag == 6 ? SIMPLE_ASN1_OK : SIMPLE_ASN1_NO_SUCH_VALUE));
    simple_asn1_moment m = simple_asn1_time(d->octets, d->size, b->offset);
    CHECK(m.status == (universal && is_time(b->tag) ? SIMPLE_ASN1_OK : SIMPLE_ASN1_NO_SUCH_VALUE));
    CHECK(m.status || (m.year >= 1950 && m.month >= 1 && m.month <= 12 && m.day >= 1 && m.day <= 31 && m.hour < 24));
    simple_asn1_integer n = simple_asn1_int64(d->octets, d->size, b->offset);
    if (universal && b->tag == 2)
        CHECK(n.status == (b->contents <= 8 ? SIMPLE_ASN1_OK : SIMPLE_ASN1_RANGE));
    else
        CHECK(n.status == SIMPLE_ASN1_NO_SUCH_VALUE);
}

static void check_written(const struct document *d)
{
    uint8_t *out = malloc(d->size);
    simple_asn1_outcome o = simple_asn1_rewrite(d->octets, d->size, out, d->size);
    CHECK(o.status == SIMPLE_ASN1_OK && o.count == d->size && memcmp(out, d->octets, d->size) == 0);
    memset(out, 0, d->size);
    o = simple_asn1_write(d->octets, d->size, d->blocks, d->count, out, d->size);
    CHECK(o.status == SIMPLE_ASN1_OK && o.count == d->size && memcmp(out, d->octets, d->size) == 0);
    free(out);
}

static void check_signed(const struct document *d)
{
    simple_asn1_signed_parts s = simple_asn1_signed(d->octets, d->size);
    const simple_asn1_block *content = &d->blocks[1];
    const simple_asn1_block *algorithm = &d->blocks[content->next];
    CHECK(s.status == SIMPLE_ASN1_OK && s.content.offset == content->offset);
    CHECK(s.content.header == content->header && s.content.contents == content->contents);
    CHECK(s.algorithm.offset == d->blocks[content->next + 1].offset && s.algorithm.tag == 6);
    CHECK(s.signature.offset == d->blocks[algorithm->next].offset && s.signature.tag == 3);
}

/* The index of the block so many behind another at the same level. */
static size_t behind(const struct document *d, size_t index, size_t count)
{
    while (count-- > 0)
        index = d->blocks[index].next;
    return index;
}

static int is_record(const struct document *d, const simple_asn1_block *part, size_t index)
{
    const simple_asn1_block *b = &d->blocks[index];
    return part->offset == b->offset && part->header == b->header && part->contents == b->contents &&
           part->tag_class == b->tag_class && part->tag == b->tag && part->constructed == b->constructed &&
           part->items == b->items && part->next == b->next && part->depth == b->depth;
}

static void check_certificate(const struct document *d)
{
    simple_asn1_certificate_parts c = simple_asn1_certificate(d->octets, d->size);
    int has_version = d->blocks[2].tag_class == 2;
    size_t number = behind(d, 2, (size_t)has_version), validity = behind(d, number, 3), key = behind(d, number, 5);
    CHECK(c.status == SIMPLE_ASN1_OK && c.offset == 0);
    CHECK(is_record(d, &c.certificate, 0) && is_record(d, &c.tbs_certificate, 1));
    CHECK(has_version ? is_record(d, &c.version, 2) : c.version.header == 0);
    CHECK(is_record(d, &c.serial_number, number) && is_record(d, &c.tbs_signature, behind(d, number, 1)));
    CHECK(is_record(d, &c.issuer, behind(d, number, 2)) && is_record(d, &c.subject, behind(d, number, 4)));
    CHECK(is_record(d, &c.not_before, validity + 1) && is_record(d, &c.not_after, behind(d, validity + 1, 1)));
    CHECK(is_record(d, &c.subject_public_key_info, key) && is_record(d, &c.public_key_algorithm, key + 1));
    CHECK(is_record(d, &c.subject_public_key, behind(d, key + 1, 1)));
    CHECK(is_record(d, &c.signature_algorithm, behind(d, 1, 1)) && is_record(d, &c.signature, behind(d, 1, 2)));
    size_t last = behind(d, key, 1);
    CHECK(last == behind(d, 1, 1) ? c.extensions.header == 0 : is_record(d, &c.extensions, last));
}

static size_t check_document(const uint8_t *octets, size_t size)
{
    simple_asn1_outcome o = simple_asn1_read_strict(octets, size, NULL, 0);
    CHECK(o.status == SIMPLE_ASN1_NO_ROOM && o.count <= size / 2);
    size_t count = o.count;
    simple_asn1_block *blocks = malloc(count * sizeof *blocks);
    memset(blocks, 0x55, count * sizeof *blocks);
    o = simple_asn1_read(octets, size, blocks, count - 1);
    CHECK(o.status == SIMPLE_ASN1_NO_ROOM && o.count == count && blocks[0].offset == (size_t)0x5555555555555555);
    o = simple_asn1_read(octets, size, blocks, count);
    CHECK(o.status == SIMPLE_ASN1_OK && o.count == count);
    struct document d = {octets, size, blocks, count};
    for (size_t i = 0; i < count;)
        i = walk(&d, i, 0, size);
    for (size_t i = 0; i < count; i++)
        check_values(&d, &blocks[i]);
    check_written(&d);
    check_signed(&d);
    check_certificate(&d);
    free(blocks);
    return count;
}

int main(int argc, char **argv)
{
    size_t blocks = 0, octets = 0;
    for (int f = 1; f < argc; f++) {
        size_t size;
        uint8_t *document = read_file(argv[f], &size);
        blocks += check_document(document, size);
        octets += size;
        free(document);
    }
    CHECK(blocks > 0);
    printf("%d certificates of %zu octets: %zu blocks are as a walker finds them\n", argc - 1, octets, blocks);
    return 0;
}
