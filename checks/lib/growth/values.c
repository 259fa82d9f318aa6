/* values CALL FILE: makes a call of simple_asn1.h on a document, and prints the processor time that it took, in
 * microseconds, and its status. `each` asks each block of the document for a value of each kind. */
#include <simple_asn1.h>
#include <stdio.h>
#include <stdlib.h>
#include <string.h>
#include <time.h>

static uint8_t octets[1 << 20], text[1 << 22];
static uint64_t numbers[1 << 20];
static simple_asn1_block blocks[1 << 19];

static uint32_t asked(size_t size, size_t offset)
{
    simple_asn1_int64(octets, size, offset);
    simple_asn1_time(octets, size, offset);
    simple_asn1_text(octets, size, offset, text, sizeof text);
    simple_asn1_tag(octets, size, offset, text, sizeof text);
    return simple_asn1_oid(octets, size, offset, text, sizeof text).status;
}

static uint32_t called(const char *call, size_t size)
{
    const simple_asn1_block *first = blocks;
    simple_asn1_outcome all = simple_asn1_outline(octets, size, blocks, sizeof blocks / sizeof *blocks);
    const uint8_t *contents = simple_asn1_contents(octets, first);
    if (all.status != SIMPLE_ASN1_OK)
        return all.status;
    if (!strcmp(call, "read"))
        return simple_asn1_read(octets, size, blocks, sizeof blocks / sizeof *blocks).status;
    if (!strcmp(call, "rewrite"))
        return simple_asn1_rewrite(octets, size, text, sizeof text).status;
    if (!strcmp(call, "signed"))
        return simple_asn1_signed(octets, size).status;
    if (!strcmp(call, "components"))
        return simple_asn1_components(contents, first->contents, numbers, sizeof numbers / sizeof *numbers).status;
    if (!strcmp(call, "shortest_oid"))
        return simple_asn1_shortest_oid(contents, first->contents, text, sizeof text).status;
    if (!strcmp(call, "oid"))
        return simple_asn1_oid(octets, size, 0, text, sizeof text).status;
    if (!strcmp(call, "dotted"))
        return simple_asn1_dotted(contents, first->contents, text, sizeof text).status;
    if (!strcmp(call, "tag"))
        return simple_asn1_tag(octets, size, 0, text, sizeof text).status;
    if (!strcmp(call, "int64"))
        return simple_asn1_int64(octets, size, 0).status;
    for (size_t index = 0; index < all.count; index++)
        asked(size, blocks[index].offset);
    return SIMPLE_ASN1_OK;
}

int main(int count, char **words)
{
    FILE *file = count == 3 ? fopen(words[2], "rb") : NULL;
    if (!file)
        return 1;
    size_t size = fread(octets, 1, sizeof octets, file);
    clock_t begun = clock();
    uint32_t status = called(words[1], size);
    printf("%.0f %u\n", (double)(clock() - begun) / CLOCKS_PER_SEC * 1e6, status);
    return fclose(file);
}
