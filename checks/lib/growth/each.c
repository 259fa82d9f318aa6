/* each FILE..: makes each call of simple_asn1.h that takes a document on each of these, and prints its name, the
 * processor time that it took, in microseconds, and its status. `count` reads without room. `each` asks each block, by
 * headers, for a value of each kind, and each OBJECT IDENTIFIER for its components. */
#include <simple_asn1.h>
#include <stdio.h>
#include <time.h>

enum { SIZE = 1 << 20, ROOM = SIZE / 2, STEPS = 1000 };

static uint8_t octets[SIZE], out[4 * SIZE];
static uint64_t numbers[SIZE];
static simple_asn1_block blocks[ROOM];
static simple_asn1_departure broken[SIZE];

static uint32_t counted(size_t size)
{
    return simple_asn1_read(octets, size, NULL, 0).status;
}

static uint32_t is_read(size_t size)
{
    return simple_asn1_read(octets, size, blocks, ROOM).status;
}

static uint32_t is_read_strictly(size_t size)
{
    return simple_asn1_read_strict(octets, size, blocks, ROOM).status;
}

static uint32_t is_outlined(size_t size)
{
    return simple_asn1_outline(octets, size, blocks, ROOM).status;
}

static uint32_t is_checked(size_t size)
{
    return simple_asn1_check(octets, size).status;
}

static uint32_t has_fault(size_t size)
{
    return simple_asn1_fault(octets, size, out, sizeof out).status;
}

static uint32_t has_departures(size_t size)
{
    return simple_asn1_departures(octets, size, broken, sizeof broken / sizeof *broken).status;
}

static uint32_t has_signature(size_t size)
{
    return simple_asn1_signed(octets, size).status;
}

static uint32_t has_fields(size_t size)
{
    return simple_asn1_certificate(octets, size).status;
}

static uint32_t has_request_fields(size_t size)
{
    return simple_asn1_request(octets, size).status;
}

static uint32_t has_list_fields(size_t size)
{
    return simple_asn1_revocation_list(octets, size).status;
}

static uint32_t is_rewritten(size_t size)
{
    return simple_asn1_rewrite(octets, size, out, sizeof out).status;
}

static uint32_t is_written(size_t size)
{
    simple_asn1_outcome read = simple_asn1_read(octets, size, blocks, ROOM);
    return read.status ? read.status : simple_asn1_write(octets, size, blocks, read.count, out, sizeof out).status;
}

static uint32_t is_spelled(size_t size)
{
    simple_asn1_outcome read = simple_asn1_read(octets, size, blocks, ROOM);
    return read.status ? read.status : simple_asn1_spell(octets, size, blocks, read.count, out, sizeof out).status;
}

static uint32_t is_encoded(size_t size)
{
    return simple_asn1_encoding(0, 0, (const uint8_t *)"4", 1, octets, size, out, sizeof out).status;
}

/* of the first block, of its first item, and of one that is far down */
static uint32_t has_values(size_t size)
{
    static const size_t steps[STEPS] = {0};
    static const simple_asn1_path paths[] = {{0, 1}, {0, 2}, {0, STEPS}};
    static simple_asn1_value values[3];
    return simple_asn1_values(octets, size, steps, STEPS, paths, 3, values, 3).status;
}

static void ask(size_t size, const simple_asn1_block *block)
{
    simple_asn1_block found;
    size_t index = 1;
    simple_asn1_header(octets, size, block->offset, &found, 1);
    simple_asn1_int64(octets, size, block->offset);
    simple_asn1_bits(octets, size, block->offset);
    simple_asn1_time(octets, size, block->offset);
    simple_asn1_text(octets, size, block->offset, out, sizeof out);
    simple_asn1_oid(octets, size, block->offset, out, sizeof out);
    simple_asn1_tag(octets, size, block->offset, out, sizeof out);
    simple_asn1_tag_octets(octets, size, block->offset);
    if (block->tag_class || block->tag != 6)
        return;
    const uint8_t *contents = simple_asn1_contents(octets, block);
    simple_asn1_components(contents, block->contents, numbers, SIZE);
    simple_asn1_dotted(contents, block->contents, out, sizeof out);
    simple_asn1_shortest_oid(contents, block->contents, out, sizeof out);
    for (size_t count = 1; index < block->contents && count; index += count)
        count = simple_asn1_component(contents, block->contents, index).count;
}

static uint32_t has_each(size_t size)
{
    simple_asn1_outcome all = simple_asn1_outline(octets, size, blocks, ROOM);
    for (size_t index = 0; index < all.count; index++)
        ask(size, &blocks[index]);
    return all.status;
}

static const struct {
    const char *name;
    uint32_t (*made)(size_t);
} calls[] = {
    {"read", is_read}, {"count", counted}, {"strict", is_read_strictly}, {"outline", is_outlined},
    {"check", is_checked}, {"fault", has_fault}, {"departures", has_departures}, {"signed", has_signature},
    {"rewrite", is_rewritten}, {"write", is_written}, {"spell", is_spelled}, {"encoding", is_encoded},
    {"values", has_values}, {"certificate", has_fields}, {"request", has_request_fields}, {"list", has_list_fields},
    {"each", has_each},
};

int main(int count, char **words)
{
    for (int word = 1; word < count; word++) {
        FILE *file = fopen(words[word], "rb");
        if (!file)
            return 1;
        size_t size = fread(octets, 1, sizeof octets, file);
        fclose(file);
        for (size_t call = 0; call < sizeof calls / sizeof *calls; call++) {
            clock_t begun = clock();
            uint32_t status = calls[call].made(size);
            printf("%s %.0f %u\n", calls[call].name, (double)(clock() - begun) / CLOCKS_PER_SEC * 1e6, status);
        }
    }
    return 0;
}
