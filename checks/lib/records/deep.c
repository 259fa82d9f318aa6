/* Documents of so many levels on a small stack, and how time grows: deep LEVELS */
#include "documents.h"
#include <pthread.h>
#include <time.h>

/* NULL inside so many encodings with the leading octet; answers where the document begins, before an end. */
static uint8_t *nested(uint8_t leading, size_t levels, uint8_t *end)
{
    uint8_t *at = end;
    *--at = 0, *--at = 5;
    for (size_t i = 0; i < levels; i++) {
        size_t length = (size_t)(end - at), octets = 0;
        if (length < 128) {
            *--at = (uint8_t)length;
        } else {
            for (; length > 0; length >>= 8, octets++)
                *--at = (uint8_t)length;
            *--at = (uint8_t)(128 + octets);
        }
        *--at = leading;
    }
    return at;
}

static double seconds(const uint8_t *octets, size_t size, size_t levels)
{
    clock_t before = clock();
    simple_asn1_outcome o = simple_asn1_read(octets, size, NULL, 0);
    CHECK(o.status == SIMPLE_ASN1_NO_ROOM && o.count == levels + 1);
    simple_asn1_block *blocks = malloc(o.count * sizeof *blocks);
    uint8_t *out = malloc(size);
    CHECK(simple_asn1_read(octets, size, blocks, o.count).status == SIMPLE_ASN1_OK);
    for (size_t i = 0; i < o.count; i++)
        CHECK(blocks[i].depth == i && blocks[i].next == o.count);
    CHECK(simple_asn1_rewrite(octets, size, out, size).status == SIMPLE_ASN1_OK && memcmp(out, octets, size) == 0);
    CHECK(simple_asn1_write(octets, size, blocks, o.count, out, size).count == size && memcmp(out, octets, size) == 0);
    CHECK(simple_asn1_signed(octets, size).status == SIMPLE_ASN1_NOT_SIGNED);
    CHECK(simple_asn1_certificate(octets, size).status == SIMPLE_ASN1_NOT_CERTIFICATE);
    CHECK(simple_asn1_request(octets, size).status == SIMPLE_ASN1_NOT_REQUEST);
    CHECK(simple_asn1_revocation_list(octets, size).status == SIMPLE_ASN1_NOT_REVOCATION_LIST);
    free(blocks), free(out);
    return (double)(clock() - before) / CLOCKS_PER_SEC;
}

static void *run(void *argument)
{
    size_t levels = *(size_t *)argument, room = 6 * levels + 8;
    uint8_t *octets = malloc(room);
    const uint8_t leading[] = {0x30, 0xA0};
    for (size_t k = 0; k < sizeof leading; k++) {
        uint8_t *half = nested(leading[k], levels / 2, octets + room);
        double first = seconds(half, (size_t)(octets + room - half), levels / 2);
        uint8_t *whole = nested(leading[k], levels, octets + room);
        double second = seconds(whole, (size_t)(octets + room - whole), levels);
        printf("%zu levels of %02X: %.3f s, half as many: %.3f s\n", levels, leading[k], second, first);
        CHECK(second < 4 * first + 0.1);
    }
    free(octets);
    return NULL;
}

int main(int argc, char **argv)
{
    CHECK(argc == 2);
    size_t levels = strtoul(argv[1], NULL, 10);
    pthread_t thread;
    pthread_attr_t small;
    CHECK(pthread_attr_init(&small) == 0 && pthread_attr_setstacksize(&small, 64 * 1024) == 0);
    CHECK(pthread_create(&thread, &small, run, &levels) == 0 && pthread_join(thread, NULL) == 0);
    return 0;
}
