/* Each allocation of each call is refused, with all after it: the answer is that memory ran out, and none is kept.
 * memory FILE.der */
#include "documents.h"

extern void *__libc_malloc(size_t);
extern void *__libc_realloc(void *, size_t);
extern void __libc_free(void *);

static long left = -1; /* how many allocations are granted; -1: all */
static long asked;     /* how many were asked for */
static long live;      /* how many blocks of memory there are */

static int granted(void)
{
    asked++;
    if (left == 0)
        return 0;
    if (left > 0)
        left--;
    return 1;
}

void *malloc(size_t size)
{
    void *found = granted() ? __libc_malloc(size) : NULL;
    live += found != NULL;
    return found;
}

void *realloc(void *from, size_t size)
{
    void *found = granted() ? __libc_realloc(from, size) : NULL;
    live += found != NULL && from == NULL;
    return found;
}

void free(void *from)
{
    live -= from != NULL;
    __libc_free(from);
}

static uint8_t *octets;
static size_t size, count, text, oid, integer, bits, moment;
static simple_asn1_block blocks[1 << 13];
static uint8_t out[1 << 16];
static const simple_asn1_path whole = {0, 1};
static simple_asn1_value value;
static simple_asn1_departure departures[1 << 10];
/* a SET whose items are not in order, and a BOOLEAN that is neither 00 nor FF */
static const uint8_t broken[] = {0x30, 11, 0x31, 6, 4, 1, 65, 2, 1, 5, 1, 1, 42};
/* of more contents octets than are kept in place, and a component beyond 64 bits */
static const char wide[] = "2.25.340282366920938463463374607431768211456.1.2.3.4.5.6.7.8.9.10.11.12.13";
static const simple_asn1_moment last = {0, 9999, 12, 31, 23, 59, 59, 999999999};

static uint32_t status_of(int call)
{
    switch (call) {
    case 0: return simple_asn1_read(octets, size, blocks, 1 << 13).status;
    case 1: return simple_asn1_read_strict(octets, size, blocks, 1 << 13).status;
    case 2: return simple_asn1_rewrite(octets, size, out, sizeof out).status;
    case 3: return simple_asn1_signed(octets, size).status;
    case 4: return simple_asn1_int64(octets, size, integer).status;
    case 5: return simple_asn1_time(octets, size, moment).status;
    case 6: return simple_asn1_text(octets, size, text, out, sizeof out).status;
    case 7: return simple_asn1_oid(octets, size, oid, out, sizeof out).status;
    case 8: return simple_asn1_put_boolean(1, out, sizeof out).status;
    case 9: return simple_asn1_put_int64(INT64_MIN, out, sizeof out).status;
    case 10: return simple_asn1_put_bits(octets, size, 8 * size, out, sizeof out).status;
    case 11: return simple_asn1_put_oid((const uint8_t *)wide, sizeof wide - 1, out, sizeof out).status;
    case 12: return simple_asn1_put_text(12, (const uint8_t *)wide, sizeof wide - 1, out, sizeof out).status;
    case 13: return simple_asn1_put_time(24, &last, out, sizeof out).status;
    case 14: return simple_asn1_outline(octets, size, blocks, 1 << 13).status;
    case 15: return simple_asn1_check(octets, size).status;
    case 16: return simple_asn1_values(octets, size, &size, 1, &whole, 1, &value, 1).status;
    case 17: return simple_asn1_departures(octets, size, departures, 1 << 10).status;
    case 18: return simple_asn1_departures(broken, sizeof broken, departures, 1 << 10).status;
    case 19: return simple_asn1_bits(octets, size, bits).status;
    case 20: return simple_asn1_certificate(octets, size).status;
    case 21: return simple_asn1_request(a_request, sizeof a_request).status;
    case 22: return simple_asn1_revocation_list(a_revocation_list, sizeof a_revocation_list).status;
    default: return simple_asn1_write(octets, size, blocks, count, out, sizeof out).status;
    }
}

int main(int argc, char **argv)
{
    CHECK(argc == 2);
    octets = read_file(argv[1], &size);
    count = simple_asn1_read(octets, size, blocks, 1 << 13).count;
    for (size_t i = 0; i < count; i++) {
        size_t *kind = blocks[i].tag == 2 && blocks[i].contents <= 8 ? &integer
                       : blocks[i].tag == 3                          ? &bits
                       : blocks[i].tag == 6                          ? &oid
                       : blocks[i].tag == 23                         ? &moment
                       : blocks[i].tag == 12 || blocks[i].tag == 19  ? &text
                                                                     : NULL;
        if (kind != NULL && blocks[i].tag_class == 0)
            *kind = blocks[i].offset;
    }
    size_t refused = 0;
    for (int call = 0; call < 24; call++) {
        for (long k = 0;; k++) {
            long before = live;
            asked = 0, left = k;
            uint32_t status = status_of(call);
            left = -1;
            CHECK(live == before);
            if (asked <= k) {
                CHECK(status == SIMPLE_ASN1_OK);
                break;
            }
            CHECK(status == SIMPLE_ASN1_NO_MEMORY);
            CHECK(simple_asn1_read(octets, size, blocks, 1 << 13).status == SIMPLE_ASN1_OK);
            refused++;
        }
    }
    printf("%zu refused allocations are answered, and none is kept\n", refused);
    return 0;
}
