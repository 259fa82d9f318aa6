/* Makes a certification request (PKCS #10, RFC 2986) for an Ed25519 or P-256 key:
 *
 *     openssl pkey -in KEY.pem -pubout -outform DER -out PUBLIC.der
 *     csr NAME PUBLIC.der > INFO.der
 *     openssl pkeyutl -sign -inkey KEY.pem -rawin -in INFO.der -out SIGNATURE    (P-256: and -digest sha256)
 *     csr NAME PUBLIC.der SIGNATURE > REQUEST.der */
#include "simple_asn1.h"
#include <stdio.h>
#include <stdlib.h>

enum { UNIVERSAL = 0, CONTEXT = 2, UTF8_STRING = 12, SEQUENCE = 16, SET = 17 };

static void fail(const char *why)
{
    fprintf(stderr, "%s\n", why);
    exit(1);
}

static size_t read_file(const char *path, uint8_t *octets, size_t room)
{
    FILE *file = fopen(path, "rb");
    size_t size = file ? fread(octets, 1, room, file) : 0;
    if (!file || ferror(file) || !feof(file))
        fail("a file can't be read, or is too large");
    fclose(file);
    return size;
}

/* The algorithm that a key signs with, by the OBJECT IDENTIFIER of the key's. */
static const char *signature_algorithm(const uint8_t *key, size_t size, const simple_asn1_block *blocks)
{
    char algorithm[64] = "";
    simple_asn1_oid(key, size, blocks[2].offset, (uint8_t *)algorithm, sizeof algorithm - 1);
    if (strcmp(algorithm, "1.3.101.112") == 0)
        return "1.3.101.112"; /* Ed25519 */
    if (strcmp(algorithm, "1.2.840.10045.2.1") == 0)
        return "1.2.840.10045.4.3.2"; /* ecdsa-with-SHA256 */
    fail("this key is neither of Ed25519 nor of P-256");
    return NULL;
}

/* The CertificationRequestInfo, which is signed: version, subject, public key and no attributes. */
static void add_info(simple_asn1_builder *builder, const char *name, const uint8_t *key, const simple_asn1_block *block)
{
    simple_asn1_open(builder, UNIVERSAL, SEQUENCE);
    simple_asn1_add_int64(builder, 0);
    simple_asn1_open(builder, UNIVERSAL, SEQUENCE);
    simple_asn1_open(builder, UNIVERSAL, SET);
    simple_asn1_open(builder, UNIVERSAL, SEQUENCE);
    simple_asn1_add_oid(builder, "2.5.4.3"); /* commonName */
    simple_asn1_add_text(builder, UTF8_STRING, name);
    simple_asn1_close(builder);
    simple_asn1_close(builder);
    simple_asn1_close(builder);
    simple_asn1_add_block(builder, key, block);
    simple_asn1_open(builder, CONTEXT, 0);
    simple_asn1_close(builder);
    simple_asn1_close(builder);
}

int main(int argc, char **argv)
{
    static uint8_t key[1024], signature[1024], octets[4096], request[4096];
    simple_asn1_block read[16], made[32];
    if (argc != 3 && argc != 4)
        fail("csr NAME PUBLIC.der [SIGNATURE]");
    size_t size = read_file(argv[2], key, sizeof key);
    simple_asn1_outcome o = simple_asn1_read_strict(key, size, read, 16);
    if (o.status || o.count < 4)
        fail("this is no public key");

    simple_asn1_builder builder = simple_asn1_begin(octets, sizeof octets, made, 32);
    if (argc == 3) {
        add_info(&builder, argv[1], key, &read[0]);
    } else {
        size_t signed_size = read_file(argv[3], signature, sizeof signature);
        simple_asn1_open(&builder, UNIVERSAL, SEQUENCE);
        add_info(&builder, argv[1], key, &read[0]);
        simple_asn1_open(&builder, UNIVERSAL, SEQUENCE);
        simple_asn1_add_oid(&builder, signature_algorithm(key, size, read));
        simple_asn1_close(&builder);
        simple_asn1_add_bits(&builder, signature, signed_size, 8 * signed_size);
        simple_asn1_close(&builder);
    }
    o = simple_asn1_finish(&builder, request, sizeof request);
    if (o.status)
        fail(simple_asn1_status_text(o.status));
    fwrite(request, 1, o.count, stdout);
    return 0;
}
