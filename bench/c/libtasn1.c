/* libtasn1, which reads by a schema: certificates alone, since its time for a list is quadratic. (A file of its own,
   since its header and OpenSSL's have names in common.) */
#include <libtasn1.h>
#include <limits.h>
#include <stdint.h>
#include <stdio.h>
#include <stdlib.h>
#include <string.h>

static const char *SCHEMA =
    "BENCH { }\nDEFINITIONS IMPLICIT TAGS ::=\nBEGIN\n"
    "AttributeTypeAndValue ::= SEQUENCE { type OBJECT IDENTIFIER, value ANY }\n"
    "RelativeDistinguishedName ::= SET SIZE (1..MAX) OF AttributeTypeAndValue\n"
    "Name ::= SEQUENCE OF RelativeDistinguishedName\n"
    "AlgorithmIdentifier ::= SEQUENCE { algorithm OBJECT IDENTIFIER, parameters ANY OPTIONAL }\n"
    "Time ::= CHOICE { utcTime UTCTime, generalTime GeneralizedTime }\n"
    "Validity ::= SEQUENCE { notBefore Time, notAfter Time }\n"
    "SubjectPublicKeyInfo ::= SEQUENCE { algorithm AlgorithmIdentifier, subjectPublicKey BIT STRING }\n"
    "Extension ::= SEQUENCE { extnID OBJECT IDENTIFIER, critical BOOLEAN DEFAULT FALSE, extnValue OCTET STRING }\n"
    "Extensions ::= SEQUENCE SIZE (1..MAX) OF Extension\n"
    "TBSCertificate ::= SEQUENCE { version [0] EXPLICIT INTEGER DEFAULT 0, serialNumber INTEGER,\n"
    " signature AlgorithmIdentifier, issuer Name, validity Validity, subject Name,\n"
    " subjectPublicKeyInfo SubjectPublicKeyInfo, issuerUniqueID [1] IMPLICIT BIT STRING OPTIONAL,\n"
    " subjectUniqueID [2] IMPLICIT BIT STRING OPTIONAL, extensions [3] EXPLICIT Extensions OPTIONAL }\n"
    "Certificate ::= SEQUENCE { tbsCertificate TBSCertificate, signatureAlgorithm AlgorithmIdentifier,\n"
    " signature BIT STRING }\n"
    "Bundle ::= SEQUENCE OF Certificate\n"
    "END\n";

static asn1_node schema;

static int schema_read(void)
{
    const char *folder = getenv("TMPDIR");
    char name[PATH_MAX], error[ASN1_MAX_ERROR_DESCRIPTION_SIZE];
    int size = snprintf(name, sizeof name, "%s/schema-XXXXXX", folder ? folder : P_tmpdir);
    int to = size < (int)sizeof name ? mkstemp(name) : -1;
    FILE *file = to < 0 ? NULL : fdopen(to, "w");
    if (!file)
        return 0;
    fputs(SCHEMA, file);
    fclose(file);
    int status = asn1_parser2tree(name, &schema, error);
    remove(name);
    if (status != ASN1_SUCCESS)
        fprintf(stderr, "libtasn1: %s\n", error);
    return status == ASN1_SUCCESS;
}

/* Reads a document, strictly or not, and writes what was read so many times. Whether it was read. */
int libtasn1_typed(const char *item, const uint8_t *octets, size_t size, int is_strict, uint64_t times)
{
    int is_bundle = strcmp(item, "bundle") == 0;
    const char *type = is_bundle ? "BENCH.Bundle" : "BENCH.Certificate";
    asn1_node it = NULL;
    if (!is_bundle && strcmp(item, "certificates") != 0)
        return 0;
    if ((!schema && !schema_read()) || asn1_create_element(schema, type, &it))
        return 0;
    int length = (int)size, flags = is_strict ? ASN1_DECODE_FLAG_STRICT_DER : 0;
    int is_well = asn1_der_decoding2(&it, octets, &length, flags, NULL) == ASN1_SUCCESS;
    while (is_well && times-- > 0) {
        int room = (int)size + 64;
        unsigned char *out = malloc(room);
        is_well = out && asn1_der_coding(it, "", out, &room, NULL) == ASN1_SUCCESS;
        free(out);
    }
    asn1_delete_structure(&it);
    return is_well;
}
