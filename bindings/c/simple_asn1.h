/* simple_asn1.h: reads and writes DER (ITU-T X.690) as flat records.
 *
 * Link libsimple_asn1, which calls the program's malloc, realloc and free. No call keeps memory or hands memory out,
 * and calls may run in several threads at once. Every call returns for all bytes, offsets and records. The caller must
 * ensure that each pointer has as many bytes or records behind it as the number after it says (it may be null if that
 * is 0), and that no output overlaps an input.
 *
 * What a call holds in memory while it runs, beside the caller's:
 *
 * - simple_asn1_read and simple_asn1_outline: no more records than there is room for, and 64 bytes for each level of
 *   nesting that is open at a time. simple_asn1_check: these levels alone.
 * - simple_asn1_read_strict: the same, or 4,096 records, if that is more. But a document that is not seen at once to be
 *   canonical takes its blocks, up to 40 bytes for each of its bytes.
 * - simple_asn1_rewrite: up to 112 bytes for each of these levels, and no more of bytes that are seen at once to be
 *   canonical, and of more than 65,536 that are no document or for which there is too little room; of others their
 *   blocks, and what is written. simple_asn1_write: the bytes that the records describe, and what rewriting these takes.
 * - simple_asn1_values: the values, if there is room for all, and these levels. simple_asn1_signed: two records, and
 *   these levels. simple_asn1_certificate, simple_asn1_request and simple_asn1_revocation_list: the records of all
 *   blocks, and these levels. simple_asn1_departures: 16 bytes for each departure, also inside contents that turn out to
 *   be no encodings, where only that is listed.
 *
 * Where it is not X.690's BER, and what strict reading accepts though DER forbids it:
 *
 * - OBJECT IDENTIFIER: the first subidentifier is one octet. 88 37 is 2.56.55, where X.690 has 2.999.
 * - BMPString, UniversalString and TeletexString hold UTF-8, where X.690 has other codes.
 * - BIT STRING: no bits are 03 00 in canonical form, where X.690 has 03 01 00, which is read, but not strictly.
 * - Length octets: 80 is the length 0. The indefinite form is not supported.
 * - Constructed strings are not joined: the contents octets of 24 03 04 01 05 are 04 01 05.
 * - Text: of UTF8String, PrintableString, TeletexString, IA5String, UniversalString and BMPString only. Other strings
 *   have none.
 * - Times: those with an offset, a comma, second 60 or no seconds are rejected.
 * - An INTEGER beyond int64_t is SIMPLE_ASN1_RANGE.
 * - Other classes: a constructed block has items if its contents octets are valid blocks. Strict reading checks an item
 *   that is the only one, and no other contents octets.
 * - Strict reading accepts unused bits that are not 0, and more than 7 of them; octets of an IA5String above 7F; a SET
 *   in any order; DEFAULT values; any contents octets of tags of class Universal without a type here, such as
 *   ENUMERATED, REAL and VisibleString. */
#ifndef SIMPLE_ASN1_H
#define SIMPLE_ASN1_H
#include <stddef.h>
#include <stdint.h>
#include <string.h>
#ifdef __cplusplus
extern "C" {
#endif

#define SIMPLE_ASN1_VERSION 1 /* of the calls and records; libsimple_asn1.so.1 */
#define SIMPLE_ASN1_RELEASE "1.0.0" /* of the library; CHANGELOG.md says what it promises */

enum { /* what calls return */
    SIMPLE_ASN1_OK = 0,
    SIMPLE_ASN1_EMPTY = 1,               /* errors of reading: the input is empty */
    SIMPLE_ASN1_BOOLEAN_LENGTH = 2,      /* a BOOLEAN must have one contents octet */
    SIMPLE_ASN1_LENGTH = 3,              /* a length beyond size_t */
    SIMPLE_ASN1_UTF8 = 4,                /* a string or time is not UTF-8 */
    SIMPLE_ASN1_PRINTABLE = 5,           /* a PrintableString has a forbidden character */
    SIMPLE_ASN1_DATE = 6,                /* a UTCTime or GeneralizedTime is invalid */
    SIMPLE_ASN1_BIT_STRING_LENGTH = 7,   /* a BIT STRING has more unused bits than bits */
    SIMPLE_ASN1_INCOMPLETE = 8,          /* the input is truncated */
    SIMPLE_ASN1_NOT_CANONICAL = 9,       /* read_strict: a block that rewrite would change */
    SIMPLE_ASN1_NO_MEMORY = 10,
    SIMPLE_ASN1_NO_ROOM = 11,            /* count is how much is needed; nothing was written */
    SIMPLE_ASN1_NO_SUCH_VALUE = 12,      /* there is no block of this kind at the offset */
    SIMPLE_ASN1_RANGE = 13,              /* the value does not fit */
    SIMPLE_ASN1_NOT_SIGNED = 14,         /* the first block is not a signed triple */
    SIMPLE_ASN1_BAD_RECORD = 15,         /* write: the record at index `offset` cannot be written; the last such one */
    SIMPLE_ASN1_NOT_OID = 16,            /* put: the text is not an OBJECT IDENTIFIER's, as 1.2.840 is */
    SIMPLE_ASN1_TOO_LONG = 17,           /* oid, dotted, tag, put_oid, encoding: too long for text in decimal */
    SIMPLE_ASN1_NOT_CERTIFICATE = 18,    /* the first block is not a certificate */
    SIMPLE_ASN1_NOT_REQUEST = 19,        /* the first block is not a certification request */
    SIMPLE_ASN1_NOT_REVOCATION_LIST = 20 /* the first block is not a certificate revocation list */
};

/* A block. The blocks that it holds come right after it. */
typedef struct simple_asn1_block {
    uint64_t tag;       /* tag number; UINT64_MAX for greater ones too, and write rejects a record with it */
    size_t offset;      /* of its first byte from the start of the document */
    size_t header;      /* number of identifier and length octets, in bytes */
    size_t contents;    /* number of contents octets after them, in bytes */
    size_t items;       /* number of blocks directly inside it; other classes than 0 have them too */
    size_t next;        /* index of the record after it and all that it holds */
    size_t depth;       /* number of blocks around it */
    uint8_t tag_class;  /* 0 universal, 1 application, 2 context-specific, 3 private */
    uint8_t constructed;
} simple_asn1_block;

/* A path to a block: so many item numbers of an array of them, from the one at `start` on. */
typedef struct simple_asn1_path {
    size_t start;
    size_t length;
} simple_asn1_path;

#define SIMPLE_ASN1_KIND_NONE 0    /* the path leads nowhere; all other fields are 0 */
#define SIMPLE_ASN1_KIND_BLOCK 1   /* a block */
#define SIMPLE_ASN1_KIND_INTEGER 2 /* an INTEGER whose number fits */

typedef struct simple_asn1_value { /* what a path leads to; the fields of a block are those of simple_asn1_block */
    uint64_t tag;
    size_t offset;
    size_t header;
    size_t contents;
    int64_t number;   /* 0 unless the kind is SIMPLE_ASN1_KIND_INTEGER */
    uint32_t kind;
    uint8_t tag_class;
    uint8_t constructed;
} simple_asn1_value;

/* A rule of DER that an encoding breaks. */
typedef struct simple_asn1_departure {
    size_t offset; /* of the encoding, from the start of the input */
    uint32_t rule; /* one of those below */
} simple_asn1_departure;

enum { /* what is wrong, and the clauses that say the rule: of X.690, unless X.680 is named */
    SIMPLE_ASN1_RULE_LONG_IDENTIFIER = 1,    /* tag number below 31 in more than one byte: 8.1.2.2 */
    SIMPLE_ASN1_RULE_PADDED_TAG = 2,         /* tag number not in the fewest bytes: 8.1.2.4.2 */
    SIMPLE_ASN1_RULE_INDEFINITE_LENGTH = 3,  /* indefinite length: 8.1.3.2, 10.1 */
    SIMPLE_ASN1_RULE_LONG_LENGTH = 4,        /* length not in the fewest bytes: 10.1 */
    SIMPLE_ASN1_RULE_RESERVED_TAG = 5,       /* reserved tag: X.680 8.4 */
    SIMPLE_ASN1_RULE_NOT_CONSTRUCTED = 6,    /* primitive, but the type is constructed: 8.9.1, 8.11.1, 8.17, 8.18,
                                              * 8.24 */
    SIMPLE_ASN1_RULE_NOT_PRIMITIVE = 7,      /* constructed, but the type is primitive: 8.2.1, 8.3.1, 8.5.1, 8.8.1,
                                              * 8.19.1, 8.20.1, 8.21, 8.22, 8.26 */
    SIMPLE_ASN1_RULE_CONSTRUCTED_STRING = 8, /* string in pieces: 10.2 */
    SIMPLE_ASN1_RULE_BOOLEAN_SIZE = 9,       /* BOOLEAN not of one byte: 8.2.1 */
    SIMPLE_ASN1_RULE_BOOLEAN_VALUE = 10,     /* BOOLEAN neither 00 nor FF: 8.2.2, 11.1 */
    SIMPLE_ASN1_RULE_NO_INTEGER = 11,        /* number without bytes: 8.3.1 */
    SIMPLE_ASN1_RULE_PADDED_INTEGER = 12,    /* number not in the fewest bytes: 8.3.2 */
    SIMPLE_ASN1_RULE_BINARY_REAL = 13,       /* binary REAL not in its one form: 8.5.7, 11.3.1 */
    SIMPLE_ASN1_RULE_DECIMAL_REAL = 14,      /* decimal REAL not in its one form: 8.5.8, 11.3.2 */
    SIMPLE_ASN1_RULE_SPECIAL_REAL = 15,      /* special REAL that there is not: 8.5.9 */
    SIMPLE_ASN1_RULE_UNUSED_COUNT = 16,      /* no number of unused bits from 0 to 7: 8.6.2.2 */
    SIMPLE_ASN1_RULE_UNUSED_OF_NONE = 17,    /* unused bits of no bits: 8.6.2.3 */
    SIMPLE_ASN1_RULE_UNUSED_BITS = 18,       /* unused bits not 0: 11.2.1 */
    SIMPLE_ASN1_RULE_NULL_CONTENTS = 19,     /* NULL with contents: 8.8.2 */
    SIMPLE_ASN1_RULE_SUBIDENTIFIERS = 20,    /* subidentifiers missing, cut off or not in the fewest bytes: 8.19.2,
                                              * 8.20.2 */
    SIMPLE_ASN1_RULE_IRI = 21,               /* no internationalized resource identifier: 8.21, 8.22 */
    SIMPLE_ASN1_RULE_CHARACTERS = 22,        /* characters that the type does not have: 8.23, X.680 41 */
    SIMPLE_ASN1_RULE_UTC_TIME = 23,          /* not YYMMDDhhmmssZ of a moment that exists: 11.8 */
    SIMPLE_ASN1_RULE_GENERALIZED_TIME = 24,  /* not YYYYMMDDhhmmss[.f]Z of a moment that exists: 11.7 */
    SIMPLE_ASN1_RULE_TIME = 25,              /* no date or time of the type: 8.26 */
    SIMPLE_ASN1_RULE_ORDER = 26,             /* SET out of order: 10.3, 11.6 */
    SIMPLE_ASN1_RULE_NOT_ENCODINGS = 27,     /* contents that are not encodings: 8.9.2, 8.10.2, 8.11.2, 8.12.2, 8.14 */
    SIMPLE_ASN1_RULE_EXTERNAL = 28,          /* not a reference and an encoding: 8.18 */
    SIMPLE_ASN1_RULE_IDENTIFICATION = 29     /* not an identification and a value: 8.17, 8.24 */
};

typedef struct simple_asn1_outcome {
    uint32_t status;
    size_t offset; /* of the block at fault; 0 if none is */
    size_t count;  /* records or bytes that were written, or with NO_ROOM are needed; otherwise 0 */
} simple_asn1_outcome;

typedef struct simple_asn1_integer {
    uint32_t status;
    int64_t value; /* 0 unless the status is SIMPLE_ASN1_OK */
} simple_asn1_integer;

typedef struct simple_asn1_bit_string { /* all 0 unless the status is SIMPLE_ASN1_OK */
    uint32_t status;
    size_t start; /* offset of the first byte that holds bits, from the start of the input */
    size_t size;  /* of so many bytes that hold them */
    size_t bits;  /* number of bits; at most 8 * size, and the others at the end are unused */
} simple_asn1_bit_string;

typedef struct simple_asn1_moment { /* in UTC; all 0 unless the status is SIMPLE_ASN1_OK */
    uint32_t status;
    int32_t year;
    uint32_t month; /* 1 to 12 */
    uint32_t day;   /* 1 to 31 */
    uint32_t hour;
    uint32_t minute;
    uint32_t second;
    uint32_t nanosecond; /* of the second */
} simple_asn1_moment;

typedef struct simple_asn1_refusal { /* why bytes are not a document; SIMPLE_ASN1_OK if they are one */
    uint32_t status;
    size_t offset;            /* of the block at fault */
    uint64_t number;          /* of bytes, with BOOLEAN_LENGTH and LENGTH; of missing bits, with BIT_STRING_LENGTH */
    simple_asn1_outcome text; /* of writing the text of a time, with DATE; otherwise of an empty one */
} simple_asn1_refusal;

typedef struct simple_asn1_signed_parts { /* next and depth of the records are 0 */
    uint32_t status;
    size_t offset;               /* of the block at fault */
    simple_asn1_block content;   /* what was signed: header + contents bytes from octets + offset on */
    simple_asn1_block algorithm; /* its OBJECT IDENTIFIER */
    simple_asn1_block signature; /* BIT STRING */
} simple_asn1_signed_parts;

typedef struct simple_asn1_certificate_parts { /* all records 0 unless the status is SIMPLE_ASN1_OK */
    uint32_t status;
    size_t offset;                             /* of the block at fault */
    simple_asn1_block certificate;             /* the whole */
    simple_asn1_block tbs_certificate;         /* what is signed: header + contents bytes from octets + offset on */
    simple_asn1_block version;                 /* [0] around an INTEGER, or absent */
    simple_asn1_block serial_number;           /* INTEGER */
    simple_asn1_block tbs_signature;           /* the algorithm of the signature, as what is signed has it */
    simple_asn1_block issuer;                  /* Name */
    simple_asn1_block not_before;              /* UTCTime or GeneralizedTime */
    simple_asn1_block not_after;
    simple_asn1_block subject;                 /* Name */
    simple_asn1_block subject_public_key_info; /* the whole public key */
    simple_asn1_block public_key_algorithm;    /* AlgorithmIdentifier */
    simple_asn1_block subject_public_key;      /* BIT STRING */
    simple_asn1_block issuer_unique_id;        /* [1] in place of a BIT STRING, or absent */
    simple_asn1_block subject_unique_id;       /* [2], or absent */
    simple_asn1_block extensions;              /* [3] around a SEQUENCE of extensions, or absent */
    simple_asn1_block signature_algorithm;     /* AlgorithmIdentifier */
    simple_asn1_block signature;               /* BIT STRING */
} simple_asn1_certificate_parts;

typedef struct simple_asn1_request_parts { /* all records 0 unless the status is SIMPLE_ASN1_OK */
    uint32_t status;
    size_t offset;                                /* of the block at fault */
    simple_asn1_block certification_request;      /* the whole */
    simple_asn1_block certification_request_info; /* what is signed: header + contents bytes from octets + offset on */
    simple_asn1_block version;                    /* INTEGER */
    simple_asn1_block subject;                    /* Name */
    simple_asn1_block subject_public_key_info;    /* the whole public key */
    simple_asn1_block public_key_algorithm;       /* AlgorithmIdentifier */
    simple_asn1_block subject_public_key;         /* BIT STRING */
    simple_asn1_block attributes;                 /* [0] in place of a SET of attributes */
    simple_asn1_block signature_algorithm;        /* AlgorithmIdentifier */
    simple_asn1_block signature;                  /* BIT STRING */
} simple_asn1_request_parts;

typedef struct simple_asn1_revocation_list_parts { /* all records 0 unless the status is SIMPLE_ASN1_OK */
    uint32_t status;
    size_t offset;                          /* of the block at fault */
    simple_asn1_block certificate_list;     /* the whole */
    simple_asn1_block tbs_cert_list;        /* what is signed: header + contents bytes from octets + offset on */
    simple_asn1_block version;              /* INTEGER, or absent */
    simple_asn1_block tbs_signature;        /* the algorithm of the signature, as what is signed has it */
    simple_asn1_block issuer;               /* Name */
    simple_asn1_block this_update;          /* UTCTime or GeneralizedTime */
    simple_asn1_block next_update;          /* the same, or absent */
    simple_asn1_block revoked_certificates; /* SEQUENCE of entries, or absent */
    simple_asn1_block crl_extensions;       /* [0] around a SEQUENCE of extensions, or absent */
    simple_asn1_block signature_algorithm;  /* AlgorithmIdentifier */
    simple_asn1_block signature;            /* BIT STRING */
} simple_asn1_revocation_list_parts;

/* SIMPLE_ASN1_VERSION of the library that the program runs with. */
uint32_t simple_asn1_version(void);

/* Writes the record of each block of a document, in order. At most size / 2 are needed. Records after those that are
 * written stay as they are; with any other status than SIMPLE_ASN1_OK all do. Blocks beyond the room are counted alone:
 * so the number of a large document's records can be asked for without room, and just that room given then. */
simple_asn1_outcome simple_asn1_read(const uint8_t *octets, size_t size, simple_asn1_block *blocks, size_t room);

/* The same, for documents in canonical form only, which is what simple_asn1_rewrite writes. It is not quite DER: the
 * head of this file says how they differ. A document of more than 4,096 blocks is read twice, unless there is room for
 * their records. */
simple_asn1_outcome simple_asn1_read_strict(const uint8_t *octets, size_t size, simple_asn1_block *blocks, size_t room);

/* The same by headers alone: contents octets of leaves are not checked, so a document with faults in them can be walked
 * too. The error is that of the first header at fault. */
simple_asn1_outcome simple_asn1_outline(const uint8_t *octets, size_t size, simple_asn1_block *blocks, size_t room);

/* Many values by one call: writes what each path leads to in a document, which is read as by simple_asn1_outline. A
 * path has item numbers from 0: the first is that of a block at the top level, each other that of an item of the one
 * before. A path that leads nowhere, one without numbers, and one beyond the step_count numbers in steps are no error:
 * the kind is then SIMPLE_ASN1_KIND_NONE. Contents octets are not checked.
 *
 *     static const size_t steps[] = {0, 0, 1, 0, 0, 3};
 *     static const simple_asn1_path paths[] = {{0, 3}, {3, 3}};
 *     simple_asn1_value values[2];
 *     simple_asn1_outcome o = simple_asn1_values(octets, size, steps, 6, paths, 2, values, 2);
 */
simple_asn1_outcome simple_asn1_values(const uint8_t *octets, size_t size, const size_t *steps, size_t step_count,
                                       const simple_asn1_path *paths, size_t path_count, simple_asn1_value *values,
                                       size_t room);

/* Whether bytes are a document, and otherwise the first error, as simple_asn1_read: no records are made. */
simple_asn1_outcome simple_asn1_check(const uint8_t *octets, size_t size);

/* Whether bytes are DER by X.690, and why not: writes the offset and the rule of each departure, in the order of the
 * offsets. The count is 0 exactly for DER. Constructed encodings are looked into at every depth; an OCTET STRING and a
 * BIT STRING are not. Rules that need a schema are not checked: DEFAULT, named bits, sizes, and which of 10.3 and 11.6
 * orders a SET. A length of the indefinite form is one departure, and what it encloses is followed. A constructed
 * encoding whose contents octets are not encodings is one departure, and nothing inside it is listed. The error is that
 * of bytes that are not encodings one after another by their headers, with the offset of the header at fault. */
simple_asn1_outcome simple_asn1_departures(const uint8_t *octets, size_t size, simple_asn1_departure *departures,
                                           size_t room);

/* Writes the canonical bytes of a document. They are not always DER: a BIT STRING of no bits is written 03 00, where DER
 * has 03 01 00. simple_asn1_departures says whether bytes are DER. Without room it says how many bytes there are. */
simple_asn1_outcome simple_asn1_rewrite(const uint8_t *octets, size_t size, uint8_t *out, size_t room);

/* Writes the canonical bytes of what records describe: one with items holds the records after it; any other has the
 * contents octets from offset + header on. Records that were read can be passed as they are; next and depth are
 * ignored. Several blocks in one of another class than 0 get the shortest headers, where rewrite keeps them as they
 * came. BAD_RECORD has the index of the last record that cannot be written: its class is above 3, its tag is
 * UINT64_MAX, which also stands for each greater number, it has more items than blocks stand behind it, or its contents
 * octets are not within these bytes. */
simple_asn1_outcome simple_asn1_write(const uint8_t *octets, size_t size, const simple_asn1_block *blocks, size_t count,
                                      uint8_t *out, size_t room);

/* The value of the block at an offset: an INTEGER's number, if it fits; where the bits of a BIT STRING are; the moment
 * of a UTCTime or GeneralizedTime; a string's text, of any kind, in UTF-8; an OBJECT IDENTIFIER's components, as in
 * 1.2.840. No terminating 0 is added. Only its header and its own contents octets are looked at; a block with another
 * tag is NO_SUCH_VALUE. An OBJECT IDENTIFIER of more than 1,024 contents octets is TOO_LONG, since the digits of one
 * component take time that grows as the square of its octets: simple_asn1_component gives the octets, of any size. */
simple_asn1_integer simple_asn1_int64(const uint8_t *octets, size_t size, size_t offset);
simple_asn1_bit_string simple_asn1_bits(const uint8_t *octets, size_t size, size_t offset);
simple_asn1_moment simple_asn1_time(const uint8_t *octets, size_t size, size_t offset);
simple_asn1_outcome simple_asn1_text(const uint8_t *octets, size_t size, size_t offset, uint8_t *out, size_t room);
simple_asn1_outcome simple_asn1_oid(const uint8_t *octets, size_t size, size_t offset, uint8_t *out, size_t room);

/* Room that is always enough for the text of an OBJECT IDENTIFIER with so many contents octets. */
static inline size_t simple_asn1_oid_room(size_t contents)
{
    return 4 * contents + 1;
}

/* The parts of a certificate, request or revocation list with which its signature is verified (RFC 5280, section 4.1).
 * The algorithm's parameters are the octets from the end of its OBJECT IDENTIFIER to the offset of the signature;
 * simple_asn1_bits says where the bits of the signature are. */
simple_asn1_signed_parts simple_asn1_signed(const uint8_t *octets, size_t size);

/* The fields of the certificate that a document begins with, where it is one by RFC 5280, section 4.1. No signature,
 * chain, moment or purpose is checked. The records are those that simple_asn1_read writes; of an absent field all
 * numbers are 0. What is inside version and extensions begins behind their header. simple_asn1_time says which moments
 * not_before and not_after are, simple_asn1_text what a text in a name says, and simple_asn1_bits where bits are. */
simple_asn1_certificate_parts simple_asn1_certificate(const uint8_t *octets, size_t size);

/* The same of a certification request (PKCS #10), by RFC 2986, section 4. The attributes begin behind the header of
 * their record, one after another, each a SEQUENCE of an OBJECT IDENTIFIER and a SET. */
simple_asn1_request_parts simple_asn1_request(const uint8_t *octets, size_t size);

/* The same of a certificate revocation list, by RFC 5280, section 5.1. An entry of revoked_certificates is a SEQUENCE of
 * a serial number, a moment and perhaps a SEQUENCE of extensions. simple_asn1_header steps through them in no memory,
 * however many there are:
 *
 *     simple_asn1_revocation_list_parts list = simple_asn1_revocation_list(octets, size);
 *     size_t at = list.revoked_certificates.offset + list.revoked_certificates.header;
 *     size_t end = at + list.revoked_certificates.contents;
 *     simple_asn1_block entry, serial_number, revocation_date;
 *     while (at < end && simple_asn1_header(octets, size, at, &entry, 1).status == SIMPLE_ASN1_OK) {
 *         size_t inside = at + entry.header;
 *         simple_asn1_header(octets, size, inside, &serial_number, 1);
 *         inside += serial_number.header + serial_number.contents;
 *         simple_asn1_header(octets, size, inside, &revocation_date, 1);
 *         at += entry.header + entry.contents;
 *     }
 */
simple_asn1_revocation_list_parts simple_asn1_revocation_list(const uint8_t *octets, size_t size);

/* Each writes the contents octets of a value, for a record of simple_asn1_write to point at:
 *
 * - put_boolean: 0 is false, any other value true. put_int64: an INTEGER.
 * - put_bits: a BIT STRING of the first bits of these bytes. Unused bits stay as they are; in DER they are 0.
 * - put_oid: an OBJECT IDENTIFIER from its components in decimal, as in 1.2.840.
 * - put_text: a string with this tag number, from text in UTF-8.
 * - put_time: a UTCTime (tag 23) or GeneralizedTime (tag 24). The status of the moment is ignored.
 *
 * A value that does not fit its type, or would not be read back, is rejected:
 *
 * - NOT_OID: another text. TOO_LONG: a text of more than 4,097 bytes, which simple_asn1_oid never writes.
 * - RANGE: components that cannot be written, a character above 7F in an IA5String, octets that are not the fewest for
 *   so many bits.
 * - UTF8, PRINTABLE and DATE, as in reading; DATE also for a UTCTime of another year than 1950 to 2049, or with a
 *   fraction of a second. NO_SUCH_VALUE: the tag number is not that of a string, or of a time. */
simple_asn1_outcome simple_asn1_put_boolean(uint8_t value, uint8_t *out, size_t room);
simple_asn1_outcome simple_asn1_put_int64(int64_t value, uint8_t *out, size_t room);
simple_asn1_outcome simple_asn1_put_bits(const uint8_t *octets, size_t size, size_t bits, uint8_t *out, size_t room);
simple_asn1_outcome simple_asn1_put_oid(const uint8_t *text, size_t size, uint8_t *out, size_t room);
simple_asn1_outcome simple_asn1_put_text(uint64_t tag, const uint8_t *text, size_t size, uint8_t *out, size_t room);
simple_asn1_outcome simple_asn1_put_time(uint64_t tag, const simple_asn1_moment *moment, uint8_t *out, size_t room);

/* For bindings that make their own values from records and contents octets.
 *
 * Each takes the contents octets of an OBJECT IDENTIFIER. simple_asn1_components writes the components as numbers, or
 * returns RANGE if one is 2^64 or more; simple_asn1_dotted writes them in decimal, of any size, as simple_asn1_oid does;
 * and simple_asn1_shortest_oid writes the canonical contents octets. Errors of other bytes are those of reading. */
simple_asn1_outcome simple_asn1_components(const uint8_t *contents, size_t size, uint64_t *out, size_t room);
simple_asn1_outcome simple_asn1_dotted(const uint8_t *contents, size_t size, uint8_t *out, size_t room);
simple_asn1_outcome simple_asn1_shortest_oid(const uint8_t *contents, size_t size, uint8_t *out, size_t room);

/* How many octets (count) the component has that begins at an index of these contents octets: seven bits in each, most
 * significant first. The third component begins at index 1, each other where the one before ends; the octet at index 0
 * has the first two, 40 times the first, 2 at most, and the second. NO_SUCH_VALUE: the index is 0 or not below size.
 * INCOMPLETE: the octets run out. */
simple_asn1_outcome simple_asn1_component(const uint8_t *contents, size_t size, size_t index);

/* simple_asn1_header writes the record of the encoding at an offset, read by its header alone: items, next and depth
 * are 0. simple_asn1_tag writes its tag number in decimal, of any size, or returns TOO_LONG if it has more than 1,024
 * identifier octets; simple_asn1_tag_room of its header is always enough. simple_asn1_tag_octets returns how many octets
 * (count) after the first of the encoding have the number, seven bits in each, most significant first: none for a number
 * in the first octet, below 31. NO_SUCH_VALUE: no encoding is at the offset. */
simple_asn1_outcome simple_asn1_header(const uint8_t *octets, size_t size, size_t offset, simple_asn1_block *blocks,
                                       size_t room);
simple_asn1_outcome simple_asn1_tag(const uint8_t *octets, size_t size, size_t offset, uint8_t *out, size_t room);
simple_asn1_outcome simple_asn1_tag_octets(const uint8_t *octets, size_t size, size_t offset);

static inline size_t simple_asn1_tag_room(size_t header)
{
    return 3 * header;
}

/* Why simple_asn1_read rejects these bytes, with the number or the text of the error. */
simple_asn1_refusal simple_asn1_fault(const uint8_t *octets, size_t size, uint8_t *out, size_t room);

/* As simple_asn1_put_bits and the others, of values that would not be read back too: up to 255 unused bits; components
 * as numbers (NOT_OID: fewer than two; RANGE: the one at index `offset` is too large); any characters of a
 * PrintableString, and an IA5String's up to FF (RANGE: a greater one); a UTCTime of any year, which loses its century
 * and the fraction (DATE: no such day or time in the years 0 to 9999). */
simple_asn1_outcome simple_asn1_raw_bits(const uint8_t *octets, size_t size, size_t bits, uint8_t *out, size_t room);
simple_asn1_outcome simple_asn1_raw_oid(const uint64_t *components, size_t size, uint8_t *out, size_t room);
simple_asn1_outcome simple_asn1_raw_text(uint64_t tag, const uint8_t *text, size_t size, uint8_t *out, size_t room);
simple_asn1_outcome simple_asn1_raw_time(uint64_t tag, const simple_asn1_moment *moment, uint8_t *out, size_t room);

/* As simple_asn1_write, with contents octets as they are: nothing is read, rejected or made canonical. */
simple_asn1_outcome simple_asn1_spell(const uint8_t *octets, size_t size, const simple_asn1_block *blocks, size_t count,
                                      uint8_t *out, size_t room);

/* The shortest encoding of contents octets, with the tag number in decimal. BAD_RECORD: the class is above 3, or the
 * text is not a numeral. TOO_LONG: a text of more than 3,072 bytes, which simple_asn1_tag never writes. */
simple_asn1_outcome simple_asn1_encoding(uint8_t tag_class, uint8_t constructed, const uint8_t *tag, size_t tag_size,
                                         const uint8_t *contents, size_t size, uint8_t *out, size_t room);

/* The contents octets of a block of this document: the value of an OCTET STRING; the number of an INTEGER, of any size,
 * in two's complement, most significant octet first. Of a BIT STRING they are the number of unused bits and then the
 * bits, most significant first. In an outline, which does not check them, there may be more unused bits than bits: so
 * take the bits of simple_asn1_bits.
 *
 *     simple_asn1_bit_string found = simple_asn1_bits(octets, size, block.offset);
 *     int sixth = found.bits > 5 && (octets[found.start + 5 / 8] >> (7 - 5 % 8) & 1);
 */
static inline const uint8_t *simple_asn1_contents(const uint8_t *octets, const simple_asn1_block *block)
{
    return octets + block->offset + block->header;
}

/* What a status says, in words. */
static inline const char *simple_asn1_status_text(uint32_t status)
{
    switch (status) {
    case SIMPLE_ASN1_OK: return "done";
    case SIMPLE_ASN1_EMPTY: return "the input is empty";
    case SIMPLE_ASN1_BOOLEAN_LENGTH: return "a BOOLEAN must have one content byte";
    case SIMPLE_ASN1_LENGTH: return "a length is too large";
    case SIMPLE_ASN1_UTF8: return "a string or time is not UTF-8";
    case SIMPLE_ASN1_PRINTABLE: return "a PrintableString has a forbidden character";
    case SIMPLE_ASN1_DATE: return "a time is invalid";
    case SIMPLE_ASN1_BIT_STRING_LENGTH: return "a BIT STRING has more unused bits than bits";
    case SIMPLE_ASN1_INCOMPLETE: return "the input is truncated";
    case SIMPLE_ASN1_NOT_CANONICAL: return "a block is not in canonical form";
    case SIMPLE_ASN1_NO_MEMORY: return "out of memory";
    case SIMPLE_ASN1_NO_ROOM: return "there is not enough room";
    case SIMPLE_ASN1_NO_SUCH_VALUE: return "there is no block of this kind";
    case SIMPLE_ASN1_RANGE: return "the value does not fit";
    case SIMPLE_ASN1_NOT_SIGNED: return "the first block is not a signed triple";
    case SIMPLE_ASN1_BAD_RECORD: return "a record cannot be written";
    case SIMPLE_ASN1_NOT_OID: return "the text is not an OBJECT IDENTIFIER";
    case SIMPLE_ASN1_TOO_LONG: return "too long for text in decimal";
    case SIMPLE_ASN1_NOT_CERTIFICATE: return "the first block is not a certificate";
    case SIMPLE_ASN1_NOT_REQUEST: return "the first block is not a certification request";
    case SIMPLE_ASN1_NOT_REVOCATION_LIST: return "the first block is not a certificate revocation list";
    default: return "unknown status";
    }
}

/* A document that is made of values, in arrays of the caller:
 *
 *     uint8_t octets[64], out[64];
 *     simple_asn1_block blocks[8];
 *     simple_asn1_builder builder = simple_asn1_begin(octets, sizeof octets, blocks, 8);
 *     simple_asn1_open(&builder, 0, 16);
 *     simple_asn1_add_int64(&builder, 5);
 *     simple_asn1_add_null(&builder);
 *     simple_asn1_close(&builder);
 *     simple_asn1_outcome o = simple_asn1_finish(&builder, out, sizeof out);
 *
 * The first error stays, and simple_asn1_finish returns it: a caller looks once. */
typedef struct simple_asn1_builder {
    uint8_t *octets;           /* contents octets of the values */
    uint8_t *front;            /* of the room that is left for them; NULL with none, and after an error */
    size_t left;
    size_t used;               /* how many there are; with NO_ROOM how many are needed */
    simple_asn1_block *blocks;
    size_t room;               /* for so many */
    size_t count;              /* how many there are; with NO_ROOM how many are needed */
    size_t open;               /* 1 more than the index of the innermost open block; 0 if none is open */
    size_t fault;              /* index of the block at fault */
    uint32_t status;
} simple_asn1_builder;

/* An empty document, with room for so many contents octets and blocks. */
static inline simple_asn1_builder simple_asn1_begin(uint8_t *octets, size_t size, simple_asn1_block *blocks,
                                                    size_t room)
{
    simple_asn1_builder builder = {octets, size ? octets : NULL, size, 0, blocks, room, 0, 0, 0, SIMPLE_ASN1_OK};
    return builder;
}

/* Adds a block whose contents octets a call has put at the front, with this outcome; for calls of your own. With too
 * little room, octets and blocks are still counted. */
static inline void simple_asn1_add_put(simple_asn1_builder *builder, uint8_t tag_class, uint64_t tag,
                                       uint8_t constructed, simple_asn1_outcome put)
{
    if (put.status == SIMPLE_ASN1_OK && builder->count >= builder->room)
        put.status = SIMPLE_ASN1_NO_ROOM;
    if (builder->status != SIMPLE_ASN1_OK && builder->status != SIMPLE_ASN1_NO_ROOM)
        return;
    if (put.status != SIMPLE_ASN1_OK) {
        builder->status = put.status;
        builder->fault = put.status == SIMPLE_ASN1_NO_ROOM ? 0 : builder->count;
        builder->front = NULL;
        builder->left = 0;
    } else if (builder->status == SIMPLE_ASN1_OK) {
        simple_asn1_block *around = builder->open ? &builder->blocks[builder->open - 1] : NULL;
        simple_asn1_block block = {tag, builder->used, 0, put.count, 0, builder->count + 1, 0, tag_class, constructed};
        if (around) {
            around->items++;
            block.depth = around->depth + 1;
        }
        builder->blocks[builder->count] = block;
        builder->left -= put.count;
        builder->front = builder->left ? builder->front + put.count : NULL;
    }
    builder->used += put.count;
    builder->count++;
}

/* Begins a constructed block: those that are added until simple_asn1_close are its items. */
static inline void simple_asn1_open(simple_asn1_builder *builder, uint8_t tag_class, uint64_t tag)
{
    simple_asn1_outcome put = {SIMPLE_ASN1_OK, 0, 0};
    simple_asn1_add_put(builder, tag_class, tag, 1, put);
    if (builder->status == SIMPLE_ASN1_OK) {
        builder->blocks[builder->count - 1].next = builder->open; /* until it is closed */
        builder->open = builder->count;
    }
}

/* Ends the innermost open block. If none is open, the error is BAD_RECORD. */
static inline void simple_asn1_close(simple_asn1_builder *builder)
{
    if (builder->status != SIMPLE_ASN1_OK)
        return;
    if (builder->open == 0) {
        simple_asn1_outcome none = {SIMPLE_ASN1_BAD_RECORD, 0, 0};
        simple_asn1_add_put(builder, 0, 0, 0, none);
        return;
    }
    simple_asn1_block *block = &builder->blocks[builder->open - 1];
    builder->open = block->next;
    block->next = builder->count;
}

/* Adds a primitive block with these contents octets as they are: an OCTET STRING (class 0, tag 4), or an INTEGER (tag
 * 2) of any size in two's complement. */
static inline void simple_asn1_add_octets(simple_asn1_builder *builder, uint8_t tag_class, uint64_t tag,
                                          const uint8_t *octets, size_t size)
{
    simple_asn1_outcome put = {size > builder->left ? SIMPLE_ASN1_NO_ROOM : SIMPLE_ASN1_OK, 0, size};
    if (size > 0 && size <= builder->left)
        memcpy(builder->front, octets, size);
    simple_asn1_add_put(builder, tag_class, tag, 0, put);
}

/* Adds a copy of a block that was read of this document, with all that it holds. */
static inline void simple_asn1_add_block(simple_asn1_builder *builder, const uint8_t *octets,
                                         const simple_asn1_block *block)
{
    simple_asn1_add_octets(builder, block->tag_class, block->tag, simple_asn1_contents(octets, block), block->contents);
    if (builder->status == SIMPLE_ASN1_OK)
        builder->blocks[builder->count - 1].constructed = block->constructed;
}

/* NULL; and each of the others adds what its simple_asn1_put call writes. */
static inline void simple_asn1_add_null(simple_asn1_builder *builder)
{
    simple_asn1_add_octets(builder, 0, 5, NULL, 0);
}

static inline void simple_asn1_add_boolean(simple_asn1_builder *builder, uint8_t value)
{
    simple_asn1_add_put(builder, 0, 1, 0, simple_asn1_put_boolean(value, builder->front, builder->left));
}

static inline void simple_asn1_add_int64(simple_asn1_builder *builder, int64_t value)
{
    simple_asn1_add_put(builder, 0, 2, 0, simple_asn1_put_int64(value, builder->front, builder->left));
}

static inline void simple_asn1_add_bits(simple_asn1_builder *builder, const uint8_t *octets, size_t size, size_t bits)
{
    simple_asn1_add_put(builder, 0, 3, 0, simple_asn1_put_bits(octets, size, bits, builder->front, builder->left));
}

/* Texts end with a 0, which is not put. */
static inline void simple_asn1_add_oid(simple_asn1_builder *builder, const char *text)
{
    simple_asn1_add_put(builder, 0, 6, 0,
                        simple_asn1_put_oid((const uint8_t *)text, strlen(text), builder->front, builder->left));
}

static inline void simple_asn1_add_text(simple_asn1_builder *builder, uint64_t tag, const char *text)
{
    simple_asn1_add_put(builder, 0, tag, 0,
                        simple_asn1_put_text(tag, (const uint8_t *)text, strlen(text), builder->front, builder->left));
}

static inline void simple_asn1_add_time(simple_asn1_builder *builder, uint64_t tag, const simple_asn1_moment *moment)
{
    simple_asn1_add_put(builder, 0, tag, 0, simple_asn1_put_time(tag, moment, builder->front, builder->left));
}

/* Writes the document, as simple_asn1_write, or returns the first error: offset is the index of its block. A block that
 * was not closed is a BAD_RECORD. NO_ROOM with a count of 0 is of the builder's own arrays: used and count say how much
 * they need. */
static inline simple_asn1_outcome simple_asn1_finish(const simple_asn1_builder *builder, uint8_t *out, size_t room)
{
    simple_asn1_outcome fault = {builder->status, builder->fault, 0};
    if (fault.status == SIMPLE_ASN1_OK && builder->open != 0) {
        fault.status = SIMPLE_ASN1_BAD_RECORD;
        fault.offset = builder->open - 1;
    }
    if (fault.status != SIMPLE_ASN1_OK)
        return fault;
    return simple_asn1_write(builder->octets, builder->used, builder->blocks, builder->count, out, room);
}

#ifdef __cplusplus
}
#endif
#endif
