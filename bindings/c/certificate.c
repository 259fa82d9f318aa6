/* Shows the subject of a certificate and when it is valid: certificate < FILE.der */
#include "simple_asn1.h"
#include <stdio.h>
#include <stdlib.h>
#include <string.h>

static uint8_t *octets;
static size_t size;
static const uint8_t *subject; /* its bytes, how many they are, and the records of its blocks */
static size_t subject_size;
static simple_asn1_block *blocks;

static void fail(const char *why)
{
    fprintf(stderr, "%s\n", why);
    exit(1);
}

static void *resized(void *held, size_t bytes)
{
    void *found = realloc(held, bytes ? bytes : 1);
    if (!found)
        fail(simple_asn1_status_text(SIMPLE_ASN1_NO_MEMORY));
    return found;
}

static void read_input(void)
{
    size_t room = 0;
    do {
        room = 2 * room + 4096;
        octets = resized(octets, room + 1);
        size += fread(octets + size, 1, room - size, stdin);
    } while (size == room);
    if (ferror(stdin))
        fail("the input can't be read");
    octets[size] = 0; /* for strstr */
    if (octets[0] != 0x30 && strstr((const char *)octets, "-----BEGIN "))
        fail("this is PEM; as DER it is: openssl x509 -in FILE -outform DER");
}

static simple_asn1_certificate_parts read_certificate(void)
{
    simple_asn1_certificate_parts parts = simple_asn1_certificate(octets, size);
    if (parts.status) {
        fprintf(stderr, "refused at offset %zu: %s\n", parts.offset, simple_asn1_status_text(parts.status));
        exit(1);
    }
    return parts;
}

/* The records of a name: asks how many there are, and then for these. */
static void read_subject(const simple_asn1_block *name)
{
    subject = octets + name->offset;
    subject_size = name->header + name->contents;
    size_t count = simple_asn1_read(subject, subject_size, NULL, 0).count;
    blocks = resized(NULL, count * sizeof *blocks);
    simple_asn1_outcome o = simple_asn1_read(subject, subject_size, blocks, count);
    if (o.status)
        fail(simple_asn1_status_text(o.status));
}

typedef simple_asn1_outcome value_call(const uint8_t *octets, size_t size, size_t offset, uint8_t *out, size_t room);

/* What the call answers of a block, with a 0 behind it, for the caller to free; NULL where it is of another kind. */
static char *value_of(value_call *call, size_t block, size_t *length)
{
    simple_asn1_outcome o = call(subject, subject_size, blocks[block].offset, NULL, 0);
    if (o.status && o.status != SIMPLE_ASN1_NO_ROOM)
        return NULL;
    char *value = resized(NULL, o.count + 1);
    o = call(subject, subject_size, blocks[block].offset, (uint8_t *)value, o.count);
    if (o.status)
        fail(simple_asn1_status_text(o.status));
    value[o.count] = 0;
    *length = o.count;
    return value;
}

/* The signs that the lines below have themselves, and characters that can't be seen or that move what stands beside
 * them: of Unicode, Cc, Zl, Zp, Default_Ignorable_Code_Point and U+FFF9 to U+FFFB. */
static int is_hidden(uint32_t c)
{
    static const uint32_t hidden[][2] = {
        {'#', '#'},         {'=', '='},         {'\\', '\\'},       {0x00, 0x1F},     {0x7F, 0x9F},
        {0xAD, 0xAD},       {0x34F, 0x34F},     {0x61C, 0x61C},     {0x115F, 0x1160}, {0x17B4, 0x17B5},
        {0x180B, 0x180F},   {0x200B, 0x200F},   {0x2028, 0x202E},   {0x2060, 0x206F}, {0x3164, 0x3164},
        {0xFE00, 0xFE0F},   {0xFEFF, 0xFEFF},   {0xFFA0, 0xFFA0},   {0xFFF0, 0xFFFB}, {0x1BCA0, 0x1BCA3},
        {0x1D173, 0x1D17A}, {0xE0000, 0xE0FFF},
    };
    for (size_t k = 0; k < sizeof hidden / sizeof *hidden; k++)
        if (c >= hidden[k][0] && c <= hidden[k][1])
            return 1;
    return 0;
}

/* Prints UTF-8 of this length, which may have a 0 in it, with what would hide or fake a part of it escaped. */
static void print_text(const char *text, size_t length)
{
    for (size_t at = 0, step; at < length; at += step) {
        uint8_t first = (uint8_t)text[at];
        step = first < 0x80 ? 1 : first < 0xE0 ? 2 : first < 0xF0 ? 3 : 4;
        step = step < length - at ? step : length - at;
        uint32_t c = step == 1 ? first : first & (0x7Fu >> step);
        for (size_t n = 1; n < step; n++)
            c = c << 6 | (text[at + n] & 0x3F);
        if (is_hidden(c))
            printf("\\u{%x}", (unsigned)c);
        else
            fwrite(text + at, 1, step, stdout);
    }
}

/* The text of a value; in hex digits where it has none. */
static void print_value(size_t block)
{
    size_t length;
    char *text = value_of(simple_asn1_text, block, &length);
    if (text) {
        print_text(text, length);
    } else {
        printf("#");
        for (size_t n = 0; n < blocks[block].header + blocks[block].contents; n++)
            printf("%02x", subject[blocks[block].offset + n]);
    }
    free(text);
}

static void print_attribute(size_t attribute)
{
    static const char *const known[][2] = {
        {"2.5.4.3", "CN"}, {"2.5.4.6", "C"},  {"2.5.4.7", "L"},
        {"2.5.4.8", "ST"}, {"2.5.4.10", "O"}, {"2.5.4.11", "OU"}};
    size_t length;
    char *type = value_of(simple_asn1_oid, attribute + 1, &length);
    if (!type)
        fail(simple_asn1_status_text(SIMPLE_ASN1_TOO_LONG));
    const char *name = type;
    for (size_t k = 0; k < sizeof known / sizeof *known; k++)
        if (strcmp(type, known[k][0]) == 0)
            name = known[k][1];
    printf(" %s=", name);
    print_value(attribute + 2);
    free(type);
}

static void print_time(const char *what, const simple_asn1_block *block)
{
    simple_asn1_moment m = simple_asn1_time(octets, size, block->offset);
    if (m.status)
        fail(simple_asn1_status_text(m.status));
    printf("%s: %04d-%02u-%02uT%02u:%02u:%02u", what, (int)m.year, (unsigned)m.month, (unsigned)m.day,
           (unsigned)m.hour, (unsigned)m.minute, (unsigned)m.second);
    if (m.nanosecond)
        printf(".%09u", (unsigned)m.nanosecond);
    printf("Z\n");
}

int main(void)
{
    read_input();
    simple_asn1_certificate_parts parts = read_certificate();
    read_subject(&parts.subject);

    printf("subject:"); /* a SEQUENCE of SETs of attributes */
    for (size_t set = 1; set < blocks[0].next; set = blocks[set].next)
        for (size_t attribute = set + 1; attribute < blocks[set].next; attribute = blocks[attribute].next)
            print_attribute(attribute);
    printf("\n");
    print_time("not before", &parts.not_before);
    print_time("not after", &parts.not_after);
    free(blocks);
    free(octets);
    return 0;
}
