/* OpenSSL: a tree of ASN1_TYPEs for any document, and the types X509 and X509_CRL. */
#include <openssl/asn1t.h>
#include <openssl/err.h>
#include <openssl/x509.h>
#include <stdint.h>
#include <stdlib.h>
#include <string.h>

typedef struct node {
    STACK_OF(ASN1_TYPE) *items;
    struct node **inner; /* of each item its node, or NULL */
} node;

static void node_free(node *it)
{
    if (!it)
        return;
    for (int i = 0; it->inner && i < sk_ASN1_TYPE_num(it->items); i++)
        node_free(it->inner[i]);
    sk_ASN1_TYPE_pop_free(it->items, ASN1_TYPE_free);
    free(it->inner);
    free(it);
}

static node *node_read(const uint8_t *octets, long size, int is_set);

/* The node of an item, where it has one; whether it was read. */
static int inner_read(const ASN1_TYPE *item, node **to)
{
    const uint8_t *at;
    long size;
    int tag, class;
    if (item->type == V_ASN1_SEQUENCE || item->type == V_ASN1_SET) {
        *to = node_read(item->value.sequence->data, item->value.sequence->length, item->type == V_ASN1_SET);
        return *to != NULL;
    }
    if (item->type != V_ASN1_OTHER)
        return 1;
    /* another class: perhaps one SEQUENCE or SET is inside */
    at = item->value.asn1_string->data;
    int form = ASN1_get_object(&at, &size, &tag, &class, item->value.asn1_string->length);
    if (!(form & 0x80) && (form & V_ASN1_CONSTRUCTED) && size > 0 && (*at == 0x30 || *at == 0x31))
        *to = node_read(at, size, *at == 0x31);
    return 1;
}

static node *node_read(const uint8_t *octets, long size, int is_set)
{
    node *it = calloc(1, sizeof *it);
    if (!it)
        return NULL;
    it->items = is_set ? d2i_ASN1_SET_ANY(NULL, &octets, size) : d2i_ASN1_SEQUENCE_ANY(NULL, &octets, size);
    int count = it->items ? sk_ASN1_TYPE_num(it->items) : 0;
    it->inner = calloc(count + 1, sizeof *it->inner);
    int is_read = it->items && it->inner;
    for (int i = 0; is_read && i < count; i++)
        is_read = inner_read(sk_ASN1_TYPE_value(it->items, i), &it->inner[i]);
    if (is_read)
        return it;
    node_free(it);
    return NULL;
}

int openssl_tree(const uint8_t *octets, size_t size)
{
    node *it = size && (*octets | 1) == 0x31 ? node_read(octets, (long)size, *octets == 0x31) : NULL;
    ERR_clear_error();
    node_free(it);
    return it != NULL;
}

/* Reads a certificate or a list of revoked ones, and writes what is signed of it so many times, not from the octets
   that are kept of it. Whether it was read. */
int openssl_typed(const char *item, const uint8_t *octets, size_t size, uint64_t times)
{
    int is_list = strcmp(item, "list_of_revoked") == 0, is_well = 0;
    X509 *certificate = NULL;
    X509_CRL *list = NULL;
    if (is_list)
        is_well = (list = d2i_X509_CRL(NULL, &octets, (long)size)) != NULL;
    else if (strcmp(item, "certificates") == 0)
        is_well = (certificate = d2i_X509(NULL, &octets, (long)size)) != NULL;
    while (is_well && times-- > 0) {
        unsigned char *out = NULL;
        is_well = (is_list ? i2d_re_X509_CRL_tbs(list, &out) : i2d_re_X509_tbs(certificate, &out)) > 0;
        OPENSSL_free(out);
    }
    X509_free(certificate);
    X509_CRL_free(list);
    return is_well;
}
