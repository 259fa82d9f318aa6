/* Reads a log of documents, each in base 64 on a line of its own, and counts what is in them:
 *
 *     many [THREADS] < LOG          the blocks of the documents
 *     many [THREADS] until < LOG    certificates, by the year in which they end
 *
 * Blocks are counted by reading each document. A year is asked for by its path, by one call for each certificate, which
 * looks at headers alone. Threads take turns at the input, a piece of whole lines at a time: memory does not grow with
 * the log. */
#include "simple_asn1.h"
#include <pthread.h>
#include <stdio.h>
#include <stdlib.h>
#include <string.h>

enum { PIECE = 1 << 18, MOST_THREADS = 64, YEARS = 10000 };

typedef struct counts {
    size_t documents, blocks, rejected;
    size_t until[YEARS];
} counts;

/* Memory of a thread: a piece of the log, and the records of one document. */
typedef struct worker {
    char *piece;
    size_t room;
    simple_asn1_block *blocks;
    size_t blocks_room;
    counts counts;
} worker;

/* what is counted */
static int by_year;

/* of a certificate (RFC 5280, section 4.1): what comes first, the version if it is there; and the end of the validity,
 * with a version before it and without one */
enum { FIRST, UNTIL, UNTIL_UNVERSIONED, PATHS };
static const size_t steps[] = {0, 0, 0, 0, 0, 4, 1, 0, 0, 3, 1};
static const simple_asn1_path paths[PATHS] = {{0, 3}, {3, 4}, {7, 4}};

static pthread_mutex_t turn = PTHREAD_MUTEX_INITIALIZER;
/* what was read behind the last whole line; only whoever has the turn may look at it */
static char *rest;
static size_t rest_size, rest_room;

static void *resized(void *held, size_t size)
{
    void *found = realloc(held, size);
    if (!found) {
        fputs("out of memory\n", stderr);
        exit(2);
    }
    return found;
}

/* The number of bytes of whole lines that are next in the piece; 0 at the end of the log. */
static size_t next_piece(worker *w)
{
    pthread_mutex_lock(&turn);
    size_t size = 0, whole = 0;
    if (w->room < rest_size)
        w->piece = resized(w->piece, w->room = rest_size);
    memcpy(w->piece, rest, rest_size);
    size = rest_size;
    rest_size = 0;
    while (!whole) {
        if (w->room - size < PIECE)
            w->piece = resized(w->piece, w->room = size + PIECE);
        size_t more = fread(w->piece + size, 1, PIECE, stdin);
        if (!more)
            break;
        for (whole = size + more; whole > size && w->piece[whole - 1] != '\n'; whole--)
            ;
        if (whole == size)
            whole = 0;
        size += more;
    }
    if (!whole)
        whole = size;
    rest_size = size - whole;
    if (rest_room < rest_size + 1)
        rest = resized(rest, rest_room = rest_size + 1);
    memcpy(rest, w->piece + whole, rest_size);
    pthread_mutex_unlock(&turn);
    return whole;
}

/* What a character stands for in base 64; -1 for any other. */
static int digit(unsigned char c)
{
    if (c >= 'A' && c <= 'Z')
        return c - 'A';
    if (c >= 'a' && c <= 'z')
        return c - 'a' + 26;
    if (c >= '0' && c <= '9')
        return c - '0' + 52;
    return c == '+' ? 62 : c == '/' ? 63 : -1;
}

/* the same by table */
static signed char digits[256];

/* Writes the bytes that the characters spell over them, and returns their number; -1 if it is not base 64. */
static long decode(char *text, size_t size)
{
    size_t bytes = 0, sextets = 0;
    uint32_t held = 0;
    while (size && (text[size - 1] == '\r' || text[size - 1] == '='))
        size--;
    for (size_t i = 0; i < size; i++) {
        int d = digits[(unsigned char)text[i]];
        if (d < 0)
            return -1;
        held = held << 6 | (uint32_t)d;
        if (++sextets % 4 != 1)
            text[bytes++] = (char)(held >> (6 - 2 * ((sextets - 1) % 4)));
    }
    return sextets % 4 == 1 ? -1 : (long)bytes;
}

/* Counts the blocks of a document; 0 if it is rejected. */
static int count_blocks(worker *w, const uint8_t *octets, size_t size)
{
    if (w->blocks_room < size / 2 + 1)
        w->blocks = resized(w->blocks, (w->blocks_room = size / 2 + 1) * sizeof *w->blocks);
    simple_asn1_outcome o = simple_asn1_read(octets, size, w->blocks, w->blocks_room);
    w->counts.blocks += o.count;
    return o.status == SIMPLE_ASN1_OK;
}

/* Counts a certificate by the year in which it ends; 0 if there is none, or a document is rejected by its headers. */
static int count_year(worker *w, const uint8_t *octets, size_t size)
{
    simple_asn1_value found[PATHS];
    simple_asn1_outcome o =
        simple_asn1_values(octets, size, steps, sizeof steps / sizeof *steps, paths, PATHS, found, PATHS);
    if (o.status != SIMPLE_ASN1_OK)
        return 0;
    const simple_asn1_value *until = &found[found[FIRST].tag_class == 2 ? UNTIL : UNTIL_UNVERSIONED];
    if (until->kind == SIMPLE_ASN1_KIND_NONE)
        return 0;
    simple_asn1_moment moment = simple_asn1_time(octets, size, until->offset);
    if (moment.status != SIMPLE_ASN1_OK || moment.year < 0 || moment.year >= YEARS)
        return 0;
    w->counts.until[moment.year]++;
    return 1;
}

static void read_document(worker *w, char *line, size_t length)
{
    long size = decode(line, length);
    w->counts.documents++;
    if (size < 0 || !(by_year ? count_year : count_blocks)(w, (const uint8_t *)line, (size_t)size))
        w->counts.rejected++;
}

static void *work(void *argument)
{
    worker *w = argument;
    size_t size;
    w->piece = resized(NULL, w->room = PIECE);
    while ((size = next_piece(w))) {
        char *line = w->piece, *end = w->piece + size;
        while (line < end) {
            char *newline = memchr(line, '\n', (size_t)(end - line));
            size_t length = (size_t)((newline ? newline : end) - line);
            if (length)
                read_document(w, line, length);
            line += length + 1;
        }
    }
    free(w->piece);
    free(w->blocks);
    return NULL;
}

int main(int count, char **words)
{
    static worker workers[MOST_THREADS];
    pthread_t threads[MOST_THREADS];
    static counts all;
    by_year = count > 1 && !strcmp(words[count - 1], "until");
    count -= by_year;
    int wanted = count > 1 ? atoi(words[1]) : 1;
    if (count > 2 || wanted < 1 || wanted > MOST_THREADS) {
        fprintf(stderr, "many [THREADS] [until] < LOG, with at most %d threads\n", MOST_THREADS);
        return 2;
    }
    for (int c = 0; c < 256; c++)
        digits[c] = (signed char)digit((unsigned char)c);
    rest = resized(NULL, rest_room = 1);
    for (int i = 0; i < wanted; i++)
        if (pthread_create(&threads[i], NULL, work, &workers[i])) {
            fputs("a thread can't be started\n", stderr);
            return 2;
        }
    for (int i = 0; i < wanted; i++) {
        pthread_join(threads[i], NULL);
        all.documents += workers[i].counts.documents;
        all.blocks += workers[i].counts.blocks;
        all.rejected += workers[i].counts.rejected;
        for (int year = 0; year < YEARS; year++)
            all.until[year] += workers[i].counts.until[year];
    }
    free(rest);
    if (ferror(stdin)) {
        fputs("the log can't be read\n", stderr);
        return 2;
    }
    for (int year = 0; year < YEARS; year++)
        if (all.until[year])
            printf("%9zu until %04d\n", all.until[year], year);
    if (by_year)
        printf("%zu documents, %zu rejected\n", all.documents, all.rejected);
    else
        printf("%zu documents, %zu blocks, %zu rejected\n", all.documents, all.blocks, all.rejected);
    return all.rejected != 0;
}
