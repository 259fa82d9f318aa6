/* Steps through calls of the library, one instruction at a time, and looks at each whether the unwind tables lead to
 * the program's start: unwound FILE.der .. */
#define _GNU_SOURCE
#include "documents.h"
#include <execinfo.h>
#include <signal.h>
#include <stdio.h>
#include <stdlib.h>
#include <ucontext.h>

enum { MOST_FRAMES = 400, MOST_BLOCKS = 100000, TRAP_FLAG = 0x100 };

extern char __executable_start, etext;
extern void _start(void);
static volatile sig_atomic_t stepping;
static volatile long steps;

static void step(int number, siginfo_t *info, void *context)
{
    ucontext_t *at = context;
    char *place = (char *)at->uc_mcontext.gregs[REG_RIP], *start = (char *)_start;
    void *frames[MOST_FRAMES];

    (void)number, (void)info;
    if (!stepping)
        at->uc_mcontext.gregs[REG_EFL] &= ~TRAP_FLAG;
    if (!stepping || place < &__executable_start || place >= &etext)
        return;
    steps++;
    int count = backtrace(frames, MOST_FRAMES);
    for (int i = 0; i < count; i++)
        if ((char *)frames[i] >= start && (char *)frames[i] < start + 64)
            return;
    fprintf(stderr, "unwound: at %p, %ld bytes into the program, the stack ends after %d frames\n", (void *)place,
            (long)(place - &__executable_start), count);
    _Exit(1);
}

static void begin(void)
{
    stepping = 1;
    __asm__ volatile("lea -128(%%rsp), %%rsp\n\tpushfq\n\torq %0, (%%rsp)\n\tpopfq\n\tlea 128(%%rsp), %%rsp"
                     : : "i"(TRAP_FLAG) : "memory", "cc");
}

static void end(void)
{
    stepping = 0;
}

static void call_all(const uint8_t *octets, size_t size, simple_asn1_block *blocks)
{
    static const size_t steps[] = {0, 0, 1};
    static const simple_asn1_path serial = {0, 3};
    static uint8_t out[MOST_BLOCKS];
    simple_asn1_value value;
    simple_asn1_departure departures[4];
    simple_asn1_outcome o = simple_asn1_read(octets, size, blocks, MOST_BLOCKS);

    simple_asn1_outline(octets, size, blocks, MOST_BLOCKS);
    simple_asn1_values(octets, size, steps, 3, &serial, 1, &value, 1);
    simple_asn1_departures(octets, size, departures, 4);
    simple_asn1_read_strict(octets, size, blocks, MOST_BLOCKS);
    simple_asn1_rewrite(octets, size, out, sizeof out);
    simple_asn1_write(octets, size, blocks, o.count, out, sizeof out);
    simple_asn1_signed(octets, size);
    simple_asn1_certificate(octets, size);
    simple_asn1_request(a_request, sizeof a_request);
    simple_asn1_revocation_list(a_revocation_list, sizeof a_revocation_list);
    simple_asn1_fault(octets, size / 2, out, sizeof out);
    for (size_t i = 0; i < o.count; i++) {
        simple_asn1_int64(octets, size, blocks[i].offset);
        simple_asn1_bits(octets, size, blocks[i].offset);
        simple_asn1_time(octets, size, blocks[i].offset);
        simple_asn1_text(octets, size, blocks[i].offset, out, sizeof out);
        simple_asn1_oid(octets, size, blocks[i].offset, out, sizeof out);
        simple_asn1_tag(octets, size, blocks[i].offset, out, sizeof out);
    }
    simple_asn1_put_int64(-5, out, sizeof out);
    simple_asn1_put_oid((const uint8_t *)"1.2.840.113549", 14, out, sizeof out);
    simple_asn1_put_text(12, (const uint8_t *)"Ada", 3, out, sizeof out);
}

int main(int count, char **words)
{
    static uint8_t octets[MOST_BLOCKS];
    simple_asn1_block *blocks = calloc(MOST_BLOCKS, sizeof *blocks);
    void *frames[2];
    struct sigaction action = {0};

    /* what it loads at first is loaded now */
    backtrace(frames, 2);
    action.sa_sigaction = step;
    action.sa_flags = SA_SIGINFO;
    sigaction(SIGTRAP, &action, NULL);
    for (int i = 1; i < count; i++) {
        FILE *file = fopen(words[i], "rb");
        size_t size = file ? fread(octets, 1, sizeof octets, file) : 0;

        if (file)
            fclose(file);
        begin();
        call_all(octets, size, blocks);
        end();
    }
    free(blocks);
    printf("unwound: the whole stack is found at each of %ld instructions\n", steps);
    return steps == 0;
}
