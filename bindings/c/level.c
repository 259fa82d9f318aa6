/* The library is compiled for processors of the level x86-64-v2 (System V ABI for x86-64, section 3.1.1). On a lesser
 * one this ends the program as it starts, and says what is missing; otherwise a call would end it by an illegal
 * instruction. A loader that heeds the note below, as glibc's does from 2.33 on, ends it sooner, or has dlopen fail. */
#include <cpuid.h>
#include <stddef.h>
#include <string.h>
#include <unistd.h>

/* NT_GNU_PROPERTY_TYPE_0 with GNU_PROPERTY_X86_ISA_1_NEEDED, whose bit 1 is x86-64-v2 */
__asm__(".pushsection .note.gnu.property, \"a\", @note\n\t.p2align 3\n\t.long 4, 16, 5\n\t.asciz \"GNU\"\n\t"
        ".long 0xc0008002, 4, 2, 0\n\t.popsection");

enum { CANNOT_START = 127 };

static const struct {
    unsigned int bit;
    char name[12];
} FEATURES[] = {
    {bit_SSE3, "SSE3"},     {bit_SSSE3, "SSSE3"},   {bit_CMPXCHG16B, "CMPXCHG16B"},
    {bit_SSE4_1, "SSE4.1"}, {bit_SSE4_2, "SSE4.2"}, {bit_POPCNT, "POPCNT"},
};

static void say(const char *text)
{
    if (write(STDERR_FILENO, text, strlen(text)) < 0)
        _exit(CANNOT_START);
}

__attribute__((constructor)) static void end_on_a_lesser_processor(void)
{
    unsigned int eax, ebx, present = 0, edx;
    int missing = 0;

    __get_cpuid(1, &eax, &ebx, &present, &edx);
    for (size_t i = 0; i < sizeof FEATURES / sizeof *FEATURES; i++)
        if (!(present & FEATURES[i].bit)) {
            say(missing++ ? ", " : "libsimple_asn1: the processor is not of the level x86-64-v2: it lacks ");
            say(FEATURES[i].name);
        }
    if (missing) {
        say("\n");
        _exit(CANNOT_START);
    }
}
