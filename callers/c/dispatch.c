/* SPDX-License-Identifier: MIT OR Apache-2.0
 *
 * The library for all processors: each of its functions is that of one of two sets, which has a prefix before the
 * names. The loader asks the functions below which, before the program begins, and nothing is asked in a call.
 *
 * tools/build_library puts a line CHOSEN(NAME) for each name into chosen.inc.
 */
#include <cpuid.h>

/* Whether the processor is of the family x86-64-v3, and the system keeps its wide registers. The loader may ask before
 * other functions can be called, so none is. */
static inline __attribute__((always_inline)) int is_v3(void) {
    enum {
        FMA = 1 << 12,
        MOVBE = 1 << 22,
        OSXSAVE = 1 << 27,
        AVX = 1 << 28,
        F16C = 1 << 29,
        BMI1 = 1 << 3,
        AVX2 = 1 << 5,
        BMI2 = 1 << 8,
        LZCNT = 1 << 5,
        WIDE_REGISTERS = 6
    };
    const unsigned first = FMA | MOVBE | OSXSAVE | AVX | F16C, later = BMI1 | AVX2 | BMI2;
    unsigned a, b, c, d, kept;
    if (!__get_cpuid(1, &a, &b, &c, &d) || (c & first) != first) return 0;
    __asm__ volatile("xgetbv" : "=a"(kept), "=d"(d) : "c"(0));
    if ((kept & WIDE_REGISTERS) != WIDE_REGISTERS) return 0;
    if (!__get_cpuid_count(7, 0, &a, &b, &c, &d) || (b & later) != later) return 0;
    return __get_cpuid(0x80000001, &a, &b, &c, &d) && (c & LZCNT) != 0;
}

typedef void function(void);

/* The types are those of liktrob.h, and the loader sees none. */
#define CHOSEN(NAME)                                                                                                   \
    extern function NAME##_v2 __asm__("x86_64_v2." #NAME), NAME##_v3 __asm__("x86_64_v3." #NAME);                      \
    static function *choose_##NAME(void) { return is_v3() ? NAME##_v3 : NAME##_v2; }                                   \
    function NAME __attribute__((ifunc("choose_" #NAME)));

#include "chosen.inc"
