/* SPDX-License-Identifier: Apache-2.0
 *
 * Whether the calling thread has the floating-point environment that every proof here speaks of. This is C, and tested
 * and not proved: the arithmetic of the logic rounds to nearest, keeps subnormals and knows no traps, so that a proved
 * function could only answer 0.
 *
 * It reads MXCSR, which rules the arithmetic of SSE. The library has no other, so the control word
 * of the x87 unit plays no part. ./capi-test looks for x87 instructions in the archive. */
#include "sjurnabel.h"

#include <xmmintrin.h>

/* the bits of MXCSR */
#define SUBNORMALS_READ_AS_ZERO (1u << 6)
#define EVERY_MASK (0x3Fu << 7) /* invalid, subnormal operand, division by zero, overflow, underflow, inexact */
#define ROUNDING (3u << 13)     /* none set: to nearest */
#define SUBNORMALS_FLUSHED (1u << 15)

unsigned sjurnabel_environment(void) {
    const unsigned mxcsr = _mm_getcsr();
    unsigned faults = 0;
    if (mxcsr & ROUNDING) faults |= SJURNABEL_ROUNDING;
    if (mxcsr & (SUBNORMALS_READ_AS_ZERO | SUBNORMALS_FLUSHED)) faults |= SJURNABEL_FLUSHING;
    if ((mxcsr & EVERY_MASK) != EVERY_MASK) faults |= SJURNABEL_UNMASKED;
    return faults;
}
