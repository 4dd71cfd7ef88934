/* The floating-point environment: that sjurnabel_environment tells each fault, and what goes wrong under each, as the header
 * says. Prints what fails; the last line is 'N passed, M failed'. */
#define _POSIX_C_SOURCE 200809L
#include "sjurnabel.h"

#include <fenv.h>
#include <math.h>
#include <pthread.h>
#include <signal.h>
#include <stdio.h>
#include <string.h>
#include <sys/wait.h>
#include <unistd.h>
#include <xmmintrin.h>

static int passed, failed;
#define CHECK(what) check((what), #what, __LINE__)
static void check(bool holds, const char *what, int line) {
    if (holds) passed++;
    else { failed++; printf("environment.c:%d: %s\n", line, what); }
}

static uint64_t bits(double x) { uint64_t u; memcpy(&u, &x, 8); return u; }
#define MINUS_ZERO 0x8000000000000000
#define LEAST 4.9406564584124654e-324   /* the least subnormal */
#define NORMAL 2.2250738585072014e-308  /* the least number that is not subnormal */
#define ABOVE 2.225073858507202e-308    /* the next one */

/* what MXCSR is when the process starts, and its bits by their names in the processor's manual */
#define START 0x1F80u
#define DAZ (1u << 6)
#define IM (1u << 7)
#define DM (1u << 8)
#define ZM (1u << 9)
#define OM (1u << 10)
#define UM (1u << 11)
#define PM (1u << 12)
#define DOWN (1u << 13)
#define UP (2u << 13)
#define TO_ZERO (3u << 13)
#define FTZ (1u << 15)

/* what is told under these bits; whether reading changed any; and the start again */
static unsigned told(unsigned mxcsr) {
    _mm_setcsr(mxcsr);
    unsigned faults = sjurnabel_environment(), after = _mm_getcsr();
    _mm_setcsr(START);
    return after == mxcsr ? faults : 99;
}

static void each_fault(void) {
    static const unsigned rounding[] = {DOWN, UP, TO_ZERO}, flushing[] = {DAZ, FTZ, DAZ | FTZ}, masks[] = {IM, DM, ZM, OM, UM, PM};
    for (int k = 0; k < 3; k++) {
        CHECK(told(START | rounding[k]) == SJURNABEL_ROUNDING && sjurnabel_environment() == 0);
        CHECK(told(START | flushing[k]) == SJURNABEL_FLUSHING && sjurnabel_environment() == 0);
    }
    for (int k = 0; k < 6; k++) CHECK(told(START & ~masks[k]) == SJURNABEL_UNMASKED && sjurnabel_environment() == 0);
    CHECK(told(DOWN) == (SJURNABEL_ROUNDING | SJURNABEL_UNMASKED) && told(START | UP | FTZ) == (SJURNABEL_ROUNDING | SJURNABEL_FLUSHING));
    CHECK(told(DAZ) == (SJURNABEL_FLUSHING | SJURNABEL_UNMASKED) && told(DOWN | DAZ) == (SJURNABEL_ROUNDING | SJURNABEL_FLUSHING | SJURNABEL_UNMASKED));
    /* flags alone are no fault, whichever are raised */
    for (unsigned flags = 0; flags < 64; flags++) CHECK(told(START | flags) == 0);
    /* and as C programs set it */
    static const int modes[] = {FE_DOWNWARD, FE_UPWARD, FE_TOWARDZERO, FE_TONEAREST};
    for (int k = 0; k < 4; k++) {
        fesetround(modes[k]);
        CHECK(sjurnabel_environment() == (modes[k] == FE_TONEAREST ? 0u : SJURNABEL_ROUNDING));
    }
}

/* each thread has its own: one that flushes, and this one afterwards */
static void *flushes(void *seen) {
    _mm_setcsr(START | FTZ | DAZ);
    *(unsigned *)seen = sjurnabel_environment();
    return NULL;
}
static void each_thread(void) {
    pthread_t other;
    unsigned seen = 99;
    CHECK(!pthread_create(&other, NULL, flushes, &seen) && !pthread_join(other, NULL));
    CHECK(seen == SJURNABEL_FLUSHING && sjurnabel_environment() == 0);
}

/* ---- the harms that the header names, each with its fault and not without. Where a change of the library does away with
 * one, the header needs another instance, or none. ---- */
static bool minus_zero_comes_back(unsigned mxcsr) {
    double list[] = {-0.0, 1, -0.0, 1}, out[4] = {9, 9, 9, 9};
    sjurnabel_interval zero = {-0.0, 1};
    _mm_setcsr(mxcsr);
    sjurnabel_pieces p = sjurnabel_common_region(list, 4, out, 4);
    sjurnabel_interval_answer a = sjurnabel_line_new(zero.lo, zero.hi);
    _mm_setcsr(START);
    return !p.refusal && p.count == 1 && bits(out[0]) == MINUS_ZERO && !a.refusal && bits(a.value.lo) == MINUS_ZERO;
}
static bool outside_is_in(unsigned mxcsr) {
    sjurnabel_rect r = {{0, 1}, {0, 1}};
    sjurnabel_latlng south = {-LEAST, 0.5}, west = {0.5, -LEAST};
    _mm_setcsr(mxcsr);
    sjurnabel_yes_no a = sjurnabel_rect_contains_latlng(r, south), b = sjurnabel_rect_contains_latlng(r, west);
    _mm_setcsr(START);
    return !a.refusal && a.value && !b.refusal && b.value;
}
static bool length_is_lost(unsigned mxcsr) {
    sjurnabel_interval i = {NORMAL, ABOVE};
    _mm_setcsr(mxcsr);
    sjurnabel_number n = sjurnabel_line_len(i);
    _mm_setcsr(START);
    return !n.refusal && bits(n.value) == 0;
}

/* how a child ends that runs this with invalid operations unmasked: the signal, or 0 */
static int ends_by(void (*run)(void)) {
    int status = 0;
    fflush(stdout);
    pid_t child = fork();
    if (child == 0) {
        _mm_setcsr(START & ~IM);
        run();
        _exit(0);
    }
    if (child < 0 || waitpid(child, &status, 0) != child) return -1;
    return WIFSIGNALED(status) ? WTERMSIG(status) : 0;
}
static volatile double infinity, difference;
static void subtract(void) { difference = infinity - infinity; }
static void nan_in_a_list(void) {
    double list[] = {0, 1, NAN, 1}, out[4];
    sjurnabel_common_region(list, 4, out, 4);
}
static void no_nan(void) {
    double list[] = {0, 1, 0, 1}, out[4];
    sjurnabel_common_region(list, 4, out, 4);
}

static void each_harm(void) {
    CHECK(!minus_zero_comes_back(START) && minus_zero_comes_back(START | DOWN));
    CHECK(!outside_is_in(START) && outside_is_in(START | DAZ));
    CHECK(!length_is_lost(START) && length_is_lost(START | FTZ));
    infinity = INFINITY;
    if (ends_by(subtract) == SIGFPE) CHECK(ends_by(nan_in_a_list) == SIGFPE && ends_by(no_nan) == 0);
    else puts("not tried: an unmasked invalid operation, which ends no process here");
}

int main(void) {
    CHECK(sjurnabel_environment() == 0);
    each_fault();
    each_thread();
    each_harm();
    CHECK(sjurnabel_environment() == 0);
    printf("%d passed, %d failed\n", passed, failed);
    return failed != 0;
}
