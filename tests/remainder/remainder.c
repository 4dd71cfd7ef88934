/* The remainder of two versions of the library, held against each other: tests/remainder/run builds this once over each.
 *
 *   remainder say COUNT SEED    writes an answer for each argument: eight bytes for the refusal, eight for the value
 *   remainder hold COUNT SEED   reads such answers and compares its own with them, and with the C library's remainder
 *
 * The arguments are the same in both: COUNT numbers that SEED decides. */
#define _POSIX_C_SOURCE 200809L
#include "sjurnabel.h"

#include <inttypes.h>
#include <math.h>
#include <stdio.h>
#include <stdlib.h>
#include <string.h>

static uint64_t bits(double x) { uint64_t u; memcpy(&u, &x, 8); return u; }
static double number(uint64_t u) { double x; memcpy(&x, &u, 8); return x; }

/* the double n places above x, or below it where n is negative; the two zeros are one place */
static double beside(double x, int64_t n) {
    int64_t place = x < 0 ? -(int64_t)bits(-x) : (int64_t)bits(x + 0.0);
    place += n;
    return place < 0 ? -number((uint64_t)-place) : number((uint64_t)place);
}

/* multiples of a turn, and the bounds halfway between them; 4 PI is the limit as well */
#define PI SJURNABEL_PI
static const double marks[] = {0, PI, -PI, 2 * PI, -2 * PI, 3 * PI, -3 * PI, 4 * PI, -4 * PI};
enum { MARKS = sizeof marks / sizeof *marks, NEIGHBOURS = 1000, NEAR = MARKS * (2 * NEIGHBOURS + 1) };

/* a generator of whole numbers (splitmix64) */
static uint64_t state;
static uint64_t drawn(void) {
    uint64_t z = state += 0x9E3779B97F4A7C15;
    z = (z ^ z >> 30) * 0xBF58476D1CE4E5B9;
    z = (z ^ z >> 27) * 0x94D049BB133111EB;
    return z ^ z >> 31;
}

/* argument k: first every mark with its neighbours and negative zero, then by turns a number anywhere up to a little over the limit, one near
 * a mark, one of any size below the limit, any bit pattern at all */
static double argument(uint64_t k) {
    if (k < NEAR) return beside(marks[k / (2 * NEIGHBOURS + 1)], (int64_t)(k % (2 * NEIGHBOURS + 1)) - NEIGHBOURS);
    if (k == NEAR) return -0.0;
    const uint64_t r = drawn();
    const double part = (double)(r >> 11) / 9007199254740992.0;
    switch (k % 4) {
    case 0: return (2 * part - 1) * 4.01 * PI;
    case 1: {
        const int64_t far = (int64_t)(drawn() >> (12 + r % 52));
        return beside(marks[r / 64 % MARKS], r >> 63 ? far : -far);
    }
    case 2: return ldexp(2 * part - 1, 4 - (int)(drawn() % 1080));
    default: return number(r);
    }
}

static int say(uint64_t count) {
    for (uint64_t k = 0; k < count; k++) {
        const sjurnabel_number a = sjurnabel_remainder(argument(k));
        const uint64_t words[2] = {a.refusal, bits(a.value)};
        if (fwrite(words, sizeof words, 1, stdout) != 1) return 2;
    }
    return fflush(stdout) ? 2 : 0;
}

static int hold(uint64_t count) {
    uint64_t accepted = 0, differ = 0, otherwise = 0, words[2];
    for (uint64_t k = 0; k < count; k++) {
        const double x = argument(k);
        const sjurnabel_number a = sjurnabel_remainder(x);
        if (fread(words, sizeof words, 1, stdin) != 1) { printf("the other version's answers end at argument %" PRIu64 "\n", k); return 2; }
        if ((words[0] != a.refusal || words[1] != bits(a.value)) && differ++ < 10)
            printf("%016" PRIX64 ": %" PRIu64 " %016" PRIX64 " before, %u %016" PRIX64 " now\n", bits(x), words[0], words[1], a.refusal, bits(a.value));
        if (a.refusal) continue;
        accepted++;
        if (a.value != remainder(x, 2 * PI) && otherwise++ < 10)
            printf("%016" PRIX64 ": %016" PRIX64 ", the C library says %016" PRIX64 "\n", bits(x), bits(a.value), bits(remainder(x, 2 * PI)));
    }
    printf("%" PRIu64 " accepted, %" PRIu64 " of them not as the C library's remainder\n", accepted, otherwise);
    printf("%" PRIu64 " arguments, %" PRIu64 " differences\n", count, differ);
    return differ || otherwise;
}

int main(int argc, char **argv) {
    if (argc != 4) return 2;
    const uint64_t count = strtoull(argv[2], NULL, 10);
    state = strtoull(argv[3], NULL, 10);
    return strcmp(argv[1], "say") ? hold(count) : say(count);
}
