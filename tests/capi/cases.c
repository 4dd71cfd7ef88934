/* The library through its header alone: layouts, document 01's examples, every refusal of every function and its entry, what
 * is left of the caller's memory, to the bit, and the version, texts and constants. Prints what fails; the last line is
 * 'N passed, M failed'. */
#include "sjurnabel.h"

#include <assert.h>
#include <limits.h>
#include <math.h>
#include <stdio.h>
#include <string.h>

/* ---- layouts: as the header says ---- */
static_assert(sizeof(sjurnabel_interval) == 16 && offsetof(sjurnabel_interval, hi) == 8, "interval");
static_assert(sizeof(sjurnabel_rect) == 32 && offsetof(sjurnabel_rect, lng) == 16, "rect");
static_assert(sizeof(sjurnabel_latlng) == 16 && offsetof(sjurnabel_latlng, lng) == 8, "latlng");
static_assert(sizeof(sjurnabel_refused) == 1 && offsetof(sjurnabel_refused, refusal) == 0, "refused");
static_assert(sizeof(sjurnabel_yes_no) == 2 && offsetof(sjurnabel_yes_no, value) == 1, "yes_no");
static_assert(sizeof(sjurnabel_number) == 16 && offsetof(sjurnabel_number, value) == 8, "number");
static_assert(sizeof(sjurnabel_interval_answer) == 24 && offsetof(sjurnabel_interval_answer, value) == 8, "interval_answer");
static_assert(sizeof(sjurnabel_rect_answer) == 40 && offsetof(sjurnabel_rect_answer, value) == 8, "rect_answer");
static_assert(sizeof(sjurnabel_pieces) == 24 && offsetof(sjurnabel_pieces, count) == 8 && offsetof(sjurnabel_pieces, entry) == 16, "pieces");
static_assert(sizeof(sjurnabel_running_answer) == 48 && offsetof(sjurnabel_running_answer, accepted) == 8 && offsetof(sjurnabel_running_answer, value) == 16, "running_answer");
static_assert(sizeof(sjurnabel_latlng_answer) == 24 && offsetof(sjurnabel_latlng_answer, value) == 8, "latlng_answer");
static_assert(sizeof(sjurnabel_distance) == 16 && offsetof(sjurnabel_distance, unbounded) == 1 && offsetof(sjurnabel_distance, value) == 8, "distance");
static_assert(sizeof(sjurnabel_bounds) == 32 && offsetof(sjurnabel_bounds, west) == 0 && offsetof(sjurnabel_bounds, south) == 8, "bounds");
static_assert(offsetof(sjurnabel_bounds, east) == 16 && offsetof(sjurnabel_bounds, north) == 24, "bounds");
static_assert(sizeof(sjurnabel_bounds_answer) == 40 && offsetof(sjurnabel_bounds_answer, value) == 8, "bounds_answer");
static_assert(sizeof(sjurnabel_text) == 72 && offsetof(sjurnabel_text, length) == 8 && offsetof(sjurnabel_text, text) == 16, "text");
static_assert(offsetof(sjurnabel_latlng_answer, refusal) == 0 && offsetof(sjurnabel_distance, refusal) == 0, "the refusal is first");
static_assert(offsetof(sjurnabel_bounds_answer, refusal) == 0 && offsetof(sjurnabel_text, refusal) == 0, "the refusal is first");
static_assert(offsetof(sjurnabel_yes_no, refusal) == 0 && offsetof(sjurnabel_number, refusal) == 0, "the refusal is first");
static_assert(offsetof(sjurnabel_interval_answer, refusal) == 0 && offsetof(sjurnabel_rect_answer, refusal) == 0, "the refusal is first");
static_assert(offsetof(sjurnabel_pieces, refusal) == 0 && offsetof(sjurnabel_running_answer, refusal) == 0, "the refusal is first");
static_assert(sizeof(bool) == 1 && sizeof(double) == 8 && sizeof(size_t) == 8, "x86-64");

#define PI 3.141592653589793
#define HALF_PI 1.5707963267948966

static int passed, failed;
#define CHECK(what) check((what), #what, __LINE__)
static void check(bool holds, const char *what, int line) {
    if (holds) passed++;
    else { failed++; printf("cases.c:%d: %s\n", line, what); }
}

/* ---- bits ---- */
static uint64_t bits(double x) { uint64_t u; memcpy(&u, &x, 8); return u; }
static double of_bits(uint64_t u) { double x; memcpy(&x, &u, 8); return x; }
static bool same(double x, double y) { return bits(x) == bits(y); }
static bool is_interval(sjurnabel_interval i, double lo, double hi) { return same(i.lo, lo) && same(i.hi, hi); }
static bool is_rect(sjurnabel_rect r, double a, double b, double c, double d) { return is_interval(r.lat, a, b) && is_interval(r.lng, c, d); }
static bool same_rect(sjurnabel_rect r, sjurnabel_rect s) { return is_rect(r, s.lat.lo, s.lat.hi, s.lng.lo, s.lng.hi); }

static sjurnabel_interval span(double lo, double hi) { sjurnabel_interval i = {lo, hi}; return i; }
static sjurnabel_rect rect(double a, double b, double c, double d) { sjurnabel_rect r = {{a, b}, {c, d}}; return r; }
static sjurnabel_latlng at(double lat, double lng) { sjurnabel_latlng p = {lat, lng}; return p; }

/* a NaN with a mark of its own: a bit that changed shows */
static double marked(uint64_t n) { return of_bits(0x7FF8DEAD00000000 + n); }
#define NEAR_NEG_PI of_bits(0xC00921FB54442D17) /* the double just above -PI */
#define REACH of_bits(0x5F30000000000000)       /* 2 to the power 500 */
#define PAST of_bits(0x5F30000000000001)        /* the next double */
#define OVER_HALF_PI of_bits(0x3FF921FB54442D19) /* the double just above PI/2 */

static const sjurnabel_rect EMPTY = {{1, 0}, {PI, -PI}}, FULL = {{-HALF_PI, HALF_PI}, {-PI, PI}};

/* why a rectangle is refused, in the order in which it is tested */
static const int reasons[] = {SJURNABEL_OUT_OF_REACH, SJURNABEL_BAD_LATITUDE, SJURNABEL_BAD_CIRCLE, SJURNABEL_HALF_EMPTY};
#define REASONS (int)(sizeof reasons / sizeof *reasons)
#define KINDS 8

/* a rectangle of each kind that is refused with reasons[n]: the last three, but for 23, have the faults that are tested later too */
static sjurnabel_rect bad(int n, int k) {
    const sjurnabel_rect r[][KINDS] = {
        {{{NAN, 1}, {0, 1}}, {{0, INFINITY}, {0, 1}}, {{0, 1}, {-INFINITY, 1}}, {{0, 1}, {0, marked(7)}}, {{0, PAST}, {0, 1}},
         {{2, NAN}, {0, 1}}, {{0, 1}, {4, -PAST}}, {{3, 2}, {NAN, 4}}},
        {{{0, 2}, {0, 1}}, {{-2, 0}, {0, 1}}, {{0, REACH}, {0, 1}}, {{0, OVER_HALF_PI}, {-PI, PI}}, {{-OVER_HALF_PI, -2}, {PI, -PI}},
         {{0, 2}, {4, 0}}, {{2, 1}, {0, 1}}, {{2, -2}, {-PI, 0}}},
        {{{0, 1}, {0, 4}}, {{0, 1}, {-PI, 0}}, {{0, 1}, {0, -PI}}, {{0, 1}, {-PI, -PI}}, {{0, 1}, {-REACH, PI}},
         {{1, 0}, {4, 0}}, {{1, 0}, {-PI, 0}}, {{-1, -REACH}, {0, -PI}}},
        {{{1, 0}, {0, 1}}, {{0, 1}, {PI, -PI}}, {{1, 0}, {-PI, PI}}, {{-HALF_PI, HALF_PI}, {PI, -PI}}, {{0, -REACH}, {0, 1}},
         {{-1, -3}, {1, -1}}, {{-0.0, 0}, {PI, -PI}}, {{HALF_PI, 1}, {PI, PI}}},
    };
    return r[n][k];
}
/* one that is refused with another number than reasons[n] */
static sjurnabel_rect otherwise_bad(int n, int k) { return bad((n + 1 + k % (REASONS - 1)) % REASONS, k); }
static const double bad_points[][2] = {{2, 0}, {-2, 0}, {0, 4}, {NAN, 0}, {0, NAN}, {INFINITY, 0}, {0, -INFINITY}, {HALF_PI + 1e-15, 0}};
#define BAD_POINTS (sizeof bad_points / sizeof *bad_points)

/* ---- a lent list with words around it: none of them may change, nor what a refusal must leave ---- */
#define MOST 2060
static double out[MOST + 2];
static void fill(void) { for (size_t i = 0; i < MOST + 2; i++) out[i] = marked(i); }
/* all but the doubles from 1 to n, which a call may write, are as filled */
static bool only_written(size_t n) {
    for (size_t i = 0; i < MOST + 2; i++) if ((i < 1 || i > n) && bits(out[i]) != bits(marked(i))) return false;
    return true;
}
static sjurnabel_pieces common(const double *list, size_t n, size_t room) { fill(); return sjurnabel_common_region(list, n, out + 1, room); }
static bool piece(size_t k, double a, double b, double c, double d) {
    return same(out[1 + 4 * k], a) && same(out[2 + 4 * k], b) && same(out[3 + 4 * k], c) && same(out[4 + 4 * k], d);
}
/* so many pieces, which alone were written, and no entry */
static bool lists(sjurnabel_pieces p, size_t count) { return p.refusal == SJURNABEL_ACCEPTED && p.count == count && p.entry == 0 && only_written(4 * count); }
static bool refuses_at(sjurnabel_pieces p, int refusal, size_t entry) { return p.refusal == refusal && p.count == 0 && p.entry == entry && only_written(0); }
/* the numbers that no entry stands beside */
static bool refuses(sjurnabel_pieces p, int refusal) { return refuses_at(p, refusal, 0); }

static void common_region(void) {
    static double many[4 * 513];
    const double two[] = {0, 1, -1, 1, 0, 1, 1, -1};
    CHECK(lists(common(two, 8, 8), 2) && piece(0, 0, 1, -1, -1) && piece(1, 0, 1, 1, 1));
    CHECK(lists(common(two, 8, MOST), 2));
    const double four[] = {0, 1, 2, 1, 0, 1, 0.5, 0.25};
    CHECK(lists(common(four, 8, 8), 2) && piece(0, 0, 1, 0.5, 1) && piece(1, 0, 1, 2, 0.25));
    const double nearly[] = {0, 1, -PI, PI, 0, 1, NEAR_NEG_PI, PI};
    CHECK(lists(common(nearly, 8, 8), 1) && piece(0, 0, 1, NEAR_NEG_PI, PI));
    double none = NAN;
    CHECK(lists(common(&none, 0, 4), 1) && piece(0, -HALF_PI, HALF_PI, -PI, PI));
    CHECK(refuses(common(&none, 0, 3), SJURNABEL_NO_ROOM));
    CHECK(lists(common(&EMPTY.lat.lo, 4, 0), 0));
    const double zeros[] = {-0.0, 1, -0.0, 1};
    CHECK(lists(common(zeros, 4, 4), 1) && piece(0, 0, 1, 0, 1));
    const sjurnabel_rect zones[] = {{{0, 1}, {-1, 1}}, {{0.5, 1.5}, {0.5, -0.75}}};
    CHECK(lists(common(&zones[0].lat.lo, 4 * 2, 9), 2) && piece(0, 0.5, 1, -1, -0.75) && piece(1, 0.5, 1, 0.5, 1));

    /* refusals, in their order, and not a bit of the output changed */
    CHECK(refuses(common(two, 8, 7), SJURNABEL_NO_ROOM) && refuses(common(two, 8, 4), SJURNABEL_NO_ROOM) && refuses(common(two, 8, 0), SJURNABEL_NO_ROOM));
    for (size_t n = 1; n < 8; n++) if (n % 4) CHECK(refuses(common(two, n, 8), SJURNABEL_BAD_LIST));
    for (int n = 0; n < REASONS; n++)
        for (int k = 0; k < KINDS; k++) {
            const sjurnabel_rect list[] = {{{0, 1}, {-1, 1}}, bad(n, k), otherwise_bad(n, k)};
            CHECK(refuses_at(common(&list[0].lat.lo, 12, 12), reasons[n], 1));
            CHECK(refuses_at(common(&list[0].lat.lo, 8, 0), reasons[n], 1));
            CHECK(refuses_at(common(&list[1].lat.lo, 8, 8), reasons[n], 0));
            CHECK(refuses(common(&list[0].lat.lo, 9, 12), SJURNABEL_BAD_LIST));
        }
    /* 512 arcs that all hold the meridian 0; then one more */
    for (int i = 0; i < 513; i++) { double r[] = {0, 1, -0.001 * (i + 1), 0.001 * (513 - i)}; memcpy(many + 4 * i, r, sizeof r); }
    CHECK(lists(common(many, 4 * 512, 4), 1) && piece(0, 0, 1, -0.001, 0.001 * 2));
    CHECK(refuses(common(many, 4 * 513, 4), SJURNABEL_BAD_LIST));
    /* arcs that each leave out one gap: 512 pieces of 512 */
    for (int i = 0; i < 512; i++) { double r[] = {0, 1, -3 + 0.01 * i + 0.001, -3 + 0.01 * i}; memcpy(many + 4 * i, r, sizeof r); }
    CHECK(lists(common(many, 4 * 512, 4 * 512), 512));
    CHECK(refuses(common(many, 4 * 512, 4 * 512 - 1), SJURNABEL_NO_ROOM));
}

/* ---- which rectangle of a list is refused ---- */
static void entries(void) {
    static sjurnabel_rect list[513];
    static const size_t lengths[] = {1, 2, 3, 16, 17, 128, 129, 511, 512};
    for (size_t l = 0; l < sizeof lengths / sizeof *lengths; l++) {
        const size_t last = lengths[l] - 1, places[] = {0, last / 2, last};
        /* arcs that cross the 180th meridian and arcs that do not, among them empty ones */
        for (size_t i = 0; i <= last; i++) list[i] = i % 5 == 4 ? EMPTY : i % 2 ? rect(0, 1, 1, -1) : rect(-1, 1, -2, 2);
        for (int n = 0; n < REASONS; n++)
            for (int k = 0; k < KINDS; k++)
                for (int place = 0; place < 3; place++) {
                    const size_t at_entry = places[place];
                    const sjurnabel_rect good = list[at_entry];
                    list[at_entry] = bad(n, k);
                    CHECK(refuses_at(common(&list[0].lat.lo, 4 * (last + 1), MOST), reasons[n], at_entry));
                    CHECK(refuses_at(common(&list[0].lat.lo, 4 * (last + 1), 0), reasons[n], at_entry));
                    /* a second one, of another kind, later in the list: the first is told */
                    if (at_entry < last) {
                        const sjurnabel_rect also_good = list[last];
                        list[last] = otherwise_bad(n, k);
                        CHECK(refuses_at(common(&list[0].lat.lo, 4 * (last + 1), MOST), reasons[n], at_entry));
                        list[last] = also_good;
                    }
                    /* the length comes first, and 5 has no entry */
                    CHECK(refuses(common(&list[0].lat.lo, 4 * (last + 1) - 1, MOST), SJURNABEL_BAD_LIST));
                    CHECK(refuses(common(&list[0].lat.lo, 4 * 513, MOST), SJURNABEL_BAD_LIST));
                    list[at_entry] = good;
                }
        CHECK(common(&list[0].lat.lo, 4 * (last + 1), MOST).refusal == SJURNABEL_ACCEPTED && common(&list[0].lat.lo, 4 * (last + 1), MOST).entry == 0);
    }
}

/* ---- growth by value ---- */
static bool answers(sjurnabel_rect_answer a, int refusal, sjurnabel_rect r) { return a.refusal == refusal && same_rect(a.value, r); }

static void growth(void) {
    static double many[2 * 4097];
    const sjurnabel_rect start = {{0, 1}, {0, 1}};
    double none = NAN;
    const double two[] = {0.5, 2, 1, -0.5}, last_bad[] = {0.5, 2, 1, 4};
    CHECK(answers(sjurnabel_grow(start, two, 4), 0, rect(0, 1, -0.5, 2)));
    CHECK(answers(sjurnabel_grow(start, two, 2), 0, rect(0, 1, 0, 2)));
    CHECK(answers(sjurnabel_grow(start, last_bad, 4), SJURNABEL_BAD_POINT, start));
    CHECK(answers(sjurnabel_grow(start, last_bad, 3), SJURNABEL_BAD_LIST, start));
    CHECK(answers(sjurnabel_grow(rect(-0.0, 1, -0.0, 1), &none, 0), 0, start));
    CHECK(answers(sjurnabel_grow(rect(-0.0, 1, -0.0, 1), two, 1), SJURNABEL_BAD_LIST, rect(-0.0, 1, -0.0, 1)));
    CHECK(answers(sjurnabel_grow(rect(-0.0, 1, -0.0, 1), last_bad, 4), SJURNABEL_BAD_POINT, rect(-0.0, 1, -0.0, 1)));
    CHECK(answers(sjurnabel_grow(rect(marked(1), 9, 9, 9), two, 3), SJURNABEL_BAD_LIST, rect(marked(1), 9, 9, 9)));
    const double seam[] = {0, -PI};
    CHECK(answers(sjurnabel_grow(EMPTY, seam, 2), 0, rect(0, 0, PI, PI)));
    for (size_t k = 0; k < BAD_POINTS; k++) CHECK(answers(sjurnabel_grow(start, bad_points[k], 2), SJURNABEL_BAD_POINT, start));
    for (int n = 0; n < REASONS; n++)
        for (int k = 0; k < KINDS; k++) {
            const int refusal = reasons[n];
            CHECK(answers(sjurnabel_grow(bad(n, k), last_bad, 4), refusal, EMPTY));
            CHECK(answers(sjurnabel_grow(bad(n, k), last_bad, 3), SJURNABEL_BAD_LIST, bad(n, k)));
        }
    for (int i = 0; i < 4097; i++) { many[2 * i] = 0.0001 * i; many[2 * i + 1] = -0.0001 * i; }
    CHECK(answers(sjurnabel_grow(EMPTY, many, 2 * 4096), 0, rect(0, 0.0001 * 4095, -0.0001 * 4095, 0)));
    CHECK(answers(sjurnabel_grow(EMPTY, many, 2 * 4097), SJURNABEL_BAD_LIST, EMPTY));
}

/* ---- the running box by value ---- */
static bool ran(sjurnabel_running_answer a, int refusal, size_t accepted, sjurnabel_rect r) { return a.refusal == refusal && a.accepted == accepted && same_rect(a.value, r); }

static void running(void) {
    static double many[2 * 4097];
    const sjurnabel_rect start = {{0, 1}, {0, 1}}, minus = {{-0.0, 1}, {-0.0, 1}};
    double none = NAN;
    const double points[] = {0.5, 2, 1, 4, 1, -0.5, NAN, 0, 0.5, 0.5};
    /* after each of the calls: the second and the fourth change nothing */
    const sjurnabel_rect boxes[] = {rect(-0.0, 1, -0.0, 1), rect(0, 1, 0, 2), rect(0, 1, 0, 2), rect(0, 1, -0.5, 2), rect(0, 1, -0.5, 2), rect(0, 1, -0.5, 2)};
    const size_t accepted[] = {0, 1, 1, 2, 2, 3};
    for (size_t n = 0; n <= 5; n++) {
        CHECK(ran(sjurnabel_running(minus, points, 2 * n), 0, accepted[n], boxes[n]));
        if (n < 5) CHECK(ran(sjurnabel_running(minus, points, 2 * n + 1), SJURNABEL_BAD_LIST, 0, minus));
        /* in two parts */
        CHECK(ran(sjurnabel_running(boxes[n], points + 2 * n, 2 * (5 - n)), 0, 3 - accepted[n], boxes[5]));
    }
    CHECK(ran(sjurnabel_running(minus, &none, 0), 0, 0, minus));
    CHECK(ran(sjurnabel_running(minus, points + 8, 2), 0, 1, start));
    /* a bad point alone leaves every bit; a wrong length hands back every bit, of a NaN too */
    for (size_t k = 0; k < BAD_POINTS; k++) CHECK(ran(sjurnabel_running(minus, bad_points[k], 2), 0, 0, minus));
    CHECK(ran(sjurnabel_running(rect(marked(1), 9, 9, 9), points, 3), SJURNABEL_BAD_LIST, 0, rect(marked(1), 9, 9, 9)));
    /* the order matters: half a turn apart, either way round is as long */
    const double east[] = {0, 0, 0, PI}, west[] = {0, PI, 0, 0}, seam[] = {0, -PI};
    CHECK(ran(sjurnabel_running(EMPTY, east, 4), 0, 2, rect(0, 0, 0, PI)) && ran(sjurnabel_running(EMPTY, west, 4), 0, 2, rect(0, 0, PI, 0)));
    CHECK(ran(sjurnabel_running(EMPTY, seam, 2), 0, 1, rect(0, 0, PI, PI)));
    for (int n = 0; n < REASONS; n++)
        for (int k = 0; k < KINDS; k++) {
            CHECK(ran(sjurnabel_running(bad(n, k), points, 10), reasons[n], 0, EMPTY) && ran(sjurnabel_running(bad(n, k), &none, 0), reasons[n], 0, EMPTY));
            CHECK(ran(sjurnabel_running(bad(n, k), points, 3), SJURNABEL_BAD_LIST, 0, bad(n, k)));
        }
    /* a track of the most points, every seventh of them bad; one point more is too many */
    for (int i = 0; i < 4097; i++) { many[2 * i] = 0.0001 * i; many[2 * i + 1] = i % 7 == 3 ? 4.0 : -0.0001 * i; }
    CHECK(ran(sjurnabel_running(EMPTY, many, 2 * 4096), 0, 4096 - 585, rect(0, 0.0001 * 4095, -0.0001 * 4095, 0)));
    CHECK(ran(sjurnabel_running(minus, many, 2 * 4097), SJURNABEL_BAD_LIST, 0, minus));
}

/* ---- the scan worker: a box with a word on either side ---- */
static struct { uint64_t before; sjurnabel_rect box; uint64_t after; } lent;
#define GUARD 0x0123456789ABCDEF
static void lend(sjurnabel_rect r) { lent.before = lent.after = GUARD; lent.box = r; }
static bool left(sjurnabel_rect r) { return lent.before == GUARD && lent.after == GUARD && same_rect(lent.box, r); }
static int by_point(sjurnabel_rect r, double lat, double lng) { lend(r); return sjurnabel_scan_point(&lent.box, at(lat, lng)).refusal; }
static int by_list(sjurnabel_rect r, const double *points, size_t n) { lend(r); return sjurnabel_scan_list(&lent.box, points, n).refusal; }

static void scan(void) {
    const sjurnabel_rect start = {{0, 1}, {0, 1}}, minus = {{-0.0, 1}, {-0.0, 1}};
    double none = NAN;
    CHECK(by_point(start, 0.5, 2) == 0 && left(rect(0, 1, 0, 2)));
    CHECK(by_point(minus, 0.5, 0.5) == 0 && left(start));
    CHECK(by_point(EMPTY, -0.0, -PI) == 0 && left(rect(0, 0, PI, PI)));
    CHECK(by_point(FULL, 1, 3) == 0 && left(FULL));
    lend(EMPTY);
    for (int i = 0; i < 100; i++) {
        sjurnabel_refused r = sjurnabel_scan_point(&lent.box, at(0.01 * i, i % 7 == 3 ? 4.0 : -0.02 * i));
        CHECK(r.refusal == (i % 7 == 3 ? SJURNABEL_BAD_POINT : 0));
    }
    CHECK(left(rect(0, 0.01 * 99, -0.02 * 99, 0)));
    for (size_t k = 0; k < BAD_POINTS; k++) CHECK(by_point(minus, bad_points[k][0], bad_points[k][1]) == SJURNABEL_BAD_POINT && left(minus));
    const double two[] = {0.5, 2, 1, -0.5}, last_bad[] = {0.5, 2, 1, 4};
    static double many[2 * 4097];
    CHECK(by_list(start, two, 4) == 0 && left(rect(0, 1, -0.5, 2)));
    CHECK(by_list(minus, &none, 0) == 0 && left(start));
    CHECK(by_list(EMPTY, many, 2 * 4096) == 0 && left(rect(0, 0, 0, 0)));
    CHECK(by_list(minus, last_bad, 4) == SJURNABEL_BAD_POINT && left(minus));
    CHECK(by_list(minus, two, 3) == SJURNABEL_BAD_LIST && left(minus));
    CHECK(by_list(minus, many, 2 * 4097) == SJURNABEL_BAD_LIST && left(minus));
    for (int n = 0; n < REASONS; n++)
        for (int k = 0; k < KINDS; k++) {
            const int refusal = reasons[n];
            CHECK(by_point(bad(n, k), 0, 4) == refusal && left(bad(n, k)));
            CHECK(by_list(bad(n, k), last_bad, 4) == refusal && left(bad(n, k)));
            CHECK(by_list(bad(n, k), last_bad, 3) == SJURNABEL_BAD_LIST && left(bad(n, k)));
        }
}

/* ---- rectangles ---- */
static bool says(sjurnabel_yes_no a, int refusal, bool value) { return a.refusal == refusal && a.value == value; }

static void rectangles(void) {
    const sjurnabel_rect a = {{0, 1}, {-1, 1}}, b = {{0, 1}, {1, -1}}, in = {{0.25, 0.5}, {-0.5, 0.5}};
    CHECK(says(sjurnabel_rect_contains(a, in), 0, true) && says(sjurnabel_rect_contains(in, a), 0, false));
    CHECK(says(sjurnabel_rect_contains(in, EMPTY), 0, true) && says(sjurnabel_rect_contains(FULL, b), 0, true));
    CHECK(says(sjurnabel_rect_intersects(a, b), 0, true) && says(sjurnabel_rect_intersects(in, b), 0, false));
    CHECK(says(sjurnabel_rect_contains_latlng(a, at(1, -1)), 0, true) && says(sjurnabel_rect_contains_latlng(a, at(0.5, 2)), 0, false));
    CHECK(says(sjurnabel_rect_contains_latlng(b, at(0.5, -PI)), 0, true) && says(sjurnabel_rect_contains_latlng(b, at(-0.0, PI)), 0, true));
    CHECK(answers(sjurnabel_rect_intersection(a, b), 0, a) && answers(sjurnabel_rect_union(a, b), 0, rect(0, 1, -PI, PI)));
    CHECK(answers(sjurnabel_rect_intersection(rect(0, 1, -PI, PI), rect(0, 1, NEAR_NEG_PI, PI)), 0, rect(0, 1, -PI, PI)));
    CHECK(answers(sjurnabel_rect_union(rect(0, 1, 0, 0), rect(0, 1, PI, PI)), 0, rect(0, 1, 0, PI)));
    CHECK(answers(sjurnabel_rect_union(rect(0, 1, PI, PI), rect(0, 1, 0, 0)), 0, rect(0, 1, PI, 0)));
    CHECK(answers(sjurnabel_rect_union(rect(-0.0, 1, -0.0, 1), EMPTY), 0, rect(0, 1, 0, 1)));
    CHECK(answers(sjurnabel_rect_expanded(rect(0, 0, 0, 0), at(2, 4)), 0, FULL));
    CHECK(answers(sjurnabel_rect_expanded(a, at(-0.25, -0.5)), 0, rect(0.25, 0.75, -0.5, 0.5)));
    CHECK(answers(sjurnabel_rect_expanded(a, at(REACH, -0.0)), 0, rect(-HALF_PI, HALF_PI, -1, 1)));
    /* refusals: of the left before the right, 1, 21, 22, 23 in each, then the point or the margins */
    for (int n = 0; n < REASONS; n++)
        for (int k = 0; k < KINDS; k++) {
            const int refusal = reasons[n];
            sjurnabel_rect r = bad(n, k), o = otherwise_bad(n, k);
            CHECK(says(sjurnabel_rect_contains(r, o), refusal, false) && says(sjurnabel_rect_contains(a, r), refusal, false));
            CHECK(says(sjurnabel_rect_intersects(r, o), refusal, false) && says(sjurnabel_rect_intersects(a, r), refusal, false));
            CHECK(says(sjurnabel_rect_contains_latlng(r, at(NAN, 0)), refusal, false));
            CHECK(answers(sjurnabel_rect_union(r, o), refusal, EMPTY) && answers(sjurnabel_rect_union(a, r), refusal, EMPTY));
            CHECK(answers(sjurnabel_rect_intersection(r, o), refusal, EMPTY) && answers(sjurnabel_rect_intersection(a, r), refusal, EMPTY));
            CHECK(answers(sjurnabel_rect_expanded(r, at(NAN, NAN)), refusal, EMPTY));
        }
    for (size_t k = 0; k < BAD_POINTS; k++) CHECK(says(sjurnabel_rect_contains_latlng(a, at(bad_points[k][0], bad_points[k][1])), SJURNABEL_BAD_POINT, false));
    const double margins[] = {NAN, INFINITY, -INFINITY, PAST, -PAST};
    for (int k = 0; k < 5; k++) {
        CHECK(answers(sjurnabel_rect_expanded(a, at(margins[k], 0)), SJURNABEL_BAD_MARGIN, EMPTY));
        CHECK(answers(sjurnabel_rect_expanded(a, at(0, margins[k])), SJURNABEL_BAD_MARGIN, EMPTY));
    }
}

static bool is_point(sjurnabel_latlng_answer a, int refusal, double lat, double lng) { return a.refusal == refusal && same(a.value.lat, lat) && same(a.value.lng, lng); }

static void rectangles_made(void) {
    CHECK(answers(sjurnabel_rect_from_latlng(at(0.5, -PI)), 0, rect(0.5, 0.5, PI, PI)) && answers(sjurnabel_rect_from_latlng(at(-0.0, -0.0)), 0, rect(0, 0, 0, 0)));
    CHECK(answers(sjurnabel_rect_from_center_size(at(0.5, 1), at(0.5, 1)), 0, rect(0.25, 0.75, 0.5, 1.5)));
    CHECK(answers(sjurnabel_rect_from_center_size(at(0, 0), at(4, 8)), 0, FULL) && answers(sjurnabel_rect_from_center_size(at(0, 0), at(-1, 1)), 0, EMPTY));
    CHECK(answers(sjurnabel_rect_from_point_pair(at(1, 3), at(0, -3)), 0, rect(0, 1, 3, -3)));
    CHECK(answers(sjurnabel_rect_polar_closure(rect(0, HALF_PI, 0, 1)), 0, rect(0, HALF_PI, -PI, PI)));
    CHECK(answers(sjurnabel_rect_polar_closure(rect(-0.0, 1, 0, 1)), 0, rect(0, 1, 0, 1)));
    CHECK(answers(sjurnabel_rect_polar_closure(rect(-HALF_PI, -2, PI, -PI)), 0, rect(-HALF_PI, -2, PI, -PI)));
    CHECK(answers(sjurnabel_rect_add(rect(0, 1, 0, 1), at(0.5, 2)), 0, rect(0, 1, 0, 2)) && answers(sjurnabel_rect_add(EMPTY, at(0, -PI)), 0, rect(0, 0, PI, PI)));
    const double margins[] = {NAN, INFINITY, -INFINITY, PAST, -PAST};
    for (size_t k = 0; k < BAD_POINTS; k++) {
        const sjurnabel_latlng p = at(bad_points[k][0], bad_points[k][1]);
        CHECK(answers(sjurnabel_rect_from_latlng(p), SJURNABEL_BAD_POINT, EMPTY));
        CHECK(answers(sjurnabel_rect_from_center_size(p, at(NAN, NAN)), SJURNABEL_BAD_POINT, EMPTY));
        CHECK(answers(sjurnabel_rect_from_point_pair(p, at(0, 0)), SJURNABEL_BAD_POINT, EMPTY) && answers(sjurnabel_rect_from_point_pair(at(0, 0), p), SJURNABEL_BAD_POINT, EMPTY));
        CHECK(answers(sjurnabel_rect_add(rect(-0.0, 1, -0.0, 1), p), SJURNABEL_BAD_POINT, rect(-0.0, 1, -0.0, 1)));
        CHECK(says(sjurnabel_latlng_is_valid(p), SJURNABEL_BAD_POINT, false));
    }
    for (int k = 0; k < 5; k++) {
        CHECK(answers(sjurnabel_rect_from_center_size(at(0, 0), at(margins[k], 0)), SJURNABEL_BAD_MARGIN, EMPTY));
        CHECK(answers(sjurnabel_rect_from_center_size(at(0, 0), at(0, margins[k])), SJURNABEL_BAD_MARGIN, EMPTY));
    }
    CHECK(says(sjurnabel_latlng_is_valid(at(HALF_PI, -PI)), 0, true) && says(sjurnabel_latlng_is_valid(at(-0.0, PI)), 0, true));
    for (int n = 0; n < REASONS; n++)
        for (int k = 0; k < KINDS; k++) {
            const int refusal = reasons[n];
            CHECK(answers(sjurnabel_rect_polar_closure(bad(n, k)), refusal, EMPTY));
            CHECK(answers(sjurnabel_rect_add(bad(n, k), at(NAN, 0)), refusal, EMPTY));
        }
}

static void rectangles_tested(void) {
    static sjurnabel_yes_no (*const of_one[])(sjurnabel_rect) = {sjurnabel_rect_is_valid, sjurnabel_rect_is_empty, sjurnabel_rect_is_full, sjurnabel_rect_is_point, sjurnabel_rect_is_inverted};
    static sjurnabel_yes_no (*const of_two[])(sjurnabel_rect, sjurnabel_rect) = {sjurnabel_rect_interior_contains, sjurnabel_rect_interior_intersects, sjurnabel_rect_eq, sjurnabel_rect_approx_eq};
    static sjurnabel_latlng_answer (*const of_points[])(sjurnabel_rect) = {sjurnabel_rect_lo, sjurnabel_rect_hi, sjurnabel_rect_center, sjurnabel_rect_size};
    const sjurnabel_rect a = {{0, 1}, {-1, 1}}, b = {{0, 1}, {1, -1}}, in = {{0.25, 0.5}, {-0.5, 0.5}}, c = {{0, 1}, {2, 3}};
    CHECK(says(sjurnabel_rect_is_valid(a), 0, true) && says(sjurnabel_rect_is_valid(EMPTY), 0, true));
    CHECK(says(sjurnabel_rect_is_empty(EMPTY), 0, true) && says(sjurnabel_rect_is_empty(a), 0, false));
    CHECK(says(sjurnabel_rect_is_full(FULL), 0, true) && says(sjurnabel_rect_is_full(rect(-HALF_PI, HALF_PI, NEAR_NEG_PI, PI)), 0, false));
    CHECK(says(sjurnabel_rect_is_point(rect(1, 1, 2, 2)), 0, true) && says(sjurnabel_rect_is_point(rect(0, 1, 2, 2)), 0, false));
    CHECK(says(sjurnabel_rect_is_inverted(b), 0, true) && says(sjurnabel_rect_is_inverted(a), 0, false) && says(sjurnabel_rect_is_inverted(EMPTY), 0, true));
    CHECK(is_point(sjurnabel_rect_vertex(c, 0), 0, 0, 2) && is_point(sjurnabel_rect_vertex(c, 1), 0, 0, 3));
    CHECK(is_point(sjurnabel_rect_vertex(c, 2), 0, 1, 3) && is_point(sjurnabel_rect_vertex(c, 3), 0, 1, 2));
    CHECK(is_point(sjurnabel_rect_vertex(c, 255), 0, 1, 2) && is_point(sjurnabel_rect_vertex(c, 4), 0, 0, 2));
    CHECK(is_point(sjurnabel_rect_lo(c), 0, 0, 2) && is_point(sjurnabel_rect_hi(c), 0, 1, 3) && is_point(sjurnabel_rect_lo(rect(-0.0, 1, -0.0, 1)), 0, 0, 0));
    CHECK(is_point(sjurnabel_rect_center(c), 0, 0.5, 2.5) && is_point(sjurnabel_rect_center(rect(0, 1, 3, -3)), 0, 0.5, PI));
    CHECK(is_point(sjurnabel_rect_size(c), 0, 1, 1) && is_point(sjurnabel_rect_size(EMPTY), 0, -1, -1));
    CHECK(says(sjurnabel_rect_interior_contains(FULL, a), 0, true) && says(sjurnabel_rect_interior_contains(FULL, FULL), 0, false) && says(sjurnabel_rect_interior_contains(a, a), 0, false));
    CHECK(says(sjurnabel_rect_interior_contains_latlng(a, at(0.5, 0)), 0, true) && says(sjurnabel_rect_interior_contains_latlng(a, at(0, 0)), 0, false) && says(sjurnabel_rect_interior_contains_latlng(FULL, at(0, PI)), 0, true));
    CHECK(says(sjurnabel_rect_interior_intersects(a, in), 0, true) && says(sjurnabel_rect_interior_intersects(a, b), 0, false));
    CHECK(says(sjurnabel_rect_eq(a, a), 0, true) && says(sjurnabel_rect_eq(EMPTY, rect(0, -1, PI, -PI)), 0, true) && says(sjurnabel_rect_eq(a, in), 0, false));
    CHECK(says(sjurnabel_rect_approx_eq(rect(0, 0, 0, 0), rect(5e-15, 5e-15, 0, 5e-15)), 0, true) && says(sjurnabel_rect_approx_eq(rect(0, 0, 0, 0), rect(0, 0, 1, 1)), 0, false));
    CHECK(says(sjurnabel_rect_approx_eq_by(rect(0, 0, 0, 0), rect(1, 1, 0, 0), at(1, 0)), 0, true) && says(sjurnabel_rect_approx_eq_by(rect(0, 0, 0, 0), rect(1, 1, 0, 0), at(0, 1)), 0, false));
    for (int n = 0; n < REASONS; n++)
        for (int k = 0; k < KINDS; k++) {
            const int refusal = reasons[n];
            const sjurnabel_rect r = bad(n, k), o = otherwise_bad(n, k);
            for (size_t f = 0; f < sizeof of_one / sizeof *of_one; f++) CHECK(says(of_one[f](r), refusal, false));
            for (size_t f = 0; f < sizeof of_two / sizeof *of_two; f++) CHECK(says(of_two[f](r, o), refusal, false) && says(of_two[f](a, r), refusal, false));
            for (size_t f = 0; f < sizeof of_points / sizeof *of_points; f++) CHECK(is_point(of_points[f](r), refusal, 0, 0));
            CHECK(is_point(sjurnabel_rect_vertex(r, 3), refusal, 0, 0));
            CHECK(says(sjurnabel_rect_interior_contains_latlng(r, at(NAN, 0)), refusal, false));
            CHECK(says(sjurnabel_rect_approx_eq_by(r, o, at(NAN, 0)), refusal, false) && says(sjurnabel_rect_approx_eq_by(a, r, at(NAN, 0)), refusal, false));
        }
    for (size_t k = 0; k < BAD_POINTS; k++) CHECK(says(sjurnabel_rect_interior_contains_latlng(a, at(bad_points[k][0], bad_points[k][1])), SJURNABEL_BAD_POINT, false));
    CHECK(says(sjurnabel_rect_approx_eq_by(a, a, at(NAN, 0)), SJURNABEL_BAD_MARGIN, false) && says(sjurnabel_rect_approx_eq_by(a, a, at(0, PAST)), SJURNABEL_BAD_MARGIN, false));
}

/* ---- the circle ---- */
static bool gives(sjurnabel_interval_answer a, int refusal, double lo, double hi) { return a.refusal == refusal && is_interval(a.value, lo, hi); }
static bool is_number(sjurnabel_number a, int refusal, double x) { return a.refusal == refusal && same(a.value, x); }

/* what is wrong with a circle interval: three out of reach, four not valid */
static sjurnabel_interval bad_circle(int k) {
    const double wrong[][2] = {{NAN, 0}, {0, PAST}, {0, -INFINITY}, {4, 0}, {0, -4}, {-PI, 0}, {0, -PI}};
    return span(wrong[k][0], wrong[k][1]);
}

static void circle(void) {
    const sjurnabel_interval a = {-1, 1}, b = {1, -1}, full = {-PI, PI}, empty = {PI, -PI};
    CHECK(gives(sjurnabel_circle_intersection(a, b), 0, -1, 1) && gives(sjurnabel_circle_union(a, b), 0, -PI, PI));
    CHECK(gives(sjurnabel_circle_intersection(full, span(NEAR_NEG_PI, PI)), 0, -PI, PI));
    CHECK(gives(sjurnabel_circle_union(span(0, 0), span(PI, PI)), 0, 0, PI) && gives(sjurnabel_circle_union(span(PI, PI), span(0, 0)), 0, PI, 0));
    CHECK(gives(sjurnabel_circle_union(span(-0.0, -0.0), empty), 0, 0, 0) && gives(sjurnabel_circle_intersection(a, empty), 0, PI, -PI));
    CHECK(says(sjurnabel_circle_contains(b, -PI), 0, true) && says(sjurnabel_circle_contains(b, PI), 0, true) && says(sjurnabel_circle_contains(b, -0.0), 0, false));
    CHECK(says(sjurnabel_circle_contains_interval(full, span(NEAR_NEG_PI, PI)), 0, true) && says(sjurnabel_circle_contains_interval(span(NEAR_NEG_PI, PI), full), 0, false));
    CHECK(says(sjurnabel_circle_contains_interval(a, empty), 0, true) && says(sjurnabel_circle_intersects(a, b), 0, true) && says(sjurnabel_circle_intersects(a, span(2, 3)), 0, false));
    for (int k = 0; k < 7; k++) {
        const int refusal = k < 3 ? SJURNABEL_OUT_OF_REACH : SJURNABEL_BAD_CIRCLE;
        const sjurnabel_interval r = bad_circle(k), o = bad_circle(k < 3 ? 3 : 0);
        CHECK(says(sjurnabel_circle_contains(r, NAN), refusal, false));
        CHECK(says(sjurnabel_circle_contains_interval(r, o), refusal, false) && says(sjurnabel_circle_contains_interval(a, r), refusal, false));
        CHECK(says(sjurnabel_circle_intersects(r, o), refusal, false) && says(sjurnabel_circle_intersects(a, r), refusal, false));
        CHECK(gives(sjurnabel_circle_union(r, o), refusal, PI, -PI) && gives(sjurnabel_circle_union(a, r), refusal, PI, -PI));
        CHECK(gives(sjurnabel_circle_intersection(r, o), refusal, PI, -PI) && gives(sjurnabel_circle_intersection(a, r), refusal, PI, -PI));
    }
    const double points[] = {NAN, INFINITY, 4, -4, of_bits(0x400921FB54442D19)};
    for (int k = 0; k < 5; k++) CHECK(says(sjurnabel_circle_contains(a, points[k]), SJURNABEL_BAD_POINT, false));
    CHECK(is_number(sjurnabel_remainder(-0.0), 0, 0) && is_number(sjurnabel_remainder(2 * PI), 0, 0) && is_number(sjurnabel_remainder(PI), 0, PI));
    CHECK(is_number(sjurnabel_remainder(-PI), 0, -PI) && is_number(sjurnabel_remainder(9.42477796076938), 0, -PI) && is_number(sjurnabel_remainder(-9.42477796076938), 0, PI));
    CHECK(is_number(sjurnabel_remainder(4 * PI), 0, 0) && is_number(sjurnabel_remainder(1.5), 0, 1.5));
    const double far[] = {NAN, INFINITY, -INFINITY, of_bits(0x402921FB54442D19), of_bits(0xC02921FB54442D19)};
    for (int k = 0; k < 5; k++) CHECK(is_number(sjurnabel_remainder(far[k]), SJURNABEL_BAD_MARGIN, 0));
}

static void circle_made(void) {
    const sjurnabel_interval a = {-1, 1}, full = {-PI, PI}, empty = {PI, -PI};
    CHECK(gives(sjurnabel_circle_new(-PI, 1), 0, PI, 1) && gives(sjurnabel_circle_new(1, -PI), 0, 1, PI) && gives(sjurnabel_circle_new(-0.0, 1), 0, 0, 1));
    CHECK(gives(sjurnabel_circle_new(PI, -PI), 0, PI, -PI) && gives(sjurnabel_circle_new(-PI, PI), 0, -PI, PI));
    CHECK(gives(sjurnabel_circle_from_line(span(0, 1)), 0, 0, 1) && gives(sjurnabel_circle_from_line(span(-PI, 1)), SJURNABEL_BAD_CIRCLE, PI, -PI));
    CHECK(gives(sjurnabel_circle_to_line(span(1, -1)), 0, 1, -1) && gives(sjurnabel_circle_to_line(full), 0, -PI, PI));
    CHECK(gives(sjurnabel_circle_from_point_pair(3, -3), 0, 3, -3) && gives(sjurnabel_circle_from_point_pair(-3, 3), 0, 3, -3));
    CHECK(gives(sjurnabel_circle_from_point_pair(0, PI), 0, 0, PI) && gives(sjurnabel_circle_from_point_pair(PI, 0), 0, PI, 0) && gives(sjurnabel_circle_from_point_pair(-PI, -PI), 0, PI, PI));
    CHECK(gives(sjurnabel_circle_invert(span(1, 2)), 0, 2, 1) && gives(sjurnabel_circle_invert(full), 0, PI, -PI));
    CHECK(gives(sjurnabel_circle_complement(span(1, 2)), 0, 2, 1) && gives(sjurnabel_circle_complement(span(1, 1)), 0, -PI, PI) && gives(sjurnabel_circle_complement(empty), 0, -PI, PI));
    CHECK(gives(sjurnabel_circle_expanded(a, 0.5), 0, -1.5, 1.5) && gives(sjurnabel_circle_expanded(a, -0.5), 0, -0.5, 0.5) && gives(sjurnabel_circle_expanded(span(0, 0), 4), 0, -PI, PI));
    CHECK(gives(sjurnabel_circle_expanded(a, -2), 0, PI, -PI) && gives(sjurnabel_circle_expanded(empty, 4), 0, PI, -PI) && gives(sjurnabel_circle_expanded(full, -4), 0, -PI, PI));
    CHECK(gives(sjurnabel_circle_add(empty, -PI), 0, PI, PI) && gives(sjurnabel_circle_add(span(0, 1), 2), 0, 0, 2) && gives(sjurnabel_circle_add(span(0, 1), 4), SJURNABEL_BAD_POINT, 0, 1));
    CHECK(is_number(sjurnabel_circle_center(span(1, 3)), 0, 2) && is_number(sjurnabel_circle_center(span(3, -3)), 0, PI));
    CHECK(is_number(sjurnabel_circle_len(span(1, 3)), 0, 2) && is_number(sjurnabel_circle_len(empty), 0, -1) && is_number(sjurnabel_circle_len(full), 0, 2 * PI));
    CHECK(is_number(sjurnabel_circle_positive_distance(0, 1), 0, 1) && is_number(sjurnabel_circle_positive_distance(1, 0), 0, PI - (1 - PI)));
    CHECK(is_number(sjurnabel_circle_complement_center(span(0, 0)), 0, PI) && is_number(sjurnabel_circle_complement_center(span(2, 1)), 0, 1.5));
    CHECK(is_number(sjurnabel_circle_directed_hausdorff_distance(a, a), 0, 0) && is_number(sjurnabel_circle_directed_hausdorff_distance(a, empty), 0, PI) && is_number(sjurnabel_circle_directed_hausdorff_distance(empty, empty), 0, 0));
    const double points[] = {NAN, INFINITY, 4, -4, of_bits(0x400921FB54442D19)};
    for (int k = 0; k < 5; k++) {
        CHECK(gives(sjurnabel_circle_add(span(-0.0, 1), points[k]), SJURNABEL_BAD_POINT, -0.0, 1));
        CHECK(gives(sjurnabel_circle_from_point_pair(points[k], 0), SJURNABEL_BAD_POINT, PI, -PI) && gives(sjurnabel_circle_from_point_pair(0, points[k]), SJURNABEL_BAD_POINT, PI, -PI));
        CHECK(is_number(sjurnabel_circle_positive_distance(points[k], 0), SJURNABEL_BAD_POINT, 0) && is_number(sjurnabel_circle_positive_distance(0, points[k]), SJURNABEL_BAD_POINT, 0));
        CHECK(gives(sjurnabel_circle_new(points[k], 0), k < 2 ? SJURNABEL_OUT_OF_REACH : SJURNABEL_BAD_CIRCLE, PI, -PI));
    }
    const double margins[] = {NAN, INFINITY, -INFINITY, PAST, -PAST};
    for (int k = 0; k < 5; k++) CHECK(gives(sjurnabel_circle_expanded(a, margins[k]), SJURNABEL_BAD_MARGIN, PI, -PI));
}

static void circle_tested(void) {
    static sjurnabel_yes_no (*const of_one[])(sjurnabel_interval) = {sjurnabel_circle_is_valid, sjurnabel_circle_is_full, sjurnabel_circle_is_empty, sjurnabel_circle_is_inverted};
    static sjurnabel_yes_no (*const of_point[])(sjurnabel_interval, double) = {sjurnabel_circle_fast_contains, sjurnabel_circle_interior_contains};
    static sjurnabel_yes_no (*const of_two[])(sjurnabel_interval, sjurnabel_interval) = {sjurnabel_circle_interior_contains_interval, sjurnabel_circle_interior_intersects, sjurnabel_circle_eq, sjurnabel_circle_approx_eq};
    static sjurnabel_interval_answer (*const changed[])(sjurnabel_interval) = {sjurnabel_circle_from_line, sjurnabel_circle_invert, sjurnabel_circle_complement};
    static sjurnabel_number (*const measured[])(sjurnabel_interval) = {sjurnabel_circle_center, sjurnabel_circle_len, sjurnabel_circle_complement_center};
    const sjurnabel_interval a = {-1, 1}, b = {1, -1}, full = {-PI, PI}, empty = {PI, -PI};
    CHECK(says(sjurnabel_circle_is_valid(a), 0, true) && says(sjurnabel_circle_is_valid(empty), 0, true));
    CHECK(says(sjurnabel_circle_is_full(full), 0, true) && says(sjurnabel_circle_is_full(span(NEAR_NEG_PI, PI)), 0, false));
    CHECK(says(sjurnabel_circle_is_empty(empty), 0, true) && says(sjurnabel_circle_is_empty(b), 0, false));
    CHECK(says(sjurnabel_circle_is_inverted(b), 0, true) && says(sjurnabel_circle_is_inverted(a), 0, false) && says(sjurnabel_circle_is_inverted(empty), 0, true));
    CHECK(says(sjurnabel_circle_fast_contains(span(0, PI), -PI), 0, false) && says(sjurnabel_circle_fast_contains(span(0, PI), PI), 0, true));
    CHECK(says(sjurnabel_circle_interior_contains(a, 1), 0, false) && says(sjurnabel_circle_interior_contains(a, -0.0), 0, true) && says(sjurnabel_circle_interior_contains(full, -PI), 0, true));
    CHECK(says(sjurnabel_circle_interior_contains_interval(a, span(-0.5, 0.5)), 0, true) && says(sjurnabel_circle_interior_contains_interval(a, span(-1, 0)), 0, false));
    CHECK(says(sjurnabel_circle_interior_intersects(a, b), 0, false) && says(sjurnabel_circle_interior_intersects(a, span(0, 2)), 0, true));
    CHECK(says(sjurnabel_circle_eq(a, a), 0, true) && says(sjurnabel_circle_eq(a, b), 0, false) && says(sjurnabel_circle_eq(full, span(NEAR_NEG_PI, PI)), 0, false));
    CHECK(says(sjurnabel_circle_approx_eq(a, span(-1, 1 + 4e-15)), 0, true) && says(sjurnabel_circle_approx_eq(a, b), 0, false) && says(sjurnabel_circle_approx_eq(span(PI, PI), span(of_bits(0xC00921FB54442D16), of_bits(0xC00921FB54442D16))), 0, false));
    CHECK(says(sjurnabel_circle_approx_eq_by(span(0, 0), span(1, 1), 1), 0, true) && says(sjurnabel_circle_approx_eq_by(span(0, 0), span(1, 1), 0.5), 0, false) && says(sjurnabel_circle_approx_eq_by(empty, span(0, 1), 0.5), 0, false));
    for (int k = 0; k < 7; k++) {
        const int refusal = k < 3 ? SJURNABEL_OUT_OF_REACH : SJURNABEL_BAD_CIRCLE;
        const sjurnabel_interval r = bad_circle(k), o = bad_circle(k < 3 ? 3 : 0);
        for (size_t f = 0; f < sizeof of_one / sizeof *of_one; f++) CHECK(says(of_one[f](r), refusal, false));
        for (size_t f = 0; f < sizeof of_point / sizeof *of_point; f++) CHECK(says(of_point[f](r, NAN), refusal, false));
        for (size_t f = 0; f < sizeof of_two / sizeof *of_two; f++) CHECK(says(of_two[f](r, o), refusal, false) && says(of_two[f](a, r), refusal, false));
        for (size_t f = 0; f < sizeof changed / sizeof *changed; f++) CHECK(gives(changed[f](r), refusal, PI, -PI));
        for (size_t f = 0; f < sizeof measured / sizeof *measured; f++) CHECK(is_number(measured[f](r), refusal, 0));
        CHECK(gives(sjurnabel_circle_to_line(r), refusal, 1, 0) && gives(sjurnabel_circle_expanded(r, NAN), refusal, PI, -PI) && gives(sjurnabel_circle_add(r, NAN), refusal, PI, -PI));
        CHECK(is_number(sjurnabel_circle_directed_hausdorff_distance(r, o), refusal, 0) && is_number(sjurnabel_circle_directed_hausdorff_distance(a, r), refusal, 0));
        CHECK(says(sjurnabel_circle_approx_eq_by(r, o, NAN), refusal, false) && says(sjurnabel_circle_approx_eq_by(a, r, NAN), refusal, false));
    }
    const double points[] = {NAN, INFINITY, 4, -4, of_bits(0x400921FB54442D19)}, errors[] = {NAN, INFINITY, PAST};
    for (int k = 0; k < 5; k++) for (size_t f = 0; f < sizeof of_point / sizeof *of_point; f++) CHECK(says(of_point[f](a, points[k]), SJURNABEL_BAD_POINT, false));
    for (int k = 0; k < 3; k++) CHECK(says(sjurnabel_circle_approx_eq_by(a, a, errors[k]), SJURNABEL_BAD_MARGIN, false));
}

/* ---- what the header says of rounding, and of -PI ---- */
static void rounded(void) {
    const double tiny = of_bits(0x3CA0000000000000), least = of_bits(1); /* 2^-53 and 2^-1074 */
    const double p = of_bits(0xC004EAB490913EB9), q = of_bits(0x3FE0DD1B0ECBB97E);
    const sjurnabel_interval seam = {PI, PI}, wrapped = {PI, NEAR_NEG_PI};
    /* two points: east from the first where that rounds to PI at most, even where the way back is rounded to less */
    CHECK(is_number(sjurnabel_circle_positive_distance(p, q), 0, PI) && sjurnabel_circle_positive_distance(q, p).value < PI);
    CHECK(gives(sjurnabel_circle_from_point_pair(p, q), 0, p, q) && gives(sjurnabel_circle_add(span(p, p), q), 0, q, p));
    /* both ways from PI to 2^-53 round to PI, and the one taken is the longer */
    CHECK(is_number(sjurnabel_circle_positive_distance(PI, tiny), 0, PI) && is_number(sjurnabel_circle_positive_distance(tiny, PI), 0, PI));
    CHECK(gives(sjurnabel_circle_from_point_pair(PI, tiny), 0, PI, tiny) && gives(sjurnabel_circle_from_point_pair(tiny, PI), 0, tiny, PI));
    CHECK(gives(sjurnabel_circle_add(seam, tiny), 0, PI, tiny) && gives(sjurnabel_circle_union(seam, span(tiny, tiny)), 0, PI, tiny));
    CHECK(answers(sjurnabel_rect_from_point_pair(at(1, PI), at(0, tiny)), 0, rect(0, 1, PI, tiny)) && answers(sjurnabel_rect_add(rect(0, 0, PI, PI), at(0, tiny)), 0, rect(0, 0, PI, tiny)));
    /* growth to the nearer side, and east where both are equally near */
    CHECK(gives(sjurnabel_circle_add(span(0, 0), PI), 0, 0, PI) && gives(sjurnabel_circle_add(span(0, 0), -3), 0, -3, 0) && gives(sjurnabel_circle_add(span(1, 1), -PI), 0, 1, PI));
    CHECK(is_number(sjurnabel_circle_positive_distance(-PI, PI), 0, 2 * PI) && is_number(sjurnabel_circle_positive_distance(PI, -PI), 0, 0));
    /* lengths of -1 and of 2 PI */
    CHECK(is_number(sjurnabel_circle_len(wrapped), 0, -1) && says(sjurnabel_circle_is_empty(wrapped), 0, false) && is_point(sjurnabel_rect_size(rect(0, 1, PI, NEAR_NEG_PI)), 0, 1, -1));
    CHECK(is_number(sjurnabel_circle_len(span(0, -least)), 0, 2 * PI) && says(sjurnabel_circle_is_full(span(0, -least)), 0, false));
    /* margins: full or empty but for a rounding error; what is shrunk to almost full; what is widened and not held */
    CHECK(gives(sjurnabel_circle_expanded(span(0, 0), of_bits(0x400921FB54442D17)), 0, -PI, PI) && gives(sjurnabel_circle_expanded(span(0, 1), -0.5 + 1e-16), 0, PI, -PI));
    CHECK(gives(sjurnabel_circle_expanded(span(of_bits(0x4002E9E32C698EDA), of_bits(0x3FD21ECC0C7F87E5)), of_bits(0xC000CEF67ED75E29)), 0, of_bits(0xBFFD1639FA8EDA58), of_bits(0xBFFD1639FA8EDA59)));
    CHECK(says(sjurnabel_circle_contains_interval(sjurnabel_circle_expanded(wrapped, 3.2).value, wrapped), 0, false));
    CHECK(says(sjurnabel_circle_contains_interval(sjurnabel_circle_expanded(wrapped, 3.1).value, wrapped), 0, true) && says(sjurnabel_circle_contains_interval(sjurnabel_circle_expanded(wrapped, 3.7).value, wrapped), 0, true));
    /* a single longitude may be -PI */
    CHECK(is_number(sjurnabel_circle_center(span(of_bits(0x000012688B70E62B), 0)), 0, -PI) && is_point(sjurnabel_rect_lo(FULL), 0, -HALF_PI, -PI));
    /* the approximate test: ends and lengths; an empty one first, then a full one; the 180th meridian */
    CHECK(says(sjurnabel_circle_approx_eq(span(0, 0), span(1e-15, 0)), 0, false) && says(sjurnabel_circle_approx_eq(span(0, 0), span(0, 1e-15)), 0, true));
    CHECK(says(sjurnabel_circle_approx_eq(span(PI, -PI), span(1, 1 + 1e-14)), 0, true) && says(sjurnabel_circle_approx_eq(span(PI, -PI), span(1, 1 + 3e-14)), 0, false));
    CHECK(says(sjurnabel_circle_approx_eq(span(-PI, PI), span(1e-14, 0)), 0, true) && says(sjurnabel_circle_approx_eq(span(-PI, PI), span(3e-14, 0)), 0, false));
    CHECK(says(sjurnabel_circle_approx_eq_by(span(PI, -PI), span(-PI, PI), PI), 0, false) && says(sjurnabel_circle_approx_eq_by(span(PI, -PI), span(-PI, PI), 3.15), 0, true));
    CHECK(says(sjurnabel_circle_approx_eq(seam, span(NEAR_NEG_PI, NEAR_NEG_PI)), 0, true) && says(sjurnabel_circle_approx_eq(seam, span(of_bits(0xC00921FB54442D16), of_bits(0xC00921FB54442D16))), 0, false));
}

/* ---- the line ---- */
static bool is_distance(sjurnabel_distance a, int refusal, bool unbounded, double x) { return a.refusal == refusal && a.unbounded == unbounded && same(a.value, x); }

static void line(void) {
    const sjurnabel_interval a = {0, 1}, b = {1, 2}, none = {2, 1};
    CHECK(gives(sjurnabel_line_new(2, 1), 0, 2, 1) && gives(sjurnabel_line_new(-0.0, REACH), 0, 0, REACH) && gives(sjurnabel_line_from_point(-0.0), 0, 0, 0));
    CHECK(gives(sjurnabel_line_from_point_pair(2, 1), 0, 1, 2) && gives(sjurnabel_line_from_point_pair(1, 2), 0, 1, 2));
    CHECK(says(sjurnabel_line_is_empty(none), 0, true) && says(sjurnabel_line_is_empty(span(0, 0)), 0, false));
    CHECK(is_number(sjurnabel_line_center(a), 0, 0.5) && is_number(sjurnabel_line_len(b), 0, 1) && is_number(sjurnabel_line_len(none), 0, -1));
    CHECK(says(sjurnabel_line_contains(a, 1), 0, true) && says(sjurnabel_line_contains(a, 2), 0, false));
    CHECK(says(sjurnabel_line_contains_interval(a, none), 0, true) && says(sjurnabel_line_contains_interval(a, span(0, 2)), 0, false));
    CHECK(says(sjurnabel_line_interior_contains(a, 0.5), 0, true) && says(sjurnabel_line_interior_contains(a, 1), 0, false));
    CHECK(says(sjurnabel_line_interior_contains_interval(span(0, 2), span(0.5, 1)), 0, true) && says(sjurnabel_line_interior_contains_interval(span(0, 2), a), 0, false));
    CHECK(says(sjurnabel_line_intersects(a, b), 0, true) && says(sjurnabel_line_intersects(span(0, 3), none), 0, false));
    CHECK(says(sjurnabel_line_interior_intersects(a, b), 0, false) && says(sjurnabel_line_interior_intersects(a, span(0.5, 0.5)), 0, true));
    CHECK(says(sjurnabel_line_eq(none, span(1, 0)), 0, true) && says(sjurnabel_line_eq(a, b), 0, false));
    CHECK(says(sjurnabel_line_approx_eq(span(0, 0), span(5e-15, 5e-15)), 0, true) && says(sjurnabel_line_approx_eq(a, b), 0, false));
    CHECK(says(sjurnabel_line_approx_eq_by(span(0, 0), span(1, 1), 1), 0, true) && says(sjurnabel_line_approx_eq_by(span(1, 0), a, 0.5), 0, false));
    CHECK(gives(sjurnabel_line_union(a, span(2, 3)), 0, 0, 3) && gives(sjurnabel_line_union(span(1, 0), span(2, 3)), 0, 2, 3));
    CHECK(gives(sjurnabel_line_intersection(span(0, 2), span(1, 3)), 0, 1, 2) && gives(sjurnabel_line_intersection(a, span(2, 3)), 0, 2, 1));
    CHECK(gives(sjurnabel_line_expanded(a, 1), 0, -1, 2) && gives(sjurnabel_line_expanded(a, -1), 0, 1, 0) && gives(sjurnabel_line_expanded(none, 9), 0, 2, 1));
    CHECK(gives(sjurnabel_line_add(a, 3), 0, 0, 3) && gives(sjurnabel_line_add(none, 3), 0, 3, 3));
    CHECK(is_number(sjurnabel_line_clamp_point(a, 2), 0, 1) && is_number(sjurnabel_line_clamp_point(a, 0.5), 0, 0.5) && is_number(sjurnabel_line_clamp_point(none, 9), 0, 2));
    CHECK(is_distance(sjurnabel_line_directed_hausdorff_distance(span(0, 3), a), 0, false, 2) && is_distance(sjurnabel_line_directed_hausdorff_distance(a, span(0, 3)), 0, false, 0));
    CHECK(is_distance(sjurnabel_line_directed_hausdorff_distance(a, none), 0, true, INFINITY) && is_distance(sjurnabel_line_directed_hausdorff_distance(none, none), 0, false, 0));
}

static void line_refused(void) {
    static sjurnabel_yes_no (*const of_point[])(sjurnabel_interval, double) = {sjurnabel_line_contains, sjurnabel_line_interior_contains};
    static sjurnabel_yes_no (*const of_two[])(sjurnabel_interval, sjurnabel_interval) = {sjurnabel_line_contains_interval, sjurnabel_line_interior_contains_interval, sjurnabel_line_intersects, sjurnabel_line_interior_intersects, sjurnabel_line_eq, sjurnabel_line_approx_eq};
    static sjurnabel_interval_answer (*const joined[])(sjurnabel_interval, sjurnabel_interval) = {sjurnabel_line_union, sjurnabel_line_intersection};
    static const double out_of_reach[] = {NAN, INFINITY, -INFINITY};
    const sjurnabel_interval a = {-0.0, 1};
    for (int k = 0; k < 5; k++) {
        const double x = k < 3 ? out_of_reach[k] : k == 3 ? PAST : -PAST;
        const sjurnabel_interval r = k % 2 ? span(0, x) : span(x, 0);
        CHECK(gives(sjurnabel_line_new(x, 0), SJURNABEL_OUT_OF_REACH, 1, 0) && gives(sjurnabel_line_new(0, x), SJURNABEL_OUT_OF_REACH, 1, 0));
        CHECK(gives(sjurnabel_line_from_point(x), SJURNABEL_BAD_POINT, 1, 0) && gives(sjurnabel_line_from_point_pair(x, 0), SJURNABEL_BAD_POINT, 1, 0) && gives(sjurnabel_line_from_point_pair(0, x), SJURNABEL_BAD_POINT, 1, 0));
        CHECK(says(sjurnabel_line_is_empty(r), SJURNABEL_OUT_OF_REACH, false) && is_number(sjurnabel_line_center(r), SJURNABEL_OUT_OF_REACH, 0) && is_number(sjurnabel_line_len(r), SJURNABEL_OUT_OF_REACH, 0));
        for (size_t f = 0; f < sizeof of_point / sizeof *of_point; f++) CHECK(says(of_point[f](r, NAN), SJURNABEL_OUT_OF_REACH, false) && says(of_point[f](a, x), SJURNABEL_BAD_POINT, false));
        for (size_t f = 0; f < sizeof of_two / sizeof *of_two; f++) CHECK(says(of_two[f](r, a), SJURNABEL_OUT_OF_REACH, false) && says(of_two[f](a, r), SJURNABEL_OUT_OF_REACH, false));
        for (size_t f = 0; f < sizeof joined / sizeof *joined; f++) CHECK(gives(joined[f](r, a), SJURNABEL_OUT_OF_REACH, 1, 0) && gives(joined[f](a, r), SJURNABEL_OUT_OF_REACH, 1, 0));
        CHECK(says(sjurnabel_line_approx_eq_by(r, a, NAN), SJURNABEL_OUT_OF_REACH, false) && says(sjurnabel_line_approx_eq_by(a, r, NAN), SJURNABEL_OUT_OF_REACH, false) && says(sjurnabel_line_approx_eq_by(a, a, x), SJURNABEL_BAD_MARGIN, false));
        CHECK(gives(sjurnabel_line_expanded(r, NAN), SJURNABEL_OUT_OF_REACH, 1, 0) && gives(sjurnabel_line_expanded(a, x), SJURNABEL_BAD_MARGIN, 1, 0));
        CHECK(gives(sjurnabel_line_add(r, NAN), SJURNABEL_OUT_OF_REACH, 1, 0) && gives(sjurnabel_line_add(a, x), SJURNABEL_BAD_POINT, -0.0, 1));
        CHECK(is_number(sjurnabel_line_clamp_point(r, NAN), SJURNABEL_OUT_OF_REACH, 0) && is_number(sjurnabel_line_clamp_point(a, x), SJURNABEL_BAD_POINT, 0));
        CHECK(is_distance(sjurnabel_line_directed_hausdorff_distance(r, span(1, 0)), SJURNABEL_OUT_OF_REACH, false, 0) && is_distance(sjurnabel_line_directed_hausdorff_distance(a, r), SJURNABEL_OUT_OF_REACH, false, 0));
    }
}

/* ---- GeoJSON ---- */
static sjurnabel_bounds box(int64_t west, int64_t south, int64_t east, int64_t north) { sjurnabel_bounds b = {west, south, east, north}; return b; }
static bool same_box(sjurnabel_bounds a, sjurnabel_bounds b) { return a.west == b.west && a.south == b.south && a.east == b.east && a.north == b.north; }
static bool reads(const char *text, size_t n, int refusal, sjurnabel_bounds b) {
    sjurnabel_bounds_answer a = sjurnabel_bbox_read(text, n);
    return a.refusal == refusal && same_box(a.value, b);
}
static bool read_as(const char *text, sjurnabel_bounds b) { return reads(text, strlen(text), 0, b); }
static bool unread(const char *text, int refusal) { return reads(text, strlen(text), refusal, box(0, 0, 0, 0)); }
/* the text, its length, and nothing but zeros after it */
static bool writes(sjurnabel_bounds b, int refusal, const char *text) {
    sjurnabel_text a = sjurnabel_bbox_write(b);
    for (size_t i = a.length; i < sizeof a.text; i++) if (a.text[i]) return false;
    return a.refusal == refusal && a.length == strlen(text) && a.length < sizeof a.text && !strcmp(a.text, text);
}
static bool written_as(sjurnabel_bounds b, const char *text) { return writes(b, 0, text) && read_as(text, b); }

#define DEGREE 10000000
static void geojson(void) {
    CHECK(read_as("[180,0,-180,1]", box(180 * (int64_t)DEGREE, 0, 180 * (int64_t)DEGREE, DEGREE)));
    CHECK(read_as(" [ -100 ,\t40.5 ,\r\n100 , 60.0000001 ] ", box(-100 * DEGREE, 405000000, 100 * DEGREE, 600000001)));
    CHECK(read_as("[-0,-0.0,0.0000000,-0]", box(0, 0, 0, 0)) && read_as("[-180,-90,180.0,90]", box(-1800000000, -900000000, 1800000000, 900000000)));
    CHECK(reads("[1,2,3,4]]", 9, 0, box(DEGREE, 2 * DEGREE, 3 * DEGREE, 4 * DEGREE)) && reads("[1,2,3,4]]", 10, SJURNABEL_BAD_TEXT, box(0, 0, 0, 0)));
    CHECK(reads("[1,2,3,4]", 0, SJURNABEL_BAD_TEXT, box(0, 0, 0, 0)) && reads("[1,2,3,4]", 10, SJURNABEL_BAD_TEXT, box(0, 0, 0, 0)));
    static const char *const bad_texts[] = {"", "[]", "[1,2,3]", "[1,2,3,4,5]", "1,2,3,4", "[01,0,0,0]", "[1.,0,0,0]", "[.5,0,0,0]", "[+1,0,0,0]", "[1e1,0,0,0]", "[1.12345678,0,0,0]", "[1000,0,0,0]", "[- 1,0,0,0]", "[0,91,0,0", "[0,0,0,0] x", "[0 0,0,0]", "[--1,0,0,0]", "\xEF\xBB\xBF[0,0,0,0]"};
    for (size_t k = 0; k < sizeof bad_texts / sizeof *bad_texts; k++) CHECK(unread(bad_texts[k], SJURNABEL_BAD_TEXT));
    static const char *const bad_boxes[] = {"[180.0000001,0,0,0]", "[0,0,-180.0000001,0]", "[0,-90.0000001,0,0]", "[0,0,0,90.0000001]", "[0,1,0,0]", "[999,0,0,0]"};
    for (size_t k = 0; k < sizeof bad_boxes / sizeof *bad_boxes; k++) CHECK(unread(bad_boxes[k], SJURNABEL_BAD_BOX));

    CHECK(written_as(box(0, 0, 0, 0), "[0,0,0,0]") && written_as(box(-1800000000, -1, 1800000000, 900000000), "[-180,-0.0000001,180,90]"));
    CHECK(written_as(box(5000000, -5000000, 1, 10), "[0.5,-0.5,0.0000001,0.000001]") && written_as(box(-1000000000, 450000000, -800000000, 600000000), "[-100,45,-80,60]"));
    CHECK(written_as(box(-1799999999, -899999999, -1799999999, -899999999), "[-179.9999999,-89.9999999,-179.9999999,-89.9999999]"));
    const sjurnabel_bounds refused[] = {{1800000001, 0, 0, 0}, {0, 0, -1800000001, 0}, {0, -900000001, 0, 0}, {0, 0, 0, 900000001}, {0, 1, 0, 0}, {-1800000000, 0, 0, 0}, {0, 0, -1800000000, 0}, {INT64_MIN, 0, 0, 0}, {0, 0, 0, INT64_MAX}};
    for (size_t k = 0; k < sizeof refused / sizeof *refused; k++) CHECK(writes(refused[k], SJURNABEL_BAD_BOX, "") && answers(sjurnabel_bbox_rect(refused[k]), SJURNABEL_BAD_BOX, EMPTY));

    CHECK(answers(sjurnabel_bbox_rect(box(-1800000000, -900000000, 1800000000, 900000000)), 0, FULL));
    CHECK(answers(sjurnabel_bbox_rect(box(0, 0, 1800000000, 900000000)), 0, rect(0, HALF_PI, 0, PI)) && answers(sjurnabel_bbox_rect(box(1800000000, 0, 1800000000, 0)), 0, rect(0, 0, PI, PI)));
    CHECK(answers(sjurnabel_bbox_rect(box(900000000, -900000000, -900000000, 0)), 0, rect(-HALF_PI, 0, HALF_PI, -HALF_PI)));
}

/* ---- the version, the texts and the constants ---- */
static void version(void) {
    char numbers[40];
    snprintf(numbers, sizeof numbers, "%d.%d.%d", SJURNABEL_VERSION_MAJOR, SJURNABEL_VERSION_MINOR, SJURNABEL_VERSION_PATCH);
    CHECK(!strcmp(SJURNABEL_VERSION, numbers));
    CHECK(!strcmp(sjurnabel_version(), SJURNABEL_VERSION) && sjurnabel_version() == sjurnabel_version());
}

/* short, of one line, and fit to follow a colon */
static bool is_text(const char *t) { return t && strlen(t) > 5 && strlen(t) < 60 && !strpbrk(t, "\n\t%.") && t[0] >= 'a' && t[0] <= 'z'; }

static void texts(void) {
    static const int numbers[] = {SJURNABEL_ACCEPTED, SJURNABEL_OUT_OF_REACH, SJURNABEL_BAD_POINT, SJURNABEL_BAD_MARGIN, SJURNABEL_BAD_LIST, SJURNABEL_NO_ROOM, SJURNABEL_BAD_RECORD, SJURNABEL_BAD_TEXT, SJURNABEL_BAD_BOX, SJURNABEL_BAD_LATITUDE, SJURNABEL_BAD_CIRCLE, SJURNABEL_HALF_EMPTY};
    static const int expected[] = {0, 1, 3, 4, 5, 6, 7, 8, 9, 21, 22, 23};
    const size_t count = sizeof numbers / sizeof *numbers;
    const char *const none = sjurnabel_refusal_text(2);
    CHECK(count == sizeof expected / sizeof *expected && is_text(none));
    for (size_t i = 0; i < count; i++) {
        const char *const text = sjurnabel_refusal_text(numbers[i]);
        CHECK(numbers[i] == expected[i] && is_text(text) && strcmp(text, none) && text == sjurnabel_refusal_text(numbers[i]));
        for (size_t j = 0; j < i; j++) CHECK(strcmp(text, sjurnabel_refusal_text(numbers[j])));
    }
    /* every other number says the same: all that a byte can be, and far ones */
    for (int n = -300; n <= 300; n++) {
        bool known = false;
        for (size_t i = 0; i < count; i++) if (numbers[i] == n) known = true;
        if (!known) CHECK(!strcmp(sjurnabel_refusal_text(n), none));
    }
    static const int far[] = {INT_MIN, INT_MAX, 256 + 22, 1 << 30};
    for (size_t i = 0; i < sizeof far / sizeof *far; i++) CHECK(!strcmp(sjurnabel_refusal_text(far[i]), none));
}

/* against the library's own answers */
static void constants(void) {
    static sjurnabel_rect empty = SJURNABEL_EMPTY_RECT_INIT, full = SJURNABEL_FULL_RECT_INIT;
    double none = NAN;
    CHECK(bits(SJURNABEL_PI) == 0x400921FB54442D18 && same(SJURNABEL_PI, PI) && same(SJURNABEL_PI / 2, HALF_PI));
    CHECK(same_rect(SJURNABEL_EMPTY_RECT, EMPTY) && same_rect(SJURNABEL_FULL_RECT, FULL) && same_rect(empty, EMPTY) && same_rect(full, FULL));
    CHECK(says(sjurnabel_rect_is_empty(SJURNABEL_EMPTY_RECT), 0, true) && says(sjurnabel_rect_is_full(SJURNABEL_EMPTY_RECT), 0, false));
    CHECK(says(sjurnabel_rect_is_full(SJURNABEL_FULL_RECT), 0, true) && says(sjurnabel_rect_is_empty(SJURNABEL_FULL_RECT), 0, false));
    CHECK(answers(sjurnabel_rect_union(bad(0, 0), FULL), SJURNABEL_OUT_OF_REACH, SJURNABEL_EMPTY_RECT));
    CHECK(answers(sjurnabel_rect_expanded(rect(0, 0, 0, 0), at(-1, -1)), 0, SJURNABEL_EMPTY_RECT));
    CHECK(answers(sjurnabel_rect_union(rect(-HALF_PI, 0, 0, PI), rect(0, HALF_PI, PI, 0)), 0, SJURNABEL_FULL_RECT));
    CHECK(lists(common(&none, 0, 4), 1) && !memcmp(out + 1, &SJURNABEL_FULL_RECT, sizeof SJURNABEL_FULL_RECT));
    CHECK(lists(common(&SJURNABEL_EMPTY_RECT.lat.lo, 4, 0), 0) && lists(common(&SJURNABEL_FULL_RECT.lat.lo, 4, 4), 1));
    /* a seam of PI: the point -PI is the point PI */
    CHECK(answers(sjurnabel_rect_from_latlng(at(0, -SJURNABEL_PI)), 0, rect(0, 0, SJURNABEL_PI, SJURNABEL_PI)));
    /* a running box starts as the empty one */
    CHECK(by_point(SJURNABEL_EMPTY_RECT, 1, 2) == 0 && left(rect(1, 1, 2, 2)));
}

int main(void) {
    version();
    texts();
    constants();
    common_region();
    entries();
    growth();
    running();
    scan();
    rectangles();
    rectangles_made();
    rectangles_tested();
    circle();
    circle_made();
    circle_tested();
    rounded();
    line();
    line_refused();
    geojson();
    printf("%d passed, %d failed\n", passed, failed);
    return failed != 0;
}
