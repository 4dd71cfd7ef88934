/* SPDX-License-Identifier: Apache-2.0
 *
 * Sjurnabel: intervals and latitude-longitude rectangles, proved.
 *
 * The one operation to know: sjurnabel_common_region lists exactly what zones have in common. Two wide zones
 * can meet at both ends; then that is two boxes, and the single box of sjurnabel_rect_intersection covers far
 * more. Who rewrites "in A and in B" wants the list.
 *
 * NUMBERS. Angles are radians, in doubles. Latitudes go from -PI/2 to PI/2, longitudes from -PI to PI, east
 * positive; PI is the double 3.141592653589793. Negative zero that comes in is read as zero, and an accepted
 * answer has no negative zero, but for a running box of which no call was accepted (sjurnabel_running). A number
 * is "in reach" if it is no NaN and of size at most 2 to the power 500.
 * Comparisons are exact. Lengths, distances, middles, margins and radians are computed in doubles, each sum,
 * difference, product and quotient rounded once; the remainder is exact.
 *
 * INTERVALS AND RECTANGLES are closed: their ends belong to them. A longitude interval goes east from lo to hi,
 * so lo > hi means that it crosses the 180th meridian or starts there. {-PI, PI} is the full circle, {PI, -PI} is
 * empty. It is valid if both ends are of size at most PI, lo is -PI in the full circle only, and hi is -PI in the
 * empty one only: the 180th meridian is written PI. (An answer that is a single longitude may be -PI.) A rectangle
 * is valid if lat.lo is from -PI/2 to PI/2, lat.hi at most PI/2, lng valid, and both lat (lat.lo > lat.hi) and lng
 * empty or neither. The standard empty rectangle is {{1, 0}, {PI, -PI}}, the full one {{-PI/2, PI/2}, {-PI, PI}}. A
 * point is valid if its latitude is of size at most PI/2 and its longitude of size at most PI; longitude -PI is the
 * same place as PI. An interval of the line (sjurnabel_line_..) is any two numbers in reach, as latitudes are; it is
 * empty if lo > hi, and its standard empty one is {1, 0}. The inside of an interval or a rectangle is it without its
 * ends or edges: the full circle has no ends, and a pole is an edge.
 *
 * ANSWERS come by value, the refusal number first: 0, or why there is no answer (enum sjurnabel_refusal, and in words
 * sjurnabel_refusal_text). Every number is allowed, NaN and infinity too; what a pointer must be is said below.
 * Nothing aborts, nothing sets errno, nothing is allocated. What stands beside a refusal number is determined as
 * well, and said with each function. The bytes between members have no meaning: compare members, not memory.
 *
 * ENVIRONMENT. All that is said here holds where the calling thread's floating-point environment is the one that a
 * process starts with: it rounds to nearest, subnormal numbers are neither flushed to zero nor read as zero, and
 * every exception is masked. Flags may be raised. Each thread has its own, and may lose it to fesetround, to
 * feenableexcept, or to a library built with fast-math, which may set flushing as it is loaded. Then, for instance,
 * an accepted answer can have a negative zero (rounding downward), a point outside a rectangle be said to lie in it
 * (subnormals read as zero), and a NaN in a list end the process (invalid operations not masked).
 * sjurnabel_environment tells whether the calling thread has what is needed.
 *
 * POINTERS AND LENGTHS. A list is a pointer to doubles and how many doubles there are, not how many records:
 * four a rectangle, in the order lat.lo, lat.hi, lng.lo, lng.hi; two a point, latitude, longitude. An array z of
 * n sjurnabel_rect is such a list: pass &z[0].lat.lo and 4 * n. A pointer must not be null and must be aligned
 * for a double, even where the length is 0: for an empty list pass the address of any double, and 0. That many
 * doubles must be readable there (of out: writable too), and no other thread may change them during the call.
 * What is written (out, box) must not overlap what is read (list, points). A text to be read is a pointer to bytes
 * and how many there are; no zero has to end it. The same holds of it, but for the alignment.
 *
 * WHAT IS WRITTEN. Of the caller's memory only the pieces at the start of out, and the box of the scan worker.
 * On a refusal neither is touched: every bit stays. A text is written into the answer, which comes by value. No
 * function keeps a pointer.
 *
 * THREADS. There is no state: any function may be called from any number of threads at once, as long as what one
 * call writes is not read or written by another. The largest need of stack is that of sjurnabel_common_region, about
 * 26 kB; every other function needs less than 1 kB.
 *
 * VERSIONS. A change that callers must know, of a layout or of what an answer means, raises the major number and with
 * it the shared object's name, libsjurnabel.so.MAJOR: a program starts only with a library of the major number that it
 * was linked with. An addition raises the minor number, anything else the patch.
 *
 * The calling convention and the layouts are those of x86-64 Linux. The library needs no other than the C library.
 */
#ifndef SJURNABEL_H
#define SJURNABEL_H

#include <stdbool.h>
#include <stddef.h>
#include <stdint.h>

#ifdef __cplusplus
extern "C" {
#endif

/* The version of this header, by VERSIONS above: as numbers, and as the text that sjurnabel_version answers where the
 * library that is linked is of the same version. */
#define SJURNABEL_VERSION_MAJOR 0
#define SJURNABEL_VERSION_MINOR 2
#define SJURNABEL_VERSION_PATCH 0
#define SJURNABEL_VERSION "0.2.0"

/* The version of the library that is linked: a text of static storage. */
const char *sjurnabel_version(void);

/* Why something is refused. Where several hold, the one given is the first of: 5; then 1, 21, 22 and 23, operands from
 * left to right and lists from their first record, in this order in each; 3; 4; 6. The GeoJSON functions alone give 8
 * and 9, 8 before 9, and nothing else. (There is no 2: 21, 22 and 23 are its parts.) */
enum sjurnabel_refusal {
    SJURNABEL_ACCEPTED = 0,      /* the answer stands */
    SJURNABEL_OUT_OF_REACH = 1,  /* a rectangle or an interval has a number out of reach */
    SJURNABEL_BAD_POINT = 3,     /* a point is not valid */
    SJURNABEL_BAD_MARGIN = 4,    /* a margin, size or error is out of reach; a remainder's x is NaN or beyond 4 PI */
    SJURNABEL_BAD_LIST = 5,      /* a list's length is no multiple of its record, or over the limit */
    SJURNABEL_NO_ROOM = 6,       /* out has fewer than four doubles a piece */
    SJURNABEL_BAD_RECORD = 7,    /* a stream is not made of whole records: only programs give it, no function here */
    SJURNABEL_BAD_TEXT = 8,      /* a text is no bbox array */
    SJURNABEL_BAD_BOX = 9,       /* a GeoJSON box is out of range, or none that reading gives */
    SJURNABEL_BAD_LATITUDE = 21, /* a rectangle's lat.lo is of size over PI/2, or its lat.hi is over PI/2 */
    SJURNABEL_BAD_CIRCLE = 22,   /* a circle interval, or a rectangle's lng, is not valid */
    SJURNABEL_HALF_EMPTY = 23    /* of a rectangle's lat and lng one is empty and the other is not */
};

/* What a number of the enum means, in a few English words; of any other number, that it is no refusal number. It is a
 * text of static storage, and never null. */
const char *sjurnabel_refusal_text(int n);

/* The most records of a list. */
#define SJURNABEL_MOST_RECTS 512
#define SJURNABEL_MOST_POINTS 4096

/* ---- what goes in ---- */

typedef struct sjurnabel_interval {
    double lo;
    double hi;
} sjurnabel_interval;

typedef struct sjurnabel_rect {
    sjurnabel_interval lat;
    sjurnabel_interval lng;
} sjurnabel_rect;

/* A point; or margins, sizes or errors, one for the latitudes and one for the longitudes. */
typedef struct sjurnabel_latlng {
    double lat;
    double lng;
} sjurnabel_latlng;

/* A GeoJSON box: whole ten-millionths of a degree, so that 1800000000 is 180 degrees. */
typedef struct sjurnabel_bounds {
    int64_t west;
    int64_t south;
    int64_t east;
    int64_t north;
} sjurnabel_bounds;

/* PI, which is the 180th meridian; the standard empty rectangle, and the full one. These two are objects: they can be
 * passed, copied and pointed to. Where C wants a constant, as a static object's first value must be, an object is
 * none: the names that end in _INIT stand there. */
#define SJURNABEL_PI 3.141592653589793
#define SJURNABEL_EMPTY_RECT_INIT {{1, 0}, {SJURNABEL_PI, -SJURNABEL_PI}}
#define SJURNABEL_FULL_RECT_INIT {{-SJURNABEL_PI / 2, SJURNABEL_PI / 2}, {-SJURNABEL_PI, SJURNABEL_PI}}
static const sjurnabel_rect SJURNABEL_EMPTY_RECT = SJURNABEL_EMPTY_RECT_INIT;
static const sjurnabel_rect SJURNABEL_FULL_RECT = SJURNABEL_FULL_RECT_INIT;

/* ---- what comes out; sizes in bytes, and where a member starts ---- */

/* 1: refusal 0 */
typedef struct sjurnabel_refused {
    uint8_t refusal;
} sjurnabel_refused;

/* 2: refusal 0, value 1. A refused test says false. */
typedef struct sjurnabel_yes_no {
    uint8_t refusal;
    bool value;
} sjurnabel_yes_no;

/* 16: refusal 0, value 8. A refused number is 0. */
typedef struct sjurnabel_number {
    uint8_t refusal;
    double value;
} sjurnabel_number;

/* 24: refusal 0, value 8. A refused interval is the empty one, {PI, -PI} of the circle and {1, 0} of the line, but
 * for the two _add under 3. */
typedef struct sjurnabel_interval_answer {
    uint8_t refusal;
    sjurnabel_interval value;
} sjurnabel_interval_answer;

/* 40: refusal 0, value 8. A refused rectangle is the standard empty one, but for sjurnabel_grow under 3 and 5 and
 * sjurnabel_rect_add under 3. */
typedef struct sjurnabel_rect_answer {
    uint8_t refusal;
    sjurnabel_rect value;
} sjurnabel_rect_answer;

/* 24: refusal 0, value 8. A refused point or size is two zeros. */
typedef struct sjurnabel_latlng_answer {
    uint8_t refusal;
    sjurnabel_latlng value;
} sjurnabel_latlng_answer;

/* 16: refusal 0, unbounded 1, value 8. Where unbounded is true the value is infinity. A refused distance is 0. */
typedef struct sjurnabel_distance {
    uint8_t refusal;
    bool unbounded;
    double value;
} sjurnabel_distance;

/* 24: refusal 0, count 8, entry 16. Under a refusal the count is 0. Beside 1, 21, 22 and 23 the entry is the number,
 * from zero, of the first rectangle of the list that is refused, and the refusal is that rectangle's. Beside any other
 * number, 0 too, the entry is 0 and means nothing. */
typedef struct sjurnabel_pieces {
    uint8_t refusal;
    size_t count;
    size_t entry;
} sjurnabel_pieces;

/* 48: refusal 0, accepted 8, value 16. accepted says how many calls were; a refusal is of the start or of the list's
 * length, no call was made then, and accepted is 0. */
typedef struct sjurnabel_running_answer {
    uint8_t refusal;
    size_t accepted;
    sjurnabel_rect value;
} sjurnabel_running_answer;

/* 40: refusal 0, value 8. A refused box is four zeros. */
typedef struct sjurnabel_bounds_answer {
    uint8_t refusal;
    sjurnabel_bounds value;
} sjurnabel_bounds_answer;

/* 72: refusal 0, length 8, text 16. The bytes after the first length ones are zero, and there is one at least, so
 * that text is a C string. A refused text has length 0. */
typedef struct sjurnabel_text {
    uint8_t refusal;
    size_t length;
    char text[52];
} sjurnabel_text;

/* ---- lists ---- */

/* Lists the places that all rectangles of the list have in common, exactly these, as rectangles. They
 * go to the start of out, four doubles each, in rising order of lng.lo; each has the common latitudes, no two can
 * be joined, and count says how many. Doubles of out after the last piece stay as they are. No rectangle at all
 * gives the full one, once; with n rectangles there are at most n pieces, so that out_length = 4 * n (4 for an
 * empty list) is always enough. At most 512 rectangles.
 * Refusals: 5; 1, 21, 22, 23, with the entry; 6. Each time out is untouched. */
sjurnabel_pieces sjurnabel_common_region(const double *list, size_t list_length, double *out, size_t out_length);

/* The rectangle grown by every point of the list, from the first to the last: it holds the rectangle and each
 * point. Longitudes grow as sjurnabel_circle_add says. At most 4,096 points. One bad point refuses the whole list.
 * Refusals: 5 and 3, with the rectangle as it was handed in; 1, 21, 22 and 23, with the standard empty one. */
sjurnabel_rect_answer sjurnabel_grow(sjurnabel_rect a, const double *points, size_t points_length);

/* The running box that starts as a, after a call with each point of the list: a good point enlarges it as
 * sjurnabel_rect_add does, a bad one changes nothing, and accepted says how many were good. What the box once held
 * it holds ever after; each edge is one of a or a coordinate of an accepted point. Where no call was accepted it is
 * a, every bit of it. At most 4,096 points; a longer track goes on from the box that the first part left.
 * Refusals: 5, with a as it was handed in; 1, 21, 22 and 23 of a, with the standard empty one. */
sjurnabel_running_answer sjurnabel_running(sjurnabel_rect a, const double *points, size_t points_length);

/* The scan worker: a call of the running box in place, which enlarges it by one point. A box that starts as the
 * standard empty rectangle ends as one that holds every point that was accepted.
 * Refusals: 1, 21, 22, 23 (the box), 3 (the point); the box is then untouched, every bit of it. */
sjurnabel_refused sjurnabel_scan_point(sjurnabel_rect *box, sjurnabel_latlng p);

/* The same by a list of points, all of them or, where one is bad, none. At most 4,096 points.
 * Refusals: 5, 1, 21, 22, 23, 3; the box is then untouched. */
sjurnabel_refused sjurnabel_scan_list(sjurnabel_rect *box, const double *points, size_t points_length);

/* ---- rectangles ---- */

/* The rectangle of one point; a longitude -PI is stored as PI. Refusal: 3. */
sjurnabel_rect_answer sjurnabel_rect_from_latlng(sjurnabel_latlng p);

/* The rectangle of that size about the center, as sjurnabel_rect_expanded makes it with half the size for margins.
 * Refusals: 3 (the center), 4 (the size). */
sjurnabel_rect_answer sjurnabel_rect_from_center_size(sjurnabel_latlng center, sjurnabel_latlng size);

/* A rectangle that holds both points: the latitudes between them, and the longitudes that
 * sjurnabel_circle_from_point_pair gives. Refusal: 3. */
sjurnabel_rect_answer sjurnabel_rect_from_point_pair(sjurnabel_latlng p, sjurnabel_latlng q);

/* Whether a is valid: true under 0, and false under a refusal. Refusals: 1, 21, 22, 23. */
sjurnabel_yes_no sjurnabel_rect_is_valid(sjurnabel_rect a);

/* Whether a holds no place. Refusals: 1, 21, 22, 23. */
sjurnabel_yes_no sjurnabel_rect_is_empty(sjurnabel_rect a);

/* Whether a is the full rectangle. Refusals: 1, 21, 22, 23. */
sjurnabel_yes_no sjurnabel_rect_is_full(sjurnabel_rect a);

/* Whether a holds a single point. Refusals: 1, 21, 22, 23. */
sjurnabel_yes_no sjurnabel_rect_is_point(sjurnabel_rect a);

/* Whether lng.lo > lng.hi: a crosses the 180th meridian, starts there, or is empty. Refusals: 1, 21, 22, 23. */
sjurnabel_yes_no sjurnabel_rect_is_inverted(sjurnabel_rect a);

/* The corner of number i modulo 4: lower left, lower right, upper right, upper left. Refusals: 1, 21, 22, 23. */
sjurnabel_latlng_answer sjurnabel_rect_vertex(sjurnabel_rect a, uint8_t i);

/* The lower left corner, of number 0. Refusals: 1, 21, 22, 23. */
sjurnabel_latlng_answer sjurnabel_rect_lo(sjurnabel_rect a);

/* The upper right corner, of number 2. Refusals: 1, 21, 22, 23. */
sjurnabel_latlng_answer sjurnabel_rect_hi(sjurnabel_rect a);

/* The middle of the latitudes and the middle of the longitudes; of an empty rectangle it means nothing.
 * Refusals: 1, 21, 22, 23. */
sjurnabel_latlng_answer sjurnabel_rect_center(sjurnabel_rect a);

/* How far the latitudes go, and the longitudes: sjurnabel_line_len and sjurnabel_circle_len. Both are negative where a
 * is empty. Refusals: 1, 21, 22, 23. */
sjurnabel_latlng_answer sjurnabel_rect_size(sjurnabel_rect a);

/* Whether a holds every place of b. Refusals: 1, 21, 22, 23. */
sjurnabel_yes_no sjurnabel_rect_contains(sjurnabel_rect a, sjurnabel_rect b);

/* Whether the inside of a holds every place of b. Refusals: 1, 21, 22, 23. */
sjurnabel_yes_no sjurnabel_rect_interior_contains(sjurnabel_rect a, sjurnabel_rect b);

/* Whether a holds the point. Refusals: 1, 21, 22, 23, 3. */
sjurnabel_yes_no sjurnabel_rect_contains_latlng(sjurnabel_rect a, sjurnabel_latlng p);

/* Whether the inside of a holds the point. Refusals: 1, 21, 22, 23, 3. */
sjurnabel_yes_no sjurnabel_rect_interior_contains_latlng(sjurnabel_rect a, sjurnabel_latlng p);

/* Whether a and b share a place. Refusals: 1, 21, 22, 23. */
sjurnabel_yes_no sjurnabel_rect_intersects(sjurnabel_rect a, sjurnabel_rect b);

/* Whether the inside of a and b meet: latitudes and longitudes each overlap by more than an end of a.
 * Refusals: 1, 21, 22, 23. */
sjurnabel_yes_no sjurnabel_rect_interior_intersects(sjurnabel_rect a, sjurnabel_rect b);

/* Whether a and b hold the same places; two empty ones do. Refusals: 1, 21, 22, 23. */
sjurnabel_yes_no sjurnabel_rect_eq(sjurnabel_rect a, sjurnabel_rect b);

/* Whether a and b are the same but for noise: sjurnabel_line_approx_eq of the latitudes and
 * sjurnabel_circle_approx_eq of the longitudes. Refusals: 1, 21, 22, 23. */
sjurnabel_yes_no sjurnabel_rect_approx_eq(sjurnabel_rect a, sjurnabel_rect b);

/* The same with the errors given. Refusals: 1, 21, 22, 23, 4. */
sjurnabel_yes_no sjurnabel_rect_approx_eq_by(sjurnabel_rect a, sjurnabel_rect b, sjurnabel_latlng max_error);

/* One rectangle that holds both. Of {0, 0} and {PI, PI} the longitudes go east from the first: the order of a and b
 * may matter. Refusals: 1, 21, 22, 23. */
sjurnabel_rect_answer sjurnabel_rect_union(sjurnabel_rect a, sjurnabel_rect b);

/* One rectangle that holds what a and b share. It may hold far more: for the exact answer use
 * sjurnabel_common_region. Refusals: 1, 21, 22, 23. */
sjurnabel_rect_answer sjurnabel_rect_intersection(sjurnabel_rect a, sjurnabel_rect b);

/* a with margin.lat added on both sides of the latitudes, not beyond the poles, and margin.lng on both sides of the
 * longitudes, as sjurnabel_circle_expanded does; negative margins shrink it. Where latitudes or longitudes are empty
 * then, it is the standard empty rectangle. Refusals: 1, 21, 22, 23, 4. */
sjurnabel_rect_answer sjurnabel_rect_expanded(sjurnabel_rect a, sjurnabel_latlng margin);

/* a with all longitudes where it reaches a pole, since each longitude names the pole there; else a itself. An empty
 * rectangle reaches none. Refusals: 1, 21, 22, 23. */
sjurnabel_rect_answer sjurnabel_rect_polar_closure(sjurnabel_rect a);

/* a grown by one point, as sjurnabel_grow does.
 * Refusals: 1, 21, 22 and 23, with the standard empty rectangle; 3, with the rectangle as it was handed in. */
sjurnabel_rect_answer sjurnabel_rect_add(sjurnabel_rect a, sjurnabel_latlng p);

/* Whether a point is valid: true under 0, and false under the refusal. Refusal: 3. */
sjurnabel_yes_no sjurnabel_latlng_is_valid(sjurnabel_latlng p);

/* ---- the circle of longitudes: intervals as under INTERVALS AND RECTANGLES, points of size at most PI ---- */

/* The interval from lo east to hi. An end -PI is written PI, but in the full and the empty interval.
 * Refusals: 1; 22, an end of size over PI. */
sjurnabel_interval_answer sjurnabel_circle_new(double lo, double hi);

/* The circle interval with the ends of a line interval, as they are. Refusals: 1; 22, it is not valid. */
sjurnabel_interval_answer sjurnabel_circle_from_line(sjurnabel_interval l);

/* From p east to q where that is at most PI by sjurnabel_circle_positive_distance, and else from q east to p; -PI is
 * read as PI. But for rounding that is the shorter way, and of two opposite points it goes east from p.
 * Refusal: 3. */
sjurnabel_interval_answer sjurnabel_circle_from_point_pair(double p, double q);

/* Whether a is valid: true under 0, and false under a refusal. Refusals: 1, 22. */
sjurnabel_yes_no sjurnabel_circle_is_valid(sjurnabel_interval a);

/* Whether a is the full circle. Refusals: 1, 22. */
sjurnabel_yes_no sjurnabel_circle_is_full(sjurnabel_interval a);

/* Whether a is empty. Refusals: 1, 22. */
sjurnabel_yes_no sjurnabel_circle_is_empty(sjurnabel_interval a);

/* Whether lo > hi: a crosses the 180th meridian, starts there, or is empty. Refusals: 1, 22. */
sjurnabel_yes_no sjurnabel_circle_is_inverted(sjurnabel_interval a);

/* The middle of a; of the full and the empty one it means nothing. Refusals: 1, 22. */
sjurnabel_number sjurnabel_circle_center(sjurnabel_interval a);

/* How long a is, rounded. The empty one has -1; so has {PI, x} with x the double next to -PI, as its length rounds to
 * 0, and some that are all but full have 2 PI. Refusals: 1, 22. */
sjurnabel_number sjurnabel_circle_len(sjurnabel_interval a);

/* The line interval with the ends of a: empty where lo > hi. Refusals: 1, 22; the line's empty one stands beside. */
sjurnabel_interval_answer sjurnabel_circle_to_line(sjurnabel_interval a);

/* As sjurnabel_circle_contains, but -PI is not taken for PI: it says false of -PI in {x, PI}, x above -PI.
 * Refusals: 1, 22, 3. */
sjurnabel_yes_no sjurnabel_circle_fast_contains(sjurnabel_interval a, double p);

/* Whether a holds the point p, of size at most PI. Refusals: 1, 22, 3. */
sjurnabel_yes_no sjurnabel_circle_contains(sjurnabel_interval a, double p);

/* Whether a holds every place of b. Refusals: 1, 22. */
sjurnabel_yes_no sjurnabel_circle_contains_interval(sjurnabel_interval a, sjurnabel_interval b);

/* Whether the inside of a holds the point p. Refusals: 1, 22, 3. */
sjurnabel_yes_no sjurnabel_circle_interior_contains(sjurnabel_interval a, double p);

/* Whether the inside of a holds every place of b. Refusals: 1, 22. */
sjurnabel_yes_no sjurnabel_circle_interior_contains_interval(sjurnabel_interval a, sjurnabel_interval b);

/* Whether a and b share a place. Refusals: 1, 22. */
sjurnabel_yes_no sjurnabel_circle_intersects(sjurnabel_interval a, sjurnabel_interval b);

/* Whether the inside of a shares a place with b. Refusals: 1, 22. */
sjurnabel_yes_no sjurnabel_circle_interior_intersects(sjurnabel_interval a, sjurnabel_interval b);

/* Whether a and b have the same ends, and so the same places. Refusals: 1, 22. */
sjurnabel_yes_no sjurnabel_circle_eq(sjurnabel_interval a, sjurnabel_interval b);

/* Whether a and b are the same but for an error of 1e-14. Where one is empty: whether the other is shorter than twice
 * the error. Else, where one is full: whether the other leaves out no more than twice the error. Else: whether each
 * end of a lies within the error of that end of b, and the lengths differ by no more than twice the error, so that
 * {0, 0} is not like {1e-15, 0}, which is all but full. Lengths are those of sjurnabel_circle_len. Ends on either
 * side of the 180th meridian do not count as near, but for PI and the double next to -PI, whose difference rounds to
 * 2 PI. Refusals: 1, 22. */
sjurnabel_yes_no sjurnabel_circle_approx_eq(sjurnabel_interval a, sjurnabel_interval b);

/* The same with the error given. Refusals: 1, 22, 4. */
sjurnabel_yes_no sjurnabel_circle_approx_eq_by(sjurnabel_interval a, sjurnabel_interval b, double max_error);

/* a with its ends exchanged: of a point the same point, of the full circle the empty interval. Refusals: 1, 22. */
sjurnabel_interval_answer sjurnabel_circle_invert(sjurnabel_interval a);

/* The rest of the circle and the ends of a; of a point the full circle. Refusals: 1, 22. */
sjurnabel_interval_answer sjurnabel_circle_complement(sjurnabel_interval a);

/* One interval that holds both; the order of a and b may matter. Refusals: 1, 22. */
sjurnabel_interval_answer sjurnabel_circle_union(sjurnabel_interval a, sjurnabel_interval b);

/* One interval that holds what a and b share; it may hold more, as they may meet at both ends. Refusals: 1, 22. */
sjurnabel_interval_answer sjurnabel_circle_intersection(sjurnabel_interval a, sjurnabel_interval b);

/* a with the margin added on both sides; a negative one shrinks it. The empty interval stays empty, the full one
 * full; what is so but for a rounding error becomes full or empty. Ends are rounded: shrunk by almost half its
 * length, an interval may end up all but full, and {PI, x} with x the double next to -PI, whose length is said to be
 * -1, is not held by what it is widened to with margins from PI to about 3.64. Refusals: 1, 22, 4. */
sjurnabel_interval_answer sjurnabel_circle_expanded(sjurnabel_interval a, double margin);

/* a grown by the point p, to the side that is nearer by sjurnabel_circle_positive_distance; east, where the rounded
 * distances are the same. -PI is read as PI.
 * Refusals: 1 and 22, with the empty interval; 3, with the interval as it was handed in. */
sjurnabel_interval_answer sjurnabel_circle_add(sjurnabel_interval a, double p);

/* How far it is from p east to q, rounded, from 0 to 2 PI; from -PI to PI it is 2 PI. Refusal: 3. */
sjurnabel_number sjurnabel_circle_positive_distance(double p, double q);

/* The middle of the rest of the circle, of a point the point opposite; of the full and the empty one it means
 * nothing. Refusals: 1, 22. */
sjurnabel_number sjurnabel_circle_complement_center(sjurnabel_interval a);

/* How far a place of a can lie from the nearest one of b: 0 where b holds a, PI where b alone is empty.
 * Refusals: 1, 22. */
sjurnabel_number sjurnabel_circle_directed_hausdorff_distance(sjurnabel_interval a, sjurnabel_interval b);

/* x minus the whole multiple of 2 PI nearest to it, of two equally near ones the even one: from -PI to PI, exact,
 * as IEEE 754's remainder by the double 2 PI. For x from -4 PI to 4 PI. Refusal: 4. */
sjurnabel_number sjurnabel_remainder(double x);

/* ---- the line: intervals of numbers in reach, such as latitudes; 3 is a point out of reach ---- */

/* The interval from lo to hi, which is empty where lo > hi. Refusal: 1. */
sjurnabel_interval_answer sjurnabel_line_new(double lo, double hi);

/* The interval of one point. Refusal: 3. */
sjurnabel_interval_answer sjurnabel_line_from_point(double p);

/* The interval between two points, in either order. Refusal: 3. */
sjurnabel_interval_answer sjurnabel_line_from_point_pair(double p, double q);

/* Whether a is empty. Refusal: 1. */
sjurnabel_yes_no sjurnabel_line_is_empty(sjurnabel_interval a);

/* The middle of a; of an empty one it means nothing. Refusal: 1. */
sjurnabel_number sjurnabel_line_center(sjurnabel_interval a);

/* hi minus lo: negative where a is empty. Refusal: 1. */
sjurnabel_number sjurnabel_line_len(sjurnabel_interval a);

/* Whether a holds the point p. Refusals: 1, 3. */
sjurnabel_yes_no sjurnabel_line_contains(sjurnabel_interval a, double p);

/* Whether a holds every place of b. Refusal: 1. */
sjurnabel_yes_no sjurnabel_line_contains_interval(sjurnabel_interval a, sjurnabel_interval b);

/* Whether p lies between the ends of a. Refusals: 1, 3. */
sjurnabel_yes_no sjurnabel_line_interior_contains(sjurnabel_interval a, double p);

/* Whether b is empty or lies between the ends of a. Refusal: 1. */
sjurnabel_yes_no sjurnabel_line_interior_contains_interval(sjurnabel_interval a, sjurnabel_interval b);

/* Whether a and b share a place. Refusal: 1. */
sjurnabel_yes_no sjurnabel_line_intersects(sjurnabel_interval a, sjurnabel_interval b);

/* Whether a and b overlap by more than an end of a, neither being empty. Refusal: 1. */
sjurnabel_yes_no sjurnabel_line_interior_intersects(sjurnabel_interval a, sjurnabel_interval b);

/* Whether a and b hold the same places; two empty ones do. Refusal: 1. */
sjurnabel_yes_no sjurnabel_line_eq(sjurnabel_interval a, sjurnabel_interval b);

/* Whether each end of a lies within 1e-14 of that end of b. An empty one is like any that is shorter than twice
 * that. Refusal: 1. */
sjurnabel_yes_no sjurnabel_line_approx_eq(sjurnabel_interval a, sjurnabel_interval b);

/* The same with the error given. Refusals: 1, 4. */
sjurnabel_yes_no sjurnabel_line_approx_eq_by(sjurnabel_interval a, sjurnabel_interval b, double max_error);

/* The least interval that holds both. Refusal: 1. */
sjurnabel_interval_answer sjurnabel_line_union(sjurnabel_interval a, sjurnabel_interval b);

/* What a and b share, exactly. Refusal: 1. */
sjurnabel_interval_answer sjurnabel_line_intersection(sjurnabel_interval a, sjurnabel_interval b);

/* a with the margin added on both sides; a negative one shrinks it. An empty interval stays as it is.
 * Refusals: 1, 4. */
sjurnabel_interval_answer sjurnabel_line_expanded(sjurnabel_interval a, double margin);

/* a grown by the point p. Refusals: 1, with {1, 0}; 3, with the interval as it was handed in. */
sjurnabel_interval_answer sjurnabel_line_add(sjurnabel_interval a, double p);

/* The place of a that is nearest to p; of an empty interval lo. Refusals: 1, 3. */
sjurnabel_number sjurnabel_line_clamp_point(sjurnabel_interval a, double p);

/* How far a place of a can lie from the nearest one of b: 0 where b holds a, unbounded where b alone is empty.
 * Refusal: 1. */
sjurnabel_distance sjurnabel_line_directed_hausdorff_distance(sjurnabel_interval a, sjurnabel_interval b);

/* ---- the floating-point environment ---- */

/* What the calling thread's environment lacks of what ENVIRONMENT says: 0 where it lacks nothing. */
enum sjurnabel_environment_fault {
    SJURNABEL_ROUNDING = 1, /* it rounds otherwise than to nearest */
    SJURNABEL_FLUSHING = 2, /* subnormal results are flushed to zero, or subnormal operands are read as zero */
    SJURNABEL_UNMASKED = 4  /* an exception is not masked */
};

/* The sum of the faults of the calling thread's environment, as it is at the call; 0 where there is none. It reads
 * one register, MXCSR, and changes nothing. This function and the two that answer texts are tested and not proved. */
unsigned sjurnabel_environment(void);

/* ---- GeoJSON: the bbox array [west, south, east, north] of RFC 7946, in degrees ---- */

/* The box of a bbox array. A number is an optional minus, one to three digits without a needless leading zero and
 * an optional point with one to seven digits; JSON's spaces may stand before and after each number and around the
 * array. -180 with 180 is the whole circle, and every other -180 is read as 180.
 * Refusals: 8, the text is no such array; 9, a longitude beyond 180 or a latitude beyond 90 degrees, or the south
 * above the north. */
sjurnabel_bounds_answer sjurnabel_bbox_read(const char *text, size_t text_length);

/* The bbox array of a box, with the fewest digits, without spaces and never with -0: 9 to 51 bytes. Reading it
 * gives the same box. Refusal: 9, a box that reading does not give. */
sjurnabel_text sjurnabel_bbox_write(sjurnabel_bounds b);

/* The box as a rectangle in radians; 180 and 90 degrees are PI and PI/2. Refusal: 9, a box that reading does not
 * give. */
sjurnabel_rect_answer sjurnabel_bbox_rect(sjurnabel_bounds b);

#ifdef __cplusplus
}
#endif

#endif
