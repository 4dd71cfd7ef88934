/* The stored questions of the program `ask` put to the library: each line of the first file that asks for something the
 * library has is answered through it, in the same words, and compared with the same line of the second file, which the
 * crate's own answers made. Prints what differs; the last line is 'N passed, M failed'.
 *
 *     stored crates/ask/stdin crates/ask/stdout
 */
#include "sjurnabel.h"

#include <ctype.h>
#include <stdio.h>
#include <stdlib.h>
#include <string.h>

#define LINE 200000
#define MOST 9000

static char question[LINE], stored[LINE], answer[LINE];
static double x[MOST], out[MOST];

/* ---- the answer's words ---- */
static size_t end;
static void put(const char *form, unsigned long long n) { end += (size_t)sprintf(answer + end, form, n); }
static void put_double(double d) {
    uint64_t u;
    memcpy(&u, &d, 8);
    put(" %016llX", d != d ? 0x7FF8000000000000ull : u);
}
static void put_four(sjurnabel_rect r) { put_double(r.lat.lo), put_double(r.lat.hi), put_double(r.lng.lo), put_double(r.lng.hi); }
static void rect(sjurnabel_rect_answer a) { put("%llu", a.refusal), put_four(a.value); }
static void point(sjurnabel_latlng_answer a) { put("%llu", a.refusal), put_double(a.value.lat), put_double(a.value.lng); }
static void interval(sjurnabel_interval_answer a) { put("%llu", a.refusal), put_double(a.value.lo), put_double(a.value.hi); }
static void yes_no(sjurnabel_yes_no a) { put("%llu", a.refusal), put(" %llu", a.value); }
static void number(sjurnabel_number a) { put("%llu", a.refusal), put_double(a.value); }
static void distance(sjurnabel_distance a) {
    put("%llu", a.refusal);
    if (a.unbounded) strcpy(answer + end, " U");
    else put_double(a.value);
}

/* ---- the question's numbers ---- */
/* reads the numbers that follow, each after a space in 16 digits; how many, or -1 where something else follows */
static long read_numbers(const char *s, double *to) {
    long n = 0;
    for (; *s == ' ' && n < MOST; n++, s += 17) {
        uint64_t u = 0;
        for (int k = 1; k <= 16; k++) {
            if (!isxdigit((unsigned char)s[k])) return -1;
            u = u * 16 + (uint64_t)(isdigit((unsigned char)s[k]) ? s[k] - '0' : toupper((unsigned char)s[k]) - 'A' + 10);
        }
        memcpy(to + n, &u, 8);
    }
    return *s ? -1 : n;
}
/* the rectangle, interval or point that begins with the number k */
static sjurnabel_rect R(int k) { sjurnabel_rect r = {{x[k], x[k + 1]}, {x[k + 2], x[k + 3]}}; return r; }
static sjurnabel_interval I(int k) { sjurnabel_interval i = {x[k], x[k + 1]}; return i; }
static sjurnabel_latlng P(int k) { sjurnabel_latlng p = {x[k], x[k + 1]}; return p; }
/* reads four whole numbers that follow, each after a space; whether nothing else follows */
static bool read_bounds(const char *s, sjurnabel_bounds *b) {
    int64_t *const to[] = {&b->west, &b->south, &b->east, &b->north};
    char *after;
    for (int k = 0; k < 4; k++, s = after) {
        *to[k] = strtoll(s, &after, 10);
        if (after == s) return false;
    }
    return !*s;
}

/* ---- the questions: area, name, how many numbers, how the answer is put, and what answers ---- */
#define QUESTIONS(ASK) \
    ASK(r1, new, 2, interval, sjurnabel_line_new(x[0], x[1])) \
    ASK(r1, from_point, 1, interval, sjurnabel_line_from_point(x[0])) \
    ASK(r1, from_point_pair, 2, interval, sjurnabel_line_from_point_pair(x[0], x[1])) \
    ASK(r1, is_empty, 2, yes_no, sjurnabel_line_is_empty(I(0))) \
    ASK(r1, center, 2, number, sjurnabel_line_center(I(0))) \
    ASK(r1, len, 2, number, sjurnabel_line_len(I(0))) \
    ASK(r1, contains, 3, yes_no, sjurnabel_line_contains(I(0), x[2])) \
    ASK(r1, contains_interval, 4, yes_no, sjurnabel_line_contains_interval(I(0), I(2))) \
    ASK(r1, interior_contains, 3, yes_no, sjurnabel_line_interior_contains(I(0), x[2])) \
    ASK(r1, interior_contains_interval, 4, yes_no, sjurnabel_line_interior_contains_interval(I(0), I(2))) \
    ASK(r1, intersects, 4, yes_no, sjurnabel_line_intersects(I(0), I(2))) \
    ASK(r1, interior_intersects, 4, yes_no, sjurnabel_line_interior_intersects(I(0), I(2))) \
    ASK(r1, eq, 4, yes_no, sjurnabel_line_eq(I(0), I(2))) \
    ASK(r1, approx_eq, 4, yes_no, sjurnabel_line_approx_eq(I(0), I(2))) \
    ASK(r1, approx_eq_by, 5, yes_no, sjurnabel_line_approx_eq_by(I(0), I(2), x[4])) \
    ASK(r1, union, 4, interval, sjurnabel_line_union(I(0), I(2))) \
    ASK(r1, intersection, 4, interval, sjurnabel_line_intersection(I(0), I(2))) \
    ASK(r1, expanded, 3, interval, sjurnabel_line_expanded(I(0), x[2])) \
    ASK(r1, add, 3, interval, sjurnabel_line_add(I(0), x[2])) \
    ASK(r1, clamp_point, 3, number, sjurnabel_line_clamp_point(I(0), x[2])) \
    ASK(r1, hausdorff, 4, distance, sjurnabel_line_directed_hausdorff_distance(I(0), I(2))) \
    ASK(r1, to_s1, 2, interval, sjurnabel_circle_from_line(I(0))) \
    ASK(s1, new, 2, interval, sjurnabel_circle_new(x[0], x[1])) \
    ASK(s1, from_point_pair, 2, interval, sjurnabel_circle_from_point_pair(x[0], x[1])) \
    ASK(s1, is_valid, 2, yes_no, sjurnabel_circle_is_valid(I(0))) \
    ASK(s1, is_full, 2, yes_no, sjurnabel_circle_is_full(I(0))) \
    ASK(s1, is_empty, 2, yes_no, sjurnabel_circle_is_empty(I(0))) \
    ASK(s1, is_inverted, 2, yes_no, sjurnabel_circle_is_inverted(I(0))) \
    ASK(s1, center, 2, number, sjurnabel_circle_center(I(0))) \
    ASK(s1, len, 2, number, sjurnabel_circle_len(I(0))) \
    ASK(s1, to_r1, 2, interval, sjurnabel_circle_to_line(I(0))) \
    ASK(s1, fast_contains, 3, yes_no, sjurnabel_circle_fast_contains(I(0), x[2])) \
    ASK(s1, contains, 3, yes_no, sjurnabel_circle_contains(I(0), x[2])) \
    ASK(s1, contains_interval, 4, yes_no, sjurnabel_circle_contains_interval(I(0), I(2))) \
    ASK(s1, interior_contains, 3, yes_no, sjurnabel_circle_interior_contains(I(0), x[2])) \
    ASK(s1, interior_contains_interval, 4, yes_no, sjurnabel_circle_interior_contains_interval(I(0), I(2))) \
    ASK(s1, intersects, 4, yes_no, sjurnabel_circle_intersects(I(0), I(2))) \
    ASK(s1, interior_intersects, 4, yes_no, sjurnabel_circle_interior_intersects(I(0), I(2))) \
    ASK(s1, eq, 4, yes_no, sjurnabel_circle_eq(I(0), I(2))) \
    ASK(s1, approx_eq, 4, yes_no, sjurnabel_circle_approx_eq(I(0), I(2))) \
    ASK(s1, approx_eq_by, 5, yes_no, sjurnabel_circle_approx_eq_by(I(0), I(2), x[4])) \
    ASK(s1, invert, 2, interval, sjurnabel_circle_invert(I(0))) \
    ASK(s1, complement, 2, interval, sjurnabel_circle_complement(I(0))) \
    ASK(s1, union, 4, interval, sjurnabel_circle_union(I(0), I(2))) \
    ASK(s1, intersection, 4, interval, sjurnabel_circle_intersection(I(0), I(2))) \
    ASK(s1, expanded, 3, interval, sjurnabel_circle_expanded(I(0), x[2])) \
    ASK(s1, add, 3, interval, sjurnabel_circle_add(I(0), x[2])) \
    ASK(s1, positive_distance, 2, number, sjurnabel_circle_positive_distance(x[0], x[1])) \
    ASK(s1, complement_center, 2, number, sjurnabel_circle_complement_center(I(0))) \
    ASK(s1, hausdorff, 4, number, sjurnabel_circle_directed_hausdorff_distance(I(0), I(2))) \
    ASK(latlng, is_valid, 2, yes_no, sjurnabel_latlng_is_valid(P(0))) \
    ASK(rect, from_latlng, 2, rect, sjurnabel_rect_from_latlng(P(0))) \
    ASK(rect, from_center_size, 4, rect, sjurnabel_rect_from_center_size(P(0), P(2))) \
    ASK(rect, from_point_pair, 4, rect, sjurnabel_rect_from_point_pair(P(0), P(2))) \
    ASK(rect, is_valid, 4, yes_no, sjurnabel_rect_is_valid(R(0))) \
    ASK(rect, is_empty, 4, yes_no, sjurnabel_rect_is_empty(R(0))) \
    ASK(rect, is_full, 4, yes_no, sjurnabel_rect_is_full(R(0))) \
    ASK(rect, is_point, 4, yes_no, sjurnabel_rect_is_point(R(0))) \
    ASK(rect, is_inverted, 4, yes_no, sjurnabel_rect_is_inverted(R(0))) \
    ASK(rect, lo, 4, point, sjurnabel_rect_lo(R(0))) \
    ASK(rect, hi, 4, point, sjurnabel_rect_hi(R(0))) \
    ASK(rect, center, 4, point, sjurnabel_rect_center(R(0))) \
    ASK(rect, size, 4, point, sjurnabel_rect_size(R(0))) \
    ASK(rect, contains, 8, yes_no, sjurnabel_rect_contains(R(0), R(4))) \
    ASK(rect, interior_contains, 8, yes_no, sjurnabel_rect_interior_contains(R(0), R(4))) \
    ASK(rect, contains_latlng, 6, yes_no, sjurnabel_rect_contains_latlng(R(0), P(4))) \
    ASK(rect, interior_contains_latlng, 6, yes_no, sjurnabel_rect_interior_contains_latlng(R(0), P(4))) \
    ASK(rect, intersects, 8, yes_no, sjurnabel_rect_intersects(R(0), R(4))) \
    ASK(rect, interior_intersects, 8, yes_no, sjurnabel_rect_interior_intersects(R(0), R(4))) \
    ASK(rect, eq, 8, yes_no, sjurnabel_rect_eq(R(0), R(4))) \
    ASK(rect, approx_eq, 8, yes_no, sjurnabel_rect_approx_eq(R(0), R(4))) \
    ASK(rect, approx_eq_by, 10, yes_no, sjurnabel_rect_approx_eq_by(R(0), R(4), P(8))) \
    ASK(rect, union, 8, rect, sjurnabel_rect_union(R(0), R(4))) \
    ASK(rect, intersection, 8, rect, sjurnabel_rect_intersection(R(0), R(4))) \
    ASK(rect, expanded, 6, rect, sjurnabel_rect_expanded(R(0), P(4))) \
    ASK(rect, polar_closure, 4, rect, sjurnabel_rect_polar_closure(R(0)))

#define FUNCTION(area, name, count, print, call) static void area##_##name(void) { print(call); }
QUESTIONS(FUNCTION)

static void remainder_of(void) { number(sjurnabel_remainder(x[0])); }

static bool same_rect(sjurnabel_rect r, sjurnabel_rect s) { return !memcmp(&r, &s, sizeof r); }

/* growth by one point; by a list of it, and by the scan worker, which must agree with it or leave its box */
static void rect_add(void) {
    sjurnabel_rect box = R(0), by_list = box;
    sjurnabel_rect_answer a = sjurnabel_rect_add(box, P(4)), g = sjurnabel_grow(box, x + 4, 2);
    sjurnabel_rect kept = a.refusal ? box : a.value;
    int n = sjurnabel_scan_point(&box, P(4)).refusal, m = sjurnabel_scan_list(&by_list, x + 4, 2).refusal;
    if (g.refusal != a.refusal || !same_rect(g.value, a.value)) put("growth by a list differs: %llu, ", g.refusal);
    if (n != a.refusal || m != a.refusal || !same_rect(box, kept) || !same_rect(by_list, kept)) put("the scan worker differs: %llu, ", (unsigned)n);
    rect(a);
}

/* RECT K: the number of the corner in two digits */
static bool rect_vertex(const char *s) {
    char head[4 * 17 + 1];
    if (strlen(s) != 4 * 17 + 3 || s[4 * 17] != ' ') return false;
    memcpy(head, s, 4 * 17), head[4 * 17] = 0;
    if (read_numbers(head, x) != 4) return false;
    return point(sjurnabel_rect_vertex(R(0), (uint8_t)strtoul(s + 4 * 17, NULL, 16))), true;
}

/* the refusal of a list of rectangles: ` at ENTRY` where one of them is refused, and the entry is 0 beside any other number */
static void put_list_refusal(int refusal, size_t entry) {
    put("%llu", (unsigned)refusal);
    if (refusal == SJURNABEL_OUT_OF_REACH || refusal == SJURNABEL_BAD_LATITUDE || refusal == SJURNABEL_BAD_CIRCLE || refusal == SJURNABEL_HALF_EMPTY) put(" at %llu", entry);
    else if (entry) put(" with the entry %llu", entry);
}

/* ROOM | NUMBERS: the output is 42 everywhere before */
static bool common(const char *s) {
    char *bar;
    unsigned long room = strtoul(s, &bar, 10);
    long n = strncmp(bar, " |", 2) || room > MOST ? -1 : read_numbers(bar + 2, x);
    if (n < 0) return false;
    for (size_t i = 0; i < room; i++) out[i] = 42;
    sjurnabel_pieces p = sjurnabel_common_region(x, (size_t)n, out, room);
    put_list_refusal(p.refusal, p.entry), put(" %llu", p.count);
    for (size_t i = 0; i < room; i++) put_double(out[i]);
    return true;
}

/* RECT | POINTS: how many numbers the points are, from the fifth on; -1 where something else follows */
static long read_with_points(const char *s) {
    char head[4 * 17 + 1];
    if (strlen(s) < 4 * 17 || strncmp(s + 4 * 17, " |", 2)) return -1;
    memcpy(head, s, 4 * 17), head[4 * 17] = 0;
    return read_numbers(head, x) == 4 ? read_numbers(s + 4 * 17 + 2, x + 4) : -1;
}

static bool growth(const char *s) {
    long n = read_with_points(s);
    if (n < 0) return false;
    return rect(sjurnabel_grow(R(0), x + 4, (size_t)n)), true;
}

/* the running box by value; after it the same calls one by one through the worker, which must leave the same box and
 * accept as many */
static bool running(const char *s) {
    long n = read_with_points(s);
    if (n < 0 || n % 2) return false;
    sjurnabel_running_answer a = sjurnabel_running(R(0), x + 4, (size_t)n);
    sjurnabel_rect box = R(0);
    size_t accepted = 0;
    for (long i = 0; i < n; i += 2) accepted += !sjurnabel_scan_point(&box, P(4 + i)).refusal;
    if (a.refusal == 0 && (accepted != a.accepted || !same_rect(box, a.value))) put("the scan worker differs: %llu, ", accepted);
    put("%llu", a.refusal), put(" %llu", a.accepted), put_four(a.value);
    return true;
}

/* BYTES: two digits a byte, - for none */
static bool bbox_read(const char *s) {
    static char text[LINE / 2];
    size_t n = 0;
    if (*s++ != ' ') return false;
    if (strcmp(s, "-"))
        for (char pair[3] = ""; *s; s += 2) {
            if (!isxdigit((unsigned char)s[0]) || !isxdigit((unsigned char)s[1])) return false;
            memcpy(pair, s, 2);
            text[n++] = (char)strtoul(pair, NULL, 16);
        }
    sjurnabel_bounds_answer a = sjurnabel_bbox_read(text, n);
    end += (size_t)sprintf(answer + end, "%d %lld %lld %lld %lld", a.refusal, (long long)a.value.west, (long long)a.value.south, (long long)a.value.east, (long long)a.value.north);
    return true;
}

/* ROOM BOX: the output is _ everywhere before. The library has room for every text, so that a smaller room is looked
 * at here: a text that is longer is refused. */
static bool bbox_write(const char *s) {
    char *rest;
    sjurnabel_bounds b;
    unsigned long room = strtoul(s, &rest, 10);
    if (room > 99 || !read_bounds(rest, &b)) return false;
    sjurnabel_text a = sjurnabel_bbox_write(b);
    for (size_t i = a.length; i < sizeof a.text; i++) if (a.text[i]) return put("byte %llu after the text is not zero", i), true;
    if (a.length > room) a.refusal = SJURNABEL_NO_ROOM, a.length = 0;
    put("%llu", a.refusal), put(" %llu", a.length);
    if (room) answer[end++] = ' ';
    memset(answer + end, '_', room), memcpy(answer + end, a.text, a.length);
    answer[end + room] = 0;
    return true;
}

static bool bbox_rect(const char *s) {
    sjurnabel_bounds b;
    return read_bounds(s, &b) && (rect(sjurnabel_bbox_rect(b)), true);
}

/* a question of numbers alone has their count and what answers them; any other has what reads and answers it */
#define ENTRY(area, name, count, print, call) {#area "." #name, count, area##_##name, NULL},
static const struct { const char *name; long count; void (*reply)(void); bool (*read)(const char *); } questions[] = {
    QUESTIONS(ENTRY)
    {"remainder", 1, remainder_of, NULL}, {"rect.add", 6, rect_add, NULL}, {"rect.vertex", 0, NULL, rect_vertex},
    {"common", 0, NULL, common}, {"growth", 0, NULL, growth}, {"running", 0, NULL, running},
    {"bbox.read", 0, NULL, bbox_read}, {"bbox.write", 0, NULL, bbox_write}, {"bbox.rect", 0, NULL, bbox_rect},
};
#define KINDS (sizeof questions / sizeof *questions)

/* whether the question is one that the library can be asked, and which; its answer is then in `answer` */
static bool reply(const char *q, size_t *kind) {
    size_t name = strcspn(q, " ");
    bool read;
    for (*kind = 0; *kind < KINDS; ++*kind) if (strlen(questions[*kind].name) == name && !strncmp(q, questions[*kind].name, name)) break;
    if (*kind == KINDS) return false;
    end = 0;
    if (questions[*kind].read) read = questions[*kind].read(q + name);
    else if ((read = read_numbers(q + name, x) == questions[*kind].count)) questions[*kind].reply();
    if (!read) strcpy(answer, "the question was not read");
    return true;
}

static bool line(FILE *f, char *to) {
    if (!fgets(to, LINE, f)) return false;
    to[strcspn(to, "\n")] = 0;
    return true;
}

int main(int argc, char **argv) {
    size_t passed = 0, failed = 0, asked[KINDS] = {0}, kind;
    FILE *asking = argc == 3 ? fopen(argv[1], "r") : NULL, *answers = argc == 3 ? fopen(argv[2], "r") : NULL;
    if (!asking || !answers) return fputs("stored: wants the file of questions and the file of answers\n", stderr), 2;
    while (line(asking, question) && line(answers, stored)) {
        if (!strcmp(stored, "?") || !reply(question, &kind)) continue;
        asked[kind]++;
        if (!strcmp(answer, stored)) { passed++; continue; }
        failed++;
        printf("%.300s\n  stored  %.300s\n  library %.300s\n", question, stored, answer);
    }
    for (kind = 0; kind < KINDS; kind++)
        if (asked[kind] < 100) failed++, printf("only %zu questions %s\n", asked[kind], questions[kind].name);
    printf("%zu passed, %zu failed\n", passed, failed);
    return failed != 0;
}
