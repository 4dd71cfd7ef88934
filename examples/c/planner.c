/* SPDX-License-Identifier: Apache-2.0
 *
 * A planner's rule: "in zone A and in zone B" becomes "in one of these boxes", with the boxes that sjurnabel_common_region
 * lists. The zones of the story meet at both ends; the single box of sjurnabel_rect_intersection would bill every ship
 * between. Zones are GeoJSON bbox arrays, rows have degrees. No number is rounded on the way: each edge of a piece is an
 * edge of a zone, so it is looked up there and written as it was read. Under a refusal the predicates stay as they are, and
 * it is said which zone is refused, from zero, and why.
 *
 *     planner                 the zones of the story, and what else can come
 *     planner ZONE ZONE       the predicate that these two become
 */
#include <sjurnabel.h>
#include <stdio.h>
#include <string.h>

#define SEAM 1800000000 /* 180 degrees */

typedef struct { sjurnabel_bounds degrees; sjurnabel_rect radians; } zone;
typedef struct { char text[512]; int refused; } predicate; /* refused: the zone that is, or -1 */

/* reads both zones; the first refusal number, or 0 */
static int read_zones(const char *const text[2], zone z[2], predicate *p) {
    for (int i = 0; i < 2; i++) {
        p->refused = i;
        sjurnabel_bounds_answer b = sjurnabel_bbox_read(text[i], strlen(text[i]));
        if (b.refusal) return b.refusal;
        sjurnabel_rect_answer r = sjurnabel_bbox_rect(b.value);
        if (r.refusal) return r.refusal;
        z[i].degrees = b.value, z[i].radians = r.value;
    }
    p->refused = -1;
    return 0;
}

/* the degrees of a piece: its western edge is one of the zones' western edges, and so on; whether all four were found */
static bool degrees_of(sjurnabel_rect piece, const zone z[2], sjurnabel_bounds *b) {
    bool west = false, south = false, east = false, north = false;
    for (int i = 0; i < 2; i++) {
        if (piece.lng.lo == z[i].radians.lng.lo) west = true, b->west = z[i].degrees.west;
        if (piece.lat.lo == z[i].radians.lat.lo) south = true, b->south = z[i].degrees.south;
        if (piece.lng.hi == z[i].radians.lng.hi) east = true, b->east = z[i].degrees.east;
        if (piece.lat.hi == z[i].radians.lat.hi) north = true, b->north = z[i].degrees.north;
    }
    return west && south && east && north;
}

/* adds a piece to the predicate. SQL knows no circle: a piece that crosses the 180th meridian becomes two ranges. And a row on
 * that meridian may have 180 or -180: who takes the one must take the other. */
static int add_piece(predicate *p, sjurnabel_rect piece, const zone z[2]) {
    char west[16], south[16], east[16], north[16], lng[80];
    size_t at = strlen(p->text);
    sjurnabel_bounds b;
    if (!degrees_of(piece, z, &b)) return SJURNABEL_BAD_BOX;
    sjurnabel_text t = sjurnabel_bbox_write(b);
    if (t.refusal) return t.refusal;
    if (sscanf(t.text, "[%15[^,],%15[^,],%15[^,],%15[^]]", west, south, east, north) != 4) return SJURNABEL_BAD_TEXT;
    if (b.west > b.east) snprintf(lng, sizeof lng, "(lng >= %s OR lng <= %s)", west, east);
    else if (b.east == SEAM && b.west != -SEAM) snprintf(lng, sizeof lng, "(lng BETWEEN %s AND 180 OR lng = -180)", west);
    else snprintf(lng, sizeof lng, "lng BETWEEN %s AND %s", west, east);
    snprintf(p->text + at, sizeof p->text - at, "%s lat BETWEEN %s AND %s AND %s\n", at ? "OR" : "  ", south, north, lng);
    return 0;
}

/* the predicate that two become; 0, or the refusal number: the predicates then stay */
static int rewrite(const char *a, const char *b, predicate *p) {
    const char *const text[2] = {a, b};
    zone z[2];
    sjurnabel_rect piece[2];
    int refusal = read_zones(text, z, p);
    if (refusal) return refusal;
    const sjurnabel_rect list[2] = {z[0].radians, z[1].radians};
    sjurnabel_pieces found = sjurnabel_common_region(&list[0].lat.lo, 8, &piece[0].lat.lo, 8);
    if (found.refusal) return p->refused = (int)found.entry, found.refusal;
    strcpy(p->text, found.count ? "" : "   FALSE\n");
    for (size_t i = 0; i < found.count && !refusal; i++) refusal = add_piece(p, piece[i], z);
    return refusal;
}

/* the wrong rule: the one box that holds what both zones share, and more */
static int one_box(const char *a, const char *b, predicate *p) {
    const char *const text[2] = {a, b};
    zone z[2];
    int refusal = read_zones(text, z, p);
    if (refusal) return refusal;
    sjurnabel_rect_answer one = sjurnabel_rect_intersection(z[0].radians, z[1].radians);
    if (one.refusal) return one.refusal;
    p->text[0] = 0;
    return add_piece(p, one.value, z);
}

static int show(int refusal, const predicate *p) {
    if (!refusal) return fputs(p->text, stdout), 0;
    printf("   refused %d", refusal);
    if (p->refused >= 0) printf(" at %d", p->refused);
    printf(": %s; the predicates stay\n", sjurnabel_refusal_text(refusal));
    return 1;
}

int main(int argc, char **argv) {
    const char *a = "[-100,40,100,60]", *b = "[80,45,-80,70]";
    predicate p;
    if (sjurnabel_environment()) return puts("the floating-point environment is not as needed: the predicates stay"), 1;
    if (argc == 3) return show(rewrite(argv[1], argv[2], &p), &p);
    puts("in A and in B, as the boxes of the common region:");
    show(rewrite(a, b, &p), &p);
    puts("the one box of the intersection:");
    show(one_box(a, b, &p), &p);
    puts("zones that share one side of the 180th meridian:");
    show(rewrite("[170,10.1234567,-160,20]", "[175.0000001,5,180,15]", &p), &p);
    puts("both sides:");
    show(rewrite("[170,10.1234567,-160,20]", "[150,15,-175,30]", &p), &p);
    puts("nothing:");
    show(rewrite(a, "[0,-60,10,-40]", &p), &p);
    puts("with a zone that ends beyond the pole:");
    show(rewrite(a, "[80,45,-80,120]", &p), &p);
    return 0;
}
