/* The header as a program of C99 and of C++ has it: every way in which its constants may stand, warnings being errors, and
 * the texts. It prints the version of the library that it was linked with. */
#include "sjurnabel.h"

#include <stdio.h>
#include <string.h>

/* first values of static objects: of the whole, of a part, of an array's members */
static sjurnabel_rect running = SJURNABEL_EMPTY_RECT_INIT;
static const sjurnabel_rect both[] = {SJURNABEL_EMPTY_RECT_INIT, SJURNABEL_FULL_RECT_INIT};
static const struct { int number; sjurnabel_rect box; } numbered = {7, SJURNABEL_FULL_RECT_INIT};
static const double half_turn = SJURNABEL_PI, quarter_turn = SJURNABEL_PI / 2;

static int same(sjurnabel_rect a, sjurnabel_rect b) {
    return a.lat.lo == b.lat.lo && a.lat.hi == b.lat.hi && a.lng.lo == b.lng.lo && a.lng.hi == b.lng.hi;
}

static sjurnabel_rect start(int everywhere) { return everywhere ? SJURNABEL_FULL_RECT : SJURNABEL_EMPTY_RECT; }

int main(void) {
    /* first values of other objects, and expressions: what is passed, assigned, chosen, pointed to */
    sjurnabel_rect box = SJURNABEL_EMPTY_RECT, other = SJURNABEL_FULL_RECT_INIT, piece = SJURNABEL_EMPTY_RECT;
    const sjurnabel_rect pair[2] = {SJURNABEL_FULL_RECT, SJURNABEL_EMPTY_RECT};
    const sjurnabel_rect *const pointed = &SJURNABEL_FULL_RECT;
    const sjurnabel_latlng p = {quarter_turn, -half_turn};
    sjurnabel_pieces found = sjurnabel_common_region(&SJURNABEL_FULL_RECT.lat.lo, 4, &piece.lat.lo, 4);
    int wrong = 0;
    if (!same(box, running) || !same(box, both[0]) || !same(box, pair[1]) || !same(box, start(0))) wrong = 1;
    if (!same(other, both[1]) || !same(other, numbered.box) || !same(other, pair[0]) || !same(other, start(1)) || !same(other, *pointed)) wrong = 1;
    if (found.refusal != SJURNABEL_ACCEPTED || found.count != 1 || found.entry != 0 || !same(piece, SJURNABEL_FULL_RECT)) wrong = 1;
    if (sjurnabel_scan_point(&running, p).refusal || running.lng.lo != SJURNABEL_PI || running.lat.hi != SJURNABEL_FULL_RECT.lat.hi) wrong = 1;
    if (sjurnabel_running(SJURNABEL_EMPTY_RECT, &p.lat, 2).accepted != 1) wrong = 1;
    box = SJURNABEL_FULL_RECT;
    if (!same(box, other) || !sjurnabel_rect_is_empty(SJURNABEL_EMPTY_RECT).value || strlen(sjurnabel_refusal_text(SJURNABEL_BAD_CIRCLE)) == 0) wrong = 1;
    puts(sjurnabel_version());
    return wrong;
}
