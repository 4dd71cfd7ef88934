/* SPDX-License-Identifier: Apache-2.0 */
/* Sjurnabel for SQLite: a loadable extension over the library for C (include/sjurnabel.h).
 *
 *   zone_contains(lat_lo, lat_hi, lng_lo, lng_hi, lat, lng)   whether the zone holds the point: 1 or 0
 *   zone_common(lat_lo, lat_hi, lng_lo, lng_hi)               aggregate: the common region of the zones, a blob of pieces
 *   zone_pieces(blob)                                         table: piece, lat_lo, lat_hi, lng_lo, lng_hi
 *   zone_ranges(blob)                                         the same, with lng_lo <= lng_hi: for comparisons, by an index
 *   zone_intersection_box(zone, zone)                         eight numbers: one box that holds what both share, a blob
 *
 * A zone is four numbers in radians, as the header says; a blob of pieces is 32 bytes a piece, the same four numbers as
 * doubles, so that no bit is lost on the way. NULL in a scalar function's argument answers NULL; the aggregate passes over a
 * zone with a NULL, and answers NULL where no zone is left. A refusal of the library is an SQL error that names its number and,
 * in the aggregate, the zone: its place among all that were handed over, from zero, those with a NULL too. A blob that is no
 * common region is an error that names the piece, from one.
 */
#include <math.h>
#include <sjurnabel.h>
#include <sqlite3ext.h>
#include <string.h>
SQLITE_EXTENSION_INIT1

/* a piece in a blob: that is the layout of the record */
_Static_assert(sizeof(sjurnabel_rect) == 4 * sizeof(double), "a rectangle is four doubles");

/* ---- arguments and errors ---- */

static char *refused(int refusal) {
    return sqlite3_mprintf("sjurnabel: refused %d: %s", refusal, sjurnabel_refusal_text(refusal));
}

/* makes `text`, which it frees, the function's error */
static void fail(sqlite3_context *ctx, char *text) {
    if (text) sqlite3_result_error(ctx, text, -1);
    else sqlite3_result_error_nomem(ctx);
    sqlite3_free(text);
}

enum { NO_ROW = -1 };

/* Reads n numbers. 0 where one is NULL, with nothing said (the result of a function that says nothing is NULL), or where one
 * is neither NULL nor a number, with the error set: text is not turned into a number, as 'abc' would become 0. The error names
 * the aggregate's row, from zero; a scalar function has NO_ROW. */
static int numbers(sqlite3_context *ctx, int n, sqlite3_value **argv, double *x, sqlite3_int64 row) {
    for (int i = 0; i < n; i++)
        if (sqlite3_value_type(argv[i]) == SQLITE_NULL) return 0;
    for (int i = 0; i < n; i++) {
        const int type = sqlite3_value_type(argv[i]);
        if (type != SQLITE_FLOAT && type != SQLITE_INTEGER) {
            if (row == NO_ROW) fail(ctx, sqlite3_mprintf("sjurnabel: argument %d is not a number", i + 1));
            else fail(ctx, sqlite3_mprintf("sjurnabel: argument %d is not a number, at %lld", i + 1, row));
            return 0;
        }
        x[i] = sqlite3_value_double(argv[i]);
    }
    return 1;
}

static sjurnabel_rect rect(const double *x) {
    const sjurnabel_rect r = {{x[0], x[1]}, {x[2], x[3]}};
    return r;
}

/* ---- functions ---- */

static void zone_contains(sqlite3_context *ctx, int argc, sqlite3_value **argv) {
    double x[6];
    if (!numbers(ctx, argc, argv, x, NO_ROW)) return;
    const sjurnabel_yes_no in = sjurnabel_rect_contains_latlng(rect(x), (sjurnabel_latlng){x[4], x[5]});
    if (in.refusal) fail(ctx, refused(in.refusal));
    else sqlite3_result_int(ctx, in.value);
}

static void zone_intersection_box(sqlite3_context *ctx, int argc, sqlite3_value **argv) {
    double x[8];
    if (!numbers(ctx, argc, argv, x, NO_ROW)) return;
    const sjurnabel_rect_answer box = sjurnabel_rect_intersection(rect(x), rect(x + 4));
    const int empty = box.value.lat.lo > box.value.lat.hi;
    if (box.refusal) fail(ctx, refused(box.refusal));
    else sqlite3_result_blob(ctx, &box.value, empty ? 0 : (int)sizeof box.value, SQLITE_TRANSIENT);
}

/* ---- the aggregate ---- */

/* The zones so far, and which row each is; SQLite hands it out as zeros, and frees it. A zone with a NULL is passed over, so
 * that a zone's place among those that are kept is not its row: and it is the row that an error must name. */
typedef struct zones {
    sqlite3_int64 rows; /* how many were handed over, those with a NULL too */
    size_t count;
    sjurnabel_rect zone[SJURNABEL_MOST_RECTS];
    sqlite3_int64 row[SJURNABEL_MOST_RECTS];
} zones;

static void zone_common_step(sqlite3_context *ctx, int argc, sqlite3_value **argv) {
    double x[4];
    zones *all = sqlite3_aggregate_context(ctx, sizeof *all);
    if (!all) {
        sqlite3_result_error_nomem(ctx);
        return;
    }
    const sqlite3_int64 row = all->rows++;
    if (!numbers(ctx, argc, argv, x, row)) return;
    if (all->count == SJURNABEL_MOST_RECTS) {
        fail(ctx, refused(SJURNABEL_BAD_LIST));
        return;
    }
    all->zone[all->count] = rect(x);
    all->row[all->count++] = row;
}

static void zone_common_final(sqlite3_context *ctx) {
    zones *all = sqlite3_aggregate_context(ctx, 0);
    if (!all || !all->count) return;
    /* there are at most as many pieces as zones */
    sjurnabel_rect *piece = sqlite3_malloc64(all->count * sizeof *piece);
    if (!piece) {
        sqlite3_result_error_nomem(ctx);
        return;
    }
    const size_t length = 4 * all->count;
    const sjurnabel_pieces found = sjurnabel_common_region(&all->zone[0].lat.lo, length, &piece[0].lat.lo, length);
    if (!found.refusal) {
        sqlite3_result_blob64(ctx, piece, found.count * sizeof *piece, sqlite3_free);
        return;
    }
    sqlite3_free(piece);
    /* the length and the room are right, so that it is a zone that is refused */
    fail(ctx, sqlite3_mprintf("sjurnabel: refused %d at %lld: %s", found.refusal, all->row[found.entry],
        sjurnabel_refusal_text(found.refusal)));
}

/* ---- what a blob must be ---- */

/* Why the piece with this number, from 1 as in the column `piece`, can stand in no region, or null where it can: it is refused, it
 * is empty, or it has a negative zero, which the library never writes, so that equal regions are equal blobs. */
static char *no_piece(sjurnabel_rect p, int number) {
    const int refusal = sjurnabel_rect_is_valid(p).refusal;
    if (refusal)
        return sqlite3_mprintf("sjurnabel: no common region: piece %d: refused %d: %s", number, refusal,
            sjurnabel_refusal_text(refusal));
    if (sjurnabel_rect_is_empty(p).value) return sqlite3_mprintf("sjurnabel: no common region: piece %d is empty", number);
    const double x[4] = {p.lat.lo, p.lat.hi, p.lng.lo, p.lng.hi};
    for (int i = 0; i < 4; i++)
        if (x[i] == 0 && signbit(x[i])) return sqlite3_mprintf("sjurnabel: no common region: piece %d has a negative zero", number);
    return 0;
}

/* Why these pieces are no common region, or null where they are one. Those of a region have the same latitudes, their western
 * edges rise, and no two share a place. It is enough to look at neighbours, the last and the first being such: a piece that
 * reaches beyond the next one holds its western edge. And nothing else is needed: the zones that each leave out the gap between
 * two neighbours have just these pieces in common. */
static char *no_region(const sjurnabel_rect *piece, int count) {
    for (int i = 0; i < count; i++) {
        char *why = no_piece(piece[i], i + 1);
        if (why) return why;
        if (i == 0) continue;
        if (piece[i].lat.lo != piece[0].lat.lo || piece[i].lat.hi != piece[0].lat.hi)
            return sqlite3_mprintf("sjurnabel: no common region: piece %d has other latitudes than piece 1", i + 1);
        if (piece[i].lng.lo <= piece[i - 1].lng.lo)
            return sqlite3_mprintf("sjurnabel: no common region: piece %d does not start east of piece %d", i + 1, i);
        if (sjurnabel_rect_intersects(piece[i - 1], piece[i]).value)
            return sqlite3_mprintf("sjurnabel: no common region: pieces %d and %d share a place", i, i + 1);
    }
    if (count > 1 && sjurnabel_rect_intersects(piece[count - 1], piece[0]).value)
        return sqlite3_mprintf("sjurnabel: no common region: pieces %d and 1 share a place", count);
    return 0;
}

/* ---- the tables of pieces and of ranges ---- */

enum { PIECE, LAT_LO, LAT_HI, LNG_LO, LNG_HI, ZONE_BLOB };

typedef struct table {
    sqlite3_vtab base;
    const char *name; /* zone_pieces or zone_ranges */
    int ranges;       /* whether it is zone_ranges */
} table;

/* The rows of zone_pieces are the pieces. Those of zone_ranges are what the pieces hold of the numbers from -PI to PI, as ranges
 * that share no number. -PI and PI are one place, and only the last piece can hold it: then what it holds from -PI on is a row by
 * itself, the first one. The full circle is one range. */
typedef struct cursor {
    sqlite3_vtab_cursor base;
    int at, count; /* the row, and how many pieces there are */
    int split;     /* 1 where the first row is a part of the last piece, otherwise 0 */
    sjurnabel_rect piece[SJURNABEL_MOST_RECTS];
} cursor;

/* The columns have no type: they are then compared with a column of the user's in the order of that column's index. */
static int table_connect(sqlite3 *db, void *name, int argc, const char *const *argv, sqlite3_vtab **out, char **error) {
    (void)argc, (void)argv, (void)error;
    int rc = sqlite3_declare_vtab(db, "CREATE TABLE x(piece, lat_lo, lat_hi, lng_lo, lng_hi, zone_blob HIDDEN)");
    if (rc) return rc;
    sqlite3_vtab_config(db, SQLITE_VTAB_INNOCUOUS);
    table *t = sqlite3_malloc64(sizeof *t);
    if (!t) return SQLITE_NOMEM;
    memset(t, 0, sizeof *t);
    t->name = name;
    t->ranges = !strcmp(name, "zone_ranges");
    *out = &t->base;
    return SQLITE_OK;
}

static int table_disconnect(sqlite3_vtab *base) {
    sqlite3_free(base);
    return SQLITE_OK;
}

/* makes `text` the table's error */
static int table_fail(sqlite3_vtab *base, char *text) {
    sqlite3_free(base->zErrMsg);
    base->zErrMsg = text;
    return text ? SQLITE_ERROR : SQLITE_NOMEM;
}

/* The argument arrives as the constraint zone_blob = .., and must be known before the table is read. A region has few pieces:
 * that is said, so that it is the outer loop of a join with a table of points. */
static int table_best_index(sqlite3_vtab *base, sqlite3_index_info *info) {
    int seen = 0;
    for (int i = 0; i < info->nConstraint; i++) {
        const struct sqlite3_index_constraint *c = &info->aConstraint[i];
        if (c->iColumn != ZONE_BLOB || c->op != SQLITE_INDEX_CONSTRAINT_EQ) continue;
        seen = 1;
        if (!c->usable) continue;
        info->aConstraintUsage[i].argvIndex = 1;
        info->aConstraintUsage[i].omit = 1;
        info->estimatedCost = 4;
        info->estimatedRows = 4;
        return SQLITE_OK;
    }
    if (seen) return SQLITE_CONSTRAINT;
    return table_fail(base, sqlite3_mprintf("sjurnabel: %s needs an argument, the blob of zone_common", ((table *)base)->name));
}

static int table_open(sqlite3_vtab *base, sqlite3_vtab_cursor **out) {
    (void)base;
    cursor *c = sqlite3_malloc64(sizeof *c);
    if (!c) return SQLITE_NOMEM;
    memset(c, 0, sizeof *c);
    *out = &c->base;
    return SQLITE_OK;
}

static int table_close(sqlite3_vtab_cursor *base) {
    sqlite3_free(base);
    return SQLITE_OK;
}

static int table_filter(sqlite3_vtab_cursor *base, int number, const char *text, int argc, sqlite3_value **argv) {
    (void)number, (void)text, (void)argc;
    cursor *c = (cursor *)base;
    const table *t = (table *)base->pVtab;
    c->at = c->count = c->split = 0;
    const int type = sqlite3_value_type(argv[0]);
    if (type == SQLITE_NULL) return SQLITE_OK;
    if (type != SQLITE_BLOB)
        return table_fail(base->pVtab, sqlite3_mprintf("sjurnabel: %s takes the blob of zone_common", t->name));
    const int bytes = sqlite3_value_bytes(argv[0]), count = bytes / (int)sizeof *c->piece;
    if (bytes % sizeof *c->piece || count > SJURNABEL_MOST_RECTS) return table_fail(base->pVtab, refused(SJURNABEL_BAD_LIST));
    if (!count) return SQLITE_OK;
    memcpy(c->piece, sqlite3_value_blob(argv[0]), bytes);
    char *why = no_region(c->piece, count);
    if (why) return table_fail(base->pVtab, why);
    c->count = count;
    const sjurnabel_interval last = c->piece[count - 1].lng;
    c->split = t->ranges && last.lo != -SJURNABEL_PI && (last.lo > last.hi || last.hi == SJURNABEL_PI);
    return SQLITE_OK;
}

static int table_next(sqlite3_vtab_cursor *base) {
    ((cursor *)base)->at++;
    return SQLITE_OK;
}

static int table_eof(sqlite3_vtab_cursor *base) {
    const cursor *c = (cursor *)base;
    return c->at >= c->count + c->split;
}

/* the index of the piece that the row is, or is a part of */
static int row_piece(const cursor *c) { return c->at < c->split ? c->count - 1 : c->at - c->split; }

static sjurnabel_rect row_rect(const cursor *c) {
    sjurnabel_rect r = c->piece[row_piece(c)];
    const int crosses = r.lng.lo > r.lng.hi;
    if (c->at < c->split) r.lng = (sjurnabel_interval){-SJURNABEL_PI, crosses ? r.lng.hi : -SJURNABEL_PI};
    else if (c->split && crosses) r.lng.hi = SJURNABEL_PI;
    return r;
}

static int table_column(sqlite3_vtab_cursor *base, sqlite3_context *ctx, int column) {
    const cursor *c = (cursor *)base;
    const sjurnabel_rect r = row_rect(c);
    switch (column) {
    case PIECE: sqlite3_result_int(ctx, row_piece(c) + 1); break;
    case LAT_LO: sqlite3_result_double(ctx, r.lat.lo); break;
    case LAT_HI: sqlite3_result_double(ctx, r.lat.hi); break;
    case LNG_LO: sqlite3_result_double(ctx, r.lng.lo); break;
    case LNG_HI: sqlite3_result_double(ctx, r.lng.hi); break;
    default: sqlite3_result_blob64(ctx, c->piece, c->count * sizeof *c->piece, SQLITE_TRANSIENT);
    }
    return SQLITE_OK;
}

static int table_rowid(sqlite3_vtab_cursor *base, sqlite3_int64 *id) {
    *id = ((cursor *)base)->at + 1;
    return SQLITE_OK;
}

/* no xCreate: the tables are there by their names, and no others can be made of them */
static sqlite3_module tables = {
    .xConnect = table_connect,
    .xBestIndex = table_best_index,
    .xDisconnect = table_disconnect,
    .xOpen = table_open,
    .xClose = table_close,
    .xFilter = table_filter,
    .xNext = table_next,
    .xEof = table_eof,
    .xColumn = table_column,
    .xRowid = table_rowid,
};

/* ---- loading ---- */

/* SQLite looks for this name in a file called sjurnabel.so. The functions depend on nothing but their arguments and change
 * nothing, so that they may stand in an index, a generated column, a view or a trigger. */
__attribute__((visibility("default"))) int sqlite3_sjurnabel_init(sqlite3 *db, char **error, const sqlite3_api_routines *pApi) {
    SQLITE_EXTENSION_INIT2(pApi);
    (void)error;
    const int flags = SQLITE_UTF8 | SQLITE_DETERMINISTIC | SQLITE_INNOCUOUS;
    int rc = sqlite3_create_function(db, "zone_contains", 6, flags, 0, zone_contains, 0, 0);
    if (!rc) rc = sqlite3_create_function(db, "zone_intersection_box", 8, flags, 0, zone_intersection_box, 0, 0);
    if (!rc) rc = sqlite3_create_function(db, "zone_common", 4, flags, 0, 0, zone_common_step, zone_common_final);
    if (!rc) rc = sqlite3_create_module(db, "zone_pieces", &tables, "zone_pieces");
    if (!rc) rc = sqlite3_create_module(db, "zone_ranges", &tables, "zone_ranges");
    return rc;
}
