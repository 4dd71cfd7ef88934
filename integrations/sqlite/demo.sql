-- The demonstration: "in A and in B" by the pieces of the common region, beside the two separate tests and beside the one
-- box of the intersection. integrations/sqlite/run loads the extension and then reads this. Lines that start with 'ok' or
-- 'FAILED' are checks.

-- Zones are given in degrees and kept in radians.
CREATE TABLE zones (pair TEXT, name TEXT, lat_lo REAL, lat_hi REAL, lng_lo REAL, lng_hi REAL);
INSERT INTO zones
SELECT column1, column2, radians(column3), radians(column4), radians(column5), radians(column6) FROM (VALUES
    ('1 the story''s',      'A',  40, 60, -100,  100),
    ('1 the story''s',      'B',  45, 70,   80,  -80),
    ('2 round the Pacific', 'A', -60, 60, -170,  170),
    ('2 round the Pacific', 'B', -30, 90,  160, -160),
    ('3 two halves',        'A', -90, 90,  -90,   90),
    ('3 two halves',        'B', -90, 90,   90,  -90),
    ('4 both over 180',     'A',  10, 20,  170, -160),
    ('4 both over 180',     'B',  15, 30,  150, -175),
    ('5 apart',             'A',   0, 10,   20,   40),
    ('5 apart',             'B',   0, 10,   60,   80));

-- 100,000 points by a multiplicative generator, evenly over the sphere; every fourth at whole degrees, where the zones end.
CREATE TABLE points (id INTEGER PRIMARY KEY, lat REAL, lng REAL);
WITH RECURSIVE draw (id, x, y) AS (
    VALUES (1, 1940, 1940 * 48271)
    UNION ALL
    SELECT id + 1, y * 48271 % 2147483647, (y * 48271 % 2147483647) * 48271 % 2147483647 FROM draw WHERE id < 100000
), place (id, lat, lng) AS (
    SELECT id, degrees(asin(2 * x / 2147483647.0 - 1)), 360 * y / 2147483647.0 - 180 FROM draw
)
INSERT INTO points
SELECT id, radians(round(lat, CASE WHEN id % 4 THEN 6 ELSE 0 END)), radians(round(lng, CASE WHEN id % 4 THEN 6 ELSE 0 END))
FROM place;

SELECT printf('%d points, %d of them on an edge of a zone, %d at longitude -180',
    (SELECT count(*) FROM points),
    (SELECT count(*) FROM points p WHERE EXISTS (SELECT 1 FROM zones z
        WHERE zone_contains(z.lat_lo, z.lat_hi, z.lng_lo, z.lng_hi, p.lat, p.lng)
        AND (p.lat IN (z.lat_lo, z.lat_hi) OR p.lng IN (z.lng_lo, z.lng_hi)))),
    (SELECT count(*) FROM points WHERE lng = radians(-180)));

-- What a planner would put in place of the two tests: the pieces, and the one box.
CREATE TABLE rewrites AS
SELECT pair, 'pieces' AS how, zone_common(lat_lo, lat_hi, lng_lo, lng_hi) AS blob FROM zones GROUP BY pair
UNION ALL
SELECT a.pair, 'one box', zone_intersection_box(a.lat_lo, a.lat_hi, a.lng_lo, a.lng_hi, b.lat_lo, b.lat_hi, b.lng_lo, b.lng_hi)
FROM zones a JOIN zones b ON a.pair = b.pair AND a.name = 'A' AND b.name = 'B';

SELECT '';
SELECT line FROM (
    SELECT pair, 1 AS place, name AS what, 0 AS piece,
        printf('%-22s %-8s latitudes %g to %g, longitudes %g to %g', pair, name,
            degrees(lat_lo), degrees(lat_hi), degrees(lng_lo), degrees(lng_hi)) AS line FROM zones
    UNION ALL
    SELECT pair, CASE how WHEN 'pieces' THEN 2 ELSE 3 END, how, piece,
        printf('%-22s %-8s latitudes %g to %g, longitudes %g to %g', '',
            CASE how WHEN 'pieces' THEN 'piece ' || piece ELSE how END,
            degrees(lat_lo), degrees(lat_hi), degrees(lng_lo), degrees(lng_hi)) FROM rewrites, zone_pieces(blob)
    UNION ALL
    SELECT pair, 2, how, 0, printf('%-22s no pieces', '') FROM rewrites WHERE how = 'pieces' AND blob = x''
) ORDER BY pair, place, what, piece;

-- The rows: by two tests, and by each rewrite. A point in two pieces would come twice.
CREATE TABLE by_tests AS
SELECT a.pair, p.id FROM zones a JOIN zones b ON a.pair = b.pair AND a.name = 'A' AND b.name = 'B', points p
WHERE zone_contains(a.lat_lo, a.lat_hi, a.lng_lo, a.lng_hi, p.lat, p.lng)
  AND zone_contains(b.lat_lo, b.lat_hi, b.lng_lo, b.lng_hi, p.lat, p.lng);
CREATE TABLE by_rewrite AS
SELECT r.pair, r.how, p.id FROM rewrites r, zone_pieces(r.blob) z, points p
WHERE zone_contains(z.lat_lo, z.lat_hi, z.lng_lo, z.lng_hi, p.lat, p.lng);

CREATE TABLE outcome AS
SELECT pair,
    (SELECT count(*) FROM by_tests t WHERE t.pair = r.pair) AS tests,
    (SELECT count(*) FROM by_rewrite w WHERE w.pair = r.pair AND how = 'pieces') AS pieces,
    (SELECT count(*) FROM (SELECT id FROM by_tests t WHERE t.pair = r.pair
        EXCEPT SELECT id FROM by_rewrite w WHERE w.pair = r.pair AND how = 'pieces')) AS missing,
    (SELECT count(*) FROM (SELECT id FROM by_rewrite w WHERE w.pair = r.pair AND how = 'pieces'
        EXCEPT SELECT id FROM by_tests t WHERE t.pair = r.pair)) AS beyond,
    (SELECT count(*) FROM by_rewrite w WHERE w.pair = r.pair AND how = 'one box') AS one_box,
    (SELECT count(*) FROM (SELECT id FROM by_rewrite w WHERE w.pair = r.pair AND how = 'one box'
        EXCEPT SELECT id FROM by_tests t WHERE t.pair = r.pair)) AS wrong
FROM (SELECT DISTINCT pair FROM zones) r;

SELECT '';
SELECT 'rows in A and in B       two tests   by pieces   missing   beyond   by one box   billed wrongly';
SELECT printf('%-22s %11d %11d %9d %8d %12d %16d', pair, tests, pieces, missing, beyond, one_box, wrong) FROM outcome ORDER BY pair;
SELECT '';

CREATE TABLE checks (line INTEGER PRIMARY KEY, what TEXT, held INTEGER);
INSERT INTO checks (what, held)
SELECT pair || ': the pieces return the rows of the two tests, each once', tests = pieces AND missing = 0 AND beyond = 0
FROM outcome ORDER BY pair;
INSERT INTO checks (what, held)
SELECT pair || ': the one box bills rows wrongly', wrong > 0 AND one_box = tests + wrong
FROM outcome WHERE pair < '4' ORDER BY pair;

-- A reference without the extension: a zone by plain comparisons, longitude -180 being the place 180.
INSERT INTO checks (what, held)
SELECT a.pair || ': plain comparisons, without the extension, return the same rows',
    (SELECT group_concat(id) FROM (
        SELECT p.id FROM (SELECT id, lat, CASE WHEN lng = radians(-180) THEN radians(180) ELSE lng END AS lng FROM points) p
        WHERE p.lat BETWEEN a.lat_lo AND a.lat_hi AND p.lat BETWEEN b.lat_lo AND b.lat_hi
            AND CASE WHEN a.lng_lo <= a.lng_hi THEN p.lng BETWEEN a.lng_lo AND a.lng_hi ELSE p.lng >= a.lng_lo OR p.lng <= a.lng_hi END
            AND CASE WHEN b.lng_lo <= b.lng_hi THEN p.lng BETWEEN b.lng_lo AND b.lng_hi ELSE p.lng >= b.lng_lo OR p.lng <= b.lng_hi END
        ORDER BY p.id))
    IS (SELECT group_concat(id) FROM (SELECT id FROM by_rewrite w WHERE w.pair = a.pair AND w.how = 'pieces' ORDER BY id))
FROM zones a JOIN zones b ON a.pair = b.pair AND a.name = 'A' AND b.name = 'B' ORDER BY a.pair;

INSERT INTO checks (what, held) VALUES
('an end of a piece is an end of a zone, to the bit',
    (SELECT count(*) = 7 AND sum(EXISTS (SELECT 1 FROM zones z WHERE z.pair = r.pair AND z.lat_lo = p.lat_lo)
        AND EXISTS (SELECT 1 FROM zones z WHERE z.pair = r.pair AND z.lat_hi = p.lat_hi)
        AND EXISTS (SELECT 1 FROM zones z WHERE z.pair = r.pair AND z.lng_lo = p.lng_lo)
        AND EXISTS (SELECT 1 FROM zones z WHERE z.pair = r.pair AND z.lng_hi = p.lng_hi)) = 7
    FROM rewrites r, zone_pieces(r.blob) p WHERE r.how = 'pieces'));

-- Three zones, each the circle without a gap: three pieces.
CREATE TABLE three AS
SELECT 0.0 AS lat_lo, 1.0 AS lat_hi, radians(column1) AS lng_lo, radians(column2) AS lng_hi
FROM (VALUES (10, -10), (130, 110), (-110, -130));
INSERT INTO checks (what, held) VALUES
('three zones: three pieces, and the rows of the three tests',
    (SELECT count(*) = 3 FROM zone_pieces((SELECT zone_common(lat_lo, lat_hi, lng_lo, lng_hi) FROM three)))
    AND (SELECT group_concat(id) FROM (SELECT p.id FROM points p WHERE
            (SELECT min(zone_contains(z.lat_lo, z.lat_hi, z.lng_lo, z.lng_hi, p.lat, p.lng)) FROM three z) ORDER BY p.id))
      = (SELECT group_concat(id) FROM (SELECT p.id FROM points p,
            zone_pieces((SELECT zone_common(lat_lo, lat_hi, lng_lo, lng_hi) FROM three)) z
            WHERE zone_contains(z.lat_lo, z.lat_hi, z.lng_lo, z.lng_hi, p.lat, p.lng) ORDER BY p.id))),
('512 zones are accepted',
    (WITH RECURSIVE n (i) AS (VALUES (1) UNION ALL SELECT i + 1 FROM n WHERE i < 512)
     SELECT length(zone_common(0, 1, i / 1000.0, -1)) = 32 FROM n));

-- NULL, and the corners.
INSERT INTO checks (what, held) VALUES
('NULL in any place of zone_contains: NULL',
    zone_contains(NULL, 1, 0, 1, 0, 0) IS NULL AND zone_contains(0, NULL, 0, 1, 0, 0) IS NULL
    AND zone_contains(0, 1, NULL, 1, 0, 0) IS NULL AND zone_contains(0, 1, 0, NULL, 0, 0) IS NULL
    AND zone_contains(0, 1, 0, 1, NULL, 0) IS NULL AND zone_contains(0, 1, 0, 1, 0, NULL) IS NULL),
('a zone with a NULL is passed over by zone_common',
    (SELECT zone_common(lat_lo, lat_hi, lng_lo, lng_hi) FROM
        (SELECT * FROM zones WHERE pair LIKE '1%' UNION ALL SELECT NULL, 'C', 0, 1, NULL, 1))
    = (SELECT blob FROM rewrites WHERE pair LIKE '1%' AND how = 'pieces')),
('no zone, or none without a NULL: zone_common is NULL',
    (SELECT zone_common(lat_lo, lat_hi, lng_lo, lng_hi) IS NULL FROM zones WHERE pair = 'none')
    AND (SELECT zone_common(0, 1, NULL, 1) IS NULL)),
('zone_pieces of NULL: no rows', (SELECT count(*) = 0 FROM zone_pieces(NULL))),
('zones apart: a blob of no pieces, and not NULL', (SELECT blob = x'' FROM rewrites WHERE pair LIKE '5%' AND how = 'pieces')),
('no zone beside the full one: the whole globe',
    (SELECT lat_lo = -pi() / 2 AND lat_hi = pi() / 2 AND lng_lo = -pi() AND lng_hi = pi()
     FROM zone_pieces((SELECT zone_common(lat_lo, lat_hi, lng_lo, lng_hi) FROM
        (SELECT * FROM zones WHERE pair = 'none' UNION ALL SELECT NULL, 'full', -pi() / 2, pi() / 2, -pi(), pi()))))),
('edges belong to a zone, and whole numbers are numbers',
    zone_contains(0, 1, -1, 1, 0, -1) AND zone_contains(0, 1, -1, 1, 1, 1) AND NOT zone_contains(0, 1, -1, 1, 1, 2)),
('longitude -180 is the same place as 180', zone_contains(0, 1, 3, radians(180), 0, radians(-180)));

SELECT CASE held WHEN 1 THEN 'ok      ' ELSE 'FAILED  ' END || what FROM checks ORDER BY line;
