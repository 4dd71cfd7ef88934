-- The demonstration goes on: zone_ranges, whose rows comparisons and an index can use. integrations/sqlite/run reads this after
-- demo.sql, whose tables it uses.

-- Regions of all kinds: the rewrites, zones that meet the 180th meridian in each way, three pieces, and 60 that the points draw.
CREATE TABLE regions (name TEXT PRIMARY KEY, blob BLOB);
INSERT INTO regions SELECT pair || ', ' || how, blob FROM rewrites;
INSERT INTO regions
SELECT column1 || ' to ' || column2, zone_common(radians(-60), radians(60), radians(column1), radians(column2))
FROM (VALUES (160, 170), (170, 180), (170, -170), (180, -170), (180, 180), (-179, 180), (-180, 180)) GROUP BY column1, column2;
INSERT INTO regions SELECT 'three', zone_common(lat_lo, lat_hi, lng_lo, lng_hi) FROM three;
INSERT INTO regions
SELECT 'drawn ' || (id / 3), zone_common(-abs(lat), 1, lng, CASE WHEN lng > -2.9 THEN lng - 0.2 ELSE lng + 6 END) FROM points
WHERE id BETWEEN 3 AND 182 GROUP BY id / 3;

SELECT '';
SELECT 'longitudes   their ranges';
SELECT printf('%-12s %s', name, group_concat(printf('%g to %g', degrees(lng_lo), degrees(lng_hi)), ', '))
FROM (SELECT g.rowid AS place, g.name, r.* FROM regions g, zone_ranges(g.blob) r
    WHERE g.name LIKE '1%0 to %' OR g.name LIKE '-1%' ORDER BY g.rowid, r.rowid) GROUP BY place;
SELECT '';

-- Where they are tried: at each region's corners and the numbers beside them, at all points on the 180th meridian, and at
-- every fiftieth point.
CREATE TABLE places (id INTEGER PRIMARY KEY, region TEXT, lat REAL, lng REAL);
WITH step (s) AS (VALUES (-1), (0), (1)),
    ends (name, lat, lng) AS (
        SELECT name, lat_lo, lng_lo FROM regions, zone_ranges(blob)
        UNION SELECT name, lat_hi, lng_hi FROM regions, zone_ranges(blob)
        UNION SELECT name, lat_lo, lng_hi FROM regions, zone_ranges(blob)),
    near (name, lat, lng) AS (
        SELECT name, lat * (1 + y.s * 2.3e-16) + y.s * 1e-300, lng * (1 + x.s * 2.3e-16) + x.s * 1e-300 FROM ends, step x, step y)
INSERT INTO places (region, lat, lng) SELECT name, lat, lng FROM near WHERE abs(lat) <= pi() / 2 AND abs(lng) <= pi();
INSERT INTO places (lat, lng) SELECT lat, lng FROM points WHERE id % 50 = 0 OR abs(lng) = pi();

CREATE TABLE held AS
SELECT 'pieces' AS how, g.name, q.id FROM regions g, zone_pieces(g.blob) z, places q
WHERE ifnull(q.region = g.name, 1) AND zone_contains(z.lat_lo, z.lat_hi, z.lng_lo, z.lng_hi, q.lat, q.lng)
UNION ALL
SELECT 'ranges', g.name, q.id FROM regions g, zone_ranges(g.blob) r, places q
WHERE ifnull(q.region = g.name, 1) AND q.lat BETWEEN r.lat_lo AND r.lat_hi AND q.lng BETWEEN r.lng_lo AND r.lng_hi;

DELETE FROM checks;
INSERT INTO checks (what, held) VALUES
('ranges hold what the pieces hold, each place once, in all 78 regions',
    (SELECT count(*) = 78 FROM regions)
    AND (SELECT group_concat(name || ':' || id) FROM (SELECT * FROM held WHERE how = 'pieces' ORDER BY name, id))
      = (SELECT group_concat(name || ':' || id) FROM (SELECT * FROM held WHERE how = 'ranges' ORDER BY name, id))),
('a range has lng_lo <= lng_hi, and starts above the end of the one before',
    (SELECT min(lng_lo <= lng_hi AND lng_lo > west) FROM
        (SELECT lng_lo, lng_hi, lag(lng_hi, 1, -4) OVER (PARTITION BY name ORDER BY r.rowid) AS west FROM regions, zone_ranges(blob) r))),
('a range has the latitudes of its piece, and lies in it',
    (SELECT min(r.lat_lo = p.lat_lo AND r.lat_hi = p.lat_hi AND
        zone_contains(p.lat_lo, p.lat_hi, p.lng_lo, p.lng_hi, r.lat_lo, r.lng_lo) AND
        zone_contains(p.lat_lo, p.lat_hi, p.lng_lo, p.lng_hi, r.lat_hi, r.lng_hi))
     FROM regions g, zone_ranges(g.blob) r JOIN zone_pieces(g.blob) p ON p.piece = r.piece)),
('zone_ranges of NULL, and of no pieces: no rows',
    (SELECT count(*) = 0 FROM zone_ranges(NULL)) AND (SELECT count(*) = 0 FROM zone_ranges(x''))),
('the blob of 512 pieces is taken',
    (WITH RECURSIVE n (i) AS (VALUES (0) UNION ALL SELECT i + 1 FROM n WHERE i < 511),
        many (blob) AS (SELECT zone_common(0, 1, (i + 1) / 100.0 - 3, (i + 0.5) / 100.0 - 3) FROM n)
     SELECT (SELECT count(*) FROM many, zone_pieces(blob)) = 512 AND (SELECT count(*) FROM many, zone_ranges(blob)) = 513));

-- The rows that pay: comparisons over the ranges, by an index.
CREATE INDEX points_place ON points (lng, lat);
CREATE TABLE by_ranges AS
SELECT w.pair, p.id FROM rewrites w, zone_ranges(w.blob) r, points p
WHERE w.how = 'pieces' AND p.lng BETWEEN r.lng_lo AND r.lng_hi AND p.lat BETWEEN r.lat_lo AND r.lat_hi;
INSERT INTO checks (what, held)
SELECT pair || ': comparisons over the ranges return the rows of the two tests, each once',
    (SELECT group_concat(id) FROM (SELECT id FROM by_ranges w WHERE w.pair = o.pair ORDER BY id))
    IS (SELECT group_concat(id) FROM (SELECT id FROM by_tests t WHERE t.pair = o.pair ORDER BY id))
FROM outcome o ORDER BY pair;

SELECT CASE held WHEN 1 THEN 'ok      ' ELSE 'FAILED  ' END || what FROM checks ORDER BY line;
