-- The demonstration's end, for an SQLite with R*Trees: each line that it writes has the word in it, so that integrations/sqlite/run
-- can do without. It uses the tables of demo.sql and ranges.sql.

-- A tree of every fifth point, and of point 0, which lies 11 cm south of the story's second piece: a tree keeps 32-bit numbers,
-- rounded so that its boxes only grow.
INSERT INTO points VALUES (0, radians(44.999999), radians(95));
CREATE VIRTUAL TABLE points_tree USING rtree (id, lat_lo, lat_hi, lng_lo, lng_hi);
INSERT INTO points_tree SELECT id, lat, lat, lng, lng FROM points WHERE id % 5 = 0;

CREATE TABLE by_tree AS
SELECT w.pair, p.id, p.lat BETWEEN r.lat_lo AND r.lat_hi AND p.lng BETWEEN r.lng_lo AND r.lng_hi AS held
FROM rewrites w CROSS JOIN zone_ranges(w.blob) r CROSS JOIN points_tree t CROSS JOIN points p
WHERE w.how = 'pieces' AND t.lng_hi >= r.lng_lo AND t.lng_lo <= r.lng_hi AND t.lat_hi >= r.lat_lo AND t.lat_lo <= r.lat_hi
    AND p.id = t.id;

DELETE FROM checks;
INSERT INTO checks (what, held)
SELECT pair || ': the R*Tree and the comparisons return the rows of the two tests, of every fifth point',
    (SELECT group_concat(id) FROM (SELECT id FROM by_tree w WHERE w.pair = o.pair AND held ORDER BY id))
    IS (SELECT group_concat(id) FROM (SELECT id FROM by_tests t WHERE t.pair = o.pair AND id % 5 = 0 ORDER BY id))
FROM outcome o ORDER BY pair;
INSERT INTO checks (what, held) VALUES
('the R*Tree by itself returns a point 11 cm outside, and the comparisons do not',
    (SELECT group_concat(pair || ':' || held) = '1 the story''s:0' FROM by_tree WHERE id = 0));

SELECT CASE held WHEN 1 THEN 'ok      ' ELSE 'FAILED  ' END || what FROM checks ORDER BY line;
