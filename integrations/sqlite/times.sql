-- A million points, evenly over the sphere, and the story's zones: what README.md's queries are asked of. integrations/sqlite/run
-- looks at their plans with fewer points, and takes their times where it is called with --times.
CREATE TABLE points (id INTEGER PRIMARY KEY, lat REAL, lng REAL, ship TEXT);
WITH RECURSIVE draw (id, x, y) AS (
    VALUES (1, 1940, 1940 * 48271)
    UNION ALL
    SELECT id + 1, y * 48271 % 2147483647, (y * 48271 % 2147483647) * 48271 % 2147483647 FROM draw WHERE id < 1000000
)
INSERT INTO points SELECT id, asin(2 * x / 2147483647.0 - 1), radians(360 * y / 2147483647.0 - 180), 'ship ' || id FROM draw;

CREATE TABLE zones (name TEXT, lat_lo REAL, lat_hi REAL, lng_lo REAL, lng_hi REAL);
INSERT INTO zones VALUES
    ('A', radians(40), radians(60), radians(-100), radians(100)),
    ('B', radians(45), radians(70), radians(80), radians(-80));
