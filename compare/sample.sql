-- The sample tables of pgRouting's documentation: the statements of the page "Sample Data" of the manual of pgRouting 3.4.2
-- (Debian's postgresql-15-pgrouting-doc 3.4.2-1), by the pgRouting Contributors, under CC BY-SA 3.0.
CREATE TABLE edges (id BIGSERIAL PRIMARY KEY, source BIGINT, target BIGINT, cost FLOAT, reverse_cost FLOAT,
  capacity BIGINT, reverse_capacity BIGINT, x1 FLOAT, y1 FLOAT, x2 FLOAT, y2 FLOAT, geom geometry);
INSERT INTO edges (cost, reverse_cost, capacity, reverse_capacity, geom) VALUES
( 1,  1,  80, 130, ST_MakeLine(ST_POINT(2, 0), ST_POINT(2, 1))),
(-1,  1,  -1, 100, ST_MakeLine(ST_POINT(2, 1), ST_POINT(3, 1))),
(-1,  1,  -1, 130, ST_MakeLine(ST_POINT(3, 1), ST_POINT(4, 1))),
( 1,  1, 100,  50, ST_MakeLine(ST_POINT(2, 1), ST_POINT(2, 2))),
( 1, -1, 130,  -1, ST_MakeLine(ST_POINT(3, 1), ST_POINT(3, 2))),
( 1,  1,  50, 100, ST_MakeLine(ST_POINT(0, 2), ST_POINT(1, 2))),
( 1,  1,  50, 130, ST_MakeLine(ST_POINT(1, 2), ST_POINT(2, 2))),
( 1,  1, 100, 130, ST_MakeLine(ST_POINT(2, 2), ST_POINT(3, 2))),
( 1,  1, 130,  80, ST_MakeLine(ST_POINT(3, 2), ST_POINT(4, 2))),
( 1,  1, 130,  50, ST_MakeLine(ST_POINT(2, 2), ST_POINT(2, 3))),
( 1, -1, 130,  -1, ST_MakeLine(ST_POINT(3, 2), ST_POINT(3, 3))),
( 1, -1, 100,  -1, ST_MakeLine(ST_POINT(2, 3), ST_POINT(3, 3))),
( 1, -1, 100,  -1, ST_MakeLine(ST_POINT(3, 3), ST_POINT(4, 3))),
( 1,  1,  80, 130, ST_MakeLine(ST_POINT(2, 3), ST_POINT(2, 4))),
( 1,  1,  80,  50, ST_MakeLine(ST_POINT(4, 2), ST_POINT(4, 3))),
( 1,  1,  80,  80, ST_MakeLine(ST_POINT(4, 1), ST_POINT(4, 2))),
( 1,  1, 130, 100, ST_MakeLine(ST_POINT(0.5, 3.5), ST_POINT(1.999999999999, 3.5))),
( 1,  1,  50, 130, ST_MakeLine(ST_POINT(3.5, 2.3), ST_POINT(3.5, 4)));
SELECT * INTO vertices FROM pgr_extractVertices('SELECT id, geom FROM edges ORDER BY id');
UPDATE edges AS e SET source = v.id, x1 = x, y1 = y FROM vertices AS v WHERE ST_StartPoint(e.geom) = v.geom;
UPDATE edges AS e SET target = v.id, x2 = x, y2 = y FROM vertices AS v WHERE ST_EndPoint(e.geom) = v.geom;
CREATE TABLE pointsOfInterest (pid BIGSERIAL PRIMARY KEY, edge_id BIGINT, side CHAR, fraction FLOAT, geom geometry, newPoint geometry);
INSERT INTO pointsOfInterest (geom) VALUES
(ST_POINT(1.8, 0.4)), (ST_POINT(4.2, 2.4)), (ST_POINT(2.6, 3.2)), (ST_POINT(0.3, 1.8)), (ST_POINT(2.9, 1.8)), (ST_POINT(2.2, 1.7));
UPDATE pointsOfInterest AS p SET edge_id = q.edge_id, side = q.side, fraction = q.fraction, newPoint = ST_endPoint(q.edge)
FROM (SELECT * FROM pgr_findCloseEdges($$SELECT id, geom FROM edges$$, (SELECT array_agg(geom) FROM pointsOfInterest), 0.5, partial => false)) AS q
WHERE p.geom = q.geom;
UPDATE pointsOfInterest SET side = 'b' WHERE pid = 6;
CREATE TABLE combinations (source BIGINT, target BIGINT);
INSERT INTO combinations (source, target) VALUES (5, 6), (5, 10), (6, 5), (6, 15), (6, 14);
CREATE TABLE restrictions (id SERIAL PRIMARY KEY, path BIGINT[], cost FLOAT);
INSERT INTO restrictions (path, cost) VALUES
(ARRAY[4, 7], 100), (ARRAY[8, 11], 100), (ARRAY[7, 10], 100), (ARRAY[3, 5, 9], 4), (ARRAY[9, 16], 100);
