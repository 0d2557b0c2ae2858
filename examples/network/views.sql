-- The views of a network's books. They have no rows of their own, so you can run this again after a change:
-- psql -v ON_ERROR_STOP=1 -1 -f views.sql DATABASE
-- A view whose columns changed is dropped first, so a view of yours that reads one stops this; drop yours before.
DROP VIEW IF EXISTS network.tonnes, network.irregularity, network.underway, network.handover, network.shed,
    network.whereabouts, network.journey, network.freshness;

-- Which stations are behind, and why.
CREATE VIEW network.freshness AS
SELECT airport AS station, now() - copied_at AS behind, fault, program,
       coalesce((SELECT max(number) FROM network.message AS m WHERE m.station = s.airport), 0)
           - confirmed AS unconfirmed
FROM network.station AS s;

-- All moves of a waybill at all stations: WHERE awb = '020-12345675' ORDER BY moment, station, number
CREATE VIEW network.journey AS
SELECT m.awb, m.at AT TIME ZONE s.zone AS moment, m.station, m.number, m.at, m.origin, m.target, m.pieces, m.tenths,
       m.flight, m.day
FROM network.move AS m JOIN network.station AS s ON s.airport = m.station;

-- Where the pieces of a waybill are, by station and place, and since when the last of them are there.
CREATE VIEW network.whereabouts AS
SELECT awb, station, place, sum(pieces) AS pieces, sum(tenths) AS tenths, max(at) FILTER (WHERE pieces > 0) AS since
FROM (SELECT awb, station, target AS place, pieces, tenths, at FROM network.move
      UNION ALL
      SELECT awb, station, origin, -pieces, -tenths, at FROM network.move) AS sides
WHERE place NOT IN ('HAND', 'SURPLUS')
GROUP BY awb, station, place
HAVING sum(pieces) <> 0;

-- What is in store at each station, and since when: the last move that brought pieces in when none was in store. The
-- desk's report shed-days has the same rows.
CREATE VIEW network.shed AS
SELECT station, awb, sum(free) AS free, sum(free_tenths) AS free_tenths, sum(built) AS built,
       sum(built_tenths) AS built_tenths, max(at) FILTER (WHERE store > 0 AND store = change) AS since
FROM (SELECT station, awb, at, change, sum(change) OVER (PARTITION BY station, awb ORDER BY number) AS store,
             free, free_tenths, built, built_tenths
      FROM network.move,
           LATERAL (SELECT (target = 'FREE')::int - (origin = 'FREE')::int AS f,
                           (target = 'BUILT')::int - (origin = 'BUILT')::int AS b) AS side,
           LATERAL (SELECT f * pieces AS free, f * tenths AS free_tenths, b * pieces AS built,
                           b * tenths AS built_tenths, (f + b) * pieces AS change) AS amount) AS moves
GROUP BY station, awb
HAVING sum(change) > 0;

-- What left a station with a flight, against what the station where the flight unloads checked in from it. The point of
-- unloading is that of the DEP that the first station wrote. arrived is what was counted, less what was later reported
-- missing with that flight. It is null if the waybill isn't checked in from that flight. ours says whether the network
-- has that station.
CREATE VIEW network.handover AS
SELECT m.awb, m.flight, m.day, m.station, d.unload, u.airport IS NOT NULL AS ours,
       m.at AT TIME ZONE s.zone AS departed_at, m.pieces AS departed, m.tenths AS departed_tenths,
       i.pieces AS arrived, i.tenths AS arrived_tenths
FROM network.move AS m
JOIN network.station AS s ON s.airport = m.station
LEFT JOIN LATERAL (
      SELECT substring(t.text from '\r\nDEP/[A-Z0-9]+/[0-9]{2}[A-Z]{3}/[A-Z]{3}([A-Z]{3})/') AS unload
      FROM network.message AS t
      WHERE t.station = m.station AND t.awb = m.awb AND t.status = 'DEP'
        AND t.text LIKE '%' || E'\nDEP/' || m.flight || '/' || to_char(m.day, 'DDMON') || '/%'
      ORDER BY t.number DESC LIMIT 1) AS d ON true
LEFT JOIN network.station AS u ON u.airport = d.unload
LEFT JOIN LATERAL (
      SELECT sum(CASE WHEN target = 'FREE' THEN pieces WHEN origin = 'FREE' THEN -pieces ELSE 0 END) AS pieces,
             sum(CASE WHEN target = 'FREE' THEN tenths WHEN origin = 'FREE' THEN -tenths ELSE 0 END) AS tenths
      FROM network.move AS c
      WHERE c.awb = m.awb AND c.flight = m.flight AND c.day = m.day AND c.station = d.unload
        AND 'BUILT' NOT IN (c.origin, c.target)) AS i ON true
WHERE m.origin = 'BUILT' AND m.target = 'DEPARTED';

-- What left for a station of the network and isn't checked in there. WHERE day > current_date - 7 uses an index.
CREATE VIEW network.underway AS
SELECT awb, flight, day, station, unload, departed AS pieces, departed_tenths AS tenths, departed_at,
       now() - departed_at AS age
FROM network.handover WHERE ours AND arrived IS NULL;

-- Missing and found pieces of all stations, and since when. The desk's report irregularity-days has the same rows.
CREATE VIEW network.irregularity AS
SELECT station, awb, sum(missing) AS missing, sum(missing_tenths) AS missing_tenths, sum(found) AS found,
       sum(found_tenths) AS found_tenths, max(at) FILTER (WHERE total > 0 AND total = missing + found) AS since
FROM (SELECT station, awb, at, missing, missing_tenths, found, found_tenths,
             sum(missing + found) OVER (PARTITION BY station, awb ORDER BY number) AS total
      FROM network.move,
           LATERAL (SELECT (target = 'MISSING')::int - (origin = 'MISSING')::int AS m,
                           (origin = 'SURPLUS')::int - (target = 'SURPLUS')::int AS f) AS side,
           LATERAL (SELECT m * pieces AS missing, m * tenths AS missing_tenths, f * pieces AS found,
                           f * tenths AS found_tenths) AS amount
      WHERE 'MISSING' IN (origin, target) OR 'SURPLUS' IN (origin, target)) AS moves
GROUP BY station, awb
HAVING sum(missing) > 0 OR sum(found) > 0;

-- Tonnes a month, by station and airline: what departed with its flights, and what was checked in or found from them.
CREATE VIEW network.tonnes AS
SELECT date_trunc('month', at)::date AS month, station, left(flight, 2) AS airline,
       round(sum(tenths) FILTER (WHERE target = 'DEPARTED') / 10000.0, 4) AS departed,
       round(sum(tenths) FILTER (WHERE target = 'FREE' AND origin <> 'BUILT') / 10000.0, 4) AS arrived
FROM network.move
WHERE flight IS NOT NULL AND (target = 'DEPARTED' OR (target = 'FREE' AND origin <> 'BUILT'))
GROUP BY 1, 2, 3;

GRANT SELECT ON network.tonnes, network.irregularity, network.underway, network.handover, network.shed,
    network.whereabouts, network.journey, network.freshness TO network_reader;
