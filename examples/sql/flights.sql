-- Flights out, with what is built on them: sqlite3 -readonly -box fra.db < examples/sql/flights.sql
SELECT f.flight, date(f.day * 86400, 'unixepoch') AS day, unload, iif(closed, 'departed', 'open') AS state,
  count(b.awb) AS waybills, coalesce(sum(b.pieces), 0) AS pieces,
  printf('%.1f', coalesce(sum(b.tenths), 0) / 10.0) AS kg
FROM flight f LEFT JOIN build b ON b.flight = f.flight AND b.day = f.day
GROUP BY f.flight, f.day ORDER BY f.day, f.flight;
