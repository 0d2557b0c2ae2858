-- Copies a station of version 2 into a new file, which `init` has just made:
--     sqlite3 -bail -cmd "ATTACH 'fra.db' AS old" new.db < examples/sql/copy.sql
-- The new file is declared and laid out as `init` does it, whatever became of the old one. All rows are copied, or no row.
BEGIN;
DELETE FROM station;
INSERT INTO station (id, airport, version, confirmed) SELECT id, airport, version, confirmed FROM old.station;
INSERT INTO waybill2 (awb, origin, destination, pieces, tenths, goods, notified, since)
  SELECT awb, origin, destination, pieces, tenths, goods, notified, since FROM old.waybill2;
INSERT INTO stock (prefix, low, high, holder, agent) SELECT prefix, low, high, holder, agent FROM old.stock;
INSERT INTO flight (flight, day, unload, closed) SELECT flight, day, unload, closed FROM old.flight;
INSERT INTO moves (number, awb, src, dst, pieces, tenths, flight, fday, day, minute)
  SELECT number, awb, src, dst, pieces, tenths, flight, fday, day, minute FROM old.moves;
INSERT INTO expected (flight, day, awb, pieces, tenths, checked)
  SELECT flight, day, awb, pieces, tenths, checked FROM old.expected;
INSERT INTO part (flight, day, airport, seq, body) SELECT flight, day, airport, seq, body FROM old.part;
INSERT INTO trail (number, awb, line) SELECT number, awb, line FROM old.trail;
INSERT INTO outbox (number, body) SELECT number, body FROM old.outbox;
INSERT INTO kept_key (id, command, count) SELECT id, command, count FROM old.kept_key;
INSERT INTO kept_text (body, count) SELECT body, count FROM old.kept_text;
INSERT INTO counts (awb, place, pieces, tenths) SELECT awb, place, pieces, tenths FROM old.counts;
INSERT INTO build (flight, day, awb, pieces, tenths) SELECT flight, day, awb, pieces, tenths FROM old.build;
COMMIT;
