-- Begins a station's file with what is unfinished in its old one. `init` has just made the new file, for the same
-- airport; the old one is of version 2, and no program has it:
--     sqlite3 -bail -cmd "ATTACH 'file:fra.db?immutable=1' AS old" \
--         -cmd "CREATE TEMP TABLE since AS SELECT '2026-01-01' AS date" new.db < examples/sql/carry.sql
-- All rows are in the new file afterwards, or no row. The old file isn't written. examples/operating/carry runs this,
-- and compares both files. docs/OPERATING.md says what a new file no longer knows.
BEGIN;

-- The day counts from 1970-01-01, as in all tables.
CREATE TEMP TABLE first_day (day INTEGER CONSTRAINT the_date_is_a_day CHECK (day BETWEEN 10957 AND 47481));
INSERT INTO first_day
  SELECT coalesce((SELECT strftime('%s', date) / 86400 FROM since WHERE date(date) = date), 0);

-- A message that isn't confirmed would get another number, while its sender may hold the old one.
CREATE TEMP TABLE unconfirmed (messages INTEGER CONSTRAINT each_message_is_confirmed CHECK (messages = 0));
INSERT INTO unconfirmed SELECT count(*) FROM old.outbox, old.station WHERE number > confirmed;

-- A waybill is unfinished if pieces of it are in store (free or built) or missing, if an expectation of it is open, or
-- if it was moved or declared on that day or later. If the day of its declaration is unknown, it must have moves.
CREATE TEMP TABLE unfinished (awb INTEGER PRIMARY KEY);
INSERT OR IGNORE INTO unfinished SELECT awb FROM old.counts WHERE place IN (2, 6);
INSERT OR IGNORE INTO unfinished SELECT awb FROM old.build;
INSERT OR IGNORE INTO unfinished SELECT awb FROM old.expected WHERE checked = 0;
INSERT OR IGNORE INTO unfinished SELECT awb FROM old.moves WHERE day >= (SELECT day FROM first_day);
INSERT OR IGNORE INTO unfinished SELECT awb FROM old.waybill2 w WHERE since >= (SELECT day FROM first_day)
  OR since = 0 AND NOT EXISTS (SELECT 1 FROM old.moves m WHERE m.awb = w.awb);

-- The first waybill that left with each flight. A flight is closed exactly if a move departs with it.
CREATE TEMP TABLE first_gone (flight TEXT, day INTEGER, awb INTEGER, number INTEGER, PRIMARY KEY (flight, day));
INSERT INTO first_gone SELECT flight, fday, awb, min(number) FROM old.moves WHERE dst = 4 GROUP BY flight, fday;

-- Carried are the unfinished waybills. With a waybill that was built on a flight and didn't leave with it, the first
-- one that did leave with it is carried, and so on. `text` is the number as it is written.
CREATE TEMP TABLE carried (awb INTEGER PRIMARY KEY, text TEXT NOT NULL UNIQUE);
WITH RECURSIVE chosen (awb) AS (
  SELECT awb FROM unfinished
  UNION
  SELECT g.awb FROM chosen CROSS JOIN old.moves m ON m.awb = chosen.awb AND m.dst = 3
    CROSS JOIN first_gone g ON g.flight = m.flight AND g.day = m.fday
  WHERE NOT EXISTS (SELECT 1 FROM old.moves x
    WHERE x.awb = m.awb AND x.dst = 4 AND x.flight = m.flight AND x.fday = m.fday)
)
INSERT INTO carried
  SELECT awb, printf('%03d-%07d%d', awb / 10000000, awb % 10000000, awb % 10000000 % 7) FROM chosen ORDER BY awb;

-- What belongs to carried waybills. Moves and lines of the trail keep their order, and are numbered from 1.
INSERT INTO waybill2 (awb, origin, destination, pieces, tenths, goods, notified, since)
  SELECT awb, origin, destination, pieces, tenths, goods, notified, since FROM old.waybill2
  WHERE awb IN (SELECT awb FROM carried) ORDER BY awb;
INSERT INTO moves (number, awb, src, dst, pieces, tenths, flight, fday, day, minute)
  SELECT row_number() OVER (ORDER BY number), awb, src, dst, pieces, tenths, flight, fday, day, minute FROM old.moves
  WHERE awb IN (SELECT awb FROM carried) ORDER BY number;
INSERT INTO expected (flight, day, awb, pieces, tenths, checked)
  SELECT flight, day, awb, pieces, tenths, checked FROM old.expected
  WHERE awb IN (SELECT awb FROM carried) ORDER BY flight, day, awb;
INSERT INTO trail (number, awb, line)
  SELECT row_number() OVER (ORDER BY number), awb, line FROM old.trail
  WHERE awb IN (SELECT awb FROM carried) ORDER BY number;
INSERT INTO counts (awb, place, pieces, tenths)
  SELECT awb, place, pieces, tenths FROM old.counts WHERE awb IN (SELECT awb FROM carried) ORDER BY awb, place;
INSERT INTO build (flight, day, awb, pieces, tenths)
  SELECT flight, day, awb, pieces, tenths FROM old.build
  WHERE awb IN (SELECT awb FROM carried) ORDER BY flight, day, awb;

-- Flights on which a carried waybill was built, and open ones of that day or later. `text` is as in a command.
CREATE TEMP TABLE carried_flight (flight TEXT, day INTEGER, text TEXT NOT NULL UNIQUE, PRIMARY KEY (flight, day));
INSERT INTO carried_flight
  SELECT flight, day, flight || char(10) || date(day * 86400, 'unixepoch') FROM old.flight f
  WHERE closed = 0 AND day >= (SELECT day FROM first_day)
    OR (flight, day) IN (SELECT flight, fday FROM moves WHERE dst = 3);
INSERT INTO flight (flight, day, unload, closed)
  SELECT flight, day, unload, closed FROM old.flight
  WHERE (flight, day) IN (SELECT flight, day FROM carried_flight) ORDER BY flight, day;

-- Parts of manifests of flights of that day or later, or with an expectation of a carried waybill.
INSERT INTO part (flight, day, airport, seq, body)
  SELECT flight, day, airport, seq, body FROM old.part
  WHERE day >= (SELECT day FROM first_day) OR (flight, day) IN (SELECT flight, day FROM expected)
  ORDER BY flight, day, airport, seq;

-- The stock. Used numbers stay as long as their waybills are carried, as runs that are as long as possible.
INSERT INTO stock (prefix, low, high, holder, agent)
  SELECT prefix, low, high, holder, agent FROM old.stock WHERE holder <> 2 ORDER BY prefix, low;
INSERT INTO stock (prefix, low, high, holder, agent)
  SELECT prefix, min(serial), max(serial), 2, '' FROM (
    SELECT s.prefix, c.awb % 10000000 AS serial, c.awb - row_number() OVER (ORDER BY c.awb) AS run
    FROM old.stock s CROSS JOIN carried c
      ON c.awb BETWEEN s.prefix * 10000000 + s.low AND s.prefix * 10000000 + s.high
    WHERE s.holder = 2)
  GROUP BY prefix, run ORDER BY prefix, run;

-- Messages that name a carried waybill: an FSU in its second line, an FFM at the beginning of a line. They keep their
-- order, are numbered from 1, and are confirmed.
CREATE TEMP TABLE carried_message (number INTEGER PRIMARY KEY);
INSERT INTO carried_message SELECT number FROM old.outbox
  WHERE body GLOB 'FSU/*' AND substr(body, instr(body, char(10)) + 1, 12) IN (SELECT text FROM carried);
WITH RECURSIVE line (number, start, rest) AS (
  SELECT number, '', body || char(10) FROM old.outbox WHERE body GLOB 'FFM/*'
  UNION ALL
  SELECT number, substr(rest, 1, 12), substr(rest, instr(rest, char(10)) + 1) FROM line WHERE rest <> ''
)
INSERT OR IGNORE INTO carried_message SELECT number FROM line WHERE start IN (SELECT text FROM carried);
INSERT INTO outbox (number, body)
  SELECT row_number() OVER (ORDER BY number), body FROM old.outbox
  WHERE number IN (SELECT number FROM carried_message) ORDER BY number;
DELETE FROM station;
INSERT INTO station (id, airport, version, confirmed)
  SELECT id, airport, version, (SELECT count(*) FROM outbox) FROM old.station;

-- Keys of stock orders and of `book`, so that no late repeat acts, and of commands about carried flights and waybills.
-- No key of `confirm`, since it names a message by its old number.
CREATE TEMP VIEW accepted AS
  SELECT id, command, count, substr(command, 1, instr(command, char(10)) - 1) AS verb,
    substr(command, instr(command, char(10)) + 1) AS fields FROM old.kept_key;
INSERT INTO kept_key (id, command, count)
  SELECT id, command, count FROM accepted
  WHERE CASE
    WHEN verb IN ('take-in', 'issue', 'return', 'void', 'book') THEN 1
    WHEN verb = 'confirm' THEN 0
    WHEN verb IN ('depart', 'reroute') THEN
      substr(fields, 1, instr(fields, char(10)) + 10) IN (SELECT text FROM carried_flight)
    ELSE substr(fields, 1, 12) IN (SELECT text FROM carried) END
  ORDER BY id;

-- All FWBs and FFMs, so that no late repeat declares or announces again, and the FSUs of carried waybills.
INSERT INTO kept_text (body, count)
  SELECT body, count FROM old.kept_text
  WHERE body NOT GLOB 'FSU/*' OR substr(body, instr(body, char(10)) + 1, 12) IN (SELECT text FROM carried)
  ORDER BY body;

COMMIT;
SELECT 'carried: waybills ' || (SELECT count(*) FROM waybill2) || ' of ' || (SELECT count(*) FROM old.waybill2)
  || ', moves ' || (SELECT count(*) FROM moves) || ', trail ' || (SELECT count(*) FROM trail)
  || ', messages ' || (SELECT count(*) FROM outbox);
