-- Each row of a station's file of version 2 that isn't lawful, with its table, its key and the reason:
--     sqlite3 -readonly fra.db < examples/sql/audit.sql
-- If it finds nothing it prints nothing. It is written from the table in docs/FILES.md alone, so it is a second opinion
-- on `fault 601`. It doesn't test the texts of keys, commands, telegrams, parts, flights and names, the counts kept
-- under keys, fractions in columns without STRICT, nor what a place or a flight held in the middle of the book. The
-- program's opening tests them, and names the table.
.headers off
.mode list
.separator "  "
WITH
moved(awb, place, pieces, tenths, flight, fday) AS (
  SELECT awb, dst, pieces, tenths, flight, fday FROM moves
  UNION ALL SELECT awb, src, -pieces, -tenths, flight, fday FROM moves
),
sums(awb, place, pieces, tenths) AS (
  SELECT awb, place, sum(pieces), sum(tenths) FROM moved WHERE place <> 3 GROUP BY 1, 2
  HAVING sum(pieces) <> 0 OR sum(tenths) <> 0
),
loads(flight, day, awb, pieces, tenths) AS (
  SELECT flight, fday, awb, sum(pieces), sum(tenths) FROM moved WHERE place = 3 GROUP BY 1, 2, 3
  HAVING sum(pieces) <> 0 OR sum(tenths) <> 0
),
departed(flight, day, last) AS (
  SELECT flight, fday, max(number) FROM moves WHERE src = 3 AND dst = 4 GROUP BY 1, 2
),
found(name, key, reason) AS (
  SELECT 'station', id, 'id isn''t 1' FROM station WHERE id <> 1
  UNION ALL SELECT 'station', count(*), 'there isn''t exactly one row' FROM station HAVING count(*) <> 1
  UNION ALL SELECT 'station', id, 'airport isn''t three letters' FROM station
    WHERE airport NOT GLOB '[A-Z][A-Z][A-Z]'
  UNION ALL SELECT 'station', id, 'version isn''t 2' FROM station WHERE version <> 2
  UNION ALL SELECT 'waybill', awb, 'a file of version 2 has no row here' FROM waybill
  UNION ALL SELECT 'waybill2', awb, 'no waybill number' FROM waybill2 WHERE awb NOT BETWEEN 0 AND 9999999999
  UNION ALL SELECT 'waybill2', awb, 'pieces aren''t 1 to 9999' FROM waybill2 WHERE pieces NOT BETWEEN 1 AND 9999
  UNION ALL SELECT 'waybill2', awb, 'tenths aren''t one a piece to 999999' FROM waybill2
    WHERE tenths NOT BETWEEN pieces AND 999999
  UNION ALL SELECT 'waybill2', awb, 'origin or destination isn''t three letters' FROM waybill2
    WHERE origin NOT GLOB '[A-Z][A-Z][A-Z]' OR destination NOT GLOB '[A-Z][A-Z][A-Z]'
  UNION ALL SELECT 'waybill2', awb, 'goods have more than 15 characters, or end in a space' FROM waybill2
    WHERE length(goods) > 15 OR goods GLOB '* '
  UNION ALL SELECT 'waybill2', awb, 'notified isn''t 0 or 1' FROM waybill2 WHERE notified NOT IN (0, 1)
  UNION ALL SELECT 'waybill2', awb, 'since isn''t 0 or a day from 2000-01-01 to 2099-12-31' FROM waybill2
    WHERE since <> 0 AND since NOT BETWEEN 10957 AND 47481
  UNION ALL SELECT 'stock', prefix || '/' || low, 'prefix, low or high is out of range' FROM stock
    WHERE prefix NOT BETWEEN 0 AND 999 OR low < 0 OR high > 9999999 OR low > high
  UNION ALL SELECT 'stock', prefix || '/' || low, 'no holder, or an agent that doesn''t fit it' FROM stock
    WHERE NOT (holder = 1 AND length(agent) BETWEEN 1 AND 11 AND agent NOT GLOB '*[^A-Z0-9]*'
      OR holder IN (0, 2, 3) AND agent = '')
  UNION ALL SELECT 'stock', prefix || '/' || low, 'it has a number of a row before it' FROM (
      SELECT prefix, low, max(high) OVER (
        PARTITION BY prefix ORDER BY low ROWS BETWEEN UNBOUNDED PRECEDING AND 1 PRECEDING) AS before
      FROM stock)
    WHERE before >= low
  UNION ALL SELECT 'stock', s.prefix || '/' || s.low, 'used numbers that aren''t declared' FROM stock s
    WHERE s.holder = 2 AND s.high - s.low + 1 <> (SELECT count(*) FROM waybill2 w
      WHERE w.awb BETWEEN s.prefix * 10000000 + s.low AND s.prefix * 10000000 + s.high)
  UNION ALL SELECT 'flight', flight || '/' || day, 'it is unloaded here' FROM flight
    WHERE unload = (SELECT airport FROM station)
  UNION ALL SELECT 'flight', flight || '/' || day, 'closed isn''t 0 or 1' FROM flight WHERE closed NOT IN (0, 1)
  UNION ALL SELECT 'flight', flight || '/' || day, 'it is closed and nothing departed with it, or the other way round'
    FROM flight f WHERE closed <> EXISTS (SELECT 1 FROM departed d WHERE d.flight = f.flight AND d.day = f.day)
  UNION ALL SELECT 'moves', number, 'its number isn''t its place in the book' FROM (
      SELECT number, row_number() OVER (ORDER BY number) AS place FROM moves)
    WHERE place <> number
  UNION ALL SELECT 'moves', number, 'the waybill isn''t declared' FROM moves WHERE awb NOT IN (SELECT awb FROM waybill2)
  UNION ALL SELECT 'moves', number, 'no move goes from ' || src || ' to ' || dst FROM moves
    WHERE (src, dst) NOT IN (VALUES (0,2),(0,6),(1,2),(2,0),(2,3),(3,2),(3,4),(2,5),(2,6),(6,2),(2,7))
  UNION ALL SELECT 'moves', number, 'pieces or tenths are out of range' FROM moves
    WHERE pieces NOT BETWEEN 1 AND 9999 OR tenths NOT BETWEEN 0 AND 999999
  UNION ALL SELECT 'moves', number, 'its flight isn''t noted' FROM moves m
    WHERE (src = 3 OR dst = 3) AND NOT EXISTS (SELECT 1 FROM flight f WHERE f.flight = m.flight AND f.day = m.fday)
  UNION ALL SELECT 'moves', number, 'a flight without a day, or a day without a flight' FROM moves
    WHERE (flight = '') <> (fday = 0)
  UNION ALL SELECT 'moves', m.number, 'it builds on a flight that had departed' FROM moves m
    JOIN departed d ON m.flight = d.flight AND m.fday = d.day AND m.dst = 3 AND m.number > d.last
  UNION ALL SELECT 'expected', flight || '/' || day || '/' || awb, 'the waybill isn''t declared' FROM expected
    WHERE awb NOT IN (SELECT awb FROM waybill2)
  UNION ALL SELECT 'expected', flight || '/' || day || '/' || awb, 'pieces, tenths or checked are out of range'
    FROM expected WHERE pieces NOT BETWEEN 1 AND 9999 OR tenths NOT BETWEEN pieces AND 999999 OR checked NOT IN (0, 1)
  UNION ALL SELECT 'trail', number, 'its number isn''t its place' FROM (
      SELECT number, row_number() OVER (ORDER BY number) AS place FROM trail)
    WHERE place <> number
  UNION ALL SELECT 'trail', number, 'the waybill isn''t declared' FROM trail WHERE awb NOT IN (SELECT awb FROM waybill2)
  UNION ALL SELECT 'trail', number, 'more than 255 characters, or one that isn''t printable ASCII' FROM trail
    WHERE length(line) > 255 OR line GLOB '*[^ -~]*'
  UNION ALL SELECT 'outbox', number, 'its number isn''t its place' FROM (
      SELECT number, row_number() OVER (ORDER BY number) AS place FROM outbox)
    WHERE place <> number
  UNION ALL SELECT 'outbox', confirmed, 'messages are confirmed that aren''t there' FROM station
    WHERE confirmed > (SELECT count(*) FROM outbox)
  UNION ALL SELECT 'kept_text', flight || '/' || day || '/' || airport || '/' || seq, 'the text of this part isn''t kept'
    FROM part WHERE body NOT IN (SELECT body FROM kept_text)
  UNION ALL SELECT 'counts', coalesce(b.awb, c.awb) || '/' || coalesce(b.place, c.place),
      coalesce(c.pieces || ' at ' || c.tenths, 'no row') || ', where the book comes to '
      || coalesce(b.pieces || ' at ' || b.tenths, 'nothing')
    FROM sums b FULL JOIN counts c ON c.awb = b.awb AND c.place = b.place
    WHERE (b.pieces, b.tenths) IS NOT (c.pieces, c.tenths)
  UNION ALL SELECT 'build', coalesce(b.flight, c.flight) || '/' || coalesce(b.day, c.day) || '/' || coalesce(b.awb, c.awb),
      coalesce(c.pieces || ' at ' || c.tenths, 'no row') || ', where the book comes to '
      || coalesce(b.pieces || ' at ' || b.tenths, 'nothing')
    FROM loads b FULL JOIN build c ON c.flight = b.flight AND c.day = b.day AND c.awb = b.awb
    WHERE (b.pieces, b.tenths) IS NOT (c.pieces, c.tenths)
  UNION ALL SELECT 'counts', awb || '/' || place, 'below nothing, or fewer tenths than pieces, or tenths alone' FROM counts
    WHERE place NOT IN (0, 1) AND (pieces < 0 OR tenths < pieces OR (pieces = 0) <> (tenths = 0))
  UNION ALL SELECT 'counts', awb || '/0', 'more went back to hand than came from it' FROM counts
    WHERE place = 0 AND (pieces > 0 OR tenths > 0)
  UNION ALL SELECT 'counts', awb, 'received and found are above 9999 pieces or 999999 tenths' FROM counts
    WHERE place IN (0, 1) GROUP BY awb HAVING sum(pieces) < -9999 OR sum(tenths) < -999999
  UNION ALL SELECT 'build', flight || '/' || day, 'more than 500 waybills are on the flight' FROM build
    GROUP BY flight, day HAVING count(*) > 500
)
SELECT * FROM found;
