-- What lies free in the shed, waybill by waybill: sqlite3 -readonly -box fra.db < examples/sql/shed.sql
SELECT printf('%03d-%07d%d', c.awb / 10000000, c.awb % 10000000, c.awb % 10000000 % 7) AS awb,
  origin || destination AS route, c.pieces AS free, printf('%.1f', c.tenths / 10.0) AS kg,
  CASE WHEN destination = (SELECT airport FROM station) THEN iif(notified, 'notified', 'to notify')
    ELSE 'outbound' END AS next,
  goods
FROM counts c JOIN waybill2 w ON w.awb = c.awb WHERE place = 2 ORDER BY c.awb;
