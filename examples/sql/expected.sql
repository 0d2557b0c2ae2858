-- What flights are to bring that wasn't checked in: sqlite3 -readonly -box fra.db < examples/sql/expected.sql
SELECT flight, date(day * 86400, 'unixepoch') AS day,
  printf('%03d-%07d%d', awb / 10000000, awb % 10000000, awb % 10000000 % 7) AS awb,
  pieces, printf('%.1f', tenths / 10.0) AS kg
FROM expected WHERE checked = 0 ORDER BY day, flight, awb;
