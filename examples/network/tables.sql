-- The tables of a network's books, version 1. Once, as a superuser: psql -v ON_ERROR_STOP=1 -1 -f tables.sql DATABASE
-- Each row of move, trail and message is a row of one station's file, under its number there: rows are numbered from 1
-- without gaps and never change. views.sql has the views.

CREATE SCHEMA network;
COMMENT ON SCHEMA network IS 'copies of the books of several cargo desks; each desk is the only writer of its station';

-- The version of these tables. `collect` works with version 1 only.
CREATE TABLE network.version (
    number  integer PRIMARY KEY,
    made_at timestamptz NOT NULL DEFAULT now()
);
INSERT INTO network.version (number) VALUES (1);

CREATE DOMAIN network.airport AS text CHECK (VALUE ~ '^[A-Z]{3}$');
CREATE DOMAIN network.awb AS text CHECK (VALUE ~ '^[0-9]{3}-[0-9]{8}$');
COMMENT ON DOMAIN network.awb IS 'a waybill number with its check digit, such as 020-12345675';

CREATE TYPE network.place AS ENUM
    ('HAND', 'SURPLUS', 'FREE', 'BUILT', 'DEPARTED', 'DELIVERED', 'MISSING', 'TRANSFER');
COMMENT ON TYPE network.place IS
'HAND: outside, as declared or announced. SURPLUS: outside, more than that. FREE: in store. BUILT: in store, built on a
flight that hasn''t departed. DEPARTED: left with a flight. DELIVERED: with the consignee. MISSING: announced or
received, and not there. TRANSFER: handed to another airline.';

CREATE TABLE network.station (
    airport   network.airport PRIMARY KEY,
    url       text NOT NULL CHECK (url ~ '^https?://[^/]+(/.*)?$'),
    zone      text NOT NULL DEFAULT 'UTC' CHECK (now() AT TIME ZONE zone IS NOT NULL),
    tried_at  timestamptz,
    copied_at timestamptz,
    fault     text,
    program   text,
    confirmed bigint
);
COMMENT ON TABLE network.station IS 'the stations that are copied; the owner adds them';
COMMENT ON COLUMN network.station.url IS 'where the desk or its proxy is, without /v1';
COMMENT ON COLUMN network.station.zone IS 'the zone of the desk''s local time, such as Europe/Berlin';
COMMENT ON COLUMN network.station.tried_at IS 'the start of the last try to copy it';
COMMENT ON COLUMN network.station.copied_at IS 'the start of the last try that copied all its rows';
COMMENT ON COLUMN network.station.fault IS 'why the last try failed; null if it didn''t';
COMMENT ON COLUMN network.station.program IS 'the version of its program at that time';
COMMENT ON COLUMN network.station.confirmed IS 'the number of its last confirmed message at that time';

CREATE TABLE network.move (
    station network.airport NOT NULL REFERENCES network.station,
    number  bigint NOT NULL,
    at      timestamp NOT NULL,
    awb     network.awb NOT NULL,
    origin  network.place NOT NULL,
    target  network.place NOT NULL,
    pieces  integer NOT NULL,
    tenths  integer NOT NULL,
    flight  text,
    day     date,
    PRIMARY KEY (station, number),
    CHECK ((flight IS NULL) = (day IS NULL))
);
COMMENT ON TABLE network.move IS 'the movement books';
COMMENT ON COLUMN network.move.at IS 'local time of the station, to the minute';
COMMENT ON COLUMN network.move.origin IS 'the place that the pieces left; "from" in the desk''s JSON';
COMMENT ON COLUMN network.move.target IS 'the place that they came to; "to" in the desk''s JSON';
COMMENT ON COLUMN network.move.tenths IS 'tenths of a kilogram';
COMMENT ON COLUMN network.move.flight IS 'the flight, such as LH400; its first two characters are the airline';
COMMENT ON COLUMN network.move.day IS 'the flight''s day';
CREATE INDEX move_awb ON network.move (awb, station, number);
CREATE INDEX move_flight ON network.move (flight, day) WHERE flight IS NOT NULL;
CREATE INDEX move_departed ON network.move (day) WHERE target = 'DEPARTED';

CREATE TABLE network.trail (
    station network.airport NOT NULL REFERENCES network.station,
    number  bigint NOT NULL,
    awb     network.awb NOT NULL,
    line    text NOT NULL,
    PRIMARY KEY (station, number)
);
COMMENT ON TABLE network.trail IS 'lines of status messages that arrived';
CREATE INDEX trail_awb ON network.trail (awb);

CREATE TABLE network.message (
    station network.airport NOT NULL REFERENCES network.station,
    number  bigint NOT NULL,
    text    text NOT NULL,
    awb     text GENERATED ALWAYS AS (substring(text from '^FSU/[0-9]+\r\n([0-9]{3}-[0-9]{8})')) STORED,
    status  text GENERATED ALWAYS AS (substring(text from '^FSU/[0-9]+\r\n[^\r]*\r\n([A-Z]{3})/')) STORED,
    PRIMARY KEY (station, number)
);
COMMENT ON TABLE network.message IS 'the messages of the outboxes, confirmed or not';
COMMENT ON COLUMN network.message.awb IS 'the waybill of an FSU; null for an FFM';
COMMENT ON COLUMN network.message.status IS 'the status of an FSU, such as RCS; null for an FFM';
CREATE INDEX message_awb ON network.message (awb, status) WHERE awb IS NOT NULL;

-- Forgets what was copied of a station, so that it is copied again from its first row: for a station that was replaced
-- by a back-up or by another one. Only the owner may.
CREATE FUNCTION network.forget(airport network.airport) RETURNS void LANGUAGE sql AS $$
    DELETE FROM network.move WHERE station = $1;
    DELETE FROM network.trail WHERE station = $1;
    DELETE FROM network.message WHERE station = $1;
    UPDATE network.station AS s SET copied_at = NULL, fault = NULL, confirmed = NULL WHERE s.airport = $1;
$$;
REVOKE EXECUTE ON FUNCTION network.forget FROM PUBLIC;

-- `collect` adds rows and says how a try ended. It can't change or delete a row. Readers read.
DO $$
BEGIN
    IF NOT EXISTS (SELECT FROM pg_roles WHERE rolname = 'network_collector') THEN
        CREATE ROLE network_collector NOLOGIN;
    END IF;
    IF NOT EXISTS (SELECT FROM pg_roles WHERE rolname = 'network_reader') THEN
        CREATE ROLE network_reader NOLOGIN;
    END IF;
END $$;
GRANT USAGE ON SCHEMA network TO network_collector, network_reader;
GRANT SELECT ON network.version, network.station, network.move, network.trail, network.message
    TO network_collector, network_reader;
GRANT INSERT ON network.move, network.trail, network.message TO network_collector;
GRANT UPDATE (tried_at, copied_at, fault, program, confirmed) ON network.station TO network_collector;
