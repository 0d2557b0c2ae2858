"""What the pages say of the desk's vocabulary and the code doesn't: summaries, tags, examples, schemas.

`tools/describe` puts these tables together with those of the sources (`vocabulary`).
"""
from typing import Any, NamedTuple

from vocabulary import (
    AGENT, FILES, GOODS, KEY, LARGEST_COUNT, LEAST_PIECES, MOST_BYTES, MOST_PIECES, MOST_TENTHS, NAME, PLACE_NAMES, PREFIX,
    PROGRAM, REFUSALS, SERIAL)

Schema = dict[str, Any]


def said(about: str) -> Schema:
    return {"description": about} if about else {}


def number(least: int = 0, most: int | None = None, about: str = "") -> Schema:
    return {"type": "integer", "minimum": least, **({} if most is None else {"maximum": most}), **said(about)}


def text(pattern: str = "", about: str = "", **more: Any) -> Schema:
    return {"type": "string", **({"pattern": pattern} if pattern else {}), **more, **said(about)}


def flag(about: str = "") -> Schema:
    return {"type": "boolean", **said(about)}


def several(items: Schema, **more: Any) -> Schema:
    return {"type": "array", **more, "items": items}


def thing(members: Schema, about: str = "", optional: tuple[str, ...] = ()) -> Schema:
    return {"type": "object", **said(about), "required": [name for name in members if name not in optional], "properties": members}


def ref(name: str, kind: str = "schemas") -> Schema:
    return {"$ref": f"#/components/{kind}/{name}"}


MOST = 4294967295
DAY, OUT, IN = "2026-01-12", "020-12345701", "125-12345675"
CARRIER, DATE = "([A-Z][A-Z0-9]|[0-9][A-Z])", "20[0-9]{2}-[0-9]{2}-[0-9]{2}"
PRINTABLE = "^([ -~]*[!-~])?$"
SINCE, KEYED = text(f"^({DATE})?$"), text(f"^[!-~]{{1,{KEY}}}$")
CODE = text(about="the agent's code; empty for other holders")
HOLDERS = ["desk", "agent", "used", "void"]
AWB, AIRPORT, FLIGHT, DATED, PLACE = ref("Awb"), ref("Airport"), ref("Flight"), ref("Day"), ref("Place")
PIECES, TENTHS, PAIR, AMOUNTS = ref("Pieces"), ref("Tenths"), ref("Pair"), ref("Amount")
ROUTE = {"origin": AIRPORT, "destination": AIRPORT}
AMOUNT = {"pieces": PIECES, "tenths": TENTHS}

ABOUT = ("The desk of one air cargo station, on a port of its own machine. STATION.md says what each command and each "
         "refusal means. `tools/openapi_check` sends each example of this page to a fresh station, in the order of the "
         "page, and compares each answer with its schema. `tools/describe` makes the page from the tables of the code.")
SERVER = "the desk listens on the loopback address only; a client elsewhere asks a proxy"
TAGS = {"cargo": "commands on cargo. Each needs a key, and acts once under it",
        "stock": "waybill numbers, and who holds them",
        "waybills": "all that is known of one waybill",
        "messages": "telegrams that arrive, and messages to send",
        "reports": "lists of the station, as text or with .json at the end",
        "dry-runs": "what the desk would read; nothing is done"}
LETTERS = "three upper-case letters"
# A field of a body: its schema, and its value in STATION.
FIELDS: dict[str, tuple[Schema, str]] = {
    "prefix": (text(f"^[0-9]{{{PREFIX}}}$", example="020"), "a text of three digits"),
    "serial": (text(f"^[0-9]{{{SERIAL}}}$", "without its check digit"), "a text of seven digits, without the check digit"),
    "count": (number(0, LARGEST_COUNT), f"0 to {LARGEST_COUNT:,}"),
    "agent": (ref("Agent"), f"1 to {AGENT} upper-case letters or digits"),
    "awb": (AWB, "a waybill number with its check digit: `020-12345675`"),
    "origin": (AIRPORT, LETTERS), "destination": (AIRPORT, LETTERS), "unload": (AIRPORT, LETTERS),
    "pieces": (number(LEAST_PIECES, MOST_PIECES), f"{LEAST_PIECES} to {MOST_PIECES}"),
    "counted": (number(0, MOST_PIECES), f"0 to {MOST_PIECES}"),
    "tenths": (number(0, MOST_TENTHS, "tenths of a kilogram"), f"tenths of a kilogram, 0 to {MOST_TENTHS:,}"),
    "goods": (ref("Goods"), f"up to {GOODS} printable ASCII characters, not ending in a space"),
    "name": (ref("Name"), f"up to {NAME} printable ASCII characters, not ending in a space"),
    "flight": (FLIGHT, "a flight such as `LH400`; `missing` and `found` may leave out flight and date"),
    "date": (DATED, "a day from 2000-01-01 to 2099-12-31"),
    "airline": (text(f"^{CARRIER}$"), "two upper-case letters or digits, at least one of them a letter, as in a flight"),
    "upto": (number(0, MOST, "the number of a message"), f"0 to {MOST:,}"),
}
# The tag of a verb, if it isn't `cargo`.
TAG_OF = {"take-in": "stock", "issue": "stock", "return": "stock", "void": "stock", "confirm": "messages"}
RUN = {"prefix": "020", "serial": "1234570", "count": 3, "agent": "ACME"}
CARGO = {"origin": "FRA", "destination": "JFK", "pieces": 10, "tenths": 1000, "goods": "CARGO"}
# What is posted, in an order that a fresh station takes: the bodies of a verb, or a path of `PAGES`.
POSTED: dict[str, list[dict[str, Any]]] = {
    "take-in": [{"prefix": "020", "serial": "1234567", "count": 10}],
    "issue": [RUN],
    "return": [{**RUN, "serial": "1234572", "count": 1}],
    "void": [{"prefix": "020", "serial": "1234567", "count": 1}],
    "book": [{"awb": OUT, **CARGO}],
    "amend": [{"awb": OUT, **CARGO, "pieces": 11, "tenths": 1100}],
    "receive": [{"awb": OUT, "pieces": 10, "tenths": 1000, "name": "ACME"}],
    "withdraw": [{"awb": OUT, "pieces": 1, "name": "ACME"}],
    "manifest": [{"awb": OUT, "flight": "LH400", "date": DAY, "unload": "JFK", "pieces": 4},
                 {"awb": OUT, "flight": "LH430", "date": DAY, "unload": "JFK", "pieces": 1}],
    "offload": [{"awb": OUT, "flight": "LH430", "date": DAY, "pieces": 1}],
    "reroute": [{"flight": "LH430", "date": DAY, "unload": "ORD"}],
    "depart": [{"flight": "LH400", "date": DAY}],
    "/v1/check/{verb}": [], "/v1/read": [], "/v1/telegrams": [],
    "strike": [{"awb": IN, "flight": "BA902", "date": DAY, "pieces": 1}],
    "check-in": [{"awb": IN, "flight": "BA902", "date": DAY, "counted": 5}],
    "notify": [{"awb": IN, "name": "BROWN"}],
    "deliver": [{"awb": IN, "pieces": 2, "name": "BROWN"}],
    "transfer": [{"awb": OUT, "pieces": 1, "airline": "BA"}],
    "missing": [{"awb": IN, "pieces": 1}],
    "found": [{"awb": IN, "pieces": 1, "tenths": 100, "flight": "BA902", "date": DAY}],
    "confirm": [{"upto": 1}],
}
TELEGRAMS = {"manifest": "FFM/8\r\n1/BA902/12JAN/LHR\r\nFRA\r\n125-12345675LHRFRA/T5K50.0/CARGO\r\nLAST\r\n",
             "status": "FSU/15\r\n020-12345701FRAJFK/T10\r\nRCS/12JAN1030/FRA/T10K100.0\r\n",
             "waybill": "FWB/17\r\n020-12345712FRAJFK/T10K100.0\r\n"}
CHECKED = {"good": RUN, "bad": {"prefix": "020", "serial": "1234570", "count": 3, "agnt": "ACME"}}


class Page(NamedTuple):
    """A path: its tag and summary, and of an answer 200 what it is, its schema, and an example."""
    tag: str
    summary: str
    told: str = ""
    schema: str = ""
    example: Any = None


# The paths that have no rows.
PAGES = {
    "/v1/check/{verb}": Page(
        "dry-runs", "Says whether a body is a command of the verb, or what is wrong with it; nothing is done",
        "whether `/v1/act/{verb}` would pass the body to the station, whose rules aren't tested", "Checked",
        {"good": False, "reason": 'unknown field "agnt"; `issue` takes prefix, serial, count and agent'}),
    "/v1/read": Page(
        "dry-runs", "Says what the desk would read of a telegram; nothing is taken", "what is read, and what is passed over",
        "Look", {"kind": "FWB", "dropped": [], "read": [{"line": 2, "awb": "020-12345712", "origin": "FRA", "destination": "JFK",
                 "pieces": 10, "tenths": 1000, "total": None}], "passed": [], "doubtful": False}),
    "/v1/telegrams": Page("messages", "Takes a telegram (FWB, FFM or FSU). The same text acts once"),
    "/v1/waybills/{awb}": Page(
        "waybills", "What is known of a waybill", "what is known", "Waybill",
        {"awb": OUT, **CARGO, "pieces": 11, "tenths": 1100, "since": DAY, "notified": False, "taken": [9, 900], "found": [0, 0],
         "store": [4, 400], "departed": [4, 400], "delivered": [0, 0], "transferred": [1, 100], "missing": [0, 0]}),
    "/v1/stock/{awb}": Page("stock", "Who holds a number", "the holder", "Holding",
                            {"awb": "020-12345723", "holder": "agent", "name": "ACME"}),
    "/v1/waybills/{awb}/history": Page(
        "waybills", "The history of a waybill at one moment, as text",
        "The line of the waybill's record, its moves, its lines of the trail, and its status messages."),
}


class Rows(NamedTuple):
    """A path of rows: their type, its tag and summary, and a call that prints them, if it isn't a whole report."""
    kind: str
    tag: str
    summary: str
    call: str = ""


# The paths of rows, in the order of docs/openapi.yaml. A new reader of the code needs a line here.
ROWS_AT = {
    "/v1/outbox": Rows("Message", "messages", "The messages that aren't confirmed", "outbox"),
    "/v1/outbox/after/{n}": Rows("Message", "messages", "The messages that aren't confirmed, those with a greater number",
                                 "outbox --after 7"),
    "/v1/station": Rows("Glance", "reports", "The station at a glance", "station"),
    "/v1/sent/after/{n}": Rows("Message", "messages", "The messages with a greater number, confirmed or not",
                               "report sent --after 7"),
    "/v1/reports/stock": Rows("StockRun", "stock", "The stock, in runs of one holder"),
    "/v1/reports/announced": Rows("AnnouncedRow", "reports", "The waybills that are declared and haven't come"),
    "/v1/reports/shed": Rows("ShedRow", "reports", "The waybills with pieces in store"),
    "/v1/reports/shed-days": Rows("ShedDay", "reports", "The waybills with pieces in store, and since which day"),
    "/v1/reports/flights": Rows("FlightRow", "reports", "All noted flights"),
    "/v1/reports/open-flights": Rows("FlightRow", "reports", "The flights that haven't departed", "report flights --open"),
    "/v1/reports/expected": Rows("ExpectedRow", "reports", "What manifests announced"),
    "/v1/reports/open-expected": Rows("ExpectedRow", "reports", "What manifests announced and isn't checked in",
                                      "report expected --open"),
    "/v1/reports/irregularities": Rows("IrregularRow", "reports", "The waybills with missing or found pieces"),
    "/v1/reports/open-irregularities": Rows("IrregularRow", "reports", "The waybills with missing or found pieces that don't even "
                                            "out", "report irregularities --open"),
    "/v1/reports/irregularity-days": Rows("IrregularityDay", "reports",
                                          "The waybills with missing or found pieces, and since which day"),
    "/v1/reports/movements": Rows("Move", "reports", "The movement book"),
    "/v1/reports/trail": Rows("TrailLine", "reports", "The lines of the status messages that arrived"),
    "/v1/reports/station": Rows("Glance", "reports", "The station at a glance"),
    "/v1/reports/sent": Rows("Message", "messages", "All messages, confirmed or not"),
    "/v1/waybills/{awb}/movements": Rows("Move", "waybills", "The moves of a waybill", "report movements --awb 020-12345675"),
    "/v1/waybills/{awb}/trail": Rows("TrailLine", "waybills", "The trail of a waybill", "report trail --awb 020-12345675"),
    "/v1/waybills/{awb}/history": Rows("", "", ""),
    "/v1/waybills/{awb}/sent": Rows("Message", "waybills", "The status messages of a waybill, confirmed or not",
                                    "report sent --awb 020-12345675"),
    "/v1/movements/after/{n}": Rows("Move", "reports", "The moves with a greater number", "report movements --after 120"),
    "/v1/movements/last/{n}": Rows("Move", "reports", "The last moves", "report movements --last 20"),
    "/v1/trail/after/{n}": Rows("TrailLine", "reports", "The lines of the trail with a greater number", "report trail --after 40"),
    "/v1/trail/last/{n}": Rows("TrailLine", "reports", "The last lines of the trail", "report trail --last 20"),
    "/v1/flights/{flight}/{day}": Rows("ManifestRow", "reports", "The manifest of a flight, what is built on it or left with it",
                                       "report manifest LH400/2026-01-12"),
    "/v1/flights/{flight}/{day}/arrivals": Rows("ArrivalRow", "reports", "What manifests announced with a flight, and what came of it",
                                                "report arrivals LH401/2026-01-12"),
    "/v1/agents/{agent}/stock": Rows("StockRun", "stock", "The numbers that an agent has", "report stock --agent ACME"),
    "/v1/keys/{key}": Rows("KeptCommand", "reports", "The command that was accepted under a key, if there is one", "key miller-7"),
}
# A part of a path: its schema, an example, what is said of it; and other examples, by their paths.
PARTS: dict[str, tuple[Schema, Any, str]] = {
    "awb": (AWB, OUT, ""), "n": (number(0, MOST), 0, ""), "flight": (FLIGHT, "LH400", ""), "day": (DATED, DAY, ""),
    "agent": (ref("Agent"), "ACME", ""),
    "key": (KEYED, "issue-issue", "each byte that isn't a letter, a digit, `-`, `_` or `~` is percent-encoded, a dot too"),
}
PARTS_AT = {"/v1/movements/after/{n}": 3, "/v1/movements/last/{n}": 2, "/v1/trail/last/{n}": 2}

NOTHING = {"pieces": 0, "tenths": 0}
# A member of a row, by its name: its schema, and an example.
Members = dict[str, tuple[Schema, Any]]
MEMBERS: Members = {
    "airport": (text("^[A-Z]{3}$"), "FRA"), "awb": (AWB, "020-12345675"),
    "origin": (AIRPORT, "FRA"), "destination": (AIRPORT, "JFK"), "unload": (AIRPORT, "JFK"),
    "flight": (FLIGHT, "LH400"), "date": (DATED, DAY), "since": (DATED, DAY),
    "time": (text("^[0-2][0-9]:[0-5][0-9]$", "local time of the station"), "10:30"),
    "pieces": (PIECES, 10), "tenths": (TENTHS, 1000), "from": (PLACE, "HAND"), "to": (PLACE, "FREE"),
    "free": (AMOUNTS, {"pieces": 6, "tenths": 600}), "built": (AMOUNTS, {"pieces": 4, "tenths": 400}),
    "came": (AMOUNTS, {"pieces": 9, "tenths": 900}), "surplus": (AMOUNTS, NOTHING),
    "state": (text(enum=["open", "checked", "struck"], about="whether it is checked in, or what was left of it was struck"), "checked"),
    "departed": (AMOUNTS, NOTHING), "missing": (AMOUNTS, {"pieces": 1, "tenths": 100}), "found": (AMOUNTS, NOTHING),
    "notified": (flag(), False), "closed": (flag("whether it departed"), False),
    "checked": (flag("whether it is checked in or struck whole"), False), "goods": (text(), "CARGO"),
    "waybills": (number(0, None, "how many waybills are built on it now"), 1),
    "prefix": (text(f"^[0-9]{{{PREFIX}}}$"), "020"), "holder": (text(enum=HOLDERS, about="who has them"), "agent"),
    "first": (text(f"^[0-9]{{{SERIAL}}}$", "the first serial of the run"), "1234567"),
    "last": (text(f"^[0-9]{{{SERIAL}}}$", "its last serial"), "1234569"),
    "count": (number(1, None, "how many numbers it has"), 3), "name": (CODE, "ACME"),
    "number": (number(1, None, "ascending, without gaps"), 1),
    "line": (text(about="the status line as it arrived"), "RCS/12JAN1030/FRA/T10K100.0"),
    "text": (text(about="the message to send, its lines ended by CR LF"), "FSU/12\n..."),
    "key": (KEYED, "miller-7"), "command": (text(), "issue 020 1234570 3 ACME"),
    "moves": (number(), 3), "trail": (number(), 0), "messages": (number(), 4), "confirmed": (number(), 3),
    "program": (text(r"^[0-9]+\.[0-9]+\.[0-9]+$"), PROGRAM), "files": (number(FILES), FILES),
}


class Row(NamedTuple):
    """A type of rows: its members, those that differ from `MEMBERS`, and what a row is."""
    names: str
    own: Members = {}
    about: str = ""

    def members(self) -> Members:
        return {name: self.own.get(name) or MEMBERS[name] for name in self.names.split()}


ROWS = {
    "StockRun": Row("prefix first last count holder name", {}, "the name is empty except for an agent"),
    "AnnouncedRow": Row("awb origin destination pieces tenths since goods", {"since": (SINCE, DAY)},
                        "since is the day of the last declaration, or empty if unknown"),
    "ShedRow": Row("awb origin destination free built notified"),
    "ShedDay": Row("since awb origin destination free built notified"),
    "FlightRow": Row("flight date unload waybills pieces tenths closed", {"pieces": (PIECES, 4), "tenths": (TENTHS, 400)}),
    "ExpectedRow": Row("flight date awb origin destination pieces tenths checked"),
    "IrregularRow": Row("awb origin destination missing found"),
    "IrregularityDay": Row("since awb origin destination missing found"),
    "Move": Row("number date time awb from to pieces tenths flight", {
        "number": (number(1, None, "ascending, without gaps; ask for the moves after the last one that you have"), 1),
        "flight": (text(f"^[A-Z0-9]{{5,7}}/{DATE}$", "the flight and its day, null if the move names none", nullable=True),
                   None)}),
    "TrailLine": Row("number awb line"),
    "ManifestRow": Row("awb built departed"),
    "ArrivalRow": Row("awb origin destination pieces tenths came missing surplus state", {
        "origin": (AIRPORT, "JFK"), "destination": (AIRPORT, "FRA")}, "pieces and tenths are the announced amount as it stands; came "
        "and missing are what a check-in counted of it, surplus what it counted beyond it and what was found with the flight"),
    "Message": Row("number text", {"number": (number(1, None, "the number to confirm"), 4)}),
    "KeptCommand": Row("key count command", {"count": (number(0, MOST), 3)}, "the count is that of the reply; the command is "
                       "its verb and its fields, with spaces between them"),
    "Glance": Row("airport moves trail messages confirmed program files", {}, "the numbers of the last move, trail line, "
                  "message and confirmed message; the versions of the program and of its files"),
}

# The answers: what each is, its schema, and an example.
ANSWERS: dict[str, tuple[str, Schema, Any]] = {
    "Accepted": ("accepted; the count says of how many pieces, numbers, lines or messages, or whether a flight was rerouted",
                 ref("Accepted"), {"count": 10, "reply": "ok"}),
    "Lines": ("a line for each row, and a last line `END n`", text(r"END [0-9]+\n$"),
              "020-12345701 FRAJFK free    6    60.0 built    4    40.0 -\nEND 1\n"),
    "BadRequest": ("the head, the key, the length, the origin or the body can't be read; the detail says which",
                   ref("BadRequest"), {"detail": "key", "refused": 400}),
    "BadHead": ("the head can't be read, or the request is of a page of another origin", ref("BadHead"),
                {"detail": "origin", "refused": 400}),
    "Unreadable": ("the telegram can't be read (301) or is of an unknown kind (302); or a bad request",
                   {"anyOf": [ref("Refused"), ref("BadRequest")]}, {"detail": "4 ending", "refused": 301}),
    "Misread": ("the telegram can't be read (301) or is of an unknown kind (302), with the reason in words; or a bad request",
                {"anyOf": [ref("Misread"), ref("BadRequest")]},
                {"detail": "4 ending", "reason": "line 4 of the message: the message ends too early, or goes on after its end: an "
                 "FFM ends with LAST or CONT, an FWB has at least two lines, an FSU three", "refused": 301}),
    "Refused": ("refused by a rule, and nothing changed. `refused` is the number of the rule, `detail` the waybill, flight or "
                "number that it is about", ref("Refused"), {"detail": "020-12345723", "refused": 102}),
    "Unknown": ("no such path, waybill or number", ref("Fault"), {"detail": "", "refused": 404}),
    "WrongMethod": ("the header `Allow` has the right method", ref("Fault"), None),
    "NoLength": ("a body without `Content-Length`, or with a transfer encoding", ref("Fault"), None),
    "TooLong": (f"a body above {MOST_BYTES:,} bytes", ref("Fault"), None),
    "Unavailable": ("memory or the store failed; send the request again under the same key", ref("Fault"), None),
}
BAD = {"type": "integer", "enum": [400]}
# The schemas that aren't those of rows.
SCHEMAS: dict[str, Schema] = {
    "Awb": text("^[0-9]{3}-[0-9]{8}$", "prefix, serial and check digit: the serial modulo 7"),
    "Agent": text(f"^[A-Z0-9]{{1,{AGENT}}}$", "the code of a forwarder who draws numbers from the desk", example="ACME"),
    "Airport": text("^[A-Z]{3}$", "an IATA airport code", example="FRA"),
    "Goods": text(PRINTABLE, "printable ASCII, not ending in a space", maxLength=GOODS),
    "Name": text(PRINTABLE, "printable ASCII, not ending in a space", maxLength=NAME),
    "Flight": text(f"^{CARRIER}[0-9]{{1,4}}[A-Z]?$"),
    "Day": text(f"^{DATE}$", "a local day of the station, 2000-01-01 to 2099-12-31"),
    "Place": text(enum=PLACE_NAMES,
                  about="where pieces are: hand and surplus are outside the station, free and built are in store"),
    "Pieces": number(0, None, "a number of pieces"),
    "Tenths": number(0, None, "tenths of a kilogram"),
    "Pair": several(number(), minItems=2, maxItems=2, **said("pieces and tenths of a kilogram")),
    "Amount": thing(AMOUNT),
    "Accepted": thing({"count": number(0, MOST), "reply": text(enum=["ok"])}),
    "BadRequest": thing({"detail": text(enum=["head", "origin", "length", "key", "body"]), "refused": BAD}),
    "BadHead": thing({"detail": text(enum=["head", "origin"]), "refused": BAD}),
    "Fault": thing({"detail": text(maxLength=0), "refused": {"type": "integer", "enum": [404, 405, 411, 413, 503]}}),
    "Refused": thing({"detail": text(), "refused": {"type": "integer", "enum": sorted(REFUSALS)}}),
    "Misread": thing({"detail": text(), "reason": text(PRINTABLE, "the line, and what is wanted there"),
                      "refused": {"type": "integer", "enum": [301, 302]}}),
    "Waybill": thing(
        {"awb": AWB, **ROUTE, **AMOUNT, "goods": text(), "since": SINCE, "notified": flag(), "taken": PAIR, "found": PAIR,
         "store": PAIR, "departed": PAIR, "delivered": PAIR, "transferred": PAIR, "missing": PAIR},
        "Since is the day of the last declaration, or empty if unknown. Taken is what was received, or missing at its "
        "check-in, less what went back to the shipper. Taken and found together equal the last five."),
    "Holding": thing({"awb": AWB, "name": CODE,
                      "holder": text(enum=HOLDERS, about="used if a waybill is declared under the number")}),
    "Checked": thing({"good": flag("whether the body is a command of the verb"),
                      "reason": text("^[ -~]+$", "only if the body isn't good")}, "", ("reason",)),
    "Look": thing(
        {"kind": text(enum=["FWB", "FFM", "FSU"]), "part": number(1), "flight": FLIGHT, "date": text("^[0-9]{2}[A-Z]{3}$"),
         "loaded": AIRPORT, "awb": AWB, "dropped": several(ref("DroppedLine")), "passed": several(ref("NumberedLine")),
         "read": several({"anyOf": [ref("ReadConsignment"), ref("NumberedLine")]}), "doubtful": flag()},
        "an FFM has part, flight, date and loaded, an FSU awb", ("part", "flight", "date", "loaded", "awb")),
    "DroppedLine": thing({"text": text(), "doubtful": flag()}),
    "NumberedLine": thing({"line": number(1), "text": text(), "doubtful": flag()}),
    "ReadConsignment": thing(
        {"line": number(1), "awb": AWB, **ROUTE, **AMOUNT, "unload": AIRPORT, "total": {
            "type": "integer", "nullable": True, **said("the pieces of the whole shipment, null if the line has no total")}},
        "", ("unload",)),
}
KEY_ABOUT = (f"an idempotency key, 1 to {KEY} printable characters without spaces. A command that is sent again under its key "
             "acts once")

# The forms of the board: a group, and its verbs with what they do, the order of the form's fields, if it isn't that of
# the body, and what the form calls `name`.
BOARD: dict[str, list[tuple[str, ...]]] = {
    "Stock of waybill numbers": [
        ("take-in", "numbers come to the desk"), ("issue", "numbers go to an agent"), ("return", "an agent gives numbers back"),
        ("void", "numbers become void")],
    "Cargo out": [
        ("book", "a waybill is declared", "awb goods origin destination pieces tenths"),
        ("receive", "pieces are received", "awb name pieces tenths", "Received from"),
        ("amend", "a waybill is declared anew", "awb goods origin destination pieces tenths"),
        ("withdraw", "pieces go back to the shipper", "", "Given back to"),
        ("manifest", "pieces are built on a flight", "awb pieces flight date unload"),
        ("offload", "pieces come off a flight", "awb pieces flight date"),
        ("reroute", "a flight unloads elsewhere"), ("depart", "a flight leaves")],
    "Cargo in": [
        ("check-in", "what a flight brought is counted", "awb counted flight date"),
        ("strike", "pieces aren't expected of a flight", "awb pieces flight date"),
        ("notify", "the consignee is notified", "", "Consignee"),
        ("deliver", "the consignee gets pieces", "", "Delivered to"), ("transfer", "pieces go to another airline")],
    "Corrections and messages": [
        ("missing", "pieces in store are missing"), ("found", "pieces turn up"), ("confirm", "messages are confirmed")],
}
# What a refusal says on the command line, and what it says on the board.
ON_BOARD = {"look it up with `holder`": "open its view", "`report movements`": "Movements", "`report expected`": "Flights"}
