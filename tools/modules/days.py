"""Days at a cargo station as scripts of plain text, played as calls of the built program over a file.

A day is the lines of a file such as crates/desk_tests/data/days/stock.day; crates/desk_days/src/lib.rt lists the
statements. Each is a call of the program, with its words, its standard input and its exit status; a request goes to the
service. The clock shows what the day says, by a library that is loaded before the program's: Debian's faketime.
"""
import os
import pathlib
import re

from desk import Called, Desk

CLOCK = "/usr/lib/x86_64-linux-gnu/faketime/libfaketime.so.1"


def clock_env(moment: str, clock: str = CLOCK) -> dict[str, str]:
    """The environment of a program whose clock shows a moment such as `2026-01-12 10:30`."""
    return {**os.environ, "LD_PRELOAD": clock, "FAKETIME": f"{moment}:00", "FAKETIME_DONT_FAKE_MONOTONIC": "1",
            "TZ": "UTC"}


class Statement:
    """A statement of a day: its words, the lines behind it, and the lines that it has to print."""

    def __init__(self, number: int, line: str) -> None:
        self.number = number
        self.given: list[str] = []
        self.wanted: list[str] = []
        self.word, _, self.rest = line.partition(" ")

    def given_bytes(self, end: str) -> bytes:
        return "".join(f"{line}{end}" for line in self.given).encode("latin-1")


def statements(path: pathlib.Path) -> list[Statement]:
    """Reads a day."""
    found: list[Statement] = []
    for number, line in enumerate(path.read_text().split("\n"), 1):
        if line.startswith("|"):
            ((count, text),) = re.findall(r"^\|(\d*) ?(.*)$", line)
            found[-1].given += [text] * int(count or 1)
        elif line.startswith("="):
            found[-1].wanted.append(line[2:])
        elif line and not line.startswith("#"):
            found.append(Statement(number, line))
    return found


class Day:
    """A station in a file of a folder, the program over it, and the clock of both."""

    def __init__(self, program: str, folder: str, clock: str = CLOCK) -> None:
        self.program, self.folder, self.clock = program, pathlib.Path(folder), clock
        self.moment, self.station = "2026-01-12 10:30", "FRA"
        self.desk: Desk | None = None

    def open(self) -> None:
        """Makes the station anew."""
        self.end()
        for old in self.folder.iterdir():
            old.unlink()
        self.desk = Desk(self.program, "day.db", station=self.station, folder=self.folder, env=self.env())

    def env(self) -> dict[str, str]:
        return clock_env(self.moment, self.clock)

    def call(self, words: list[str], given: bytes = b"") -> Called:
        """Calls the program over the file."""
        assert self.desk
        self.desk.stop()
        self.desk.env = self.env()
        return self.desk.call(*words, given=given)

    def request(self, given: bytes) -> bytes:
        """Sends a request to the service over the file. Returns the answer."""
        assert self.desk
        if not self.desk.is_on():
            self.desk.env = self.env()
            self.desk.start()
        return self.desk.send(given, ends=True)

    def tell(self, moment: str) -> None:
        """Sets the clock."""
        self.moment = moment
        if self.desk:
            self.desk.stop()

    def end(self) -> None:
        if self.desk:
            self.desk.close()


def lines_of(data: bytes) -> list[str]:
    """The lines of an output, without their ends."""
    return [line.rstrip("\r") for line in data.decode("latin-1").removesuffix("\n").split("\n")] if data else []


def called(desk: Day, it: Statement) -> tuple[list[str], bytes] | None:
    """The words and the input of a statement that is one call; `None` if it isn't."""
    if it.word == "act":
        verb, key, body = (it.rest.split(" ", 2) + ["", ""])[:3]
        return ["act", verb, key], body.encode("latin-1")
    if it.word == "take":
        given = bytes.fromhex("".join(it.given)) if it.rest == "hex" else it.given_bytes("\n" if it.rest else "\r\n")
        (desk.folder / "telegram.txt").write_bytes(given)
        return ["take", "telegram.txt"], b""
    if it.word == "stock":
        return ["stock"], it.given_bytes("\n")
    if it.word in ("waybill", "history", "holder", "report") or it.word == "outbox" and not it.rest:
        return [it.word, *it.rest.split()], b""
    return None


def why_wrong(desk: Day, it: Statement) -> str | None:
    """What is wrong with a statement, if anything is; `None` if it is right, and an empty text if it can't be played."""
    if it.word == "request":
        printed = lines_of(desk.request(it.given_bytes("\r\n")))
        wanted = it.wanted if it.wanted != ["no answer"] else []
        return None if printed == wanted else f"answered {printed}"
    call = called(desk, it)
    if call is None:
        return ""
    status, output, errors = desk.call(*call)
    wanted = ["unknown"] if it.wanted == ["none"] else it.wanted
    wanted_status = 1 if any(re.search(r"(^| )(refused \d|bad$|unknown$)", line) for line in wanted) else 0
    if lines_of(output) != wanted:
        return f"printed {lines_of(output)}"
    if status != wanted_status:
        return f"status {status}, not {wanted_status}"
    if errors and not re.match(rb"(line \d+|body|telegram): ", errors):
        return f"standard error: {errors!r}"
    return None
