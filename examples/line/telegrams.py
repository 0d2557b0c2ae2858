"""Splits a file of the message line into telegrams, and says why a file isn't fit to be posted to a desk.

When in doubt it raises `Doubt`: the desk passes over lines before the message line and over lines that it doesn't
know, so an answer (FNA) that quotes an FWB would act as that FWB.
"""
import os
import re
from typing import List, Optional, Tuple

MOST_BYTES = 65536
READ = ("FWB", "FFM", "FSU")
PIECE = re.compile(r"[\x01\x02]?[^\x01\x02\x03\n]*\x03?\n?")
MESSAGE = re.compile(r"[A-Z]{3}/")
NEXT_MESSAGE = re.compile(r"(FWB|FFM|FSU)/|F[A-Z]{2}/[0-9]{1,3}$|FNA|FMA|(UCM|SCM|LUC|UWS|NTM|LDM|CPM|MVT)$")
ORIGIN = re.compile(r"\.[A-Z0-9]{7}( [A-Z0-9/ ]+)?")
# A header's lines: the form, the steps after which it may come, and its own step.
HEADER = [(re.compile(r"ZCZC( [A-Z0-9 ]+)?"), (0,), 1),
          (re.compile(r"Q[A-Z]( [A-Z0-9]{7}){0,8}"), (0, 1), 2),
          (re.compile(r"[A-Z0-9]{7}( [A-Z0-9]{7}){0,7}"), (0, 1, 2, 3), 3),
          (ORIGIN, (0, 1, 2, 3), 4),
          (re.compile(r"PDM"), (4,), 5)]
LIKE_CONSIGNMENT = re.compile(r"\s*[0-9]{3}\W{0,3}[0-9]{5,10}\s*[A-Z]{3}")
CONSIGNMENT = re.compile(r"([0-9]{3}-([0-9]{7})([0-9]))[A-Z]{6}/")


# A line of a file: number, start, end, the line itself, and whether it has SOH, STX or ETX.
Line = Tuple[int, int, int, str, bool, bool, bool]
# The numbered lines of a telegram.
Body = List[Tuple[int, str]]


class Doubt(Exception):
    """Says why a file isn't posted."""


def pieces(text: str) -> List[Line]:
    """Returns the lines of a file."""
    number = 1
    found: List[Line] = []
    for match in PIECE.finditer(text):
        raw = match[0]
        if raw:
            line = raw.lstrip("\x01\x02").rstrip("\x03\x0b\r\n ")
            found.append((number, match.start(), match.end(), line, raw[0] == "\x01", raw[0] == "\x02", "\x03" in raw))
            number += raw.count("\n")
    return found


def begins_header(lines: List[Line], at: int) -> bool:
    """Whether a new header begins here, after a telegram without an end."""
    number, _, _, line, soh, *_ = lines[at]
    if soh or re.fullmatch(r"ZCZC( [A-Z0-9 ]+)?|=[A-Z ]+", line):
        return True
    if not re.fullmatch(r"Q[A-Z]( [A-Z0-9]{7}){1,8}", line):
        return False
    for _, _, _, after, *_ in lines[at + 1:at + 10]:
        if ORIGIN.fullmatch(after):
            return True
        if not HEADER[2][0].fullmatch(after):
            break
    raise Doubt(f"line {number}: it looks like a priority line in the middle of a telegram")


def split(text: str) -> List[Tuple[Body, int]]:
    """Returns the telegrams of a file: for each one its numbered lines and where it ends."""
    lines = pieces(text)
    found: List[Tuple[Body, int]] = []
    body: Optional[Body] = None
    step: Optional[int] = 0
    sitatex, head = False, 0
    for at, (number, start, end, line, _, stx, etx) in enumerate(lines):
        if body is not None and begins_header(lines, at):
            found.append((body, start))
            body, step, sitatex = None, 0, False
        if body is not None:
            if stx:
                raise Doubt(f"line {number}: STX in the middle of a telegram")
            if line != "NNNN":
                body.append((number, line))
        elif line[:3] in ("FNA", "FMA"):
            raise Doubt(f"line {number}: {line[:3]} is an answer to a message, perhaps with that message in it")
        elif line == "=TEXT" and sitatex:
            step, sitatex = 4, False
        elif MESSAGE.match(line):
            if line[:3] not in READ or sitatex or step == 3:
                raise Doubt(f"line {number}: expected a header and FWB/, FFM/ or FSU/, found {line[:40]!r}")
            body, head = [(number, line)], 0
        elif line.startswith("=") and step == 0:
            sitatex, head = True, number
        elif line not in ("", "NNNN") and not sitatex:
            step = next((own for form, after, own in HEADER if step in after and form.fullmatch(line)), None)
            if step is None:
                raise Doubt(f"line {number}: neither a line of a header nor FWB/, FFM/ or FSU/: {line[:40]!r}")
            head = number
        if body is not None and (etx or line == "NNNN"):
            found.append((body, end))
            body, step = None, 0
    if body is not None:
        found.append((body, len(text)))
    if head or not found:
        raise Doubt(f"line {head}: no message line comes after this header" if head else "there is no message line")
    return found


def check(body: Body) -> None:
    """Raises a doubt if the desk would pass over a line, or take one for another message's."""
    kind, consignments = body[0][1][:3], 0
    for number, line in body[1:]:
        if NEXT_MESSAGE.match(line):
            raise Doubt(f"line {number}: a second message begins in this telegram: {line[:40]!r}")
        if kind == "FFM" and line.startswith(" "):
            raise Doubt(f"line {number}: the desk would pass over a line that begins with a space: {line[:40]!r}")
        consignment = CONSIGNMENT.match(line)
        if LIKE_CONSIGNMENT.match(line) and not consignment:
            raise Doubt(f"line {number}: expected a consignment line such as 020-12345675FRAJFK/, found {line[:40]!r}")
        if consignment and int(consignment[2]) % 7 != int(consignment[3]):
            raise Doubt(f"line {number}: the check digit of {consignment[1]} is {int(consignment[2]) % 7}")
        consignments += bool(consignment)
        if kind != "FFM" and consignments > 1:
            raise Doubt(f"line {number}: an {kind} has one consignment line, this is another")
    if len(text_of(body)) > MOST_BYTES:
        raise Doubt(f"line {body[0][0]}: the telegram has {len(text_of(body))} bytes, the desk takes {MOST_BYTES}")


def text_of(body: Body) -> bytes:
    """Returns the bytes that are posted."""
    return "".join(f"{line}\r\n" for _, line in body).encode("latin-1")


def origin_of(data: bytes) -> Optional[str]:
    """Returns the address that the header of a file's first telegram names as its origin, or `None`."""
    origin: Optional[str] = None
    is_next = False
    for _, _, _, line, *_ in pieces(data.decode("latin-1")):
        if MESSAGE.match(line):
            break
        if ORIGIN.fullmatch(line):
            origin = line[1:8]
        elif is_next and re.fullmatch(r"[A-Z0-9]{7}", line):
            origin = line
        is_next = line == "=ORIGIN"
    return origin


def read(path: str) -> Tuple[bytes, List[Tuple[Body, int]]]:
    """Returns the bytes of a file and its telegrams, which are fit to be posted."""
    if os.path.getsize(path) > 16 * MOST_BYTES:
        raise Doubt(f"the file has more than {16 * MOST_BYTES} bytes")
    with open(path, "rb") as file:
        data = file.read()
    found = split(data.decode("latin-1"))
    for body, _ in found:
        check(body)
    return data, found
