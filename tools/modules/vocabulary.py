"""Reads the desk's vocabulary from the sources: verbs, refusals, reports, paths, commands and limits.

Each table is read where the code has it. A table of another form ends the tool with its file and line, so that nothing
is left out in silence.
"""
import json
import re
from pathlib import Path
from typing import Any, NamedTuple, NoReturn

TOP = Path(__file__).resolve().parents[2]
# What stands for a value in a path: the code's name of the value, and the page's.
PLACES = {"code": "{agent}", "number": "{awb}", "row": "{n}", "rows": "{n}", "flight": "{flight}/{day}",
          "designator": "{flight}", "day": "{day}", "segment": "{key}"}
VARIANTS = r"((?:\w+::\w+(?: \| )?)+)"


class Verb(NamedTuple):
    """A verb: what it does, its fields, those that may be left out, a body, its refusals in the order tested."""
    word: str
    about: str
    fields: list[str]
    optional: list[str]
    body: dict[str, Any]
    refusals: list[tuple[int, str]]


class Refusal(NamedTuple):
    """A refusal, in the words of `cargo_desk help NUMBER`."""
    number: int
    meaning: str
    detail: str
    advice: str


class Word(NamedTuple):
    """A word of a command: its name, how it is given, and its help."""
    name: str
    given: str
    about: str


class Command(NamedTuple):
    """A command of the program, and its words."""
    name: str
    about: str
    words: list[Word]


class Source:
    """A file of the code."""

    def __init__(self, name: str) -> None:
        self.name, self.text = name, (TOP / "crates" / name).read_text(encoding="utf-8")

    def fail(self, at: int, what: str) -> NoReturn:
        raise SystemExit(f"crates/{self.name}:{self.text.count(chr(10), 0, at) + 1}: {what}")

    def one(self, pattern: str) -> re.Match[str]:
        """The only match of a pattern."""
        found = list(re.finditer(pattern, self.text, re.M | re.S))
        if len(found) != 1:
            self.fail(found[1].start() if found else 0, f"expected one match, found {len(found)}: {pattern}")
        return found[0]

    def number(self, pattern: str) -> int:
        return int(self.one(pattern)[1].replace("_", ""))

    def literal(self, name: str) -> str:
        """The text of a constant, or the first of two."""
        found = self.one(rf'^(?:pub\(crate\) )?const {name}: (?:&str|\(&str, &str\)) =\s+\(?\s*"((?:\\.|[^"\\])*)"')
        return re.sub(r"\\(.)", r"\1", re.sub(r"\\\n\s*", "", found[1]))

    def arms(self, head: str, form: str) -> list[Any]:
        """The groups of each arm of the match in a function. An arm that isn't of this form fails."""
        block = self.one(rf"^( *)(?:pub )?(?:pub\(crate\) )?fn {head}.*?^\1\}}")
        text = re.sub(r"\s+", " ", re.sub(r"//[^\n]*", "", block[0]))
        if odd := re.search(r"[^{},]*(?<! _) => .{,60}", re.sub(form, "", text)):
            self.fail(block.start(), f"expected arms of the form {form}, found {odd[0].strip()}")
        return re.findall(form, text)


def read_verbs() -> list[Verb]:
    source = Source("desk_commands/src/verb.rt")
    order = re.findall(r"Verb::(\w+),", source.one(r"^pub const VERBS: \[Verb; \d+\] = \[(.*?)\];")[1])
    words = dict(source.arms(r"word\(self", r'Verb::(\w+) => "([a-z-]+)"'))
    helps = dict(source.arms(r"about\(self", r"Verb::(\w+) => (\w+)"))
    names = {variant: name for variants, name in source.arms(r"name\(self", VARIANTS + r' => "(\w+)"')
             for variant in re.findall(r"::(\w+)", variants)}
    rows = {verb: fields.split(", ")
            for verbs, fields in source.arms(r"fields\(self", VARIANTS + r" => (?:\{ )?&\[([\w, ]+)\]")
            for verb in re.findall(r"::(\w+)", verbs)}
    verbs = []
    for verb in order:
        text = source.literal(helps[verb])
        found = re.fullmatch(r"([^\n]+)\nFields: [^\n]+\nBody: ([^\n]+)\nRefused: (\d{3} [^\n]+(?:\n {9}\d{3} [^\n]+)*)", text)
        fields = [names[field] for field in rows[verb]]
        if not found or list(json.loads(found[2])) != fields:
            source.fail(source.one(rf"^const {helps[verb]}:").start(),
                        f"expected a help with the lines Fields, Body of {', '.join(fields)}, and Refused")
        verbs.append(Verb(words[verb], found[1], fields, [names[it] for it in rows[verb] if it.endswith("IfAny")],
                          json.loads(found[2]),
                          [(int(number), why) for number, why in re.findall(r"^ *(\d{3}) (.+)$", found[3], re.M)]))
    return verbs


def read_refusals() -> dict[int, Refusal]:
    source = Source("cli_words/src/refusals.rt")
    rows = [row.split(" | ") for row in source.literal("REFUSALS").split("\n")]
    if odd := [row for row in rows if len(row) != 4 or not row[0].isdigit()]:
        source.fail(source.one("const REFUSALS").start(), f"expected number, meaning, detail and advice, found {odd[0]}")
    return {int(row[0]): Refusal(int(row[0]), *row[1:]) for row in rows}


def read_paths() -> tuple[list[str], list[str], list[str]]:
    """The paths that are posted to, those of one page, and those of rows."""
    route, printout = Source("http_desk/src/route.rt"), Source("http_desk/src/printout.rt")
    posts = [f"/v1/{word}" for word in route.arms(r"page_word\(", r'"([a-z]+)" => Some\(Route::\w+\)')]
    pages = []
    for kind, place in route.arms(r"page_named<", r'"([a-z]+)"(?: if !name.is_empty\(\))? => Some\(Route::(\w+)\([^,]*\)'):
        if place == "Command":
            posts += [f"/v1/{kind}/{verb.word}" for verb in read_verbs()]
        elif place == "Check":
            posts.append(f"/v1/{kind}/{{verb}}")
        else:
            pages.append(f"/v1/{kind}/{{awb}}")
    for kind, part in route.arms(r"page_part<", r'\("([a-z]+)", "([a-z]+)"\)(?: if !name.is_empty\(\))? => Some\([^,]*\)'):
        pages.append(f"/v1/{kind}/{{awb}}/{part}")
    rows = [f"/v1/{word}" for word in printout.arms(r"rows_word\(", r'"([a-z]+)" => Some\([^,]*\)')]
    rows += printout.arms(r"report_path\(", r'Report::\w+ => "(/v1/[^"]+)"')
    listed: list[str] = printout.arms(r"listing_path\(", r'Listing::\w+(?:\(\w+\))? => [^"]*?(?:"(/v1/[^"]+)"|report_path\(\*report\))')
    for path in filter(None, listed):
        if odd := [name for name in re.findall(r"\{(\w+)\}", path) if name not in PLACES]:
            printout.fail(printout.text.find(path), f"expected a part of {', '.join(PLACES)}, found {odd[0]}")
        rows.append(re.sub(r"\{(\w+)\}", lambda part: PLACES[part[1]], path))
    return posts, pages, list(dict.fromkeys(rows))


def read_commands() -> tuple[list[Word], list[Command]]:
    """The options of the program, and its commands."""
    source, helps = Source("cli_words/src/commands.rt"), Source("cli_words/src/help.rt")

    def listed(name: str, form: str) -> list[Any]:
        """The groups of each item of an array, or of one constant."""
        found = source.one(rf"^(?:pub\(crate\) )?const {name}: (?:\[\w+; (\d+)\]|Word) = (.*?);$")
        one = source.one(r"^const AS_JSON: Word = (.*?);")[1]
        items = re.findall(form, found[2].replace("    AS_JSON,", f"    {one},").replace(", AS_JSON]", f", {one}]"))
        if len(items) != int(found[1] or 1):
            source.fail(found.start(), f"expected {found[1] or 1} of the form {form}, found {len(items)}")
        return items

    def words(name: str) -> list[Word]:
        return [Word(word, given, helps.literal(about)) for word, given, about in listed(
            name, r'Word\(\s*"(\w+)",\s*Given::(\w+)(?:\("\w+"\))?,\s*help::(\w+)')]

    form = r'CommandWords\(\s*"(\w+)",\s*help::(\w+),\s*Takes::(?:Verb|Words\(&\[?(\w*)\]?\)),?\s*\)'
    return words("OPTIONS"), [Command(name, helps.literal(about), words(const) if const else [])
                              for name, about, const in listed("COMMANDS", form)]


VERBS, REFUSALS = read_verbs(), read_refusals()
POSTS, PAGES, ROW_PATHS = read_paths()
OPTIONS, COMMANDS = read_commands()
REPORTS = re.split(r", | or ", Source("cli_words/src/help.rt").literal("REPORT_NAMES"))
PLACE_NAMES: list[str] = Source("reports/src/layout.rt").arms(r"place_name\(", r'Place::\w+(?:\(_\))? => "(\w+)"')
PROGRAM = Source("reports/src/layout.rt").one(r'^pub fn program_version\(\).*?\n\{\n    "([\d.]+)"\n\}')[1]
FILES = Source("reports/src/layout.rt").number(r"^pub fn file_version\(\).*?\n\{\n    (\d+)\n\}")
MOST_PIECES = Source("imp_fields/src/amount.rt").number(r"^pub const MOST_PIECES: u32 = ([\d_]+);")
LEAST_PIECES = Source("imp_fields/src/amount.rt").number(r"if (\d+) <= number && number <= MOST_PIECES")
MOST_TENTHS = Source("imp_fields/src/amount.rt").number(r"^pub const MOST_MESSAGE_TENTHS: u32 = ([\d_]+);")
MOST_BYTES = Source("imp_fields/src/normal.rt").number(r"^pub const MOST_BYTES: usize = ([\d_]+);")
NAME = Source("imp_fields/src/name.rt").number(r"^pub struct Name \{\n    bytes: \[u8; (\d+)\],")
GOODS = Source("imp_fields/src/name.rt").number(r"^pub struct Goods \{\n    bytes: \[u8; (\d+)\],")
AGENT = Source("agent_stock/src/stock.rt").number(r"^const LONGEST: usize = (\d+);")
LARGEST_RUN = Source("agent_stock/src/stock.rt").number(r"^const LARGEST_RUN: u32 = ([\d_]+);")
LARGEST_COUNT = Source("agent_stock/src/stock.rt").number(r"^const LARGEST_COUNT: u32 = ([\d_]+);")
KEY = Source("station_core/src/key.rt").number(r"^const LONGEST: usize = (\d+);")
PREFIX = Source("desk_commands/src/field_value.rt").number(r"prefix\.digits\((\d+)\)")
SERIAL = Source("desk_commands/src/field_value.rt").number(r"serial\.digits\((\d+)\)")
