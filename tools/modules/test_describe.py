"""Tests of `tools/describe` with its tables: copies of the sources with a change, and what it says of them."""
import pathlib
import re
import shutil
import subprocess
import tempfile
import unittest

TOP = pathlib.Path(__file__).resolve().parents[2]
READ = ["tools/describe", "tools/modules/vocabulary.py", "tools/modules/described.py", "crates.txt", "docs/STATION.md",
        "docs/ARCHITECTURE.md", "docs/openapi.yaml", "examples/board/vocabulary.js", "examples/completion"]
CRATES = ["agent_stock", "cli_words", "desk_commands", "http_desk", "imp_fields", "reports", "station_core"]
VERB, HELP, PRINTOUT = "desk_commands/src/verb.rt", "cli_words/src/help.rt", "http_desk/src/printout.rt"
# A file of the code, what is changed in it, and what the tool says.
CHANGES = [
    (VERB, 'Verb::Void => "void",', "Verb::Void => VOID_WORD,", rf"crates/{VERB}:\d+: expected arms of the form"),
    (VERB, "Verb::Notify => &[Awb, Name],", "Verb::Notify => notified(),", rf"crates/{VERB}:\d+: expected arms of the form"),
    (VERB, "Verb::Notify => &[Awb, Name],", "Verb::Notify => &[Name, Awb],", rf"crates/{VERB}:\d+: expected a help with"),
    (VERB, "Refused: 401 below", "Refused: four", rf"crates/{VERB}:\d+: expected a help with"),
    (VERB, "Refused: 401 below", "Refused: 402 below", r"docs/openapi.yaml:\d+: expected"),
    (VERB, 'Field::Goods => "goods"', 'Field::Goods => "cargo"', rf"crates/{VERB}:\d+: expected a help with"),
    ("cli_words/src/refusals.rt", "302 | unknown kind of telegram | no detail |", "302 | unknown kind of telegram |",
     r"crates/cli_words/src/refusals.rt:\d+: expected number, meaning, detail and advice"),
    ("cli_words/src/refusals.rt", "302 | unknown kind", "302 | odd kind", r"docs/STATION.md:\d+: expected"),
    ("cli_words/src/commands.rt", 'CommandWords("acts", help::ACTS, Takes::Words(&[])),', "acts(),",
     r"crates/cli_words/src/commands.rt:\d+: expected 15 of the form"),
    ("cli_words/src/commands.rt", 'Word("open", Given::Flag, help::OPEN),', "OPEN,",
     r"crates/cli_words/src/commands.rt:\d+: expected 8 of the form"),
    (HELP, '"stock, announced, ', '"stock, ', r"ROWS_AT lacks \[\], and has \['announced'\]"),
    (HELP, '"stock, announced, ', '"stock, returned, announced, ', r"ROWS_AT lacks \['returned'\]"),
    (PRINTOUT, '"/v1/reports/shed-days"', '"/v1/reports/days"', r"ROWS_AT lacks \['/v1/reports/days'\]"),
    (PRINTOUT, "/v1/trail/last/{rows}", "/v1/trail/last/{many}", rf"crates/{PRINTOUT}:\d+: expected a part of .* found many"),
    ("http_desk/src/route.rt", '"telegrams" => Some', "TELEGRAMS => Some", r"crates/http_desk/src/route.rt:\d+: expected arms"),
    ("imp_fields/src/amount.rt", "MOST_PIECES: u32 = 9_999;", "MOST_PIECES: u32 = 8_888;", r"docs/openapi.yaml:\d+: .*8888"),
    ("imp_fields/src/amount.rt", "MOST_PIECES: u32 = 9_999;", "MOST_PIECES: u32 = most();", r"crates/imp_fields/src/amount.rt:1: "),
]
# A reader that the code gains: what is changed in its files, and the line of `ROWS_AT` that it needs.
READERS = [
    ([(PRINTOUT, "        Listing::OpenExpected =>",
       '        Listing::OpenAnnounced => String::from_str(alloc, "/v1/reports/open-announced"),\n'
       "        Listing::OpenExpected =>")],
     '    "/v1/reports/open-announced": Rows("AnnouncedRow", "reports", "The waybills that are to come", '
     '"report announced --open"),\n', "/v1/reports/open-announced"),
    ([(PRINTOUT, "        Listing::OpenExpected =>",
       '        Listing::Parts(flight) => format!(in alloc; "/v1/flights/{flight}/parts"),\n'
       "        Listing::OpenExpected =>"), (HELP, "manifest or arrivals", "manifest, arrivals or parts")],
     '    "/v1/flights/{flight}/{day}/parts": Rows("ExpectedRow", "reports", "What a flight should bring", '
     '"report parts LH400/2026-01-12"),\n', "/v1/flights/{flight}/{day}/parts"),
]


class DescribeTest(unittest.TestCase):
    """The tool over a copy of what it reads."""

    def setUp(self) -> None:
        self.room = tempfile.TemporaryDirectory()
        self.top = pathlib.Path(self.room.name)
        for name in READ:
            (self.top / name).parent.mkdir(parents=True, exist_ok=True)
            if (TOP / name).is_dir():
                shutil.copytree(TOP / name, self.top / name)
            else:
                shutil.copy(TOP / name, self.top / name)
        for name in CRATES:
            shutil.copytree(TOP / "crates" / name / "src", self.top / "crates" / name / "src")

    def tearDown(self) -> None:
        self.room.cleanup()

    def change(self, name: str, old: str, new: str) -> str:
        """Changes the only such text in a file. Returns the file as it was."""
        text = (self.top / name).read_text(encoding="utf-8")
        self.assertEqual(text.count(old), 1, old)
        (self.top / name).write_text(text.replace(old, new), encoding="utf-8")
        return text

    def run_tool(self, *words: str) -> tuple[int, str]:
        done = subprocess.run([self.top / "tools/describe", *words], capture_output=True, text=True, check=False)
        return done.returncode, done.stdout + done.stderr

    def test_pages_are_as_the_code_makes_them(self) -> None:
        self.assertEqual(self.run_tool("--check"), (0, ""))

    def test_says_what_changed(self) -> None:
        for name, old, new, said in CHANGES:
            with self.subTest(name=name, new=new):
                text = self.change(f"crates/{name}", old, new)
                status, told = self.run_tool("--check")
                self.assertEqual(status, 1)
                self.assertRegex(told, said)
                (self.top / "crates" / name).write_text(text, encoding="utf-8")

    def test_a_new_reader_needs_one_line(self) -> None:
        for changes, line, path in READERS:
            for name, old, new in changes:
                self.change(f"crates/{name}", old, new)
            self.assertRegex(self.run_tool("--check")[1], re.escape(f"ROWS_AT lacks ['{path}']"))
            self.change("tools/modules/described.py", "# A part of a path:", f"ROWS_AT.update({{{line}}})\n# A part of a path:")
            self.assertEqual(self.run_tool()[0], 0)
            self.assertIn(f"  {path}.json:\n", (self.top / "docs/openapi.yaml").read_text(encoding="utf-8"))
            self.assertEqual(self.run_tool("--check"), (0, ""))

    def test_a_page_that_someone_changed(self) -> None:
        self.change("docs/STATION.md", "| 302 | unknown kind of telegram |", "| 302 | strange kind of telegram |")
        self.assertRegex(self.run_tool("--check")[1], r"docs/STATION.md:\d+: expected '\| 302 \| unknown kind .*; run tools/describe")

    def test_a_table_without_its_marks(self) -> None:
        self.change("docs/STATION.md", "<!-- described: parts -->\n", "")
        self.assertRegex(self.run_tool("--check")[1], r"the marks of .* lacks? \['parts'\]")

    def test_a_row_that_is_missing(self) -> None:
        self.change("docs/STATION.md", "| `trail` | the lines of status messages that arrived, with their waybills |\n", "")
        self.assertRegex(self.run_tool("--check")[1], "one row too many, or too few, of trail")


if __name__ == "__main__":
    unittest.main()
