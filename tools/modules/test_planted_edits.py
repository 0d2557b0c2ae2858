"""Tests of `planted_edits`: the function that an edit changes, and what the lines of a check say of it."""
import pathlib
import tempfile
import unittest

from planted_edits import BROKEN, LIMIT, MISSED, NAME, NONE, REFUSED, Edit, owner_of, path_of, refused, verdict

SOURCE = """pub struct Book {
    pages: u32,
}

impl Book {
    fn count(&self) -> u32
        ensures { result ≡ self.pages }
    {
        self.pages
    }
}

pub fn twice(number: u32) -> u32 {
    number + number
}
"""


class EditTest(unittest.TestCase):
    """Edits of a file with two functions."""

    def setUp(self) -> None:
        self.room = tempfile.TemporaryDirectory()
        self.folder = pathlib.Path(self.room.name)
        (self.folder / "src").mkdir()
        (self.folder / "planted").mkdir()
        (self.folder / "src/shelf.rt").write_text(SOURCE, encoding="utf-8")

    def tearDown(self) -> None:
        self.room.cleanup()

    def edit(self, old: str, new: str, file: str = "src/shelf.rt") -> Edit:
        (self.folder / "planted/one.edit").write_text(f"file: {file}\nold: {old}\nnew: {new}\n", encoding="utf-8")
        return Edit(self.folder, "one.edit")

    def test_function(self) -> None:
        self.assertEqual(self.edit("        self.pages", "        0").function, ("shelf", "Book", "count"))
        self.assertEqual(self.edit("number + number", "number").function, ("shelf", "", "twice"))
        self.assertIsNone(self.edit("pages: u32,", "pages: u8,").function)

    def test_why_it_cannot_be_applied(self) -> None:
        self.assertEqual(self.edit("number", "0").why, "an 'old:' text is in src/shelf.rt 3 times")
        self.assertEqual(self.edit("x", "y", "src/none.rt").why, "there is no file src/none.rt")

    def test_owner(self) -> None:
        self.assertEqual(owner_of("impl Book {"), "Book")
        self.assertEqual(owner_of("impl Display for Holder {"), "HolderDisplay")
        self.assertEqual(owner_of("pub trait Keeper {"), "Keeper")
        self.assertEqual(path_of("shelf", ("a", "Book", "count"), "fn"), "shelf::a::fn::Book::count")
        self.assertEqual(path_of("shelf", ("", "", "main")), "shelf::main")

    def test_refused_in_one_check(self) -> None:
        one = self.edit("        self.pages", "        0")
        told = ["fn crate::shelf::Book::count: did not prove `result ≡ 0`", "fn crate::shelf::twice: proved"]
        self.assertEqual(refused("crate", [one], told), {one})
        self.assertEqual(refused("crate", [one], [told[0].replace("did not prove `result ≡ 0`", "proved"), told[1]]), set())
        self.assertIsNone(refused("crate", [one], []))

    def test_verdict(self) -> None:
        one = self.edit("number + number", "number")
        goal = "./proofs/shelf/twice/Answers.antt:3:1: error: did not prove `a`"
        self.assertEqual(verdict(one, 0, ["logic=proved"]), MISSED)
        self.assertEqual(verdict(one, 1, [goal, "logic=not-proved"]), REFUSED)
        self.assertEqual(verdict(one, 1, [goal.replace("did not prove `a`", "a is not in scope"), "logic=not-proved"]), NAME)
        self.assertEqual(verdict(one, 3, ["antt ran out of stack"]), LIMIT)
        self.assertTrue(verdict(one, 1, ["src/shelf.rt:14:5: error: expected the end"]).startswith(BROKEN))
        self.assertTrue(verdict(one, 2, ["killed"]).startswith(NONE))


if __name__ == "__main__":
    unittest.main()
