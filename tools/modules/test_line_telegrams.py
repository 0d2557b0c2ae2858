"""Tests of the cases that tools/line puts into a folder."""
import importlib.machinery
import importlib.util
import pathlib
import random
import unittest

from line_telegrams import CASES

TOOL = str(pathlib.Path(__file__).resolve().parents[1] / "line")
MADE = {"agent": "020-20000005", "desk": "020-20000016", "void": "020-20000020", "moved": "057-00000011",
        "there": "057-00000022", "past": "LH9", "d": "12JAN", "day": "2026-01-12"}


class CasesTest(unittest.TestCase):
    """The files of a round."""

    def setUp(self) -> None:
        loader = importlib.machinery.SourceFileLoader("line", TOOL)
        spec = importlib.util.spec_from_loader("line", loader)
        assert spec
        self.line = importlib.util.module_from_spec(spec)
        loader.exec_module(self.line)

    def test_each_telegram_has_an_outcome(self) -> None:
        telegrams = 0
        for case in CASES:
            outcomes, _, text = case.partition(": ")
            split = text.replace(">", "+").split("+")
            telegrams += len(split)
            self.assertIn(outcomes.count(", ") + 1, (1, len(split)), case[:80])
        files = self.line.files_of(random.Random(1), MADE)
        self.assertEqual(len({file.name for file in files}), len(files))
        self.assertEqual(len(files), sum(case.partition(": ")[2].count(">") + 1 for case in CASES))

    def test_a_file_of_several_is_split_unless_it_is_for_a_look(self) -> None:
        Telegram, File = self.line.Telegram, self.line.File
        good, cut = Telegram(["FWB/16", "020-12345675FRAJFK/T1K1"], "ok 1"), Telegram(["FSU/12"], "301 1 ending")
        self.assertEqual((good.place, good.answer), ("taken", 'FWB/16 200 {"count":1,"reply":"ok"}\n'))
        self.assertEqual((cut.place, cut.answer), ("refused", 'FSU/12 400 {"detail":"1 ending","refused":301}\n'))
        file = File(random.Random(1), "a.txt", [good, cut])
        self.assertEqual(file.outcomes, {"a.txt.001": good, "a.txt.002": cut})
        doubt = [Telegram(["FHL/4"], "look"), Telegram(["FWB/16"], "look")]
        self.assertEqual(list(File(random.Random(1), "b.txt", doubt).outcomes), ["b.txt"])

    def test_addresses(self) -> None:
        for text, wanted in [
            ("FSU/12\r\n057-00000011FRAJFK/T1K1\r\nRCS/12JAN1030/FRA/T1K1\r\n", ("RCS", "JFK", "JFKFSLH")),
            ("FSU/12\r\n125-00000011JFKFRA/T1K1\r\nNFD/12JAN1030/FRA/T1K1\r\n", ("NFD", "JFK", "LHRFSBA")),
            ("FSU/12\r\n057-00000011JFKFRA/T1K1\r\nNFD/12JAN1030/FRA/T1K1\r\n", ("NFD", "JFK", "FRAFSLH FRACGXX")),
            ("FSU/12\r\n057-00000011FRAMUC/T1K1\r\nDIS/LH1/12JAN1030/FRA/OFLD/T1K1\r\n", ("DIS", "MUC", "MUCFSLH")),
            ("FFM/8\r\n1/BA1/12JAN/FRA\r\nJFK\r\n", ("FFM", "JFK", "LHRFMBA")),
            ("FFM/8\r\n1/LH1/12JAN/FRA\r\nMUC\r\n", ("FFM", "MUC", "FRAFMLH")),
        ]:
            self.assertEqual(self.line.addressed(text), wanted)


if __name__ == "__main__":
    unittest.main()
