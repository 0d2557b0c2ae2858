"""Tests of `.ci/run` with stand-ins for the gate and the checks: its last line, and its status."""
import pathlib
import shutil
import subprocess
import tempfile
import unittest

RUN = pathlib.Path(__file__).resolve().parents[2] / ".ci/run"
PROGRAM = "crates/cargo_desk/out/cargo_desk"
MAKES = f"mkdir -p {PROGRAM.rpartition('/')[0]}; touch {PROGRAM}; chmod +x {PROGRAM}; "
# What the gate does, how many checks fail before it and after it, the status, and the last line.
CASES = [
    (MAKES + "echo '250 passed, 0 failed'", 0, 0, 0, "250 passed, 0 failed"),
    (MAKES + "echo '250 passed, 0 failed'", 2, 0, 1, "250 passed, 2 failed"),
    (MAKES + "echo '250 passed, 0 failed'", 1, 1, 1, "250 passed, 2 failed"),
    ("echo '250 passed, 0 failed'", 0, 0, 1, "250 passed, 1 failed"),
    ("echo '249 passed, 1 failed'; exit 1", 0, 0, 1, "249 passed, 1 failed"),
    ("echo '249 passed, 1 failed'; exit 2", 1, 0, 2, "249 passed, 2 failed"),
    (MAKES + "echo '249 passed, 1 failed'", 0, 0, 1, "249 passed, 1 failed"),
    (MAKES + "echo '12 passed, 0 failed (row_sinks alone)'", 0, 0, 1, "0 passed, 1 failed"),
    ("exit 3", 0, 0, 3, "0 passed, 1 failed"),
    (MAKES + "exit 0", 0, 0, 1, "0 passed, 1 failed"),
    ("kill -9 $$", 0, 0, 137, "0 passed, 1 failed"),
]


class RunTest(unittest.TestCase):
    """`.ci/run` in a folder of its own."""

    def test_last_line_and_status(self) -> None:
        for gate, before, after, status, line in CASES:
            with self.subTest(gate=gate, before=before, after=after), tempfile.TemporaryDirectory() as room:
                top = pathlib.Path(room)
                for name, text in {"gate": gate, "checks": f"[ -z \"${{1:-}}\" ] || exit {after}; exit {before}"}.items():
                    (top / "tools").mkdir(exist_ok=True)
                    (top / "tools" / name).write_text(f"#!/bin/sh\n{text}\n")
                    (top / "tools" / name).chmod(0o755)
                (top / ".ci").mkdir()
                shutil.copy(RUN, top / ".ci/run")
                done = subprocess.run([top / ".ci/run"], stdout=subprocess.PIPE, stderr=subprocess.DEVNULL, text=True, check=False)
                self.assertEqual((done.returncode, done.stdout.splitlines()[-1]), (status, line))


if __name__ == "__main__":
    unittest.main()
