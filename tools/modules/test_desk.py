"""Tests of `desk`: with a program that stands in for the desk, and with the built one if PROGRAM names it.

    [PROGRAM=PATH] python3 -m unittest discover -s tools/modules
"""
import os
import pathlib
import signal
import sys
import tempfile
import unittest

sys.path.insert(0, os.path.dirname(os.path.abspath(__file__)))
from desk import Called, Desk, DeskFault, free_port

# Makes a file, echoes calls, and answers each request by what came; FAIL makes it end before it listens.
STAND_IN = """#!/usr/bin/env python3
import os, socket, sys
words = sys.argv[1:]
if words[-1] == "init":
    open(words[1], "w").close()
    print("ok", words[-2])
elif "serve" in words:
    if os.environ.get("FAIL"):
        sys.exit("no port")
    listener = socket.create_server(("127.0.0.1", int(words[-1])))
    print("listening", flush=True)
    while True:
        client, _ = listener.accept()
        came = client.recv(1 << 16)
        sys.stderr.write("came\\n")
        sys.stderr.flush()
        if not came.startswith(b"GET /nothing"):
            client.sendall(b"HTTP/1.1 200 OK\\r\\nContent-Type: text/plain\\r\\n\\r\\n" + came)
        client.close()
else:
    print(*words)
    sys.stderr.write(sys.stdin.read())
    sys.exit(3)
"""


class DeskTest(unittest.TestCase):
    """A desk of a program that stands in."""

    def setUp(self) -> None:
        self.room = tempfile.TemporaryDirectory()
        self.program = pathlib.Path(self.room.name, "program")
        self.program.write_text(STAND_IN)
        self.program.chmod(0o755)

    def tearDown(self) -> None:
        self.room.cleanup()

    def test_makes_its_own_file_and_removes_it(self) -> None:
        with Desk(self.program) as desk:
            file = desk.file
            self.assertTrue(file.exists())
            self.assertTrue(desk.is_on())
        self.assertFalse(file.parent.exists())
        self.assertFalse(desk.is_on())

    def test_leaves_a_file_that_is_there(self) -> None:
        file = pathlib.Path(self.room.name, "old.db")
        file.write_text("old")
        desk = Desk(self.program, file)
        desk.close()
        self.assertEqual(file.read_text(), "old")

    def test_calls(self) -> None:
        desk = Desk(self.program, where=["--at", "8080"], folder=self.room.name)
        self.assertEqual(desk.call("stock", given=b"row\n"), Called(3, b"--at 8080 stock\n", b"row\n"))

    def test_asks_with_its_fields_alone(self) -> None:
        with Desk(self.program) as desk:
            answer = desk.ask("GET", "/v1/stock", [("Host", "h")])
            self.assertEqual(answer, (200, {"Content-Type": "text/plain"}, "GET /v1/stock HTTP/1.1\r\nHost: h\r\n\r\n"))
            self.assertEqual(desk.act("confirm", "k1", upto=3).text.partition("\r\n\r\n")[2], '{"upto": 3}')
            self.assertEqual(desk.said(), b"came\ncame\n")
            with self.assertRaises(DeskFault):
                desk.ask("GET", "/nothing")

    def test_starts_again(self) -> None:
        with Desk(self.program) as desk:
            for by in (signal.SIGKILL, signal.SIGTERM):
                desk.stop(by)
                self.assertFalse(desk.is_on())
                desk.start()
                self.assertEqual(desk.send(b"x", ends=True)[-1:], b"x")

    def test_says_why_it_does_not_listen(self) -> None:
        desk = Desk(self.program, env={**os.environ, "FAIL": "1"})
        with self.assertRaisesRegex(DeskFault, "status 1, b'no port"):
            desk.start()
        desk.close()

    def test_port_is_free(self) -> None:
        self.assertNotEqual(free_port(), 0)

    @unittest.skipUnless(os.environ.get("PROGRAM"), "PROGRAM names no built cargo_desk")
    def test_the_built_program(self) -> None:
        with Desk(os.environ["PROGRAM"]) as desk:
            self.assertEqual(desk.act("take-in", "k1", prefix="020", serial="1234567", count=10).text,
                             '{"count":10,"reply":"ok"}')
            self.assertEqual(desk.ask("GET", "/v1/reports/stock").text,
                             "020 1234567 1234576       10 DESK\nEND 1\n")
            self.assertEqual(desk.call("report", "stock")[0], 3)
            desk.stop(signal.SIGTERM)
            self.assertEqual(desk.call("report", "stock"), (0, b"020 1234567 1234576       10 DESK\nEND 1\n", b""))


if __name__ == "__main__":
    unittest.main()
