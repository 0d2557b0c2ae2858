"""A desk that runs: the built program over a station's file, its calls, and its service on a port.

    with Desk("./cargo_desk") as desk:
        desk.act("take-in", "k1", prefix="020", serial="1234567", count=10)
        print(desk.ask("GET", "/v1/reports/stock").text)
"""
import json
import os
import pathlib
import signal
import socket
import subprocess
import tempfile
from types import TracebackType
from typing import IO, Any, Iterable, NamedTuple, Self

# The longest that a call, an answer or a start may take, in seconds, unless a tool says otherwise.
PATIENCE = 120


class DeskFault(Exception):
    """The program doesn't do what a tool needs of it: its service doesn't listen, or a station isn't made."""


class Called(NamedTuple):
    """What a call of the program returned: its status, what it printed, and its standard error."""
    status: int
    out: bytes
    err: bytes


class Answer(NamedTuple):
    """An answer of the service: its status, its header and its body."""
    status: int
    fields: dict[str, str]
    text: str


def free_port() -> int:
    """Returns a port that nothing listens on."""
    with socket.socket() as it:
        it.bind(("127.0.0.1", 0))
        return int(it.getsockname()[1])


class Desk:
    """The program over a station's file, and its service while it is started.

    Without a file it makes a folder for one, which `close` removes. A file that isn't there is made for `station`. With
    `where` the calls have these words before their command, such as `--at 8080`, and no file is made. `folder` is where
    the program runs, `env` its environment; both count from the next call or start on.
    """

    def __init__(self, program: str | os.PathLike[str], file: str | os.PathLike[str] | None = None, *,
                 station: str = "FRA", where: Iterable[str] | None = None,
                 folder: str | os.PathLike[str] | None = None, env: dict[str, str] | None = None) -> None:
        self.program, self.folder, self.env = os.path.abspath(program), folder, env
        self.port = free_port()
        self.process: subprocess.Popen[bytes] | None = None
        self.errors: IO[bytes] | None = None
        self.room: tempfile.TemporaryDirectory[str] | None = None
        self.file = pathlib.Path()
        if where is not None:
            self.where = list(where)
            return
        if file is None:
            self.room = tempfile.TemporaryDirectory()
            file = pathlib.Path(self.room.name, "station.db")
        self.file, self.where = pathlib.Path(file), ["--db", str(file)]
        if not pathlib.Path(folder or ".", self.file).exists():
            self.init(station)

    def init(self, station: str) -> None:
        """Makes the station in its file."""
        made = self.call("--station", station, "init")
        if made != (0, f"ok {station}\n".encode(), b""):
            raise DeskFault(f"init: {made}")

    def call(self, *words: str, given: bytes = b"", patience: float = PATIENCE) -> Called:
        """Calls the program, with `given` on standard input."""
        done = subprocess.run([self.program, *self.where, *words], input=given, capture_output=True, cwd=self.folder,
                              env=self.env, timeout=patience, check=False)
        return Called(done.returncode, done.stdout, done.stderr)

    def start(self, **more: Any) -> None:
        """Starts the service, and waits until it listens. Standard error is kept for `said`. `more` is for `Popen`."""
        self.forget()
        self.errors = tempfile.TemporaryFile()
        opened: dict[str, Any] = {"stdin": subprocess.DEVNULL, "stdout": subprocess.PIPE, "stderr": self.errors,
                                  "cwd": self.folder, "env": self.env, **more}
        self.process = subprocess.Popen([self.program, *self.where, "serve", "--port", str(self.port)], **opened)
        assert self.process.stdout
        if self.process.stdout.readline() != b"listening\n":
            status = self.process.wait()
            raise DeskFault(f"the service doesn't listen: status {status}, {self.said()!r}")

    def is_on(self) -> bool:
        """Whether the service runs."""
        return self.process is not None and self.process.poll() is None

    def said(self) -> bytes:
        """What the service has printed on standard error since it was started."""
        if not self.errors:
            return b""
        self.errors.seek(0)
        return self.errors.read()

    def stop(self, by: signal.Signals = signal.SIGKILL) -> None:
        """Ends the service, if it runs, and waits until it has ended."""
        if self.process:
            self.process.send_signal(by)
            self.process.wait()
            assert self.process.stdout
            self.process.stdout.close()
            self.process = None

    def forget(self) -> None:
        """Closes what holds the standard error of the service."""
        if self.errors:
            self.errors.close()
            self.errors = None

    def close(self) -> None:
        """Stops the service, and removes what this desk made for itself."""
        self.stop()
        self.forget()
        if self.room:
            self.room.cleanup()
            self.room = None

    def __enter__(self) -> Self:
        self.start()
        return self

    def __exit__(self, kind: type[BaseException] | None, error: BaseException | None, trace: TracebackType | None) -> None:
        self.close()

    def send(self, data: bytes, ends: bool = False, patience: float = PATIENCE) -> bytes:
        """Sends these bytes on a connection of their own, if `ends` with its end, and returns all that comes back."""
        with socket.create_connection(("127.0.0.1", self.port), timeout=patience) as it:
            it.sendall(data)
            if ends:
                it.shutdown(socket.SHUT_WR)
            return b"".join(iter(lambda: it.recv(1 << 16), b""))

    def ask(self, method: str, path: str, fields: Iterable[tuple[str, object]] = (), body: bytes = b"") -> Answer:
        """Sends a request with these header fields and no others, and returns the answer."""
        head = "".join(f"{name}: {value}\r\n" for name, value in fields)
        answer = self.send(f"{method} {path} HTTP/1.1\r\n{head}\r\n".encode() + body)
        front, parted, text = answer.partition(b"\r\n\r\n")
        if not parted:
            raise DeskFault(f"{method} {path}: no answer: {answer!r}")
        first, *told = front.decode().split("\r\n")
        return Answer(int(first.split()[1]), dict(field.partition(": ")[::2] for field in told), text.decode())

    def post(self, path: str, body: bytes, **fields: str) -> Answer:
        """Posts a body with its length. A field such as Request_Key is sent as `Request-Key`."""
        named = [(name.replace("_", "-"), value) for name, value in fields.items()]
        return self.ask("POST", path, [*named, ("Content-Length", len(body))], body)

    def act(self, verb: str, key: str, /, **body: Any) -> Answer:
        """Sends a command under a key."""
        return self.post(f"/v1/act/{verb}", json.dumps(body).encode(), Request_Key=key)
