"""The planted edits that tools/planted tries: which function each changes, and what a check says of it."""
import hashlib
import os
import pathlib
import re
import shutil
import signal
import subprocess
import threading
from typing import Any

# A function: its module, its type or trait, and its name.
Function = tuple[str, str, str]

TOP = pathlib.Path(__file__).resolve().parents[2]
KIT = pathlib.Path(shutil.which("rt") or "/bin/rt").resolve().parent.parent
KEPT = pathlib.Path(os.environ.get("XDG_CACHE_HOME") or pathlib.Path.home() / ".cache") / "cargo_desk-planted"
PARTS = ("src", "specs", "proofs")
# The checks at work, a lock to start one, and whether all are to end.
RUNNING, STARTING, STOPPED = set(), threading.Lock(), threading.Event()
REFUSED, LIMIT, NAME = "refused", "refused only by a limit of the prover", "refused for a name alone"
MISSED, BROKEN, NONE = "NOT REFUSED", "BROKEN", "NO VERDICT"
# What is printed of a proof that cites a name that is gone, or another proof that is refused.
GONE = re.compile(r"has no field|is not in scope|has no `|was not admitted")
# What is printed of a text that can't be read, and of a limit that the prover meets wherever it checks the same.
UNREAD = re.compile(r"is not in scope|has no field|is no name|operand is missing|expected the end|cannot continue")
LIMITS = re.compile(r"antt ran out of (stack|the (steps|memory) that the check of one declaration may (take|use))"
                    r"|(outgrew the memory limit|stopped at the step limit) \(")


def edits_of(name: str) -> list[str]:
    return sorted(it.name for it in (TOP / "crates" / name / "planted").glob("*.edit"))


class Edit:
    """An edit: the texts that it makes, or why it can't be applied, and the function if it changes one body alone."""

    def __init__(self, folder: pathlib.Path, name: str) -> None:
        self.name = name
        self.texts: dict[str, str] = {}
        self.lines: dict[int, str] = {}
        self.why: str | None = None
        self.function: Function | None = None
        self.text = (folder / "planted" / name).read_text()
        self.path = old = ""
        for line in self.text.splitlines():
            if line.startswith("file: "):
                self.path = line[len("file: "):].strip()
            elif line.startswith("old: "):
                old = line[len("old: "):]
            elif line.startswith("new:") and not (folder / self.path).is_file():
                self.why = f"there is no file {self.path}"
            elif line.startswith("new:"):
                now = self.texts.get(self.path) or (folder / self.path).read_text()
                if now.count(old) != 1:
                    self.why = f"an 'old:' text is in {self.path} {now.count(old)} times"
                self.texts[self.path] = now.replace(old, re.sub(r"\A ", "", line[len("new:"):]))
        if not self.texts and not self.why:
            self.why = "it has no 'old:' and 'new:' lines"
        if len(self.texts) == 1 and self.path.startswith("src/") and not self.why:
            before, after = ((folder / self.path).read_text().split("\n"), self.texts[self.path].split("\n"))
            self.lines = {at: after[at] for at in range(len(before)) if before[at] != after[at]}
            # A body can begin on the line that opens it.
            inside = [at + (before[at].endswith(" {") and after[at].startswith(before[at])) for at in self.lines]
            functions = {function_at(folder, self.path, before, at) for at in inside}
            self.function = functions.pop() if len(functions) == 1 else None


def function_at(folder: pathlib.Path, path: str, lines: list[str], at: int) -> Function | None:
    """The function whose body has that line, as its module, its impl and its name, or None. `rt fmt` laid it out."""
    def around(start: int, words: str) -> tuple[int | None, str, str]:
        """The nearest item from a line upwards that ends after the edited line: its line, margin and name."""
        for up in range(start, -1, -1):
            found = re.match(rf"( *)(?:(?:pub(?:\(\w+\))?|const|unsafe|final) )*(?:{words})", lines[up])
            if found and next((it for it in range(up, len(lines)) if lines[it] == found[1] + "}"), 0) >= at:
                return up, found[1], found[2]
        return None, "", ""

    start, margin, name = around(at - 1, r"fn (\w+)")
    if start is None:
        return None
    body = next(it for it in range(start, len(lines)) if re.match(rf"{margin}(\{{|[^ ].* \{{)$", lines[it]))
    block = around(start - 1, r"(impl|trait)\b")[0] if margin else None
    if at <= body or margin and block is None:
        return None
    owner = owner_of(" ".join(it.strip() for it in lines[block:start])) if margin else ""
    declared = re.compile(rf"(?m)^(?:pub(?:\(\w+\))? )?(?:struct|enum) {re.escape(owner)}\b")
    if margin and not declared.search("\n".join(lines)):
        # An impl without a trait counts to the module of its type.
        files = [it for it in folder.glob("src/**/*.rt") if declared.search(it.read_text())]
        path = str(files[0].relative_to(folder)) if files else path
    module = re.sub(r"^(lib|main)$|(^|/)mod$", "", path[len("src/"):-len(".rt")]).replace("/", "::")
    return module, owner, name


def owner_of(header: str) -> str:
    """What rattle calls an impl or a trait: `Holder`, `HolderDisplay`, or `BookAuditRowFoldMoveRow`."""
    head, _, text = header.partition("impl")
    if "trait " in head or not text:
        return str(re.findall(r"trait (\w+)", header)[0])
    known: list[str] = []
    if text.startswith("<"):
        end = next(at for at in range(len(text)) if text[:at + 1].count("<") == text[:at + 1].count(">"))
        known, text = re.findall(r"(?:^|, )(\w+)", text[1:end]), text[end + 1:]
    of_what, _, what = re.split(r"\{| where ", text)[0].strip().rpartition(" for ")
    kind, trait = ([str(word) for word in re.findall(r"(?<!')\b\w+\b(?!::)", it)] for it in (what, of_what))
    if trait:
        return kind[0] + trait[0] + "".join(it for it in trait[1:] if it not in known)
    return "+".join(kind) if set(kind[1:]) - set(known) else kind[0]


def path_of(crate: str, function: Function | None, *before: str) -> str:
    """The path of a function, with words between its module and the rest."""
    module, *rest = function or ("",)
    return "::".join(filter(None, (crate, module, *before, *rest)))


def has_goal(name: str, said: str, told: list[str]) -> bool:
    """Whether what is printed of a function says that a goal of its own is left, and not only one of what it calls."""
    if re.match(r"no holes|proved|depends on a hole|could not tell|(not )?assumed", said):
        return False
    place = re.escape(name.partition("::")[2].replace("::", "/"))
    errors = [re.match(rf"(?:\./)?proofs/{place}/\w+\.antt:\d+:\d+: error: (.*)", it) for it in told]
    return "did not prove `" in said or any(it and not GONE.search(it[1]) for it in errors)


def refused(crate: str, edits: list[Edit], told: list[str]) -> set[Edit] | None:
    """Of edits that one check tried, those whose function has a goal left, or None if the check can't be split so."""
    functions = re.findall(r"^fn (\S+?): (.*)", "\n".join(told), re.M)
    left = {name for name, said in functions if has_goal(name, said, told)}
    mine = {}
    for it in edits:
        path, closures = path_of(crate, it.function), path_of(crate, it.function, "fn") + "::"
        mine[it] = {name for name, _ in functions if name == path or name.startswith(closures)}
    if not functions or left - set().union(*mine.values()):
        return None
    return {it for it in edits if mine[it] & left}


def named(crate: str, edits: list[Edit], told: list[str]) -> list[Edit]:
    """The edits whose lines or functions are in the errors of a check that ended before the proofs."""
    found = re.findall(r"^(?:\./)?(src/\S+?):(\d+):\d+: error", "\n".join(told), re.M)
    lines = {(path, int(line) - 1) for path, line in found}
    return [it for it in edits if {(it.path, at) for at in it.lines} & lines
            or any(f"function `{path_of(crate, it.function)}`" in line for line in told)]


def verdict(edit: Edit, status: int, told: list[str]) -> str:
    """What a check of the whole crate with this edit alone says of it."""
    matches = [(it, re.match(r"(?:note: )?(?:\./)?(\S+?):\d+:\d+:", it)) for it in told]
    places = [(it, str(found[1])) for it, found in matches if found]
    for it, file in places:
        said = re.search(r": error: (`[^`]*`: )?(.*)", it)
        if said and (file in edit.texts or file.startswith(("src/", "specs/"))):
            if not said[1] or UNREAD.search(re.sub(r"`[^`]*`", "", said[2])):
                return f"{BROKEN}: {it[:160]}"
    if status == 0:
        return MISSED
    if status == 1 and told[-1].startswith("logic=not-proved"):
        errors = [it for it, _ in places if ": error" in it or it.startswith("note: ")] or [it for it, _ in places]
        gone = [it for it in errors if re.match(r"(note: )?(\./)?proofs/", it) and GONE.search(it)]
        return NAME if errors and gone == errors else REFUSED
    if status == 3 and any(LIMITS.search(it) for it in told):
        return LIMIT
    found = next((it for it in told if re.search(r"\berror\[[\w-]+\]", it)), "")
    return f"{BROKEN}: {found[:160]}" if status == 1 and found else f"{NONE}: the check ended with status {status}"


class Crate:
    """A crate, its edits, and the folder in which they are tried."""

    def __init__(self, name: str, needs: dict[str, str]) -> None:
        self.name, self.folder = name, TOP / "crates" / name
        self.below: list[str] = []
        # Where its edits are tried, and the libraries below; the tool sets both.
        self.work = self.libraries = pathlib.Path()
        self.deps = needs[name].partition(":")[2].split()

        def add(it: str) -> None:
            for dep in needs[it].partition(":")[2].split():
                if dep in needs and dep not in self.below:
                    self.below.append(dep)
                    add(dep)
        add(name)
        self.edits = [Edit(self.folder, it) for it in edits_of(name)]
        parts = {it: [file for part in PARTS for file in sorted((TOP / "crates" / it / part).rglob("*.*"))]
                 for it in [name, *sorted(self.below)]}
        found = hashlib.sha256(repr(((KIT / "KIT-ID").read_bytes(), self.deps)).encode())
        for file in sum(parts.values(), []):
            found.update(repr((str(file.relative_to(TOP)), file.read_bytes())).encode())
        self.sum, self.size = found.hexdigest(), sum(it.stat().st_size for it in parts[name])

    def kept(self, edit: Edit) -> pathlib.Path:
        """The file that has the verdict on an edit, if there is one."""
        return KEPT / self.name / hashlib.sha256(f"{self.sum} {edit.name} {edit.text}".encode()).hexdigest()

    def check(self, texts: dict[str, str], *flags: Any) -> tuple[int, list[str]]:
        """Checks the crate with these texts, over what earlier checks of this run kept: its status and its lines."""
        for path, text in texts.items():
            (self.work / path).write_text(text)
        rlib = {it: self.libraries / it / "out/rlib" / f"{it}.rlib" for it in self.below}
        root = "src/lib.rt" if (self.work / "src/lib.rt").is_file() else "src/main.rt"
        words: list[str | pathlib.Path] = ["--crate-name", self.name, root]
        for it in dict.fromkeys(["std", *self.deps]):
            words += ["--extern", f"{it}={rlib.get(it, KIT / 'rlibs' / f'{it}.rlib')}"]
        for folder in [KIT / "rlibs", *[it.parent for it in rlib.values()]]:
            words += ["-L", f"dependency={folder}"]
        words += ["--antt-project", KIT / "rattle/logic/antt-project.json", "--logic-built", KIT / "logic_built",
                  "--links", f"{self.name}=", "--jobs", "1", "--incremental", self.work / "kept", *flags]
        for _ in range(2):
            with STARTING:
                if STOPPED.is_set():
                    raise InterruptedError
                run = subprocess.Popen([KIT / "bin/rattle", "check", *words], cwd=self.work, stdin=subprocess.DEVNULL,
                                       stdout=subprocess.PIPE, stderr=subprocess.STDOUT, text=True, errors="replace")
                RUNNING.add(run)
            told = run.communicate()[0]
            RUNNING.discard(run)
            if run.returncode != -signal.SIGKILL:
                # Killed most likely for memory: once more.
                break
        for path in texts:
            shutil.copy(self.folder / path, self.work / path)
        return run.returncode, told.rstrip("\n").split("\n")

    def refused(self, edits: list[Edit]) -> set[Edit]:
        """Tries edits of different functions in one check, and returns those whose own function is refused."""
        texts = {it.path: (self.folder / it.path).read_text().split("\n") for it in edits}
        for it in edits:
            for at, line in it.lines.items():
                texts[it.path][at] = line
        only = [word for it in edits for word in ("--only", path_of(self.name, it.function))]
        told = self.check({it: "\n".join(texts[it]) for it in texts}, "--allow-holes", *only)[1]
        found = refused(self.name, edits, told)
        if found is not None or len(edits) == 1:
            return found or set()
        # The check ended early, or an edit changed more than its function: without those that it names, or by halves.
        bad = named(self.name, edits, told)
        parts = [[it for it in edits if it not in bad]] if bad else [edits[::2], edits[1::2]]
        return set().union(*(self.refused(part) for part in parts if part))
