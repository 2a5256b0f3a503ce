"""The prover's verdicts on functions whose bodies were changed."""

import os
import re
import shutil
import signal
import subprocess
import sys
import tempfile
import threading
from pathlib import Path

from edits import BadEdit, taken_by_contract

PARTS = ("src", "specs", "proofs")
# An error that a text names what isn't there any more. It shows that a name went, and not that a contract refuses the body.
UNREAD = re.compile(r"has no field|\(nearest: |is not in scope|is no name|operand is missing|expected the end|cannot continue")
NAMES = re.compile(UNREAD.pattern + "|has no `|was not admitted")
ERROR = re.compile(r"(?:note: )?(?:\./)?(?P<file>[^\s:]+):(?P<line>\d+):\d+: (?P<said>.*)")
# What `search` left open of a function, on the line that names it; what follows is about the functions that it calls.
LEFT = re.compile(r"did not prove ([^;]*)")
PROVED = re.compile(r"fn (\w+)::([\w:]+): proved\s*$")


def proved_by(line):
    """The crate and the path below it of the function that a line says is proved. There is none for tests, and for closures, whose path has `fn` in it."""
    said = PROVED.match(line)
    return said.groups() if said and not {"fn", "tests"} & {*said[2].split("::")} else None


class Crates:
    """The crates of a folder, and checks of them over the libraries that were built there."""

    def __init__(self, top):
        sys.path.insert(0, str(Path(shutil.which("rt")).resolve().parent))
        import rtlib

        # (what these words begin ends with this program; the first call has to be the main thread's)
        self.prover = [*rtlib.guarded(), rtlib.RATTLE]
        self.crates = {it.name: it for it in rtlib.crates_below(str(top))}
        self.building, self.unbuilt = threading.Lock(), set()
        self.proved = {it: set() for it in self.crates}

    def __iter__(self):
        return iter(self.crates)

    def below(self, name):
        return [it.name for it in self.crates[name].below()]

    def build_below(self, name):
        """Builds the libraries below a crate that aren't there, as a kit leaves them out that kept them from an earlier run."""
        with self.building:
            for it in self.crates[name].below():
                if not os.path.isdir(it.rlib) and (it.name in self.unbuilt or it.build_rlib(["--jobs", "1"], anew=False)):
                    self.unbuilt.add(it.name)
                    raise BadEdit(f"its library {it.name} isn't built")

    def texts(self, name):
        folder = Path(self.crates[name].folder)
        files = (it for part in PARTS for it in (folder / part).rglob("*") if it.is_file())
        return {str(it.relative_to(folder)): it.read_text(encoding="utf-8") for it in files}

    def hear(self, line):
        """Notes the function that a line of `rt`'s says is proved."""
        crate, path = proved_by(line) or ("", "")
        if crate in self.proved:
            self.proved[crate].add(path)

    def check(self, name, texts, functions, kept):
        """What the prover says of these functions of a crate with these texts, or of the whole crate where none is named; kept holds what the
        checks before it proved."""
        words = [*self.crates[name].words(["--jobs", "1"], keeps=False), "--incremental", kept]
        if functions:
            texts = taken_by_contract(name, texts, self.proved[name], functions)
            words += ["--allow-holes", *(word for it in functions for word in ("--only", it.path))]
        with tempfile.TemporaryDirectory(prefix="edits-") as room:
            for file, text in texts.items():
                path = Path(room, file)
                path.parent.mkdir(parents=True, exist_ok=True)
                path.write_text(text, encoding="utf-8")
            ran = self.run(words, room)
            if ran.returncode == -signal.SIGKILL:
                # (most likely for want of memory beside the other checks)
                ran = self.run(words, room)
        return Verdict(name, ran.stdout)

    def run(self, words, room):
        return subprocess.run(
            [*self.prover, "check", *words],
            cwd=room,
            stdin=subprocess.DEVNULL,
            stdout=subprocess.PIPE,
            stderr=subprocess.STDOUT,
            encoding="utf-8",
            errors="replace",
        )


class Verdict:
    """What one check said."""

    def __init__(self, crate, said):
        self.lines = said.rstrip("\n").split("\n")
        told = re.compile(rf"fn {crate}::(\S+): (.*)")
        self.functions = dict(it.groups() for it in map(told.fullmatch, self.lines) if it)
        self.errors = [it for it in map(ERROR.fullmatch, self.lines) if it and it["said"].startswith(("error", "it is not proved"))]

    def has_ended(self):
        """Whether the prover came to its end, on some functions or on the whole crate."""
        return self.lines[-1].startswith(("only=", "logic="))

    def unread(self):
        """A text of the crate that the prover couldn't read, so that nothing behind it was tried."""
        return next((it[0] for it in self.errors if it["file"].startswith(("src/", "specs/")) and UNREAD.search(it["said"])), None)

    def refusal_of_all(self):
        """At what the prover refused the crate, if it did."""
        if not self.lines[-1].startswith("logic=not-proved"):
            return None
        told = [it["said"] for it in self.errors if not NAMES.search(it["said"])]
        if not told:
            raise BadEdit("it falls only because a text names what it took away")
        return told[0][:160]

    def refusal(self, function):
        """At what the prover refused a function by its own code, if it did."""
        path, said = next((it for it in self.functions.items() if function.is_at(it[0])), ("", ""))
        if not said.startswith(("not proved", "no proof")):
            return None
        left = LEFT.search(said)
        if left:
            return left[1]
        own = self.told_in_proofs(path) + [
            it["said"] for it in self.errors if it["file"] == function.file and function.first <= int(it["line"]) <= function.last
        ]
        told = [it for it in own if not NAMES.search(it)]
        if own and not told:
            raise BadEdit(f"it falls only because a text names what it took away: {own[0][:160]}")
        return told[0][:160] if told else None

    def told_in_proofs(self, path):
        """What it said of a function's files of proofs."""
        folder = f"proofs/{path.replace('::', '/')}/"
        return [it["said"] for it in self.errors if it["file"].startswith(folder)]

    def others(self, functions):
        """Functions that were refused by their own code though it is as it was. One that calls a refused function isn't proved either."""
        for path, said in self.functions.items():
            is_known = any(it.is_at(path) for it in functions)
            is_refused = said.startswith(("not proved", "no proof", "could not tell"))
            is_by_itself = "; it calls" not in said and ": it calls" not in said
            if not is_known and is_refused and (is_by_itself or LEFT.search(said) or any(not NAMES.search(it) for it in self.told_in_proofs(path))):
                yield path
