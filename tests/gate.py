"""The gate: `rt ci` from nothing, and beside it the edits that have to be refused. The last line is 'N passed, M failed'.

`rt ci` tries edits too, but one at a time, each at the price of its whole crate. So it works on a copy of the repository without them, and the
edits of a crate are tried together, in a lane of their own, once the crate is proved and over the libraries that are built by then. RT_JOBS
is the number of checks at once.
"""

import os
import re
import shutil
import subprocess
import sys
import tempfile
import threading
from pathlib import Path

ROOT = Path(__file__).resolve().parents[1]
sys.path.insert(0, str(ROOT / "tests/edits"))
from prover import Crates
from trial import edits_of, try_all

COUNTS = re.compile(r"(\d+) passed, (\d+) failed")


class Proving:
    """`rt ci` in a folder, with what it has proved so far; each line that it prints is passed on."""

    def __init__(self, top, lanes, hear):
        self.hear = hear
        self.proved, self.has_ended, self.counts, self.status = set(), False, (0, 1), None
        self.process = subprocess.Popen(
            ["rt", "ci"],
            cwd=top,
            env={**os.environ, "RT_JOBS": str(lanes), "PYTHONUNBUFFERED": "1"},
            stdin=subprocess.DEVNULL,
            stdout=subprocess.PIPE,
            stderr=subprocess.STDOUT,
            text=True,
            errors="replace",
        )
        self.reader = threading.Thread(target=self.follow)
        self.reader.start()

    def follow(self):
        """Passes its lines on, and notes what they say."""
        for line in self.process.stdout:
            print(line, end="", flush=True)
            self.hear(line)
            proved, counts = re.match(r"rt: (\w+) proved$", line), COUNTS.match(line)
            if proved:
                self.proved.add(proved[1])
            if counts:
                self.counts = tuple(map(int, counts.groups()))
        self.status = self.process.wait()
        self.has_ended = True

    def has(self, names):
        return self.has_ended or self.proved.issuperset(names)

    def __enter__(self):
        return self

    def __exit__(self, kind, *_):
        if kind:
            self.process.kill()
        self.reader.join()


def main():
    lanes = int(os.environ.get("RT_JOBS") or 4)
    with tempfile.TemporaryDirectory(prefix="gate-") as folder:
        top = Path(folder, ROOT.name)
        shutil.copytree(ROOT, top, symlinks=True, ignore=shutil.ignore_patterns(".git", "out", "must-fail", "__pycache__"))
        crates = Crates(top)
        with Proving(top, max(lanes - 1, 1), crates.hear) as proving:
            passed, failed = try_all(
                crates,
                edits_of(ROOT, crates),
                lanes=lambda: lanes if proving.has_ended else 1,
                is_ready=lambda it: proving.has([it, *crates.below(it)]),
            )
        put_back(top)
    passed, failed = passed + proving.counts[0], failed + proving.counts[1]
    print(f"{passed} passed, {failed} failed")
    return 1 if failed or proving.status else 0


def put_back(top):
    """Has what was built stand where `rt` builds it in the repository."""
    for made in top.glob("crates/*/out/*"):
        if made.is_file():
            to = ROOT / made.relative_to(top)
            to.parent.mkdir(exist_ok=True)
            shutil.copy2(made, to)


if __name__ == "__main__":
    sys.exit(main())
