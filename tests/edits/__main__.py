"""The wrong bodies of each crate's `must-fail/`, tried over the crates' built libraries. The last line is 'N passed, M failed'.

    python3 tests/edits [--top FOLDER] [--said FILE]... [CRATE[/EDIT]...]     for example tca_join tca_log/union_keeps_a_repeat

FOLDER is where `rt check` or `rt ci` built the libraries, the repository if none is given. FILE has what `rt check` printed: the functions that
it proved aren't proved again.
"""

import argparse
import os
import sys
from pathlib import Path

sys.path.insert(0, str(Path(__file__).resolve().parent))
from prover import Crates
from trial import edits_of, try_all

ROOT = Path(__file__).resolve().parents[2]


def main():
    words = argparse.ArgumentParser(prog="tests/edits", description="Tries the wrong bodies of must-fail/.")
    words.add_argument("--top", type=Path, default=ROOT, help="where the libraries were built")
    words.add_argument("--said", type=Path, action="append", default=[], metavar="FILE", help="what rt check printed")
    words.add_argument("wanted", nargs="*", metavar="CRATE[/EDIT]")
    given = words.parse_args()
    crates = Crates(given.top)
    for line in (line for file in given.said for line in file.read_text(encoding="utf-8").splitlines()):
        crates.hear(line)
    edits = edits_of(ROOT, crates)
    if given.wanted:
        edits = {name: [it for it in paths if {name, f"{name}/{it.stem}"} & {*given.wanted}] for name, paths in edits.items()}
    lanes = int(os.environ.get("RT_JOBS") or len(os.sched_getaffinity(0)))
    passed, failed = try_all(crates, edits, lanes=lambda: lanes, is_ready=lambda _: True)
    print(f"{passed} passed, {failed} failed")
    return 1 if failed or not passed else 0


if __name__ == "__main__":
    sys.exit(main())
