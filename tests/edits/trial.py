"""Trying wrong bodies.

The prover judges each function by its own code and by the contracts of what it calls. So edits of several functions are made together, and one
check judges them all: it has to refuse of each edit a function that it changes, by that function's own code and at more than a name that is
missing, and no other function.
"""

import tempfile
import time
from concurrent.futures import FIRST_COMPLETED, ThreadPoolExecutor, wait

from edits import BadEdit, Edit, batches_of

MOST_LANES = 64
# Seconds after which the trial looks again for crates that are ready and for lanes.
PAUSE = 2


def edits_of(root, crates):
    """The files of each crate's edits."""
    return {name: sorted(root.glob(f"crates/{name}/must-fail/*.edit")) for name in crates}


def try_all(crates, edits, lanes, is_ready):
    """Tries the edits of each crate once it is ready, of as many crates at once as there are lanes then, and says what came of each."""
    size = {name: len(paths) * sum(map(len, crates.texts(name).values())) for name, paths in edits.items()}
    # (those with most to try go first, so that no lane is left alone at the end)
    left, running = sorted((it for it in edits if edits[it]), key=lambda it: -size[it]), {}
    passed = failed = 0
    with ThreadPoolExecutor(MOST_LANES) as pool:
        while left or running:
            for name in [it for it in left if is_ready(it)][: max(lanes() - len(running), 0)]:
                left.remove(name)
                running[pool.submit(try_crate, crates, name, edits[name])] = name
            if not running:
                time.sleep(PAUSE)
                continue
            for ended in wait(running, PAUSE, FIRST_COMPLETED).done:
                name = running.pop(ended)
                for edit, well, said in ended.result():
                    print(f"must-fail {name}/{edit}: {said}", flush=True)
                    passed, failed = passed + well, failed + (not well)
    return passed, failed


def try_crate(crates, name, paths):
    """Tries these edits of a crate: of each its name, whether it was refused, and where or why not."""
    texts, edits, results = crates.texts(name), [], []
    try:
        crates.build_below(name)
    except BadEdit as why:
        return [(path.stem, False, f"not tried: {why}") for path in paths]
    for path in paths:
        try:
            edit = Edit.read(path)
            edit.made(texts)
            edits.append(edit)
        except BadEdit as why:
            results.append((path.stem, False, f"BAD EDIT: {why}"))
    with tempfile.TemporaryDirectory(prefix="edits-kept-") as kept:
        for batch in batches_of(edits, texts):
            results += judged(crates, name, batch, kept)
    return results


def judged(crates, name, batch, kept):
    """What one check says of the edits that are made together."""
    functions = [it for _, those in batch.edits for it in those]
    verdict = crates.check(name, batch.texts, functions, kept)
    results = [(edit.name, *verdict_on(verdict, those)) for edit, those in batch.edits]
    # (all that rests on a changed definition may be refused)
    others = verdict.others(functions) if functions else []
    return results + [(batch.edits[0][0].name, False, f"{path} is refused beside it, whose code is as it was") for path in others]


def verdict_on(verdict, functions):
    """Whether the prover refused one of an edit's functions, or the crate where the edit changes none, and where or why not."""
    if not verdict.has_ended():
        return False, "\n".join(["BAD EDIT: the prover came to no end; the last lines of what it said:", *verdict.lines[-6:]])
    if verdict.unread():
        return False, f"BAD EDIT: the prover can't read the edited text: {verdict.unread()[:160]}"
    try:
        refused = [(it.path, verdict.refusal(it)) for it in functions] or [("the crate", verdict.refusal_of_all())]
    except BadEdit as why:
        return False, f"BAD EDIT: {why}"
    at = next((f"{path}: {said}" for path, said in refused if said), None)
    return (True, f"refused at {at}") if at else (False, f"NOT REFUSED: {', '.join(path for path, _ in refused)}")
