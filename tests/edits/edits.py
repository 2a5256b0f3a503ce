"""Wrong bodies as `must-fail/` has them, and which of them one check can judge together."""

import re
from dataclasses import dataclass, field

FUNCTION = re.compile(r"( *)(?:pub(?:\([^)]*\))? )?(?:const )?(?:unsafe )?fn (\w+)")
CONSTANT = re.compile(r"const (\w+):")
BLOCK = re.compile(r"(?:pub(?:\([^)]*\))? )?(?:unsafe )?(?:trait|impl(?:<(?P<generics>.*?)>)?) (?:(?P<trait>[\w:]+)(?:<(?P<of>.*)>)? for )?(?:&(?:'\w+ )?)?(?:mut )?(?P<type>[\w:]+)")
# A proof that is left open.
OPEN = """\
use Rattle.{crate}.proofs.{path}.Statement.{{statement}}

pub {name}_spec : {{M : Type 1}} → statement M
{name}_spec = ?
"""


class BadEdit(Exception):
    """An edit that can't be made, or that says nothing of what is proved."""


@dataclass(frozen=True)
class Function:
    """A function: where it stands, and the end of the path that the prover prints. A method's path begins with its type's module, wherever it stands."""

    file: str
    first: int
    last: int
    path: str

    def is_at(self, path):
        """Whether it is the function that the prover calls so, by its path below the crate."""
        return f"::{path}".endswith(f"::{self.path}")


@dataclass
class Edit:
    """One file of `must-fail/`: texts that are put in the place of others."""

    name: str
    pairs: list = field(default_factory=list)

    @classmethod
    def read(cls, path):
        edit, file, old = cls(path.stem), None, None
        for line in path.read_text(encoding="utf-8").split("\n"):
            if line.startswith("file: "):
                file = line.removeprefix("file: ").strip()
            elif line.startswith("old: "):
                old = line.removeprefix("old: ")
            elif line.startswith("new:"):
                if not file or not old:
                    raise BadEdit("a 'new:' line stands before any 'file:' or 'old:' line")
                edit.pairs.append((file, old, line.removeprefix("new:").removeprefix(" ")))
                old = None
        if not edit.pairs:
            raise BadEdit("it has no 'old:' and 'new:' pair")
        return edit

    def made(self, texts):
        """The texts with this edit made in them."""
        after = dict(texts)
        for file, old, new in self.pairs:
            found = after.get(file, "").count(old)
            if found != 1:
                raise BadEdit(f"an 'old:' text stands in {file} {found} times, and not once")
            after[file] = after[file].replace(old, new)
        return after

    def functions(self, texts):
        """The functions that it changes, of a constant those of its file that name it. There are none where it changes a definition."""
        found = set()
        for file, old, _ in self.pairs:
            text, constant = texts[file], CONSTANT.match(old)
            places = [text.index(old)]
            if constant:
                places = [it.start() for it in re.finditer(rf"\b{constant[1]}\b", text)]
            if file.startswith("src/"):
                found |= {function_at(file, text, it) for it in places}
        return found - {None}


@dataclass
class Batch:
    """Edits that are made together, with the functions of each, and the texts with all of them made."""

    edits: list
    texts: dict

    def takes(self, edit, functions):
        """Adds an edit of other functions, where its texts are still there."""
        held = [those for _, those in self.edits]
        if not functions or not all(held) or any(functions & those for those in held):
            return False
        try:
            self.texts = edit.made(self.texts)
        except BadEdit:
            return False
        self.edits.append((edit, functions))
        return True


def batches_of(edits, texts):
    """As few batches as it takes in the order of the edits. One that changes no function stands alone."""
    batches = []
    for edit in edits:
        functions = edit.functions(texts)
        if not any(batch.takes(edit, functions) for batch in batches):
            batches.append(Batch([(edit, functions)], edit.made(texts)))
    return batches


def functions_of(file, text):
    """The functions of a formatted file, contract and body."""
    lines = text.split("\n")
    for first, line in enumerate(lines):
        begins = FUNCTION.match(line)
        if begins:
            indent, name = begins.groups()
            before = [owner_of(lines[:first])] if indent else module_of(file)
            yield Function(file, first + 1, last_line(lines, first, indent) + 1, "::".join([*before, name]))


def function_at(file, text, at):
    """The function in whose text a place of a file is."""
    number = text.count("\n", 0, at) + 1
    return next((it for it in functions_of(file, text) if it.first <= number <= it.last), None)


def emptied(text, function):
    """The text with a body that never returns in the place of the function's, as long as that was; as it is where the body is one line."""
    lines = text.split("\n")
    own = range(function.first - 1, function.last - 1)
    indent = FUNCTION.match(lines[function.first - 1])[1]
    begins = [it for it in own if lines[it] == indent + "{"] or [it for it in own if lines[it].endswith("{")]
    for at in range(begins[0] + 1, function.last - 1) if lines[function.last - 1] == indent + "}" else ():
        lines[at] = indent + "    loop {}" if at == begins[0] + 1 else ""
    return "\n".join(lines)


def taken_by_contract(crate, texts, paths, functions):
    """The texts of a crate with an open proof, and a body that never returns, in the place of those of the functions of these paths that are none
    of the functions given. A check takes them by their contracts, as it does where it judges those that call them."""
    after, others = dict(texts), [path for path in paths if not any(it.is_at(path) for it in functions)]
    for path in others:
        folder, name = f"proofs/{path.replace('::', '/')}", path.split("::")[-1]
        for file in ("Answers.antt", "Invariants.antt"):
            after.pop(f"{folder}/{file}", None)
        after[f"{folder}/Proof.antt"] = OPEN.format(crate=crate, path=path.replace("::", "."), name=name)
    for file in (it for it in texts if it.startswith("src/")):
        for function in functions_of(file, texts[file]):
            if any(function.is_at(path) for path in others):
                after[file] = emptied(after[file], function)
    return after


def last_line(lines, first, indent):
    """The last line of the function that begins on the first one: that of the closing brace, or of the semicolon where it has no body."""
    if lines[first].endswith(("}", ";")):
        return first
    has_body = lines[first].endswith("{")
    for at in range(first + 1, len(lines)):
        has_body = has_body or lines[at] == indent + "{" or (lines[at].startswith(indent + ")") and lines[at].endswith("{"))
        if lines[at] == indent + "}" or (lines[at].endswith(";") and not has_body):
            return at
        if lines[at] and not lines[at].startswith(indent):
            break
    return first


def module_of(file):
    parts = file.removeprefix("src/").removesuffix(".rt").split("/")
    return [it for it in parts if it not in ("lib", "main", "mod")]


def owner_of(lines):
    """The type of the block in which a method stands; behind it the trait where the method is a trait's, and of which types it is, but for
    parameters of the block."""
    block = next(it for it in map(BLOCK.match, reversed(lines)) if it)
    last_name = lambda path: (path or "").split("::")[-1]
    parameters = {it.split(":")[0].strip().lstrip("'") for it in (block["generics"] or "").split(",")}
    types = re.findall(r"\w+(?!\w*::)", (block["of"] or "").replace("()", "Unit"))
    return last_name(block["type"]) + last_name(block["trait"]) + "".join(it for it in types if it not in parameters)
