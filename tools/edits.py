"""Mutants as files describe them, and copies of a crate's text in which some of them stand.

A file `BUG.edit` has the lines

    refused: sections::fill returns-clause-ok     the function that the prover has to refuse, and a goal that stays open there
    file: src/sections.rt                         the file that is edited
    old: TEXT                                     a line's text, which stands in that file once
    new: TEXT                                     what stands in its place

with more pairs of `old` and `new`, and more files, where the bug takes them.
"""
import re
from pathlib import Path
from typing import NamedTuple

# Where a function begins, and where something else at the left margin does.
FUNCTION = re.compile(r"^ *(?:pub(?:\([a-z]+\))? )?(?:const )?fn (\w+)")
OTHER_ITEM = re.compile(r"^(?:pub(?:\([a-z]+\))? )?(?:const|static|struct|enum|type|use|mod|trait|impl)\b")


class Replaced(NamedTuple):
    """A text that stands in a file once, and what stands there instead."""

    file: str
    old: str
    new: str


class Mutant(NamedTuple):
    """A bug, and for each function that the prover has to refuse a goal that stays open there."""

    name: str
    replaced: list[Replaced]
    refused: list[tuple[str, str]]


def read(file: Path) -> Mutant:
    """The mutant that a file describes. A line that says nothing of the kind is an error."""
    replaced: list[Replaced] = []
    refused: list[tuple[str, str]] = []
    edited = old = ""
    for line in file.read_text(encoding="utf-8").splitlines():
        key, _, text = line.partition(": ")
        if key == "refused":
            function, _, goal = text.partition(" ")
            refused.append((function, goal))
        elif key == "file":
            edited = text
        elif key == "old":
            old = text
        elif key in ("new", "new:") and edited and old:
            replaced.append(Replaced(edited, old, text))
            old = ""
        else:
            raise ValueError(f"{file}: no line of a mutant: {line}")
    return Mutant(file.stem, replaced, refused)


def planted(crate: Path, body: Mutant, texts: dict[str, str]) -> dict[str, str] | None:
    """The texts of files with this mutant too, or none where one of its texts doesn't stand there just once."""
    texts = dict(texts)
    for edited, old, new in body.replaced:
        text = texts[edited] if edited in texts else (crate / edited).read_text(encoding="utf-8")
        if text.count(old) != 1:
            return None
        texts[edited] = text.replace(old, new)
    return texts


def function_at(text: str, old: str) -> str | None:
    """The name of the function in which a text stands, or none where it stands in no function."""
    for line in reversed(text[: text.index(old)].split("\n")[:-1]):
        if found := FUNCTION.match(line):
            return found[1]
        if OTHER_ITEM.match(line):
            return None
    return None


def stands_in(crate: Path, body: Mutant) -> set[str] | None:
    """The functions that a mutant is in, each with its file; none where it is in something else, or where another
    function is refused for it."""
    functions = set()
    texts: dict[str, str] = {}
    for edited, old, new in body.replaced:
        if not edited.startswith("src/"):
            functions.add(edited)
            continue
        text = texts[edited] if edited in texts else (crate / edited).read_text(encoding="utf-8")
        if old not in text or function_at(text, old) not in {name.rpartition("::")[2] for name, _ in body.refused}:
            return None
        functions |= {f"{edited} {name}" for name, _ in body.refused}
        texts[edited] = text.replace(old, new)
    return functions


class Batch:
    """Mutants that stand in one copy of a crate, no two in one function."""

    def __init__(self) -> None:
        self.bodies: list[Mutant] = []
        self.texts: dict[str, str] = {}
        self.functions: set[str] = set()
        self.is_open = True

    def takes(self, crate: Path, body: Mutant) -> bool:
        """Plants a mutant too, where it has its functions for itself."""
        functions = stands_in(crate, body)
        if not self.is_open or (self.bodies and functions is None) or self.functions & (functions or set()):
            return False
        texts = planted(crate, body, self.texts)
        if texts is None:
            return False
        self.bodies.append(body)
        self.texts, self.is_open = texts, functions is not None
        self.functions |= functions or set()
        return True


def batches_of(crate: Path, bodies: list[Mutant]) -> list[Batch]:
    """Each mutant in the first batch that takes it. One that can't be planted at all is an error."""
    batches: list[Batch] = []
    for body in bodies:
        if any(batch.takes(crate, body) for batch in batches):
            continue
        batches.append(Batch())
        if not batches[-1].takes(crate, body):
            raise ValueError(f"{crate.name}/{body.name}: a text doesn't stand just once in its file")
    return batches
