#!/usr/bin/env python3
"""Checks that the contracts rule out mutants. Each mutant is a file mutants/NAME/BUG.edit, or
crates/NAME/must-fail/BUG.edit, which `rt ci` tries too, by itself.

Mutants in different functions of a crate are planted in one copy of the crate, which is then checked once. Each
function is proved by itself, over the contracts of the functions that it calls, so each mutant must be refused, for the
goal that its file names. A check takes about twenty seconds before it reaches a function, so one check is quicker than many,
and it reports which goals stay open. What is refused only at a stored answer is reported so: such an answer may no longer
fit though its goal could still be proved. The last line is 'N passed, M failed'.

    mutants.py NAME[/BUG]..   tries all mutants of these crates, or only these
"""
import os
import sys
import tempfile
from collections.abc import Callable
from concurrent.futures import ThreadPoolExecutor
from pathlib import Path
from typing import NamedTuple

import build
import crates
from edits import Batch, Mutant, batches_of, read
from refusals import OpenGoals, refused

MUTANTS = crates.ROOT / "mutants"


class Answer(NamedTuple):
    """The name of a mutant, how it was refused, and what is wrong with that."""

    name: str
    how: str
    fault: str | None = None


def answer_to(body: Mutant, goals: OpenGoals) -> Answer:
    """Returns how a mutant was refused: for a goal that its file names, or only where a stored answer of each of them
    doesn't prove it any more."""
    how = "refused at a stored answer" if goals.with_an_answer.issuperset(body.refused) else "refused"
    if not body.refused:
        return Answer(body.name, how, f"the file names no goal; the prover leaves open {sorted(goals.all())}")
    for function, goal in body.refused:
        if (function, goal) not in goals.all():
            others = goals.of(function) or "none"
            return Answer(body.name, how, f"the goal {goal} of {function} isn't left open; open are {others}")
    return Answer(body.name, how)


def tried(crate: str, batch: Batch, kept: str, is_spare: Callable[[], bool]) -> list[Answer]:
    """Tries each mutant of a batch. One whose goal isn't reported is tried once more by itself: where it calls another
    that is refused too, the prover doesn't look for a proof."""
    functions = sorted({function for body in batch.bodies for function, _ in body.refused})
    try:
        goals = refused(crate, batch.texts, functions, kept, is_spare())
    except RuntimeError as error:
        return [Answer(body.name, "", str(error)) for body in batch.bodies]
    found: list[Answer] = []
    for body in batch.bodies:
        answer = answer_to(body, goals)
        alone = batches_of(crates.CRATES / crate, [body]) if answer.fault and len(batch.bodies) > 1 else []
        found += [one for again in alone for one in tried(crate, again, kept, is_spare)] or [answer]
    return found


def tried_in(crate: str, files: list[Path], is_spare: Callable[[], bool]) -> list[Answer]:
    """Tries these mutants of a crate, over the proved libraries below it. Checks that are spare take what others leave
    idle."""
    with tempfile.TemporaryDirectory(prefix="mutants-kept-") as kept:
        batches = batches_of(crates.CRATES / crate, [read(file) for file in files])
        return [one for batch in batches for one in tried(crate, batch, kept, is_spare)]


def printed(crate: str, answers: list[Answer]) -> tuple[int, int]:
    """Prints the answers to the mutants of a crate; returns how many passed and how many failed."""
    for name, how, fault in answers:
        print(f"mutants: {crate}/{name}: {fault or how}", flush=True)
    failed = sum(answer.fault is not None for answer in answers)
    return len(answers) - failed, failed


def files_of(crate: str, bug: str) -> list[Path]:
    """Returns the files of a crate's mutants, or of the one that has this name."""
    folders = [MUTANTS / crate, crates.CRATES / crate / "must-fail"]
    return sorted((file for folder in folders for file in folder.glob(f"{bug or '*'}.edit")), key=lambda file: file.name)


def main() -> int:
    asked = [it.partition("/") for it in sys.argv[1:]]
    if not asked:
        sys.exit(__doc__)
    with build.alone():
        build.prove({library for crate, _, _ in asked for library in crates.below(crate)})
    with ThreadPoolExecutor(len(os.sched_getaffinity(0))) as lanes:
        tasks = [(crate, lanes.submit(tried_in, crate, files_of(crate, bug), lambda: False)) for crate, _, bug in asked]
        counts = [printed(crate, task.result()) for crate, task in tasks]
    passed, failed = (sum(column) for column in zip(*counts))
    print(f"{passed} passed, {failed} failed")
    return 1 if failed else 0


if __name__ == "__main__":
    sys.exit(main())
