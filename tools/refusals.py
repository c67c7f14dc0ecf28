"""The prover over a copy of a crate: which functions it refuses, and which goals stay open there."""
import re
import shutil
import subprocess
import tempfile
from pathlib import Path
from typing import NamedTuple

import crates

# What is said of a function, after all that is said of its goals.
FUNCTION = re.compile(r"fn \w+::(\S+): (proved|no proof|not proved)")
# A goal without a stored answer, for which the prover looked for a proof and found none.
NO_PROOF = re.compile(r"note: src/\S+ it is not proved that .*\(`([^`]+)`\)")
# A stored answer that is refused: the file of a function's answers, the goal, and why.
REFUSED_ANSWER = re.compile(r"\./proofs/(\S+)/\w+\.antt:\d+:\d+: error: `([^`]+)`(.*)")
# An answer that names what isn't there any more says nothing of its goal.
NAMES_ALONE = re.compile(r"has no field|\(nearest: |is not in scope|has no `|was not admitted")

# The name of a function, and of a goal in it.
Goal = tuple[str, str]


class OpenGoals(NamedTuple):
    """The goals that a check leaves open: those for which the prover found no proof, and those whose stored answer it
    refused. A stored answer may be refused though its goal could still be proved, so the second say less."""

    without_proof: set[Goal]
    with_an_answer: set[Goal]

    def all(self) -> set[Goal]:
        return self.without_proof | self.with_an_answer

    def of(self, function: str) -> list[str]:
        """Returns the names of the goals of a function."""
        return sorted(goal for owner, goal in self.all() if owner == function)


def goals_of(said: str) -> OpenGoals:
    """Returns the goals that a check left open. A function that only calls another one that is refused has none."""
    found = OpenGoals(set(), set())
    named: list[str] = []
    for line in said.splitlines():
        if told := NO_PROOF.match(line):
            named.append(told[1])
        elif told := FUNCTION.match(line):
            if told[2] != "proved":
                found.without_proof.update((told[1], goal) for goal in named)
            named.clear()
        elif (told := REFUSED_ANSWER.match(line)) and not NAMES_ALONE.search(told[3]):
            found.with_an_answer.add((told[1].replace("/", "::"), told[2]))
    return found


def refused(crate: str, texts: dict[str, str], functions: list[str], kept: str, is_spare: bool) -> OpenGoals:
    """Returns the goals that stay open in some functions of a crate with other texts, over the proved libraries below it.
    What the check proves is kept in a folder for the next one."""
    with tempfile.TemporaryDirectory(prefix="mutants-") as room:
        for part in crates.PARTS:
            if (crates.CRATES / crate / part).is_dir():
                shutil.copytree(crates.CRATES / crate / part, Path(room, part))
        for file, text in texts.items():
            Path(room, file).write_text(text, encoding="utf-8")
        only = [word for function in functions for word in ("--only", function)]
        check = [*crates.prover(is_spare), "check", *crates.words(crate, 1), "--incremental", kept, *only]
        said = subprocess.run(check, cwd=room, stdin=subprocess.DEVNULL, stdout=subprocess.PIPE,
                              stderr=subprocess.STDOUT, errors="replace", text=True, check=False)
    found = goals_of(said.stdout)
    if said.returncode != 1 or not found.all():
        raise RuntimeError(f"the prover ended with {said.returncode}:\n{said.stdout[-2000:]}")
    return found
