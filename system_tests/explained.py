"""Checks the examples that `explain` prints: the program refuses each faulty text with the name and the line that the
explanation gives, and accepts the corrected one."""
import re
from collections.abc import Callable, Iterator
from pathlib import Path
from typing import NamedTuple

from programs import Ended, run

# What an example is of, by the subject, and the file that it is then; the circuit of the others is in `cases/files/`.
OVER_CIRCUIT = "run --bench circuit.bench --horizon 20"
CALLS = {
    ".bench text": ("my.bench", "info --bench my.bench"),
    "delay text": ("my.delays", f"{OVER_CIRCUIT} --delays my.delays"),
    "stimulus text": ("my.stimuli", f"{OVER_CIRCUIT} --stimuli my.stimuli"),
    "schedule text": ("my.schedule", f"{OVER_CIRCUIT} --schedule my.schedule"),
}
EXAMPLE = re.compile(r"^example.*, refused at line (\d+):\n(.*?)^corrected:\n(.*)", re.MULTILINE | re.DOTALL)


class Example(NamedTuple):
    """A text, a deck or a call that is refused, and one that isn't."""

    subject: str
    name: str
    line: int
    faulty: str
    corrected: str


def examples(program: Path) -> Iterator[Example]:
    listed = run([program, "explain"]).out.decode().splitlines()
    subjects = {subject: names.split() for subject, _, names in (line.partition(": ") for line in listed)}
    for name in dict.fromkeys(name for names in subjects.values() for name in names):
        told = run([program, "explain", name]).out.decode()
        begins = re.compile(rf"^{name} \(({'|'.join(map(re.escape, subjects))})\): ", re.MULTILINE)
        starts = [*begins.finditer(told)]
        for start, end in zip(starts, [*(it.start() for it in starts[1:]), len(told)]):
            if example := EXAMPLE.search(told[start.start():end]):
                yield Example(start[1], name, int(example[1]), example[2], example[3])


def answer(program: Path, folder: Path, subject: str, given: str) -> Ended:
    """Returns the answer to an example of a subject."""
    if subject == "deck":
        return run([program], input=given.encode(), cwd=folder)
    if subject not in CALLS:
        return run([program, *given.removeprefix("nullsim ").split()], cwd=folder)
    file, words = CALLS[subject]
    (folder / file).write_text(given, encoding="utf-8")
    return run([program, *words.split()], cwd=folder)


def example_fault(program: Path, folder: Path, example: Example) -> str | None:
    refused = answer(program, folder, example.subject, example.faulty)
    told = f":{example.line}: {example.name}\n".encode()
    if refused.status != (3 if example.name == "Read" else 1) or refused.out or not refused.err.endswith(told):
        return f"the faulty text is answered by {refused}"
    corrected = answer(program, folder, example.subject, example.corrected)
    return None if corrected.status == 0 and not corrected.err else f"the corrected text is answered by {corrected}"


def cases(program: Path, folder: str) -> list[tuple[str, Callable[[], str | None]]]:
    """Each example with its check, in a folder that has the circuit of the examples."""
    there = Path(folder, "cases")
    return [(f"the example of {it.name} of {it.subject}", lambda it=it: example_fault(program, there, it))
            for it in examples(program)]
