"""The pages hold what the program prints: the commands in them, the pictures beside them, and a trace that another
program computed from the definitions. What they show of a source is in that file. `prose` says how they read, and `believe` what the
headline rests on."""
import re
import shutil
import subprocess
from pathlib import Path
from typing import Callable
from xml.etree import ElementTree

import believe
import prose
from programs import EXAMPLES, ROOT, SECONDS, run

# Stored answers, each with the words that it is the answer to.
STORED = {
    "docs/hazard.svg": "draw --bench hazard.bench --stimuli hazard.stimuli --horizon 8 --svg",
    "docs/s27.svg": "draw --bench s27.bench --stimuli s27.stimuli --horizon 35 --svg",
    "examples/s27.trace": "trace --bench s27.bench --stimuli s27.stimuli --horizon 35",
}

# Commands in a page, and the text right after them, if any. They are run if they call nullsim, or read what its runs wrote.
RUNS = ("./nullsim", "my.runs/")
EXAMPLE = re.compile(r"^```sh\n(.*?)^```$(?:\n\n^```text\n(.*?)^```$)?", re.MULTILINE | re.DOTALL)

# A part of a source in a page: its first line names the file, and a line of two dots is what is left out.
SHOWN_SOURCE = re.compile(r"^```rust\n// (\S+)\n(.*?)^```$", re.MULTILINE | re.DOTALL)
LEFT_OUT = re.compile(r"^ *\.\.\n", re.MULTILINE)


def stored_fault(program: Path, stored: Path, words: str) -> str | None:
    """What is wrong with a stored answer: it is just what goes out now, and a picture is an SVG text."""
    answer = run([program, *words.split()])
    if answer.status != 0 or answer.err:
        return f"the command exits with status {answer.status} and {answer.err!r}"
    if stored.suffix == ".svg" and ElementTree.fromstring(answer.out).tag != "{http://www.w3.org/2000/svg}svg":
        return "what is drawn is no SVG"
    return None if stored.read_bytes() == answer.out else f"`nullsim {words}` answers another"


def examples_of(page: str) -> list[tuple[str, str | None]]:
    """The commands of nullsim in a page, each block with the text after it. The set-up is left out."""
    found = [(example[1], example[2]) for example in EXAMPLE.finditer(page)]
    return [(commands, shown) for commands, shown in found
            if any(part in commands for part in RUNS) and ".ci/run" not in commands]


def example_fault(program: Path, commands: str, shown: str | None, folder: str) -> str | None:
    """What is wrong with commands of a page: they print the text after them, line for line, which may have notes to the
    right. If there is none, they end with status 0."""
    given = "set -e\n" + commands.replace("./nullsim", str(program))
    ended = subprocess.run(["bash", "-c", given], cwd=folder, stdout=subprocess.PIPE, stderr=subprocess.STDOUT,
                           timeout=SECONDS, check=False, text=True)
    if shown is None:
        return None if ended.returncode == 0 else f"it ended with {ended.returncode} and {ended.stdout!r}"
    printed, lines = ended.stdout.splitlines(), shown.splitlines()
    if len(printed) != len(lines):
        return f"the page shows {len(lines)} lines, and the command prints {len(printed)}"
    for one, line in zip(printed, lines):
        if line != one and not line.startswith(f"{one}  "):
            return f"the page shows {line!r}, and the command prints {one!r}"
    return None


# The line of a help that has an example, and the line of the main help that has a command.
HELP_EXAMPLE = re.compile(r"^Example: (nullsim .*)$", re.MULTILINE)
HELP_COMMAND = re.compile(r"^  ([a-z]+)  ", re.MULTILINE)


def help_of(program: Path, words: list[str]) -> str:
    return run([program, *words, "--help"]).out.decode()


def help_fault(program: Path, words: list[str], folder: str) -> str | None:
    """What is wrong with the example in a help: there is one, and it ends with status 0."""
    found = HELP_EXAMPLE.findall(help_of(program, words))
    if len(found) != 1:
        return f"the help has {len(found)} examples"
    return example_fault(program, f"./{found[0]}\n", None, folder)


def helps(program: Path, folder: str) -> list[tuple[str, Callable[[], str | None]]]:
    """The example in the help of nullsim and of each command, with its check."""
    commands = [name for name in HELP_COMMAND.findall(help_of(program, [])) if name != "help"]
    return [(f"the example in nullsim {' '.join([*words, '--help'])}", lambda it=(program, words, folder): help_fault(*it))
            for words in [[], *([name] for name in commands)]]


def source_fault(source: Path, shown: str) -> str | None:
    """What is wrong with a part of a source that a page shows: its lines are in the file, in this order."""
    text, place = "\n" + source.read_text(encoding="utf-8"), 0
    for part in LEFT_OUT.split(shown):
        begins = text.find("\n" + part, place)
        if begins < 0:
            return f"{part.splitlines()[0]!r} and the lines after it aren't in the file in this order"
        place = begins + len(part)
    return None


# The pages that have tables of faults.
FAULT_PAGES = ("docs/FORMATS.md", "docs/COMMANDS.md")
# What these tables are of, by the headings above them, as `explain` calls it.
SUBJECTS = {
    "Faults": ".bench text", "The delay text": "delay text", "The stimulus text": "stimulus text",
    "The schedule text": "schedule text", "The deck": "deck", "Settings": "settings",
    "`draw`": "columns of draw", "`stimuli`": "drives of stimuli", "`diff`": "ticks of diff",
}
# Faults that the pages name outside their tables.
UNTABLED = {"net names in arguments": {"UnknownNet"}, "reading and writing": {"Read", "Write", "WroteNothing"}}
# `Memory` is in the tables of several texts, and is explained once, since its line names no text.
MEMORY = "reading and writing"


def names_in_page(page: str) -> dict[str, set[str]]:
    """The faults in the tables of the pages, by what they are of."""
    found = {subject: set(names) for subject, names in UNTABLED.items()}
    heading, of_faults, column = "", False, 0
    for line in page.splitlines():
        cells = [cell.strip() for cell in line.split("|")]
        if line.startswith("#"):
            heading = line.lstrip("# ").strip()
        if not line.startswith("|"):
            of_faults = False
        elif any(cell.split(",")[0] == "Fault" for cell in cells):
            of_faults, column = True, [cell.split(",")[0] for cell in cells].index("Fault")
        elif of_faults and cells[column].startswith("`"):
            name = cells[column].strip("`")
            found.setdefault(MEMORY if name == "Memory" else SUBJECTS[heading], set()).add(name)
    return found


def names_fault(program: Path) -> str | None:
    """What is wrong with the names that `explain` lists: they are those of the pages, each once."""
    listed = {}
    for line in run([program, "explain"]).out.decode().splitlines():
        subject, names = line.split(": ")
        listed[subject] = names.split()
    pages = names_in_page("\n".join(prose.text_of(ROOT / page) for page in FAULT_PAGES))
    for subject in pages.keys() | listed.keys():
        if sorted(pages.get(subject, [])) != sorted(listed.get(subject, [])):
            return f"{subject}: {sorted(pages.get(subject, []))} in the pages, {sorted(listed.get(subject, []))} explained"
    return None


# The page whose commands need GNU parallel, which isn't on every machine. (Another program has the same name.)
PARALLEL_PAGE = "docs/MANY_RUNS.md"


def has_parallel() -> bool:
    return shutil.which("parallel") is not None and run(["parallel", "--version"]).out.startswith(b"GNU parallel")


def cases_of(program: Path, page: Path, folder: str) -> list[tuple[str, Callable[[], str | None]]]:
    """Each example of a page and each part of a source in it, with its check. If a page needs a program that isn't there,
    it has no checks, and a line says so."""
    found, text = [], prose.text_of(page)
    if prose.name_of(page) == PARALLEL_PAGE and not has_parallel():
        print(f"faults: the commands of {PARALLEL_PAGE} are left out, since GNU parallel isn't installed", flush=True)
        return []
    for commands, shown in examples_of(text):
        name = f"{prose.name_of(page)}, {commands.splitlines()[0]}"
        found.append((name, lambda it=(program, commands, shown, folder): example_fault(*it)))
    for source, shown in SHOWN_SOURCE.findall(text):
        name = f"{prose.name_of(page)}, {source}: {shown.splitlines()[0]}"
        found.append((name, lambda it=(ROOT / source, shown): source_fault(*it)))
    return found


def cases(program: Path, folder: str) -> list[tuple[str, Callable[[], str | None]]]:
    """Each stored answer, each example of a page and each part of a source in one, with its check; how pages read; and
    what the headline rests on."""
    found = [(name, lambda it=(program, ROOT / name, words): stored_fault(*it)) for name, words in STORED.items()]
    found.append(("the names that explain lists", lambda: names_fault(program)))
    there = Path(folder, "pages")
    shutil.copytree(EXAMPLES, there / "examples")
    for page in [ROOT / "README.md", *sorted((ROOT / "docs").glob("*.md")), EXAMPLES / "README.md"]:
        found += cases_of(program, page, str(there))
    return found + helps(program, str(there)) + prose.cases() + believe.cases()
