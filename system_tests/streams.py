"""Runs of the program over streams and files that fail: what it answers, and what it tells."""
import os
import subprocess
from pathlib import Path
from typing import Callable, NamedTuple

from programs import EXAMPLES, Ended, run

# Command lines over the examples, each carried out where nothing fails.
RUN = "run --bench s27.bench --stimuli s27.stimuli --horizon 35".split()
COUNTED = [*RUN, "--counts"]
PLAIN = ["plain", *RUN[1:]]
DRAW = ["draw", *RUN[1:], "--svg"]
TRACE = ["trace", *RUN[1:]]
WHY = "why --bench s27.bench --stimuli s27.stimuli --net G17 --at 30".split()
STIMULI = "stimuli --bench s27.bench --horizon 90 --clock G0=10 --hold G1=1 --pulse G2=0..12 --pulse G2=40..50".split()
CHECK = ["check", *RUN[1:]]
INFO = "info --bench s27.bench".split()
CONE = "cone --bench s27.bench G12 G14".split()
DIFF = ("diff --nets p --horizon 12 --first parity.bench --first-stimuli parity.stimuli "
        "--second bigger.bench --second-stimuli bigger.stimuli").split()
TWIN = ("twin --net p --horizon 12 --first parity.bench --first-stimuli parity.stimuli "
        "--second bigger.bench --second-stimuli bigger.stimuli --second-schedule bigger.schedule").split()
HELP = ["--help"]
EXPLAIN = "explain BadLine -v".split()
# A dump of many times the bytes that a pipe holds.
LONG = "run --bench oscillator.bench --stimuli oscillator.stimuli --horizon 1000000".split()

NOT_WRITTEN = b"stdout:0: Write\n"


class Case(NamedTuple):
    """A run whose files are faulty: what standard error is to be told, and the status."""

    name: str
    words: list
    told: bytes
    status: int


def unread(name: str, words: list, file: str) -> Case:
    return Case(name, words, f"{file}:0: Read\n".encode(), 3)


def too_long(name: str, words: list, file: str) -> Case:
    return Case(name, words, f"{file}:0: TooLong\n".encode(), 1)


def with_bench(file: str) -> list:
    return ["plain", "--bench", file, "--horizon", "5"]


# Files that can't be read, or have no end. All are read before one is looked at.
FILES = [
    unread("a folder as a file", with_bench("/"), "/"),
    unread("a file that isn't there", with_bench("none.bench"), "none.bench"),
    unread("a way through a file", with_bench("s27.bench/none"), "s27.bench/none"),
    unread("a file without a name", with_bench(""), ""),
    unread("a folder as delays", [*RUN, "--delays", ".."], ".."),
    unread("a folder as a schedule", [*RUN, "--schedule", ".."], ".."),
    unread("a folder as stimuli, of a refused netlist",
           "run --bench s27.stimuli --stimuli .. --horizon 5".split(), ".."),
    unread("a folder as the second netlist, where the first is refused",
           "twin --net p --horizon 5 --first s27.stimuli --second ..".split(), ".."),
    too_long("a device without end as a netlist", with_bench("/dev/zero"), "/dev/zero"),
    too_long("a device without end as delays", [*RUN, "--delays", "/dev/zero"], "/dev/zero"),
    too_long("a device without end as a schedule", [*RUN, "--schedule", "/dev/zero"], "/dev/zero"),
    too_long("a device without end as stimuli",
             "check --bench s27.bench --stimuli /dev/zero --horizon 5".split(), "/dev/zero"),
    Case("a word that is no UTF-8", ["plain", b"--bench", b"\xff.bench"],
         b"error: an argument isn't UTF-8 text\n", 2),
]


def is_as(case: Case, ended: Ended) -> str | None:
    """What is wrong with the end of a run that is to write nothing."""
    wanted = Ended(case.status, b"", case.told)
    return None if ended == wanted else f"{ended}"


def over_file(program: Path, case: Case) -> str | None:
    return is_as(case, run([program, *case.words]))


def over_unreadable_file(program: Path, folder: str) -> str | None:
    """A file that its reader may not read: where this is root, nobody runs the program."""
    file = Path(folder, "unreadable.bench")
    file.write_bytes(b"INPUT(a)\n")
    file.chmod(0)
    nobody = {"user": 65534, "group": 65534, "extra_groups": []} if os.geteuid() == 0 else {}
    case = unread("", with_bench(str(file)), str(file))
    return is_as(case, run([program, *case.words], **nobody))


def over_input(program: Path, file: str, told: bytes, status: int) -> str | None:
    """A deck from this file."""
    stdin = os.open(file, os.O_RDONLY)
    try:
        return is_as(Case("", [], told, status), run([program], stdin=stdin))
    finally:
        os.close(stdin)


def over_closed_input(program: Path) -> str | None:
    case = Case("", [], b"stdin:0: Read\n", 3)
    return is_as(case, run([program], stdin=None, preexec_fn=lambda: os.close(0)))


def to_full_device(program: Path, words: list, **how) -> str | None:
    with open("/dev/full", "wb") as full:
        return is_as(Case("", words, NOT_WRITTEN, 3), run([program, *words], stdout=full, **how))


def to_closed_output(program: Path, words: list) -> str | None:
    case = Case("", words, NOT_WRITTEN, 3)
    return is_as(case, run([program, *words], stdout=None, preexec_fn=lambda: os.close(1)))


def to_closed_pipe(program: Path, words: list) -> str | None:
    reading, writing = os.pipe()
    os.close(reading)
    with open(writing, "wb") as pipe:
        return is_as(Case("", words, NOT_WRITTEN, 3), run([program, *words], stdout=pipe))


def to_pipe_that_closes(program: Path, words: list) -> str | None:
    """A pipe whose reader goes after some bytes."""
    how = {"stdin": subprocess.DEVNULL, "stdout": subprocess.PIPE, "stderr": subprocess.PIPE}
    started = subprocess.Popen([program, *words], cwd=EXAMPLES, **how)
    started.stdout.read(100)
    started.stdout.close()
    told = started.stderr.read()
    started.stderr.close()
    ended = Ended(started.wait(), b"", told)
    return is_as(Case("", words, NOT_WRITTEN, 3), ended)


def with_full_error(program: Path, words: list, status: int) -> str | None:
    """A fault of standard error plays no part in the status, nor in what is written."""
    wanted = run([program, *words])
    with open("/dev/full", "wb") as full:
        ended = run([program, *words], stderr=full)
    return None if ended == Ended(status, wanted.out, b"") else f"{ended}"


def told_why(program: Path, words: list, fault: bytes, said: bytes, **how) -> str | None:
    """With --verbose the second line on standard error is the system's message."""
    ended = run([program, "-v", *words], **how)
    wanted = fault + b"system error: " + said + b"\n"
    holds = ended.status == 3 and not ended.out and ended.err.startswith(wanted)
    return None if holds else f"{ended}"


def told_why_to(program: Path, file: str | int, said: bytes) -> str | None:
    """The same of standard output that can't be written."""
    with open(file, "wb") as out:
        return told_why(program, INFO, NOT_WRITTEN, said, stdout=out)


def told_why_to_closed_pipe(program: Path) -> str | None:
    reading, writing = os.pipe()
    os.close(reading)
    return told_why_to(program, writing, b"Broken pipe (os error 32)")


def cases(program: Path, folder: str, deck: bytes) -> list[tuple[str, Callable[[], str | None]]]:
    """All runs, each with its name."""
    found = [(case.name, lambda case=case: over_file(program, case)) for case in FILES]
    found += [
        ("an unreadable file", lambda: over_unreadable_file(program, folder)),
        ("a folder as input", lambda: over_input(program, "/", b"stdin:0: Read\n", 3)),
        ("an endless device as input", lambda: over_input(program, "/dev/zero", b"deck:0: TooLong\n", 1)),
        ("no input", lambda: over_closed_input(program)),
        ("a deck to a full device", lambda: to_full_device(program, [], input=deck)),
        ("a pipe that is closed after some bytes", lambda: to_pipe_that_closes(program, LONG)),
        ("a refusal to a full device", lambda: with_full_error(program, with_bench("none.bench"), 3)),
        ("wrong words to a full device", lambda: with_full_error(program, ["--halp"], 2)),
        ("why a folder can't be read",
         lambda: told_why(program, with_bench("/"), b"/:0: Read\n", b"Is a directory (os error 21)")),
        ("why a file can't be opened",
         lambda: told_why(program, with_bench("none.bench"), b"none.bench:0: Read\n",
                          b"No such file or directory (os error 2)")),
        ("why a full device takes nothing",
         lambda: told_why_to(program, "/dev/full", b"No space left on device (os error 28)")),
        ("why a closed pipe takes nothing", lambda: told_why_to_closed_pipe(program)),
        ("counts to a full device", lambda: with_full_error(program, COUNTED, 0)),
    ]
    for words in (RUN, COUNTED, PLAIN, DRAW, TRACE, WHY, STIMULI, CHECK, INFO, CONE, DIFF, TWIN, HELP, EXPLAIN, LONG):
        line = " ".join(words[:3])
        found += [
            (f"{line} .. to a full device", lambda words=words: to_full_device(program, words)),
            (f"{line} .. to a closed pipe", lambda words=words: to_closed_pipe(program, words)),
            (f"{line} .. to no output", lambda words=words: to_closed_output(program, words)),
        ]
    return found
