"""The program's answers to arguments and decks, as the tables in `cases/` have them.

A table is a text of cases with an empty line between them, and each line of a case begins with a word:

    # TEXT             a comment
    file NAME LINE     a line of a file that the calls find, beside those in `cases/files/` and `examples/`
    in LINE            a line of standard input
    $ ARGUMENTS        a call of nullsim; where a case has several, they have the same answer
    out LINE           a line of standard output; out-is FILE if it is the text of a file in `cases/`
    err LINE           a line of standard error
    verbose LINE       a line that follows on standard error with --verbose. Such a case is tried without the option,
                       with it in front and with it at the end; `verbose` alone says that nothing follows
    out-has TEXT       standard output has this text in it; out-lacks, err-has, err-lacks and err-ends likewise
    out-any            standard output plays no part
    status NUMBER      the exit status, 0 without it

A line may have the escapes \\n, \\r, \\t, \\\\ and \\xNN, and ends with a line feed, unless it ends in \\c.
"""
import re
import shutil
from collections.abc import Callable, Iterator
from dataclasses import dataclass, field
from pathlib import Path

from programs import EXAMPLES, ROOT, Ended, run

TABLES = ROOT / "cases"
FILES = TABLES / "files"
ESCAPE = re.compile(rb"\\(x[0-9a-f]{2}|.)")
ESCAPED = {b"n": b"\n", b"r": b"\r", b"t": b"\t", b"\\": b"\\", b"c": b""}


def text_of(line: str) -> bytes:
    """Returns the bytes that stand for a line of a table, without a line feed."""
    return ESCAPE.sub(lambda it: ESCAPED.get(it[1]) if it[1] in ESCAPED else bytes([int(it[1][1:], 16)]), line.encode())


def line_of(line: str) -> bytes:
    return text_of(line) + (b"" if line.endswith("\\c") else b"\n")


@dataclass
class Case:
    """Some calls, and the answer that all of them have."""

    calls: list[list[str]] = field(default_factory=list)
    files: dict[str, bytes] = field(default_factory=dict)
    given: bytes = b""
    out: bytes | None = None
    err: bytes | None = None
    verbose: bytes | None = None
    parts: list[tuple[str, bytes]] = field(default_factory=list)
    status: int = 0

    def take(self, key: str, rest: str) -> None:
        """Takes a line of a table."""
        if key == "$":
            self.calls.append(rest.split())
        elif key == "file":
            name, _, line = rest.partition(" ")
            self.files[name] = self.files.get(name, b"") + line_of(line)
        elif key == "in":
            self.given += line_of(rest)
        elif key in ("out", "err", "verbose"):
            setattr(self, key, (getattr(self, key) or b"") + (line_of(rest) if rest or key != "verbose" else b""))
        elif key == "out-is":
            self.out = (TABLES / rest).read_bytes()
        elif key in PARTS:
            self.parts.append((key, text_of(rest)))
        elif key == "status":
            self.status = int(rest)
        else:
            raise ValueError(f"a table has a line that begins with {key!r}")


# What a part of a stream has to be, by the word that a table says it with.
PARTS: dict[str, Callable[[Ended, bytes], bool]] = {
    "out-any": lambda ended, part: True,
    "out-has": lambda ended, part: part in ended.out,
    "out-lacks": lambda ended, part: part not in ended.out,
    "err-has": lambda ended, part: part in ended.err,
    "err-lacks": lambda ended, part: part not in ended.err,
    "err-ends": lambda ended, part: ended.err.endswith(part),
}


def cases_in(table: Path) -> Iterator[Case]:
    for text in table.read_text(encoding="utf-8").split("\n\n"):
        case = Case()
        for line in text.splitlines():
            key, _, rest = line.partition(" ")
            if key and key != "#":
                case.take(key, rest)
        if case.calls:
            yield case


def fault_of(ended: Ended, case: Case, err: bytes | None) -> str | None:
    """What is wrong with an answer. Where parts are told of a stream, they are all that is told of it."""
    told = {name.partition("-")[0] for name, _ in case.parts}
    out = b"" if case.out is None and "out" not in told else case.out
    err = b"" if err is None and "err" not in told else err
    if ended.status != case.status or (out is not None and ended.out != out) or (err is not None and ended.err != err):
        return f"{ended}"
    return next((f"{name} {part!r}: {ended}" for name, part in case.parts if not PARTS[name](ended, part)), None)


def tried(program: Path, folder: Path, case: Case, call: list[str]) -> str | None:
    """What is wrong with the answers to a call, without --verbose and with it."""
    tries = [(call, case.err)]
    if case.verbose is not None:
        told = (case.err or b"") + case.verbose
        tries += [(["--verbose", *call], told), ([*call, "-v"], told)]
    for words, err in tries:
        fault = fault_of(run([program, *words], input=case.given, cwd=folder), case, err)
        if fault:
            return f"{' '.join(words)}: {fault}"
    return None


def case_fault(program: Path, folder: Path, case: Case) -> str | None:
    for name, text in case.files.items():
        (folder / name).write_bytes(text)
    faults = [tried(program, folder, case, call) for call in case.calls]
    for name in case.files:
        (folder / name).unlink()
    return next((it for it in faults if it), None)


def cases(program: Path, folder: str) -> list[tuple[str, Callable[[], str | None]]]:
    """Each case with its check."""
    there = Path(folder, "cases")
    shutil.copytree(FILES, there)
    shutil.copytree(EXAMPLES, there / "examples")
    return [(f"cases/{table.name}, {' '.join(case.calls[0]) or 'a deck'}", lambda it=(program, there, case): case_fault(*it))
            for table in sorted(TABLES.glob("*.cases")) for case in cases_in(table)]
