"""Runs of a program that is refused requests for memory, each of its requests in turn."""
import os
import shutil
import subprocess
import sys
from concurrent.futures import ThreadPoolExecutor
from pathlib import Path
from typing import Callable, NamedTuple

from programs import Ended, run

HERE = Path(__file__).resolve().parent


# At most this number of requests is refused, one after another, until a refusal is reported. Each input of a circuit
# gives back what its list of stimuli doesn't use, which may be refused without harm; so it is more than these have inputs.
MOST = 8


class Refusal(NamedTuple):
    """What a run without some requests ended with."""

    first: int
    count: int
    # How many requests it made.
    requests: int
    ended: Ended


def compiler() -> list[str]:
    """The C compiler, or else that of the toolchain."""
    found = shutil.which("cc")
    if found:
        return [found]
    page = subprocess.run(["rt", "doc"], capture_output=True, text=True, check=True).stdout
    toolchain = Path(page.strip()).parent / "toolchain"
    return [f"{toolchain}/bin/clang", "--target=x86_64-unknown-linux-gnu", f"--sysroot={toolchain}"]


def built_library(folder: str) -> str:
    """The library that refuses requests."""
    library = f"{folder}/refuse.so"
    words = ["-shared", "-fPIC", "-nostdlib", "-O1", "-Wall", "-Wextra", "-o", library]
    ended = subprocess.run([*compiler(), *words, f"{HERE}/refuse.c"], check=False)
    if ended.returncode:
        sys.exit("faults: refuse.c can't be compiled")
    return library


class Refuser:
    """Runs programs under the library."""

    def __init__(self, folder: str) -> None:
        self.library = built_library(folder)
        self.refused = 0

    def run(self, words: list, given: bytes, first: int = 0, count: int = 0) -> Refusal:
        """A run without so many requests, from this one on, whose number is at least 1."""
        reading, writing = os.pipe()
        named = {"LD_PRELOAD": self.library, "REFUSED_REPORT": str(writing)}
        named |= {"REFUSED_REQUEST": str(first), "REFUSED_COUNT": str(count)}
        try:
            ended = run(words, input=given, env={**os.environ, **named}, pass_fds=(writing,))
        finally:
            os.close(writing)
            with open(reading, encoding="ascii") as file:
                report = file.read()
        # A program that is stopped reports nothing.
        return Refusal(first, count, int(report or 0), ended)

    def first_fault(self, words: list, given: bytes, whole: Refusal, is_told: Callable) -> str | None:
        """What is wrong with the first of all runs without a request with which something is wrong.

        `is_told` says whether a refusal was told by how a run ended, and where that is wrong answers a
        text. A call may do without a request: a list is made without the room for all that is to come,
        or keeps room that it has no use for. Then the next one is refused too.
        """
        def fault_at(first: int) -> str | None:
            for count in range(1, MOST + 1):
                tried = self.run(words, given, first, count)
                told = is_told(tried.ended)
                if told is True:
                    return None
                if told or tried.ended != whole.ended:
                    return f"without {count} from request {first} on: {told or tried.ended}"
                if tried.requests < first + count - 1:
                    return None
            return f"{MOST} refusals from request {first} on aren't reported"

        self.refused += whole.requests
        with ThreadPoolExecutor(os.cpu_count()) as pool:
            found = pool.map(fault_at, range(1, whole.requests + 1))
            return next(filter(None, found), None)


def is_told_by_probes(ended: Ended) -> bool | str:
    """Whether the probes told of a refusal, once, or what is wrong with what they told."""
    lines = ended.out.decode().splitlines()
    wrong = [line for line in lines if not line.startswith(("fine ", "refused "))]
    refused = [line for line in lines if line.startswith("refused ")]
    if ended.status or ended.err:
        return f"status {ended.status}, {ended.err!r}"
    if wrong or len(refused) > 1:
        return (wrong or refused)[-1]
    return bool(refused)


def probes(refuser: Refuser, program: Path, wanted: bytes) -> str | None:
    """What is wrong with the probes."""
    whole = refuser.run([program], b"")
    if whole.ended != Ended(0, wanted, b"") or not whole.requests:
        return f"wrong although no request is refused: {whole}"
    return refuser.first_fault([program], b"", whole, is_told_by_probes)


def command(refuser: Refuser, words: list, given: bytes, status: int) -> str | None:
    """What is wrong with a command, which ends with this status where it is refused nothing. Where it is,
    that is told, and a first part of its text is out."""
    whole = refuser.run(words, given)
    if whole.ended.status != status or not whole.requests:
        return f"wrong although no request is refused: {whole}"

    def is_told(ended: Ended) -> bool | str:
        if (ended.status, ended.err) != (4, b"memory:0: Memory\n"):
            return False
        return whole.ended.out.startswith(ended.out) or f"wrote {ended.out!r}"

    return refuser.first_fault(words, given, whole, is_told)
