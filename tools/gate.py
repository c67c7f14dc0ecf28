#!/usr/bin/env python3
"""The merge gate: `rt ci`, which proves all from nothing, tries the must-fail edits and runs the tests; beside it, the other
mutants of each crate, as soon as the libraries below it are proved; and at the end faults around the programs.

The mutants run at a lower priority, so they take what the chain of proofs leaves idle. How long all took is on
standard error, and the last line is 'N passed, M failed', for all together.
"""
import os
import re
import resource
import shutil
import subprocess
import sys
import time
from collections.abc import Iterator
from concurrent.futures import Future, ThreadPoolExecutor
from heapq import heappop, heappush
from pathlib import Path

import crates
from build import free_memory
from mutants import MUTANTS, Answer, printed, tried_in

# What `rt ci` prints of a crate that is proved.
PROVED = re.compile(r"rt: (\w+) (?:proved$|is kept)")
CLOSING = re.compile(r"(\d+) passed, (\d+) failed$")
# The free memory with which another check begins beside `rt ci`, in bytes.
ROOM = 4_000_000_000
# The longest time for an update of the package lists, and for the installation of a package.
INSTALL_SECONDS = 120


class Part:
    """A command of the gate, whose lines are passed on. It ends with how many passed and how many failed."""

    def __init__(self, words: list[str]) -> None:
        self.ran = subprocess.Popen(words, cwd=crates.ROOT, stdin=subprocess.DEVNULL, stdout=subprocess.PIPE, text=True,
                                    errors="replace")
        self.last = ""

    def lines(self) -> Iterator[str]:
        for line in self.ran.stdout:
            print(line, end="", flush=True)
            self.last = line.strip() or self.last
            yield self.last

    def counts(self) -> tuple[int, int]:
        """Returns what the last line says. A command that fails counts as one failure at least."""
        status, told = self.ran.wait(), CLOSING.fullmatch(self.last)
        passed, failed = (int(told[1]), int(told[2])) if told else (0, 1)
        return passed, max(failed, int(status != 0))


def linked(source: str, target: str) -> None:
    try:
        os.link(source, target)
    except OSError:
        shutil.copy2(source, target)


def adopt(crate: str) -> None:
    """Takes the library that `rt ci` proved as the proved one, since `rt ci` leaves other libraries at its end."""
    library = crates.CRATES / crate / f"out/rlib/{crate}.rlib"
    if library.is_dir():
        shutil.copytree(library, crates.forget(crate), copy_function=linked)
        crates.keep(crate, crates.stamp(crate, {}))


class Beside:
    """The mutants that `rt ci` doesn't try: those of a crate wait until the libraries below it are proved, and of the
    crates that are ready the one with the most goes first."""

    def __init__(self, proofs: Part, lanes: ThreadPoolExecutor) -> None:
        self.proofs, self.lanes = proofs, lanes
        self.left = {crate: sorted((MUTANTS / crate).glob("*.edit")) for crate in crates.libraries()}
        self.ready: list[tuple[int, str, list[Path]]] = []
        self.proved: set[str] = set()
        self.tasks: list[Future] = []
        self.make_ready()

    def has_company(self) -> bool:
        """Returns whether `rt ci` still runs, and then only once there is memory for another check beside it."""
        while self.proofs.ran.poll() is None and free_memory() < ROOM:
            time.sleep(5)
        return self.proofs.ran.poll() is None

    def make_ready(self) -> None:
        for crate in [it for it in self.left if self.proved.issuperset(crates.below(it))]:
            files = self.left.pop(crate)
            if files:
                heappush(self.ready, (-len(files), crate, files))
                self.tasks.append(self.lanes.submit(self.try_next))

    def try_next(self) -> tuple[str, list[Answer]]:
        """Tries the mutants of one of the crates that are ready."""
        _, crate, files = heappop(self.ready)
        return crate, tried_in(crate, files, self.has_company)

    def take(self, line: str) -> None:
        """Takes a line of `rt ci`."""
        told = PROVED.match(line)
        if told and told[1] in crates.libraries():
            adopt(told[1])
            self.proved.add(told[1])
            self.make_ready()

    def counts(self) -> Iterator[tuple[int, int]]:
        for task in self.tasks:
            yield printed(*task.result())


def install(*packages: str) -> None:
    """Installs packages of which each has a program of its name, if one is missing and a registry is reached. Otherwise the
    checks that need it are left out."""
    missing = [package for package in packages if not shutil.which(package)]
    if not missing or not shutil.which("apt-get") or os.geteuid() != 0:
        return
    quick = ["-qq", "-o", "Acquire::Retries=0", "-o", "Acquire::http::Timeout=10"]
    wanted = [["install", "--yes", "--no-install-recommends", package] for package in missing]
    for words in (["update"], *wanted):
        try:
            subprocess.run(["apt-get", *quick, *words], stdin=subprocess.DEVNULL, stdout=subprocess.DEVNULL,
                           stderr=subprocess.DEVNULL, env={**os.environ, "DEBIAN_FRONTEND": "noninteractive"},
                           timeout=INSTALL_SECONDS, check=False)
        except (OSError, subprocess.TimeoutExpired):
            return


def taken(part: str, begun: float) -> None:
    print(f"gate: {part} after {time.monotonic() - begun:.0f} seconds", file=sys.stderr, flush=True)


def gate(begun: float) -> Iterator[tuple[int, int]]:
    """Runs all parts; how many passed and failed of each. Where something isn't proved, nothing else is tried."""
    proofs = Part(["rt", "ci"])
    with ThreadPoolExecutor(len(os.sched_getaffinity(0))) as lanes:
        beside = Beside(proofs, lanes)
        for line in proofs.lines():
            beside.take(line)
        passed, failed = proofs.counts()
        taken("rt ci", begun)
        yield passed, failed
        if failed:
            lanes.shutdown(cancel_futures=True)
            return
        # GNU parallel for the commands of docs/MANY_RUNS.md, and Chromium for pages in a browser
        install("parallel", "chromium")
        faults = Part([sys.executable, "system_tests/check.py"])
        for _ in faults.lines():
            pass
        taken("faults", begun)
        yield faults.counts()
        yield from beside.counts()


def main() -> int:
    begun = time.monotonic()
    passed, failed = (sum(column) for column in zip(*gate(begun)))
    taken("all", begun)
    used = resource.getrusage(resource.RUSAGE_CHILDREN)
    print(f"gate: {used.ru_utime:.0f} seconds of processors in user mode, {used.ru_stime:.0f} in system mode", file=sys.stderr)
    print(f"{passed} passed, {failed} failed")
    return 1 if failed else 0


if __name__ == "__main__":
    sys.exit(main())
