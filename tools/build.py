#!/usr/bin/env python3
"""Proves the libraries that a program is made of, several side by side, and then proves and builds the program.

What was proved of the same text before isn't proved again, so a build that was stopped goes on where it was. The crate
with the longest chain of others above it gets every processor, and what it leaves idle goes to the others.

    build.py [NAME]    builds the program of this crate, that of nullsim_cli without a name
"""
import fcntl
import os
import shutil
import signal
import sys
from collections.abc import Iterable, Iterator, Sequence
from concurrent.futures import FIRST_COMPLETED, Future, ThreadPoolExecutor, wait
from contextlib import contextmanager
from pathlib import Path

import crates
from progress import Progress, tell
from provers import Failed, Provers

PROGRAM = "nullsim_cli"
# The most memory that the prover was seen to take over one crate, with one job, in bytes.
MEMORY = 3_000_000_000
# The most jobs that a proof gains from.
JOBS = 4
# A chain of crates of at least this part of the longest one is treated as it is.
NEARLY = 0.8


def seconds_of(crate: str) -> float:
    """Returns about how many seconds the proof of a crate takes, with one job: measured, it grows with the bytes of code
    and with the libraries below, and not with how long the proofs are."""
    code = sum(file.stat().st_size for file in crates.sources(crate) if file.suffix == ".rt")
    return 20 + 0.0035 * code + 1.7 * len(crates.below(crate))


def free_memory() -> int:
    """Returns how much memory is free, in bytes."""
    for line in Path("/proc/meminfo").read_text("ascii").splitlines():
        if line.startswith("MemAvailable:"):
            return 1024 * int(line.split()[1])
    return MEMORY


def chains(names: Sequence[str]) -> dict[str, float]:
    """Returns how many seconds the longest chain takes from each of these crates up, which come lowest first."""
    seconds = {name: seconds_of(name) for name in names}
    longest = dict(seconds)
    for name in reversed(names):
        for library in crates.libraries()[name]:
            if library in longest:
                longest[library] = max(longest[library], seconds[library] + longest[name])
    return longest


class Build:
    """Proofs of some crates, side by side, each once those below it are proved."""

    def __init__(self, names: Sequence[str]) -> None:
        known: dict[str, str] = {}
        self.stamps = {name: crates.stamp(name, known) for name in names}
        self.done = {name for name in names if crates.is_proved(name, known)}
        self.chain = chains([name for name in names if name not in self.done])
        self.left = sorted(self.chain, key=lambda name: -self.chain[name])
        self.processors = len(os.sched_getaffinity(0))
        self.lanes = max(1, min(self.processors, free_memory() // MEMORY))
        self.running: dict[Future, str] = {}

    def ahead(self) -> float:
        """Returns about how many seconds what is left takes: the longest chain or all of it, shared among processors."""
        left = [*self.left, *self.running.values()]
        return max(sum(map(seconds_of, left)) / self.processors, *(self.chain[name] / 2 for name in left), 0)

    def jobs(self, name: str, others: int) -> int:
        """Returns with how many jobs a crate is proved, beside which so many others are ready or run. Crates whose chains
        are nearly as long as the longest share the processors; each of the others takes one, of what these leave idle."""
        if self.processors <= 2 and others:
            return 1
        longest = max([self.chain[name], *(self.chain[it] for it in self.running.values())])
        if self.chain[name] < NEARLY * longest:
            return 1
        rivals = [it for it in self.running.values() if self.chain[it] >= NEARLY * longest]
        return max(1, min(JOBS, self.processors // (1 + len(rivals))))

    def begin(self, pool: ThreadPoolExecutor, provers: Provers) -> None:
        """Begins with what is ready, first with the longest chain."""
        ready = [name for name in self.left if self.done.issuperset(crates.below(name))]
        for name in ready[: self.lanes - len(self.running)]:
            jobs = self.jobs(name, len(self.running) + len(ready) - 1)
            self.left.remove(name)
            self.running[pool.submit(provers.prove, name, self.stamps[name], jobs, jobs == 1)] = name

    def run(self) -> None:
        """Proves what isn't proved yet. The first failure ends all that runs, and is raised."""
        progress = Progress(len(self.stamps), len(self.done))
        with ThreadPoolExecutor(self.lanes) as pool, Provers() as provers:
            while self.left or self.running:
                self.begin(pool, provers)
                progress.ahead(self.ahead())
                while not (ended := wait(self.running, Progress.PAUSE, FIRST_COMPLETED).done):
                    progress.show()
                for it in ended:
                    name = self.running.pop(it)
                    it.result()
                    self.done.add(name)
                    progress.proved(name)
        progress.close()


def prove(names: Iterable[str]) -> None:
    """Proves the libraries of these crates where they aren't proved as they are now."""
    Build(sorted(names, key=lambda name: len(crates.below(name)))).run()


def build(name: str) -> None:
    """Builds a program, unless it is at least as new as its sources. It gets the time at which this began, so a source
    that is changed meanwhile is newer."""
    out = crates.CRATES / name / "out"
    program, begun = out / name, out / "begun"
    if crates.is_current(program, name):
        return
    tell("proving each library, then building the program; from nothing this takes about twenty minutes on four processors")
    out.mkdir(exist_ok=True)
    begun.touch()
    program.unlink(missing_ok=True)
    prove([*crates.below(name), name])
    os.utime(program, (begun.stat().st_atime, begun.stat().st_mtime))
    tell(f"built {program}, a single file that can be copied anywhere")


def stop(number: int, _) -> None:
    raise KeyboardInterrupt(number)


@contextmanager
def alone() -> Iterator[None]:
    """Waits until no other build works in this checkout. A signal to end is an interrupt here."""
    for it in (signal.SIGTERM, signal.SIGHUP):
        signal.signal(it, stop)
    folder = crates.CRATES / PROGRAM / "out"
    folder.mkdir(exist_ok=True)
    with open(folder / "lock", "w", encoding="ascii") as lock:
        fcntl.flock(lock, fcntl.LOCK_EX)
        yield


def main(name: str) -> int:
    if shutil.which("rt") is None:
        tell("command rt not found: to build the program, the Rattle toolchain must be on the PATH")
        return 2
    try:
        with alone():
            build(name)
    except Failed as failed:
        tell(str(failed))
        return 2
    except KeyboardInterrupt:
        tell("stopped; the next call continues from here")
        return 130
    return 0


if __name__ == "__main__":
    sys.exit(main(sys.argv[1] if len(sys.argv) > 1 else PROGRAM))
