#!/usr/bin/env python3
"""Tests the built programs: with refused memory, with streams and files that fail, and with hostile texts.

The memory probes (crates/memory_probes) and each command of nullsim are run once for each of their requests for memory,
which is then refused. After that nullsim is run over faulty streams and files, over texts that are cut off or changed at
random, and over texts and circuits of the greatest size. Then come the answers in `cases/`, the examples of `explain`,
products of a multiplier, designs that were made of Verilog, the commands, pictures, prose and definitions of the pages,
the man page, the completions, pages of waveforms in a browser, the script that builds and starts the program, and what
it installs. The last line is 'N passed, M failed', over all of these.

    check.py [--random COUNT] [--seed FIRST]    the number of circuits and decks changed at random, and the first seed
"""
import argparse
import subprocess
import sys
import tempfile
import time
from typing import Callable

import browser
import cases
import completed
import explained
import installed
import manual
import pages
import products
import refused
import script
import sizes
import streams
import texts
import verilog
from programs import CRATES, SECONDS, built, copy_for_all


def deck() -> bytes:
    return (CRATES / "nullsim_cli" / "stdin").read_bytes()


def commands() -> list[tuple[list, bytes, int]]:
    """The words, the input and the status of the commands that are refused memory."""
    lines = (streams.RUN, streams.COUNTED, streams.PLAIN, streams.DRAW, streams.TRACE, streams.WHY, streams.STIMULI,
             streams.CHECK, streams.INFO, streams.CONE, streams.DIFF, streams.TWIN)
    return [
        ([], deck(), 0),
        *((words, b"", 0) for words in lines),
        ([*streams.RUN, "--schedule", "none.schedule"], b"", 3),
        ("run --bench hazard.bench --stimuli hazard.stimuli --horizon 8 --schedule hazard.schedule".split(), b"", 0),
        ("run --bench latch.bench --stimuli latch.stimuli --horizon 5 --counts".split(), b"", 0),
        ("run --bench clocks.bench --delays clocks.delays --horizon 40 --nets next,fas*".split(), b"", 0),
        ("trace --bench hazard.bench --stimuli hazard.stimuli --horizon 8 --no-idle --net y".split(), b"", 0),
        ("trace --bench hazard.bench --stimuli hazard.stimuli --horizon 8 --frontiers --nets outputs,y,*".split(), b"", 0),
        ("draw --bench counter.bench --delays counter.delays --horizon 79 --show outputs --bus q[1:0]".split(), b"", 0),
        ("draw --bench hazard.bench --stimuli hazard.stimuli --horizon 8 --wavejson".split(), b"", 0),
        ("draw --bench hazard.bench --stimuli hazard.stimuli --horizon 8 --nets y --bus a --html".split(), b"", 0),
        ("plain --bench pulse.bench --delays pulse.delays --stimuli pulse.stimuli --horizon 22".split(), b"", 0),
        ("stimuli --bench verilog/uart.bench --horizon 60 --clock clk=10,10,1 --hold data[7:0]=0x48".split(), b"", 0),
        (streams.HELP, b"", 0),
        (["run", "--help"], b"", 0),
        (["explain", "BadLine"], b"", 0),
        (["run", "--horizon", "x"], b"", 2),
        ([], b"%nullsim x\n", 1),
    ]


def line_of(words: list) -> str:
    return " ".join(["nullsim", *words]) if words else "nullsim with a deck"


def checks(refuser: refused.Refuser, folder: str, seeds: range) -> list:
    """Each check with its name: what it answers is what is wrong, if something is."""
    probes, program = built("memory_probes"), built("nullsim_cli")
    wanted = (CRATES / "memory_probes" / "stdout").read_bytes()
    found = [("memory_probes without memory", lambda: refused.probes(refuser, probes, wanted))]
    for words, given, status in commands():
        check = lambda it=([program, *words], given, status): refused.command(refuser, *it)
        found.append((f"{line_of(words)}, without memory", check))
    found += streams.cases(copy_for_all(program, folder), folder, deck())
    found += [*texts.cases(program, folder, seeds), *sizes.cases(program, folder)]
    found += [*cases.cases(program, folder), *explained.cases(program, folder), *products.cases(program, folder)]
    found += [*verilog.cases(program), *pages.cases(program, folder), *manual.cases(program, folder)]
    found += [*completed.cases(program), *browser.cases(program)]
    return [*found, *script.cases(folder), *installed.cases(folder)]


def fault_of(check: Callable[[], str | None]) -> str | None:
    try:
        return check()
    except subprocess.TimeoutExpired as still:
        return f"still running after {SECONDS} seconds: {still.cmd}"


def main() -> int:
    words = argparse.ArgumentParser(description="Tests the built programs under faults.")
    words.add_argument("--random", type=int, default=3000, metavar="COUNT")
    words.add_argument("--seed", type=int, default=0, metavar="FIRST")
    asked = words.parse_args()
    begun = time.monotonic()
    passed = failed = 0
    with tempfile.TemporaryDirectory(prefix="faults-") as folder:
        refuser = refused.Refuser(folder)
        for name, check in checks(refuser, folder, range(asked.seed, asked.seed + asked.random)):
            fault = fault_of(check)
            passed, failed = passed + (fault is None), failed + (fault is not None)
            print(f"faults: {name}: {fault or 'ok'}", flush=True)
    seconds = time.monotonic() - begun
    print(f"faults: {refuser.refused} requests for memory were refused one by one, in {seconds:.0f} seconds")
    print(f"{passed} passed, {failed} failed")
    return 1 if failed else 0


if __name__ == "__main__":
    sys.exit(main())
