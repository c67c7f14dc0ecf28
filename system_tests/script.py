"""The script `nullsim` at the top builds the program where it must and not else, reports how far it is, goes on where it
was stopped, and hands arguments and streams over: tried in a copy of the repository's folders, with another toolchain,
which only notes how it is called."""
import os
import pty
import shutil
import signal
import subprocess
import time
from pathlib import Path
from typing import Callable

from programs import ROOT, SECONDS, Ended

RT = """#!/bin/sh
case $1 in
    doc) echo "$KIT/START-HERE.md" ;;
    version) echo "a kit" ;;
    *) echo "rt $*" >> "$NOTES"; cat ;;
esac
"""

PROVER = """#!/bin/sh
while [ $# -gt 0 ]; do
    case $1 in
        --crate-name) name=$2 ;;
        -o) made=$2 ;;
    esac
    shift
done
echo "$name" >> "$NOTES"
[ "$name" = "$SLOW" ] && sleep 50
[ "$name" = "$BROKEN" ] && echo "a goal is open" && exit 1
mkdir -p "$(dirname "$made")" && echo "$name" > "$made"
"""

LINKER = """#!/bin/sh
while [ "$1" != -o ]; do shift; done
printf '#!/bin/sh\\necho "$@"; cat\\n' > "$2" && chmod +x "$2"
"""


def written(file: Path, text: str) -> None:
    file.parent.mkdir(parents=True, exist_ok=True)
    file.write_text(text)
    file.chmod(0o755)


def heed_interrupts() -> None:
    """Lets a process end by Ctrl-C, even where the gate runs in the background, and so ignores it."""
    signal.signal(signal.SIGINT, signal.SIG_DFL)


class Copy:
    """A copy of the repository's folders, in which each crate has one source."""

    def __init__(self, folder: str) -> None:
        self.top = Path(folder, "copy")
        self.notes, self.kit = self.top / "notes", self.top / "kit"
        for name, text in (("rt", RT), ("rattle", PROVER), ("rattle-link", LINKER)):
            written(self.kit / "bin" / name, text)
        for name in ("nullsim", "crates.txt"):
            shutil.copy(ROOT / name, self.top)
        for name in ("tools", "man", "completions"):
            shutil.copytree(ROOT / name, self.top / name)
        self.used: dict[str, list[str]] = {}
        for line in (ROOT / "crates.txt").read_text(encoding="utf-8").splitlines():
            name, _, libraries = line.partition(":")
            self.used[name] = libraries.split()
            written(self.source(name), "")

    def source(self, crate: str) -> Path:
        is_program = (ROOT / "crates" / crate / "src/main.rt").exists()
        return self.top / "crates" / crate / "src" / ("main.rt" if is_program else "lib.rt")

    def below(self, crate: str) -> set[str]:
        """Returns a crate and those below it."""
        return {crate}.union(*(self.below(it) for it in self.used[crate] if it in self.used))

    def change(self, crate: str) -> None:
        """Changes a source, which then is newer than the program."""
        with open(self.source(crate), "a", encoding="utf-8") as source:
            source.write("// changed\n")
        later = time.time() + 1
        os.utime(self.source(crate), (later, later))
        time.sleep(1.1)

    def begun(self, *words: str, script: str = "nullsim", **how) -> subprocess.Popen:
        """Starts the script with some words, with these variables set besides."""
        self.notes.write_text("")
        streams = {"stdin": subprocess.PIPE, "stdout": subprocess.PIPE, "stderr": subprocess.PIPE}
        streams |= {key: how.pop(key) for key in ("stderr",) if key in how}
        path = f"{self.kit}/bin:{os.environ['PATH']}"
        variables = {**os.environ, "PATH": path, "NOTES": str(self.notes), "KIT": str(self.kit), **how}
        return subprocess.Popen([self.top / script, *words], cwd=self.top.parent, env=variables, start_new_session=True,
                                preexec_fn=heed_interrupts, **streams)

    def ended(self, *words: str, **how) -> Ended:
        run = self.begun(*(words or ("two", "words")), **how)
        out, err = run.communicate(b"a deck", SECONDS)
        return Ended(run.returncode, out, err or b"")

    def calls(self) -> list[str]:
        return self.notes.read_text().splitlines()


def build_fault(copy: Copy) -> str | None:
    """What is wrong with what is built, and when."""
    every = copy.below("nullsim_cli")
    for changed, broken, status, built in (
        ("", "", 0, every),
        ("", "", 0, set()),
        ("run_tests", "", 0, set()),
        ("worked_examples", "", 0, set()),
        ("vcd_dump", "", 0, {it for it in every if "vcd_dump" in copy.below(it)}),
        ("logic3", "nullsim", 2, {it for it in every if "logic3" in copy.below(it)} - {"nullsim_cli"}),
        ("", "", 0, {"nullsim", "nullsim_cli"}),
        ("", "", 0, set()),
    ):
        if changed:
            copy.change(changed)
        ended, calls = copy.ended(BROKEN=broken), copy.calls()
        place = f"with {changed or 'nothing'} changed and {broken or 'nothing'} broken: {ended}, {calls}"
        if ended.status != status or ended.out != (b"" if broken else b"two words\na deck"):
            return place
        if sorted(calls) != sorted(built) or bool(built) != bool(ended.err):
            return place
        if any(name in calls[:at] for at, name in enumerate(calls) for name in [it for it in calls if name in copy.used[it]]):
            return f"a crate was built before one that it uses: {place}"
        if broken and not ended.err.endswith(b"a goal is open\n\n"):
            return place
    return None


def stop_fault(copy: Copy) -> str | None:
    """What is wrong with a build that is stopped by Ctrl-C, and with the one after it."""
    copy.change("logic3")
    for number, status in ((signal.SIGINT, 130), (signal.SIGTERM, 130)):
        run = copy.begun(SLOW="design")
        while "design" not in copy.calls():
            time.sleep(0.1)
        os.killpg(run.pid, number)
        out, err = run.communicate(b"", SECONDS)
        if number == signal.SIGINT and run.returncode not in (status, -number) or out:
            return f"the stopped build ended with {run.returncode}, {out!r}, {err!r}"
    before = {"logic3", "netlist", "timing_text"}
    ended, calls = copy.ended(), copy.calls()
    if ended.out != b"two words\na deck" or before & set(calls) or "design" not in calls:
        return f"the build after the stop: {ended}, {calls}"
    return None


def terminal_fault(copy: Copy) -> str | None:
    """What is wrong with what a terminal shows: one line, which is rewritten."""
    copy.change("netlist")
    reading, writing = pty.openpty()
    ended = copy.ended(stderr=writing)
    os.close(writing)
    told = os.read(reading, 1 << 16)
    os.close(reading)
    if ended.status != 0 or told.count(b"\n") != 2 or b"\rnullsim: " not in told.replace(b"\x1b[K", b""):
        return f"{ended}, {told!r}"
    return None


def link_fault(copy: Copy) -> str | None:
    """What is wrong where the script is called through a link."""
    os.symlink(copy.top / "nullsim", copy.top / "kit/linked")
    ended = copy.ended(script="kit/linked")
    if ended != Ended(0, b"two words\na deck", b"") or (copy.top / "kit/crates").exists():
        return f"{ended}"
    return None


def unproved_fault(copy: Copy) -> str | None:
    """What is wrong with a run without proofs: `rt try` gets the arguments, and the files that they name, each under a name
    of its own."""
    there = copy.top.parent
    for folder in ("", "one", "other"):
        written(there / folder / "a.bench", "INPUT(a)\n")
    one, other = f"{there}/one/a.bench", f"{there}/other/a.bench"
    for words, wanted in (
        ("info --bench a.bench", f"--data a.bench={there}/a.bench -- info --bench a.bench"),
        (f"diff --first={one} --second {other}",
         f"--data a.bench={one} --data file1/a.bench={other} -- diff --first=a.bench --second file1/a.bench"),
    ):
        ended, calls = copy.ended("--unproved", *words.split()), copy.calls()
        if ended.status != 0 or ended.out != b"a deck" or b"this run is unproved" not in ended.err:
            return f"{ended}"
        if calls != [f"rt try {wanted}"]:
            return f"{calls}"
    return None


def cases(folder: str) -> list[tuple[str, Callable[[], str | None]]]:
    copy = Copy(folder)
    parts = {"builds the program": build_fault, "is stopped": stop_fault, "reports to a terminal": terminal_fault,
             "is called through a link": link_fault, "runs without proofs": unproved_fault}
    return [(f"the script {name}", lambda it=check: it(copy)) for name, check in parts.items()]
