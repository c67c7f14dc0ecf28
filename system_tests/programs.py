"""The built programs of the repository, and runs of them."""
import os
import shutil
import subprocess
import sys
from pathlib import Path
from typing import NamedTuple

ROOT = Path(__file__).resolve().parent.parent
CRATES = ROOT / "crates"
EXAMPLES = ROOT / "examples"
SECONDS = 60


class Ended(NamedTuple):
    """How a run ended."""

    status: int
    out: bytes
    err: bytes


def built(name: str) -> Path:
    """The program of a crate as the gate left it. Where a source is newer, or it isn't there, it is proved and built
    first."""
    if subprocess.run([sys.executable, ROOT / "tools/build.py", name], check=False).returncode:
        sys.exit(f"faults: {name} can't be built")
    return CRATES / name / "out" / name


def copy_for_all(program: Path, folder: str) -> Path:
    """A copy in this folder, which everybody may run."""
    os.chmod(folder, 0o711)
    copy = Path(folder, program.name)
    shutil.copyfile(program, copy)
    copy.chmod(0o755)
    return copy


def run(words: list, **how) -> Ended:
    """Runs a program in the examples' folder. What it writes is kept, where it isn't said where it goes."""
    how = {"stdout": subprocess.PIPE, "stderr": subprocess.PIPE, "cwd": EXAMPLES, **how}
    if "input" not in how:
        how.setdefault("stdin", subprocess.DEVNULL)
    ended = subprocess.run(words, timeout=SECONDS, check=False, **how)
    return Ended(ended.returncode, ended.stdout or b"", ended.stderr or b"")
