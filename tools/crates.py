"""The crates of the repository, as crates.txt lists them, and how the prover is called over one of them.

A library that was proved is in its crate's `out/proved/`, by its statements alone, as `rt ci` proves the crates above it
too: such a library is quicker to write and to read than one with its proofs. Beside it, the file `stamp` says of which
text it was made.
"""
import hashlib
import shutil
import subprocess
from functools import cache
from pathlib import Path
from typing import Iterator

ROOT = Path(__file__).resolve().parent.parent
CRATES = ROOT / "crates"
# The parts of a crate that a proof reads, and the files in them.
PARTS = ("src", "specs", "proofs")
SOURCES = ("*.rt", "*.antt")


@cache
def libraries() -> dict[str, list[str]]:
    """Returns the crates of the repository, each with the libraries that it uses."""
    lines = (ROOT / "crates.txt").read_text(encoding="utf-8").splitlines()
    named = (line.partition("#")[0].partition(":") for line in lines)
    return {name.strip(): used.split() for name, _, used in named if name.strip()}


@cache
def below(crate: str) -> tuple[str, ...]:
    """Returns the crates of the repository below a crate, each after those below it."""
    used = libraries()
    found: dict[str, None] = {}
    for library in used[crate]:
        if library in used:
            found |= dict.fromkeys([*below(library), library])
    return tuple(found)


def is_program(crate: str) -> bool:
    return (CRATES / crate / "src/main.rt").exists()


def sources(crate: str) -> Iterator[Path]:
    """Returns the files of a crate that a proof reads."""
    for part in PARTS:
        for pattern in SOURCES:
            yield from (CRATES / crate / part).rglob(pattern)


def is_current(program: Path, crate: str) -> bool:
    """Returns whether a built program is at least as new as each source that it is made of."""
    if not program.is_file():
        return False
    built = program.stat().st_mtime
    files = [ROOT / "crates.txt", *(file for name in [*below(crate), crate] for file in sources(name))]
    return all(file.stat().st_mtime <= built for file in files)


@cache
def kit() -> Path:
    """Returns the folder of the toolchain."""
    said = subprocess.run(["rt", "doc"], capture_output=True, check=True, text=True)
    return Path(said.stdout.strip()).parent


@cache
def kit_version() -> str:
    return subprocess.run(["rt", "version"], capture_output=True, check=True, text=True).stdout


def stamp(crate: str, known: dict[str, str]) -> str:
    """Returns a checksum of all that a crate's library is made of. Those of other crates are looked up, and added."""
    if crate not in known:
        total = hashlib.sha256(repr((kit_version(), libraries()[crate])).encode())
        for file in sorted(sources(crate)):
            total.update(repr((str(file.relative_to(CRATES)), file.read_bytes())).encode())
        for name in below(crate):
            total.update(stamp(name, known).encode())
        known[crate] = total.hexdigest()
    return known[crate]


def proved_in(crate: str) -> Path:
    """Returns the folder of a crate's proved library."""
    return CRATES / crate / "out/proved"


def is_proved(crate: str, known: dict[str, str]) -> bool:
    """Returns whether a crate's library is there, made of the text as it is now."""
    file = proved_in(crate) / "stamp"
    return file.is_file() and file.read_text("ascii") == stamp(crate, known)


def forget(crate: str) -> Path:
    """Removes a crate's proved library, and returns where it was."""
    folder = proved_in(crate)
    shutil.rmtree(folder, ignore_errors=True)
    folder.mkdir(parents=True)
    return folder / f"{crate}.rlib"


def keep(crate: str, made_of: str) -> None:
    """Notes of which text a crate's proved library was made, unless that text was changed meanwhile."""
    if stamp(crate, {}) == made_of:
        (proved_in(crate) / "stamp").write_text(made_of, "ascii")


def prover(is_spare: bool) -> list[str]:
    """Returns the command of the prover. One that is spare takes what others leave idle."""
    return [*(["nice", "-n", "10"] if is_spare else []), str(kit() / "bin/rattle")]


def words(crate: str, jobs: int) -> list[str]:
    """Returns the words by which the prover checks or builds a crate, over the proved libraries below it."""
    used, at = libraries(), kit()
    root = "src/main.rt" if is_program(crate) else "src/lib.rt"
    found = ["--crate-name", crate, root, "-L", f"dependency={at}/rlibs"]
    for name in ["std", *(it for it in used[crate] if it not in used)]:
        found += ["--extern", f"{name}={at}/rlibs/{name}.rlib"]
    for name in below(crate):
        found += ["-L", f"dependency={proved_in(name)}"]
        found += ["--extern", f"{name}={proved_in(name)}/{name}.rlib"] if name in used[crate] else []
    found += ["--antt-project", f"{at}/rattle/logic/antt-project.json", "--logic-built", f"{at}/logic_built"]
    return [*found, "--jobs", str(jobs)]
