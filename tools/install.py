#!/usr/bin/env python3
"""Puts nullsim, its man page and its completions for bash under a folder, or removes them from there.

    install.py --install [PREFIX]      builds the program if needed, and prints each file that it writes
    install.py --uninstall [PREFIX]    prints each file that it removes, and leaves all others, folders too

Without PREFIX it is ~/.local. A file that is there already is replaced, also while it runs.
"""
import os
import shutil
import sys
from errno import EACCES, EISDIR, ENOTDIR
from pathlib import Path

import build
import crates
from progress import tell

USAGE = "usage: ./nullsim --install [PREFIX] or ./nullsim --uninstall [PREFIX]"
PROGRAM = crates.CRATES / build.PROGRAM / "out" / build.PROGRAM
# Where each file goes below the prefix, and with what rights.
FILES = (
    (PROGRAM, "bin/nullsim", 0o755),
    (crates.ROOT / "man/nullsim.1", "share/man/man1/nullsim.1", 0o644),
    (crates.ROOT / "completions/nullsim.bash", "share/bash-completion/completions/nullsim", 0o644),
)


def refuse(number: int, path: Path) -> None:
    raise OSError(number, os.strerror(number), str(path))


def prepare(prefix: Path) -> None:
    """Makes the folders of the files. What would refuse these is found here, before a build that may take long."""
    if prefix.exists() and not prefix.is_dir():
        refuse(ENOTDIR, prefix)
    for target in (prefix / name for _, name, _ in FILES):
        target.parent.mkdir(parents=True, exist_ok=True)
        if not os.access(target.parent, os.W_OK):
            refuse(EACCES, target.parent)
        if target.is_dir():
            refuse(EISDIR, target)


def install(prefix: Path) -> None:
    """Copies all files before it replaces one. So if one can't be written, what is installed stays as it is."""
    copies = {prefix / name: (prefix / name).with_name(".nullsim.new") for _, name, _ in FILES}
    try:
        for (source, _, rights), copy in zip(FILES, copies.values()):
            shutil.copyfile(source, copy)
            copy.chmod(rights)
        for target, copy in copies.items():
            copy.replace(target)
            print(f"installed {target}", flush=True)
    finally:
        for copy in copies.values():
            copy.unlink(missing_ok=True)


def uninstall(prefix: Path) -> None:
    there = [prefix / name for _, name, _ in FILES if os.path.lexists(prefix / name)]
    for target in there:
        target.unlink()
        print(f"removed {target}", flush=True)
    if not there:
        tell(f"nothing to remove under {prefix}")


def built_and_installed(prefix: Path) -> int:
    """Installs, and returns the exit status. Only a build needs the toolchain, so after one, root can install too."""
    prepare(prefix)
    if not crates.is_current(PROGRAM, build.PROGRAM) and (status := build.main(build.PROGRAM)):
        return status
    install(prefix)
    if str(prefix / "bin") not in os.environ.get("PATH", "").split(os.pathsep):
        tell(f"{prefix / 'bin'} isn't on the PATH")
    return 0


def main() -> int:
    match sys.argv[1:]:
        case ["--install" | "--uninstall" as task]:
            prefix = Path.home() / ".local"
        case ["--install" | "--uninstall" as task, name] if name and not name.startswith("-"):
            prefix = Path(name).absolute()
        case _:
            tell(USAGE)
            return 2
    try:
        if task == "--install":
            return built_and_installed(prefix)
        uninstall(prefix)
    except OSError as failed:
        tell(f"{failed.filename2 or failed.filename}: {failed.strerror}")
        return 2
    return 0


if __name__ == "__main__":
    sys.exit(main())
