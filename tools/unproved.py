#!/usr/bin/env python3
"""Runs nullsim once, without any proof, by `rt try`: a first look, in about a minute, before the program is built.

Each call compiles all sources anew, since `rt try` keeps nothing. The run may take a minute and write a megabyte.
"""
import os
import sys
from pathlib import Path

import crates
from build import PROGRAM
from progress import tell


class Arguments:
    """Arguments as the program gets them, and the files that they name. `rt try` runs the program in a folder of its own,
    into which it copies such files."""

    def __init__(self, words: list[str]) -> None:
        self.files: dict[str, str] = {}
        self.words = [self.taken(word) for word in words]

    def taken(self, word: str) -> str:
        """Takes an argument, which may be an option with its value."""
        option, equals, value = word.partition("=") if word.startswith("--") else ("", "", word)
        return option + equals + (self.name(value) if Path(value).is_file() else value)

    def name(self, path: str) -> str:
        """Takes a file, and returns its name in that folder: its path, or if it is elsewhere, a name that no other has."""
        name, file = os.path.normpath(path), os.path.abspath(path)
        if name.startswith(("/", "..")):
            name = os.path.basename(name)
        if self.files.get(name, file) != file:
            name = f"file{len(self.files)}/{name}"
        self.files[name] = file
        return name


def main() -> int:
    tell("this run is unproved; compiling all sources first takes about a minute")
    arguments = Arguments(sys.argv[1:])
    files = [word for name, file in arguments.files.items() for word in ("--data", f"{name}={file}")]
    os.chdir(crates.CRATES / PROGRAM)
    try:
        os.execvp("rt", ["rt", "try", *files, "--", *arguments.words])
    except FileNotFoundError:
        tell("command rt not found: the Rattle toolchain must be on the PATH")
        return 2


if __name__ == "__main__":
    sys.exit(main())
