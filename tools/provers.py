"""The provers that run, and what they leave."""
import os
import signal
import subprocess
import threading
from contextlib import suppress
from pathlib import Path

import crates

TARGET = "x86_64-unknown-linux-gnu"


class Failed(Exception):
    """A crate isn't proved, or the program couldn't be linked. Its text is what was said of it."""


class Provers:
    """The provers that run, each with the processes that it starts, which end where this is left."""

    def __init__(self) -> None:
        self.lock = threading.Lock()
        self.running: set[subprocess.Popen] = set()
        self.has_ended = False

    def __enter__(self) -> "Provers":
        return self

    def __exit__(self, *_) -> None:
        with self.lock:
            self.has_ended = True
            for it in self.running:
                with suppress(ProcessLookupError):
                    os.killpg(it.pid, signal.SIGKILL)

    def prove(self, crate: str, made_of: str, jobs: int, is_spare: bool) -> None:
        """Proves a crate, and builds its library or the program. A crate that is spare takes what others leave idle."""
        words = [*crates.prover(is_spare), "build", *crates.words(crate, jobs)]
        if crates.is_program(crate):
            self.build(crate, words)
        else:
            self.run(crate, [*words, "--statements", "-o", str(crates.forget(crate))])
            crates.keep(crate, made_of)

    def build(self, crate: str, words: list[str]) -> None:
        """Builds a program, which is compiled by LLVM."""
        toolchain, out = ["--toolchain", str(crates.kit() / "toolchain")], crates.CRATES / crate / "out"
        out.mkdir(exist_ok=True)
        compiled = out / f"{crate}.o"
        self.run(crate, [*words, *toolchain, "--backend", "llvm", "-o", str(compiled)])
        of_kit = [str(crates.kit() / "c" / name) for name in ("libos_c.a", "liblibc_c.a")]
        link = [str(crates.kit() / "bin/rattle-link"), "--target", TARGET, *toolchain]
        self.run(crate, [*link, "-o", str(out / crate), str(compiled), *of_kit])
        compiled.unlink()

    def run(self, crate: str, words: list[str]) -> None:
        """Runs a command in a crate's folder to its end."""
        with self.lock:
            if self.has_ended:
                raise Failed(f"{crate} wasn't started")
            ran = subprocess.Popen(words, cwd=crates.CRATES / crate, stdin=subprocess.DEVNULL, stdout=subprocess.PIPE,
                                   stderr=subprocess.STDOUT, start_new_session=True, text=True, errors="replace")
            self.running.add(ran)
        said = ran.communicate()[0]
        with self.lock:
            self.running.discard(ran)
        if ran.returncode:
            raise Failed(f"{crate} can't be proved and built (status {ran.returncode}):\n{said}")
