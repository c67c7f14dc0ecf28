"""`./nullsim --install` puts the program, its man page and its completions under a folder, and `--uninstall` removes these
alone: tried in a copy of the repository's folders, as the script is."""
import ctypes
import os
from collections.abc import Callable, Iterator
from pathlib import Path

from programs import ROOT, Ended, run
from script import Copy

MAN, COMPLETIONS = "share/man/man1/nullsim.1", "share/bash-completion/completions/nullsim"
# What is installed, with its rights.
FILES = {"bin/nullsim": 0o755, MAN: 0o644, COMPLETIONS: 0o644}
USAGE = "nullsim: usage: ./nullsim --install [PREFIX] or ./nullsim --uninstall [PREFIX]\n"
# What is refused, by the prefix below a folder in which `file` is a file, `folder/bin/nullsim` a folder, and `closed` a
# folder without the right to write: what standard error has after that folder.
REFUSED = {
    "file": "file: Not a directory",
    "file/below": "file/below/bin: Not a directory",
    "folder": "folder/bin/nullsim: Is a directory",
    "closed": "closed/bin: Permission denied",
}
PR_CAPBSET_DROP, CAP_DAC_OVERRIDE = 24, 1


def heed_rights() -> None:
    """Lets a process that runs as root be refused what the rights of a file refuse to its owner."""
    ctypes.CDLL(None).prctl(PR_CAPBSET_DROP, CAP_DAC_OVERRIDE, 0, 0, 0)


def files_under(folder: Path) -> dict[str, int]:
    """Returns the files below a folder, with their rights."""
    return {str(it.relative_to(folder)): it.stat().st_mode & 0o777 for it in folder.rglob("*") if it.is_file()}


def lines(word: str, prefix: Path) -> bytes:
    return "".join(f"{word} {prefix / name}\n" for name in FILES).encode()


def install_fault(copy: Copy, prefix: Path, words: list[str]) -> str | None:
    """What is wrong with files that are installed, and installed once more over other ones."""
    for _ in range(2):
        ended = copy.ended("--install", *words, HOME=str(copy.top.parent / "home"))
        if ended.status != 0 or ended.out != lines("installed", prefix) or f"{prefix}/bin isn't".encode() not in ended.err:
            return f"{ended}"
        if files_under(prefix) != FILES:
            return f"the files are {files_under(prefix)}"
        if (prefix / MAN).read_bytes() != (ROOT / "man/nullsim.1").read_bytes():
            return "the man page is another"
        if run([prefix / "bin/nullsim", "two", "words"], input=b"a deck") != Ended(0, b"two words\na deck", b""):
            return "the program is another"
        for name in FILES:
            (prefix / name).write_text("another")
            (prefix / name).chmod(0o600)
    return None


def uninstall_fault(copy: Copy, prefix: Path, words: list[str]) -> str | None:
    """What is wrong with what is removed, and what is left: what others put there."""
    (prefix / "bin/other").write_text("")
    for out, err in ((lines("removed", prefix), ""), (b"", f"nullsim: nothing to remove under {prefix}\n")):
        ended = copy.ended("--uninstall", *words, HOME=str(copy.top.parent / "home"))
        if ended != Ended(0, out, err.encode()) or [*files_under(prefix)] != ["bin/other"]:
            return f"{ended}; the files are {[*files_under(prefix)]}"
    return None


def both_fault(copy: Copy, under: str, *words: str) -> str | None:
    prefix = copy.top.parent / under
    return install_fault(copy, prefix, [*words]) or uninstall_fault(copy, prefix, [*words])


def build_fault(copy: Copy) -> str | None:
    """What is wrong with when it builds: first and after a change, but not once the program is built."""
    every = copy.below("nullsim_cli")
    for changed, broken, built in (("", "", every), ("", "", set()), ("nullsim_cli", "nullsim_cli", {"nullsim_cli"}),
                                   ("", "", {"nullsim_cli"})):
        if changed:
            copy.change(changed)
        prefix = copy.top.parent / f"built{changed}"
        ended, calls = copy.ended("--install", str(prefix), BROKEN=broken), copy.calls()
        if ended.status != (2 if broken else 0) or set(calls) != built or bool(files_under(prefix)) == bool(broken):
            return f"{ended}, {calls}, {files_under(prefix)}"
    return None


def path_fault(copy: Copy) -> str | None:
    """What is wrong where programs of the prefix are found: nothing is on standard error."""
    prefix = copy.top.parent / "found"
    ended = run([copy.top / "nullsim", "--install", prefix],
                env={**os.environ, "PATH": f"{os.environ['PATH']}:{prefix}/bin"})
    return None if ended == Ended(0, lines("installed", prefix), b"") else f"{ended}"


def refused_fault(copy: Copy) -> str | None:
    """What is wrong where nothing can be installed: one line says what is at fault, and nothing is left there."""
    there = copy.top.parent / "refused"
    (there / "folder/bin/nullsim").mkdir(parents=True)
    (there / "closed/bin").mkdir(parents=True)
    (there / "file").write_text("")
    (there / "closed/bin").chmod(0o500)
    for name, told in REFUSED.items():
        ended = run([copy.top / "nullsim", "--install", name], cwd=there, preexec_fn=heed_rights)
        if ended != Ended(2, b"", f"nullsim: {there}/{told}\n".encode()):
            return f"{name}: {ended}"
    return None if [*files_under(there)] == ["file"] else f"it leaves {[*files_under(there)]}"


def usage_fault(copy: Copy) -> str | None:
    for task in ("--install", "--uninstall"):
        for words in ([""], ["one", "two"], ["--help"]):
            ended = copy.ended(task, *words)
            if ended != Ended(2, b"", USAGE.encode()):
                return f"{task} {words}: {ended}"
    return None


def cases(folder: str) -> Iterator[tuple[str, Callable[[], str | None]]]:
    """Each check with its name. The first one builds the program, which the others install."""
    copy = Copy(str(Path(folder, "installed")))
    yield "nullsim --install builds the program", lambda: build_fault(copy)
    yield "nullsim --install without a prefix", lambda: both_fault(copy, "home/.local")
    for name, under in (("relative", "one/below"), ("with spaces", "two  words/a b"), ("that goes up", "copy/../up")):
        yield f"nullsim --install with a prefix {name}", lambda under=under: both_fault(copy, under, under)
    yield "nullsim --install on the path", lambda: path_fault(copy)
    yield "nullsim --install where it can't", lambda: refused_fault(copy)
    yield "nullsim --install with wrong arguments", lambda: usage_fault(copy)
