"""The completions for bash offer the commands of the program, the options of each, what these take, and the names of faults.
The function is called as bash calls it, in a bash that isn't interactive."""
import re
import shlex
import shutil
import subprocess
from collections.abc import Callable
from pathlib import Path

from manual import HELP_OPTION
from pages import HELP_COMMAND, help_of
from programs import ROOT, run

COMPLETIONS = ROOT / "completions/nullsim.bash"
# Prints what is offered for the last of some words. `compopt` only works while bash completes; the program asks by it
# for files.
ASK = """
compopt() { [[ $* == "-o default" ]] && COMPREPLY=(FILE); }
ask() { COMP_WORDS=("$@"); COMP_CWORD=$(($# - 1)); _nullsim; echo "${COMPREPLY[*]}"; }
"""
COMMANDS = "run plain draw trace why stimuli info cone diff twin check explain help"
UNITS = "s ms us ns ps fs"
# Words, the last of which is completed, and what is offered. ~ is the empty word.
TABLE = (
    ("~", COMMANDS),
    ("d", "draw diff"),
    ("-", "--verbose --help --version"),
    ("--verbose ~", COMMANDS),
    ("--unproved run --bench ~", "FILE"),
    ("help e", "explain"),
    ("none --h", ""),
    ("run --bench", "--bench"),
    ("run --bench ~", "FILE"),
    ("run --bench no/such/fo", "FILE"),
    ("run --bench =", "FILE"),
    ("run --bench = a", "FILE"),
    ("run --bench a.bench --st", "--stimuli"),
    ("run --show ~", "all outputs"),
    ("run --show o", "outputs"),
    ("run --show = o", "outputs"),
    ("run --show =", "all outputs"),
    ("run --unit ~", UNITS),
    ("run --unit p", "ps"),
    ("run --horizon ~", ""),
    ("run --counts --pr", "--progress"),
    ("run --counts = ~", ""),
    ("run --counts > ~", "FILE"),
    ("< ~", "FILE"),
    ("draw --sv", "--svg"),
    ("draw --unit --s", "--stimuli --show --step --svg"),
    ("stimuli --clock ~", ""),
    ("stimuli --clock clk = ~", ""),
    ("cone --bench a.bench ~", ""),
    ("diff --first-s", "--first-stimuli --first-schedule"),
    ("diff --second-schedule ~", "FILE"),
    ("explain not", "NotAFlop NotAnInput NotRising"),
    ("explain BADL", "BadLine"),
    ("explain --v", "--verbose"),
)


def offered(lines: list[list[str]]) -> list[list[str]]:
    """Returns what is offered for the last word of each line."""
    asked = "".join(f"ask {shlex.join(['nullsim', *line])}\n" for line in lines)
    ended = run(["bash", "--norc", "-c", f"source {shlex.quote(str(COMPLETIONS))}\n{ASK}{asked}"])
    if ended.status or ended.err:
        raise ValueError(f"{ended}")
    return [line.split() for line in ended.out.decode().splitlines()]


def first_other(wanted: list[tuple[list[str], list[str]]]) -> str | None:
    """What is wrong with the first answer that is another than wanted, in any order."""
    for (line, words), answer in zip(wanted, offered([line for line, _ in wanted]), strict=True):
        if sorted(words) != sorted(answer):
            return f"{' '.join(line)}: {answer}, and not {words}"
    return None


def table_fault() -> str | None:
    return first_other([([word.replace("~", "") for word in line.split()], words.split()) for line, words in TABLE])


def help_fault(program: Path) -> str | None:
    """What is wrong with the commands and options that are offered: they are those of the help, and so is whether an option
    takes a file."""
    commands = HELP_COMMAND.findall(help_of(program, []))
    wanted = [([""], commands), (["help", ""], commands)]
    for name in commands:
        options = HELP_OPTION.findall(help_of(program, [name])) if name != "help" else []
        wanted.append(([name, "--"], [option for option, _ in options]))
        wanted += [([name, option, "a"], ["FILE"] if value == "FILE" else ["all"] if value == "WHICH" else [])
                   for option, value in options if value]
    return first_other(wanted)


def names_fault(program: Path) -> str | None:
    listed = run([program, "explain"]).out.decode()
    names = sorted(set(re.findall(r"\b[A-Z]\w+", listed.replace(".bench", ""))))
    return first_other([(["explain", ""], names), (["explain", "BadLine", ""], names)])


def lint_fault() -> str | None:
    ended = run(["shellcheck", COMPLETIONS, ROOT / "nullsim"], stderr=subprocess.STDOUT)
    return ended.out.decode() if ended.status else None


def cases(program: Path) -> list[tuple[str, Callable[[], str | None]]]:
    """The checks of the completions. A linter that isn't installed is named, and not counted."""
    found: list[tuple[str, Callable[[], str | None]]] = [
        ("the completions, words of a line", table_fault),
        ("the completions, commands and options", lambda: help_fault(program)),
        ("the completions, names of faults", lambda: names_fault(program)),
    ]
    if shutil.which("shellcheck"):
        return [*found, ("the completions, shellcheck", lint_fault)]
    print("faults: the completions, shellcheck: not tried, since it isn't installed", flush=True)
    return found
