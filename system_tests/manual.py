"""The man page has the commands of the program, with their options and values, and the help's text of each. Its examples
print what it shows. Where a linter of man pages is installed, it finds nothing."""
import os
import re
import shutil
import subprocess
import sys
from collections.abc import Callable
from pathlib import Path

import prose
from pages import HELP_COMMAND, help_of
from programs import ROOT, SECONDS, run

PAGE = ROOT / "man/nullsim.1"
SECTION = re.compile(r"^\.S[HS] (.*)\n((?:(?!\.S[HS] ).*\n)*)", re.MULTILINE)
# An option with its value: in a help, in the man page, and where the man page describes it.
HELP_OPTION = re.compile(r"^ {2}(?:-\w, | {4})(--[\w-]+)(?: <(\S+)>)?", re.MULTILINE)
LABEL = r'\.B[IR]? (?:-\w ", " )?(--[\w-]+)(?: " (\S+)")?'
LISTED = re.compile(rf"^{LABEL}", re.MULTILINE)
DESCRIBED = re.compile(rf"^\.T[PQ]\n{LABEL}", re.MULTILINE)
STATUS = re.compile(r"\b(\d) [a-z]")
# The examples, and their commands with what these print. A command may have a text as its input, or several lines.
EXAMPLE = re.compile(r"^\.EX\n(.*?)^\.EE$", re.MULTILINE | re.DOTALL)
COMMAND = re.compile(r"^\$ (.*<<END\n(?:.*\n)*?END|(?:.*\\\n)*.*)\n((?:(?!\$ ).*\n)*)", re.MULTILINE)
# What tools/from_help.py writes.
DERIVED = re.compile(r'^\.\\" begin (\w+)\n.*?^\.\\" end \1$', re.MULTILINE | re.DOTALL)
# Comments, and what ends a paragraph; macros whose words belong to a sentence.
BREAK = re.compile(r"^\.(?:\\\".*|PP|TP|TQ|S[HS].*|TH.*|br|nh|ad.*)$", re.MULTILINE)
FONT = re.compile(r"^\.[BIR]+ ", re.MULTILINE)
PLAIN = {"\\-": "-", "\\(aq": "'", "\\&": "", "\\fB": "", "\\fI": "", "\\fR": "", "\\e": "\\"}
LINTERS = {"mandoc": ["-T", "lint"], "groff": ["-ww", "-man", "-T", "utf8"]}


def plain() -> str:
    """Returns the man page without escapes, but with its macros."""
    return re.sub("|".join(map(re.escape, PLAIN)), lambda it: PLAIN[it[0]], prose.text_of(PAGE))


def derived_fault(program: Path) -> str | None:
    """What is wrong with the parts of the man page and of the completions that tools/from_help.py writes."""
    ended = run([sys.executable, ROOT / "tools/from_help.py", "--check", program])
    return None if ended.status == 0 else ended.err.decode()


def page_texts_fault() -> str | None:
    """What is wrong with the source that tools/page_texts.py writes from the folder page/."""
    ended = run([sys.executable, ROOT / "tools/page_texts.py", "--check"])
    return None if ended.status == 0 else ended.err.decode()


def options_fault(program: Path) -> str | None:
    """What is wrong with the commands and options of the man page, read apart from tools/from_help.py."""
    found, commands = dict(SECTION.findall(plain())), HELP_COMMAND.findall(help_of(program, []))
    if [name for name in found if name.islower()] != commands:
        return f"the page has {[*found]}, and the help {commands}"
    for name in commands:
        wanted = set(HELP_OPTION.findall(help_of(program, [name]))) if name != "help" else set()
        if wanted != (listed := set(LISTED.findall(found[name]))):
            return f"{name}: the page has {sorted(listed - wanted)}, and the help {sorted(wanted - listed)}"
        if missing := wanted.difference(DESCRIBED.findall(found[name] + found["OPTIONS"])):
            return f"{name}: the page doesn't describe {sorted(missing)}"
    return None


def statuses_fault(program: Path) -> str | None:
    told = help_of(program, []).partition("Exit status: ")[2].partition(".")[0]
    listed = re.findall(r"^\.TP\n\.B (\d)$", plain(), re.MULTILINE)
    return None if listed == STATUS.findall(told) else f"the page has {listed}, and the help {told}"


def version_fault(program: Path) -> str | None:
    version = run([program, "--version"]).out.decode().strip()
    return None if f'"{version}" "User Commands"\n' in plain() else f"the version is {version}"


def examples_fault(program: Path, folder: Path) -> str | None:
    """What is wrong with the examples, in a folder of their own, where the program is on the path."""
    folder.mkdir()
    shutil.copy2(program, folder / "nullsim")
    variables = {**os.environ, "PATH": f"{folder}:{os.environ['PATH']}"}
    examples = COMMAND.findall("".join(EXAMPLE.findall(plain())))
    for command, shown in examples:
        ended = subprocess.run(["bash", "-c", command], cwd=folder, env=variables, stdout=subprocess.PIPE,
                               stderr=subprocess.STDOUT, timeout=SECONDS, check=False, text=True)
        if ended.stdout != shown or ended.returncode != (5 if command.startswith("nullsim diff") else 0):
            return f"{command}: {ended.returncode}, {ended.stdout!r}"
    return None if examples else "there are no examples"


def prose_fault() -> str | None:
    """What is wrong with the sentences of the page, as of other pages. Those of the help are left out."""
    text = EXAMPLE.sub("\n", DERIVED.sub("\n", plain()))
    text = FONT.sub("", BREAK.sub("\n", text)).replace('"', "")
    longest, found = prose.longest_of(text), prose.dialect_of(text)
    if prose.words_in(longest) > prose.SENTENCE_LIMIT:
        return f"{prose.words_in(longest)} words, at most {prose.SENTENCE_LIMIT}: {longest}"
    return f"words of the dialect: {found}" if found else None


def lint_fault(linter: str) -> str | None:
    ended = run([linter, *LINTERS[linter], PAGE], stdout=subprocess.DEVNULL if linter == "groff" else subprocess.PIPE)
    return f"{ended}" if ended.status or ended.out or ended.err else None


def cases(program: Path, folder: str) -> list[tuple[str, Callable[[], str | None]]]:
    """The checks of the man page. A linter that isn't installed is named, and not counted."""
    found: list[tuple[str, Callable[[], str | None]]] = [
        ("the man page and the completions, as the help", lambda: derived_fault(program)),
        ("the texts of pages in their crate, as in page/", page_texts_fault),
        ("the man page, commands and options", lambda: options_fault(program)),
        ("the man page, exit statuses", lambda: statuses_fault(program)),
        ("the man page, version", lambda: version_fault(program)),
        ("the man page, examples", lambda: examples_fault(program, Path(folder, "manual"))),
        ("the man page, sentences", prose_fault),
    ]
    for linter in LINTERS:
        if shutil.which(linter):
            found.append((f"the man page, {linter}", lambda linter=linter: lint_fault(linter)))
        else:
            print(f"faults: the man page, {linter}: not tried, since it isn't installed", flush=True)
    return found
