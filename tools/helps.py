"""The help of a built nullsim, taken apart: its usage, commands, arguments and options, and the names of its faults."""
import re
import subprocess
from pathlib import Path
from typing import NamedTuple

# The lines of a help that begin an entry. The lines after one, up to the next, continue its text.
COMMAND = re.compile(r" {2}(\w+) +(.*)")
ARGUMENT = re.compile(r" {2}([<\[]\w+[>\]](?:\.{3})?)(?: {2,}(.*))?")
OPTION = re.compile(r" {2}(?:(-\w), | {4})(--[\w-]+)(?: <(\S+)>)?(?: {2,}(.*))?")
# How the text of an option lists the only values that it takes.
CHOICES = re.compile(r": ([a-z]+(?:, [a-z]+)*) or ([a-z]+)(?: \[|$)")


class Option(NamedTuple):
    short: str
    long: str
    value: str
    text: str

    def choices(self) -> list[str]:
        """Returns the values of an option that takes only a few words."""
        listed = CHOICES.search(self.text)
        return [*listed[1].split(", "), listed[2]] if listed else []


class Help(NamedTuple):
    about: str
    usage: list[str]
    commands: list[str]
    arguments: list[tuple[str, str]]
    options: list[Option]


def entries(lines: list[str], form: re.Pattern) -> list[list[str]]:
    """Returns the parts of each entry, the last of which is its text."""
    found: list[list[str]] = []
    for line in lines:
        if entry := form.fullmatch(line):
            found.append([part or "" for part in entry.groups()])
        else:
            found[-1][-1] = f"{found[-1][-1]} {line.strip()}".strip()
    return found


def parsed(text: str) -> Help:
    about, *others = (part.splitlines() for part in text.strip("\n").split("\n\n"))
    headed = {lines[0].partition(":")[0]: lines for lines in others}
    usage = [line.removeprefix("Usage:").strip() for line in headed["Usage"]]
    commands = [name for name, _ in entries(headed.get("Commands", [""])[1:], COMMAND)]
    arguments = [(name, text) for name, text in entries(headed.get("Arguments", [""])[1:], ARGUMENT)]
    options = [Option(*parts) for parts in entries(headed["Options"][1:], OPTION)]
    return Help(" ".join(about), usage, commands, arguments, options)


def printed(program: Path, *words: str) -> str:
    return subprocess.run([program, *words], stdin=subprocess.DEVNULL, capture_output=True, check=True, text=True).stdout


def help_of(program: Path, *words: str) -> Help:
    """Returns the help of nullsim or of a command. That of `help` can't be printed."""
    if words == ("help",):
        return Help("Prints the help of nullsim or of a command.", ["nullsim help [COMMAND]"], [], [], [])
    return parsed(printed(program, *words, "--help"))


def faults(program: Path) -> dict[str, list[str]]:
    """Returns the names of the faults, by what they are of."""
    lines = printed(program, "explain").splitlines()
    return {subject: names.split() for subject, _, names in (line.partition(": ") for line in lines)}
