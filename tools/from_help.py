#!/usr/bin/env python3
"""Writes what the man page and the completions say of commands, options and faults, from what a built nullsim prints.

Such a part is between two comments, `begin NAME` and `end NAME`. All else in these files is written by people.

    from_help.py [PROGRAM]            writes these parts, from the program that tools/build.py leaves
    from_help.py --check [PROGRAM]    writes nothing, and reports each part that has another text, with status 1 if any
"""
import re
import sys
import textwrap
from collections import Counter
from collections.abc import Iterable, Iterator
from pathlib import Path

import crates
import helps
from build import PROGRAM
from helps import Help, Option
from progress import tell

MANUAL = crates.ROOT / "man/nullsim.1"
COMPLETIONS = crates.ROOT / "completions/nullsim.bash"
PART = re.compile(r"^(\S+ begin (\w+)\n)(.*?)(?=^\S+ end \2$)", re.MULTILINE | re.DOTALL)
# How long a line is, where that can be chosen. Linters of man pages complain from 80 bytes on.
WIDTH = 78


# ---- the man page

def bold(text: str) -> str:
    return rf"\fB{text}\fR"


def italic(text: str) -> str:
    return rf"\fI{text}\fR"


def literal(text: str) -> str:
    """Returns a text that readers may copy: roff takes a plain hyphen as one that may become another character."""
    return text.replace("\\", r"\e").replace("-", r"\-")


def filled(text: str) -> str:
    """Returns roff text in lines, none of which begins as a request does."""
    lines = textwrap.wrap(text, WIDTH, break_long_words=False, break_on_hyphens=False)
    return "".join(("\\&" if line[0] in ".'" else "") + line + "\n" for line in lines)


def prose(text: str) -> str:
    """Returns a text of the help, with its options in bold."""
    escaped = text.replace("\\", r"\e").replace("->", r"\->")
    return filled(re.sub(r"(?<!\S)--[\w-]+", lambda it: bold(literal(it[0])), escaped))


def usage(line: str) -> str:
    """Returns a usage line: what is typed as it is in bold, and what it stands for in italics."""
    words = re.sub(r"<(\w+)>", r"\1", line)
    return filled(re.sub(r"[A-Z]+|-*[a-z][a-z-]*", lambda it: (italic if it[0].isupper() else bold)(literal(it[0])), words))


def label(option: Option, end: str = "") -> str:
    """Returns an option with its value, as the line of a macro."""
    name = literal(option.long)
    if option.value:
        name = f'.BI {name} " {option.value}"'
    elif option.short:
        name = f'.BR {literal(option.short)} ", " {name}'
    else:
        name = f".BR {name}" if end else f".B {name}"
    return f"{name} {end}".strip() + "\n"


def places(commands: dict[str, Help]) -> Counter[tuple[str, str]]:
    """Returns how often an option has a value and a text. The options of two circuits have those of one."""
    return Counter((option.value, option.text) for it in commands.values() for option in it.options)


def synopsis(program: Help) -> str:
    return ".br\n".join(usage(line) for line in program.usage)


def command(name: str, told: Help, shared: Counter[tuple[str, str]]) -> Iterator[str]:
    """The section of a command. Its options that others have too are only named."""
    yield f".SS {name}\n{usage(told.usage[0])}.PP\n{prose(told.about.rstrip('.') + '.')}"
    for argument, text in told.arguments:
        yield f".TP\n{usage(argument)}{prose(text)}"
    for option in told.options:
        if shared[option.value, option.text] == 1:
            yield f".TP\n{label(option)}{prose(option.text)}"
    common = [option for option in told.options if shared[option.value, option.text] > 1]
    if common:
        common.sort(key=lambda it: bool(it.short))
        yield ".PP\nAlso, as described under OPTIONS:\n"
        yield "".join(label(option, "." if option is common[-1] else ",") for option in common)


def options(commands: dict[str, Help], shared: Counter[tuple[str, str]]) -> Iterator[str]:
    """The options that several commands have, or that a command has for several circuits, each text once."""
    labels: dict[tuple[str, str], dict[str, None]] = {}
    for told in commands.values():
        for option in told.options:
            labels.setdefault((option.value, option.text), {})[label(option)] = None
    for key, names in labels.items():
        if shared[key] > 1:
            yield ".TP\n" + ".TQ\n".join(names) + prose(key[1])


def fault_names(faults: dict[str, list[str]]) -> str:
    return "".join(f'.TP\n.I "\\&{subject}"\n{filled(", ".join(names))}' for subject, names in faults.items())


def of_manual(program: Help, commands: dict[str, Help], faults: dict[str, list[str]]) -> dict[str, str]:
    shared = places(commands)
    return {
        "synopsis": synopsis(program),
        "commands": "".join(part for name, told in commands.items() for part in command(name, told, shared)),
        "options": "".join(options(commands, shared)),
        "faults": fault_names(faults),
    }


# ---- the completions

def word(option: Option) -> str:
    """Returns an option as the completions have it, with the words that it takes, or with what its value is."""
    value = "/".join(option.choices()) or option.value.partition("=")[0]
    return f"{option.long}={value}" if value else option.long


def array(head: str, words: Iterable[str], end: str = ")") -> str:
    """Returns the line that sets an array, and lines that continue it."""
    deeper = " " * (len(head) - len(head.lstrip()) + 4)
    return textwrap.fill(" ".join(words), 120, initial_indent=f"{head}(", subsequent_indent=deeper, break_long_words=False,
                         break_on_hyphens=False) + f"{end}\n"


def of_completions(program: Help, commands: dict[str, Help], faults: dict[str, list[str]]) -> dict[str, str]:
    names = dict.fromkeys(name for some in faults.values() for name in some)
    taken = {"''": [*map(word, program.options), "--version"]}
    taken |= {name: [*map(word, told.options)] for name, told in commands.items()}
    cases = "".join(array(f"        {name}) options=", words, ") ;;") for name, words in taken.items() if words)
    return {"tables": array("_nullsim_commands=", program.commands) + array("_nullsim_faults=", names)
            + f"_nullsim_options() {{\n    case $1 in\n{cases}    esac\n}}\n"}


# ---- the files

def written(text: str, parts: dict[str, str]) -> str:
    """Returns a file's text with these parts, each of which is in it exactly once."""
    if sorted(name for _, name, _ in PART.findall(text)) != sorted(parts):
        raise ValueError(f"the parts are {[*parts]}")
    return PART.sub(lambda it: it[1] + parts[it[2]], text)


def others(text: str, parts: dict[str, str]) -> list[str]:
    """Returns the names of the parts that have another text."""
    there = {name: part for _, name, part in PART.findall(text)}
    return sorted(name for name in parts.keys() | there.keys() if parts.get(name) != there.get(name))


def main() -> int:
    compares = sys.argv[1:2] == ["--check"]
    named = sys.argv[1 + compares:]
    program = Path(named[0] if named else crates.CRATES / PROGRAM / "out" / PROGRAM).absolute()
    if not program.is_file():
        tell(f"{program} isn't built")
        return 2
    told = helps.help_of(program)
    sources = told, {name: helps.help_of(program, name) for name in told.commands}, helps.faults(program)
    status = 0
    for file, parts in ((MANUAL, of_manual(*sources)), (COMPLETIONS, of_completions(*sources))):
        text = file.read_text(encoding="utf-8")
        if not compares:
            file.write_text(written(text, parts), encoding="utf-8")
        elif differ := others(text, parts):
            tell(f"{file.relative_to(crates.ROOT)}: not what the help says: {', '.join(differ)}; run tools/from_help.py")
            status = 1
    return status


if __name__ == "__main__":
    sys.exit(main())
