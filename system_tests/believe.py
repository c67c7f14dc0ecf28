"""What the headline rests on: the definitions under the two clauses of `kernel_runs::laws::isolation`, worked out from the
sources and compared with the page that lists them, `docs/BELIEVE.md`.

A definition is a name of a file `crates/*/specs/*.antt`, or a type that a file `crates/*/src/*.rt` declares. From the
names in the clauses the walk follows imports to each definition's text, then to the names in that, and so on. It ends at
the names of the toolchain's library and crates. A word that may be a definition or a variable counts as the definition,
and a name that leads nowhere is a fault. So the list may have a definition too many, but none is missing.

    believe.py    prints the list, file by file
"""
import re
import sys
from collections.abc import Callable, Iterator
from functools import cache
from pathlib import Path
from typing import NamedTuple

import prose
from programs import CRATES, ROOT

LAWS = CRATES / "kernel_runs" / "src" / "laws.rt"
LAW = re.compile(r"^pub fn isolation\(\)\n(.*?)^\{\}$", re.MULTILINE | re.DOTALL)
PAGE = ROOT / "docs" / "BELIEVE.md"
MOST_LINES = 1200

# The page: its headings of files, its rows, what it counts in all, and the names that it trusts.
FILE = re.compile(r"### `(\S+)`")
ROW = re.compile(r"\| `(\S+)` \| (\d+) \| [^|]+ \|")
TOTALS = re.compile(r"\*\*(\d+) definitions\*\* with \*\*([\d,]+) lines\*\*, in (\d+) files of (\d+) crates")
TRUSTED = re.compile(r"^## What is trusted beside them$.*?^```text\n(.*?)^```$", re.MULTILINE | re.DOTALL)

# Texts of definitions: what is imported, where a definition begins, and its words.
IMPORT = re.compile(r"^ *(?:ghost )?use (\S+?)(?:\.\{([^}\n]*)\}| as (\S+?));?$", re.MULTILINE)
ANY_IMPORT = re.compile(r"^ *(?:ghost )?use (?:Rattle|denote)\.", re.MULTILINE)
HANDED_ON = re.compile(r"^pub use (\S+)$", re.MULTILINE)
HEAD = re.compile(r"^ *(?:(?:abbrev|unfoldable|opaque|pub) )+(?:(record|data) )?([^\s:]+)")
PRIVATE = re.compile(r"^ *(?:(record|data) |(?=[^\s:]+ : ))([^\s:]+)")
FIXITY = re.compile(r"^ *infix")
CONSTRUCTORS = re.compile(r"^  ([^:]+) :")
QUOTED = re.compile(r'"(?:[^"\\]|\\.)*"')
COMMENT = re.compile(r"(?:^|(?<=\s))--.*$", re.MULTILINE)
TOKEN = re.compile(r"\[\]|[^\s(){};,.\[\]]+|[(){};,.\[\]]")

# Sources: the types that they declare, and what those are made of.
RUST_COMMENT = re.compile(r"//.*$|#\[.*\]$", re.MULTILINE)
RUST_IMPORT = re.compile(r"^(?:pub )?use (\w+)::(?:\w+::)*(?:\{([^}]*)\}|(\w+));", re.MULTILINE)
RUST_TYPE = re.compile(r"^(?:pub(?:\(crate\))? )?(?:struct|enum) (\w+)[^{;]*\{.*?^\}", re.MULTILINE | re.DOTALL)
RUST_NAME = re.compile(r"^ +[A-Z]\w*|\w+:|'\w+|\bpub(?:\(crate\))?", re.MULTILINE)
RUST_WORD = re.compile(r"[A-Za-z_]\w*")
RUST_MODEL = re.compile(r"\bimpl\b.* Model for (\w+)")
RUST_OWN = {"bool", "u8", "u32", "u64", "Vec", "Option"}


class Definition(NamedTuple):
    """A definition: its file, its name, its first and last line, its text without comments, and the heads of the
    modules around it."""

    file: str
    name: str
    first: int
    last: int
    text: str
    around: str

    @property
    def lines(self) -> int:
        """How many of its lines are neither empty nor a comment."""
        return sum(bool(line.strip()) for line in self.text.splitlines())


class Trusted(NamedTuple):
    """A name of the toolchain's library, of one of its crates, or of Rust."""

    module: str
    name: str


Meaning = Definition | Trusted


class Unresolved(Exception):
    """A name that leads nowhere."""


# ---- texts of definitions


class Specs(NamedTuple):
    """A text of definitions: what it defines, and the constructors of its data with their data."""

    text: str
    defined: dict[str, Definition]
    constructors: dict[str, str]


class Names(NamedTuple):
    """What a text imports: names with the modules and the names that they have there, and modules by other names."""

    names: dict[str, list[tuple[str, str]]]
    modules: dict[str, str]


def begins_of(lines: list[str]) -> Iterator[tuple[int, str | None, str, bool]]:
    """Where definitions and other things begin: the line, the definition's name, the heads of the modules around it,
    and whether it is data."""
    modules: list[str] = []
    for number, line in enumerate(lines):
        depth = (len(line) - len(line.lstrip())) // 2
        if line.strip():
            del modules[depth:]
        here, head = depth == len(modules), HEAD.match(line) or PRIVATE.match(line)
        if here and line.lstrip().startswith("module "):
            modules.append(line)
            yield number, None, "", False
        elif here and head and head[2] not in ("mod", "use"):
            yield number, head[2], "\n".join(modules), head[1] == "data"
        elif FIXITY.match(line) or line.startswith(("use ", "pub use ", "pub mod ")):
            yield number, None, "", False


@cache
def specs_of(path: Path) -> Specs:
    """What a text defines. A definition extends to where the next thing begins, without the empty lines before that."""
    text = COMMENT.sub("", QUOTED.sub('""', path.read_text(encoding="utf-8")))
    lines, file = text.splitlines(), str(path.relative_to(ROOT))
    begins, specs = [*begins_of(lines), (len(lines), None, "", False)], Specs(text, {}, {})
    for (begin, name, around, is_data), (end, *_) in zip(begins, begins[1:]):
        if name is None:
            continue
        while not lines[end - 1].strip():
            end -= 1
        begin -= begin > 0 and FIXITY.match(lines[begin - 1]) is not None
        if name in specs.defined:
            raise Unresolved(f"{file} defines {name} twice")
        specs.defined[name] = Definition(file, name, begin + 1, end, "\n".join(lines[begin:end]), around)
        for some in filter(None, map(CONSTRUCTORS.match, lines[begin:end] if is_data else [])):
            specs.constructors.update(dict.fromkeys(some[1].split(), name))
    return specs


def path_of(module: str) -> tuple[Path, list[str]]:
    """The file of a module `Rattle.CRATE.specs.NAME`, and what follows its name. A crate may hand on another's."""
    _, crate, _, name, *rest = module.split(".")
    path = CRATES / crate / "specs" / f"{name}.antt"
    if path.exists():
        return path, rest
    others = HANDED_ON.findall((CRATES / crate / "specs" / "Lib.antt").read_text(encoding="utf-8"))
    found = [other for other in others if other.endswith(f".{name}")]
    if len(found) != 1:
        raise Unresolved(f"there is no {module}")
    return path_of(".".join([*found, *rest]))


def meaning_of(module: str, name: str) -> Meaning:
    """What a name in a module means. A variant means its type, and a constructor its data."""
    top, crate, *parts = module.split(".")
    if top != "Rattle" or not (CRATES / crate).is_dir():
        return Trusted(module, name)
    if parts[:2] == ["specs", "declared"]:
        *places, kind = [part for part in parts[2:] if part != "TheVariants"]
        return type_in(CRATES.joinpath(crate, "src", *places).with_suffix(".rt"), kind)
    path, rest = path_of(module)
    specs, name = specs_of(path), rest[0] if rest else name
    if specs.constructors.get(name, name) not in specs.defined:
        raise Unresolved(f"{name} isn't in {module}")
    return specs.defined[specs.constructors.get(name, name)]


def names_in(text: str) -> Names:
    """What a text imports."""
    found, imports = Names({}, {}), IMPORT.findall(text)
    if len(imports) != len(ANY_IMPORT.findall(text)):
        raise Unresolved(f"an import of another kind, beside {imports}")
    for module, names, other in imports:
        if other:
            found.modules[other] = module
        for each in filter(None, map(str.strip, names.split(","))):
            own, _, called = each.partition(" as ")
            found.names.setdefault(called or own, []).append((module, own))
    return found


def words_of(text: str) -> Iterator[tuple[str, str]]:
    """The words of a definition, each with the word before the dot that it follows, if any. Numbers and the names of
    fields are left out."""
    tokens = [*TOKEN.finditer(text)]
    for place, token in enumerate(tokens):
        before = tokens[place - 1][0] if place else ""
        after = tokens[place + 1][0] if place + 1 < len(tokens) else ""
        if token[0] in "(){};,.[" or token[0][0].isdigit() or before in ("{", ";") and after == "=":
            continue
        dotted = before == "." and tokens[place - 1].end() == token.start()
        owner = tokens[place - 2] if dotted and tokens[place - 2].end() == tokens[place - 1].start() else None
        yield token[0], owner[0] if owner else ""


def is_used(name: str, words: set[str]) -> bool:
    """Whether a name is among these words, by each of its parts. What `do` means isn't written."""
    return all(part in words for part in name.split("◌") if part) or name == "◌>>=◌" and "do" in words


def uses_in(text: str, names: Names, specs: Specs) -> Iterator[Meaning]:
    """What the words of a text mean, by what is imported and defined around it."""
    words = [*words_of(text)]
    alone = {word for word, owner in words if not owner}
    yield from (meaning_of(names.modules[owner], word) for word, owner in words if owner in names.modules)
    for name, origins in names.names.items():
        if is_used(name, alone):
            yield from (meaning_of(*origin) for origin in origins)
    yield from (definition for name, definition in specs.defined.items() if is_used(name, alone))
    yield from (specs.defined[data] for name, data in specs.constructors.items() if name in alone)


# ---- types that sources declare


@cache
def sources_of(path: Path) -> list[str]:
    """The sources of the crate that a source is in."""
    folder = CRATES / path.relative_to(CRATES).parts[0] / "src"
    return [source.read_text(encoding="utf-8") for source in sorted(folder.rglob("*.rt"))]


@cache
def types_in(path: Path) -> dict[str, Definition]:
    """The types that a source declares, without their documentation."""
    text, file, found = RUST_COMMENT.sub("", path.read_text(encoding="utf-8")), str(path.relative_to(ROOT)), {}
    for whole in RUST_TYPE.finditer(text):
        first = text.count("\n", 0, whole.start()) + 1
        found[whole[1]] = Definition(file, whole[1], first, first + whole[0].count("\n"), whole[0], "")
    return found


def type_in(path: Path, name: str) -> Definition:
    """The type of this name. It has to be plain: definitions see its values as they are declared."""
    if name not in types_in(path) or any(name in RUST_MODEL.findall(source) for source in sources_of(path)):
        raise Unresolved(f"{path} declares no plain type {name}")
    return types_in(path)[name]


def declared_in(crate: str, name: str) -> Definition:
    """The type of this name that a crate declares."""
    found = [path for path in sorted((CRATES / crate / "src").rglob("*.rt")) if name in types_in(path)]
    if len(found) != 1:
        raise Unresolved(f"{crate} declares {len(found)} types {name}")
    return type_in(found[0], name)


def parts_of(definition: Definition) -> Iterator[Meaning]:
    """The types of which a declared type is made."""
    path = ROOT / definition.file
    imports = RUST_IMPORT.findall(path.read_text(encoding="utf-8"))
    crates = {name.strip(): crate for crate, some, one in imports for name in (some or one).split(",")}
    for word in RUST_WORD.findall(RUST_NAME.sub("", definition.text.partition("{")[2])):
        if word in types_in(path):
            yield types_in(path)[word]
        elif word in RUST_OWN:
            yield Trusted("Rust", word)
        elif word not in crates:
            raise Unresolved(f"{word} in {definition.name} of {definition.file}")
        elif (CRATES / crates[word]).is_dir() or crates[word] == "crate":
            yield declared_in(definition.file.split("/")[1] if crates[word] == "crate" else crates[word], word)
        else:
            yield Trusted(crates[word], word)


# ---- the closure


@cache
def uses_of(definition: Definition) -> frozenset[Meaning]:
    """What a definition uses."""
    if definition.file.endswith(".rt"):
        return frozenset(parts_of(definition)) - {definition}
    specs = specs_of(ROOT / definition.file)
    text = f"{definition.around}\n{definition.text}"
    return frozenset(uses_in(text, names_in(specs.text), specs)) - {definition}


def closure() -> set[Meaning]:
    """What the clauses of the law rest on."""
    laws = LAWS.read_text(encoding="utf-8")
    found, left = set(), [*uses_in(LAW.findall(laws)[0], names_in(laws), Specs("", {}, {}))]
    while left:
        meaning = left.pop()
        if meaning not in found:
            found.add(meaning)
            left += uses_of(meaning) if isinstance(meaning, Definition) else []
    return found


def definitions() -> list[Definition]:
    return sorted(one for one in closure() if isinstance(one, Definition))


def trusted() -> list[Trusted]:
    return sorted(one for one in closure() if isinstance(one, Trusted))


# ---- the page


class Row(NamedTuple):
    """A row of the page: the file above it, the name, and the number of its lines."""

    file: str
    name: str
    lines: int


def rows_of(page: str) -> list[Row]:
    found, file = [], ""
    for line in page.splitlines():
        if line.startswith("#"):
            heading = FILE.fullmatch(line)
            file = heading[1] if heading else ""
        elif row := ROW.fullmatch(line):
            found.append(Row(file, row[1], int(row[2])))
    return found


def rows_fault(page: str) -> str | None:
    """What is wrong with the rows: each definition has one, below its file, with the number of its lines."""
    listed, found = rows_of(page), [Row(one.file, one.name, one.lines) for one in definitions()]
    missing, needless = sorted({*found} - {*listed}), sorted({*listed} - {*found})
    if missing or needless:
        return f"missing: {[*map(tuple, missing)]}; too many: {[*map(tuple, needless)]}"
    return f"{len(listed)} rows for {len(found)} definitions" if len(listed) != len(found) else None


def order_fault(page: str) -> str | None:
    """What is wrong with the order of the rows: each comes after those that it uses."""
    before: set[tuple[str, str]] = set()
    found = {(one.file, one.name): one for one in definitions()}
    for row in rows_of(page):
        before.add((row.file, row.name))
        for used in uses_of(found[row.file, row.name]) if (row.file, row.name) in found else ():
            if isinstance(used, Definition) and (used.file, used.name) not in before:
                return f"{row.name} of {row.file} comes before {used.name} of {used.file}"
    return None


def totals_fault(page: str) -> str | None:
    """What is wrong with what the page counts, or with its sum."""
    found, lines = definitions(), sum(one.lines for one in definitions())
    files = {one.file for one in found}
    counted = (str(len(found)), f"{lines:,}", str(len(files)), str(len({file.split("/")[1] for file in files})))
    if TOTALS.findall(page) != [counted]:
        return f"the page counts {TOTALS.findall(page)}, and the sources {counted}"
    return f"{lines} lines, at most {MOST_LINES}" if lines > MOST_LINES else None


def trusted_fault(page: str) -> str | None:
    """What is wrong with the names that the page trusts: those of a module are after it, in lines that are set in."""
    listed, module = set(), ""
    for line in "".join(TRUSTED.findall(page)).splitlines():
        module, names = (module, line.split()) if line.startswith(" ") else (line.split()[0], line.split()[1:])
        listed |= {(module, name) for name in names}
    found = {(one.module.removeprefix("Rattle."), one.name) for one in trusted()}
    return f"missing: {sorted(found - listed)}; too many: {sorted(listed - found)}" if listed != found else None


def page_fault(fault_of: Callable[[str], str | None]) -> str | None:
    try:
        return fault_of(prose.text_of(PAGE))
    except Unresolved as name:
        return f"the sources can't be followed: {name}"


def cases() -> list[tuple[str, Callable[[], str | None]]]:
    """The checks of the page."""
    checks = {"definitions": rows_fault, "their order": order_fault, "their number": totals_fault, "names": trusted_fault}
    return [(f"{prose.name_of(PAGE)}, {name}", lambda it=check: page_fault(it)) for name, check in checks.items()]


def main() -> int:
    for one in definitions():
        print(f"{one.file}:{one.first}-{one.last}: {one.name}, {one.lines} lines")
    for one in trusted():
        print(f"trusted: {one.module} {one.name}")
    found = definitions()
    print(f"{len(found)} definitions in {len({one.file for one in found})} files, {sum(one.lines for one in found)} lines")
    return 0


if __name__ == "__main__":
    sys.exit(main())
