"""How the pages read: few words of the old dialect, no long sentence, no dead link.

Only prose counts: fenced blocks are left out, and a piece of inline code is one word. Each paragraph, list item, heading
and table cell is read by itself.
"""
import re
from collections.abc import Callable, Iterator
from pathlib import Path

from programs import ROOT

# How many words of the dialect all revised pages may have together, and how long their sentences may be.
DIALECT_LIMIT = 36
SENTENCE_LIMIT = 40
SENTENCE_LIMITS = {"README.md": 30}

# Pages that aren't revised yet. Neither their words nor their sentences are counted; their links are followed.
UNREVISED: set[str] = set()

# What a reader from elsewhere stumbles over, and what to write instead.
INSTEAD = {
    r"wants?(?! to)|wanting|wanted": "need; out of memory, if an allocation fails",
    r"growths? (?:was|were|is|are) refused": "an allocation failed",
    r"tells?|told|telling": "report, print, say; receive",
    r"stands?|stood|standing": "is",
    r"behind": "after",
    r"reckon(?:s|ed|ing)?": "compute, evaluate",
    r"hangs? on|hung on|hanging on": "depend on",
    r"chosen otherwise": "what differs",
    r"dear|dearly": "expensive",
    r"leads? farther|goes on|go on|going on|went on": "advance, continue",
    r"comes? out as|comes? to": "become, be reported as",
    r"for who|who builds|who changes|who reads": "for contributors, authors, readers",
    r"where there (?:is|are) (?:one|none)": "if any; otherwise",
    r"and no more|and nothing else": "exactly, only",
    r"as it is|as they stand|as it stands": "unchanged",
    r"owner's matter": "the caller does that",
    r"words of (?:a|the) command line|mistakes? in the words|wrong words": "arguments; a usage error",
    r"a first part": "a prefix",
    r"by hand": "worked out independently",
    r"so many|however many": "the number of, any number of",
}
DIALECT = re.compile(rf"\b(?:{'|'.join(INSTEAD)})\b", re.IGNORECASE)

FENCED = re.compile(r"^( *)```.*?^\1```$", re.MULTILINE | re.DOTALL)
CODE = re.compile(r"`[^`\n]+`")
LINK = re.compile(r"!?\[([^\]]*)\]\(([^)\s]+)\)")
ITEM = re.compile(r"^ *(?:[-*]|\d+\.) +")
HEADING = re.compile(r"^#+ +(.*)$", re.MULTILINE)
SENTENCE_END = re.compile(r"(?<![.])[.!?][\"')*]*\s+")

# A file of the repository, as pages cite it in inline code. A part in capitals alone is a placeholder.
CITED = re.compile(r"`((?:\.ci|benchmarks|cases|completions|crates|docs|examples|man|mutants|system_tests|tools)/[\w./-]*|[A-Z]+\.md)`")
PLACEHOLDER = re.compile(r"(?:^|/)[A-Z]+(?:\.(?!md)\w+)?(?:/|$)")


def pages() -> list[Path]:
    """All pages, those at the top first."""
    folders = (ROOT, ROOT / "docs", ROOT / "examples", ROOT / "benchmarks")
    return [page for folder in folders for page in sorted(folder.glob("*.md"))]


def name_of(page: Path) -> str:
    return str(page.relative_to(ROOT))


def text_of(page: Path) -> str:
    return page.read_text(encoding="utf-8")


def blocks_of(text: str) -> Iterator[str]:
    """The prose of a page: its paragraphs, list items, headings and table cells, each on one line."""
    plain = LINK.sub(lambda link: link[1], CODE.sub("code", FENCED.sub("", text)))
    block: list[str] = []
    for line in [*plain.splitlines(), ""]:
        alone = not line.strip() or line.startswith(("#", "|"))
        if block and (alone or ITEM.match(line)):
            yield " ".join(block)
            block = []
        if alone:
            yield from (cell.strip("# ") for cell in line.replace("\\|", "").split("|") if cell.strip("# -"))
        else:
            block.append(ITEM.sub("", line).strip())


def sentences_of(text: str) -> Iterator[str]:
    for block in blocks_of(text):
        yield from SENTENCE_END.split(block)


def words_in(sentence: str) -> int:
    return sum(any(letter.isalnum() for letter in word) for word in sentence.split())


def longest_of(text: str) -> str:
    """The longest sentence of a page."""
    return max(sentences_of(text), key=words_in, default="")


def dialect_of(text: str) -> list[str]:
    return [word.lower() for block in blocks_of(text) for word in DIALECT.findall(block)]


def sentence_fault(page: Path) -> str | None:
    limit = SENTENCE_LIMITS.get(name_of(page), SENTENCE_LIMIT)
    longest = longest_of(text_of(page))
    return None if words_in(longest) <= limit else f"{words_in(longest)} words, at most {limit}: {longest}"


def dialect_fault(revised: list[Path]) -> str | None:
    found = {name_of(page): dialect_of(text_of(page)) for page in revised}
    count = sum(len(words) for words in found.values())
    return None if count <= DIALECT_LIMIT else f"{count} words, at most {DIALECT_LIMIT}: {found}"


def anchors_of(text: str) -> set[str]:
    """The anchors of a page's headings, as GitHub makes them."""
    found: set[str] = set()
    for heading in HEADING.findall(FENCED.sub("", text)):
        anchor = re.sub(r"[^\w\- ]", "", LINK.sub(lambda link: link[1], heading).lower()).replace(" ", "-")
        count = sum(anchor == one or re.fullmatch(rf"{re.escape(anchor)}-\d+", one) is not None for one in found)
        found.add(f"{anchor}-{count}" if count else anchor)
    return found


def is_dead(page: Path, target: str) -> bool:
    """Whether a link of a page leads to no file, or to no heading of one. Links to other hosts aren't followed."""
    if "://" in target or target.startswith("mailto:"):
        return False
    path, _, anchor = target.partition("#")
    file = page.parent / path if path else page
    return not file.exists() or bool(anchor) and anchor not in anchors_of(text_of(file))


def is_missing(cited: str) -> bool:
    """Whether a file that a page cites isn't there. What a build leaves in `out/` needn't be."""
    return not PLACEHOLDER.search(cited) and "/out/" not in cited and not (ROOT / cited).exists()


def link_fault(page: Path) -> str | None:
    text = FENCED.sub("", text_of(page))
    dead = [target for _, target in LINK.findall(CODE.sub("code", text)) if is_dead(page, target)]
    missing = [cited for cited in CITED.findall(text) if is_missing(cited)]
    return f"dead links: {', '.join(dead + missing)}" if dead or missing else None


def cases() -> list[tuple[str, Callable[[], str | None]]]:
    """The checks of all pages."""
    revised = [page for page in pages() if name_of(page) not in UNREVISED]
    found: list[tuple[str, Callable[[], str | None]]] = [
        ("words of the dialect in the pages", lambda: dialect_fault(revised)),
    ]
    found += [(f"{name_of(page)}, sentences", lambda page=page: sentence_fault(page)) for page in revised]
    found += [(f"{name_of(page)}, links", lambda page=page: link_fault(page)) for page in pages()]
    return found
