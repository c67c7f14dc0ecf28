#!/usr/bin/env python3
"""Writes the crate page_texts, whose constants are the texts of pages, from the folder `page/`.

A page is a template there, with its style and its script, which are made of several files, in place of their marks. It is
cut at the mark of its data: the program writes the first text, the data, and the second text.

    page_texts.py            writes the crate's source
    page_texts.py --check    writes nothing, and reports whether the source is another one, with status 1 then
"""
import base64
import hashlib
import re
import sys

import crates
from progress import tell

PAGE = crates.ROOT / "page"
SOURCE = crates.CRATES / "page_texts/src/lib.rt"
# The pages: what the constants are called, the template, and the files of the style and of the script.
PAGES = {
    "WAVES": ("waveforms", "waves.html", ["common.css", "waves.css"], ["common.js", "picture.js", "waves.js"]),
}
MARK = re.compile(r"@(STYLE|SCRIPT)(_HASH)?@")
DATA = "@DATA@"
# What would end a style, a script or a constant.
ENDS = re.compile(r'</(?:style|script)|<!--|"##|[^\n -~]', re.IGNORECASE)


def joined(files: list[str]) -> str:
    text = "".join((PAGE / file).read_text(encoding="utf-8") for file in files)
    if found := ENDS.search(text):
        raise ValueError(f"{files} have {found[0]!r}")
    return text


def hash_of(text: str) -> str:
    """Returns what the policy of a page calls a text that it allows."""
    return "sha256-" + base64.b64encode(hashlib.sha256(text.encode()).digest()).decode()


def texts_of(template: str, styles: list[str], scripts: list[str]) -> tuple[str, str]:
    """Returns what is before the data of a page, and what is after it."""
    parts = {"STYLE": "\n" + joined(styles), "SCRIPT": '\n"use strict";\n' + joined(scripts)}
    page = (PAGE / template).read_text(encoding="utf-8")
    page = MARK.sub(lambda it: hash_of(parts[it[1]]) if it[2] else parts[it[1]], page)
    before, after = page.split(DATA)
    return before, after


def constant(name: str, about: str, text: str) -> str:
    if '"##' in text or not text.isascii():
        raise ValueError(f"{name} can't be a constant")
    return f'\n/// {about}\npub const {name}: &[u8] = br##"{text}"##;\n'


def source() -> str:
    made = "//! The texts of pages. `tools/page_texts.py` writes this file from the folder `page/`.\n#![tactic(auto)]\n"
    for name, (shown, *files) in PAGES.items():
        before, after = texts_of(*files)
        made += constant(f"{name}_HEAD", f"What is before the data of a page of {shown}.", before)
        made += constant(f"{name}_TAIL", "What is after it.", after)
    return made


def main() -> int:
    made, written = source(), SOURCE.read_text(encoding="utf-8") if SOURCE.exists() else ""
    if made == written:
        return 0
    if sys.argv[1:] == ["--check"]:
        tell(f"{SOURCE.relative_to(crates.ROOT)} is another text than page/ makes: python3 tools/page_texts.py writes it")
        return 1
    SOURCE.write_text(made, encoding="utf-8")
    return 0


if __name__ == "__main__":
    sys.exit(main())
