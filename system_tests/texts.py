"""Texts that are cut off, changed at random or spliced: each is refused with a line of its own, or runs."""
import os
import random
import re
from concurrent.futures import ThreadPoolExecutor
from pathlib import Path
from typing import Callable, Iterator

from programs import EXAMPLES, Ended, run

INVERTER = b"%nullsim 5\n%bench\nINPUT(a)\nOUTPUT(y)\ny = NOT(a)\n%stimuli\n0 a 0\n3 a 1\n"
# All four sections of a deck.
WHOLE = INVERTER + b"%delays\ntiming version 2\ndelay y 2\nwire y 0 1\n%schedule\nadvance a\ndeliver y 0\nadvance y\n"

INVERTER_DUMP = (
    b"$version nullsim 1 $end\n$timescale 1 ns $end\n$scope module top $end\n$var wire 1 ! a $end\n"
    b"$var wire 1 \" y $end\n$upscope $end\n$enddefinitions $end\n#0\n$dumpvars\n"
)
DRIVEN = INVERTER_DUMP + b"0!\nx\"\n$end\n#1\n1\"\n#3\n1!\n#4\n0\"\n#5\n"
UNDRIVEN = INVERTER_DUMP + b"x!\nx\"\n$end\n#5\n"

# What the inverter's deck is answered with when it is cut off after so many bytes.
CUTS = {
    0: b"deck:1: BadDeck\n",
    8: b"deck:1: BadDeck\n",
    9: b"deck:1: BadDeck\n",
    10: b"bench:0: NoNets\n",
    14: b"deck:2: BadDeck\n",
    17: b"bench:0: NoNets\n",
    24: b"bench:1: BadLine\n",
    36: b"bench:2: Undefined\n",
    47: UNDRIVEN,
    52: b"bench:4: BadLine\n",
    56: UNDRIVEN,
    58: b"stimuli:1: BadLine\n",
    68: DRIVEN,
    69: DRIVEN,
}

FAULT = re.compile(rb"([^\n:]+):(\d+): \w+\n")


def wrong_end(ended: Ended, lines: dict[bytes, int]) -> str | None:
    """What is wrong with a run that has to be refused in one line, at a line of its texts, or to succeed."""
    if ended.status == 0:
        return None if ended.out and not ended.err else f"status 0, {ended.err!r}"
    told = FAULT.fullmatch(ended.err)
    if ended.status != 1 or ended.out or not told:
        return f"status {ended.status}, {ended.err!r}"
    if told[1] not in lines or int(told[2]) > lines[told[1]]:
        return f"no line of the text: {ended.err!r}"
    return None


def lines_of(text: bytes) -> int:
    """How many lines a text has; one that is empty has none, and yet a first one."""
    return max(1, text.count(b"\n") + (not text.endswith(b"\n")))


def deck_lines(deck: bytes) -> dict[bytes, int]:
    """Whatever its sections, none has more lines than the deck."""
    return dict.fromkeys((b"deck", b"bench", b"delays", b"stimuli", b"schedule"), lines_of(deck))


def cut_inverter(program: Path) -> str | None:
    for bytes_left in range(len(INVERTER) + 1):
        deck = INVERTER[:bytes_left]
        ended = run([program], input=deck)
        wanted = CUTS.get(bytes_left)
        if wanted and wanted != (ended.err if ended.status else ended.out):
            return f"after {bytes_left} bytes: {ended}"
        fault = wrong_end(ended, deck_lines(deck))
        if fault:
            return f"after {bytes_left} bytes: {fault}"
    return None


def cut_deck(program: Path, deck: bytes) -> str | None:
    for bytes_left in range(len(deck) + 1):
        fault = wrong_end(run([program], input=deck[:bytes_left]), deck_lines(deck[:bytes_left]))
        if fault:
            return f"after {bytes_left} bytes: {fault}"
    return None


def cut_file(program: Path, folder: str, name: str, option: str, words: list) -> str | None:
    """A file of a run, cut off at each of its bytes. Where the netlist is cut, other texts may miss a net."""
    text = (EXAMPLES / name).read_bytes()
    cut = Path(folder, f"cut-{name}")
    others = {name.encode(): lines_of((EXAMPLES / name).read_bytes()) for name in words if (EXAMPLES / name).is_file()}
    for bytes_left in range(len(text) + 1):
        cut.write_bytes(text[:bytes_left])
        lines = {str(cut).encode(): lines_of(text[:bytes_left]), **others}
        fault = wrong_end(run([program, *words, option, cut]), lines)
        if fault:
            return f"after {bytes_left} bytes: {fault}"
    return None


# ---- at random

def examples_of(kind: str) -> dict[str, bytes]:
    """All examples of a kind, by their names."""
    return {file.stem: file.read_bytes() for file in sorted(EXAMPLES.glob(f"*.{kind}"))}


# The examples that random texts are made of, by what they are.
SOURCES = {kind: examples_of(kind) for kind in ("bench", "delays", "stimuli")}


def change_byte(text: bytes, draw: random.Random) -> bytes:
    """A byte that is changed, dropped or doubled, or one more."""
    at = draw.randrange(len(text) + 1)
    byte = bytes([draw.choice(text or b"\n") if draw.random() < 0.7 else draw.randrange(256)])
    return draw.choice((
        text[:at] + byte + text[at + 1:],
        text[:at] + text[at + 1:],
        text[:at] + text[at:at + 1] + text[at:],
        text[:at] + byte + text[at:],
    ))


def change_lines(text: bytes, draw: random.Random) -> bytes:
    """Lines that are swapped, dropped, doubled, cut or joined."""
    lines = text.split(b"\n")
    one, other = draw.randrange(len(lines)), draw.randrange(len(lines))
    match draw.randrange(5):
        case 0:
            lines[one], lines[other] = lines[other], lines[one]
        case 1:
            del lines[one]
        case 2:
            lines.insert(other, lines[one])
        case 3:
            lines[one] = lines[one][: draw.randrange(len(lines[one]) + 1)]
        case _:
            lines[one] += lines.pop(other) if one < other else b" "
    return b"\n".join(lines)


def spliced(text: bytes, others: list[bytes], draw: random.Random) -> bytes:
    """The beginning of one text and the end of another."""
    other = draw.choice(others)
    return text[: draw.randrange(len(text) + 1)] + other[draw.randrange(len(other) + 1):]


def changed(text: bytes, others: list[bytes], draw: random.Random) -> bytes:
    """Mostly the text as it is, else with some changes or the end of another one."""
    for _ in range(draw.choice((0, 0, 0, 1, 1, 2, 4))):
        text = draw.choice((change_byte, change_byte, change_lines))(text, draw)
    return spliced(text, others, draw) if draw.random() < 0.1 else text


def wrong_check(ended: Ended, lines: dict[bytes, int]) -> str | None:
    """What is wrong with a check: where it is not refused, both engines have to agree on each net."""
    fault = wrong_end(ended, lines)
    if fault or ended.status:
        return fault
    same = re.fullmatch(rb"nets (\d+)\npins \d+\nsame (\d+)\n", ended.out)
    return None if same and same[1] == same[2] else f"the engines differ: {ended.out!r}"


def at_random(program: Path, folder: str, seed: int) -> tuple[bool, str | None]:
    """A run of random texts: whether it was accepted, and what is wrong with it."""
    draw = random.Random(seed)
    words, lines = [], {}
    name = draw.choice(list(SOURCES["bench"]))
    for kind, examples in SOURCES.items():
        file = Path(folder, f"random-{seed}.{kind}")
        # An example may have no text of this kind.
        text = changed(examples.get(name, b""), list(examples.values()), draw)
        file.write_bytes(text)
        words += [f"--{kind}", file]
        lines[str(file).encode()] = lines_of(text)
    ended = run([program, "check", *words, "--horizon", str(draw.choice((0, 1, 7, 40)))])
    for kind in SOURCES:
        Path(folder, f"random-{seed}.{kind}").unlink()
    return ended.status == 0, wrong_check(ended, lines)


def deck_at_random(program: Path, seed: int) -> tuple[bool, str | None]:
    """A run of a random deck: whether it was accepted, and what is wrong with it."""
    draw = random.Random(seed)
    decks = [*examples_of("deck").values(), WHOLE]
    deck = changed(draw.choice(decks), decks, draw)
    ended = run([program], input=deck)
    return ended.status == 0, wrong_end(ended, deck_lines(deck))


def some_at_random(what: str, one: Callable[[int], tuple[bool, str | None]], seeds: range) -> str | None:
    """Many of them have to be accepted, so that the engines are compared, and many refused."""
    with ThreadPoolExecutor(os.cpu_count()) as pool:
        answers = list(pool.map(one, seeds))
    accepted = sum(fine for fine, _fault in answers)
    print(f"faults: of {len(seeds)} {what} changed at random {accepted} were accepted", flush=True)
    for seed, (_fine, fault) in zip(seeds, answers):
        if fault:
            return f"seed {seed}: {fault}"
    return None if len(seeds) < 10 * accepted < 9 * len(seeds) else f"{accepted} were accepted"


def cases(program: Path, folder: str, seeds: range) -> Iterator[tuple[str, Callable[[], str | None]]]:
    """All runs, each with its name."""
    s27 = "run --horizon 35 --bench s27.bench --stimuli s27.stimuli".split()
    yield "the inverter's deck, cut off at each byte", lambda: cut_inverter(program)
    yield "a deck of four sections, cut off at each byte", lambda: cut_deck(program, WHOLE)
    yield "a netlist, cut off at each byte", lambda: cut_file(program, folder, "s27.bench", "--bench", [*s27[:3], *s27[5:]])
    yield "stimuli, cut off at each byte", lambda: cut_file(program, folder, "s27.stimuli", "--stimuli", s27[:5])
    yield "circuits changed at random", lambda: some_at_random(
        "circuits", lambda seed: at_random(program, folder, seed), seeds)
    yield "decks changed at random", lambda: some_at_random("decks", lambda seed: deck_at_random(program, seed), seeds)
