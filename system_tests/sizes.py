"""Texts and circuits as large as they may be, and numbers longer than any machine's. Each run has a small
stack, since no call goes as deep as a circuit, and ends in time."""
import resource
from pathlib import Path
from typing import Callable, Iterator

from programs import Ended, run

LONGEST = 16_777_216
# The stack of a run, in bytes.
SMALL_STACK = 256 * 1024

NINES = "9" * 100
INVERTER = b"INPUT(a)\nOUTPUT(y)\ny = NOT(a)\n"


def with_small_stack() -> None:
    resource.setrlimit(resource.RLIMIT_STACK, (SMALL_STACK, SMALL_STACK))


class Texts:
    """Files in a folder, and runs of the program over them."""

    def __init__(self, program: Path, folder: str) -> None:
        self.program, self.folder = program, folder

    def file(self, name: str, text: bytes) -> Path:
        path = Path(self.folder, name)
        path.write_bytes(text)
        return path

    def over(self, command: str, words: list, **texts: bytes) -> Ended:
        """A run whose texts are files, called by their kinds."""
        for kind, text in texts.items():
            words = [*words, f"--{kind}", self.file(f"large.{kind}", text)]
        return run([self.program, *command.split(), *words], preexec_fn=with_small_stack)


def differs(ended: Ended, wanted: Ended) -> str | None:
    if ended == wanted:
        return None
    return f"status {ended.status}, {ended.err[:200]!r}, {len(ended.out)} bytes: {ended.out[-200:]!r}"


def refused(ended: Ended, name: str) -> str | None:
    """What is wrong where this fault is wanted, at any file and line."""
    told = ended.err.decode(errors="replace")
    right = ended.status == 1 and not ended.out and told.endswith(f": {name}\n") and told.count("\n") == 1
    return None if right else f"status {ended.status}, {told[:200]!r}"


# ---- numbers

def long_numbers(texts: Texts, digits: str) -> str | None:
    """A number of so many digits in each place where one may stand."""
    number = digits.encode()
    faults = [
        (run([texts.program], input=b"%nullsim " + number + b"\n%bench\n" + INVERTER), "BadHorizon"),
        (texts.over("run --horizon 5", [], bench=INVERTER, stimuli=number + b" a 1\n"), "TickTooLarge"),
        (texts.over("run --horizon 5", [], bench=INVERTER, delays=b"y " + number), "BadTicks"),
        (texts.over("run --horizon 5", [], bench=INVERTER, delays=b"timing version 2\nwire y 0 " + number), "BadTicks"),
        (texts.over("run --horizon 5", [], bench=INVERTER, delays=b"timing version 2\nwire y " + number + b" 0"), "BadPin"),
        (texts.over("run --horizon 5", [], bench=b"q = DFF(q)", delays=b"timing version 2\nclock q " + number + b" 0"), "BadPeriod"),
        (texts.over("run --horizon 5", [], bench=b"q = DFF(q)", delays=b"timing version 2\nclock q 9 " + number), "BadPhase"),
        (texts.over("run --horizon 5", [], bench=INVERTER, schedule=b"deliver y " + number), "BadPin"),
    ]
    return next((fault for ended, name in faults if (fault := refused(ended, name))), None)


# ---- counts

def counted(events: int, changes: int, nulls: int, rounds: int) -> bytes:
    return f"events {events} changes {changes} nulls {nulls} rounds {rounds}\n".encode()


def most_picks(texts: Texts) -> str | None:
    ended = texts.over("run --horizon 5 --counts --picks 10000000", [], bench=INVERTER)
    if ended.status or not ended.err.startswith(b"events 1000"):
        return f"{ended}"
    return refused(texts.over("run --horizon 5 --picks 10000001", [], bench=INVERTER), "TooManyEvents")


def idle_events(texts: Texts) -> str | None:
    """A million events that change nothing but their count, and the one that did before them."""
    driven = b"0 a 0\n3 a 1\n"
    plain = texts.over("run --horizon 5 --counts", [], bench=INVERTER, stimuli=driven)
    idle = b"advance y\n" * 1_000_001
    ended = texts.over("run --horizon 5 --counts", [], bench=INVERTER, stimuli=driven, schedule=idle)
    return differs(ended, Ended(0, plain.out, counted(1_000_008, 4, 3, 2)))


# ---- depth and width

def long_chain(texts: Texts) -> str | None:
    """100,000 nets in a chain."""
    bench = b"INPUT(n0)\n" + b"".join(b"n%d = NOT(n%d)\n" % (net, net - 1) for net in range(1, 100_000))
    checked = texts.over("check --horizon 3", [], bench=bench, stimuli=b"0 n0 1\n")
    fault = differs(checked, Ended(0, b"nets 100000\npins 99999\nsame 100000\n", b""))
    cone = texts.over("cone", ["n99999"], bench=bench)
    fault = fault or differs(cone, Ended(0, bench + b"OUTPUT(n99999)\n", b""))
    dumped = texts.over("run --horizon 3", [], bench=bench, stimuli=b"0 n0 1\n").out
    first, rest = b"$dumpvars\n1!\nx\"\nx#\nx$\nx%\n", b"$end\n#1\n0\"\n#2\n1#\n#3\n0$\n"
    return fault or (None if first in dumped and dumped.endswith(rest) else f"{dumped[-100:]!r}")


def wide_run(texts: Texts) -> str | None:
    """50,000 inverters over ten million ticks: the plain engine would reckon 10^12 values."""
    bench = b"".join(b"INPUT(a%d)\ny%d = NOT(a%d)\n" % (net, net, net) for net in range(50_000))
    stimuli = b"0 a0 0\n"
    ended = texts.over("run --horizon 10000000 --counts", [], bench=bench, stimuli=stimuli)
    if ended.status or ended.err != counted(250_001, 2, 150_000, 2) or not ended.out.endswith(b"$end\n#1\n1\"\n#10000000\n"):
        return differs(ended, Ended(0, b"", counted(250_001, 2, 150_000, 2)))
    sides = {"first": bench, "first-stimuli": stimuli, "second": bench, "second-stimuli": stimuli}
    twin = texts.over("twin --net y0 --horizon 10000000", [], **sides)
    return differs(twin, Ended(0, b"agree yes\nfirst 1 1\nsecond 1 1\n", b""))


def same_nets(texts: Texts, bench: bytes, stimuli: bytes, horizon: int, nets: int, pins: int) -> str | None:
    ended = texts.over(f"check --horizon {horizon}", [], bench=bench, stimuli=stimuli)
    return differs(ended, Ended(0, b"nets %d\npins %d\nsame %d\n" % (nets, pins, nets), b""))


def one_net_at_every_pin(texts: Texts) -> str | None:
    """A gate of 1,024 pins, and a net that feeds 1,000,000 of them: as many as there may be."""
    gate = b"y%d = AND(" + b", ".join([b"a"] * 1024) + b")\n"
    one = same_nets(texts, b"INPUT(a)\n" + gate % 0, b"0 a 1\n", 40, 2, 1024)
    bench = b"INPUT(a)\n" + b"".join(gate % net for net in range(976)) + b"z = AND(" + b", ".join([b"a"] * 576) + b")\n"
    return one or same_nets(texts, bench, b"0 a 1\n1 a 0\n", 3, 978, 1_000_000)


def ring(texts: Texts) -> str | None:
    """A ring of 100,000 gates."""
    gates = b"".join(b"n%d = BUF(n%d)\n" % (net, net - 1) for net in range(2, 100_000))
    bench = b"INPUT(a)\nn1 = AND(a, n99999)\n" + gates
    return same_nets(texts, bench, b"0 a 0\n2 a 1\n", 4, 100_000, 100_000)


def busy_xor(texts: Texts) -> str | None:
    """An XOR of 1,024 inputs that all change at each of 1,000 ticks: an even number of them, so it never does."""
    names = [b"a%d" % net for net in range(1024)]
    bench = b"".join(b"INPUT(%s)\n" % name for name in names) + b"OUTPUT(y)\ny = XOR(" + b", ".join(names) + b")\n"
    stimuli = b"".join(b"%d %s %d\n" % (tick, name, tick % 2) for tick in range(1000) for name in names)
    ended = texts.over("run --horizon 1000 --show outputs", [], bench=bench, stimuli=stimuli)
    right = ended.status == 0 and ended.out.endswith(b"x!\n$end\n#1\n0!\n#1000\n")
    return None if right else differs(ended, Ended(0, b"", b""))


# ---- texts at the limit

def filled(line: bytes) -> bytes:
    """A text of as many bytes as there may be, of such lines."""
    return (line * (LONGEST // len(line) + 1))[:LONGEST]


def longest_texts(texts: Texts) -> str | None:
    """16 MiB of each text."""
    runs = [
        ("NoNets", {"bench": filled(b"\n")}),
        ("NoNets", {"bench": filled(b"#")}),
        ("BadLine", {"bench": filled(b"a")}),
        ("NameTooLong", {"bench": b"INPUT(" + filled(b"a")[:-7] + b")"}),
        ("TooLong", {"bench": filled(b"\n") + b"\n"}),
        ("BadLine", {"bench": INVERTER, "delays": filled(b"a")}),
        ("UnknownNet", {"bench": INVERTER, "delays": b"a" * (LONGEST - 2) + b" 1"}),
        ("TooLong", {"bench": INVERTER, "delays": filled(b"#") + b"#"}),
        ("BadLine", {"bench": INVERTER, "stimuli": filled(b"a ")}),
        ("TooLong", {"bench": INVERTER, "stimuli": filled(b"\n") + b"\n"}),
        ("BadLine", {"bench": INVERTER, "schedule": filled(b"\t\x0b")}),
        ("TooLong", {"bench": INVERTER, "schedule": filled(b"\n") + b"\n"}),
    ]
    for name, given in runs:
        fault = refused(texts.over("run --horizon 5", [], **given), name)
        if fault:
            return f"{name}: {fault}"
    for kind in ("delays", "stimuli", "schedule"):
        for line in (b"\n", b"#", b" "):
            ended = texts.over("run --horizon 5", [], bench=INVERTER, **{kind: filled(line)})
            if ended.status:
                return f"{kind}: {ended.err!r}"
    return None


def most_lines(texts: Texts) -> str | None:
    """As many lines that say something as a text of this length may have."""
    outputs = b"INPUT(a)\n" + b"OUTPUT(a)\n" * ((LONGEST - 9) // 10)
    ended = texts.over("run --horizon 0", [], bench=outputs)
    if ended.status:
        return f"{ended.err!r}"
    changes = b"".join(b"%d a %d\n" % (tick, tick % 2) for tick in range(1_300_000))
    ended = texts.over("run --horizon 0", [], bench=b"INPUT(a)\n", stimuli=changes)
    if ended.status:
        return f"{ended.err!r}"
    delays = filled(b"#y 3\n")
    ended = texts.over("run --horizon 0 --verbose", [], bench=INVERTER, delays=delays)
    if ended.status or b"delay line: 1 2 3 4 5 6 7 8 9 10 11 12 and %d more\n" % (delays.count(b"\n") - 12) not in ended.err:
        return f"{ended.err!r}"
    advances = b"advance a\n" * (LONGEST // 10)
    ended = texts.over("run --horizon 0 --counts", [], bench=b"INPUT(a)\n", schedule=advances)
    return differs(Ended(ended.status, b"", ended.err), Ended(0, b"", counted(len(advances) // 10, 0, 1, 0)))


def longest_decks(texts: Texts) -> str | None:
    deck = b"%nullsim 5\n%bench\nINPUT(a)\n"
    whole = deck + filled(b"\n")[len(deck):]
    ended = run([texts.program], input=whole, preexec_fn=with_small_stack)
    if ended.status:
        return f"{ended.err!r}"
    return refused(run([texts.program], input=whole + b"\n"), "TooLong")


def line_far_down(texts: Texts) -> str | None:
    """Lines count from 1 within their section of a deck, whatever their number."""
    deck = b"%nullsim 5\n%bench\nINPUT(a)\n%stimuli\n" + 123_455 * b"\n" + b"0 b 0\n"
    return differs(run([texts.program], input=deck), Ended(1, b"", b"stimuli:123456: UnknownNet\n"))


def cases(program: Path, folder: str) -> Iterator[tuple[str, Callable[[], str | None]]]:
    """All runs, each with its name."""
    texts = Texts(program, folder)
    yield "numbers of a hundred digits", lambda: long_numbers(texts, NINES)
    yield "numbers of a million digits", lambda: long_numbers(texts, "9" * 1_000_000)
    yield "ten million picks, and one more", lambda: most_picks(texts)
    yield "a million events that change nothing", lambda: idle_events(texts)
    for check in (long_chain, wide_run, one_net_at_every_pin, ring, busy_xor, longest_texts, most_lines, longest_decks,
                  line_far_down):
        yield check.__name__.replace("_", " "), lambda check=check: check(texts)
