"""Counts the rounds of circuits and the messages in a round, with and without lookahead by controlling values.

This is a model of the kernel's rounds, for their counts only: with lookahead it counts what `nullsim run --counts`
counts. Without lookahead, a gate waits until all of its pins are known; no command of nullsim does so.
`--check PROGRAM` compares the counts with those of a built program, circuit by circuit.
"""

import argparse
import subprocess
import tempfile
from dataclasses import dataclass
from pathlib import Path

import circuits
import texts

UNKNOWN = 2
# What a gate shows is that of the first of these words where some pin shows this value, whatever the others show.
CONTROLLING = {"AND": (0, 0), "NAND": (0, 1), "OR": (1, 1), "NOR": (1, 0)}
# The circuits of the table, each with the size that makes its nets.
SIZES = (
    ("synchronous", "950"), ("synchronous", "9500"), ("large", "100000"),
    ("multiplier", "2"),
    ("rings", "83"), ("rings", "830"),
    ("buses", "65"), ("buses", "6600"),
    ("chain", "999"), ("chain", "9999"),
)
TICKS = 400


def gate(word, values):
    """What a gate shows whose pins show these values."""
    if word in CONTROLLING:
        value, shown = CONTROLLING[word]
        if value in values:
            return shown
        return UNKNOWN if UNKNOWN in values else 1 - shown
    if UNKNOWN in values:
        return UNKNOWN
    return (sum(values) + (word in ("XNOR", "NOT"))) % 2


@dataclass
class Counts:
    """What a run counts, as `Kernel::counts` answers it."""

    events: int = 0
    changes: int = 0
    nulls: int = 0
    rounds: int = 0

    def line(self):
        """The counts as `--counts` writes them."""
        return f"events {self.events} changes {self.changes} nulls {self.nulls} rounds {self.rounds}"


class Net:
    """The process of a net, and the log of what it told: its changes, and up to where they go."""

    def __init__(self, number, net, stimuli, run):
        self.number, self.word, self.delay, self.run = number, net.word, net.delay, run
        self.changes = []
        self.frontier = 0
        # What pins have taken of the log: all that stood there at the last delivery.
        self.taken, self.heard = 0, 0
        self.last = UNKNOWN
        self.stimuli = [(tick, int(value)) for tick, value in stimuli if tick < run.end]
        self.pins, self.places, self.fans = [], [], 0

    def change(self, tick, value):
        """Notes that the net shows this value from this tick on."""
        if value != self.last:
            self.changes.append((tick, value))
            self.last = value

    def value(self, place, tick):
        """What the pin at a place shows at a tick that is no earlier than the last one asked for; X where it isn't known."""
        source, at = self.pins[place], self.places[place]
        while at < source.taken and source.changes[at][0] <= tick:
            at += 1
        self.places[place] = at
        return UNKNOWN if tick >= source.heard or at == 0 else source.changes[at - 1][1]

    def next_break(self, tick):
        """The first tick past this one at which a pin may show another value, as far as it is known."""
        breaks = [self.run.end]
        for source, at in zip(self.pins, self.places):
            if at < source.taken:
                breaks.append(source.changes[at][0])
            elif source.heard > tick:
                breaks.append(source.heard)
        return min(breaks)

    def advance(self):
        """Reckons the net as far as what is known of its pins leads; answers how many messages it then tells."""
        before, first = self.frontier, len(self.changes)
        if self.word == "INPUT":
            self.reckon_input()
        elif self.word == "DFF":
            self.reckon_flip_flop()
        else:
            self.reckon_gate()
        if self.frontier == before:
            return 0, 0
        told = len(self.changes) - first
        return told, int(not told or self.changes[-1][0] + 1 < self.frontier)

    def reckon_input(self):
        """An input knows itself to the end."""
        if self.frontier == 0:
            for tick, value in self.stimuli:
                self.change(tick, value)
        self.frontier = self.run.end

    def reckon_flip_flop(self):
        """A flip-flop is known until its first sample shows that isn't known."""
        period = self.run.period
        safe = self.pins[0].heard
        to = min(self.run.end, max(period, -(-safe // period) * period) + self.delay)
        sample = max(period, -(-(self.frontier - self.delay) // period) * period)
        while sample + self.delay < to:
            self.change(sample + self.delay, self.value(0, sample))
            sample += period
        self.frontier = max(self.frontier, to)

    def reckon_gate(self):
        """A gate is known to its delay past where all pins are known, and on where those that are known settle it."""
        end, delay = self.run.end, self.delay
        sure = min(end, min(source.heard for source in self.pins) + delay)
        if self.frontier >= sure and not self.run.looks_ahead:
            return
        to = max(self.frontier, min(end, delay))
        places = range(len(self.pins))
        while to < end:
            asked = to - delay
            shown = gate(self.word, [self.value(place, asked) for place in places])
            if to >= sure and (shown == UNKNOWN or not self.run.looks_ahead):
                break
            self.change(to, shown)
            # A gate that shows X is sure up to there alone.
            to = min(self.next_break(asked) + delay, end if to >= sure else sure)
        self.frontier = to


class Run:
    """A run of a circuit by rounds."""

    def __init__(self, circuit, looks_ahead):
        self.end, self.period, self.looks_ahead = circuit.horizon + 1, circuit.period, looks_ahead
        self.counts = Counts()
        by_name = {name: Net(number, net, circuit.stimuli.get(name, ()), self)
                   for number, (name, net) in enumerate(circuit.nets.items())}
        self.nets = list(by_name.values())
        self.readers = [set() for _ in self.nets]
        for net, given in zip(self.nets, circuit.nets.values()):
            for name in given.pins:
                source = by_name[name]
                net.pins.append(source)
                net.places.append(0)
                source.fans += 1
                self.readers[source.number].add(net.number)
        self.left = len(self.nets)

    def complete(self):
        """Does rounds until each net is known to the end. A net that heard nothing would tell nothing, and is passed over."""
        told, waiting, active = [], 0, self.nets
        while self.left:
            for net in told:
                net.taken, net.heard = len(net.changes), net.frontier
            self.counts.events += waiting + len(self.nets)
            self.counts.rounds += 1
            told, waiting = self.advance(active)
            active = [self.nets[number] for number in sorted({reader for net in told for reader in self.readers[net.number]})]
        return self.counts

    def advance(self, active):
        """Advances some nets; answers those that told something, and how many messages wait at pins then."""
        told, waiting = [], 0
        for net in active:
            if net.frontier == self.end:
                continue
            changes, nulls = net.advance()
            if changes + nulls:
                told.append(net)
                waiting += (changes + nulls) * net.fans
                self.counts.changes += changes
                self.counts.nulls += nulls
                self.left -= net.frontier == self.end
        return told, waiting


def shortened(circuit, ticks):
    """The circuit, up to so many ticks at most."""
    circuit.horizon = min(circuit.horizon, ticks)
    return circuit


def counted_by(program, circuit):
    """The line of counts that a program writes for a circuit."""
    with tempfile.TemporaryDirectory() as folder:
        texts.write_all(circuit, Path(folder))
        ended = subprocess.run([program, "run", *texts.options(circuit), "--counts"], cwd=folder, check=True,
                               stdout=subprocess.DEVNULL, stderr=subprocess.PIPE, text=True)
    return ended.stderr.strip()


def check(program):
    """Compares the counts of small circuits of each kind with those of a program; answers how many differ."""
    differ = 0
    for name in circuits.CIRCUITS:
        for size in ("30", "200"):
            circuit = shortened(circuits.make(name, circuits.Fraction(size)), TICKS)
            one, other = Run(circuit, True).complete().line(), counted_by(program, circuit)
            print(name, size, other if one == other else f"{one}, but the program reports {other}")
            differ += one != other
    return differ


def row(name, size, ticks):
    """A row of the table: a circuit's nets, and its rounds and messages a round without lookahead and with it."""
    cells = []
    for looks_ahead in (False, True):
        circuit = shortened(circuits.make(name, circuits.Fraction(size)), ticks)
        counts = Run(circuit, looks_ahead).complete()
        messages = counts.changes + counts.nulls
        cells += [f"{counts.rounds:,}", f"{messages:,}", f"{messages // counts.rounds:,}"]
    return f"| `{name}` | {len(circuit.nets):,} | {circuit.horizon:,} | {' | '.join(cells)} |"


def main():
    parser = argparse.ArgumentParser(description=__doc__.splitlines()[0])
    parser.add_argument("--ticks", type=int, default=TICKS, metavar="N", help=f"the last tick of each run ({TICKS})")
    parser.add_argument("--check", metavar="PROGRAM", help="compare the counts with those of a built program instead")
    words = parser.parse_args()
    if words.check:
        raise SystemExit(1 if check(words.check) else 0)
    print("| Circuit | nets | ticks | rounds | messages | a round | rounds, ahead | messages | a round |")
    print("|---|---|---|---|---|---|---|---|---|")
    for name, size in SIZES:
        print(row(name, size, words.ticks), flush=True)


if __name__ == "__main__":
    main()
