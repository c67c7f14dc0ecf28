"""The circuits that are measured, made from a seed; as a command, writes the texts of one of them.

A circuit is made by the same calls for every seed and size, and the seed decides all that is drawn.
"""

import argparse
from dataclasses import dataclass, field
from fractions import Fraction
from itertools import zip_longest
from pathlib import Path
from random import Random

import texts

RING_GATES = 11
BUS_LINES = 64
TREE_LEAVES = 16
MULTIPLIER_BITS = 32
SYNCHRONOUS_INPUTS = 32
GATE_WORDS = ("AND", "NAND", "OR", "NOR", "XOR", "XNOR", "NOT", "BUF")


@dataclass
class Net:
    """A net: what drives it (`INPUT`, `DFF` or a gate word), the nets at its pins, and its delay in ticks."""

    name: str
    word: str
    pins: list
    delay: int = 1


@dataclass
class Circuit:
    """The nets of a circuit in order, what drives its inputs, and the settings of its run, in ticks."""

    horizon: int
    period: int = 10
    nets: dict = field(default_factory=dict)
    stimuli: dict = field(default_factory=dict)

    def add(self, letter, word, pins, delay=1):
        """Adds a net and answers its name, which is the letter and the net's number."""
        name = f"{letter}{len(self.nets)}"
        self.nets[name] = Net(name, word, list(pins), delay)
        return name

    def input(self, stimuli):
        """Adds an input that is driven by a list of ticks and values."""
        name = self.add("i", "INPUT", [])
        self.stimuli[name] = stimuli
        return name

    def gate(self, word, pins, delay=1):
        """Adds a gate."""
        return self.add("g", word, pins, delay)

    def flip_flop(self, delay=1):
        """Adds a flip-flop, which `feed` gives its data net later."""
        return self.add("q", "DFF", [], delay)

    def feed(self, name, pin):
        """Gives a net one more pin, so that loops can be closed."""
        self.nets[name].pins.append(pin)


def scaled(full, size):
    """How many of `full` things a size asks for: up to 1 it is a fraction, above 1 the number itself."""
    return max(1, round(full * size)) if size <= 1 else round(size)


def random_stimuli(random, count, interval):
    """A random value at each of `count` ticks, `interval` apart, without those that change nothing."""
    stimuli = []
    for place in range(count):
        value = random.choice("01")
        if not stimuli or stimuli[-1][1] != value:
            stimuli.append((place * interval, value))
    return stimuli


def inverter_chain(size, stimuli):
    """Inverters in a row behind an input, through which each stimulus runs to the end."""
    count = scaled(99_999, size)
    circuit = Circuit(horizon=count + 100)
    last = circuit.input(stimuli)
    for _ in range(count):
        last = circuit.gate("NOT", [last])
    return circuit


def chain(random, size):
    """A chain of inverters whose input gets a value once, at tick 0."""
    return inverter_chain(size, [(0, "0")])


def chain_two(random, size):
    """A chain of inverters whose input gets a value at tick 0 and another at tick 50."""
    return inverter_chain(size, [(0, "0"), (50, "1")])


def independent(random, size):
    """Inverters with an input each, whose ten stimuli are drawn from a thousand ticks."""
    circuit = Circuit(horizon=1_000)
    for _ in range(scaled(50_000, size)):
        ticks = sorted(random.sample(range(circuit.horizon), 10))
        circuit.gate("NOT", [circuit.input(list(zip(ticks, "01" * 5)))])
    return circuit


def add_random_gate(circuit, random, sources):
    """Adds a gate whose word, delay of 1 to 5 ticks and one to three pins are drawn."""
    word = random.choice(GATE_WORDS)
    count = 1 if word in ("NOT", "BUF") else random.randint(2, min(3, len(sources)))
    return circuit.gate(word, random.sample(sources, count), random.randint(1, 5))


def synchronous_circuit(random, gates, flip_flops, horizon):
    """Random gates between flip-flops, with a random vector at the inputs in each period.

    The input `run` holds all flip-flops at 0 for four periods, so that every net gets known. The gates
    that do this count among the gates.
    """
    circuit = Circuit(horizon, period=40)
    run = circuit.input([(0, "0"), (4 * circuit.period, "1")])
    vectors = horizon // circuit.period
    sources = [circuit.input(random_stimuli(random, vectors, circuit.period)) for _ in range(SYNCHRONOUS_INPUTS)]
    states = [circuit.flip_flop(random.randint(1, 5)) for _ in range(flip_flops)]
    sources += states
    for _ in range(gates - flip_flops):
        sources.append(add_random_gate(circuit, random, sources))
    for state in states:
        circuit.feed(state, circuit.gate("AND", [run, random.choice(sources)], random.randint(1, 5)))
    return circuit


def synchronous(random, size):
    """A synchronous circuit with a flip-flop for every twenty gates, over 10,000 ticks."""
    gates = scaled(10_000, size)
    return synchronous_circuit(random, gates, max(1, gates // 20), horizon=10_000)


def large(random, size):
    """A synchronous circuit with as many nets as nullsim takes, over 5,000 ticks."""
    nets = max(100, scaled(100_000, size))
    flip_flops = nets // 20
    return synchronous_circuit(random, nets - flip_flops - SYNCHRONOUS_INPUTS - 1, flip_flops, horizon=5_000)


def add_bits(circuit, bits):
    """A half adder for two bits or a full adder for three; answers the sum and the carry."""
    total = circuit.gate("XOR", bits[:2])
    carry = circuit.gate("AND", bits[:2])
    if len(bits) == 2:
        return total, carry
    more = circuit.gate("AND", [total, bits[2]])
    return circuit.gate("XOR", [total, bits[2]]), circuit.gate("OR", [carry, more])


def add_row(circuit, row, products):
    """Adders in a row, from the lowest bit on; answers the bits of the sum of two numbers."""
    carry, total = None, []
    for bits in zip_longest(row, products):
        bit, carry = add_bits(circuit, [bit for bit in (*bits, carry) if bit is not None])
        total.append(bit)
    return total + [carry]


def multiplier(random, size):
    """An array multiplier of two numbers, which get new random bits every 200 ticks."""
    vectors, interval = scaled(1_000, size), 200
    circuit = Circuit(horizon=vectors * interval)
    bits = [circuit.input(random_stimuli(random, vectors, interval)) for _ in range(2 * MULTIPLIER_BITS)]
    first, second = bits[:MULTIPLIER_BITS], bits[MULTIPLIER_BITS:]
    row = [circuit.gate("AND", [bit, second[0]]) for bit in first]
    for factor in second[1:]:
        row = add_row(circuit, row[1:], [circuit.gate("AND", [bit, factor]) for bit in first])
    return circuit


def add_ring(circuit, random):
    """Adds a ring oscillator of a NAND and ten inverters, which an enable lets loose after 20 to 50 ticks."""
    enable = circuit.input([(0, "0"), (random.randint(20, 50), "1")])
    first = last = circuit.gate("NAND", [enable])
    for _ in range(RING_GATES - 1):
        last = circuit.gate("NOT", [last])
    circuit.feed(first, last)


def rings(random, size):
    """Ring oscillators, each let loose by an enable of its own, over 32,000 ticks."""
    circuit = Circuit(horizon=32_000)
    for _ in range(scaled(1_000, size)):
        add_ring(circuit, random)
    return circuit


def quiet(random, size):
    """A ring oscillator over 5,000,000 ticks, beside inverters whose inputs get a value at tick 0 and no other."""
    circuit = Circuit(horizon=5_000_000)
    add_ring(circuit, random)
    for _ in range(scaled(49_994, size)):
        circuit.gate("NOT", [circuit.input([(0, random.choice("01"))])])
    return circuit


def buses(random, size):
    """Trees of XOR gates, each over some lines of one bus, which get 4,000 random vectors."""
    vectors, interval = 4_000, 5
    circuit = Circuit(horizon=vectors * interval)
    bus = [circuit.input(random_stimuli(random, vectors, interval)) for _ in range(BUS_LINES)]
    for _ in range(scaled(1_000, size)):
        level = random.sample(bus, TREE_LEAVES)
        while len(level) > 1:
            level = [circuit.gate("XOR", pair) for pair in zip(level[::2], level[1::2])]
    return circuit


CIRCUITS = {
    "chain": chain,
    "chain-two": chain_two,
    "independent": independent,
    "synchronous": synchronous,
    "multiplier": multiplier,
    "large": large,
    "rings": rings,
    "buses": buses,
    "quiet": quiet,
}


def make(name, size=Fraction(1), seed=1):
    """The circuit of a name, of a size, drawn from a seed."""
    return CIRCUITS[name](Random(f"{name} {seed}"), size)


def add_options(parser):
    """Adds the options that decide which circuit is made."""
    parser.add_argument("--size", type=Fraction, default=Fraction(1), metavar="N",
                        help="a fraction of the full size, such as 1/20 or 0.05, or above 1 a number of things")
    parser.add_argument("--seed", type=int, default=1, metavar="N", help="the seed of what is drawn (1)")


def main():
    parser = argparse.ArgumentParser(description="Writes the texts of a circuit, and the circuit as Verilog.")
    parser.add_argument("circuit", choices=CIRCUITS)
    add_options(parser)
    parser.add_argument("--into", type=Path, required=True, metavar="FOLDER", help="the folder for the files")
    words = parser.parse_args()
    words.into.mkdir(parents=True, exist_ok=True)
    circuit = make(words.circuit, words.size, words.seed)
    texts.write_all(circuit, words.into)
    print("nullsim run", *texts.options(circuit))


if __name__ == "__main__":
    main()
