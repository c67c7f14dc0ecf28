#!/usr/bin/env python3
"""Compares two dumps at the end of each cycle: one of a design in Verilog, and one of its .bench text by nullsim.

    compare.py FIRST SECOND PERIOD

The first dump may have vectors, whose bits are nets such as data[0] in the second. What is compared are the nets of the
second dump, at the last tick before each multiple of PERIOD. Prints the first difference, if any, and the number of cycles.
"""
import sys
from collections.abc import Iterator
from pathlib import Path

Values = dict[str, str]


def bits_of(words: list[str]) -> list[str]:
    """Returns the names of the bits that a declaration has, the highest first."""
    name, width = words[4], int(words[2])
    if width == 1:
        return [name]
    high = int(words[5].strip("[]").partition(":")[0])
    return [f"{name}[{high - place}]" for place in range(width)]


def extended(value: str, width: int) -> str:
    """Returns the value of a vector with all its bits. What is left out at its front is 0, or X before an X."""
    return value.rjust(width, "x" if value[0] == "x" else "0")


def declared(header: str) -> dict[str, list[str]]:
    """Returns the names of the bits of each identifier code."""
    lines = (line.split() for line in header.splitlines())
    return {words[3]: bits_of(words) for words in lines if words and words[0] == "$var"}


def at_ends(dump: str, period: int) -> Iterator[Values]:
    """Returns what the nets show at the end of each cycle."""
    header, _, changes = dump.partition("$enddefinitions $end")
    bits = declared(header)
    values: Values = {}
    tick, end = 0, period - 1
    for line in changes.split("\n"):
        kind, rest = line[:1], line[1:]
        if kind == "#":
            tick = int(rest)
            while end < tick:
                yield dict(values)
                end += period
        elif kind == "b":
            value, code = rest.split()
            values.update(zip(bits[code], extended(value, len(bits[code]))))
        elif kind and kind in "01x":
            values[bits[rest][0]] = kind
    if end == tick:
        yield values


def main() -> int:
    first, second = (Path(name).read_text("ascii") for name in sys.argv[1:3])
    period, cycle = int(sys.argv[3]), 0
    for cycle, (one, other) in enumerate(zip(at_ends(first, period), at_ends(second, period)), 1):
        for name, value in other.items():
            if one[name] != value:
                print(f"cycle {cycle}: {name} is {one[name]} and {value}")
                return 1
    print(f"the same in {cycle} cycles")
    return 0


if __name__ == "__main__":
    sys.exit(main())
