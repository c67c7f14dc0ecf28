"""A multiplier under drawn stimuli: its products are those of arithmetic."""
from pathlib import Path

from programs import run
from verilog import at_ends

BITS = 8
EVERY, VECTORS = 200, 100
HORIZON = EVERY * VECTORS - 1


def full_adder(lines: list[str], name: str, pins: list[str]) -> tuple[str, str]:
    """Adds up to three bits: the names of the sum and of the carry."""
    lines.append(f"{name}s = XOR({', '.join(pins)})")
    pairs = [(pins[i], pins[k]) for i in range(len(pins)) for k in range(i)]
    lines += [f"{name}c{place} = AND({one}, {other})" for place, (one, other) in enumerate(pairs)]
    lines.append(f"{name}c = OR({', '.join(f'{name}c{place}' for place in range(len(pairs)))})")
    return f"{name}s", f"{name}c"


def multiplier() -> str:
    """The .bench text of an array multiplier: inputs a0 to a7 and b0 to b7, outputs p0 to p15, the lowest bit first."""
    lines = [f"INPUT({letter}{bit})" for letter in "ab" for bit in range(BITS)]
    columns: list[list[str]] = [[] for _ in range(2 * BITS)]
    for one in range(BITS):
        for other in range(BITS):
            lines.append(f"m{one}_{other} = AND(a{one}, b{other})")
            columns[one + other].append(f"m{one}_{other}")
    for place, column in enumerate(columns):
        step = 0
        while len(column) > 1:
            total, carry = full_adder(lines, f"n{place}_{step}_", [column.pop(0) for _ in range(min(3, len(column)))])
            column.append(total)
            if place + 1 < 2 * BITS:
                columns[place + 1].append(carry)
            step += 1
        lines += [f"p{place} = BUF({column[0]})", f"OUTPUT(p{place})"]
    return "\n".join(lines) + "\n"


def number(shown: dict[str, str], letter: str, bits: int) -> int:
    return int("".join(shown[f"{letter}{bit}"] for bit in reversed(range(bits))), 2)


def products(program: Path, folder: str, seed: int) -> str | None:
    """What is wrong with the products of vectors that this seed draws."""
    bench, stimuli = Path(folder, "multiplier.bench"), Path(folder, "multiplier.stimuli")
    bench.write_text(multiplier(), encoding="ascii")
    drawn = run([program, "stimuli", "--bench", bench, "--horizon", str(HORIZON), "--every", str(EVERY), "--seed", str(seed)])
    stimuli.write_bytes(drawn.out)
    dump = run([program, "run", "--bench", bench, "--stimuli", stimuli, "--horizon", str(HORIZON)])
    if drawn.status or dump.status:
        return f"the commands print {drawn.err!r} and {dump.err!r}"
    vectors = set()
    for shown in at_ends(dump.out.decode("ascii"), EVERY):
        first, second, product = number(shown, "a", BITS), number(shown, "b", BITS), number(shown, "p", 2 * BITS)
        vectors.add((first, second))
        if first * second != product:
            return f"{first} times {second} is {product}"
    return None if len(vectors) > VECTORS * 9 // 10 else f"{len(vectors)} vectors alone"


def cases(program: Path, folder: str):
    """The products of some seeds, each with its name."""
    for seed in (0, 1, 7):
        yield f"products of drawn numbers, seed {seed}", lambda seed=seed: products(program, folder, seed)
