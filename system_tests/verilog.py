"""Designs that other tools made of Verilog: the letters that a UART sends, and the numbers that a processor shows."""
import sys
from collections.abc import Callable
from pathlib import Path

from programs import EXAMPLES, run

sys.path.append(str(EXAMPLES / "verilog"))
from compare import Values, at_ends

# How many cycles a bit of the UART takes.
CYCLES = 4


def cycles_of(program: Path, name: str, period: int, horizon: int) -> list[Values]:
    """What the outputs of a design show at the end of each cycle."""
    files = ["--bench", f"verilog/{name}.bench", "--stimuli", f"verilog/{name}.stimuli"]
    settings = ["--period", str(period), "--horizon", str(horizon), "--show", "outputs"]
    return list(at_ends(run([program, "run", *files, *settings]).out.decode("ascii"), period))


def received(line: str) -> bytes:
    """What a receiver reads on a line, which is 1 where nothing is sent: from each start bit on, the middle of each bit."""
    letters, place = [], line.index("1")
    while (place := line.find("0", place)) >= 0:
        bits = line[place + CYCLES // 2 :: CYCLES][:10]
        if bits[0] != "0" or bits[9:] != "1":
            raise ValueError(f"no start bit or no stop bit: {bits}")
        letters.append(int(bits[8:0:-1], 2))
        place += 9 * CYCLES + CYCLES // 2
    return bytes(letters)


def uart_fault(program: Path) -> str | None:
    letters = received("".join(shown["tx"] for shown in cycles_of(program, "uart", 20, 1700)))
    return None if letters == b"Hi" else f"it sends {letters!r}"


def fibonacci(most: int) -> list[int]:
    """The Fibonacci numbers up to the first one whose sum with the next one is greater than this number."""
    found, first, second = [], 1, 1
    while first + second <= most:
        found.append(first)
        first, second = second, first + second
    return [*found, first]


def cpu_fault(program: Path) -> str | None:
    cycles = cycles_of(program, "cpu", 50, 6000)
    numbers = [int("".join(shown[f"out[{bit}]"] for bit in range(7, -1, -1)), 2) for shown in cycles if shown["valid"] == "1"]
    if numbers != fibonacci(255):
        return f"it shows {numbers}"
    return None if cycles[-1]["halted"] == "1" else "it doesn't halt"


def cases(program: Path) -> list[tuple[str, Callable[[], str | None]]]:
    return [
        ("the letters of examples/verilog/uart.bench", lambda: uart_fault(program)),
        ("the numbers of examples/verilog/cpu.bench", lambda: cpu_fault(program)),
    ]
