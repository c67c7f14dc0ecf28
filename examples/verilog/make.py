#!/usr/bin/env python3
"""Makes the .bench texts of the designs in this folder by yosys and ABC, which Debian has as `yosys` and `berkeley-abc`.

    make.py [DESIGN]..    makes DESIGN.bench of DESIGN.v, for each design without a name
"""
import subprocess
import sys
import tempfile
from pathlib import Path

HERE = Path(__file__).resolve().parent
DESIGNS = ["uart", "cpu"]

# Gates and flip-flops of one clock, without an initial value, set or reset. `write_blif` keeps the names of registers.
SYNTHESIS = (
    "read_verilog {verilog}; synth -flatten -top {name}; dfflegalize -cell $_DFF_P_ x; "
    "abc -g AND,OR,XOR,NAND,NOR,XNOR; opt_clean; write_blif {blif}"
)
# `strash` makes gates of what `-l` writes, which are tables otherwise.
CONVERSION = "read_blif {blif}; strash; write_bench -l {bench}"


def converted(name: str, folder: str) -> str:
    """Returns the .bench text of a design, without the first line, in which ABC writes the time."""
    files = {"name": name, "verilog": HERE / f"{name}.v", "blif": Path(folder, f"{name}.blif"), "bench": Path(folder, f"{name}.bench")}
    subprocess.run(["yosys", "-q", "-p", SYNTHESIS.format(**files)], check=True)
    subprocess.run(["berkeley-abc", "-q", CONVERSION.format(**files)], check=True)
    return files["bench"].read_text("ascii").partition("\n")[2]


def main() -> None:
    with tempfile.TemporaryDirectory() as folder:
        for name in sys.argv[1:] or DESIGNS:
            (HERE / f"{name}.bench").write_text(converted(name, folder), "ascii")


if __name__ == "__main__":
    main()
