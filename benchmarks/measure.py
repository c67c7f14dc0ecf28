"""Measures `nullsim run`, and `vvp` if it is installed, and compares the values that they give."""

import argparse
import shutil
import subprocess
import sys
from dataclasses import dataclass
from pathlib import Path
from resource import RUSAGE_CHILDREN, getrusage
from tempfile import TemporaryDirectory

import circuits
import dumps
import texts

PROGRAM = Path(__file__).resolve().parent.parent / "crates/nullsim_cli/out/nullsim_cli"
NULLSIM_DUMP = "nullsim.vcd"
COLUMNS = ["circuit", "nets", "changes", "nullsim s", "nullsim MB"]
VVP_COLUMNS = ["vvp s", "vvp MB", "time ratio", "memory ratio", "same"]
COUNTS_COLUMNS = ["counted s", "counted MB", "events", "nulls", "rounds"]
SHOWN_COLUMNS = ["shown s", "shown MB"]


@dataclass
class Cost:
    """Processor time in seconds, user and system, and peak memory in bytes."""

    seconds: float
    memory: int

    def cells(self):
        """The two cells of a table."""
        return [f"{self.seconds:.2f}", f"{self.memory / 1e6:.1f}"]


def processor_seconds():
    """The processor time of all child processes that have ended."""
    usage = getrusage(RUSAGE_CHILDREN)
    return usage.ru_utime + usage.ru_stime


def run_once(words, folder, output):
    """Runs a command in a folder, with its output in a file there; answers what it costs and what it told.

    GNU time tells the memory: what the system tells of a child of Python counts Python's own memory too.
    """
    report = folder / "memory"
    before = processor_seconds()
    with open(folder / output, "wb") as out:
        ended = subprocess.run(["time", "-f", "%M", "-o", str(report), *words],
                               cwd=folder, stdout=out, stderr=subprocess.PIPE, text=True)
    if ended.returncode != 0:
        sys.exit(f"{' '.join(words)}: status {ended.returncode}: {ended.stderr.strip()}")
    return Cost(processor_seconds() - before, int(report.read_text()) * 1024), ended.stderr


def least(costs):
    """The least time and the least memory of some runs."""
    return Cost(min(cost.seconds for cost in costs), min(cost.memory for cost in costs))


def cells_beside_vvp(folder, horizon, nullsim, vvp):
    """The cells of a comparison with vvp: its cost, the ratios, and whether both dumps show the same."""
    difference = dumps.first_difference(folder / NULLSIM_DUMP, folder / texts.VVP_DUMP, horizon)
    same = "yes" if difference is None else f"not at tick {difference}"
    return vvp.cells() + [f"{nullsim.seconds / vvp.seconds:.2f}", f"{nullsim.memory / vvp.memory:.2f}", same]


def cells_with_counts(words, folder, runs):
    """The cells of runs with `--counts`: their cost, and the events, null messages and rounds that they tell."""
    measured = [run_once([*words, "--counts"], folder, "counted.vcd") for _ in range(runs)]
    told = measured[0][1].split()
    counts = dict(zip(told[::2], told[1::2]))
    return least([cost for cost, _ in measured]).cells() + [counts[name] for name in ("events", "nulls", "rounds")]


def cells_with_names(words, folder, runs, names):
    """The cells of runs with `--nets` and these names of nets: their cost."""
    measured = [run_once([*words, "--nets", names], folder, "shown.vcd") for _ in range(runs)]
    return least([cost for cost, _ in measured]).cells()


def measure(name, words, folder):
    """Makes a circuit, measures it, and answers its row of the table."""
    circuit = circuits.make(name, words.size, words.seed)
    texts.write_all(circuit, folder)
    nullsim_words = [str(words.program), "run", *texts.options(circuit)]
    if words.vvp:
        subprocess.run(["iverilog", "-o", "circuit.vvp", "circuit.v"], cwd=folder, check=True)
    nullsim, vvp = [], []
    for _ in range(words.runs):
        nullsim.append(run_once(nullsim_words, folder, NULLSIM_DUMP)[0])
        if words.vvp:
            vvp.append(run_once(["vvp", "-n", "circuit.vvp"], folder, "vvp.log")[0])
    changes = dumps.count_changes(folder / NULLSIM_DUMP, circuit.horizon)
    row = [name, f"{len(circuit.nets):,}", f"{changes:,}", *least(nullsim).cells()]
    if words.vvp:
        row += cells_beside_vvp(folder, circuit.horizon, least(nullsim), least(vvp))
    if words.counts:
        row += cells_with_counts(nullsim_words, folder, words.runs)
    if words.nets:
        row += cells_with_names(nullsim_words, folder, words.runs, words.nets)
    return row


def table_row(cells):
    """A row of a table in Markdown."""
    return f"| {' | '.join(cells)} |"


def print_table(words):
    """Measures circuit after circuit, and prints each row as soon as it is there."""
    columns = COLUMNS + VVP_COLUMNS * words.vvp + COUNTS_COLUMNS * words.counts + SHOWN_COLUMNS * bool(words.nets)
    print(table_row(columns))
    print(table_row(["---"] * len(columns)), flush=True)
    for name in words.circuits or circuits.CIRCUITS:
        with TemporaryDirectory(prefix="nullsim-", dir=words.folder) as folder:
            print(table_row(measure(name, words, Path(folder))), flush=True)


def read_words():
    """What the command line asks for."""
    parser = argparse.ArgumentParser(description=__doc__)
    parser.add_argument("circuits", nargs="*", metavar="CIRCUIT", help=f"{', '.join(circuits.CIRCUITS)} (all)")
    circuits.add_options(parser)
    parser.add_argument("--runs", type=int, default=3, metavar="N", help="the number of runs of each (3)")
    parser.add_argument("--program", type=Path, default=PROGRAM, metavar="FILE", help="the program (the built one)")
    parser.add_argument("--alone", dest="vvp", action="store_false", help="leave vvp out")
    parser.add_argument("--counts", action="store_true", help="measure `nullsim run --counts` too")
    parser.add_argument("--nets", metavar="NAMES", help="measure `nullsim run --nets NAMES` too")
    parser.add_argument("--folder", type=Path, metavar="FOLDER", help="the folder for temporary texts and dumps")
    words = parser.parse_args()
    unknown = [name for name in words.circuits if name not in circuits.CIRCUITS]
    if unknown:
        parser.error(f"no such circuit: {', '.join(unknown)}")
    return words


def main():
    words = read_words()
    words.program = words.program.resolve()
    if not words.program.exists():
        sys.exit(f"{words.program} not found; ./nullsim --help builds it")
    if not shutil.which("time"):
        sys.exit("GNU time not found; it reports how much memory a program uses")
    words.vvp = words.vvp and bool(shutil.which("iverilog") and shutil.which("vvp"))
    print_table(words)


if __name__ == "__main__":
    main()
