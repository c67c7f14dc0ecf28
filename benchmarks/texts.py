"""The texts of a circuit: those that `nullsim run` reads, and the same circuit as Verilog.

The Verilog shows what the defining equations give the nets (`docs/GLOSSARY.md`):
- A gate of delay 1 is a primitive. A slower one is a process that assigns with a delay, since a primitive
  swallows pulses that are shorter than its delay.
- Inputs change by nonblocking assignments, which come after the start of all processes at tick 0.
- A flip-flop samples after all changes of the tick: the clock waits for a nonblocking assignment to
  take effect, and then for another, and nothing else is left to change by then.
"""

OPERATORS = {"AND": "&", "NAND": "&", "OR": "|", "NOR": "|", "XOR": "^", "XNOR": "^", "NOT": "", "BUF": ""}
OPPOSITES = ("NAND", "NOR", "XNOR", "NOT")
VVP_DUMP = "vvp.vcd"
NETS_OF_A_PART = 1_000

CLOCK = """module clock;
  event sample;
  reg settling = 0, settled = 0;
  always begin
    #{period} settling <= ~settling;
    @(settling) settled <= ~settled;
    @(settled) -> sample;
  end
endmodule
"""


def outputs(circuit):
    """The nets that stand at no pin."""
    read = {pin for net in circuit.nets.values() for pin in net.pins}
    return [name for name in circuit.nets if name not in read]


def bench_line(net):
    """The line of a net in the .bench notation."""
    return f"INPUT({net.name})" if net.word == "INPUT" else f"{net.name} = {net.word}({', '.join(net.pins)})"


def bench_text(circuit):
    """The netlist in the .bench notation."""
    lines = [bench_line(net) for net in circuit.nets.values()]
    return "\n".join(lines + [f"OUTPUT({name})" for name in outputs(circuit)]) + "\n"


def delay_text(circuit):
    """The delays other than 1, which is the default."""
    return "".join(f"{net.name} {net.delay}\n" for net in circuit.nets.values() if net.delay != 1)


def stimulus_text(circuit):
    """What drives the inputs, one input behind another."""
    return "".join(
        f"{tick} {name} {value}\n" for name, stimuli in circuit.stimuli.items() for tick, value in stimuli)


def options(circuit):
    """The options of `nullsim run`, where the texts are in the working folder."""
    return ["--bench", "circuit.bench", "--delays", "circuit.delays", "--stimuli", "circuit.stimuli",
            "--period", str(circuit.period), "--horizon", str(circuit.horizon)]


def expression(word, pins):
    """What a gate makes of its pins, as Verilog."""
    of_pins = f" {OPERATORS[word]} ".join(pins)
    return f"~({of_pins})" if word in OPPOSITES else of_pins


def net_lines(net, pins):
    """A net with these nets at its pins: its declaration, and what drives it if it is no input."""
    name, delay = net.name, net.delay
    if net.word == "INPUT":
        return [f"  reg {name};"]
    if net.word == "DFF":
        return [f"  reg {name};", f"  always @(clock.sample) {name} <= #{delay} {pins[0]};"]
    if delay == 1:
        return [f"  wire {name};", f"  {net.word.lower()} #1 ({name}, {', '.join(pins)});"]
    return [f"  reg {name};", f"  always @({' or '.join(pins)}) {name} <= #{delay} {expression(net.word, pins)};"]


def part_module(number, nets, paths):
    """The module of a part of a circuit, with these nets of it."""
    lines = [f"module part{number};"]
    for net in nets:
        lines += net_lines(net, [paths[pin] for pin in net.pins])
    return lines + ["endmodule"]


def stimulus_module(circuit, paths):
    """The module that drives all inputs, in the order of the ticks."""
    lines, last = ["module stimuli;", "  initial begin"], 0
    stimuli = [(tick, name, value) for name, pairs in circuit.stimuli.items() for tick, value in pairs]
    for tick, name, value in sorted(stimuli):
        delay = f"#{tick - last} " if tick > last else ""
        lines.append(f"    {delay}{paths[name]} <= 1'b{value};")
        last = tick
    return lines + ["  end", "endmodule"]


def dump_module(horizon, parts):
    """The module that asks for a dump of all nets, and ends a tick behind the horizon, which is whole then."""
    scopes = ", ".join(f"part{number}" for number in range(parts))
    return ["module dump;", "  initial begin", f'    $dumpfile("{VVP_DUMP}");', f"    $dumpvars(1, {scopes});",
            f"    #{horizon + 1} $finish;", "  end", "endmodule"]


def verilog(circuit):
    """The circuit as Verilog, in modules of a thousand nets: the compiler searches a whole module for a net."""
    nets = list(circuit.nets.values())
    parts = [nets[first:first + NETS_OF_A_PART] for first in range(0, len(nets), NETS_OF_A_PART)]
    paths = {net.name: f"part{number}.{net.name}" for number, part in enumerate(parts) for net in part}
    lines = ["`timescale 1ns/1ns"]
    if any(net.word == "DFF" for net in nets):
        lines.append(CLOCK.format(period=circuit.period))
    for number, part in enumerate(parts):
        lines += part_module(number, part, paths)
    lines += stimulus_module(circuit, paths) + dump_module(circuit.horizon, len(parts))
    return "\n".join(lines) + "\n"


def write_all(circuit, folder):
    """Writes all texts of a circuit into a folder."""
    (folder / "circuit.bench").write_text(bench_text(circuit))
    (folder / "circuit.delays").write_text(delay_text(circuit))
    (folder / "circuit.stimuli").write_text(stimulus_text(circuit))
    (folder / "circuit.v").write_text(verilog(circuit))
