"""The pages of `draw --html` in a browser: Chromium shows what the dump has, for each example, net and bus at some ticks.
Names that look like markup are shown as text, keys and buttons do what they say, and the page's state comes from its
address. Nothing is printed on the console, and nothing is refused by the page's policy.

The browser is driven by its pipe for tools: requests and answers are objects of JSON, each with a zero byte after it.
"""
import fcntl
import json
import os
import random
import re
import shutil
import subprocess
import tempfile
import time
from collections.abc import Callable
from pathlib import Path

from programs import EXAMPLES, run

BROWSER = ["chromium", "--headless", "--no-sandbox", "--disable-gpu", "--window-size=1400,900"]
# How many ticks of a run are looked at.
TICKS = 20
# A run of each circuit among the examples, and the buses that are drawn beside all nets.
RUNS = {
    "inverter": ("--stimuli {0}.stimuli --horizon 5", ""),
    "hazard": ("--stimuli {0}.stimuli --horizon 8", ""),
    "bigger": ("--stimuli {0}.stimuli --horizon 40", ""),
    "mux": ("--stimuli {0}.stimuli --horizon 18", ""),
    "gated": ("--horizon 29", ""),
    "ring": ("--stimuli {0}.stimuli --horizon 29", ""),
    "toggle": ("--stimuli {0}.stimuli --period 10 --horizon 60", ""),
    "counter": ("--delays {0}.delays --stimuli {0}.stimuli --horizon 79", "q[1:0] d[1:0] en"),
    "oscillator": ("--delays {0}.delays --stimuli {0}.stimuli --horizon 40", ""),
    "parity": ("--stimuli {0}.stimuli --horizon 40", ""),
    "clocks": ("--delays {0}.delays --horizon 40", ""),
    "pulse": ("--delays {0}.delays --stimuli {0}.stimuli --horizon 22", ""),
    "latch": ("--stimuli {0}.stimuli --horizon 5", ""),
    "s27": ("--stimuli {0}.stimuli --horizon 35", ""),
    "verilog/uart": ("--stimuli {0}.stimuli --period 20 --horizon 2000", "data[7:0]"),
    "verilog/cpu": ("--stimuli {0}.stimuli --period 50 --horizon 2000", ""),
}
# Names that a page could take for markup, script, marks of its template, or properties of objects.
NAMES = [
    "</script><script>alert`1`</script>", "<!--<script>", "<img/src/onerror>", "&lt;b&gt;", "]]>", '"', "'", "\\u003c", "`${1}`",
    "@DATA@", "@SCRIPT@", "__proto__", "constructor", "x" * 255,
]
DECLARED = re.compile(r"^\$var wire 1 (\S+) (\S+) \$end$", re.MULTILINE)


class Browser:
    """A browser with one page, and what its console had."""

    def __init__(self, folder: str) -> None:
        reads, self.writes = (fcntl.fcntl(end, fcntl.F_DUPFD_CLOEXEC, 10) for end in os.pipe())
        self.reads, writes = (fcntl.fcntl(end, fcntl.F_DUPFD_CLOEXEC, 10) for end in os.pipe())
        words = [*BROWSER, "--remote-debugging-pipe", f"--user-data-dir={folder}/profile", "about:blank"]
        self.ran = subprocess.Popen(words, stdin=subprocess.DEVNULL, stdout=subprocess.DEVNULL, stderr=subprocess.DEVNULL,
                                    preexec_fn=lambda: (os.dup2(reads, 3), os.dup2(writes, 4)), close_fds=False)
        os.close(reads)
        os.close(writes)
        self.session: dict = {}
        self.number, self.rest, self.console = 0, b"", []
        target = self.ask("Target.createTarget", url="about:blank")["targetId"]
        self.session = {"sessionId": self.ask("Target.attachToTarget", targetId=target, flatten=True)["sessionId"]}
        for domain in ("Runtime", "Log", "Page"):
            self.ask(f"{domain}.enable")

    def close(self) -> None:
        self.ran.kill()
        self.ran.wait()

    def next_message(self) -> dict:
        while b"\0" not in self.rest:
            part = os.read(self.reads, 1 << 16)
            if not part:
                raise EOFError("the browser ended")
            self.rest += part
        message, _, self.rest = self.rest.partition(b"\0")
        told = json.loads(message)
        if told.get("method") in ("Runtime.exceptionThrown", "Runtime.consoleAPICalled", "Log.entryAdded"):
            self.console.append(told["params"])
        return told

    def ask(self, method: str, **given) -> dict:
        """Sends a request, and returns its answer."""
        self.number += 1
        os.write(self.writes, json.dumps({"id": self.number, "method": method, "params": given, **self.session}).encode() + b"\0")
        while (told := self.next_message()).get("id") != self.number:
            pass
        if "error" in told:
            raise ValueError(f"{method}: {told['error']}")
        return told["result"]

    def value(self, script: str):
        """Returns the value of an expression in the page."""
        told = self.ask("Runtime.evaluate", expression=script, awaitPromise=True, returnByValue=True)
        if "exceptionDetails" in told:
            raise ValueError(f"{script}: {told['exceptionDetails']}")
        return told["result"].get("value")

    def open(self, page: Path, state: str = "") -> None:
        """Opens a page with a state in its address."""
        self.ask("Page.navigate", url="about:blank")
        self.ask("Page.navigate", url=f"file://{page}#{state}")
        self.value("new Promise((done) => { if (document.readyState === 'complete') done(); else addEventListener('load', done); })")

    def go(self, state: str) -> None:
        """Gives the open page another state."""
        self.value("new Promise((done) => { addEventListener('hashchange', () => requestAnimationFrame(done), { once: true }); "
                   f"location.hash = {json.dumps(state)}; }})")

    def key(self, name: str, held: int = 0) -> None:
        """Presses a key, with the modifier keys that the bits name: 1 is Alt, 8 is Shift."""
        text = {"text": name} if len(name) == 1 else {}
        self.ask("Input.dispatchKeyEvent", type="keyDown", key=name, modifiers=held, **text)
        self.ask("Input.dispatchKeyEvent", type="keyUp", key=name, modifiers=held)

    def rows(self) -> list[list[str]]:
        """Returns the table: a name and a value for each lane."""
        return self.value("[...document.querySelectorAll('#rows tr')].map((row) => [...row.children].map((cell) => cell.textContent))")


def values_of(dump: str) -> tuple[list[str], Callable[[int], dict[str, str]]]:
    """Returns the names in a dump, and what their values at a tick are, read apart from the page."""
    names = {code: name for code, name in DECLARED.findall(dump)}
    changes: list[tuple[int, str, str]] = []
    tick = 0
    for line in dump.partition("$enddefinitions $end\n")[2].splitlines():
        if line.startswith("#"):
            tick = int(line[1:])
        elif line[0] in "01x":
            changes.append((tick, names[line[1:]], line[0]))

    def at(tick: int) -> dict[str, str]:
        return {name: value for when, name, value in changes if when <= tick}

    return list(names.values()), at


def digits(bits: str) -> str:
    """Returns the hexadecimal digits of bits."""
    whole = bits.rjust(-(-len(bits) // 4) * 4, "0")
    parts = [whole[at:at + 4] for at in range(0, len(whole), 4)]
    return "".join("x" if "x" in part else f"{int(part, 2):x}" for part in parts)


def nets_of(bus: str) -> list[str]:
    """Returns the nets of the word of a bus."""
    found = re.fullmatch(r"(.+)\[(\d+):(\d+)\]", bus)
    if not found:
        return [bus]
    first, last = int(found[2]), int(found[3])
    step = 1 if first < last else -1
    return [f"{found[1]}[{bit}]" for bit in range(first, last + step, step)]


def rows_at(shown: dict[str, str], names: list[str], buses: list[str]) -> list[list[str]]:
    nets = [[name, shown[name].upper()] for name in names]
    return nets + [[bus, digits("".join(shown[net] for net in nets_of(bus)))] for bus in buses]


def written(program: Path, folder: str, words: list[str], cwd: Path = EXAMPLES) -> Path:
    """Writes the page of a run."""
    answer = run([program, "draw", "--html", *words], cwd=cwd)
    if answer.status != 0 or answer.err:
        raise ValueError(f"{words}: {answer.status} and {answer.err!r}")
    page = Path(folder, "page.html")
    page.write_bytes(answer.out)
    return page


def example_fault(program: Path, browser: Browser, folder: str, name: str, span: tuple[int, int] | None = None) -> str | None:
    """What is wrong with the page of an example: each lane's value at some ticks is that of the dump."""
    options, drawn = RUNS[name]
    words, buses = ["--bench", f"{name}.bench", *options.format(name).split()], drawn.split()
    names, at = values_of(run([program, "plain", *words]).out.decode("ascii"))
    in_buses = {net for bus in buses for net in nets_of(bus)}
    names = [name for name in names if name not in in_buses]
    first, last = span or (0, int(words[words.index("--horizon") + 1]))
    limits = ["--from", str(first), "--to", str(last)] if span else []
    browser.open(written(program, folder, [*words, *limits, "--show", "all", *(word for bus in buses for word in ("--bus", bus))]))
    some = random.Random(name).sample(range(first, last + 1), min(TICKS, last + 1 - first))
    for tick in sorted({first, last, *some}):
        browser.go(f"tick={tick}")
        if browser.rows() != rows_at(at(tick), names, buses):
            return f"at tick {tick} the page shows {browser.rows()}, and the dump {rows_at(at(tick), names, buses)}"
    return None


def names_fault(program: Path, browser: Browser, folder: str) -> str | None:
    """What is wrong with the page of a circuit with hostile names: each is shown as it is, and nothing else is made of it."""
    Path(folder, "names.bench").write_text("".join(f"INPUT({name})\n" for name in NAMES), encoding="ascii")
    page = written(program, folder, ["--bench", f"{folder}/names.bench", "--horizon", "3"])
    browser.open(page, "tick=2")
    if browser.rows() != [[name, "X"] for name in NAMES]:
        return f"the page shows {browser.rows()}"
    tags = browser.value("[...document.querySelectorAll('script, img, b, i, iframe')].map((one) => one.tagName)")
    return None if tags == ["SCRIPT", "SCRIPT"] else f"the page has {tags}"


def state_fault(program: Path, browser: Browser, folder: str) -> str | None:
    """What is wrong with the state in the address, as the page takes it when it is opened, and as it writes it."""
    words = "--bench counter.bench --delays counter.delays --stimuli counter.stimuli --horizon 79".split()
    page = written(program, folder, words)
    answer = run([*BROWSER, f"--user-data-dir={folder}/other", "--virtual-time-budget=4000", "--dump-dom",
                  f"file://{page}#tick=33&from=20&until=60&a=30&b=42&lanes=2.0"])
    shown = re.sub(r"<[^>]*>", " ", answer.out.decode().partition('<tbody id="rows">')[2].partition("</tbody>")[0]).split()
    if shown != ["q[0]", "0", "en", "1"]:
        return f"opened at tick 33 with two lanes, the page shows {shown}"
    browser.open(page, "tick=33&from=20&until=60&a=30&b=42&lanes=2.0")
    if "difference 12 ticks" not in browser.value("document.getElementById('difference').textContent"):
        return "the ticks between the markers aren't shown"
    browser.key("h")
    time.sleep(0.6)
    state = browser.value("location.hash")
    return None if state == "#tick=33&from=20&until=60&a=30&b=42&lanes=2" else f"the address is {state}"


def keys_fault(program: Path, browser: Browser, folder: str) -> str | None:
    """What is wrong with keys and buttons, on the page of the hazard."""
    browser.open(written(program, folder, "--bench hazard.bench --stimuli hazard.stimuli --horizon 8".split()))
    tick = "Number(document.getElementById('tick').value)"
    names = "[...document.querySelectorAll('#rows th')].map((cell) => cell.textContent).join(' ')"
    press = "document.getElementById({!r}).click()".format
    steps = [
        ("n", 0, tick, 5), ("p", 0, tick, 0), ("ArrowRight", 8, tick, 1), ("End", 0, tick, 8), ("Home", 0, tick, 0),
        ("ArrowDown", 1, names, "b a y"), ("ArrowUp", 1, names, "a b y"), ("h", 0, names, "b y"),
        ("a", 0, "document.getElementById('difference').textContent", "A 0"),
    ]
    for name, held, asked, wanted in steps:
        browser.key(name, held)
        if (found := browser.value(asked)) != wanted:
            return f"after the key {name}: {found!r} and not {wanted!r}"
    browser.value(press("after"))
    if browser.value(tick) != 1:
        return "the button of the next change doesn't move the cursor"
    browser.value("(() => { const field = document.getElementById('find'); field.value = 'y'; field.dispatchEvent(new Event('input')); })()")
    return None if browser.value(names) == "y" else "the search doesn't find y alone"


def tried(check: Callable[..., str | None], program: Path, *given) -> str | None:
    """Makes a check with a browser of its own, and looks at the console."""
    with tempfile.TemporaryDirectory(prefix="browser-", ignore_cleanup_errors=True) as folder:
        browser = Browser(folder)
        try:
            fault = check(program, browser, folder, *given)
            return fault or (f"the console has {browser.console}" if browser.console else None)
        except (EOFError, ValueError) as error:
            return str(error)
        finally:
            browser.close()


def missing_fault() -> str | None:
    """Which circuits among the examples have no page here."""
    circuits = {str(file.relative_to(EXAMPLES).with_suffix("")) for file in EXAMPLES.rglob("*.bench")}
    return f"the runs are of {sorted(RUNS)}, and the circuits {sorted(circuits)}" if circuits != RUNS.keys() else None


def cases(program: Path) -> list[tuple[str, Callable[[], str | None]]]:
    """Each page with its check. Without a browser there are none, and a line says so."""
    if shutil.which(BROWSER[0]) is None:
        print("faults: pages in a browser are left out, since Chromium isn't installed", flush=True)
        return []
    found = [("the examples whose pages are opened in a browser", missing_fault)]
    found += [(f"the page of {name} in a browser", lambda name=name: tried(example_fault, program, name)) for name in RUNS]
    found.append(("a part of a page in a browser", lambda: tried(example_fault, program, "counter", (20, 60))))
    found.append(("hostile names in a page", lambda: tried(names_fault, program)))
    found.append(("the state of a page in its address", lambda: tried(state_fault, program)))
    return [*found, ("keys and buttons of a page", lambda: tried(keys_fault, program))]
