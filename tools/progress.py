"""What a build reports on standard error: on a terminal one line that is rewritten, else a line for each crate."""
import sys
import time


def tell(text: str) -> None:
    print(f"nullsim: {text}", file=sys.stderr, flush=True)


def minutes(seconds: float) -> str:
    count = max(1, round(seconds / 60))
    return "1 minute" if count == 1 else f"{count} minutes"


class Progress:
    """How far a build of some crates is."""

    # How long a wait between two reports is, in seconds.
    PAUSE = 1.0

    def __init__(self, count: int, proved: int) -> None:
        self.count, self.done = count, proved
        self.begun = time.monotonic()
        self.whole = self.end = 0.0
        self.rewrites = sys.stderr.isatty()

    def ahead(self, seconds: float) -> None:
        """Takes how many seconds are ahead by the lengths of the texts alone. What was ahead at first, and how long the
        build has taken since, say by how much to correct that."""
        now = time.monotonic()
        self.whole = max(self.whole, seconds)
        taken, counted = now - self.begun, self.whole - seconds
        self.end = now + seconds * (taken / counted if counted > 60 else 1)

    def proved(self, crate: str) -> None:
        self.done += 1
        if not self.rewrites:
            tell(f"{self.done} of {self.count}: {crate} after {minutes(time.monotonic() - self.begun)}")

    def show(self) -> None:
        if self.rewrites:
            now = time.monotonic()
            times = f"{minutes(now - self.begun)} elapsed, about {minutes(self.end - now)} left"
            line = f"nullsim: {self.done} crates proved, {self.count - self.done} left; {times}"
            print(f"\r\033[K{line}", end="", file=sys.stderr, flush=True)

    def close(self) -> None:
        """Ends the line that is rewritten."""
        if self.rewrites:
            print("\r\033[K", end="", file=sys.stderr, flush=True)
