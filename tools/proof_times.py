"""How long proofs take: the processor's seconds of each crate, as proof_times.txt has them, and by the clock what is left of a run."""
import os

from crate_sums import PARTS, TOP, Below, in_order

TABLE = os.path.join(TOP, 'tools', 'proof_times.txt')
# Of the processors' time this part is lost for each of them, as proofs wait for each other.
IDLE = 0.05
# The crates of the longest chain are proved one after the other. Four processors do one of them in so much of the time of one.
CHAIN = {1: 1.0, 2: 0.75, 3: 0.65}
LEAST_CHAIN = 0.6
# So many seconds of a run count as if they had passed as the table says, so that the first crates don't turn the estimate over.
PRIOR = 60.0


def read_table(path: str = TABLE) -> dict[str, float]:
    """The processor's seconds of each crate, as a file has them: a line has a name and a number, and # begins a comment."""
    seconds = {}
    with open(path, encoding='ascii') as file:
        for line in file:
            words = line.partition('#')[0].split()
            if words:
                seconds[words[0]] = float(words[1])
    return seconds


def guessed(name: str) -> float:
    """About what a crate takes that the table lacks. The libraries below it are read first, most of a small crate's time."""
    lines = 0
    for part in PARTS:
        for at, _, names in os.walk(f'{TOP}/crates/{name}/{part}'):
            for it in names:
                with open(f'{at}/{it}', 'rb') as file:
                    lines += file.read().count(b'\n')
    return 17 + lines / 10


class Times:
    """What the proofs of some crates take, as a whole and while they run."""

    def __init__(self, names: list[str], below: Below, processors: int, table: dict[str, float] | None = None) -> None:
        table = read_table() if table is None else table
        self.seconds = {it: table[it] if it in table else guessed(it) for it in names}
        self.below = {it: [low for low in in_order(below, it)[:-1] if low in self.seconds] for it in names}
        self.names, self.processors = names, processors
        self.whole = self.expected({})

    def expected(self, done: dict[str, float]) -> float:
        """By the clock, what is left where of these crates these parts are done, on a machine as fast as that of the table."""
        left = {it: self.seconds[it] * (1 - done.get(it, 0.0)) for it in self.names}
        chains: dict[str, float] = {}
        for it in self.names:
            chains[it] = left[it] + max((chains[low] for low in self.below[it]), default=0.0)
        work = sum(left.values()) / self.processors * (1 + IDLE * self.processors)
        return max(work, max(chains.values(), default=0.0) * CHAIN.get(self.processors, LEAST_CHAIN))

    def left(self, proved: set[str], running: dict[str, float], elapsed: float) -> float:
        """By the clock, what is left after so many seconds, where these crates are proved, and these are being proved for so long."""
        pace = 1.0
        for _ in range(3):
            done = {it: 1.0 for it in proved}
            done.update({it: min(0.9, since / (1.5 * pace * self.seconds[it])) for it, since in running.items()})
            left = self.expected(done)
            pace = (elapsed + PRIOR) / (self.whole - left + PRIOR)
        return left * pace


def told(seconds: float) -> str:
    """A time in words that claim no more than an estimate does."""
    if seconds < 90:
        return f'{max(10, round(seconds, -1)):.0f} s'
    return f'{seconds / 60:.0f} minutes'
