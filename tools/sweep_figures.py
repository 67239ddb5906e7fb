"""What the results of a sweep come to: figures for each choice and listener, and which choices no other beats. choose.py uses it.

The loss of a listener is the mean of the losses of its runs, each drawn anew, so the runs are independent whatever the bursts of the
channel. Its interval is Student's t over them. Where no run loses a unit, that has no width; then the high end is the loss with which none
of so many units would be lost with the chance that is left, which is right where losses are independent of each other."""
import functools
import math
from dataclasses import dataclass
from typing import Any

STEPS = 200


def density(value, freedom):
    """Student's t, but for its constant."""
    return (1 + value * value / freedom) ** (-(freedom + 1) / 2)


@functools.lru_cache(maxsize=None)
def quantile(confidence, freedom):
    """Up to which distance from 0 a part `confidence` of Student's t lies."""
    constant = math.exp(math.lgamma((freedom + 1) / 2) - math.lgamma(freedom / 2)) / math.sqrt(freedom * math.pi)

    def within(limit):
        """By Simpson's rule over the angle whose tangent the value is, so that long tails are as near as the middle."""
        angle = math.atan(limit) / STEPS

        def term(step):
            value = math.tan(angle * step)
            return density(value, freedom) * (1 + value * value) * (1 if step in (0, STEPS) else 2 + 2 * (step % 2))
        return 2 * constant * angle / 3 * sum(map(term, range(STEPS + 1)))
    low, high = 0.0, 1e4
    for _ in range(60):
        middle = (low + high) / 2
        low, high = (middle, high) if within(middle) < confidence else (low, middle)
    return low


def interval(losses, units, confidence):
    """The mean of the losses of runs, and the low and the high end of its interval, None where one run says nothing."""
    mean = sum(losses) / len(losses)
    if not any(losses):
        return 0.0, 0.0, 1 - (1 - confidence) ** (1 / units) if units else None
    if len(losses) == 1:
        return mean, None, None
    deviation = math.sqrt(sum((it - mean) ** 2 for it in losses) / (len(losses) - 1))
    half = quantile(confidence, len(losses) - 1) * deviation / math.sqrt(len(losses))
    return mean, max(0.0, mean - half), min(1.0, mean + half)


@dataclass
class Figures:
    """The figures of a listener over all runs of a choice. `longest` is in ms, `gaps` has how many gaps have how many units."""
    name: str
    runs: int
    units: int
    lost: int
    unbegun: int
    pdu_loss: float
    loss: float
    low: float | None
    high: float | None
    longest: float
    rate: float
    gaps: dict


@dataclass
class Row:
    """A choice: its group, how it is refused, or its figures by listeners. `is_unbeaten` says that no other beats it."""
    group: Any
    refusal: str | None
    listeners: list
    is_unbeaten: bool = False

    @property
    def runs(self):
        return self.listeners[0].runs if self.listeners else 0

    @property
    def loss(self):
        """The loss of the listener that has most."""
        return max(it.loss for it in self.listeners)

    @property
    def beats_by(self):
        return self.loss, self.group.latency, self.group.airtime


def figures_of(name, heard, sdu, streams, confidence):
    """The figures of a listener, of what it had of each run."""
    units = sum(it.units for it in heard)
    gaps: dict[int, int] = {}
    for it in heard:
        for length, count in it.gaps.items():
            gaps[length] = gaps.get(length, 0) + count
    mean, low, high = interval([it.loss for it in heard], units, confidence)
    minutes = units * sdu / 60e6 / streams
    sent = sum(it.sent for it in heard)
    return Figures(
        name, len(heard), units, sum(it.lost for it in heard), sum(it.unbegun for it in heard),
        1 - sum(it.heard for it in heard) / sent if sent else 0.0, mean, low, high, max(gaps, default=0) * sdu / 1000,
        sum(gaps.values()) / minutes if minutes else 0.0, dict(sorted(gaps.items())))


def rows_of(sweep, results, refusals):
    """The rows of all choices, of results by their jobs and refusals by their places."""
    rows = []
    for place, group in enumerate(sweep.groups):
        found = [results[run, place] for run in range(sweep.runs) if (run, place) in results]
        refusal = refusals.get(place) or next((it for it in found if isinstance(it, str)), None)
        listeners = []
        if refusal is None and found:
            for number, it in enumerate(sweep.listeners):
                heard = [run[number] for run in found]
                listeners.append(figures_of(it.name, heard, group.sdu, len(it.streams), sweep.confidence))
        rows.append(Row(group, refusal, listeners))
    ran = [it for it in rows if it.listeners]
    for row in ran:
        row.is_unbeaten = not any(is_better(it.beats_by, row.beats_by) for it in ran)
    return rows


def is_better(one, other):
    """Whether these figures are nowhere worse than the others, and somewhere better."""
    return one != other and all(mine <= its for mine, its in zip(one, other))
