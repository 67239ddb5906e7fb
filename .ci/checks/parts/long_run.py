"""long_run.py [EVENTS [SEED]]: prints a scenario of stereo at two sinks, of 60,000 events of 10 ms where no number is given: 10 minutes.

Each payload is sent three times, once an event ahead. Of most events a sink misses some of the PDUs, and no unit. Now and then it hears
nothing for up to 12 events, or nothing of stream 2 for up to 5. Which, and the octets of the units, are drawn with the seed."""
import random
import sys
from collections.abc import Iterator

FRONT = ('scenario 1', 'group unframed 20000 40000 8 10000 100 100 2 1 3 2 1 600 1800 1', 'sink 0 2 1', 'sink 1 2 1', 'start 0',
         'tuned 0 1 2', 'tuned 1 1 2')
STREAMS, SUBEVENTS = (1, 2), range(3)
FADES, HALVES = 1 / 600, 1 / 900  # how often a sink begins to hear nothing, and nothing of stream 2


class Ear:
    """What a sink hears, event by event."""

    def __init__(self, sink: int, draws: random.Random):
        self.sink, self.draws, self.left, self.is_deaf = sink, draws, 0, False

    def lines(self) -> list[str]:
        if not self.left:
            drawn = self.draws.random()
            self.is_deaf = drawn < FADES
            self.left = self.draws.randint(1, 12 if self.is_deaf else 5) if drawn < FADES + HALVES else 0
        if not self.left:
            return [f'air {self.sink} {self.draws.randint(4, 9)}']
        self.left -= 1
        return [f'air {self.sink} 1'] if self.is_deaf else [f'hear {self.sink} 0 1 {subevent}' for subevent in SUBEVENTS]


def long_run(events: int = 60000, seed: int = 1, octets: int = 100) -> Iterator[str]:
    draws = random.Random(seed)
    ears = [Ear(sink, draws) for sink in (0, 1)]
    yield from FRONT
    for event in range(-1, events):
        for stream in STREAMS:
            yield f'unit {stream} - {draws.randbytes(octets).hex()}'
        if event >= 0:
            yield 'event'
            for ear in ears:
                yield from ear.lines()
    yield 'end'


def main(words: list[str]) -> int:
    if len(words) > 2 or not all(it.isascii() and it.isdigit() for it in words):
        print('usage: long_run.py [EVENTS [SEED]]', file=sys.stderr)
        return 2
    for line in long_run(*map(int, words)):
        print(line)
    return 0


if __name__ == '__main__':
    sys.exit(main(sys.argv[1:]))
