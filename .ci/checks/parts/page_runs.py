"""Runs that the tests of pages make: examples, and texts that are made here. timeline.py and pages.py use them."""
import os
from collections.abc import Callable, Iterable
from typing import Any

from checks import TOP
from checks.parts.files import octets_of
from checks.parts.long_run import long_run
from checks.parts.running import run
from timeline_data import data_of, read_run
from timeline_reading import OCTETS
from timeline_run import Run


def hundred() -> list[str]:
    """100 events of two streams, each payload sent once. Of stream b event e is place 2e + b - 1, and of three places the third is lost:
    the events 1, 4 .. 97 of stream 1 and 2, 5 .. 98 of stream 2."""
    lines = ['scenario 1', 'group unframed 20000 40000 8 10000 100 100 2 1 1 1 0 0 1800 1', 'sink 0 2 1', 'start 0', 'tuned 0 1 2']
    for event in range(100):
        lines += [f'unit {stream} - {event:02x}' for stream in (1, 2)] + ['event', 'air 0 3']
    return lines + ['end']


def stereo() -> list[str]:
    """3 s of stereo, as the generator would make them."""
    lines = ['scenario 1', 'group unframed 20000 40000 8 10000 100 100 2 1 3 2 1 600 1800 1', 'sink 0 2 1', 'start 0', 'tuned 0 1 2']
    for event in range(300):
        lines += [f'unit {stream} - {event % 256:02x}' + 99 * '5a' for stream in (1, 2)] + ['event', f'air 0 {event % 9 + 1}']
    return lines + ['end']


# A unit is rendered a second after its event.
GAP = ['scenario 1', 'group unframed 20000 1000000 8 10000 4 4 1 1 1 1 0 0 0 1', 'sink 0 1 1', 'start 0', 'tuned 0 1', 'unit 1 - aa',
       'event', 'air 0 0', 'end']


def often_shown() -> list[str]:
    """60 lines between two events, each of which brings marks: more than stand beside each other."""
    return [*GAP[:3], 'start 0', 'event', *60 * ['show 0'], 'event', 'end']


LONGEST = 300  # seconds for a text
Data = dict[str, Any]  # what a page embeds
MADE: dict[str, Callable[[], Iterable[str]]] = {
    'hundred': hundred, 'three-seconds': stereo, 'gap': lambda: GAP, 'no-end': lambda: GAP[:-1], 'often-shown': often_shown,
    'ten-minutes': long_run}


def explained(explain: str, text: bytes) -> str:
    return run(explain, text, patience=LONGEST).stdout.decode(OCTETS)


def text_of(name: str) -> bytes:
    if name in MADE:
        return '\n'.join([*MADE[name](), '']).encode()
    return octets_of(os.path.join(TOP, 'examples', name + '.scn'))


def rows_of(text: str) -> list[str]:
    """The rows of what `explain` wrote."""
    return text.removesuffix('\n').split('\n')


def run_of(told: str) -> tuple[Run, Data]:
    """The run that was told, and what its page embeds."""
    found = read_run(rows_of(told))
    return found, data_of(found, None)
