#!/usr/bin/env python3
"""timeline.py PAGE: makes of a run that `explain` tells on standard input one HTML page, which shows the run over time.

README.md in this folder tells what the page shows."""
import argparse
import os
import sys
import time

sys.dont_write_bytecode = True
from command_words import Version  # noqa: E402
from timeline_data import data_of, read_run  # noqa: E402
from timeline_page import page_of  # noqa: E402
from timeline_reading import OCTETS, RunFault  # noqa: E402

QUIET, EVERY = 2, 1  # seconds: what takes longer tells how far it is, and how often


class Progress:
    """Tells on standard error how far a long run is."""

    def __init__(self):
        self.begun = self.told = time.monotonic()

    def tell(self, text):
        now = time.monotonic()
        if now - self.begun > QUIET and now - self.told > EVERY:
            self.told = now
            print(f'timeline: {text}', file=sys.stderr, flush=True)


def milliseconds(word):
    number = int(word) if word.isascii() and word.isdigit() else -1
    if not 0 <= number < 2 ** 40:
        raise argparse.ArgumentTypeError(f'{word!r} is no time in ms')
    return number


def words_of(words):
    parser = argparse.ArgumentParser(prog='timeline.py', description='Shows a run, which `explain` tells on standard input, as a page.')
    parser.add_argument('page', metavar='PAGE', help='the file that becomes the page')
    parser.add_argument('--title', help="what stands above it; else the page's name")
    parser.add_argument('--fold', metavar='MS', type=milliseconds,
                        help='folds each stretch of time in which nothing is for longer than this; else for longer than five ISO intervals')
    parser.add_argument('--version', action=Version, default=argparse.SUPPRESS, help='prints the version of the repository')
    return parser.parse_args(words)


def write_page(asked, progress):
    """Writes the page of the run on standard input, and gives its data."""
    if sys.stdin is None:
        raise RunFault('standard input is closed')
    rows = (row.decode(OCTETS) for row in sys.stdin.buffer)
    run = read_run(rows, lambda number: progress.tell(f'{number:,} lines are read'))
    progress.tell(f'{len(run.units):,} units are read, the page comes')
    data = data_of(run, asked.fold and asked.fold * 1000)
    name = os.path.splitext(os.path.basename(asked.page))[0] if asked.title is None else asked.title
    page = page_of(data, os.fsencode(name).decode('utf-8', 'replace')).encode()
    with open(asked.page, 'wb') as file:
        file.write(page)
    progress.tell(f'{asked.page} is written, {len(page):,} octets')
    return data


def main(words=None):
    asked = words_of(words)
    try:
        data = write_page(asked, Progress())
    except (OSError, RunFault) as error:
        print(f'timeline: {error}', file=sys.stderr)
        return 1
    if data['refusal']:
        print(f'timeline: the run ends with a refusal: {data["refusal"]}', file=sys.stderr)
    return 0


if __name__ == '__main__':
    sys.exit(main())
