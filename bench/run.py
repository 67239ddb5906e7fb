#!/usr/bin/env python3
"""run.py [--case TEXT ..] [--sizes NUMBER] [PROGRAM [OTHER]]: runs the built program on each case of bench/cases.py, and prints a
table: the processor time with the system's part of it, the instructions (where valgrind is there, and not of the largest sizes), the
allocations (where cc is there) and the peak of memory, of the program alone. Time and peak are the least of five runs. Beside time and
instructions stand those of the floor, bench/floor.c, which does the least work of a run: it is built where cc is there, and runs where
a scenario is read as a text. With two programs, which were built of two commits, each cell has both figures, and of time and
instructions how many times the first the second is. Below the table stands what takes more instructions an event where there are more
events, and what takes more than before.

PROGRAM is the one of this repository where none is named. Of a case of `explain` the one is run that the same repository has. A program
that lacks a mode, or a repository without `explain`, has dashes there. --case leaves the cases whose names have the text, --sizes so many
sizes of each. Each transcript is looked at first: the exit status is 0, the last lines are what they must be, and two programs write
the same. Where that isn't so, it is told, and the exit status is 1.

run.py --text CASE SIZE writes what a case reads instead, to be run otherwise."""
import argparse
import dataclasses
import os
import sys
import tempfile
from collections.abc import Iterator, Sequence

import cases
import measures

TOP = os.path.dirname(os.path.dirname(os.path.abspath(__file__)))
REPLAY, EXPLAIN = 'replay_command', 'explain_command'
PROGRAM = os.path.join(TOP, 'crates', REPLAY, 'out', REPLAY)
COLUMNS = ['Case', 'Size', 'Text (MB)', 'Time (ms)', '.. in the system', '.. of the floor', 'Instructions (M)', '.. an event',
           '.. of the floor', 'Allocations an event', 'Peak (MB)']
MORE, GROWTH = 1.001, 1.01
Numbers = Sequence[float | None]


def words_of() -> argparse.Namespace:
    parser = argparse.ArgumentParser(description=__doc__, formatter_class=argparse.RawDescriptionHelpFormatter)
    parser.add_argument('--case', action='append', metavar='TEXT', help='only the cases with this text in their names; may come again')
    parser.add_argument('--sizes', type=int, metavar='NUMBER', help='only so many sizes of each case, the least first')
    parser.add_argument('--text', nargs=2, metavar=('CASE', 'SIZE'), help='write what a case reads, and measure nothing')
    parser.add_argument('programs', nargs='*', default=[PROGRAM], metavar='PROGRAM', help='one or two built programs')
    words = parser.parse_args()
    if len(words.programs) > 2:
        parser.error('more than two programs')
    words.programs = [os.path.abspath(it) for it in words.programs]
    for program in words.programs:
        if not words.text and not os.access(program, os.X_OK):
            parser.error(f'{program} is no program; ./prove builds that of a repository')
    return words


class Program:
    """A built program, with the allocator that counts for it. Its path is None where there is none."""

    def __init__(self, path: str, folder: str) -> None:
        self.path = path if os.access(path, os.X_OK) else None
        os.mkdir(folder)
        self.allocator = measures.allocator_for(path, folder)

    def transcript(self, words: measures.Words, text: str) -> bytes | None:
        """What it writes, or None where it lacks what is asked."""
        return measures.transcript_of(self.path, words, text) if self.path else None


@dataclasses.dataclass
class Figures:
    """What a program took for a case of a size. None is what isn't known."""

    seconds: measures.Seconds | None = None
    instructions: int | None = None
    allocations: int | None = None
    peak: int | None = None


def fault_of(case: cases.Case, size: int, transcripts: list[bytes | None]) -> str | None:
    """What is wrong with the transcripts, or None."""
    known = [it for it in transcripts if it is not None]
    if len(set(known)) > 1:
        return 'the transcripts of the two programs differ'
    return case.fault(size, known[0]) if known else None


def scaled(values: Numbers, factor: float) -> Numbers:
    return [None if it is None else it * factor for it in values]


def cell(values: Numbers, form: str, has_ratio: bool = False) -> str:
    """The figures of one column, beside each other; a figure that isn't known is a dash."""
    if all(it is None for it in values):
        return '-'
    text = ' → '.join('-' if it is None else format(it, form) for it in values)
    before, after = values[0], values[-1]
    return f'{text} ({after / before:.2f})' if has_ratio and len(values) > 1 and before and after is not None else text


def row(case: cases.Case, size: int, octets: int, taken: list[Figures], floor: Figures) -> list[str]:
    """The cells of a case of one size, from the figures of each program and of the floor."""
    instructions = [it.instructions for it in taken]
    return [
        case.name, f'{size:,}', f'{octets / 1e6:.2f}',
        cell(scaled([it.seconds and it.seconds.whole for it in taken], 1e3), '.1f', True),
        cell(scaled([it.seconds and it.seconds.in_system for it in taken], 1e3), '.1f'),
        cell(scaled([floor.seconds and floor.seconds.whole], 1e3), '.1f'),
        cell(scaled(instructions, 1e-6), '.2f', True),
        cell(scaled(instructions, 1 / size), ',.0f'),
        cell(scaled([floor.instructions], 1e-6), '.2f'),
        cell(scaled([it.allocations for it in taken], 1 / size), '.2f'),
        cell(scaled([it.peak for it in taken], 1e-6), '.2f'),
    ]


class Table:
    """What was measured. `folder` is for the scenarios, the allocators and the floor; `instructions` keeps what each program took for a
    case of a size, and `faults` counts what is wrong."""

    def __init__(self, programs: list[str], folder: str) -> None:
        self.path = os.path.join(folder, 'scenario')
        explains = [it.replace(REPLAY, EXPLAIN) for it in programs]
        self.programs = {name: [Program(it, os.path.join(folder, f'{name}{number}')) for number, it in enumerate(paths)]
                         for name, paths in (('replay', programs), ('explain', explains))}
        self.floor = measures.floor_in(folder)
        self.instructions: dict[tuple[str, int], list[int | None]] = {}
        self.faults = 0

    def head(self) -> None:
        self.line(COLUMNS)
        self.line(['---', *['--:'] * (len(COLUMNS) - 1)])

    def line(self, cells: list[str]) -> None:
        print('| ' + ' | '.join(cells) + ' |', flush=True)

    def measure(self, case: cases.Case, size: int, is_counted: bool) -> None:
        with open(self.path, 'w', encoding='ascii') as file:
            file.writelines(case.text(size))
        try:
            transcripts = [it.transcript(case.words(size), self.path) for it in self.programs[case.program]]
            fault = fault_of(case, size, transcripts)
        except ValueError as ended:
            fault = str(ended)
        if fault:
            self.faults += 1
            print(f'{case.name}, {size:,}: {fault}', file=sys.stderr)
            return
        taken = self.taken(case, size, transcripts, is_counted)
        floor = self.of_the_floor(case, size, transcripts, is_counted)
        self.instructions[case.name, size] = [it.instructions for it in taken]
        self.line(row(case, size, os.path.getsize(self.path), taken, floor))

    def taken(self, case: cases.Case, size: int, transcripts: list[bytes | None], is_counted: bool) -> list[Figures]:
        """What each program takes that wrote a transcript."""
        words, taken = case.words(size), [Figures() for _ in transcripts]
        known = [place for place, it in enumerate(transcripts) if it is not None]
        paths = [it.path or '' for it in self.programs[case.program]]
        times = measures.seconds_of([paths[place] for place in known], words, self.path, case.is_piped)
        for place, seconds in zip(known, times):
            taken[place] = Figures(
                seconds,
                measures.instructions_of(paths[place], words, self.path) if is_counted else None,
                measures.allocations_of(self.programs[case.program][place].allocator, words, self.path),
                measures.peak_of(paths[place], words, self.path, len(transcripts[place] or b'')))
        return taken

    def of_the_floor(self, case: cases.Case, size: int, transcripts: list[bytes | None], is_counted: bool) -> Figures:
        """What the floor takes, where a scenario is read as a text."""
        lengths = [len(it) for it in transcripts if it is not None]
        if not self.floor or not lengths or case.words(size):
            return Figures()
        words = [str(lengths[-1])]
        seconds, = measures.seconds_of([self.floor], words, self.path, case.is_piped)
        return Figures(seconds, measures.instructions_of(self.floor, words, self.path) if is_counted else None)

    def more(self) -> Iterator[str]:
        """The cases for which the second program takes more instructions."""
        for (name, size), counts in self.instructions.items():
            before, after = counts[0], counts[-1]
            if before and after and after > MORE * before:
                yield f'more instructions: {name}, {size:,}: {after / before:.3f}'

    def not_linear(self) -> Iterator[str]:
        """The cases of which each event or round takes more instructions where there are more of them, the program's start left out."""
        start = self.instructions.get((cases.START, 1), [0])[-1] or 0
        known = [(name, size, (counts[-1] - start) / size) for (name, size), counts in self.instructions.items() if counts[-1] is not None]
        for (name, less, low), (other, size, high) in zip(known, known[1:]):
            if name == other and high > GROWTH * low:
                yield f'not linear: {name}: {low:,.0f} instructions an event of {less:,}, {high:,.0f} of {size:,}'


def write_text(name: str, size: str) -> int:
    """Writes what a case reads, and tells how the program is called where that is otherwise than `replay` without words."""
    if not size.isdecimal():
        print(f'{size!r} is no size', file=sys.stderr)
        return 2
    for case in cases.CASES:
        if case.name == name:
            sys.stdout.writelines(case.text(int(size)))
            called = [case.program, *case.words(int(size))]
            if called != ['replay']:
                print(' '.join(called), file=sys.stderr)
            return 0
    print(f'no case {name!r}; there are: {"; ".join(it.name for it in cases.CASES)}', file=sys.stderr)
    return 2


def main() -> int:
    words = words_of()
    if words.text:
        return write_text(*words.text)
    with tempfile.TemporaryDirectory() as folder:
        table = Table(words.programs, folder)
        table.head()
        for case in cases.CASES:
            if any(text in case.name for text in words.case or ['']):
                for place, size in enumerate(case.sizes[:words.sizes]):
                    table.measure(case, size, place < case.counted)
    for note in (*table.not_linear(), *table.more()):
        print(note)
    return 1 if table.faults else 0


if __name__ == '__main__':
    sys.exit(main())
