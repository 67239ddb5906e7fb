"""A run of a scenario, step by step: each line with the rows that it brought. capture_out.py uses it.

Scenario and transcript are read line by line, so that neither has to fit into memory. Which rows a line brings, printed_rows.py says."""
import contextlib
import os
import shutil
import subprocess
import tempfile
import typing
from collections import deque
from collections.abc import Generator, Iterable, Iterator

import printed_rows

OCTETS = 'latin-1'  # each octet of a text is a character, whatever it is
WRITES = ('write', 'add', 'modify', 'remove', 'code')
SERVES = ('serve', 'aserve')
DRAINS = ('drain', 'adrain')
LOOKED_AHEAD, REQUIRED = 60, 3  # lines that are looked at behind a drain, and of them how many that print one row each time
NOT_OF_IT = 'the transcript is not of this scenario'
SHOWN = 80  # characters of a line that is named


class RunFault(Exception):
    """The run can't be read, with why."""


class Step(typing.NamedTuple):
    """A line by its number and its words, and the words of each row that it printed."""
    number: int
    words: list[str]
    printed: list[list[str]]


class Ahead:
    """Items that are taken from the front, and of which those behind it can be seen before."""

    def __init__(self, items: Iterable):
        self.items = iter(items)
        self.seen: deque[typing.Any] = deque()

    def peek(self, place=0):
        """The item at this place from the front, or None behind the last one."""
        while len(self.seen) <= place:
            try:
                self.seen.append(next(self.items))
            except StopIteration:
                return None
        return self.seen[place]

    def take(self):
        item = self.peek()
        self.seen.popleft()
        return item


class Reading:
    """The steps of a scenario that weren't refused. Once they were read, `refusal` is the row that refused the next line, or None."""

    def __init__(self, lines: Iterable[str], rows: Iterable[str]):
        self.lines, self.rows = Ahead(steps_among(lines)), Ahead(rows)
        self.waiting: dict[tuple[str, str], int] = {}  # of each link the writes that wait
        self.refusal: str | None = None
        self.last, self.is_ended = 0, False
        self.sinks: set[str] = set()

    def __iter__(self) -> Iterator[Step]:
        while (line := self.lines.peek()) is not None and not self.is_refused(line[0], self.rows.peek()):
            self.last, words = self.lines.take()
            try:
                step = Step(self.last, words, list(self.printed(words)))
                self.check_end(step)
            except LookupError:
                raise self.fault('has too few words') from None
            yield step
        row = self.rows.peek()
        if row is not None and row.startswith(printed_rows.REFUSAL + ' '):
            self.refusal = self.rows.take()
            if not printed_rows.is_row(row) or refused_number(row) <= self.last:
                raise RunFault(f'{NOT_OF_IT}: "{shown(row)}" refuses no line of it')
        if self.rows.peek() is not None:
            raise RunFault(f'{NOT_OF_IT}: no line of it brings "{shown(self.rows.take())}"')
        if not self.is_ended and self.refusal is None:
            raise RunFault(f'{NOT_OF_IT}: it has neither an end nor a refusal')

    def check_end(self, step: Step):
        """An `end` prints a sum for each sink that lives."""
        kind, name = step.words[0], ''.join(step.words[1:2])
        if kind == 'sink':
            self.sinks.add(name)
        elif kind == 'drop':
            self.sinks.discard(name)
        elif kind == 'end':
            self.is_ended = True
            if [row[1] for row in step.printed if row[0] == 'sum'] != sorted(self.sinks):
                raise self.fault('brings no "sum" of each sink')

    def fault(self, what: str) -> RunFault:
        return RunFault(f'{NOT_OF_IT}: line {self.last} {what}')

    @staticmethod
    def is_refused(number: int, row: str | None) -> bool:
        """Whether this row refuses the line of this number or one before it."""
        return row is not None and row.startswith('line ') and printed_rows.is_row(row) and refused_number(row) <= number

    def printed(self, words: list[str]) -> Iterator[list[str]]:
        """The rows of the line that was taken last."""
        kind = words[0]
        if kind not in printed_rows.LINES:
            raise self.fault(f'begins with "{shown(kind)}", and is not refused')
        replies = count_writes(words, self.waiting)
        if kind in DRAINS:
            yield from self.drained(words, replies)
            return
        for prints in printed_rows.LINES[kind]:
            row = self.row_of(words, prints.kinds)
            if prints.is_once and row is None:
                raise self.fault(f'({shown(" ".join(words))}) brings no "{prints.kinds[0]}"')
            while row is not None:
                yield row
                row = None if prints.is_once else self.row_of(words, prints.kinds)

    def row_of(self, words: list[str], kinds: tuple[str, ...]) -> list[str] | None:
        """The next row, taken, where it is of these kinds and of this line."""
        if not self.is_at(0, words, kinds):
            return None
        row = self.rows.take()
        if not printed_rows.is_row(row):
            raise RunFault(f'the row "{shown(row)}" has no form that is known')
        return row.split(' ')

    def is_at(self, place: int, words: list[str], kinds: tuple[str, ...]) -> bool:
        """Whether the row at this place is of these kinds and of this line."""
        row = self.rows.peek(place)
        return row is not None and kind_of(row) in kinds and printed_rows.is_of(words, row.split(' ', 3))

    def drained(self, words: list[str], replies: int) -> Iterator[list[str]]:
        """The rows of a drain. Those that follow may be of later lines, as of a `tell`, which are then refused without them."""
        replied = self.run(words, 'reply', 0, replies)
        counts = self.counts(words, replied)
        failed: set[typing.Any] = set()
        fitting = (it for it in counts if len(counts) == 1 or self.fits(0, replied + it, self.waiting, failed))
        for _ in range(replied + next(fitting, 0)):
            row = self.row_of(words, printed_rows.KINDS)
            if row is not None:
                yield row

    def counts(self, words: list[str], place: int) -> list[int]:
        """How many notices and reads from this place on may be of a drain, the likeliest number first."""
        notices = self.run(words, 'notice', place)
        return list(range(notices + self.run(words, 'read', place + notices), -1, -1))

    def run(self, words: list[str], kind: str, place: int, most: int | None = None) -> int:
        """How many rows from this place on are of this kind and of the link of a drain."""
        kinds, run = (('a' if words[0] == 'adrain' else '') + kind,), 0
        while run != most and self.is_at(place + run, words, kinds):
            run += 1
        return run

    def fits(self, line_at: int, row_at: int, waiting: dict, failed: set) -> bool:
        """Whether the lines from this place on can have brought the rows from that place on, as far as it is looked ahead. `failed` has
        the places for which that is known not to be so."""
        if (line_at, row_at) in failed:
            return False
        waiting, required, here = dict(waiting), 0, (line_at, row_at)
        while line_at < LOOKED_AHEAD and required < REQUIRED:
            line, row, line_at = self.lines.peek(line_at), self.rows.peek(row_at), line_at + 1
            if line is None or self.is_refused(line[0], row):
                return row is None or row.startswith('line ')
            replies = count_writes(line[1], waiting)
            if line[1][0] in DRAINS:
                row_at += self.run(line[1], 'reply', row_at, replies)
                if any(self.fits(line_at, row_at + it, waiting, failed) for it in self.counts(line[1], row_at)):
                    return True
                failed.add(here)
                return False
            taken = self.rows_at(line[1], row_at)
            if taken is None:
                failed.add(here)
                return False
            row_at += taken
            required += taken > 0 and any(it.is_once for it in printed_rows.LINES[line[1][0]])
        return True

    def rows_at(self, words: list[str], place: int) -> int | None:
        """How many rows from this place on are of a line that is no drain, or None where one of its rows is missing."""
        front = place
        for prints in printed_rows.LINES.get(words[0], ()):
            if prints.is_once and not self.is_at(place, words, prints.kinds):
                return None
            while self.is_at(place, words, prints.kinds):
                place += 1
                if prints.is_once:
                    break
        return place - front


def count_writes(words: list[str], waiting: dict[tuple[str, str], int]) -> int:
    """Counts the writes that wait on each link, and gives how many the line serves where it is a drain."""
    kind = words[0]
    if kind in WRITES or kind == 'awrite':
        waiting[link_of(words)] = waiting.get(link_of(words), 0) + 1
    elif kind in SERVES:
        waiting[link_of(words)] = waiting.get(link_of(words), 1) - 1
    elif kind in DRAINS:
        return waiting.pop(link_of(words), 0)
    elif kind in ('apart', 'drop', 'sink'):
        for place in [it for it in waiting if it[0] == words[1] and (kind != 'apart' or it[1] == words[2])]:
            del waiting[place]
    return 0


def steps_among(lines: Iterable[str]) -> Iterator[tuple[int, list[str]]]:
    """The steps among the lines of a scenario, each with the number of its line."""
    for number, line in enumerate(lines, 1):
        line = line.removesuffix('\n')
        if line and not line.startswith('#'):
            yield number, line.split(' ')


def kind_of(row: str) -> str:
    return row.partition(' ')[0]


def refused_number(row: str) -> int:
    """The number of the line that a refusal names."""
    return int(row.split(' ')[1].rstrip(':'))


def link_of(words: list[str]) -> tuple[str, str]:
    """The sink and the link of a line."""
    return words[1], words[2] if words[0].startswith('a') and words[0] != 'add' else '0'


def shown(text: str) -> str:
    """A text as it can be named in a line."""
    return ascii(text[:SHOWN])[1:-1]


def rows_in(file: Iterable[str]) -> Iterator[str]:
    """The rows of a transcript."""
    for row in file:
        if not row.endswith('\n'):
            raise RunFault(f'the transcript is cut in "{shown(row)}"')
        yield row[:-1]


def text_of(file: typing.IO[bytes]) -> Iterable[str]:
    """The lines of a file, with their line ends."""
    return (line.decode(OCTETS) for line in file)


def program_rows(program: str, text: typing.IO[bytes]) -> Generator[str, None, None]:
    """The rows that the program writes for a text, as they come."""
    with tempfile.TemporaryFile() as told:
        try:
            process = subprocess.Popen([program], stdin=text, stdout=subprocess.PIPE, stderr=told)
        except (OSError, ValueError) as error:
            raise RunFault(f'{program}: {getattr(error, "strerror", None) or error}') from error
        with process:
            assert process.stdout
            try:
                yield from rows_in(text_of(process.stdout))
            except BaseException:
                process.kill()
                raise
        if process.returncode not in (0, 1):
            told.seek(0)
            lines = told.read().decode(errors='replace').strip().split('\n')
            raise RunFault(f'{program} ended with {process.returncode}: {lines[-1]}')


@contextlib.contextmanager
def at_rest(path: str) -> Iterator[str]:
    """The path of a file that can be read several times: this one, or a copy where it is none, as a pipe."""
    if os.path.isfile(path) or os.path.isdir(path):
        yield path
        return
    with open(path, 'rb') as file, tempfile.NamedTemporaryFile() as copy:
        shutil.copyfileobj(file, copy)
        copy.flush()
        yield copy.name
