"""What `explain` writes of a run, line by line (docs/explain.md). timeline.py uses it."""
import functools
import re
from dataclasses import dataclass, field

import printed_rows

OCTETS = 'latin-1'  # each octet of a text is a character, whatever it is
REFUSAL = re.compile(r'line ([0-9]{1,18}): ')


class RunFault(Exception):
    """The run can't be read, with why."""


def named_fault(function):
    """The function with each fault that rows which belong to no lines bring told as RunFault."""
    @functools.wraps(function)
    def called(*words):
        try:
            return function(*words)
        except (LookupError, ValueError, AttributeError, TypeError, ArithmeticError) as error:
            raise RunFault(f'the rows are not those of the lines: {error!r}'.replace('\n', ' ')) from error
    return called


@dataclass(slots=True)
class Line:
    """A line of the scenario, with the rows of the transcript that it brings and the notes on it."""
    number: int
    text: str
    rows: list[str] = field(default_factory=list)
    notes: list[str] = field(default_factory=list)
    words: list[str] = field(init=False)

    def __post_init__(self):
        self.words = self.text.split(' ') if self.text and not self.text.startswith('#') else []

    @property
    def refusal(self):
        """The row that ends the transcript behind this line, or None."""
        return self.rows[-1] if self.rows and REFUSAL.match(self.rows[-1]) else None

    @property
    def is_refused(self):
        """Whether that row is of this line, and not of one that is missing behind it."""
        found = REFUSAL.match(self.refusal or '')
        return found is not None and int(found[1]) == self.number


def read_lines(rows):
    """The lines in the rows that `explain` wrote, each once the next one begins. What is told before the first of them, as of an empty
    text, is of a line 0."""
    line = None
    for place, row in enumerate(rows, 1):
        row, line = row.removesuffix('\n'), line or Line(0, '')
        number, space, text = row.partition(' ')
        if row.startswith('  # '):
            line.notes.append(row[4:])
        elif row.startswith('  '):
            printed = row[3:] if row.startswith('  ##') else row[2:]
            if not printed_rows.is_row(printed):
                raise RunFault(f'row {place} has no form that is known: {row[:60]!r}')
            line.rows.append(printed)
        elif space and number == str(line.number + 1):
            yield line
            line = Line(line.number + 1, text)
        else:
            raise RunFault(f'row {place} is not what `explain` writes: {row[:60]!r}')
    if line is None:
        raise RunFault('no run is told on standard input')
    yield line
