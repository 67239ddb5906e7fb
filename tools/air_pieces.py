"""The PDUs of a run. capture_out.py uses it.

The program prints a PDU for a `sniff` line, and reads no text of more than 64 MiB. So the scenario is run again with a `sniff` line for
each PDU of a source, and where these are too many in several runs, each cut behind its last `sniff`. No other line is in these runs than
those that make PDUs: what sinks hear makes none, but for a relay, with which all lines are kept."""
import contextlib
import itertools
import tempfile
import typing
from collections.abc import Iterable, Iterator

import printed_rows
from run_reading import RunFault, program_rows, shown

GREATEST_TEXT = 67108864  # octets that `replay` reads
OF_SOURCES = (b'scenario', b'source', b'group', b'ident', b'cipher', b'subgroup', b'meta', b'bis', b'start', b'unit', b'event')
PRINTING_ALONE = (b'sniff', b'show', b'ashow')


class Pdu(typing.NamedTuple):
    """A PDU on the air, by its place."""
    event: int
    stream: int
    subevent: int
    octets: bytes


class Pieces:
    """The PDUs of a source in the order in which they are sent. `left` is how many there was no room for, once they were read."""

    def __init__(self, program: str, path: str, lines: int, number: int, places: list[tuple[int, int]], events: int, is_relayed: bool):
        self.program, self.path, self.lines, self.number = program, path, lines, number
        self.sniffs = [f'sniff 0 {stream} {subevent}\n'.encode() for stream, subevent in places]
        self.total, self.left, self.is_relayed = events * len(places), 0, is_relayed

    def __iter__(self) -> Iterator[Pdu]:
        done = 0
        while done < self.total:
            with tempfile.TemporaryFile() as file:
                sniffed = self.write(file, done)
                if sniffed == done:
                    self.left = self.total - done
                    return
                file.seek(0)
                with contextlib.closing(program_rows(self.program, file)) as rows:
                    for row in rows:
                        if row.startswith('pdu '):
                            done += 1
                            yield pdu_of(row)
            if done != sniffed:
                raise RunFault(f'{self.program} printed {done} PDUs in place of {sniffed}')

    def kept_lines(self) -> Iterator[bytes]:
        """The lines that make PDUs, with their line ends."""
        with open(self.path, 'rb') as file:
            for line in itertools.islice(file, self.lines):
                line = line.removesuffix(b'\n')
                word = line.partition(b' ')[0]
                if word in OF_SOURCES or self.is_relayed and word not in PRINTING_ALONE and not word.startswith(b'#') and word:
                    yield line + b'\n'

    def write(self, file: typing.IO[bytes], done: int) -> int:
        """Writes the text of a run in which the PDUs behind the first `done` are sniffed, and gives behind how many it ends."""
        size = passed = chosen = 0
        for line in self.kept_lines():
            size += len(line)
            if size > GREATEST_TEXT:
                break
            file.write(line)
            if line.startswith(b'source '):
                chosen = int(line[7:])
            elif line == b'event\n' and chosen == self.number:
                here = self.sniffs[max(0, done - passed):]
                fitting = fitting_in(GREATEST_TEXT - size, here)
                file.write(b''.join(here[:fitting]))
                size += sum(map(len, here[:fitting]))
                passed += len(self.sniffs)
                if fitting < len(here):
                    return max(done, passed - len(here) + fitting)
        return max(done, passed)


def fitting_in(room: int, lines: Iterable[bytes]) -> int:
    """How many of the lines, from the first one on, have room."""
    fitting = 0
    for line in lines:
        room -= len(line)
        if room < 0:
            break
        fitting += 1
    return fitting


def pdu_of(row: str) -> Pdu:
    if not printed_rows.is_row(row):
        raise RunFault(f'the row "{shown(row)}" has no form that is known')
    _, event, stream, subevent, octets = row.split(' ')
    return Pdu(int(event), int(stream), int(subevent), b'' if octets == '-' else bytes.fromhex(octets))

