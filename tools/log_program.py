"""The program `explain`, one line at a time: what a line brings is read before the next one is written. log_lay.py uses it."""
import collections
import re
import subprocess
import typing

import run_reading
from run_reading import OCTETS

MOST_TEXT = 67108864 - 100000  # octets of a scenario


class ProgramFault(Exception):
    """The program can't be run, or refuses a line, with why."""


class Program:
    """A run of `explain`. `notes` has the notes of the last lines, which come with the line behind."""

    def __init__(self, program: str, copy: typing.TextIO | None = None):
        self.copy, self.number, self.size, self.kept = copy, 0, 0, collections.deque[str]()
        self.notes: dict[int, list[str]] = {}
        try:
            self.process = subprocess.Popen([program], stdin=subprocess.PIPE, stdout=subprocess.PIPE, stderr=subprocess.PIPE)
        except (OSError, ValueError) as error:
            raise ProgramFault(f'{program}: {getattr(error, "strerror", None) or error}') from error

    def send(self, line: str, rows: int = 0) -> list[list[str]]:
        """Runs a line, and gives the words of so many rows that it brings."""
        assert self.process.stdin and self.process.stdout
        self.number += 1
        self.size += len(line) + 1
        if self.size > MOST_TEXT:
            raise ProgramFault('the log makes more lines than a scenario has')
        if self.copy:
            self.copy.write(line + '\n')
        try:
            self.process.stdin.write(line.encode(OCTETS) + b'\n')
            self.process.stdin.flush()
        except OSError as error:
            raise self.fault() from error
        self.notes[self.number] = []
        self.notes.pop(self.number - 3, None)
        while (told := self.next()) != f'{self.number} {line}':
            if told.startswith('  # '):
                self.notes.setdefault(self.number - 1, []).append(told[4:])
            elif told:
                raise ProgramFault(f'the program answers "{run_reading.shown(told)}" where line {self.number} should come')
        found: list[list[str]] = []
        while len(found) < rows:
            told = self.next()
            if told.startswith('  # '):
                self.notes[self.number].append(told[4:])
                continue
            if re.match('  line [0-9]+: ', told):
                raise ProgramFault(f'the program refuses "{run_reading.shown(line)}": {told.strip()}')
            found.append(told.strip().split(' '))
        return found

    def next(self) -> str:
        assert self.process.stdout
        line = self.process.stdout.readline()
        if not line:
            raise self.fault()
        return line.decode(OCTETS).rstrip('\n')

    def fault(self) -> ProgramFault:
        assert self.process.stderr
        self.process.kill()
        told = self.process.stderr.read().decode(errors='replace').strip().split('\n')[-1]
        return ProgramFault(f'the program ended before the log did: {told or "it says nothing"}')

    def end(self, sinks: int) -> None:
        self.send('end', sinks)
        self.close()

    def close(self) -> None:
        for stream in (self.process.stdin, self.process.stdout, self.process.stderr):
            if stream:
                stream.close()
        self.process.wait()
