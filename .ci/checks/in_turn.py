"""Lines that are given one by one: a program that reads a line before it wrote what the line before brings gets none."""
import os
import select
import subprocess
import time
import typing
from collections.abc import Iterator

from checks.parts import scenarios
from checks.parts.scenarios import Scenario
from checks.parts.steps import Faults, step

# Seconds until the program is taken to wait for more than it was given.
PATIENCE = 20
# Longer texts are left out, as each line is a write and a read.
LONGEST = 200_000
# Who waits so often doesn't write in turn.
MOST_FAULTS = 3


def read_exactly(file: int, count: int) -> bytes:
    """As many octets as are due, or fewer where the program ends or waits."""
    found, until = b'', time.monotonic() + PATIENCE
    while len(found) < count:
        if not select.select([file], [], [], max(0, until - time.monotonic()))[0]:
            return found
        piece = os.read(file, count - len(found))
        if not piece:
            return found
        found += piece
    return found


def turns(scenario: Scenario) -> Iterator[tuple[bytes | None, list[bytes]]]:
    """The lines to be given, each with what is due before the next: up to a refusal, behind which no line is read. None stands for the
    end of the text, which alone brings the refusal that no `end` came."""
    for line, lines in scenario.steps:
        is_last = bool(lines) and scenarios.is_refusal(lines[-1])
        if is_last and line is not None and lines[-1].endswith(b': NoEnd'):
            yield line, lines[:-1]
            yield None, lines[-1:]
        else:
            yield line, lines
        if is_last:
            return


def given_line(given: typing.IO[bytes], line: bytes | None) -> bool:
    """Gives a line, or the end of the text: whether the program still reads."""
    if line is None:
        given.close()
        return True
    try:
        given.write(line + b'\n')
    except BrokenPipeError:
        return False
    return True


def in_turn(program: str, scenario: Scenario) -> str | None:
    """What is wrong with a run, or None."""
    with subprocess.Popen([program], stdin=subprocess.PIPE, stdout=subprocess.PIPE, stderr=subprocess.DEVNULL, bufsize=0) as run:
        assert run.stdin and run.stdout
        try:
            for number, (line, lines) in enumerate(turns(scenario), 1):
                if not given_line(run.stdin, line):
                    return f'line {number}: the program ended before it'
                due = b''.join(it + b'\n' for it in lines)
                found = read_exactly(run.stdout.fileno(), len(due))
                if found != due:
                    return f'line {number}: {found!r}, not {due!r}, before the next line was given'
            if not run.stdin.closed:
                run.stdin.close()
            rest = read_exactly(run.stdout.fileno(), 1)
            return f'{rest!r} behind the transcript' if rest else None
        finally:
            run.kill()


def is_given_by_lines(scenario: Scenario) -> bool:
    """Whether a run can be given its lines one by one: no words, and a text and a transcript that end with a newline."""
    is_whole = scenario.text == scenarios.text_in(scenario.steps) and scenario.transcript == scenarios.transcript_in(scenario.steps)
    return not scenario.words and is_whole and len(scenario.text) <= LONGEST


@step(seconds=3)
def check(replay: str) -> Faults:
    """All that a line brings is written before the next line is read: the program is given the lines of the worked rows and of every fourth
    scenario of corpus/ one by one, each once all that the lines before it bring was written."""
    some = [*scenarios.rows(), *list(scenarios.corpus())[::4]]
    some = [it for it in some if is_given_by_lines(it)]
    faults = lines = 0
    for scenario in some:
        lines += len(scenario.steps)
        wrong = in_turn(replay, scenario)
        if wrong:
            faults += 1
            yield f'{scenario.title}: {wrong}'
            if faults == MOST_FAULTS:
                break
    return f'{len(some)} scenarios of {lines} lines'
