"""The ends of the program: what `main` does around `replay`."""
import os
import subprocess
import typing
from collections.abc import Iterator, Sequence

from checks.parts.running import PATIENCE, Ran
from checks.parts.steps import Faults, step

USAGE = b'usage: replay [--migrate | --toml | --seed N --events M]\n'
UNIT = (b'scenario 1\ngroup unframed 20000 40000 8 10000 4 4 1 1 1 1 0 0 0 1\nsink 0 1 1\nstart 0\ntuned 0 1\nunit 1 - 0a\nevent\n'
        b'hear 0 0 1 0\nend\n')
HEARD = b'unit 0 1 at 60060 valid 1 0a\nsum 0 1 1\n'
EIGHT = b'scenario 1\n' + b''.join(b'sink %d 1 1\n' % sink for sink in range(8))
DOCUMENT = b'version = 1\nsteps = ["end"]\n[[sinks]]\nnumber = 3\nstreams = 1\nslots = 1\n'
SUMS = b''.join(b'sum %d 0 0\n' % sink for sink in range(8))

# a name, the words, the text that is read, what is written, the exit status, and what is said on standard error
Words = list[str | bytes]
ENDS: list[tuple[str, Words, bytes, bytes, int, bytes]] = [
    ('done', [], UNIT, HEARD, 0, b''),
    ('refused', [], b'scenario 1\nx\n', b'line 2: BadLine 0\n', 1, b''),
    ('eight sinks have boxes', [], EIGHT + b'end\n', SUMS, 0, b''),
    ('a ninth sink has none', [], EIGHT + b'drop 0\nsink 0 1 1\nend\n', b'sum 0 0 0\nline 11: NoOutlet\n', 1, b''),
    ('migrated', ['--migrate'], b'scenario 1\nend\n', b'scenario 2\nend\n', 0, b''),
    ('a document', ['--toml'], DOCUMENT, b'sum 3 0 0\n', 0, b''),
    ('no document', ['--toml'], UNIT, b'line 0: BadToml\n', 1, b''),
    ('generated', ['--seed', '1', '--events', '5'], b'', b'events 5\nunits 9 lost 1\nsum 0 5 500\nsum 1 4 400\n', 0, b''),
    ('usage: a word', ['x'], UNIT, b'', 2, USAGE),
    ('usage: an option alone', ['--seed', '1'], UNIT, b'', 2, USAGE),
    ('usage: no text', [b'\xff'], UNIT, b'', 2, USAGE),
    ('usage: an empty word', [''], UNIT, b'', 2, USAGE),
]
# the words, and whether they read, for standard input that can't be read: a folder
READ_FAULTS: list[tuple[Words, int, bytes]] = [
    ([], 3, b'read fault\n'), (['--migrate'], 3, b'read fault\n'), (['--toml'], 3, b'read fault\n'), (['x'], 2, USAGE)]
# the words and the text, for standard output that takes nothing: a device that is full
WRITE_FAULTS: list[tuple[Words, bytes]] = [
    ([], UNIT), (['--migrate'], UNIT), (['--seed', '1', '--events', '1'], b''), ([], b'x\n'), (['--toml'], DOCUMENT), (['--toml'], b'x')]


def run(replay: str, words: Sequence[str | bytes], name: str | None = None, **more: typing.Any) -> Ran:
    return subprocess.run([name or replay, *words], executable=replay, stderr=subprocess.PIPE, timeout=PATIENCE, check=False, **more)


def differences(replay: str) -> Iterator[tuple[str, bool]]:
    """The name of each end, and whether it differs."""
    for name, words, text, written, status, said in ENDS:
        for called in (None, '--migrate', 'x'):
            ran = run(replay, words, called, input=text, stdout=subprocess.PIPE)
            yield f'{name}, called {called}', (ran.stdout, ran.returncode, ran.stderr) != (written, status, said)
    for words, status, said in READ_FAULTS:
        folder = os.open('/', os.O_RDONLY)
        ran = run(replay, words, stdin=folder, stdout=subprocess.PIPE)
        os.close(folder)
        yield f'read fault, words {words}', (ran.stdout, ran.returncode, ran.stderr) != (b'', status, said)
    for words, text in WRITE_FAULTS:
        with open('/dev/full', 'wb') as full:
            ran = run(replay, words, input=text, stdout=full)
        yield f'write fault, words {words}', (ran.returncode, ran.stderr) != (4, b'write fault\n')


@step(seconds=1)
def check(replay: str) -> Faults:
    """The program ends as `main` should do around `replay`: the words go without the program's name, there are eight boxes, a fault of
    standard input or output is one of the source or the sink, and each status has its exit status and says its text on standard error. The
    end for want of memory is in allocations."""
    tried = list(differences(replay))
    yield from (f'{name}: differs' for name, differs in tried if differs)
    return f'{len(tried)} ends'
