"""What ./replay, ./explain and ./prove do before and after the programs are proved, in a small repository with another `rt`."""
import fcntl
import glob
import os
import subprocess
import typing

import proof_times
from crate_sums import PROGRAMS, in_order, listed

from checks.parts.script_copy import NAMES, PROGRAM, Copy, write

CANNOT, USAGE, MEMORY = 70, 2, 6
UNPROVED = b'unproved run; ./prove proves the program, in about '
ENDED = 'checked: ended status={0}\\nrun=ended status={0} runners=1 proved=no\\n'
# how `rt try` may end otherwise: its status, and what it says
NO_ANSWERS = (
    ('6', 'checked: no-answer: the program wrote more than 1048576 bytes to standard output\\nrun=no-answer proved=no\\n'),
    ('6', 'checked: no-answer: the program did not end within 60 seconds\\nrun=no-answer proved=no\\n'),
    ('5', 'the two runs differ\\nrun=differ proved=no\\n'),
    ('4', 'checked: fault: an index is out of bounds\\nrun=fault proved=no\\n'),
    ('1', 'error: the crate is refused\\nrun=none proved=no\\n'),
    ('2', 'run=none proved=no\\n'),
    ('3', ''),
)
TEXT = b'scenario 2\nend\n'


def differs(what: str, ran: subprocess.CompletedProcess[bytes], status: int, out: bytes | None, *said: bytes) -> str | None:
    """What is wrong with a run: another status or output, or standard error lacks one of these."""
    if ran.returncode == status and (out is None or ran.stdout == out) and all(it in ran.stderr for it in said):
        return None
    return f'{what}: status {ran.returncode}, {ran.stdout[:80]!r}, {ran.stderr[-300:]!r}'


def unproved(copy: Copy) -> typing.Iterator[str | None]:
    """Runs by `rt try`: they end as the program does, or with 70 where it gives no answer."""
    for name in NAMES:
        yield differs(f'{name}, unproved', copy.run(name, given=TEXT), 0, b'tried: --\n' + TEXT, UNPROVED, b'compiled first')
    for status in range(MEMORY + 1):
        said = 'a line of the program\\n' + ENDED.format(status)
        ran = copy.run('replay', '--toml', given=TEXT, STATUS=str(status), SAID=said)
        yield differs(f'replay, unproved, {status}', ran, status, b'tried: -- --toml\n' + TEXT, UNPROVED, b'a line of the program\n')
        if b'run=' in ran.stderr or b'checked:' in ran.stderr:
            yield f'replay, unproved: standard error has lines of rt: {ran.stderr!r}'
    for tried_status, said in NO_ANSWERS:
        ran = copy.run('replay', given=TEXT, STATUS=tried_status, SAID=said)
        why = (b'1 MiB', b'60 s', b'./prove builds') if tried_status == '6' else (b'stands above', b'./prove tells')
        yield differs(f'replay, {said}', ran, CANNOT, b'', *why)
    ran = copy.run('replay', '--seed', '1', '--events', '2', given=TEXT)
    yield differs('replay --seed, unproved', ran, 0, b'tried: -- --seed 1 --events 2\n', UNPROVED)


def reads_and_writes(copy: Copy) -> typing.Iterator[str | None]:
    """Input that can't be read, output that can't be written, and what is missing."""
    shell = f'PATH={copy.path("bin")}:$PATH {copy.path("replay")}'
    for words, status, said in ((f'{shell} < {copy.folder}', 3, b'read fault\n'), (f'echo end | {shell} > /dev/full', 4, b'write fault\n')):
        ran = subprocess.run(['bash', '-c', words], stdin=subprocess.DEVNULL, capture_output=True, timeout=60, check=False)
        yield differs(words, ran, status, b'', said)
    bare = copy.path('bare')
    os.makedirs(bare, exist_ok=True)
    for tool in ('bash', 'env', 'dirname', 'readlink', 'find', 'cat', 'mktemp', 'rm', 'tail', 'grep'):
        found = subprocess.run(['bash', '-c', f'type -P {tool}'], capture_output=True, text=True, check=True).stdout.strip()
        os.symlink(found, os.path.join(bare, tool))
    for name in (*NAMES, 'prove'):
        yield differs(f'{name} without rt', copy.run(name, path=bare), CANNOT, b'', b'rt is not here')
    os.symlink(copy.path('bin/rt'), os.path.join(bare, 'rt'))
    for name in (*NAMES, 'prove'):
        yield differs(f'{name} without python3', copy.run(name, path=bare), CANNOT, b'', b'python3 is not here')


def proved(copy: Copy) -> typing.Iterator[str | None]:
    """Runs of the built programs, and of files that changed since."""
    copy.build()
    for name in NAMES:
        ran = copy.run(name, '--toml', given=TEXT)
        yield differs(f'{name}, proved', ran, 0, b'proved: --toml\n' + TEXT)
        if ran.stderr:
            yield f'{name}, proved: {ran.stderr!r}'
    ran = copy.run('prove')
    yield differs('prove with nothing to prove', ran, 0, b'', b'replay is proved and built', b'explain is proved and built')
    source = copy.path('crates/low/src/lib.rt')
    os.utime(source, (2**31, 2**31))
    yield differs('replay after a touch', copy.run('replay', given=TEXT), 0, b'proved: \n' + TEXT)
    write(source, '// changed\n')
    os.utime(source, (2**31, 2**31))
    ran = copy.run('replay', given=TEXT)
    yield differs('replay after a change', ran, 0, b'tried: --\n' + TEXT, b'unproved run, since files changed since it was proved; ./prove')
    ran = copy.run('replay', '--version')
    if b'of other files' not in ran.stdout:
        yield f'replay --version after a change: {ran.stdout!r}'
    write(source, '// low\n')
    ran = copy.run('replay', given=TEXT)
    yield differs('replay after the change was taken back', ran, 0, b'proved: \n' + TEXT)


def tried(copy: Copy) -> typing.Iterator[str | None]:
    """./try on files, beside built programs."""
    for name in ('one', 'two'):
        write(copy.path(name), TEXT.decode())
    ran = copy.run('try', copy.path('one'), STATUS='1')
    yield differs('try of a file', ran, 1, b'tried: --\n' + TEXT, b'unproved run, though the program is proved')
    ran = copy.run('try', copy.path('one'), copy.path('two'))
    yield differs('try of two files', ran, 0, None, b'nothing is proved')
    if not ran.stdout.startswith(b'tried: --cases '):
        yield f'try of two files: {ran.stdout!r}'
    ran = copy.run('try', copy.path('one'), copy.path('two'), STATUS='6')
    yield differs('try of two files, of which one has no answer', ran, CANNOT, None, b'1 MiB')
    yield differs('try of no file', copy.run('try', copy.path('one'), copy.path('none')), USAGE, b'', b'no file that can be read')


def estimates(_: Copy) -> typing.Iterator[str | None]:
    """How long ./prove says that it takes: of a table with each crate, less on more processors, and by the pace of what is proved."""
    below, _lines = listed()
    names = in_order(below, *PROGRAMS.values())
    table = proof_times.read_table()
    if set(table) != set(names):
        yield f'tools/proof_times.txt has not the crates below the programs: {sorted(set(table) ^ set(names))}'
    wholes = [proof_times.Times(names, below, it, table).whole for it in (1, 2, 3, 4, 8, 64)]
    if wholes != sorted(wholes, reverse=True) or wholes[0] < sum(table.values()) or wholes[0] > 1.1 * sum(table.values()):
        yield f'estimates on more and more processors: {wholes}'
    times = proof_times.Times(names, below, 4, table)
    half = set(names[:len(names) // 2])
    spent = times.whole - times.expected({it: 1.0 for it in half})
    lefts = [times.left(half, {}, pace * spent) for pace in (0.5, 1.0, 2.0)]
    if times.left(set(names), {}, times.whole) or lefts != sorted(lefts) or abs(lefts[1] - (times.whole - spent)) > 1:
        yield f'what is left at half, on machines of half, once and twice the time: {lefts}, of {times.whole}'


def held(copy: Copy) -> typing.Iterator[str | None]:
    """What a test run that holds its lock keeps from being built or removed; programs run unproved meanwhile."""
    for name in NAMES:
        os.remove(copy.program(name))
    with open(copy.path('.git/rt-ci.lock'), 'w', encoding='utf-8') as lock:
        fcntl.flock(lock, fcntl.LOCK_EX)
        for words in (['prove'], ['tools/build.py'], ['tools/check', 'low'], ['tools/slim', '--yes']):
            yield differs(f'{words} beside a test run', copy.run(*words), CANNOT, b'', b'test run')
        yield differs('replay beside a test run', copy.run('replay', given=TEXT), 0, b'tried: --\n' + TEXT, b'a test run (')
    for name in NAMES:
        write(copy.program(name), PROGRAM, 0o755)


def left(folder: str) -> list[str]:
    files = glob.glob(os.path.join(folder, 'crates', '*', 'out', '**'), recursive=True)
    return sorted(os.path.basename(it) for it in files if os.path.isfile(it))


def slimmed(copy: Copy) -> typing.Iterator[str | None]:
    """What `tools/slim` does beside what it says. The file of the lock is there, and nobody holds it."""
    every, kept = left(copy.folder), ['built', 'built', 'explain_command', 'replay_command']
    ways: list[tuple[list[str], int, list[str]]] = [
        ([], USAGE, every), (['--help'], 0, every), (['--yes', 'x'], USAGE, every), (['--yes'], 0, kept)]
    for words, status, stays in ways:
        ran = copy.run('tools/slim', *words)
        if ran.returncode != status or left(copy.folder) != stays:
            yield f'slim {words}: status {ran.returncode}, left {left(copy.folder)}'


def faults(folder: str) -> typing.Iterator[str]:
    copy = Copy(folder)
    for part in (unproved, reads_and_writes, proved, tried, estimates, held, slimmed):
        yield from filter(None, part(copy))
