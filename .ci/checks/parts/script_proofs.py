"""The first transcript of a fresh clone, and proofs of a small repository by ./prove, with the kit itself."""
import concurrent.futures
import os
import shutil
import subprocess
import typing

from checks import TOP
from checks.parts.script_copy import NAMES, copy_scripts, write
from checks.parts.script_runs import UNPROVED, differs

GIVEN, WRITTEN = b'tea 95\n', b'tea 1:35\n'  # what the kit's program of a first crate makes of a line


def fresh(folder: str) -> None:
    """Copies what git keeps, as it stands."""
    words = ['git', 'ls-files', '-z', '--cached', '--others', '--exclude-standard', 'crates', 'examples', 'crates.txt']
    names = subprocess.run(words, cwd=TOP, capture_output=True, text=True, check=True).stdout
    for name in filter(None, names.split('\0')):
        path = os.path.join(folder, name)
        if os.path.isfile(os.path.join(TOP, name)):
            os.makedirs(os.path.dirname(path), exist_ok=True)
            shutil.copy2(os.path.join(TOP, name), path)
    copy_scripts(folder)


def run(folder: str, script: str, given: bytes) -> subprocess.CompletedProcess[bytes]:
    return subprocess.run([os.path.join(folder, script)], input=given, capture_output=True, timeout=1200, check=False)


def first_transcripts(folder: str) -> typing.Iterator[str | None]:
    """Both scripts in a fresh copy, of which nothing is proved: one with a scenario that is refused."""
    fresh(folder)
    texts = {}
    for name in ('whole-life', 'refused'):
        for end in ('scn', 'out'):
            with open(f'{folder}/examples/{name}.{end}', 'rb') as file:
                texts[name, end] = file.read()
    with concurrent.futures.ThreadPoolExecutor() as pool:
        replayed = pool.submit(run, folder, 'replay', texts['whole-life', 'scn'])
        explained = pool.submit(run, folder, 'explain', texts['refused', 'scn'])
    yield differs('the first transcript', replayed.result(), 0, texts['whole-life', 'out'], UNPROVED)
    ran = explained.result()
    rows = b''.join(it[2:] + b'\n' for it in ran.stdout.splitlines() if it.startswith(b'  ') and not it.startswith(b'  # '))
    yield differs('the first run of explain', ran, 1, None, UNPROVED)
    if rows != texts['refused', 'out']:
        yield f'the first run of explain has the rows {rows[:200]!r}'
    if any(os.path.exists(f'{folder}/crates/{it}/out') for it in os.listdir(f'{folder}/crates')):
        yield 'an unproved run leaves files in crates/'


def small(folder: str) -> None:
    """A repository of a library and two programs, as the kit makes them."""
    os.makedirs(folder)
    subprocess.run(['git', 'init', '-q', folder], check=True)
    copy_scripts(folder)
    write(f'{folder}/crates.txt', '')
    for name, kind in (('low', 'start_lib'), ('replay_command', 'start_io'), ('explain_command', 'start_io')):
        subprocess.run(['rt', 'new', f'crates/{name}', kind], cwd=folder, capture_output=True, check=True)
    write(f'{folder}/crates.txt', 'low:\nreplay_command: low\nexplain_command: low\n')


def proofs(folder: str) -> typing.Iterator[str | None]:
    """./prove from nothing, with nothing to do, and over a body that breaks its contract."""
    small(folder)
    ran = run(folder, 'prove', b'')
    said = b'prove: all 3 crates are to be proved, in about ', b'of 3 proved: low, in ', b' left\n', b'proved and built in'
    yield differs('prove', ran, 0, b'', *said)
    for name in NAMES:
        ran = run(folder, name, GIVEN)
        yield differs(f'{name} behind prove', ran, 0, WRITTEN)
        if ran.stderr:
            yield f'{name} behind prove: {ran.stderr!r}'
    source = f'{folder}/crates/low/src/lib.rt'
    with open(source, encoding='utf-8') as file:
        text = file.read()
    write(source, text.replace('\n    x\n', '\n    x / 2\n'))
    ran = run(folder, 'prove', b'')
    yield differs('prove of a body that breaks its contract', ran, 1, b'', b'low is not proved')
    ran = run(folder, 'replay', GIVEN)
    yield differs('replay behind it', ran, 0, WRITTEN, b'since files changed since it was proved')
    write(source, text)
    yield differs('prove of the body as it was', run(folder, 'prove', b''), 0, b'')


def faults(folder: str) -> typing.Iterator[str]:
    yield from filter(None, first_transcripts(f'{folder}/fresh'))
    yield from filter(None, proofs(f'{folder}/small'))
