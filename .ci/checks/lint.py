"""The Python and the scripts of the repository, by what reads them without running them."""
import glob
import os
import subprocess
import tempfile
from collections.abc import Iterator

from checks import TOP
from checks.parts.files import text_of
from checks.parts.running import side_by_side
from checks.parts.steps import Faults, python_with, step

PLACES = ('', '.ci', 'tools', 'bench')
MOST_LINES = 400  # of a file
PATIENCE = 600  # seconds for a checker


def scripts_by(program: str) -> list[str]:
    """The scripts without an ending whose first line names this program, and those in bash with one."""
    paths = (it for place in PLACES for it in sorted(glob.glob(os.path.join(TOP, place, '*'))))
    plain = (it for it in paths if os.path.isfile(it) and (it.endswith('.sh') or '.' not in os.path.basename(it)))
    return [os.path.relpath(it, TOP) for it in plain if program in text_of(it).partition('\n')[0].partition('#!')[2]]


def modules() -> list[str]:
    paths = (it for place in PLACES for it in glob.glob(os.path.join(TOP, place, '*.py')))
    return sorted(os.path.relpath(it, TOP) for it in [*paths, *glob.glob(os.path.join(TOP, '.ci', 'checks', '**', '*.py'), recursive=True)])


def told_by(words: list[str]) -> list[str]:
    """The lines that a checker prints of files of the repository, and how it ends where that is all that it tells."""
    done = subprocess.run(words, cwd=TOP, capture_output=True, text=True, timeout=PATIENCE, check=False)
    told = [it for it in (done.stdout + done.stderr).splitlines() if it and not it.startswith(('Success', 'Found '))]
    return told or ([f'{words[2]} ends with {done.returncode}'] if done.returncode else [])


def types(found: list[str], scripts: list[str]) -> Iterator[str]:
    """What mypy tells: of the modules together, and of each script, which may have the name of another."""
    with tempfile.TemporaryDirectory() as cache:
        words = [python_with('mypy') or '', '-m', 'mypy', '--config-file', '.ci/mypy.ini', '--cache-dir', cache]
        yield from told_by([*words, *found])
        for script in scripts:
            yield from told_by([*words, '--scripts-are-modules', script])


def long_files(found: list[str]) -> Iterator[str]:
    for path in found:
        if (count := text_of(os.path.join(TOP, path)).count('\n')) > MOST_LINES:
            yield f'{path} has {count} lines'


@step(seconds=20, needs=('mypy', 'pyflakes', 'shellcheck'))
def check() -> Faults:
    """mypy and pyflakes find nothing in the Python of .ci/, tools/ and bench/, where each function of .ci/ has its types, nor shellcheck in
    the scripts in bash; no file of these has more than 400 lines."""
    found, scripts, shell = modules(), scripts_by('python3'), scripts_by('bash')
    yield from long_files(found + scripts + shell)
    yield from told_by([python_with('pyflakes') or '', '-m', 'pyflakes', *found, *scripts])
    yield from types(found, scripts)
    for told in side_by_side(lambda it: told_by(['shellcheck', '-x', it]), shell):
        yield from told
    return f'{len(found)} modules, {len(scripts)} scripts in Python and {len(shell)} in bash'
