"""Built programs and tools that are run: over a text, within some time, in a process of their own or in this one."""
import concurrent.futures
import contextlib
import importlib
import io
import os
import signal
import subprocess
import sys
import traceback
import typing
from collections.abc import Callable, Iterable, Iterator, Mapping, Sequence

from checks import TOP

PATIENCE = 60  # seconds
TIME_LIMIT = 30  # seconds for a tool in this process
Ran = subprocess.CompletedProcess[bytes]
One = typing.TypeVar('One')
Other = typing.TypeVar('Other')


def run(program: str, text: bytes = b'', words: Sequence[str | bytes] = (), env: Mapping[str, str] | None = None,
        patience: float = PATIENCE) -> Ran:
    """A built program over a text."""
    return subprocess.run([program, *words], input=text, capture_output=True, timeout=patience, check=False, env=env)


def tool_path(name: str) -> str:
    return os.path.join(TOP, 'tools', f'{name}.py')


def tool(name: str, words: Sequence[str], text: bytes = b'', options: Sequence[str] = (), env: Mapping[str, str] | None = None,
         patience: float = PATIENCE) -> 'Outcome':
    """How a tool ends in a process of its own, over a text on its standard input."""
    done = run(sys.executable, text, [*options, tool_path(name), *words], env, patience)
    return Outcome(done.returncode, done.stdout.decode(errors='replace'), done.stderr.decode(errors='replace'))


def closed_tool(name: str, words: Sequence[str]) -> 'Outcome':
    """How a tool ends whose standard input is closed."""
    done = run('sh', b'', ['-c', 'exec "$@" <&-', 'sh', sys.executable, tool_path(name), *words])
    return Outcome(done.returncode, done.stdout.decode(errors='replace'), done.stderr.decode(errors='replace'))


class TimeIsOver(BaseException):
    """A tool takes too long."""


class Outcome(typing.NamedTuple):
    """How a tool ended and what it said on standard output and standard error. The status is -1 where it ended with a traceback, or not."""
    status: int
    output: str
    told: str
    traceback: str = ''


@contextlib.contextmanager
def limited(seconds: int) -> Iterator[None]:
    """A time in which what is inside has to end."""
    def over(*_: object) -> None:
        raise TimeIsOver
    before = signal.signal(signal.SIGALRM, over)
    signal.alarm(seconds)
    try:
        yield
    finally:
        signal.alarm(0)
        signal.signal(signal.SIGALRM, before)


def called(name: str, words: Sequence[str], text: bytes = b'', patience: int = TIME_LIMIT) -> Outcome:
    """How a tool ends in this process, over a text on its standard input."""
    main: Callable[[list[str]], int] = importlib.import_module(name).main
    output, told, standard = io.StringIO(), io.StringIO(), sys.stdin
    sys.stdin = io.TextIOWrapper(io.BytesIO(text))
    try:
        with contextlib.redirect_stdout(output), contextlib.redirect_stderr(told), limited(patience):
            status = main(list(words))
    except SystemExit as ending:
        status = ending.code if isinstance(ending.code, int) else 0 if ending.code is None else 1
    except TimeIsOver:
        return Outcome(-1, output.getvalue(), told.getvalue(), f'it takes more than {patience} s')
    except Exception:
        return Outcome(-1, output.getvalue(), told.getvalue(), traceback.format_exc())
    finally:
        sys.stdin = standard
    return Outcome(status, output.getvalue(), told.getvalue())


def library(source: str, path: str) -> str:
    """Compiles a library in C that stands between a program and the system's."""
    subprocess.run(['cc', '-shared', '-fPIC', '-x', 'c', '-o', path, '-', '-ldl'], input=source.encode(), check=True)
    return path


def side_by_side(function: Callable[[One], Other], over: Iterable[One]) -> Iterator[Other]:
    """What a function gives for each, in their order, as many at a time as there are processors."""
    with concurrent.futures.ThreadPoolExecutor(os.cpu_count()) as pool:
        yield from pool.map(function, over)
