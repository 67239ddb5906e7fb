"""What a step is, and which tools it may need."""
import dataclasses
import functools
import importlib.util
import inspect
import os
import shutil
import subprocess
import sys
import typing
from collections.abc import Callable, Generator

Faults = Generator[str, None, str]  # yields each fault, and gives back in a line what was tried


class Tool(typing.NamedTuple):
    """Something that a step needs besides the prover and Python: whether it is there, and Debian's packages that bring it."""
    lack: str
    packages: str
    is_there: Callable[[], bool]


def has_any(*names: str) -> Callable[[], bool]:
    return lambda: any(map(shutil.which, names))


def has_all(*names: str) -> Callable[[], bool]:
    return lambda: all(map(shutil.which, names))


@functools.cache
def python_with(module: str) -> str | None:
    """The first python3 that has a module: Debian's packages serve Debian's own, which need not be the first on the path."""
    for python in (sys.executable, '/usr/bin/python3'):
        if os.path.exists(python) and not subprocess.run([python, '-c', f'import {module}'], capture_output=True, check=False).returncode:
            return python
    return None


CHROMIUM = ('chromium', 'chromium-browser', 'google-chrome')
TOOLS = {
    'scapy': Tool('no python3 here has scapy', 'python3-scapy', lambda: importlib.util.find_spec('scapy') is not None),
    'tshark': Tool('tshark is missing', 'tshark', has_any('tshark')),
    'chromium': Tool('no Chromium is here', 'chromium', has_any(*CHROMIUM)),
    'cc': Tool('cc, a compiler for C, is missing', 'gcc libc6-dev', has_any('cc')),
    'clang': Tool('clang is missing', 'clang', has_any('clang')),
    'cxx': Tool('g++ and clang++ are missing', 'g++', has_any('g++', 'clang++')),
    'cargo': Tool('cargo is missing', 'cargo', has_any('cargo')),
    'aarch64': Tool('aarch64-linux-gnu-gcc or qemu-aarch64 is missing', 'gcc-aarch64-linux-gnu libc6-dev-arm64-cross qemu-user',
                    has_all('aarch64-linux-gnu-gcc', 'qemu-aarch64')),
    'cmake': Tool('cmake is missing', 'cmake', has_any('cmake')),
    'lc3': Tool('elc3 and dlc3 are missing', 'liblc3-tools', has_all('elc3', 'dlc3')),
    'mypy': Tool('no python3 here has mypy', 'python3-mypy', lambda: python_with('mypy') is not None),
    'pyflakes': Tool('no python3 here has pyflakes', 'python3-pyflakes', lambda: python_with('pyflakes') is not None),
    'shellcheck': Tool('shellcheck is missing', 'shellcheck', has_any('shellcheck')),
}


@dataclasses.dataclass(frozen=True)
class Step:
    """A step: its function, how many seconds it usually takes, the tools without which it is skipped, and those without which a part of it
    is. Where `absent` says why there is nothing to run, it is left out, which counts as nothing."""
    run: Callable[..., Faults]
    seconds: float
    needs: tuple[str, ...] = ()
    wants: tuple[str, ...] = ()
    absent: Callable[[], str] = str

    @property
    def name(self) -> str:
        return self.run.__module__.rpartition('.')[2]

    @property
    def shows(self) -> str:
        return inspect.getdoc(self.run) or ''

    @property
    def programs(self) -> list[str]:
        """The programs that it is given: the function's words without a default."""
        return [it.name for it in inspect.signature(self.run).parameters.values() if it.default is it.empty]

    @property
    def options(self) -> list[inspect.Parameter]:
        """What else it may be asked for: the function's words with a default."""
        return [it for it in inspect.signature(self.run).parameters.values() if it.default is not it.empty]

    def missing(self, tools: tuple[str, ...]) -> list[Tool]:
        return [TOOLS[it] for it in tools if not TOOLS[it].is_there()]


def step(*, seconds: float, needs: tuple[str, ...] = (), wants: tuple[str, ...] = (),
         absent: Callable[[], str] = str) -> Callable[[Callable[..., Faults]], Step]:
    """Makes a step of a function."""
    return lambda function: Step(function, seconds, needs, wants, absent)
