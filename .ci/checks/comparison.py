"""The comparison with an independent program."""
import os
import subprocess
import sys

from checks import TOP
from checks.parts.steps import Faults, step

ORACLE = os.environ.get('ORACLE', '')


def absent() -> str:
    return '' if os.path.isfile(ORACLE) else 'no independent program lies beside the repository'


@step(seconds=100, absent=absent)
def check(replay: str, *, first: int = 1, count: int = 2000) -> Faults:
    """The program writes what an independent one writes, on scenarios drawn anew. That program is no part of the repository; the variable
    ORACLE has its path."""
    with open(os.path.join(TOP, '.ci', 'words'), encoding='ascii') as file:
        words = ','.join(file.read().split())
    variables = {**os.environ, 'KINDS': 'scenario,toml,migrate,generated', 'FUZZ_WORDS': words}
    done = subprocess.run([sys.executable, ORACLE, str(first), str(count), replay], env=variables, check=False)
    if done.returncode:
        yield f'it ends with {done.returncode}'
    return f'{count} scenarios, from {first} on'
