"""The definitions to trust."""
import os
import subprocess
import sys

from checks import TOP
from checks.parts.steps import Faults, step


@step(seconds=1)
def check() -> Faults:
    """The pages of docs/spec/ have the definitions that the promise of `replay` reaches, as the files have them."""
    words = [sys.executable, os.path.join(TOP, 'bench', 'trust.py'), '--check']
    done = subprocess.run(words, stdout=subprocess.PIPE, text=True, check=False)
    if done.returncode:
        yield f'bench/trust.py --check ends with {done.returncode}: {done.stdout}'
    return done.stdout.strip().removeprefix('trust: ')
