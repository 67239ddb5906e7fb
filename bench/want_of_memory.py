#!/usr/bin/env python3
"""want_of_memory.py [SCENARIO ..]: runs the built program on each scenario, each time with one more allocation that finds no
memory: the first, the second, and so on, until a run makes no allocation that fails. Each such run must end with status 6, for
Memory, and what it wrote must be a prefix of the transcript. Where no scenario is named, those of examples/ are run, and the stored
run of the program.

It is no part of the gate: a contract can't say that memory is found. The allocator of the C library is stood in for by a few lines
of C (allocations.py), which `cc` compiles into a folder that is gone afterwards. The last lines tell how many allocations were refused."""
import concurrent.futures
import glob
import os
import sys
import tempfile

from allocations import Allocator

TOP = os.path.dirname(os.path.dirname(os.path.abspath(__file__)))
CRATE = os.path.join(TOP, 'crates', 'replay_command')
PROGRAM = os.path.join(CRATE, 'out', 'replay_command')
MEMORY = 6


def ended(allocator, text, number):
    """The status and the output of a run in which the allocation of this number is refused; none is where it is 0."""
    ran = allocator.refusing(text, number)
    return ran.returncode, ran.stdout


def tried(path, allocator):
    """How many allocations were refused in turn, or None where a run did something else."""
    with open(path, 'rb') as file:
        text = file.read()
    whole = ended(allocator, text, 0)
    number = 1
    while True:
        status, written = ended(allocator, text, number)
        if (status, written) == whole:
            return number - 1
        if status != MEMORY or not whole[1].startswith(written):
            print(f'{path}: allocation {number}: status {status}, {len(written)} octets: {written[:80]!r}')
            return None
        number += 1


def main() -> int:
    if sys.argv[1:] in (['-h'], ['--help']):
        print(__doc__)
        return 0
    stored = [os.path.join(TOP, 'examples', '*.scn'), os.path.join(CRATE, 'stdin')]
    for path in sys.argv[1:]:
        if not os.path.isfile(path):
            print(f'{path} is no file; usage: want_of_memory.py [SCENARIO ..]', file=sys.stderr)
            return 2
    paths = sys.argv[1:] or [path for pattern in stored for path in sorted(glob.glob(pattern))]
    with tempfile.TemporaryDirectory() as folder:
        allocator = Allocator(PROGRAM, folder)
        with concurrent.futures.ThreadPoolExecutor(os.cpu_count()) as pool:
            counts = list(pool.map(lambda path: tried(path, allocator), paths))
    for path, count in zip(paths, counts):
        if count is not None:
            print(f'{path}: {count} allocations refused in turn, each answered with Memory and a prefix of the transcript')
    return 1 if None in counts else 0


if __name__ == '__main__':
    sys.exit(main())
