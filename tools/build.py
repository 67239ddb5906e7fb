#!/usr/bin/env python3
"""Proves and builds the programs `replay` and `explain`, or the one of them that is named.

build.py [NAME]           proves each crate that they stand on and isn't proved yet, as many side by side as there are
                          processors and memory, and builds them; standard error tells how far that is, and what is left
build.py NAME state       says nothing, and ends with 0, where the program is built of the files as they are; else it prints
                          why not, and what that takes, and ends with 3
build.py [NAME] sum       prints the sum of all that the program is made from; `replay` where none is named, here and below
build.py [NAME] record S  takes the program that `rt ci` has just built for built, where that sum is still S

While `rt ci` runs in this checkout, what was proved is set aside, so nothing is built, and the status is 70. What a run of
`rt ci` that was killed had set aside is put back first.

It runs the prover by the Rattle kit's own `rt`, as `rt ci` does: each crate from nothing, over the statements of the crates
below it, but for the search for contracts that no call can meet, which `rt ci` makes behind each proof and `rt lib` doesn't: it
changes no proof, and takes nearly a fifth of the time. It differs from `rt lib` in two things. A crate that was proved is known
by its own files and by what the prover reads of the crates below, their libraries as they were built: so a change that changes
no library, as one of a comment, proves one crate again and not all above it. And each sum is taken once; `rt lib` takes a
crate's sum anew for each way in which another crate reaches it, which are 65,000 from the top. It was made for the kit whose
logic is dac8208d650f15bf; where the kit's `rt` lacks what it calls, it says so and calls plain `rt`, crate by crate.
"""
import os
import subprocess
import sys
import time

sys.dont_write_bytecode = True
from crate_sums import PROGRAMS, SPEAKER, TOP, Kept, built_file, in_order, listed, program_file, write  # noqa: E402
from kit_rt import is_tested, kit, load, put_back, say, stop_where_tested  # noqa: E402
from proof_lanes import SAID, by_lanes  # noqa: E402
from proof_times import Times, told  # noqa: E402

USAGE = 'usage: build.py [replay | explain] [sum | record SUM | state]'
MISUSED, OTHER, STOPPED = 2, 3, 130


def tell_version() -> int:
    """Prints the version of the repository: the exit status of what does."""
    return subprocess.run([f'{TOP}/tools/version'], check=False).returncode


def build_plainly(order: list[str]) -> bool:
    """Proves one crate after the other by the kit's public commands alone."""
    say("this kit's rt is not the one that tools/build.py was made for: plain rt proves crate by crate, the last of them for long")
    for name in order:
        say(f'proving {name}')
        is_program = name in PROGRAMS.values()
        words = ['rt', 'run' if is_program else 'lib', '--jobs', str(os.cpu_count())]
        ran = subprocess.run(words, cwd=f'{TOP}/crates/{name}', stdin=subprocess.DEVNULL, stdout=subprocess.PIPE,
                             stderr=subprocess.STDOUT, errors='replace', check=False)
        if ran.returncode and not (is_program and os.path.isfile(program_file(name))):
            print('\n'.join(ran.stdout.splitlines()[-SAID:]), file=sys.stderr)
            return False
    return True


def proved(order: list[str], path: str, kept: Kept) -> bool:
    """Proves these crates by the kit's `rt` at this path: whether all are."""
    rt = load(path)
    if rt:
        put_back(rt)
        try:
            return by_lanes(rt, TOP, order, kept)
        except (AttributeError, TypeError):
            pass
    return build_plainly(order)


def build(names: list[str]) -> bool:
    """Proves and builds these programs: whether all are built of the files as they are."""
    path, version = kit()
    below, lines = listed()
    kept, begun = Kept(lines, below, version), time.monotonic()
    due = [PROGRAMS[it] for it in names if not kept.is_current(PROGRAMS[it])]
    for name in names:
        if PROGRAMS[name] not in due:
            os.utime(built_file(PROGRAMS[name]))
            say(f'{name} is proved and built of the files as they are')
    if not due:
        return True
    wholes = {it: kept.of_program(it) for it in due}
    if not proved(in_order(below, *due), path, kept):
        return False
    now = Kept(lines, below, version)
    for it in due:
        if wholes[it] == now.of_program(it):
            write(built_file(it), wholes[it])
    which = ' and '.join(it for it in names if PROGRAMS[it] in due)
    say(f'{which}: proved and built in {time.monotonic() - begun:.0f} s; ./{" and ./".join(names)} run at once now')
    return True


def state(name: str) -> int:
    """Prints why a program isn't the proved one of the files as they are, and what proves it, if so."""
    crate = PROGRAMS[name]
    _, version = kit()
    below, lines = listed()
    kept = Kept(lines, below, version)
    if kept.is_current(crate):
        os.utime(built_file(crate))
        return 0
    if is_tested():
        print('unproved run: a test run (.ci/run or rt ci) is under way in this checkout and has set aside what was proved')
        return OTHER
    lacking = kept.lacking(in_order(below, *PROGRAMS.values()))
    processors = len(os.sched_getaffinity(0))
    takes = told(Times(lacking, below, processors).whole)
    why = ', since files changed since it was proved' if os.path.exists(built_file(crate)) else ''
    print(f"unproved run{why}; ./prove proves the program, in about {takes} on this machine's "
          f'{f"{processors} processors" if processors > 1 else "one processor"}')
    return OTHER


def record(name: str, total: str) -> int:
    """Takes a program for built, where its sum is this one."""
    _, version = kit()
    below, lines = listed()
    crate = PROGRAMS[name]
    if total != Kept(lines, below, version).of_program(crate) or not os.path.isfile(program_file(crate)):
        return MISUSED
    write(built_file(crate), total)
    return 0


def tell_sum(name: str) -> int:
    _, version = kit()
    below, lines = listed()
    print(Kept(lines, below, version).of_program(PROGRAMS[name]))
    return 0


def main(words: list[str]) -> int:
    if words in (['-h'], ['--help']):
        print(USAGE)
        return 0
    if words == ['--version']:
        return tell_version()
    named = [words.pop(0)] if words and words[0] in PROGRAMS else []
    name = named[0] if named else 'replay'
    if not words:
        stop_where_tested()
        return 0 if build(named or list(PROGRAMS)) else 1
    SPEAKER.name = name
    if words == ['sum']:
        return tell_sum(name)
    if words == ['state'] and named:
        return state(name)
    if len(words) == 2 and words[0] == 'record':
        return record(name, words[1])
    print(USAGE, file=sys.stderr)
    return MISUSED


if __name__ == '__main__':
    try:
        sys.exit(main(sys.argv[1:]))
    except KeyboardInterrupt:
        say('stopped; what is proved so far stays, and the next ./prove goes on from there')
        sys.exit(STOPPED)
