"""The kit's own `rt` as a module, and what a run of `rt ci` does in this checkout meanwhile. build.py and check use it.

It was made for the kit whose logic is dac8208d650f15bf."""
import contextlib
import fcntl
import functools
import importlib.machinery
import importlib.util
import os
import shutil
import subprocess
import sys
import types

from crate_sums import PROGRAMS, SPEAKER, TOP, text_of

CANNOT = 70  # how a script ends that can't do what it is for


def say(text: str) -> None:
    print(f'{SPEAKER.name}: {text}', file=sys.stderr, flush=True)


def git_folder() -> str:
    """Where git keeps the state of this checkout: a worktree has a file that names it."""
    named = text_of(f'{TOP}/.git')
    return os.path.join(TOP, named.strip().removeprefix('gitdir: ')) if named else f'{TOP}/.git'


def is_tested() -> bool:
    """Whether `rt ci` runs in this checkout. It holds a lock until it ends, however it ends."""
    with contextlib.suppress(OSError), open(f'{git_folder()}/rt-ci.lock', 'rb') as lock:
        try:
            fcntl.flock(lock, fcntl.LOCK_SH | fcntl.LOCK_NB)
        except BlockingIOError:
            return True
    return False


def stop_where_tested() -> None:
    """Ends with 70 while `rt ci` runs here."""
    if is_tested():
        say('a test run (.ci/run or rt ci) is under way in this checkout and has set aside what was proved: run this again when it ended')
        sys.exit(CANNOT)


def put_back(rt: types.ModuleType) -> None:
    """Puts back what a run of `rt ci` that was killed had set aside, as the next one would, and the program too."""
    aside = f'{git_folder()}/rt-aside'
    if not os.path.isdir(aside):
        return
    with open(f'{git_folder()}/rt-ci.lock', 'w', encoding='utf-8') as lock:
        fcntl.flock(lock, fcntl.LOCK_EX)
        if not os.path.isdir(aside):
            return
        for program in PROGRAMS.values():
            if os.path.isfile(f'{aside}/{program}/{program}'):
                os.makedirs(f'{TOP}/crates/{program}/out', exist_ok=True)
                for name in (program, 'proved', 'built'):
                    with contextlib.suppress(FileNotFoundError):
                        shutil.move(f'{aside}/{program}/{name}', f'{TOP}/crates/{program}/out/{name}')
        rt.put_back(TOP, aside, was_killed=True)
        rt.clear(aside)
        say('put back what a test run that was killed had set aside')


def kit() -> tuple[str, str]:
    """The first `rt` on the path, and the logic of its kit as it names it."""
    found = shutil.which('rt')
    if not found:
        say('the Rattle kit is not here (no rt)')
        sys.exit(CANNOT)
    return os.path.realpath(found), subprocess.run([found, 'version'], stdout=subprocess.PIPE, text=True, check=True).stdout


def load(path: str) -> types.ModuleType | None:
    """The kit's own `rt` as a module, as `rt ci` sets it up, or None where it lacks what is called here."""
    loader = importlib.machinery.SourceFileLoader('rt', path)
    spec = importlib.util.spec_from_loader('rt', loader)
    if spec is None:
        return None
    rt = importlib.util.module_from_spec(spec)
    sys.modules['rt'] = rt
    loader.exec_module(rt)
    try:
        crate, lib = rt.Crate, rt.rtlib
        crate.allowed = rt.handles_of(TOP)
        # libraries hold their statements, and what is proved is held to HANDLES
        crate.cuts_libraries, lib.Crate = True, crate
        # the kit's own sums are not asked for: `Kept` stands for them
        crate.stamp = lambda it: ''
        # the kit goes each way anew to what lies below
        crate.below = functools.cache(crate.below)
        # what `rt` reads here of the prover's flags is whether it has that of the search for contracts that no call can meet
        help_of = lib.help_of
        lib.help_of = lambda verb: help_of(verb).replace('--empty-contracts', '')
        calls = (crate.build_rlib, crate.words, crate.prove, crate.link, lib.crates_below, lib.lock, rt.need, rt.free, rt.processors,
                 rt.put_back, rt.clear)
        lib.guarded()
    except (AttributeError, SystemExit):
        return None
    return rt if all(map(callable, calls)) else None
