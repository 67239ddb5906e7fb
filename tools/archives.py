#!/usr/bin/env python3
"""Proves the crates of the library for C, and builds a static library of each.

archives.py OUT           proves what isn't proved yet of the crates below them, side by side, as ./prove does, and writes a static
                          library libCRATE.a for each crate into the folder OUT
archives.py --built OUT   takes the crates below as they were built, which `rt ci` has just proved in this checkout
archives.py .. --aarch64 OUT
                          writes those for aarch64 too, into OUT/aarch64

Each crate is proved once more, over the libraries of the crates below it, in a minute or two, and then compiled for each processor.
"""
import concurrent.futures
import functools
import os
import subprocess
import sys
import tempfile

sys.dont_write_bytecode = True
from build import proved, tell_version  # noqa: E402
from crate_sums import SPEAKER, TOP, Kept, in_order, listed  # noqa: E402
from kit_rt import kit, say, stop_where_tested  # noqa: E402

CRATES = ('sink_c', 'link_c', 'source_c', 'stream_c', 'layouts_c')
AARCH64 = 'aarch64-unknown-linux-gnu'
USAGE = 'usage: archives.py [--built] [--aarch64] OUT'
MISUSED, UNPROVED, LIMIT = 2, 1, 3600
SIDE_BY_SIDE = 3  # so many proofs at once, each of which takes some 1.2 GB


def words_of(crate: str, out: str) -> list[str]:
    """The call that proves a crate over the libraries below it, which are built, and writes its static library."""
    of, (below, lines) = os.path.dirname(os.path.dirname(kit()[0])), listed()
    own = [name for name in in_order(below, crate) if name != crate]
    others = {word for name in [*own, crate] for word in lines[name][1:] if word not in lines and not word.endswith(':')}
    words = [f'{of}/bin/rattle', 'build', '--crate-name', crate, 'src/lib.rt', '-L', f'dependency={of}/rlibs']
    for name in sorted(others - {'staticlib'} | {'std'}):
        words += ['--extern', f'{name}={of}/rlibs/{name}.rlib']
    for name in own:
        folder = f'{TOP}/crates/{name}/out/rlib'
        words += ['--extern', f'{name}={folder}/{name}.rlib', '-L', f'dependency={folder}']
    words += ['--antt-project', f'{of}/rattle/logic/antt-project.json', '--logic-built', f'{of}/logic_built', '--links', f'{crate}=']
    return [*words, '--crate-type', 'staticlib', '--toolchain', f'{of}/toolchain', '-o', out]


def archive(crate: str, folders: dict[str, str]) -> bool:
    """Proves a crate, and writes its static library into the folder of each target: whether it did. What the first check proved, the next
    takes from it."""
    say(f'proving and building {crate}')
    with tempfile.TemporaryDirectory() as kept:
        for target, folder in folders.items():
            words = words_of(crate, os.path.join(os.path.abspath(folder), f'lib{crate}.a'))
            words += ['--incremental', kept] if len(folders) > 1 else []
            words += ['--target', target] if target else []
            ran = subprocess.run(words, cwd=f'{TOP}/crates/{crate}', capture_output=True, text=True, errors='replace', timeout=LIMIT, check=False)
            if ran.returncode:
                print('\n'.join((ran.stdout + ran.stderr).splitlines()[-20:]), file=sys.stderr)
                return False
    return True


def main(words: list[str]) -> int:
    SPEAKER.name = 'archives'
    if words in (['-h'], ['--help']):
        print(USAGE)
        return 0
    if words == ['--version']:
        return tell_version()
    is_built = words[:1] == ['--built']
    left = words[is_built:]
    is_for_both = left[:1] == ['--aarch64']
    left = left[is_for_both:]
    if len(left) != 1 or left[0].startswith('-'):
        print(USAGE, file=sys.stderr)
        return MISUSED
    if not is_built:
        stop_where_tested()
        path, version = kit()
        below, lines = listed()
        lower = [name for name in in_order(below, *CRATES) if name not in CRATES]
        if not proved(lower, path, Kept(lines, below, version)):
            return UNPROVED
    folders = {'': left[0], **({AARCH64: os.path.join(left[0], 'aarch64')} if is_for_both else {})}
    for folder in folders.values():
        os.makedirs(folder, exist_ok=True)
    with concurrent.futures.ThreadPoolExecutor(min(SIDE_BY_SIDE, os.cpu_count() or 1)) as pool:
        made = list(pool.map(functools.partial(archive, folders=folders), CRATES))
    return 0 if all(made) else UNPROVED


if __name__ == '__main__':
    sys.exit(main(sys.argv[1:]))
