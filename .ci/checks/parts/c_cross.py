"""The library for C for another processor, which is emulated."""
import os
import shutil

from checks.parts import c_builds
from checks.parts.files import write

PREFIX, RUNNER = 'aarch64-linux-gnu-', 'qemu-aarch64'
TOOLS = {'CC': 'gcc', 'AR': 'ar', 'RANLIB': 'ranlib', 'NM': 'nm'}
FLAGS = ['-std=c99', '-O2', '-static', f'-I{c_builds.C}', f'-DVM_BLOCK={c_builds.BLOCK}']


def is_there(archives: str = '') -> bool:
    """Whether the tools are there, and the folder of archives has some for that processor."""
    return all(map(shutil.which, (f'{PREFIX}gcc', RUNNER))) and (not archives or os.path.isdir(os.path.join(archives, 'aarch64')))


def library(room: str, archives: str) -> str:
    """The library for that processor, as c/build.sh makes it, which runs the example there, of the archives in the folder `aarch64` of those
    for this one."""
    folder = os.path.join(room, 'aarch64')
    named = {name: PREFIX + tool for name, tool in TOOLS.items()}
    words = [os.path.join(c_builds.C, 'build.sh'), folder, os.path.join(archives, 'aarch64')]
    c_builds.done(words, c_builds.LIMIT, **named, CFLAGS='-static', RUN=RUNNER)
    return os.path.join(folder, 'libvicemint.a')


def emulated(room: str, name: str, files: list[str], archive: str) -> str:
    """A program for that processor, as one that runs here."""
    program = os.path.join(room, f'{name}_aarch64')
    c_builds.done([f'{PREFIX}gcc', *FLAGS, '-o', f'{program}.elf', *files, archive])
    write(program, f'#!/bin/sh\nexec {RUNNER} {program}.elf "$@"\n')
    os.chmod(program, 0o755)
    return program


def player(room: str, archives: str) -> str:
    """The player on that processor. The example runs there over a static block too."""
    archive = library(room, archives)
    c_builds.done([emulated(room, 'stereo_block', [*c_builds.EXAMPLE, c_builds.memory('block')], archive)])
    return emulated(room, 'play', [*c_builds.PLAYER, c_builds.memory('counted')], archive)
