"""What is compiled over the library for C: the player, the fuzzer, the examples, and what C++, Rust and CMake make of it."""
import os
import shutil
import subprocess
import typing
from collections.abc import Sequence

import archives as static
from checks import TOP
from checks.parts.files import write
from crate_sums import in_order, listed

C = os.path.join(TOP, 'c')
LIMIT = 3600  # seconds for proofs
BLOCK = 65536  # octets for a source, a sink and a link
PLAYER = [os.path.join(C, 'tests', f'play{part}.c') for part in ('', '_source', '_sink', '_streams', '_links')]
FUZZER = [os.path.join(C, 'tests', f'fuzz{part}.c') for part in ('', '_sink', '_link', '_source')]
EXAMPLE = [os.path.join(C, 'examples', f'{part}.c') for part in ('main', 'source', 'player', 'assistant')]
WARNED = ['-Wall', '-Wextra', '-Wpedantic', '-Wshadow', '-Werror', '-O1', '-g', f'-I{C}']
SANITIZED = ['-fsanitize=address,undefined', '-fno-sanitize-recover=all']
PRODUCT = '''cmake_minimum_required(VERSION 3.16)
project(product C)
{found}
add_executable(stereo {files})
target_link_libraries(stereo vicemint::vicemint vicemint::{memory})
target_compile_definitions(stereo PRIVATE VM_BLOCK={block})
'''


class Broken(Exception):
    """Something doesn't build, or a program ends as it should not."""


def done(words: Sequence[str], limit: float = 300, **env: str) -> str:
    """What a command says; it has to end with 0."""
    ran = subprocess.run(words, capture_output=True, text=True, errors='replace', timeout=limit, check=False, env={**os.environ, **env})
    if ran.returncode:
        raise Broken(f'{" ".join(words)[:200]} ends with {ran.returncode}: {(ran.stdout + ran.stderr)[-1500:]}')
    return ran.stdout + ran.stderr


def memory(name: str) -> str:
    return os.path.join(C, f'memory_{name}.c')


class Library(typing.NamedTuple):
    """Where libvicemint.a is, and a folder for what is made over it."""
    folder: str
    room: str

    @property
    def archive(self) -> str:
        return os.path.join(self.folder, 'libvicemint.a')

    def compiled(self, name: str, compiler: str, files: Sequence[str], flags: Sequence[str] = ()) -> str:
        program = os.path.join(self.room, f'{name}_{os.path.basename(compiler)}')
        done([compiler, *WARNED, *flags, '-o', program, *files, self.archive])
        return program

    def player(self, compiler: str) -> str:
        return self.compiled('play', compiler, [*PLAYER, memory('counted')], ['-std=c99', *SANITIZED])

    def fuzzer(self) -> str:
        return self.compiled('fuzz', 'clang', [*FUZZER, memory('counted')], ['-std=c99', '-fsanitize=fuzzer', *SANITIZED])

    def examples(self, compiler: str) -> None:
        """The example over two back ends, each of which it has to run with."""
        for back_end in ('malloc', 'block'):
            done([self.compiled(f'stereo_{back_end}', compiler, [*EXAMPLE, memory(back_end)], ['-std=c99', f'-DVM_BLOCK={BLOCK}', *SANITIZED])])

    def in_cpp(self, compiler: str, standard: str) -> None:
        """The tests of vicemint.hpp; the back end is of C."""
        back_end = os.path.join(self.room, 'memory.o')
        done(['cc', '-std=c99', '-O1', f'-I{C}', '-c', '-o', back_end, memory('malloc')])
        for name in ('stereo', 'layouts'):
            done([self.compiled(f'{name}_{standard}', compiler, [os.path.join(C, 'tests', f'{name}.cpp'), back_end], [f'-std={standard}'])])

    def in_rust(self) -> None:
        rust = os.path.join(self.room, 'rust')
        shutil.copytree(os.path.join(C, 'rust'), rust, ignore=shutil.ignore_patterns('target', 'Cargo.lock'))
        manifest = os.path.join(rust, 'Cargo.toml')
        done(['cargo', 'test', '--offline', '--quiet', '--manifest-path', manifest], VICEMINT_LIB=self.folder)
        done(['cargo', 'rustc', '--offline', '--quiet', '--lib', '--no-default-features', '--manifest-path', manifest, '--', '-Dwarnings'],
             VICEMINT_LIB=self.folder)

    def in_cmake(self) -> None:
        """A product that has the library by add_subdirectory, and one that finds it where it was installed."""
        there = os.path.join(self.room, 'installed')
        own = f'-DVICEMINT_ARCHIVE={self.archive}'
        done(['cmake', '-S', C, '-B', f'{there}_built', own, f'-DCMAKE_INSTALL_PREFIX={there}'])
        done(['cmake', '--build', f'{there}_built', '--target', 'install'])
        found = {'added': f'add_subdirectory({C} vicemint)', 'found': 'find_package(vicemint 1 REQUIRED)'}
        for (name, how), back_end in zip(found.items(), ('block', 'malloc'), strict=True):
            product = os.path.join(self.room, name)
            os.makedirs(product)
            write(os.path.join(product, 'CMakeLists.txt'), PRODUCT.format(found=how, files=' '.join(EXAMPLE), memory=back_end, block=BLOCK))
            done(['cmake', '-S', product, '-B', f'{product}/built', own, f'-DCMAKE_PREFIX_PATH={there}'])
            done(['cmake', '--build', f'{product}/built'])
            done([f'{product}/built/stereo'])

    def in_pkg_config(self) -> None:
        words = done(['pkg-config', '--cflags', '--libs', 'vicemint'], PKG_CONFIG_PATH=self.folder).split()
        program = os.path.join(self.room, 'stereo_pkg_config')
        done(['cc', '-std=c99', '-o', program, *EXAMPLE, memory('malloc'), *words])
        done([program])


def library(room: str, archives: str) -> Library:
    """The library as c/build.sh makes it of archives, and runs the example."""
    folder = os.path.join(room, 'library')
    done([os.path.join(C, 'build.sh'), folder, archives], LIMIT)
    return Library(folder, room)


def archives_in(room: str, is_for_both: bool) -> str:
    """A folder with the static libraries of the crates, for aarch64 too where that is asked for. Where `rt ci` has just proved the crates
    below, they are taken as they were built."""
    folder = os.path.join(room, 'archives')
    lower = [name for name in in_order(listed()[0], *static.CRATES) if name not in static.CRATES]
    are_built = all(os.path.isdir(f'{TOP}/crates/{name}/out/rlib/{name}.rlib') for name in lower)
    options = [*(['--built'] if are_built else []), *(['--aarch64'] if is_for_both else [])]
    done([os.path.join(TOP, 'tools', 'archives.py'), *options, folder], LIMIT)
    return folder
