"""The crates of the repository, and what is known of their proofs: a crate counts as proved by a sum of all that the prover reads of it.
build.py and check use it."""
import hashlib
import os
import types
import typing

TOP = os.path.dirname(os.path.dirname(os.path.realpath(__file__)))
PROGRAMS = {'replay': 'replay_command', 'explain': 'explain_command'}
PARTS = ('src', 'specs', 'proofs')
Below = dict[str, list[str]]  # of each crate those of this repository that its line names
Lines = dict[str, list[str]]  # of each crate the words of its line


class Crate(typing.Protocol):
    """A crate as the kit's `rt` has it."""
    name: str
    folder: str
    rlib: str
    is_program: bool


def program_file(crate: str) -> str:
    return f'{TOP}/crates/{crate}/out/{crate}'


def built_file(crate: str) -> str:
    """Has the sum of what a program was built of."""
    return f'{TOP}/crates/{crate}/out/built'


def text_of(path: str) -> str | None:
    try:
        with open(path, encoding='utf-8') as file:
            return file.read()
    except OSError:
        return None


def write(path: str, text: str) -> None:
    with open(path, 'w', encoding='utf-8') as file:
        file.write(text)


def listed() -> tuple[Below, Lines]:
    """The crates of this repository below each crate, by crates.txt, and the words of its line."""
    lines: Lines = {}
    with open(f'{TOP}/crates.txt', encoding='utf-8') as file:
        for line in file:
            name, colon, _ = line.partition('#')[0].partition(':')
            if colon:
                lines[name.split()[0]] = line.partition('#')[0].split()
    return {name: [it for it in words if it in lines] for name, words in lines.items()}, lines


def in_order(below: Below, *names: str) -> list[str]:
    """The crates that some stand on, lowest first, and these themselves, each once."""
    found: dict[str, None] = {}

    def find(name: str) -> None:
        if name not in found:
            for it in below[name]:
                if it != name:
                    find(it)
            found[name] = None

    for name in names:
        find(name)
    return list(found)


def add_files(total: 'hashlib._Hash', folder: str, inside: typing.Iterable[str]) -> None:
    """Adds the files of these folders in a folder to a sum, in their order, each with its place."""
    for part in inside:
        for at, folders, names in os.walk(f'{folder}/{part}'):
            folders.sort()
            for name in sorted(names):
                total.update(f'{os.path.relpath(f"{at}/{name}", folder)}\0'.encode())
                with open(f'{at}/{name}', 'rb') as file:
                    total.update(hashlib.blake2b(file.read()).digest())


class Kept:
    """What was proved of a crate is known by a sum of the kit, the crate's line and files, and the libraries below it."""

    def __init__(self, lines: Lines, below: Below, version: str) -> None:
        self.lines, self.below, self.version = lines, below, version
        self.files: dict[str, 'hashlib._Hash'] = {}
        self.libraries: dict[str, bytes] = {}
        self.sums: dict[str, str] = {}

    def of_files(self, name: str) -> 'hashlib._Hash':
        if name not in self.files:
            self.files[name] = hashlib.sha256(repr((self.version, text_of(f'{TOP}/HANDLES'), self.lines[name])).encode())
            add_files(self.files[name], f'{TOP}/crates/{name}', PARTS)
        return self.files[name].copy()

    def of_library(self, name: str) -> bytes:
        if name not in self.libraries:
            total = hashlib.sha256()
            add_files(total, f'{TOP}/crates/{name}/out/rlib', [f'{name}.rlib'])
            self.libraries[name] = total.digest()
        return self.libraries[name]

    def of_crate(self, name: str) -> str:
        total = self.of_files(name)
        for it in in_order(self.below, name)[:-1]:
            total.update(it.encode() + self.of_library(it))
        return total.hexdigest()

    def of_program(self, crate: str) -> str:
        """The sum of all that a program is made from, without what was made on the way."""
        total = hashlib.sha256()
        for it in in_order(self.below, crate):
            total.update(self.of_files(it).digest())
        return total.hexdigest()

    @staticmethod
    def place(name: str) -> str:
        return f'{TOP}/crates/{name}/out/' + ('proved' if name in PROGRAMS.values() else 'rlib/proved')

    @staticmethod
    def made(name: str) -> str:
        """What the proof of a crate leaves: its program or its library."""
        return program_file(name) if name in PROGRAMS.values() else f'{TOP}/crates/{name}/out/rlib/{name}.rlib'

    def has(self, name: str) -> bool:
        """Whether the crate was proved as it is, over the libraries that are there."""
        self.sums[name] = self.of_crate(name)
        return os.path.exists(self.made(name)) and text_of(self.place(name)) == self.sums[name]

    def keep(self, name: str) -> None:
        write(self.place(name), self.sums[name])

    def is_current(self, crate: str) -> bool:
        """Whether a program is built of all files as they are."""
        return os.path.isfile(program_file(crate)) and text_of(built_file(crate)) == self.of_program(crate)

    def lacking(self, names: typing.Iterable[str]) -> list[str]:
        """Those of these crates, lowest first, that aren't proved as they are, or stand on one that isn't."""
        lacking: dict[str, None] = {}
        for name in names:
            # what stands on a library that is proved anew may count as proved still, where that library comes out as it was
            if text_of(self.place(name)) is None or any(it in lacking for it in self.below[name]) or not self.has(name):
                lacking[name] = None
        return list(lacking)


# whose words stand in front of what is said: a script, or a tool
SPEAKER = types.SimpleNamespace(name='prove')
