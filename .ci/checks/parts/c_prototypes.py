"""The prototypes of c/vicemint.h compared with the exports of the crates: name, parameters in order, and what is given back.

A parameter of the allocator is none of C's. `&[T]` is a pointer with a count behind it, `&mut T` a pointer, `&T` a pointer to const."""
import glob
import os
import re
from collections.abc import Iterator

from archives import CRATES
from checks import TOP
from checks.parts.files import text_of

EXPORT = re.compile(r'pub extern "C" fn (\w+)\s*\(([^)]*)\)(?:\s*->\s*(\w+))?')
PROTOTYPE = re.compile(r'^(void|vm_status_t) (\w+)\(([^;{]*)\);', re.M)
STRUCT = re.compile(r'pub struct (\w+) \{(.*?)\n\}', re.S)
C_STRUCT = re.compile(r'typedef struct (?:\w+ )?\{([^}]*)\} (\w+);')
COMMENT = re.compile(r'/\*.*?\*/|//.*', re.S)
PLAIN = {'u8': 'uint8_t', 'u16': 'uint16_t', 'u32': 'uint32_t', 'u64': 'uint64_t', 'usize': 'vm_size_t', 'bool': 'bool'}


def c_name(rust: str) -> str:
    """The name in C of a struct or of a number: AirBigInfo is air_big_info_t."""
    return PLAIN.get(rust) or re.sub(r'(?<!^)(?=[A-Z])', '_', rust).lower() + '_t'


def parameters_of(rust: str) -> Iterator[str]:
    """The types that C gives for a parameter."""
    if rust in ('Global', 'alloc::Global'):
        return
    pointed = re.fullmatch(r'&(mut )?(?:\[(\w+)(; *\d+)?\]|(\w+))', rust)
    if pointed is None:
        yield c_name(rust)
        return
    mutable, slice_of, fixed, one = pointed.groups()
    yield f'{"" if mutable else "const "}{c_name(slice_of or one)} *'
    if slice_of and not fixed:
        yield 'vm_size_t'


def exported() -> dict[str, tuple[str, list[str]]]:
    """What each export gives back, and its parameters, in C's types."""
    found: dict[str, tuple[str, list[str]]] = {}
    for crate in CRATES:
        for path in sorted(glob.glob(os.path.join(TOP, 'crates', crate, 'src', '*.rt'))):
            for name, words, given in EXPORT.findall(re.sub(r'//.*', '', text_of(path))):
                types = [' '.join(it.split(':', 1)[1].split()) for it in words.split(',') if ':' in it]
                found[name] = ('vm_status_t' if given else 'void', [it for rust in types for it in parameters_of(rust)])
    return found


def typed(words: str) -> str:
    """A parameter of C without its name."""
    pointer = '*' in words
    parts = words.replace('*', ' ').split()
    return ' '.join(parts[:-1]) + (' *' if pointer else '')


def declared(header: str) -> dict[str, tuple[str, list[str]]]:
    bare = COMMENT.sub('', header)
    return {name: (given, [typed(it) for it in re.sub(r'\s+', ' ', words).split(',')])
            for given, name, words in PROTOTYPE.findall(bare)}


def exported_structs() -> dict[str, list[str]]:
    """The fields of each struct that C sees, with their types."""
    found: dict[str, list[str]] = {}
    for crate in (*CRATES, 'c_values'):
        for path in sorted(glob.glob(os.path.join(TOP, 'crates', crate, 'src', '*.rt'))):
            text = re.sub(r'//.*', '', text_of(path))
            for place in re.finditer(r'#\[repr\(C\)\]', text):
                struct = STRUCT.search(text, place.end())
                if struct is None or 'ghost' in struct[2]:
                    continue
                fields = re.findall(r'pub (\w+): ([^,\n]+)', struct[2])
                found[c_name(struct[1])] = [f'{c_field(rust)} {name}{c_count(rust)}' for name, rust in fields]
    return found


def c_field(rust: str) -> str:
    array = re.fullmatch(r'\[(\w+); *\d+\]', rust)
    return c_name(array[1] if array else rust)


def c_count(rust: str) -> str:
    array = re.fullmatch(r'\[\w+; *(\d+)\]', rust)
    return f'[{array[1]}]' if array else ''


def declared_structs(header: str) -> dict[str, list[str]]:
    """The fields of each struct of the header; `uint8_t a, b;` is two."""
    found: dict[str, list[str]] = {}
    for body, name in C_STRUCT.findall(COMMENT.sub('', header)):
        fields: list[str] = []
        for line in body.split(';'):
            words = line.split(None, 1)
            if len(words) == 2:
                fields += [f'{words[0]} {it.strip()}' for it in words[1].split(',')]
        found[name] = fields
    return found


def statuses() -> tuple[dict[str, int], dict[str, int]]:
    """The statuses of the crates and of the header, by name."""
    crate = text_of(os.path.join(TOP, 'crates', 'c_values', 'src', 'status.rt'))
    listed = re.search(r'enum \{\s*(VM_OK,[^}]*)\}', text_of(os.path.join(TOP, 'c', 'vicemint.h')))
    names = [it.strip().removeprefix('VM_') for it in listed[1].split(',')] if listed else []
    return ({name: int(value) for name, value in re.findall(r'pub const (\w+): u32 = (\d+);', crate)},
            {name: place for place, name in enumerate(names)})


def differences() -> Iterator[str]:
    """Each way in which the header differs from the crates."""
    header = text_of(os.path.join(TOP, 'c', 'vicemint.h'))
    own, said = exported(), declared(header)
    for name in sorted(own.keys() | said.keys()):
        if own.get(name) != said.get(name):
            yield f'{name}: the crates have {own.get(name)}, vicemint.h has {said.get(name)}'
    structs, told = exported_structs(), declared_structs(header)
    for name in sorted(structs):
        if structs[name] != told.get(name):
            yield f'{name}: the crates have {structs[name]}, vicemint.h has {told.get(name)}'
    crate, listed = statuses()
    for name in sorted(crate.keys() | listed.keys()):
        if crate.get(name) != listed.get(name):
            yield f'{name}: the crates have {crate.get(name)}, vicemint.h has {listed.get(name)}'
