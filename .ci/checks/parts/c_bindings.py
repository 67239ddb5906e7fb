"""What C++ and Rust have of c/vicemint.h: vicemint.hpp makes each call of it, and the crate of Rust declares each call and each struct of
it, with the same types in the same order."""
import os
import re
from collections.abc import Iterator

from checks import TOP
from checks.parts.c_prototypes import PLAIN, declared, declared_structs
from checks.parts.files import text_of

RUST = os.path.join('c', 'rust', 'src')
FUNCTION = re.compile(r'pub fn (\w+)\(([^)]*)\)(?: -> (\w+))?;')
STRUCT = re.compile(r'#\[repr\(C\)\][^{;]*?pub struct (\w+) \{(.*?)\n\}', re.S)
FIELD = re.compile(r'pub (\w+): ([^,\n]+),')
HANDLES = ('sink', 'link', 'source', 'stream')
LIBRARY = ('vm_counts_t', 'vm_tried_t', *(f'vm_{name}_t' for name in HANDLES))


def snake(name: str) -> str:
    return re.sub(r'(?<!^)(?=[A-Z])', '_', name).lower()


def plain(of_c: str) -> str:
    """A type of the header as Rust has it: counts are numbers of 64 bits there, all handles one struct, and a struct's name is without what
    stands in front of it and behind."""
    kind, pointer = of_c.removeprefix('const ').removesuffix(' *'), of_c.endswith(' *')
    name = 'uint64_t' if kind == 'vm_size_t' else kind
    if name in (f'vm_{it}_t' for it in HANDLES):
        name = 'handle'
    elif name not in PLAIN.values():
        name = re.sub(r'^(vm|air)_(\w+)_t$', r'\2', name)
    return f'{"const " if of_c.startswith("const ") else ""}{name}{" *" if pointer else ""}'


def of_rust(rust: str) -> str:
    """A type of the crate in the same words."""
    pointed = re.fullmatch(r'\*(const|mut) (\w+)', rust)
    name = pointed[2] if pointed else rust
    name = PLAIN.get(name) or snake(name)
    return f'{"const " if pointed and pointed[1] == "const" else ""}{name}{" *" if pointed else ""}'


def field_of_rust(name: str, rust: str) -> str:
    array = re.fullmatch(r'\[(\w+); (\d+)\]', rust)
    return f'{of_rust(array[1] if array else rust)} {name}{f"[{array[2]}]" if array else ""}'


def field(of_c: str) -> str:
    kind, name = of_c.split(' ', 1)
    return f'{plain(kind)} {name}'


def calls_of_rust(source: str) -> dict[str, tuple[str, list[str]]]:
    return {name: ('vm_status_t' if given else 'void', [of_rust(it.split(': ', 1)[1]) for it in words.split(', ') if it])
            for name, words, given in FUNCTION.findall(source)}


def differences() -> Iterator[str]:
    """Each way in which they differ from the header."""
    header, cpp = text_of(os.path.join(TOP, 'c', 'vicemint.h')), text_of(os.path.join(TOP, 'c', 'vicemint.hpp'))
    source = ''.join(text_of(os.path.join(TOP, RUST, name)) for name in ('raw.rs', 'values.rs'))
    wanted, own = declared(header), calls_of_rust(source)
    for name in sorted(wanted.keys() | own.keys()):
        given = wanted[name][0], [plain(it) for it in wanted[name][1]] if name in wanted else None
        if own.get(name) != given:
            yield f'{name}: {RUST} has {own.get(name)}, vicemint.h has {given}'
        if f'{name.replace("_drop", "_free")}(' not in cpp:
            yield f'{name}: vicemint.hpp makes no such call'
    structs = {snake(name): [field_of_rust(*it) for it in FIELD.findall(body)] for name, body in STRUCT.findall(source)}
    for name, fields in declared_structs(header).items():
        if name not in LIBRARY and structs.get(plain(name)) != [field(it) for it in fields]:
            yield f'{name}: {RUST} has {structs.get(plain(name))}, vicemint.h has {fields}'
