"""Documents in TOML."""
from collections.abc import Iterable, Iterator

from checks.parts import comparing, scenarios
from checks.parts.document_forms import ALL, NO_FORM, NO_NUMBER, NO_OCTETS, NO_TOML, OPTIONAL, TABLES, VALUES, Key
from checks.parts.steps import Faults, step


def spelled(tables: Iterable[tuple[str, Iterable[tuple[str, str]]]]) -> str:
    return ''.join(f'{header}\n' + ''.join(f'{key} = {value}\n' for key, value in keys) for header, keys in tables)


def values_of(keys: Iterable[Key]) -> list[tuple[str, str]]:
    return [(key, value) for key, value, *_ in keys]


def with_key(header: str, key: str, *values: str) -> str:
    """The document with all keys, where this one has these values in the place of its own."""
    here = [(key, value) for value in values]
    return spelled((at, [it for own in values_of(keys) for it in (here if (at, own[0]) == (header, key) else [own])])
                   for at, keys in TABLES)


def with_table(first: str, last: str, header: str, *keys: tuple[str, str]) -> str:
    """The document with all keys, where these stand behind a header in the place of the tables from a first one to a last."""
    headers = [at for at, _ in TABLES]
    gone = headers[headers.index(first):headers.index(last) + 1]
    return spelled((at, values_of(here) + (list(keys) if at == header else [])) for at, here in TABLES if at not in gone)


def changed_keys() -> Iterator[tuple[str, str, str]]:
    """Documents that differ in one key from the one with all keys."""
    for header, keys in TABLES:
        for key, value, line, word, without in keys:
            name = f'{header} {key}'
            yield f'{name}, missing', with_key(header, key), without or NO_FORM
            yield f'{name}, twice', with_key(header, key, value, value), NO_TOML
            for other in VALUES:
                if not (other[0] == value[0] == '"' or other == '1' and value.isdigit() or other == '["1"]' and key == 'steps'):
                    yield f'{name}, {other}', with_key(header, key, other), NO_FORM
            if line:
                other = NO_NUMBER if value.isdigit() else NO_OCTETS
                yield f'{name}, {other}', with_key(header, key, other), f'line {line}: BadLine {word}\n'
    for place, contexts in (2, '["zz", "0000"]'), (3, '["ffff", "zz"]'):
        yield f'contexts, {contexts}', with_key('[[sinks]]', 'contexts', contexts), f'line 10: BadLine {place}\n'


def changed_tables() -> Iterator[tuple[str, str, str]]:
    """Documents without a table, and with another value in its place."""
    for key, first, last, header, without in OPTIONAL:
        yield f'{key}, missing', with_table(first, last, header), without
        for value in VALUES:
            yield f'{key}, {value}', with_table(first, last, header, (key, value)), NO_FORM


def with_all_keys() -> Iterator[scenarios.Scenario]:
    whole = spelled((at, values_of(keys)) for at, keys in TABLES)
    for name, document, written in [('all keys', whole, ALL), *changed_keys(), *changed_tables()]:
        yield scenarios.of_document('documents', name, document.encode(), written.encode())


@step(seconds=3)
def check(replay: str) -> Faults:
    """With --toml the program writes of documents worked by hand what stands beside them: whole ones, for the forms of TOML and of the
    language, and one with all keys, of which each is left out, written twice, of each other type, and of a value that fits no place, which
    shows the word of the line that it becomes."""
    found = [*scenarios.worked_documents(), *with_all_keys()]
    yield from comparing.differences(replay, found)
    return f'{len(found)} documents'
