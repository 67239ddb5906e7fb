"""The rows of transcripts, by the table of tools/printed_rows.py."""
import os
import random
import typing
from collections.abc import Iterable, Iterator

import printed_rows
import run_reading
from checks import TOP
from checks.parts import scenarios
from checks.parts.files import text_of
from checks.parts.steps import Faults, step

CHANGED = 20  # rows of each form that are changed
UNIT = 'unit 0 1 at 5 lost'
# Drains with lines behind them that print rows of the same kinds: the lines, the rows, and how many rows each line has.
DRAINS = (
    (['drain 0', 'tuned 0 1', 'tell 0'], ['notice 0 0 aa', 'notice 0 0 bb'], [1, 0, 1]),
    (['drain 0', 'tuned 0 1', 'tell 0', 'read 0'], ['notice 0 0 aa', 'notice 0 0 bb', 'read 0 0 cc'], [1, 0, 1, 1]),
    (['drain 0', 'event', 'tuned 0 1', 'tell 0', 'event'], ['notice 0 0 aa', 'notice 0 0 bb', UNIT], [1, 0, 0, 1, 1]),
    (['drain 0', 'event', 'tuned 0 1', 'tell 0'], ['notice 0 0 aa', UNIT, 'notice 0 0 bb'], [1, 1, 0, 1]),
    (['drain 0', 'tuned 0 1', 'drain 0', 'tuned 0 2', 'tell 0'], ['notice 0 0 aa', 'notice 0 0 bb'], [1, 0, 0, 0, 1]),
    (['write 0 -', 'drain 0', 'write 0 -', 'drain 0'], ['reply 0 ok', 'reply 0 ok', 'read 0 0 aa'], [0, 1, 0, 2]),
    (['write 0 -', 'write 0 -', 'drain 0'], ['reply 0 ok', 'reply 0 ok', 'notice 0 1 -', 'read 0 0 aa'], [0, 0, 4]),
    (['adrain 0 1', 'apart 0 1', 'assist 0 1', 'aread 0 1'], ['aread 0 1 0 aa', 'aread 0 1 0 aa'], [1, 0, 0, 1]),
    (['adrain 0 1', 'apart 0 1', 'assist 0 1', 'aread 0 1'], ['aread 0 1 0 aa'], [0, 0, 0, 1]),
)


def words_of_the_language() -> set[str]:
    return set(text_of(os.path.join(TOP, '.ci', 'words')).split())


class Example(typing.NamedTuple):
    """A row, with the text and the rows among which it stands, and whether that is a document."""
    row: str
    text: bytes
    rows: list[str]
    is_document: bool


Examples = dict[str, list[Example]]  # of each form


def whole_transcripts() -> Iterator[scenarios.Scenario]:
    """The scenarios whose transcripts are whole."""
    for it in scenarios.everything():
        is_whole = it.transcript.endswith(b'\n') or not it.transcript
        if is_whole and it.words in ([], ['--toml']) and it.exit_code in (0, 1):
            yield it


def read(lines: list[str], rows: list[str]) -> list[run_reading.Step]:
    """The steps of a scenario, each with what it printed."""
    return list(run_reading.Reading(lines, rows))


def lines_of(text: bytes) -> list[str]:
    """The lines of a text. A line ends with 0x0A alone."""
    return [line + '\n' for line in text.decode(run_reading.OCTETS).split('\n')]


def tables() -> Iterator[str]:
    """Where the tables differ."""
    words, lines = words_of_the_language(), set(printed_rows.LINES)
    if words != lines:
        yield f'words: only in .ci/words {sorted(words - lines)}, only in the table {sorted(lines - words)}'
    ours = {word: {kind for it in prints for kind in it.kinds} for word, prints in printed_rows.LINES.items() if prints}
    theirs = {word: set(kinds) for word, kinds in scenarios.PRINTS.items()}
    for word in sorted(ours.keys() | theirs.keys()):
        if ours.get(word) != theirs.get(word):
            yield f'{word}: the table has {ours.get(word)}, scenarios.py {theirs.get(word)}'
    printed = set().union(*ours.values()) | {printed_rows.REFUSAL}
    if printed != set(printed_rows.KINDS):
        yield f'rows: of no line {sorted(set(printed_rows.KINDS) - printed)}, of no form {sorted(printed - set(printed_rows.KINDS))}'


def rows_of(told: Iterable[scenarios.Scenario], examples: Examples) -> Iterator[str]:
    """The rows that have no form, and the scenarios that can't be read with their rows. `examples` becomes for each form rows of it."""
    for scenario in told:
        rows, is_document = scenario.transcript.decode(run_reading.OCTETS).split('\n')[:-1], '--toml' in scenario.words
        for row in rows:
            form = printed_rows.form_of(row)
            if form is None:
                yield f'{scenario.title}: the row "{run_reading.shown(row)}" has no form'
            else:
                examples.setdefault(form, []).append(Example(row, scenario.text, rows, is_document))
        if is_document:
            continue
        try:
            read(lines_of(scenario.text), rows)
        except run_reading.RunFault as fault:
            yield f'{scenario.title}: {fault}'


def drains() -> Iterator[str]:
    """The drains whose rows are read otherwise."""
    for lines, rows, expected in DRAINS:
        try:
            got = [len(step.printed) for step in read([line + '\n' for line in lines + ['end']], rows)][:-1]
        except run_reading.RunFault as fault:
            yield f'{lines} with {rows}: {fault}'
            continue
        if got != expected:
            yield f'{lines} with {rows}: {got}, not {expected}'


def changes_of(row: str, draw: random.Random) -> Iterator[str]:
    """The row as another release might print it."""
    words = row.split(' ')
    place = draw.randrange(len(words))
    yield ' '.join([words[0] + 's'] + words[1:])
    yield ' '.join(words[:place] + ['new'] + words[place:])
    yield ' '.join(words[:place] + [words[place] + 'x'] + words[place + 1:])
    yield row + ' '
    yield row.upper() if words[-1] == '-' or words[0] == 'line' else ' '.join(words[:-1])


def changed_rows(examples: Examples, counts: dict[str, int]) -> Iterator[str]:
    """The rows that are changed, and read all the same."""
    draw = random.Random(1)
    for form, found in examples.items():
        for row, text, rows, is_document in draw.sample(found, min(CHANGED, len(found))):
            for other in changes_of(row, draw):
                counts['changed'] += 1
                if printed_rows.is_row(other) and printed_rows.form_of(other) == form and ' '.join(row.split(' ')[:-1]) != other:
                    yield f'"{run_reading.shown(row)}" may become "{run_reading.shown(other)}"'
                if is_document or printed_rows.is_row(other):
                    continue
                place = rows.index(row)
                try:
                    read(lines_of(text), rows[:place] + [other] + rows[place + 1:])
                    yield f'a transcript with "{run_reading.shown(other)}" in place of "{run_reading.shown(row)}" is read'
                except run_reading.RunFault:
                    pass


@step(seconds=3)
def check() -> Faults:
    """The table of what a line prints, tools/printed_rows.py, is that of the words of the language (.ci/words), of the reader of the corpus
    (scenarios.py), and of all rows of the corpus, the worked rows and the examples: each row has a form and comes where a line brings it,
    each form comes somewhere, and rows that are changed are refused."""
    told = list(whole_transcripts())
    examples: Examples = {}
    counts = {'changed': 0}
    yield from tables()
    yield from rows_of(told, examples)
    yield from drains()
    yield from (f'no row has the form "{form}"' for form in printed_rows.FORMS if form not in examples)
    yield from changed_rows(examples, counts)
    rows = sum(len(it) for it in examples.values())
    return (f'{len(printed_rows.LINES)} words, {len(printed_rows.FORMS)} forms, {rows} rows of {len(told)} scenarios, '
            f'{counts["changed"]} changed rows')
