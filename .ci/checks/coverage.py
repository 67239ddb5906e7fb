"""How often each case comes in the worked rows, the examples and the corpus."""
import os

from checks import TOP
from checks.parts import cases, files, scenarios
from checks.parts.kinds import KINDS
from checks.parts.steps import Faults, step

FEW = 24  # so many cases of a kind are printed with their counts
GATE = os.path.join(TOP, 'docs', 'gate.md')
HEAD = '| What | Read from | How often |\n|---|---|---|\n'


def row_of(kind: str, source: str, counts: dict[str, int], is_all: bool) -> str:
    """A row of the table."""
    if is_all or len(counts) <= FEW:
        told = '; '.join(f'{name} {count}' for name, count in counts.items())
    else:
        least = min(counts, key=counts.__getitem__)
        told = f'{len(counts)} cases, from {counts[least]} time{"s" * (counts[least] != 1)} ({least}) to {max(counts.values())}'
    return f'| {kind} | {source} | {told} |\n'


def write_table(table: str) -> None:
    """Puts the table in the place of the one that docs/gate.md has."""
    before, _, rest = files.text_of(GATE).partition(HEAD)
    files.write(GATE, before + table + rest[rest.index('\n\n') + 1:])


@step(seconds=3)
def check(*, all: bool = False, write: bool = False) -> Faults:
    """Each case that can come does come somewhere in the worked rows, the examples and the corpus. --all prints each case with how often it
    comes, --write puts the table into docs/gate.md."""
    counts, found = cases.Counts(), list(scenarios.everything())
    for scenario in found:
        cases.count_cases(counts, scenario)
    total, table = 0, HEAD
    for kind, (source, names) in KINDS.items():
        has = {str(name): counts[kind, str(name)] for name in names}
        table += row_of(kind, source, has, all)
        total += len(has)
        yield from (f'never: {kind}: {name}' for name in has if not has[name])
    if all:
        print(table, end='')
    if write:
        write_table(table)
    return f'{len(found)} scenarios, {total} cases'
