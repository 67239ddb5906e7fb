"""A tool over inputs of which one is bent, and what is wrong with how it ends."""
import os
import random
from collections.abc import Callable, Mapping, Sequence

from checks.parts import files
from checks.parts.bending import Kind
from checks.parts.running import Outcome, called

LINES_TOLD = 400  # characters of what was said that are shown


class Tool:
    """A tool, with the inputs that it may have, as names of files with their octets, the ways in which one of them is bent, and its words
    in a folder that has them."""

    def __init__(self, name: str, bases: Sequence[Mapping[str, bytes]], kinds: Sequence[Kind], words: Callable[[str], list[str]]):
        self.name, self.bases, self.kinds, self.words = name, bases, kinds, words

    def inputs(self, seed: int, number: int) -> dict[str, bytes]:
        """The files of a case, of which one is bent."""
        draw = random.Random(f'{seed} {self.name} {number}')
        found = dict(draw.choice(self.bases))
        bent = draw.choice(list(found))
        for _ in range(draw.choice((1, 1, 1, 3))):
            found[bent] = draw.choice(self.kinds)(found[bent], draw)
        return found

    def run(self, folder: str, inputs: Mapping[str, bytes]) -> Outcome:
        for name, octets in inputs.items():
            files.write(os.path.join(folder, name), octets)
        return called(self.name.split(' ')[0], self.words(folder), inputs.get('standard input', b''))


def fault_of(ended: Outcome) -> str | None:
    """What is wrong with how a tool ended on a bent input, or None."""
    if ended.traceback:
        return ended.traceback.strip()
    lines = ended.told.rstrip('\n').split('\n')
    if ended.status == 0 or ended.status == 1 and len(lines) == 1 and lines[0] and 'Traceback' not in ended.told:
        return None
    return f'status {ended.status}: {ended.told[:LINES_TOLD]}'
