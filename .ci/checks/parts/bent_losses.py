"""Inputs of losses.py and choose.py that are bent: scenarios, traces, and the files of kept runs. bent_inputs.py uses it."""
import os
from collections.abc import Iterable, Iterator

from checks.parts.bending import OF_TEXTS
from checks.parts.bent_tools import Tool
from checks.parts.files import octets_of
from checks.parts.running import tool
from checks.parts.scenarios import Scenario

CHANNEL = 'burst:0.1,0.9,20,10'
SWEEP = ('--sink', f'all=1+2@{CHANNEL}', '--nse', '2,3', '--irc', '1,2,3', '--pto', '1', '--runs', '2', '--seconds', '0.5')
KEPT: dict[str, list[str]] = {'unframed': [], 'framed': ['--framed', '--setting', '16_2']}
TRACES = (b'# ms, loss\n0,0\n20,0.9\n\n40.5,0\n60,1\n', b'5,0.5\n')


def kept(program: str, explain: str, folder: str) -> Iterator[dict[str, bytes]]:
    """The files of two sweeps, of which one is framed."""
    for name, more in KEPT.items():
        path = os.path.join(folder, name + '.kept')
        tool('choose', [*SWEEP, *more, '--program', program, '--explain', explain, '--keep', path])
        yield {'kept': octets_of(path)}


def tools(small: Iterable[Scenario], program: str, explain: str, folder: str) -> Iterator[Tool]:
    """The tools, each with its inputs, how they are bent, and its words in a folder."""
    texts = [{'scenario': it.text} for it in small if b'\nair 0 0\n' in it.text]
    yield Tool('losses', texts, OF_TEXTS, lambda it: [f'{it}/scenario', '--sink', f'0@{CHANNEL}', '--out', f'{it}/written'])
    yield Tool('losses --sink', [{'trace': it} for it in TRACES], OF_TEXTS,
               lambda it: ['--sink', f'a=1@trace:{it}/trace', '--seconds', '0.1', '--out', f'{it}/written'])
    yield Tool('choose --merge', list(kept(program, explain, folder)), OF_TEXTS,
               lambda it: ['--merge', f'{it}/kept', '--csv', f'{it}/written'])
