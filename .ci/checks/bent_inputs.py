"""Inputs of the tools that are bent."""
import os
import random
import resource
import tempfile
from collections.abc import Iterable, Iterator

from checks.parts import bent_by_hand, bent_losses, bent_sounds, files, scenarios
from checks.parts.bending import OF_CAPTURES, OF_TEXTS
from checks.parts.bent_tools import Tool, fault_of
from checks.parts.running import called, run
from checks.parts.scenarios import Scenario
from checks.parts.steps import TOOLS, Faults, step

KEPT = os.path.join(tempfile.gettempdir(), 'bent-inputs')  # where inputs that fail are left
MEMORY_LIMIT = 8 << 30  # octets that a case may take
LARGEST = 4000  # octets of a scenario that is bent, so that many can be


def small_scenarios() -> list[Scenario]:
    """Scenarios that do something."""
    return [it for it in scenarios.plain_runs() if it.exit_code == 0 and len(it.text) <= LARGEST and b'\nevent\n' in it.text]


def captures(program: str, small: list[Scenario], folder: str) -> Iterator[dict[str, bytes]]:
    """Captures as capture_out.py writes them, and as bad sniffers give them."""
    from checks.parts import bent_captures
    found = []
    for place, name in enumerate(bent_captures.GROUPS):
        draw, path = random.Random(place), os.path.join(folder, f'base{place}')
        drawn = bent_captures.Run(name, draw)
        files.write(path + '.scn', '\n'.join(drawn.text.split('\n')[:200] + ['end', '']))
        called('capture_out', [path + '.scn', path, '--program', program])
        found.append(path)
        bent_captures.write(path + '.old', bent_captures.Bent(bent_captures.records(path), draw, 1).packets, is_old=True)
        found.append(path + '.old')
    for place, scenario in enumerate(small[::40]):
        path = os.path.join(folder, f'small{place}')
        files.write(path + '.scn', scenario.text)
        called('capture_out', [path + '.scn', path, '--program', program])
        found.append(path)
    yield from ({'capture': files.octets_of(path)} for path in found)


def tools(program: str, explain: str, folder: str) -> Iterator[Tool]:
    """The tools that can be run here."""
    small = small_scenarios()
    told = [{'standard input': run(explain, it.text).stdout} for it in small[::6]]
    yield Tool('timeline', told, OF_TEXTS, lambda it: [f'{it}/written'])
    if TOOLS['lc3'].is_there():
        runs = list(bent_sounds.sounds(program, folder))
        yield Tool('audio out', [{'wav': it['wav']} for it in runs], OF_CAPTURES, lambda it: ['out', f'{it}/wav', f'{it}/written'])
        both = [{name: it[name] for name in ('scenario', 'transcript')} for it in runs]
        yield Tool('audio in', both, OF_TEXTS, lambda it: ['in', f'{it}/scenario', f'{it}/transcript', f'{it}/written', '--sink', '0'])
    yield from bent_losses.tools(small, program, explain, folder)
    if not TOOLS['scapy'].is_there():
        return
    texts = [{'scenario': it.text} for it in small]
    yield Tool('capture_out', texts, OF_TEXTS, lambda it: [f'{it}/scenario', f'{it}/written', '--program', program])
    both = [{'scenario': it.text, 'transcript': it.transcript} for it in small]
    yield Tool('capture_out --transcript', both, OF_TEXTS,
               lambda it: [f'{it}/scenario', f'{it}/written', '--transcript', f'{it}/transcript'])
    heard = list(captures(program, small, folder))
    yield Tool('capture_in', heard, OF_CAPTURES, lambda it: [f'{it}/capture', '--out', f'{it}/written'])
    yield Tool('capture_in --follow', heard, OF_CAPTURES, lambda it: [f'{it}/capture', '--out', f'{it}/written', '--follow', '--once'])


def by_hand(program: str, explain: str, folder: str, counts: dict[str, int]) -> Iterator[str]:
    """The faults of what is given by hand."""
    yield from bent_by_hand.command_lines(folder)
    for name, tool, words, given, status in bent_by_hand.cases(program, explain, folder):
        counts['by hand'] += 1
        ended = called(tool, words, given)
        fault = fault_of(ended) or (f'status {ended.status}, not {status}: {ended.told}' if ended.status != status else None)
        if fault:
            yield f'{name}: {fault}'


def kept_input(folder: str, tool: Tool, seed: int, number: int, inputs: dict[str, bytes]) -> str:
    """The folder in which the input of a case that fails is left."""
    place = os.path.join(folder, f'{tool.name.replace(" --", "-")}-{seed}-{number}')
    os.makedirs(place, exist_ok=True)
    for name, octets in inputs.items():
        files.write(os.path.join(place, name.replace(' ', '-')), octets)
    return place


def drawn_cases(tool: Tool, seed: int, numbers: Iterable[int], folder: str, place: str, counts: dict[str, int]) -> Iterator[str]:
    """The faults of a tool over the cases of these numbers."""
    for number in numbers:
        inputs = tool.inputs(seed, number)
        ended = tool.run(folder, inputs)
        counts[tool.name] += 1
        counts['taken'] += ended.status == 0
        fault = fault_of(ended)
        if fault:
            where = kept_input(place, tool, seed, number, inputs)
            yield f'{tool.name}, seed {seed}, case {number}, {where}: {fault}'


@step(seconds=100, wants=('scapy', 'lc3'))
def check(replay: str, explain: str, *, count: int = 200, seed: int = 1, tool: str = '', case: int = -1, kept: str = KEPT) -> Faults:
    """Each tool takes inputs that are bent: octets changed, words changed, lines dropped, doubled and moved, and files cut, for scenarios,
    transcripts, captures and what `explain` tells. It has to take --count N of them without a traceback, within some seconds, and end with
    0, or with 1 and one line on standard error. Besides, each is given words that can't be taken, files that can't be read or written, and
    `--help`. Cases are drawn by --seed, the tool and their number alone: --tool NAME --case NUMBER runs one again, whose input --kept
    keeps."""
    before = resource.getrlimit(resource.RLIMIT_AS)
    resource.setrlimit(resource.RLIMIT_AS, (MEMORY_LIMIT, before[1]))
    counts = dict.fromkeys(('by hand', 'taken'), 0)
    with tempfile.TemporaryDirectory(ignore_cleanup_errors=True) as folder:
        if not tool and case < 0:
            yield from by_hand(replay, explain, folder, counts)
        for one in tools(replay, explain, folder):
            if tool in ('', one.name):
                counts[one.name] = 0
                yield from drawn_cases(one, seed, [case] if case >= 0 else range(count), folder, kept, counts)
    taken, hand = counts.pop('taken'), counts.pop('by hand')
    return (f'seed {seed}: {", ".join(f"{number} of {name}" for name, number in counts.items())}; {taken} of them are '
            f'taken, the others refused in one line; {hand} by hand')
