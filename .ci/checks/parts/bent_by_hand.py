"""Runs, files and words that no tool can take, each with the exit status that is expected."""
import os
from collections.abc import Iterator

from checks.parts import bent_sounds, files
from checks.parts.running import closed_tool, run, tool
from checks.parts.steps import TOOLS

HAS_SCAPY, HAS_CODER = TOOLS['scapy'].is_there(), TOOLS['lc3'].is_there()
GROUP = 'group unframed 20000 40000 8 10000 4 4 1 1 1 1 0 0 0 1'
LIFE = ['scenario 2', GROUP, 'sink 0 1 1', 'start 0', 'tuned 0 1', 'unit 1 - 0a0b0c', 'event', 'air 0 0', 'remove 0 0', 'serve 0', 'end']
TOLD = ['reply 0 82 SourceUnknown', 'unit 0 1 at 60060 valid 3 0a0b0c', 'sum 0 1 3']
WRONG_PAIRS = {
    'rows that are cut': (LIFE, TOLD[:1]), 'a row with too few words': (LIFE, ['reply 0'] + TOLD[1:]),
    'a reply without a write': ([it for it in LIFE if not it.startswith('remove')], TOLD),
    'an event before the start': ([it for it in LIFE if it != 'start 0'], TOLD), 'no group': ([LIFE[0]] + LIFE[2:], TOLD),
    'a sink that is not there': ([it for it in LIFE if not it.startswith('sink')], TOLD),
    'a number that is no decimal': ([it.replace('20000', '2\u00b2') for it in LIFE], TOLD),
    'a group of gigabytes': ([it.replace('4 4 1 1 1 1', '4 4 999999999 1 999999999 1') for it in LIFE], TOLD),
    'a sink of gigabytes': ([it.replace('sink 0 1 1', 'sink 0 1 999999999') for it in LIFE], TOLD),
    'a refusal of a line before': (LIFE, TOLD + ['line 3: Order']),
    'a row behind the refusal': (LIFE[:-1], TOLD[:1] + ['line 11: NoEnd', TOLD[0]]), 'no end': (LIFE[:-1], TOLD[:1]),
    'a row that no line prints': (LIFE, TOLD[:1] + ['units 5'] + TOLD[1:]),
}
REFUSED = {'a group of gigabytes': '4 4 999999999 1 999999999 1', 'a digit that is none': '4 4 \u00b2 1 1 1'}


def lines(text: list[str]) -> bytes:
    return '\n'.join([*text, '']).encode('latin-1')


def cases(program: str, explain: str, folder: str) -> Iterator[tuple[str, str, list[str], bytes, int]]:
    """Names with the tool, its words, what it is given, and the exit status that is expected."""
    written = {'life.scn': lines(LIFE), 'life.out': lines(TOLD)}
    for place, (text, rows) in enumerate(WRONG_PAIRS.values()):
        written[f'wrong{place}.scn'], written[f'wrong{place}.out'] = lines(text), lines(rows)
    for place, group in enumerate(REFUSED.values()):
        written[f'refused{place}.scn'] = lines([it.replace('4 4 1 1 1 1', group) for it in LIFE])
    for name, octets in written.items():
        files.write(os.path.join(folder, name), octets)

    def at(name: str) -> str:
        return os.path.join(folder, name)
    told = run(explain, lines(LIFE)).stdout
    unwritable = {'a folder': folder, 'a full disk': '/dev/full', 'a path that is not there': at('not/there')}
    for name, path in unwritable.items():
        yield f'timeline, {name}', 'timeline', [path], told, 1
    for name, numbers in (('ISO', '0 10000 4 4 1 1 1 1'), ('NUMBIS', '8 10000 4 4 0 1 1 1'), ('NSE', '8 10000 4 4 1 1 0 1')):
        yield f'timeline, {name} 0', 'timeline', [at('v')], told.replace(b'8 10000 4 4 1 1 1 1', numbers.encode()), 1
    if HAS_CODER:
        for name, sound_words, status in bent_sounds.cases(list(bent_sounds.sounds(program, folder)), folder):
            yield name, 'audio', sound_words, b'', status
    if not HAS_SCAPY:
        return
    words = [at('life.scn'), at('w'), '--program', program]
    yield 'a run', 'capture_out', words, b'', 0
    yield 'a transcript', 'capture_out', words[:2] + ['--transcript', at('life.out')], b'', 0
    for name, path in unwritable.items():
        yield f'capture_out, {name}', 'capture_out', [words[0], path] + words[2:], b'', 1
        yield f'capture_in, {name}', 'capture_in', [at('w'), '--out', path], b'', 1
        yield f'no scenario, {name}', 'capture_out', [path if path != '/dev/full' else at('x'), at('v')] + words[2:], b'', 1
    for place, name in enumerate(WRONG_PAIRS):
        yield name, 'capture_out', [at(f'wrong{place}.scn'), at('v'), '--transcript', at(f'wrong{place}.out')], b'', 1
    for place, name in enumerate(REFUSED):
        yield f'{name}, refused', 'capture_out', [at(f'refused{place}.scn'), at('v')] + words[2:], b'', 0
    for ear in ('x', '8', '', '\u00b2'):
        yield f'--ear {ear}', 'capture_out', words + ['--ear', ear], b'', 1
    for streams in ('x', '1,,2', '', '0', '32', '2', ',', '\u00b2'):
        yield f'--streams {streams}', 'capture_in', [at('w'), '--out', at('v'), '--streams', streams], b'', 1
    for base in ('x', '\u00b2', '1' * 40, '9' * 18):
        yield f'--base {base}', 'capture_in', [at('w'), '--out', at('v'), '--base', base], b'', 1
    yield 'no program', 'capture_out', words[:3] + [at('x')], b'', 1
    yield 'a program that fails', 'capture_out', words[:3] + ['/bin/false'], b'', 1
    yield 'a program that is not one', 'capture_out', words[:3] + [at('life.scn')], b'', 1


def command_lines(folder: str) -> Iterator[str]:
    """Faults of what each tool says of its words."""
    path = os.path.join(folder, 'nothing')
    of_sound = ['in', path, path, path, '--sink', '0']
    calls: dict[str, list[str]] = {'capture_out': [path, path], 'capture_in': [path, '--out', path], 'timeline': [path], 'audio': of_sound}
    none: list[str] = []
    for name, enough in calls.items():
        ended = tool(name, ['--help'])
        if ended.status != 0 or not ended.output.startswith('usage:') or ended.told and HAS_SCAPY and HAS_CODER:
            yield f'{name} --help: status {ended.status}: {ended.told}'
        for words in (none, ['--nothing'], enough + ['--nothing'], enough + ['more', 'words']):
            ended = tool(name, words)
            if ended.status != 2 or ended.output or os.path.exists(path):
                yield f'{name} {" ".join(words)}: status {ended.status}, not 2: {ended.told}'
        if name == 'timeline':
            ended = closed_tool(name, enough)
            if ended.status != 1 or ended.told.count('\n') != 1:
                yield f'{name} with standard input closed: status {ended.status}: {ended.told}'
            continue
        if name == 'audio':
            yield from bent_sounds.command_lines(enough)
            continue
        for words, status in ((['--help'], 0), (enough, 1)):  # -S: without the folders in which packages are
            ended = tool(name, words, options=['-S'])
            if ended.status != status or 'python3-scapy' not in ended.told or ended.told.count('\n') != 1:
                yield f'{name} {" ".join(words)} without scapy: status {ended.status}: {ended.told}'
