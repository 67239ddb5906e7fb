"""Sounds, and what is wrong with words for audio.py. bent_inputs.py uses it."""
import os
import random
import wave
from collections.abc import Iterator

from checks.parts import files
from checks.parts.running import called, run, tool

SOUNDS: tuple[tuple[int, int, list[str]], ...] = ((2, 16000, []), (1, 48000, ['--setting', '48_1']), (2, 44100, ['--sinks', '2']))
WRONG_GROUPS = (
    '', 'x', 'unframed', 'unframed 20000 40000 8 10000 4 4 1 1 1 1 0 0 0 1', 'framed' + ' 0' * 14,
    'framed 20000 40000 8 10884 130 135 2 0 3 3 0 734 2202 1', 'framed 20000 40000 8 10884 130 135 2 1 0 3 0 734 2202 1',
    'unframed 20000 40000 8 10884 130 130 2 1 3 3 0 734 2202 1')


def sounds(program: str, folder: str) -> Iterator[dict[str, bytes]]:
    """Short WAVs, each with its scenario and its transcript."""
    path = os.path.join(folder, 'sound')
    for channels, rate, words in SOUNDS:
        with wave.open(path, 'wb') as file:
            file.setparams((channels, 2, rate, 0, 'NONE', 'not compressed'))
            file.writeframes(random.Random(rate).randbytes(channels * 2 * rate // 20))
        called('audio', ['out', path, path + '.scn', *words])
        scenario = files.octets_of(path + '.scn')
        yield {'wav': files.octets_of(path), 'scenario': scenario, 'transcript': run(program, scenario).stdout}


def cases(runs: list[dict[str, bytes]], folder: str) -> Iterator[tuple[str, list[str], int]]:
    """Names with the words for audio.py, and the exit status that is expected. `life.scn` and `life.out` are a run without sound."""
    def at(name: str) -> str:
        return os.path.join(folder, name)
    for name, octets in runs[-1].items():
        files.write(at(name), octets)
    out, into = ['out', at('wav'), at('v')], ['in', at('scenario'), at('transcript'), at('v')]
    yield 'a sound', out, 0
    yield 'a sound that was heard', into + ['--sink', '0,1'], 0
    yield 'a setting of another rate', out + ['--setting', '48_2'], 1
    yield 'a run without a sound', ['in', at('life.scn'), at('life.out'), at('v'), '--sink', '0'], 1
    yield 'a transcript of another run', into[:2] + [at('life.out'), at('v'), '--sink', '0'], 1
    yield 'earbuds', out + ['--earbuds'], 0
    for sink in ('x', '8', '', '\u00b2', '0,', '2'):
        yield f'audio, --sink {sink}', into + ['--sink', sink], 1
    for words in WRONG_GROUPS:
        yield f'audio, --group {words}', out + ['--group', words], 1
    for name, path in (('a folder', folder), ('a full disk', '/dev/full'), ('a path that is not there', at('not/there'))):
        yield f'audio out, {name}', ['out', at('wav'), path], 1
        yield f'audio in, {name}', into[:3] + [path, '--sink', '0'], 1
        yield f'no WAV, {name}', ['out', path, at('v')], 1
        yield f'no transcript, {name}', into[:2] + [path, at('v'), '--sink', '0'], 1


def command_lines(enough: list[str]) -> Iterator[str]:
    """Faults of what audio.py says of its words in each way, and where its programs are missing."""
    for words in (['out'], ['in'], ['in', *enough[1:4]], ['out', *enough[1:3], '--setting', '48_7'], ['out', *enough[1:3], '--sinks', '9'],
                  ['out', *enough[1:3], '--sinks', '2', '--earbuds']):
        ended = tool('audio', words)
        if ended.status != 2 or ended.output:
            yield f'audio {" ".join(words)}: status {ended.status}, not 2: {ended.told}'
    for words, status in ((['--help'], 0), (['in', '--help'], 0), (enough, 1)):
        ended = tool('audio', words, env={**os.environ, 'PATH': ''})
        if ended.status != status or 'liblc3-tools' not in ended.told or ended.told.count('\n') != 1:
            yield f'audio {" ".join(words)} without its programs: status {ended.status}: {ended.told}'
