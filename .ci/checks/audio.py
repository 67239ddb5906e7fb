"""Sound: WAVs that go out as scenarios, and what sinks hand up."""
import ctypes
import io
import math
import os
import random
import re
import shutil
import subprocess
import tempfile
import wave
from collections.abc import Callable, Iterable, Iterator, Sequence

import lc3_coder
from checks import TOP
from checks.parts import running
from checks.parts.files import octets_of, text_of, write
from checks.parts.steps import Faults, step

TONES = (440, 1330)  # Hz of the left and of the right channel
TONE_PART, NOISE_PART = 0.4, 0.05  # of the loudest
SECONDS = 0.4
BURST = 80_000  # µs
LIBRARY, S16 = 'liblc3.so.0', 0  # and how lc3_decode names samples of 16 bits


class ToolFault(Exception):
    """The tool doesn't take what it should."""


class Trial:
    """A WAV of tones and its scenario, in a folder."""

    def __init__(self, program: str, folder: str, choice: 'Choice'):
        name, channels, bits, more = choice
        self.program, self.folder, self.name, self.setting = program, folder, name, lc3_coder.Setting.of(name)
        self.channels, self.bits, self.told = channels, bits, ''
        lc3_coder.write_wav(self.at('in.wav'), channels, bits // 8, self.setting.rate, tones(self.setting.rate, channels, bits))
        self.tool('out', self.at('in.wav'), self.at('scn'), '--setting', name, *more)
        self.lines = text_of(self.at('scn')).split('\n')

    def at(self, name: str) -> str:
        return os.path.join(self.folder, name)

    def tool(self, *words: str) -> str:
        done = running.tool('audio', words)
        if done.status != 0:
            raise ToolFault(f'{self.name}: audio.py {words[0]} ended with {done.status}: {done.told.strip()}')
        return done.told

    def heard(self, lines: list[str], sink: str) -> tuple[list[str], bytes]:
        """The transcript of these lines, and the WAV of what the sink hands up."""
        write(self.at('scn'), '\n'.join(lines))
        rows = running.run(self.program, octets_of(self.at('scn'))).stdout
        write(self.at('out'), rows)
        self.told = self.tool('in', self.at('scn'), self.at('out'), self.at('out.wav'), '--sink', sink)
        return rows.decode().split('\n'), octets_of(self.at('out.wav'))

    def round_trip(self) -> tuple[bytes, list[list[bytes]]]:
        """What elc3 and dlc3 make of the WAV, and the frames of each channel between. 44.1 kHz is told them as 48 kHz."""
        plain, coded, back = self.at('plain.wav'), self.at('coded.lc3'), self.at('back.wav')
        shutil.copy(self.at('in.wav'), plain)
        relabel(plain, self.setting.coded_rate)
        octets, duration = self.setting.octets, self.setting.duration
        bit_rate = math.ceil(octets * 8_000_000 / duration) * self.channels
        coding = ['elc3', '-b', f'{bit_rate}', '-m', f'{duration / 1000}', plain, coded]
        for command in (coding, ['dlc3', '-b', f'{self.bits}', coded, back]):
            subprocess.run(command, capture_output=True, check=True)
        relabel(back, self.setting.rate)
        blocks, size = octets_of(coded)[18:], 2 + octets * self.channels
        return octets_of(back), [[blocks[at + 2 + octets * channel:at + 2 + octets * (channel + 1)] for at in range(0, len(blocks), size)]
                            for channel in range(self.channels)]


def tones(rate: int, channels: int, bits: int) -> bytes:
    """Samples of a tone in each channel, with noise, so that no two frames are alike."""
    draw, most = random.Random(1), 2 ** (bits - 1) - 1
    loud = (TONE_PART * math.sin(2 * math.pi * TONES[channel] * at / rate) + draw.uniform(-NOISE_PART, NOISE_PART)
            for at in range(int(rate * SECONDS)) for channel in range(channels))
    return b''.join(round(most * it).to_bytes(bits // 8, 'little', signed=True) for it in loud)


def relabel(path: str, rate: int) -> None:
    """Writes another rate into the head of a WAV as `wave` and dlc3 write it."""
    with open(path, 'r+b') as file:
        head = file.read(36)
        file.seek(24)
        file.write(rate.to_bytes(4, 'little') + (rate * int.from_bytes(head[32:34], 'little')).to_bytes(4, 'little'))


class Decoder:
    """The decoder of liblc3 for one channel, which is told of a frame that it was lost by no frame."""

    def __init__(self, setting: lc3_coder.Setting):
        self.library, self.setting = ctypes.CDLL(LIBRARY), setting
        duration, rate = setting.duration, setting.coded_rate
        self.memory = ctypes.create_string_buffer(self.library.lc3_decoder_size(duration, rate))
        self.library.lc3_setup_decoder.restype = ctypes.c_void_p
        self.decoder = ctypes.c_void_p(self.library.lc3_setup_decoder(duration, rate, rate, self.memory))
        self.delay = self.library.lc3_delay_samples(duration, rate)

    def frame(self, octets: bytes | None) -> tuple[int, list[int]]:
        """Whether the frame was concealed, and its samples."""
        samples = (ctypes.c_int16 * self.setting.samples)()
        is_concealed = self.library.lc3_decode(self.decoder, octets, self.setting.octets, S16, samples, 1)
        return is_concealed, list(samples)

    def channel(self, frames: Iterable[bytes | None]) -> list[int]:
        """The samples of frames, of which those that are None were lost."""
        return [it for frame in frames for it in self.frame(frame)[1]][self.delay:]


def samples_in(octets: bytes) -> tuple[list[list[int]], int]:
    """The channels of a WAV of 16 bits, and its rate."""
    with wave.open(io.BytesIO(octets)) as sound:
        channels, samples = sound.getnchannels(), memoryview(sound.readframes(sound.getnframes())).cast('h')
        return [list(samples[channel::channels]) for channel in range(channels)], sound.getframerate()


def without_loss(trial: Trial) -> Iterator[str]:
    """What differs from the round trip where nothing was lost."""
    wanted, _ = trial.round_trip()
    rows, found = trial.heard(trial.lines, '0')
    if any(row.endswith(' lost') for row in rows):
        yield 'a unit is lost where all was heard'
    if found != wanted:
        yield f'the WAV differs from the round trip, {len(found)} octets and {len(wanted)}'


def with_losses(trial: Trial, lines: list[str], sink: str) -> Iterator[str]:
    """What differs from the decoder's own where frames were lost."""
    wanted, frames = trial.round_trip()
    rows, found = trial.heard(lines, sink)
    lost = 0
    for channel, those in enumerate(frames):
        if len(set(those)) < len(those):
            yield 'two frames are alike, so the test is none'
        handed = handed_up(rows, sink.split(','), str(channel + 1), those)
        lost += handed.count(None)
        told = re.search(f'channel {channel + 1}: (?:sink ., ([0-9]+) of {len(those)} frames are lost|no sink has it)', trial.told)
        if told is None or int(told[1] or len(those)) != handed.count(None):
            yield f'channel {channel + 1}: {handed.count(None)} frames are lost, and it tells {trial.told}'
        made = Decoder(trial.setting).channel(handed)
        if samples_in(found)[0][channel] != made[:len(samples_in(found)[0][channel])]:
            yield f'channel {channel + 1} differs from what the decoder makes of the frames'
    if len(found) != len(wanted) or samples_in(found)[1] != trial.setting.rate:
        yield f'the WAV has {len(found)} octets and not {len(wanted)}, or another rate'
    if found == wanted or not lost:
        yield 'nothing is lost, or it makes no difference'


def handed_up(rows: list[str], sinks: list[str], stream: str, frames: list[bytes]) -> list[bytes | None]:
    """The frames that the rows of the first of these sinks that has some hand up, by their octets: no two frames are alike here. Others are
    None."""
    for sink in sinks:
        of_stream = [row.split(' ') for row in rows if row.startswith(f'unit {sink} {stream} ')]
        if of_stream:
            valid = {row[7] for row in of_stream if row[5] == 'valid'}
            return [it if it.hex() in valid else None for it in frames]
    return [None] * len(frames)


def bursts(lines: Iterable[str], interval: int, sink: int) -> Iterator[str]:
    """The lines with two bursts in which the sink hears nothing, and a loss of one PDU of two in what follows the second one."""
    event, first = -1, 100_000 // interval
    dead = [*range(first, first + BURST // interval), *range(2 * first + BURST // interval, 2 * first + 2 * BURST // interval)]
    for line in lines:
        event += line == 'event'
        if line != f'air {sink} 0':
            yield line
        elif event > dead[-1]:
            yield f'air {sink} 2'
        elif event not in dead:
            yield line


def earbuds(lines: Iterable[str]) -> Iterator[str]:
    """The lines with losses of the left one of two earbuds."""
    return bursts(lines, 10_000, 0)


def relayed(lines: Sequence[str]) -> Iterator[str]:
    """The lines with a relay of the left channel: sink 0 hands it on to source 1, on which sink 1 misses each sixth PDU."""
    for line in lines[:-2]:
        if line.startswith('sink 0 '):
            yield from ('source 1', RELAYING, 'start 0', 'source 0')
        yield line
        if line.startswith('tuned 0 '):
            yield from ('relay 0 1 1', 'source 1', 'sink 1 1 1', 'tuned 1 1', 'source 0')
        if line == 'air 0 0':
            yield from ('source 1', 'event', 'air 1 6', 'source 0')
    yield from ['source 0', 'event', 'source 1', 'event', 'air 1 0'] * 12
    yield from lines[-2:]


def concealed() -> Iterator[str]:
    """The settings for which a frame of ones is not concealed just as no frame is."""
    for name in lc3_coder.SETTINGS:
        setting = lc3_coder.Setting.of(name)
        ones, none, frame = Decoder(setting), Decoder(setting), bytes(range(1, setting.octets + 1))
        for octets in (frame, b'', frame):
            found, wanted = ones.frame(octets or b'\xff' * setting.octets), none.frame(octets or None)
            if found != wanted or not octets and not found[0]:
                yield f'{name}: a frame of ones is no lost one'


def values() -> Iterator[str]:
    """The settings whose configuration differs from that of docs/values.md."""
    rows = dict(re.findall(r'^\| ([0-9]+_[0-9]) \|.*?\| `([0-9a-f]+)` \|', text_of(os.path.join(TOP, 'docs', 'values.md')), re.M))
    for name in lc3_coder.SETTINGS:
        if rows.get(name) != lc3_coder.Setting.of(name).configuration:
            yield f'{name}: the configuration differs from docs/values.md'


EARLY = 'unframed 20000 40000 8 10000 100 100 2 1 4 2 2 600 2400 1'  # each unit is sent twice 40 ms early
PAIRS = 'unframed 20000 40000 12 7500 75 75 2 2 4 2 0 500 2000 1'  # two units an event
SMALL = 'framed 20000 40000 8 10000 60 40 2 2 4 2 0 400 1600 1'  # segments: a unit is in two PDUs
RELAYING = 'group framed 20000 40000 8 10000 100 105 1 1 1 1 0 0 0 1'
Choice = tuple[str, int, int, list[str]]  # a setting, channels, bits, and more words for audio.py
WHOLE: tuple[Choice, ...] = (
    ('48_2', 2, 16, []), ('48_1', 2, 16, []), ('441_2', 2, 16, []), ('16_2', 1, 16, []), ('32_1', 1, 24, []),
    ('48_2', 2, 16, ['--group', EARLY]), ('48_1', 2, 16, ['--group', PAIRS]), ('24_2', 2, 16, ['--group', SMALL]))
LOST: tuple[Choice, ...] = (
    ('48_2', 2, 16, []), ('48_1', 2, 16, []), ('441_2', 2, 16, []), ('24_2', 2, 16, ['--group', SMALL]))
BENT: tuple[tuple[str, Callable[[list[str]], Iterator[str]], str, list[str]], ...] = (
    ('earbuds', earbuds, '0,1', ['--earbuds']), ('a relay', relayed, '1', []))


def faults(program: str, folder: str) -> Iterator[str]:
    """All that differs."""
    yield from values()
    yield from concealed()
    for choice in WHOLE:
        yield from (f'{choice}: {fault}' for fault in without_loss(Trial(program, folder, choice)))
    for choice in LOST:
        trial = Trial(program, folder, choice)
        interval = int(trial.lines[2].split(' ')[4]) * 1250
        for fault in with_losses(trial, list(bursts(trial.lines, interval, 0)), '0'):
            yield f'{choice} with losses: {fault}'
    for name, bent, sink, words in BENT:
        trial = Trial(program, folder, ('48_2', 2, 16, words))
        for fault in with_losses(trial, list(bent(trial.lines)), sink):
            yield f'{name}: {fault}'


@step(seconds=10, needs=('lc3',))
def check(replay: str) -> Faults:
    """tools/audio.py takes WAVs out as scenarios, and what sinks hand up in again. With no loss the WAV is the round trip by elc3 and dlc3,
    octet for octet; with losses it is what an LC3 decoder makes of the frames that the transcript has, where it is told of each of the
    others that it was lost."""
    with tempfile.TemporaryDirectory() as folder:
        try:
            yield from faults(replay, folder)
        except (ToolFault, OSError) as fault:
            yield f'{fault}'
    return f'{len(lc3_coder.SETTINGS)} settings, {len(WHOLE)} WAVs without a loss and {len(LOST) + 2} with losses'
