"""LC3 by the programs elc3 and dlc3 of Debian's liblc3-tools: a WAV as frames, and frames as a WAV. audio.py uses it.

The file between is theirs: a head of 18 octets, and blocks of a size of 16 bits and one frame of each channel, the left one first. For a
block of size 0 dlc3 1.0 writes silence. A frame of ones alone has a bandwidth or a last line that no rate has, so the decoder takes it for
a broken one, and conceals it as it conceals a frame that it is not given. That frame stands for a lost one here."""
import os
import shutil
import struct
import subprocess
import tempfile
import typing
import wave

from big_groups import SETTINGS

NEEDED = 'elc3 and dlc3 are missing; `apt-get install liblc3-tools` brings them on Debian'
HEAD, FILE_ID = struct.Struct('<9H'), 0xcc1c
SIZE = struct.Struct('<H')
# The rates of LC3 in Hz, with their codes of the Assigned Numbers.
FREQUENCIES = {8000: 1, 16000: 3, 24000: 5, 32000: 6, 44100: 7, 48000: 8}
CODER_DELAYS = {7500: 4000, 10000: 2500}  # µs by which the decoder is behind


class AudioFault(Exception):
    """Something can't be taken, with what and why."""


class Setting(typing.NamedTuple):
    """A setting of LC3: its rate in Hz, the nominal duration of a frame in µs, and the octets of a frame of one channel."""
    rate: int
    duration: int
    octets: int

    @classmethod
    def of(cls, name):
        """The setting of a name, as 48_2: its rate in kHz, and an odd number for 7.5 ms."""
        rate, number = name.split('_')
        return cls(44100 if rate == '441' else int(rate) * 1000, 7500 if int(number) % 2 else 10000, SETTINGS[name].octets)

    @property
    def coded_rate(self):
        """The rate that the programs are told: 44.1 kHz is coded as 48 kHz, whose frames have as many samples."""
        return 48000 if self.rate == 44100 else self.rate

    @property
    def samples(self):
        """The samples of a frame."""
        return self.coded_rate * self.duration // 1_000_000

    def time_of(self, frame):
        """The time at which a frame begins, in µs from the first one."""
        return frame * self.samples * 1_000_000 // self.rate

    def frames_of(self, samples):
        """How many frames so many samples become, with those that the decoder is behind."""
        delay = self.coded_rate * CODER_DELAYS[self.duration] // 1_000_000
        return -(-(samples + delay) // self.samples)

    def bit_rate(self, channels):
        """The least bits a second by which elc3 makes frames of these octets."""
        return channels * -(-self.octets * 8_000_000 // self.duration)

    @property
    def configuration(self):
        """The LTV list of a BASE, in hexadecimal digits."""
        return f'0201{FREQUENCIES[self.rate]:02x}0202{self.duration // 10000:02x}0304{self.octets.to_bytes(2, "little").hex()}'


class Sound(typing.NamedTuple):
    """What is said of a WAV beside its frames: the setting by name, and the samples of a channel, of so many bits."""
    name: str
    channels: int
    samples: int
    bits: int

    @property
    def setting(self):
        return Setting.of(self.name)


def is_there():
    return all(map(shutil.which, ('elc3', 'dlc3')))


def encoded(path, name=None):
    """The sound of a WAV by this setting, or by the one of its rate in which a frame has 10 ms, and the frames of each channel."""
    channels, width, rate, samples = samples_of(path)
    name = name or next(it for it in SETTINGS if it.endswith('_2') and Setting.of(it).rate == rate)
    setting = Setting.of(name)
    if rate != setting.rate:
        raise AudioFault(f'{path} has {rate} samples a second, and {name} {setting.rate}; `sox IN.wav -r {setting.rate} NEW.wav` helps')
    sound = Sound(name, channels, len(samples) // (channels * width), width * 8)
    with tempfile.TemporaryDirectory() as folder:
        plain, coded = os.path.join(folder, 'plain.wav'), os.path.join(folder, 'coded.lc3')
        write_wav(plain, channels, width, setting.coded_rate, samples)
        run('elc3', '-b', str(setting.bit_rate(channels)), '-m', f'{setting.duration / 1000:g}', plain, coded)
        with open(coded, 'rb') as file:
            blocks = blocks_of(file.read())
    if any(len(it) != channels * setting.octets for it in blocks) or len(blocks) != setting.frames_of(sound.samples):
        raise AudioFault('elc3 made other frames than the setting has')
    return sound, [[it[channel * setting.octets:(channel + 1) * setting.octets] for it in blocks] for channel in range(channels)]


def samples_of(path):
    """The number of channels, the octets of a sample, the rate and the samples of a WAV."""
    try:
        with wave.open(path, 'rb') as file:
            channels, width, rate = file.getnchannels(), file.getsampwidth(), file.getframerate()
            samples = file.readframes(file.getnframes())
    except (wave.Error, EOFError) as error:
        raise AudioFault(f'{path} is no WAV of plain samples: {error or "it is cut"}') from error
    if channels not in (1, 2):
        raise AudioFault(f'{path} has {channels} channels; one or two can be taken')
    if width not in (2, 3):
        raise AudioFault(f'{path} has samples of {width * 8} bits; 16 and 24 can be taken')
    if rate not in FREQUENCIES:
        raise AudioFault(f'{path} has {rate} samples a second; LC3 has {", ".join(map(str, FREQUENCIES))}')
    samples = samples[:len(samples) - len(samples) % (channels * width)]
    if not samples:
        raise AudioFault(f'{path} has no samples')
    return channels, width, rate, samples


def decoded(sound, frames):
    """The WAV of these frames of each channel, as octets. A frame that is None was lost, and is concealed."""
    setting, lost = sound.setting, b'\xff' * sound.setting.octets
    head = HEAD.pack(FILE_ID, HEAD.size, setting.coded_rate // 100, setting.bit_rate(sound.channels) // 100, sound.channels,
                     setting.duration // 10, 0, sound.samples & 0xffff, sound.samples >> 16)
    blocks = (b''.join(it or lost for it in block) for block in zip(*frames))
    with tempfile.TemporaryDirectory() as folder:
        coded, plain = os.path.join(folder, 'coded.lc3'), os.path.join(folder, 'plain.wav')
        with open(coded, 'wb') as file:
            file.write(head)
            file.writelines(SIZE.pack(len(it)) + it for it in blocks)
        run('dlc3', '-b', str(sound.bits), coded, plain)
        if setting.rate != setting.coded_rate:
            with wave.open(plain, 'rb') as file:
                samples = file.readframes(file.getnframes())
            write_wav(plain, sound.channels, sound.bits // 8, setting.rate, samples)
        with open(plain, 'rb') as file:
            return file.read()


def blocks_of(octets):
    """The blocks of a file of elc3."""
    if len(octets) < HEAD.size or HEAD.unpack_from(octets)[:2] != (FILE_ID, HEAD.size):
        raise AudioFault('elc3 wrote a file of another form than its release 1.0')
    blocks, place = [], HEAD.size
    while place + SIZE.size <= len(octets):
        front = place + SIZE.size
        place = front + SIZE.unpack_from(octets, place)[0]
        blocks.append(octets[front:place])
    return blocks


def write_wav(path, channels, width, rate, samples):
    with wave.open(path, 'wb') as file:
        file.setparams((channels, width, rate, 0, 'NONE', 'not compressed'))
        file.writeframes(samples)


def run(program, *words):
    """Runs a program of liblc3-tools, which has to end with 0."""
    try:
        done = subprocess.run([program, *words], stdin=subprocess.DEVNULL, capture_output=True, check=False)
    except OSError as error:
        raise AudioFault(f'{program}: {error.strerror}') from error
    if done.returncode != 0:
        lines = done.stderr.decode(errors='replace').replace('\r', '\n').strip().split('\n')
        raise AudioFault(f'{program} ended with {done.returncode}: {lines[-1]}')
