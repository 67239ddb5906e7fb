"""Frames of sound as the units of a scenario, and what sinks hand up of them. audio.py uses it.

A channel is a stream, and a frame a unit. The scenario begins with a comment that says what sound it is."""
import re
from typing import Any

import printed_rows
from big_groups import Broadcast, GroupFault, SETTINGS, group_of
from lc3_coder import AudioFault, Sound

MOST_OCTETS = 67_108_864  # of a text that `replay` takes
MOST_WAITING = 16  # units of a stream
NOTE = re.compile(r'# audio: (\w+), ([12]) channels?, ([1-9][0-9]{0,8}) samples of (16|24) bits')
HEAD = ['ident 0 665544332211 3 563412']
SIDES = ('01000000', '02000000')  # Audio_Channel_Allocation of Front Left and of Front Right
NUMBER, OCTETS = re.compile('0|[1-9][0-9]{0,17}'), re.compile('(?:[0-9a-fA-F]{2})+')
NOT_OF_IT = 'the transcript is not of this scenario'


def note_of(sound):
    return f'# audio: {sound.name}, {sound.channels} channel{"s" * (sound.channels > 1)}, {sound.samples} samples of {sound.bits} bits'


def group_for(sound, words):
    """The group of these words, or of none; it has to suit the sound."""
    if words is None:
        return Broadcast(sound.name, sound.channels).group({'nse': 3})
    try:
        group = group_of(['group', *words.split(' ')])
    except GroupFault as error:
        raise AudioFault(f'--group: {error}') from error
    for place, number, wanted in (('SDU', group.sdu, SETTINGS[sound.name].sdu), ('NUMBIS', group.streams, sound.channels)):
        if number != wanted:
            raise AudioFault(f'--group: {place} is {number}; {sound.name} with {sound.channels} channels has {wanted}')
    if SETTINGS[sound.name].is_framed and not group.is_framed:
        raise AudioFault(f'--group: {sound.name} needs a framed group')
    if group.octets < sound.setting.octets:
        raise AudioFault(f'--group: MAXSDU is {group.octets}; a frame of {sound.name} has {sound.setting.octets} octets')
    if 0 in (group.bn, group.iso, group.nse) or group.nse < group.bn or not group.is_framed and group.interval < group.sdu:
        raise AudioFault('--group: no group has such an ISO, BN or NSE')
    return group


def taken_streams(sound, sinks, are_earbuds):
    """The streams that each of so many sinks takes: all, or of two earbuds one each."""
    if not are_earbuds:
        return [range(1, sound.channels + 1)] * sinks
    if sound.channels != 2:
        raise AudioFault('--earbuds: the sound has one channel, and earbuds take one each')
    return [(1,), (2,)]


def text_of(sound, frames, words, taken):
    """The scenario of the frames of each channel, in which each sink hears all of the streams that it takes."""
    group, sides = group_for(sound, words), SIDES if sound.channels == 2 else ()
    streams = range(1, sound.channels + 1)
    lines = ['scenario 2', note_of(sound), group.line(), *HEAD, f'subgroup 0600000000 {sound.setting.configuration}', 'meta 03020400']
    lines += [f'bis {stream} {"0503" + sides[stream - 1] if sides else "-"}' for stream in streams]
    lines += [f'sink {sink} {len(those)} 1' for sink, those in enumerate(taken)] + ['start 0']
    lines += [f'tuned {sink} {" ".join(map(str, those))}' for sink, those in enumerate(taken)]
    for units in units_by_event(sound, group):
        for unit in units:
            time = group.origin + sound.setting.time_of(unit) if group.is_framed else '-'
            lines += [f'unit {stream} {time} {frames[stream - 1][unit].hex()}' for stream in streams]
        lines += ['event', *(f'air {sink} 0' for sink in range(len(taken)))]
    text = '\n'.join([*lines, 'end', ''])
    if len(text) > MOST_OCTETS:
        seconds = sound.setting.time_of(len(frames[0])) * MOST_OCTETS // len(text) // 1_000_000
        raise AudioFault(f'the scenario would have {len(text)} octets, and `replay` takes {MOST_OCTETS}: {seconds} s of this sound')
    return text


def units_by_event(sound, group):
    """The numbers of the units that are given before each event: those that it and the H events behind it can send."""
    number, front, event = sound.setting.frames_of(sound.samples), 0, 0
    while event < events_of(sound, group, number):
        end = min(number, due_by(sound.setting, group, event + group.horizon))
        if end - front > MOST_WAITING:
            raise AudioFault(f'--group: {end - front} units are due before an event, and {MOST_WAITING} can wait')
        yield range(front, end)
        front, event = end, event + 1


def due_by(setting, group, event):
    """How many units an event and those before it can send: of a framed group those whose times aren't past the anchor."""
    if group.is_framed:
        return -(-(event * group.interval + 1) * setting.rate // (setting.samples * 1_000_000))
    return (event + 1) * (group.interval // group.sdu)


def events_of(sound, group, number):
    """How many events are needed: in a framed group two behind the time of the last unit, by which its segments are sent."""
    if group.is_framed:
        return -(-sound.setting.time_of(number - 1) // group.interval) + 3
    return -(-number // (group.interval // group.sdu))


class Written:
    """The sound of a scenario, its groups and units, and which sinks hear which source."""

    def __init__(self, lines):
        self.sound: Any = None
        self.source = '0'
        self.groups, self.units, self.of_sinks, self.relays = {}, {}, {}, []
        for number, line in enumerate(lines, 1):
            try:
                self.take(line.rstrip('\n'))
            except (LookupError, GroupFault) as error:
                raise AudioFault(f'line {number} of the scenario can\'t be read: {error}') from error
        if self.sound is None:
            raise AudioFault('the scenario has no line "# audio: ..", which `audio.py out` writes')
        self.check()

    def take(self, line):
        """Takes a line, by its first word."""
        words = line.split(' ')
        if line.startswith('# audio: '):
            self.sound = self.sound or sound_of(line)
        elif words[0] == 'source':
            self.source = words[1]
        elif words[0] == 'group':
            self.groups[self.source] = group_of(words)
        elif words[0] == 'unit':
            self.units.setdefault((self.source, words[1]), []).append((words[2], words[3]))
        elif words[0] == 'relay':
            self.relays.append((words[1], words[2], words[3]))
        elif words[0] in ('tuned', 'announce', 'train'):
            self.of_sinks[words[1]] = self.source

    def check(self):
        """The units of source 0 have to be the frames of the sound."""
        if '0' not in self.groups:
            raise AudioFault('the scenario has no group')
        number = self.sound.setting.frames_of(self.sound.samples)
        for channel in range(self.sound.channels):
            units = self.given(channel)
            if len(units) != number:
                raise AudioFault(f'the scenario has {len(units)} units of stream {channel + 1}, and its sound {number} frames')
            for time, octets in units:
                if not OCTETS.fullmatch(octets) or len(octets) != 2 * self.sound.setting.octets:
                    raise AudioFault(f'a unit of stream {channel + 1} is no frame of {self.sound.setting.octets} octets')
                if self.groups['0'].is_framed and not NUMBER.fullmatch(time):
                    raise AudioFault(f'a unit of stream {channel + 1} has no time')

    def given(self, channel):
        return self.units.get(('0', str(channel + 1)), [])

    def times(self, channel):
        """The frames of a channel by the times at which they are rendered."""
        group = self.groups['0']
        if group.is_framed:
            return {int(time) + after_time(group): number for number, (time, _) in enumerate(self.given(channel))}
        front = group.origin + group.sync_delay + group.delay
        return {front + number * group.sdu: number for number in range(len(self.given(channel)))}

    def places(self):
        """For each source and stream with a channel, that channel, and its frames by their times. To a relay they are the printed ones."""
        found = {('0', str(channel + 1)): (channel, self.times(channel)) for channel in range(self.sound.channels)}
        for sink, stream, stream_to in self.relays:
            if ('0', stream) in found and '1' in self.groups and self.of_sinks.get(sink) == '0':
                channel, times = found['0', stream]
                found['1', stream_to] = channel, {time + after_time(self.groups['1']): number for time, number in times.items()}
        return found


def sound_of(line):
    words = NOTE.fullmatch(line)
    if words is None or words[1] not in SETTINGS:
        raise LookupError('no sound is such')
    return Sound(words[1], int(words[2]), int(words[3]), int(words[4]))


def after_time(group):
    """From the time of a framed unit until it is rendered, in µs."""
    return group.sync_delay + group.sdu + group.interval + group.delay


def heard_frames(lines, rows, sinks):
    """The sound of a scenario; of each channel its frames, None for each that was not handed up; and the sink that handed them up, or None:
    the first of these sinks that has a row of the channel."""
    written, summed = Written(lines), set()
    heard: dict[Any, Any] = {}
    places = written.places()
    for row in rows:
        words = checked(row)
        if words[0] == 'sum':
            summed.add(words[1])
        if words[0] != 'unit' or words[1] not in sinks:
            continue
        channel, times = places.get((written.of_sinks.get(words[1]), words[2]), (None, {}))
        if channel is None:
            continue
        numbers = heard.setdefault((words[1], channel), set())
        if words[5] == 'valid':
            number = times.get(int(words[4]))
            if number is None or written.given(channel)[number][1].lower() != words[7]:
                raise AudioFault(f'{NOT_OF_IT}: "{" ".join(words[:6])}" is none of its frames')
            numbers.add(number)
    for sink in sinks:
        if sink not in summed:
            raise AudioFault(f'{NOT_OF_IT}: it has no sum of sink {sink}')
    if not heard:
        raise AudioFault(f'there is no unit of sink {" or ".join(sinks)}')
    frames, by = [], []
    for channel in range(written.sound.channels):
        by.append(next((it for it in sinks if (it, channel) in heard), None))
        numbers = heard.get((by[-1], channel), ())
        frames.append([bytes.fromhex(octets) if number in numbers else None for number, (_, octets) in enumerate(written.given(channel))])
    return written.sound, frames, by


def checked(row):
    """The words of a row of a transcript that ends without a refusal."""
    if not row.endswith('\n') or not printed_rows.is_row(row[:-1]):
        raise AudioFault(f'the transcript has a row of no form that is known: {ascii(row[:80])[1:-1]}')
    if row.startswith(printed_rows.REFUSAL + ' '):
        raise AudioFault(f'the run ends with a refusal: {row[:-1]}')
    return row[:-1].split(' ')
