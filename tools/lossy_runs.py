"""Scenarios with losses: one that is made of a group, and one that is written as if all was heard. losses.py and choose.py use it."""
import functools
import re
from dataclasses import dataclass
from typing import Any

import big_groups
from loss_channels import Channel, ChannelFault

MOST_TIME = 86400 * 10 ** 6  # µs: how far behind time 0 an event of a scenario with losses may begin
CONTENTS = 256  # units that differ
DECIMAL = re.compile('0|[1-9][0-9]{0,14}')


class TextFault(Exception):
    """A line of a scenario can't be read, with which and why."""


@dataclass(frozen=True)
class Listener:
    """A sink: its name, the streams on which it is, and the parts of its channel."""
    name: str
    streams: tuple
    parts: tuple


class Ear:
    """What a sink hears of the events of a group, as lines. `sent` and `heard` count PDUs."""

    def __init__(self, sink, group, streams, channel):
        self.places = group.places(streams)
        self.offsets = [it[2] for it in self.places]
        self.length, self.channel = group.longest, channel
        self.all = f'air {sink} 0\n'
        self.hears = [f'hear {sink} 0 {stream} {subevent}\n' for stream, subevent, _ in self.places]
        self.sent = self.heard = 0

    def lines(self, anchor):
        """The lines behind an event with this anchor."""
        heard = self.channel.heard(anchor, self.offsets, self.length)
        self.sent += len(self.offsets)
        self.heard += len(heard)
        if len(heard) == len(self.offsets):
            return self.all
        return ''.join([self.hears[place] for place in heard])


def events_of(group, seconds):
    """How many events a run has: the first H + 1 have no units, so that each unit is sent in all its places."""
    return max(1, round(seconds * 1e6) // group.interval) + group.horizon + 1


def empty_slots(group):
    """How many slots of a stream come before that of its first unit."""
    return (group.horizon + 1) * max(1, group.interval // group.sdu)


def unit_lines(group):
    """The lines with all units of one moment, as a function of their number."""
    rest, streams = max(0, group.octets - 2) * '5a', range(1, group.streams + 1)
    contents = [[f'{stream:02x}{number:02x}'[:2 * group.octets] + rest for number in range(CONTENTS)] for stream in streams]
    if not group.is_framed:
        whole = [''.join(f'unit {b} - {it[number]}\n' for b, it in enumerate(contents, 1)) for number in range(CONTENTS)]
        return lambda number: whole[number % CONTENTS]
    first = group.origin + (group.horizon + 1) * group.interval

    def lines(number):
        time = first + number * group.sdu
        return ''.join([f'unit {b} {time} {it[number % CONTENTS]}\n' for b, it in enumerate(contents, 1)])
    return lines


def units_until(group, event):
    """How many units of a stream are given before this event, of those from 0 on."""
    if not group.is_framed:
        return event * max(1, group.interval // group.sdu)
    return (event - 1) * group.interval // group.sdu + 1 if event else 0


def front_of(group, listeners):
    """The lines before the first event."""
    sinks = ''.join(f'sink {sink} {len(it.streams)} 1\n' for sink, it in enumerate(listeners))
    tuned = ''.join(f'tuned {sink} {" ".join(map(str, it.streams))}\n' for sink, it in enumerate(listeners))
    return f'scenario 2\n{group.line()}\n{sinks}start 0\n{tuned}'


def made_run(group, listeners, seconds, channels):
    """The text of a run, and the ears of its listeners, each with its channel."""
    ears = [Ear(sink, group, it.streams, channel) for sink, (it, channel) in enumerate(zip(listeners, channels))]
    pieces, given, units = [front_of(group, listeners)], 0, unit_lines(group)
    for event in range(events_of(group, seconds)):
        until = units_until(group, event)
        pieces += [units(number) for number in range(given, until)]
        given = until
        pieces.append('event\n')
        anchor = group.origin + event * group.interval
        pieces += [ear.lines(anchor) for ear in ears]
    pieces.append('end\n')
    return ''.join(pieces), ears


@functools.lru_cache(maxsize=2)
def channels_of(listeners, seed):
    """The channels of listeners, which a choice behind another meets again."""
    return [Channel(it.parts, seed, it.name) for it in listeners]


class Source:
    """What is known of a source of a scenario: its group, and how many events it performed."""

    def __init__(self):
        self.group: Any = None
        self.events = 0

    def anchor(self):
        return self.group.origin + (self.events - 1) * self.group.interval


class Rewriting:
    """A scenario whose lines `air N 0` become what the sink N hears by its channel, for each sink that has one."""

    def __init__(self, channels):
        self.channels = channels
        self.sources, self.chosen, self.streams, self.ears = (Source(), Source()), 0, {}, {}
        self.is_lossy = dict.fromkeys(channels, False)

    def line(self, words):
        """What a line becomes: None where it stays as it is."""
        source = self.sources[self.chosen]
        if words[0] == 'group':
            source.group = big_groups.group_of(words)
        elif words[0] == 'source' and len(words) == 2 and words[1] in ('0', '1'):
            self.chosen = int(words[1])
        elif words[0] == 'event':
            source.events += 1
        elif words[0] in ('tuned', 'announce', 'train', 'sink') and len(words) > 1:
            self.moved(words)
        elif words[0] == 'air' and len(words) == 3 and words[2] == '0' and words[1] in self.channels:
            return self.air(source, words[1])
        return None

    def moved(self, words):
        """A sink may be on other streams."""
        self.streams.pop(words[1], None)
        if words[0] == 'tuned':
            if len(words) > 33 or not all(DECIMAL.fullmatch(it) and 0 < int(it) < 32 for it in words[2:]):
                raise TextFault('streams are numbers from 1 to 31')
            self.streams[words[1]] = tuple(sorted(set(map(int, words[2:]))))
        for key in [it for it in self.ears if it[0] == words[1]]:
            del self.ears[key]

    def air(self, source, sink):
        """What stands in the place of `air N 0`."""
        if source.group is None or not source.events or not source.group.nse or not source.group.streams:
            return None
        if source.anchor() > MOST_TIME:
            raise TextFault('the event begins more than a day behind time 0')
        self.is_lossy[sink] = True
        if (sink, self.chosen) not in self.ears:
            every = range(1, source.group.streams + 1)
            streams = [it for it in self.streams.get(sink, every) if it in every]
            if not streams:
                return None
            self.ears[sink, self.chosen] = Ear(sink, source.group, streams, self.channels[sink])
        return self.ears[sink, self.chosen].lines(source.anchor())


def rewritten(lines, channels):
    """The pieces of a scenario with losses, of its lines as they come. `channels` has a channel by the word of each sink."""
    rewriting = Rewriting(channels)
    for place, line in enumerate(lines, 1):
        text = line.removesuffix('\n')
        try:
            found = rewriting.line(text.split(' ')) if text and not text.startswith('#') else None
        except (TextFault, ChannelFault, big_groups.GroupFault) as fault:
            raise TextFault(f'line {place}: {fault}') from fault
        yield line if found is None else found
    missing = [sink for sink, is_lossy in rewriting.is_lossy.items() if not is_lossy]
    if missing:
        raise TextFault(f'sink {missing[0]} has no line `air {missing[0]} 0` behind an event')
