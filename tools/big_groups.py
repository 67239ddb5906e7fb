"""Groups: the numbers of a `group` line, the times that follow from them, and the settings of LC3. losses.py and choose.py use it."""
import itertools
import re
from dataclasses import dataclass, replace
from typing import Any

ORIGIN = 20000  # µs, the anchor of the first event of a run that is made here
LE_1M, LE_2M = 0, 1
SPACE = 150  # µs between two PDUs
WIDTHS = {  # the greatest number of each place of a `group` line behind the framing
    'origin': 2 ** 48, 'delay': 2 ** 24 - 1, 'iso': 4095, 'sdu': 2 ** 20 - 1, 'octets': 4095, 'max_pdu': 255, 'streams': 31, 'bn': 7,
    'nse': 31, 'irc': 15, 'pto': 15, 'sub': 2 ** 20 - 1, 'spacing': 2 ** 20 - 1, 'phy': 7,
}
# The rows of the group check, by their numbers.
FAULTS = ('RangeIso', 'RangeSdu', 'RangePdu', 'Bn', 'NseNotMultiple', 'Irc', 'PhyNotSupported', 'FramedPduSmall', 'UnframedMultiple',
          'UnframedBn', 'Horizon', 'SubInterval', 'SyncDelay', 'Encrypted')


class GroupFault(Exception):
    """The words are no group, with why."""


@dataclass(frozen=True)
class Setting:
    """A setting of LC3 for broadcasts. `low` and `high` are the retransmissions (RTN) and the greatest transport latency in ms that are
    recommended for low latency and for high reliability; None where the table isn't known here for certain."""
    sdu: int
    octets: int
    is_framed: bool = False
    low: tuple | None = None
    high: tuple | None = None


# Basic Audio Profile 1.0, table 6.4, of the settings for broadcast audio streams, each with one channel and one frame in an SDU. The
# retransmissions and latencies are those of the rows NAME_1 and NAME_2 of the same table; those of 441_1 and 441_2 are left out.
SETTINGS = {
    '8_1': Setting(7500, 26, False, (2, 8), (4, 45)), '8_2': Setting(10000, 30, False, (2, 10), (4, 60)),
    '16_1': Setting(7500, 30, False, (2, 8), (4, 45)), '16_2': Setting(10000, 40, False, (2, 10), (4, 60)),
    '24_1': Setting(7500, 45, False, (2, 8), (4, 45)), '24_2': Setting(10000, 60, False, (2, 10), (4, 60)),
    '32_1': Setting(7500, 60, False, (2, 8), (4, 45)), '32_2': Setting(10000, 80, False, (2, 10), (4, 60)),
    '441_1': Setting(8163, 97, True), '441_2': Setting(10884, 130, True),
    '48_1': Setting(7500, 75, False, (4, 15), (4, 50)), '48_2': Setting(10000, 100, False, (4, 20), (4, 65)),
    '48_3': Setting(7500, 90, False, (4, 15), (4, 50)), '48_4': Setting(10000, 120, False, (4, 20), (4, 65)),
    '48_5': Setting(7500, 117, False, (4, 15), (4, 50)), '48_6': Setting(10000, 155, False, (4, 20), (4, 65)),
}


@dataclass(frozen=True)
class Group:
    """What a `group` line says. Times are µs, but for `iso`, which is in units of 1,250 µs."""
    is_framed: bool
    origin: int
    delay: int
    iso: int
    sdu: int
    octets: int
    max_pdu: int
    streams: int
    bn: int
    nse: int
    irc: int
    pto: int
    sub: int
    spacing: int
    phy: int

    @property
    def interval(self):
        return self.iso * 1250

    @property
    def longest(self):
        """How long the longest PDU is sent."""
        return (self.max_pdu + 11) * 4 if self.phy == LE_2M else (self.max_pdu + 10) * 8

    @property
    def horizon(self):
        """H: how many events ahead the earliest copy is sent."""
        return self.pto * (self.nse // self.bn - self.irc)

    @property
    def sync_delay(self):
        return (self.streams - 1) * self.spacing + (self.nse - 1) * self.sub + self.longest

    @property
    def latency(self):
        """From when a unit is due at the source until it is rendered, at most: the transport latency and the presentation delay."""
        return self.horizon * self.interval + self.interval + (1 if self.is_framed else -1) * self.sdu + self.sync_delay + self.delay

    @property
    def airtime(self):
        """Which part of the time PDUs are sent, where each is as long as it may be."""
        return self.streams * self.nse * self.longest / self.interval

    def line(self):
        numbers = ' '.join(str(getattr(self, it)) for it in WIDTHS)
        return f'group {"framed" if self.is_framed else "unframed"} {numbers}'

    def places(self, streams):
        """For each PDU of an event in these streams its stream, its subevent, and how far it begins behind the anchor; by that time."""
        found = [(b, s, (b - 1) * self.spacing + s * self.sub) for b in streams for s in range(self.nse)]
        return sorted(found, key=lambda it: it[2])


def group_of(words):
    """The group of the words of a `group` line."""
    if len(words) != 2 + len(WIDTHS) or words[1] not in ('framed', 'unframed'):
        raise GroupFault('it has no framing, or not 14 numbers')
    numbers = dict(zip(WIDTHS, words[2:]))
    for name, word in numbers.items():
        if not re.fullmatch('[0-9]{1,15}', word) or int(word) > WIDTHS[name]:
            raise GroupFault(f'{word[:20]!a} is no number of its place')
    return Group(words[1] == 'framed', *map(int, numbers.values()))


@dataclass(frozen=True)
class Broadcast:
    """What all choices of a sweep have in common."""
    setting: str
    streams: int = 2
    phy: int = LE_2M
    packing: str = 'sequential'
    delay: int = 40000
    is_framed: bool = False

    def group(self, choice):
        """The group of a choice: numbers by `iso`, `max_pdu`, `bn`, `nse`, `irc` and `pto`, of which `nse` alone has to be there."""
        setting = SETTINGS[self.setting]
        is_framed = setting.is_framed or self.is_framed
        iso = choice.get('iso', setting.sdu // 1250)
        max_pdu = choice.get('max_pdu', min(251, setting.octets + (5 if is_framed else 0)))
        bn = choice.get('bn') or least_bn(setting, is_framed, iso * 1250, max_pdu)
        nse, pto = choice['nse'], choice.get('pto', 0)
        irc = choice.get('irc', max(1, nse // bn))
        bare = Group(
            is_framed, ORIGIN, self.delay, iso, setting.sdu, setting.octets, max_pdu, self.streams, bn, nse, irc, pto, 0, 0, self.phy)
        slot = bare.longest + SPACE
        if self.packing == 'interleaved':
            return replace(bare, sub=self.streams * slot, spacing=slot)
        return replace(bare, sub=slot, spacing=nse * slot)


def least_bn(setting, is_framed, interval, max_pdu):
    """The least BN that carries the units of an event; in an unframed group the only one."""
    if not is_framed:
        return min(7, max(1, interval // setting.sdu) * -(-setting.octets // max(1, max_pdu)))
    units = -(-interval // setting.sdu)
    needed = (bn for bn in range(1, 7) if bn * max_pdu >= units * (setting.octets + 5) + 2 * (bn - 1))
    return next(needed, 7)


def label(group):
    """What tells a choice from others."""
    return f'nse={group.nse} bn={group.bn} irc={group.irc} pto={group.pto} iso={group.iso} pdu={group.max_pdu}'


def groups_of(broadcast, choices):
    """The groups of the choices, each once. Where none of its PDUs goes out early, PTO is 0 and IRC all: they say nothing else there."""
    found: dict[Any, Any] = {}
    for choice in choices:
        group = broadcast.group(choice)
        if group.bn and 1 <= group.irc <= group.nse // group.bn and group.horizon == 0:
            group = replace(group, irc=group.nse // group.bn, pto=0)
        found[group] = None
    return list(found)


def choices_of(grid):
    """Each choice of a grid, which has a list for each number."""
    return [dict(zip(grid, numbers)) for numbers in itertools.product(*grid.values())]
