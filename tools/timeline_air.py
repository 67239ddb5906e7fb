"""A source of a run: its group's numbers, its events, and which PDUs carry which unit. timeline.py uses it.

All of this is worked out from the lines of the scenario, by the formulas of docs/definitions.md: the schedule and the times of Core 5.2,
volume 6 part B, section 4.4.6, and the air of part G, sections 2 and 3.2."""
from dataclasses import dataclass, field
from functools import cached_property
from typing import Any

GREATEST_OFFSET = 2 ** 24 - 1  # a TimeOffset, µs
# How many bits each number of a `group` line has, as docs/scenario-language.md says: `origin`, `delay`, and those of the BIGInfo.
WIDTHS = (49, 24, 12, 20, 12, 8, 5, 3, 5, 4, 4, 20, 20, 3)
HEADER, START_HEADER = 2, 5  # octets of a segment before those of the unit
MOST_WAITING = 16


@dataclass(frozen=True)
class Group:
    """The numbers of a `group` line: `iso` in units of 1.25 ms, other times in µs."""
    framing: str
    origin: int
    delay: int
    iso: int
    sdu: int
    max_sdu: int
    max_pdu: int
    num_bis: int
    bn: int
    nse: int
    irc: int
    pto: int
    sub: int
    spacing: int
    phy: int

    @classmethod
    def of_words(cls, words):
        numbers = list(map(int, words[2:]))
        if len(numbers) != len(WIDTHS) or any(not 0 <= it < 2 ** width for it, width in zip(numbers, WIDTHS)):
            raise ValueError('a number of the group is out of its bounds')
        return cls(words[1], *numbers)

    @property
    def can_start(self):
        """Whether nothing that is worked out here divides by 0. What else a group must meet, the program tested."""
        return min(self.iso, self.sdu, self.max_pdu, self.num_bis, self.bn, self.nse) > 0 and self.nse % self.bn == 0

    @property
    def is_framed(self):
        return self.framing == 'framed'

    @cached_property
    def interval(self):
        """The ISO interval in µs."""
        return self.iso * 1250

    @cached_property
    def horizon(self):
        """H: how many events ahead the last group of subevents is sent."""
        return self.pto * (self.nse // self.bn - self.irc)

    @property
    def units_an_event(self):
        return self.interval // self.sdu

    @cached_property
    def numbers_a_unit(self):
        return -(-self.max_sdu // self.max_pdu)

    @cached_property
    def longest(self):
        """How long a PDU of the greatest length is sent, in µs."""
        return (self.max_pdu + 10) * 8 if self.phy == 0 else (self.max_pdu + 11) * 4

    @cached_property
    def sync_delay(self):
        """BIG_Sync_Delay: from the anchor to the end of the last PDU of the greatest length."""
        return (self.num_bis - 1) * self.spacing + (self.nse - 1) * self.sub + self.longest

    def later(self, subevent):
        """How many events later the payload that this subevent carries is due."""
        carrier = subevent // self.bn
        return self.pto * (carrier - self.irc + 1) if carrier >= self.irc else 0

    def number(self, event, subevent):
        """The payload number of a subevent of an event."""
        return (event + self.later(subevent)) * self.bn + subevent % self.bn

    def copies(self, number):
        """The events and subevents in which a payload is sent, in the order of time."""
        event, place = divmod(number, self.bn)
        return sorted((event - self.later(subevent), subevent) for subevent in range(place, self.nse, self.bn))

    def render_in_slot(self, anchor, slot):
        return anchor + self.sync_delay + slot * self.sdu + self.delay

    @property
    def after_time(self):
        """From the time of a framed unit until it is rendered: its TimeOffset takes the anchor away again."""
        return self.sync_delay + self.sdu + self.interval + self.delay


@dataclass(slots=True)
class Given:
    """A unit that a source took: by this line, at its time where its stream is framed, and the payload numbers that carry it."""
    index: int
    stream: int
    line: int
    time: int | None
    octets: str
    numbers: list[int] = field(default_factory=list)
    is_stale: bool = False

    @property
    def length(self):
        return len(self.octets) // 2


class Air:
    """A stream of a source: the units given to it, and where they went."""

    def __init__(self, group):
        self.group, self.units, self.begun, self.left = group, [], 0, 0
        self.in_slot, self.starting, self.by_time = {}, {}, {}  # by event and slot; by the event of the start; by the unit's time

    def waiting(self):
        return len(self.units) - self.begun

    def lay(self, event, anchor):
        """Lays the PDUs of an event."""
        bn = self.group.bn
        if self.group.is_framed:
            for number in range(event * bn, (event + 1) * bn):
                self.fill(number, event, anchor)
            return
        size = self.group.numbers_a_unit
        for slot in range(min(self.group.units_an_event, self.waiting())):
            unit = self.units[self.begun]
            first = event * bn + slot * size
            unit.numbers = list(range(first, first + max(1, -(-unit.length // self.group.max_pdu))))
            self.in_slot[event, slot] = unit
            self.begun += 1

    def fill(self, number, event, anchor):
        """Fills a PDU with segments: the rest of a unit that was begun, and the units that are due, while there is room."""
        room = self.group.max_pdu
        if self.left:
            room = self.put(self.units[self.begun - 1], number, self.left, room - HEADER)
        while not self.left and self.waiting():
            unit = self.units[self.begun]
            if unit.time > anchor or room < START_HEADER + min(unit.length, 1):
                return
            self.begun += 1
            unit.is_stale = anchor - unit.time > GREATEST_OFFSET
            if not unit.is_stale:
                self.starting.setdefault(event, []).append(unit)
                room = self.put(unit, number, unit.length, room - START_HEADER)

    def put(self, unit, number, left, room):
        """Puts a segment of a unit into this room, and gives the room behind it."""
        unit.numbers.append(number)
        self.left = max(0, left - room)
        return max(0, room - left)


@dataclass(slots=True)
class Event:
    """An event that was performed, by this line."""
    number: int
    anchor: int
    line: int


class Source:
    """A source of the run, as far as its lines went."""

    def __init__(self, number):
        self.number, self.ident = number, ('0', '0', '000000')
        self.group: Any = None
        self.first: Any = None
        self.next: Any = None
        self.open: Any = None
        self.is_stopped, self.airs, self.events, self.given = False, {}, [], []

    def start(self, first):
        if not self.group.can_start:
            raise ValueError('no source starts on this group')
        self.first = self.next = first
        self.airs = {stream: Air(self.group) for stream in range(1, self.group.num_bis + 1)}

    def anchor(self, event):
        return self.group.origin + (event - self.first) * self.group.interval

    def sent_at(self, event, stream, subevent):
        """When the PDU of this place begins."""
        return self.anchor(event) + (stream - 1) * self.group.spacing + subevent * self.group.sub

    @property
    def upcoming(self):
        """The event that is performed next; 0 of a source that isn't started, as long as that is not known."""
        return 0 if self.next is None else self.next

    def is_performed(self, event):
        return self.first is not None and self.first <= event < self.next

    def accept(self, stream, line, time, octets):
        unit = Given(len(self.given), stream, line, time, octets)
        self.given.append(unit)
        self.airs[stream].units.append(unit)
        self.airs[stream].by_time[time] = unit

    def perform(self, line):
        """Performs the next event, and lays what it and those ahead send."""
        event, ahead = self.next, self.group.horizon
        for laid in range(event if event == self.first else event + ahead, event + ahead + 1):
            for air in self.airs.values():
                air.lay(laid, self.anchor(laid))
        self.events.append(Event(event, self.anchor(event), line))
        self.open, self.next = event, event + 1

    def drops(self, stream, time, octets):
        """Why this source doesn't take a unit of a relay, or None."""
        units = self.airs[stream].units
        if self.is_stopped:
            return 'NotStreaming'
        if len(octets) // 2 > self.group.max_sdu:
            return 'UnitTooLong'
        if units and time <= units[-1].time:
            return 'TimeOrder'
        return 'Backlog' if self.airs[stream].waiting() >= MOST_WAITING else None
