"""The sinks of a run: on which group each is, what was handed to it, and what became of the PDUs of a unit. timeline.py uses it."""
from dataclasses import dataclass, field
from typing import Any

ADD, MODIFY, REMOVE = 2, 3, 5
END_OF_NUMBERS = 2 ** 39
MOST_BACK = 32  # events before the first one of a stay, as far as `hear` goes back
# What a PDU was to a sink, by the letter that stands for it. The last two are of PDUs that were not handed to it.
FATES = {'h': 'heard', 'r': 'repeated', 'l': 'late', 'i': 'injected', 'm': 'missed', 'b': 'before it joined'}


def octets_of(word):
    return b'' if word == '-' else bytes.fromhex(word)


@dataclass
class Stay:
    """A sink on a group, from its event `first` to its event `last`. `open` is its open event. `fates` has for each stream the letter of
    what each PDU was that was handed to it, by event from `since` on and by subevent, and 0 for one that was not."""
    sink: int
    source: Any
    streams: list[int]
    first: int
    slot: int | None
    is_told: bool  # by `train`, whose octets may give other numbers than the source has
    open: int = 0
    since: int = 0
    last: int | None = None
    kept: set = field(default_factory=set)
    fates: dict = field(default_factory=dict)
    had: set = field(default_factory=set)  # the units that had a row, by their index

    def __post_init__(self):
        self.open, self.since = self.first, max(self.source.first or 0, self.first - MOST_BACK)

    def put(self, stream, event, subevent, fate):
        """Keeps what the first PDU was that was handed in this place."""
        group, source = self.source.group, self.source
        if not (1 <= stream <= group.num_bis and 0 <= subevent < group.nse and self.since <= event and source.is_performed(event)):
            raise ValueError(f'no PDU was sent in event {event}, subevent {subevent} of stream {stream}')
        place, fates = (event - self.since) * group.nse + subevent, self.fates.setdefault(stream, bytearray())
        if len(fates) <= place:
            fates.extend(bytes(place + 1 - len(fates)))
        fates[place] = fates[place] or ord(fate)

    def hand(self, stream, event, subevent):
        """Hands the sink a PDU of its source."""
        group = self.source.group
        number = group.number(event, subevent)
        if stream not in self.streams or number >= END_OF_NUMBERS:
            return
        if number // group.bn < self.open:
            fate = 'l'
        elif (stream, number) in self.kept:
            fate = 'r'
        else:
            fate = 'h'
            self.kept.add((stream, number))
        self.put(stream, event, subevent, fate)

    def inject(self, stream, event, subevent, answer):
        """Takes the answer to octets that were handed in the place of a PDU."""
        if answer == 'Kept':
            self.kept.add((stream, self.source.group.number(event, subevent)))
        if answer in ('Kept', 'Repeat', 'Late'):
            self.put(stream, event, subevent, 'i')

    def begun(self, given):
        """The framed unit, or None where a row is not of it, but of a start of the same time that was injected: its own start was not
        heard, or it had a row."""
        if given is None or given.index in self.had or (given.stream, *given.numbers[:1]) not in self.kept:
            return None
        self.had.add(given.index)
        return given

    def copies(self, stream, number):
        """Each PDU with this payload: its number, event, subevent, when it is sent, and what it was to the sink."""
        for event, subevent in self.source.group.copies(number):
            if event < self.source.first:
                continue
            yield [number, event, subevent, self.source.sent_at(event, stream, subevent), self.fate(stream, event, subevent)]

    def fate(self, stream, event, subevent):
        place, fates = (event - self.since) * self.source.group.nse + subevent, self.fates.get(stream, b'')
        if 0 <= place < len(fates) and fates[place]:
            return FATES[chr(fates[place])]
        if not self.source.is_performed(event):
            return 'not sent'
        if self.last is not None and event > self.last:
            return 'after it left'
        return FATES['b' if event < self.first else 'm']

    def letters(self, stream):
        """The letter of each PDU of a stream, from the events `since` to `last`."""
        nse = self.source.group.nse
        last = self.source.upcoming - 1 if self.last is None else self.last
        fates = bytes(self.fates.get(stream, b'')).ljust(max(0, last + 1 - self.since) * nse, b'\0')
        before = (self.first - self.since) * nse
        return (fates[:before].replace(b'\0', b'b') + fates[before:].replace(b'\0', b'm')).decode()


@dataclass
class Slot:
    """What a slot of receive states has that decides where the sink is."""
    ident: tuple
    wishes: list[bytes]


class Sink:
    """A sink as the lines and the answers describe it."""

    def __init__(self, number):
        self.number, self.stay, self.relay = number, None, None
        self.slots, self.writes = {}, {}

    def write(self, link, octets):
        self.writes.setdefault(link, []).append(octets)

    def reply(self, link, is_accepted):
        """Takes the answer to the first write that waits on a link."""
        octets = self.writes[link].pop(0)
        if is_accepted:
            self.accept(octets)

    def accept(self, octets):
        if octets[0] == ADD:
            number = min(set(range(256)) - set(self.slots))
            self.slots[number] = Slot((str(octets[1]), str(octets[8]), octets[9:12].hex()), wishes_in(octets[15:]))
        elif octets[0] == REMOVE:
            self.slots.pop(octets[1], None)
        elif octets[0] == MODIFY:
            slot, wishes = self.slots[octets[1]], wishes_in(octets[5:])
            if self.stay and self.stay.slot == octets[1] and (octets[2] == 0 or wishes != slot.wishes):
                self.leave()
            slot.wishes = wishes

    def leave(self):
        """Leaves the group that it is on, if any."""
        if self.stay:
            self.stay.last = self.stay.source.upcoming - 1
        self.stay = None

    def join(self, source, streams, is_tuned, is_told):
        """Joins a group from its next event on, and gives the stay."""
        self.leave()
        slots = [] if is_tuned else [number for number, slot in self.slots.items() if slot.ident == source.ident]
        self.stay = Stay(self.number, source, streams, source.upcoming, next(iter(slots), None), is_told)
        return self.stay


def wishes_in(octets):
    """The BISSYNC of each subgroup, behind their number."""
    wishes, rest = [], octets[1:]
    for _ in range(octets[0]):
        wishes.append(rest[:4])
        rest = rest[5 + rest[4]:]
    return wishes


def written_octets(words):
    """The operation that a line writes: its octets, or those fields of it that are read here, in their places."""
    kind, rest = words[0], words[2:]
    if kind in ('write', 'awrite'):
        return octets_of(words[-1])
    if kind == 'add':
        front = bytes([ADD, int(rest[0])]) + octets_of(rest[1]) + bytes([int(rest[2])]) + octets_of(rest[3])
        return front + wished_octets(rest[4:])
    if kind == 'modify':
        return bytes([MODIFY, int(rest[0])]) + wished_octets(rest[1:])
    return bytes([REMOVE if kind == 'remove' else 4, int(rest[0])])


def wished_octets(words):
    octets = bytes([int(words[0])]) + int(words[1]).to_bytes(2, 'little') + bytes([len(words[2:]) // 2])
    for streams, metadata in zip(words[2::2], words[3::2]):
        octets += octets_of(streams) + bytes([len(octets_of(metadata))]) + octets_of(metadata)
    return octets
