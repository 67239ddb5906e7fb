"""A run, walked line by line: its units with their PDUs, and what else is shown of it. timeline.py uses it."""
from collections import deque
from dataclasses import dataclass, field
from typing import Any

from timeline_air import Group, Source
from timeline_reading import RunFault
from timeline_sinks import Sink, written_octets

WRITES = ('write', 'add', 'modify', 'remove', 'code', 'awrite')
CLOSING = ('event', 'stop', 'terminate', 'end')
TOLD_OF_LINKS = ('reply', 'notice', 'read', 'view', 'forged')
TOLD_ON_LINK = ('areply', 'anotice', 'aread', 'aview')  # rows that name their link
TOLD_OF_SINKS = ('sink', 'heard', 'state', 'relay', 'sum')
LEFT = ('Idle', 'Left')


@dataclass(slots=True)
class Unit:
    """A unit at a sink, by the line that closed its event. `fate` is valid, lost, empty (a lost one for a slot to which no unit was
    given) or unbegun (a framed one whose start was not heard, which has no row)."""
    sink: int
    stream: int
    at: int
    fate: str
    line: int
    stay: Any
    event: int | None = None
    slot: int | None = None
    given: Any = None
    octets: str = ''

    def pdus(self):
        """The PDUs that carry it, each with what it was to the sink."""
        numbers = self.given.numbers if self.given else []
        return [copy for number in numbers for copy in self.stay.copies(self.stream, number)]


@dataclass(slots=True)
class Mark:
    """What is shown of a line beside units and events, in a lane. Without a time of its own it stands where its line does."""
    lane: tuple
    line: int
    kind: str
    text: str
    at: int | None = None


@dataclass
class Run:
    """What the lines did, so far."""
    sources: list = field(default_factory=lambda: [Source(0), Source(1)])
    sinks: dict = field(default_factory=dict)
    stays: list = field(default_factory=list)
    units: list = field(default_factory=list)
    marks: list = field(default_factory=list)
    lines: dict = field(default_factory=dict)  # those with marks, by their numbers
    moments: list = field(default_factory=list)  # of each line its number and the time that it fixes, or None
    refusal: str | None = None
    chosen: int = 0

    @property
    def source(self):
        return self.sources[self.chosen]

    def take(self, line):
        """Takes the next line."""
        if line.words and not line.is_refused:
            self.do(line)
        if line.refusal:
            self.refusal = line.refusal
            self.mark(('source', self.chosen), line.number, 'refused', line.refusal)
        if line.words or line.refusal:
            self.moments.append((line.number, self.fixed_time(line)))
        if self.marks and self.marks[-1].line == line.number:
            self.lines[line.number] = line

    def fixed_time(self, line):
        """The time that a line has of its own, or None."""
        kind = None if line.is_refused or not line.words else line.words[0]
        if kind == 'event':
            return self.source.events[-1].anchor
        return int(line.rows[0].split(' ')[2]) if kind == 'announce' else None

    def do(self, line):
        """Does what a line does, and shows its rows."""
        words = line.words
        rows = deque(row.split(' ') for row in (line.rows[:-1] if line.refusal else line.rows))
        if words[0] in CLOSING:
            for source in self.sources if words[0] == 'end' else [self.source]:
                self.close(source, line.number, rows)
        getattr(self, 'do_' + words[0], self.do_other)(words, line)
        for row in rows:
            self.show(row, line.number, words)

    def mark(self, lane, line, kind, text, at=None):
        self.marks.append(Mark(lane, line, kind, text, at))

    def of_sink(self, words):
        return self.sinks[int(words[1])]

    def do_other(self, words, line):
        if words[0] in WRITES:
            link = int(words[2]) if words[0] == 'awrite' else 0
            self.of_sink(words).write(link, written_octets(words))
            self.mark(('link', int(words[1]), link), line.number, 'write', f'{words[0]} waits')

    def do_source(self, words, _):
        self.chosen = int(words[1])

    def do_group(self, words, _):
        self.source.group = Group.of_words(words)

    def do_ident(self, words, _):
        self.source.ident = words[1], words[3], words[4].lower()

    def do_start(self, words, line):
        self.source.start(int(words[1]))
        self.mark(('source', self.chosen), line.number, 'start', line.text)

    def do_stop(self, _, line):
        self.source.is_stopped = True
        self.mark(('source', self.chosen), line.number, 'stop', line.text)

    do_terminate = do_stop

    def do_sink(self, words, line):
        self.sinks[int(words[1])] = Sink(int(words[1]))
        self.mark(('sink', int(words[1])), line.number, 'begun', line.text)

    def do_drop(self, words, line):
        self.sinks.pop(int(words[1])).leave()
        self.mark(('sink', int(words[1])), line.number, 'left', line.text)

    def do_tuned(self, words, line):
        self.join(words, words[2:], True, False)
        self.mark(('sink', int(words[1])), line.number, 'joined', f'source {self.chosen}, by tuned: {" ".join(words[2:])}')

    def join(self, words, streams, is_tuned, is_told):
        self.stays.append(self.of_sink(words).join(self.source, [int(it) for it in streams], is_tuned, is_told))

    def do_assist(self, words, line):
        self.of_sink(words).writes[int(words[2])] = []
        self.mark(('link', int(words[1]), int(words[2])), line.number, 'begun', line.text)

    def do_apart(self, words, line):
        self.of_sink(words).writes[int(words[2])] = []
        self.mark(('link', int(words[1]), int(words[2])), line.number, 'left', line.text)

    def do_relay(self, words, _):
        self.of_sink(words).relay = int(words[2]), int(words[3])

    def do_unit(self, words, line):
        octets = '' if words[3] == '-' else words[3].lower()
        self.source.accept(int(words[1]), line.number, None if words[2] == '-' else int(words[2]), octets)

    def do_event(self, _, line):
        self.source.perform(line.number)

    def stay_here(self, words):
        """The stay of the sink that a line names, where it is on the group of the chosen source."""
        stay = self.of_sink(words).stay
        return stay if stay and stay.source is self.source else None

    def do_hear(self, words, _):
        stay = self.stay_here(words)
        if stay:
            stay.hand(int(words[3]), self.source.next - 1 - int(words[2]), int(words[4]))

    def do_inject(self, words, line):
        stay = self.stay_here(words)
        if stay:
            stay.inject(int(words[3]), self.source.next - 1 - int(words[2]), int(words[4]), line.rows[0].split(' ')[2])

    def do_air(self, words, _):
        stay, group, event, lose = self.stay_here(words), self.source.group, self.source.next - 1, int(words[2])
        for place in range(group.num_bis * group.nse) if stay else ():
            drawn = event * group.num_bis * group.nse + place
            if lose == 0 or drawn % lose != lose - 1:
                stay.hand(place // group.nse + 1, event, place % group.nse)

    def close(self, source, line, rows):
        """Closes the open event of a source for its sinks, which takes their rows from the front."""
        event, source.open = source.open, None
        staying = [sink for _, sink in sorted(self.sinks.items()) if event is not None and sink.stay and sink.stay.source is source]
        for sink in (it for it in staying if it.stay.is_told or it.stay.open <= event):
            closed, sink.stay.open = sink.stay.open, sink.stay.open + 1
            dropped, told = [], []
            for stream in sink.stay.streams:
                units = self.closed_units(sink, stream, closed, line, rows)
                self.units += units
                if sink.relay and sink.relay[0] == stream and source.number == 0:
                    dropped = self.relay(sink.relay[1], units, line)
            while rows and rows[0][:2] == ['relay', str(sink.number)]:
                told.append(rows[0][4])
                self.show(rows.popleft(), line, [])
            if told != dropped:
                raise RunFault(f'line {line}: what the relay of sink {sink.number} drops is {told}, not {dropped}')

    def closed_units(self, sink, stream, event, line, rows):
        """The units that the close of an event hands up of a stream, and those of the event that were never begun."""
        stay, units = sink.stay, []
        group, air = stay.source.group, stay.source.airs.get(stream)
        while rows and rows[0][:3] == ['unit', str(sink.number), str(stream)]:
            row = rows.popleft()
            if row[5] not in ('valid', 'lost'):
                raise ValueError(f'a unit is {row[5]}')
            unit = Unit(sink.number, stream, int(row[4]), row[5], line, stay, octets=row[7] if row[5] == 'valid' else '')
            units.append(unit)
        if stay.is_told or air is None:
            return units
        if group.is_framed:
            for unit in units:
                unit.given = stay.begun(air.by_time.get(unit.at - group.after_time))
                unit.event = unit.given.numbers[0] // group.bn if unit.given else None
            return units + [Unit(sink.number, stream, it.time + group.after_time, 'unbegun', line, stay, event, None, it)
                            for it in air.starting.get(event, ()) if (stream, it.numbers[0]) not in stay.kept]
        for slot, unit in enumerate(units):
            if unit.at != group.render_in_slot(stay.source.anchor(event), slot):
                raise RunFault(f'line {line}: the unit at {unit.at} of sink {sink.number} is not of slot {slot} of event {event}')
            unit.event, unit.slot, unit.given = event, slot, air.in_slot.get((event, slot))
            if unit.given is None and unit.fate == 'lost':
                unit.fate = 'empty'
            if unit.given and unit.given.octets == unit.octets:
                unit.octets = unit.given.octets  # one text in place of two
        return units

    def relay(self, stream, units, line):
        """Hands valid units on to a stream of source 1, and gives why each that it doesn't take is dropped."""
        dropped = []
        for unit in (it for it in units if it.fate == 'valid'):
            octets = '' if unit.octets == '-' else unit.octets
            reason = self.sources[1].drops(stream, unit.at, octets)
            if reason:
                dropped.append(reason)
            else:
                self.sources[1].accept(stream, line, unit.at, octets)
        return dropped

    def show(self, row, line, words):
        """Shows a row of the transcript in its lane."""
        is_of_link = row[0] in TOLD_ON_LINK
        kind, link = (row[0][1:], int(row[2])) if is_of_link else (row[0], 0)
        told = row[3:] if is_of_link else row[2:]
        if kind == 'reply':
            self.sinks[int(row[1])].reply(link, told[0] == 'ok')
        if kind in TOLD_OF_LINKS:
            self.mark(('link', int(row[1]), link), line, kind, ' '.join(told))
        elif kind == 'unit':
            raise RunFault(f'line {line}: no sink that is on the group hands up the unit of the row {" ".join(row[:5])}')
        elif kind in TOLD_OF_SINKS:
            self.mark(('sink', int(row[1])), line, self.kind_at_sink(kind, told, words), ' '.join(told))
        else:
            self.mark(('source', self.chosen), line, kind, ' '.join(row[1:]), int(row[2]) if kind == 'train' else None)

    def kind_at_sink(self, kind, told, words):
        """The kind of a mark on a sink, and what an answer does to the sink."""
        if kind != 'sink':
            return {'relay': 'dropped'}.get(kind, kind)
        if told[0] == 'OnGroup':
            self.join(words, told[1:], False, words[0] == 'train')
            return 'joined'
        if told[0] in LEFT:
            self.of_sink(words).leave()
            return 'left'
        return 'control' if words[0] == 'control' else 'train'
