"""What the steps of a run put on the air and over the links. capture_out.py uses it.

The steps are taken one by one, and the packets come by rising time. Kept of a run are who heard what, in four octets each, what went over
links, in a file, and what has no place in the events; the PDUs of the streams are read from the program when their time comes."""
import contextlib
import heapq
import pickle
import tempfile
import typing
from array import array
from collections import Counter, defaultdict, deque
from collections.abc import Iterable, Iterator

import link_layer
import run_reading
from air_pieces import Pdu, Pieces
from air_source import TRAIN_BEFORE, Source
from att_links import Link, number, octets_of, written_octets
from link_layer import Packet

BEGIN = 1000000  # µs, the time in the capture of the run's time 0
STEP = 100  # µs between what has no time of its own and nothing behind it
ADVERTISED_EVERY = 100000  # µs
CONTROL = 3  # the LLID of a control PDU
CONTROL_LENGTHS = {b'\x00': 10, b'\x01': 6}  # of a control PDU by its opcode
DESCRIBING = ('group', 'ident', 'cipher', 'subgroup', 'meta', 'bis', 'start')
NOT_ON_A_TRAIN = ('NoBroadcastId', 'NotWanted', 'OtherTrain', 'AlreadyOnGroup')
ASSISTED = ('assist', 'apart', 'aserve', 'atell', 'aread', 'adrain')
NO_PDU = 'PDUs that no `sniff` line printed'
NO_ROOM = 'PDUs of a text that has no room for their `sniff` lines'
IS_AIR = 1 << 31  # the mark of an `air` line among those that say who heard what


class Control:
    """A control PDU on the air, with who heard it."""

    def __init__(self, source, event, octets):
        self.source, self.event, self.octets, self.heard = source, event, octets, []


class Injected(typing.NamedTuple):
    """Octets that a sink was handed in the place of a PDU."""
    source: Source
    pdu: Pdu
    sink: str
    answer: str


class Spread:
    """What has no time of its own, spread over the time from what the steps had before to what they have next, and kept in a file."""

    def __init__(self):
        self.now, self.waiting, self.file, self.kept = 0, [], tempfile.TemporaryFile(), 0

    def put(self, events):
        self.waiting += events

    def reach(self, begin, end):
        """The steps come to what takes up this span of time."""
        self.spread(begin if begin > self.now else self.now + STEP * (len(self.waiting) + 1))
        self.now = max(self.now, begin, end)

    def spread(self, until):
        for place, packets in enumerate(self.waiting, 1):
            time = max(self.now + 2, self.now + (until - self.now) // (len(self.waiting) + 2 - place))
            for behind, (octets, comment) in enumerate(packets):
                pickle.dump((BEGIN + time + behind, octets, comment), self.file)
                self.kept += 1
            self.now = time
        self.waiting = []

    def packets(self) -> Iterator[Packet]:
        self.spread(self.now + STEP * (len(self.waiting) + 1))
        self.file.seek(0)
        for _ in range(self.kept):
            yield Packet(*pickle.load(self.file))

    def close(self):
        self.file.close()


class Run:
    """What the steps did, so far."""

    def __init__(self) -> None:
        self.sources, self.chosen = [Source(0), Source(1)], 0
        self.heard_in: dict[tuple[int, int], array] = defaultdict(lambda: array('I'))
        self.printed: list[dict] = [{}, {}]  # of each source the PDUs of `sniff` lines by their places
        self.trains: dict[tuple[int, int], list] = {}  # of announcements who was handed them, by source and event
        self.controls: list[Control] = []
        self.control_of: dict[tuple[int, bytes], Control] = {}  # the first one with these octets
        self.injected: list[Injected] = []
        self.links: dict[tuple[str, str], Link] = {}
        self.sinks: dict[str, tuple[int, int | None]] = {}
        self.waiting: defaultdict[tuple[str, str], deque[bytes]] = defaultdict(deque)
        self.source_of: dict[str, Source] = {}
        self.left_out: Counter[str] = Counter()
        self.spread, self.connections, self.is_relayed, self.lines = Spread(), 0, False, 0

    def take(self, step: run_reading.Step):
        """Takes the next step. One that isn't possible behind those before it is a fault."""
        try:
            getattr(self, 'do_' + step.words[0], self.do_other)(step.words, step.printed)
        except (LookupError, ValueError, ArithmeticError) as error:
            told = run_reading.shown(' '.join(step.words))
            raise run_reading.RunFault(f'{run_reading.NOT_OF_IT}: line {step.number} ({told}) can\'t be done: {error}') from error
        self.lines = step.number

    def do_other(self, words, _):
        if words[0] in DESCRIBING:
            self.source().describe(words)
        elif words[0] in run_reading.WRITES + ('awrite',):
            self.waiting[run_reading.link_of(words)].append(written_octets(words))

    def source(self) -> Source:
        return self.sources[self.chosen]

    def do_source(self, words, _):
        self.chosen = number(words[1], 0, 1)

    def do_relay(self, *_):
        self.is_relayed = True

    def do_sink(self, words, _):
        number(words[1], 0, 7)
        self.sinks[words[1]] = number(words[3], 1, 8), number(words[4], 23, 517) if len(words) > 4 else None
        self.join(words[1], '0')

    def join(self, sink, link):
        self.waiting[sink, link] = deque()
        self.links[sink, link] = Link(self.connections, int(sink), number(link, 0, 3), *self.sinks[sink])
        self.connections += 1

    def do_assist(self, words, _):
        self.join(words[1], words[2])

    def do_apart(self, words, _):
        self.spread.put(self.links.pop((words[1], words[2])).closed())

    def do_drop(self, words, _):
        for place in [it for it in self.links if it[0] == words[1]]:
            self.spread.put(self.links.pop(place).closed())

    def do_tuned(self, words, _):
        self.source_of[words[1]] = self.source()

    def do_event(self, *_):
        source = self.source()
        event = source.performed()
        self.spread.reach(source.anchor(event) - TRAIN_BEFORE, source.control_place(event))

    def do_sniff(self, words, printed):
        _, event, stream, subevent, octets = printed[0]
        if printed[0][2:4] != words[2:] or int(event) != self.source().last_event() - number(words[1], 0, 31):
            raise ValueError('the PDU is of another place')
        self.printed[self.chosen][int(event), int(stream), int(subevent)] = octets_of(octets)

    def hears(self, back, one):
        self.heard_in[self.chosen, self.source().last_event() - back].append(one)

    def do_hear(self, words, _):
        sink, back, stream, subevent = number(words[1], 0, 7), number(words[2], 0, 31), number(words[3], 1, 31), number(words[4], 0, 30)
        self.hears(back, ((sink << 5 | back) << 5 | stream) << 5 | subevent)

    def do_air(self, words, _):
        self.hears(0, IS_AIR | number(words[1], 0, 7) << 8 | number(words[2], 0, 255))

    def do_inject(self, words, printed):
        octets = octets_of(words[5])
        event = self.source().last_event() - number(words[2], 0, 31)
        if is_whole(octets) and (octets[0] & 3 != CONTROL or is_control(octets)):
            pdu = Pdu(event, number(words[3], 1, 31), number(words[4], 0, 30), octets)
            self.injected.append(Injected(self.source(), pdu, words[1], ' '.join(printed[0][2:])))
        else:
            self.left_out['injected octets that are no PDU'] += 1

    def do_announce(self, words, printed):
        source = self.source()
        if source.event is None:
            raise ValueError('no announcement before the start')
        octets = [it.hex() for it in source.announcement(source.event, 0, 0)]
        if printed[0][3:] != octets:
            raise run_reading.RunFault(f'the train that the program announces is {printed[0][3:]}, not {octets}')
        self.spread.reach(*[source.anchor(source.event) - TRAIN_BEFORE] * 2)
        answer = printed[1][2]
        self.trains.setdefault((source.number, source.event), []).append((words[1], ' '.join(printed[1][2:])))
        if answer not in NOT_ON_A_TRAIN:
            self.source_of[words[1]] = source

    def do_train(self, words, printed):
        self.left_out['trains that were handed by their octets'] += 1
        if printed[0][2] not in NOT_ON_A_TRAIN:
            self.source_of[words[1]] = self.source()

    def do_terminate(self, _, printed):
        source, octets = self.source(), octets_of(printed[-1][1])
        if not source.events():
            self.left_out['control PDUs of a group that had no event'] += 1
        else:
            self.send_control(source, octets)

    def send_control(self, source, octets):
        self.controls.append(Control(source, source.last_event(), octets))
        return self.control_of.setdefault((source.number, octets), self.controls[-1])

    def do_control(self, words, printed):
        octets, source = octets_of(words[2]), self.source_of.get(words[1], self.source())
        ours = self.control_of.get((source.number, octets))
        if ours is None and is_control(octets) and source.events():
            ours = self.send_control(source, octets)
        if ours is None:
            self.left_out['handed octets that are no control PDU of a group'] += 1
        else:
            ours.heard.append(f'sink {words[1]}: {" ".join(printed[0][2:])}')

    def link_of(self, words):
        """The link of a line, with its name in the lists here."""
        place = words[1], words[2] if words[0] in ASSISTED else '0'
        return self.links[place], place

    def do_drain(self, words, printed):
        link, place = self.link_of(words)
        for line in printed:
            kind, rest = line[0].removeprefix('a'), line[3 if line[0].startswith('a') else 2:]
            if kind == 'reply':
                code, cause = (None, 'ok') if rest[0] == 'ok' else (int(rest[0], 16), rest[1])
                self.spread.put(link.written(self.waiting[place].popleft(), code, cause))
            elif kind == 'notice':
                self.spread.put(link.told(int(rest[0]), octets_of(rest[1]), f'notice of slot {rest[0]}'))
            else:
                self.spread.put(link.read(int(rest[0]), octets_of(rest[1])))

    do_serve = do_tell = do_read = do_aserve = do_atell = do_aread = do_adrain = do_drain

    def do_forge(self, words, printed):
        link, _ = self.link_of(words)
        told = ' '.join(printed[0][2:])
        slot, octets = number(words[2], 0, 255), octets_of(words[3])
        self.spread.put(link.told(slot, octets, f'notice of slot {slot} that the sink did not send: {told}'))

    def close(self):
        self.spread.close()


class Air:
    """The packets of a run. `program` and `path` are the program and the scenario that is run for the PDUs; without a program they are
    those of its `sniff` lines."""

    def __init__(self, run: Run, ear: str | None, program: str | None, path: str):
        self.run, self.ear, self.program, self.path = run, ear, program, path

    def packets(self) -> Iterator[Packet]:
        """All packets by rising time."""
        kinds = [self.run.spread.packets(), sorted(self.control_packets()), sorted(self.injected_packets())]
        for source in self.run.sources:
            if source.first is not None:
                kinds += [self.train_packets(source), self.stream_packets(source)]
        yield from heapq.merge(*kinds, key=lambda it: it.time)
        for one in self.run.heard_in.values():
            self.run.left_out[NO_PDU] += len(one)

    def is_heard(self, sinks: Iterable[int]) -> bool:
        """Whether the ear is one of these sinks."""
        return self.ear is None or int(self.ear) in sinks

    def control_packets(self):
        for one in self.run.controls:
            if self.ear is None or any(it.startswith(f'sink {self.ear}:') for it in one.heard):
                yield Packet(BEGIN + one.source.control_place(one.event), one.source.stream_packet(0, one.octets),
                             f'source {one.source.number}, event {one.event}, control; {heard_by(one.heard)}')

    def injected_packets(self):
        for source, pdu, sink, answer in self.run.injected:
            if self.is_heard([int(sink)]):
                yield stream_packet(source, pdu, f'not sent, but heard by sink {sink}: {answer}')

    def train_packets(self, source: Source) -> Iterator[Packet]:
        announced = {event: whom for (place, event), whom in self.run.trains.items() if place == source.number}
        performed = range(source.first, source.event, source.events_between_trains())
        before, advertised = None, -ADVERTISED_EVERY
        for event in heapq.merge(performed, sorted(announced)):
            if event == before:
                continue
            if event * source.group['bn'] >> 39:
                self.run.left_out['trains past the end of the counter'] += 1
                continue
            before, train_at = event, source.anchor(event) - TRAIN_BEFORE
            if train_at - advertised >= ADVERTISED_EVERY:
                advertised = train_at
                for time, octets in source.advertising_packets(event, train_at):
                    yield Packet(BEGIN + time, octets, f'source {source.number}, leads to its train')
            whom = ', '.join(f'sink {sink}: {answer}' for sink, answer in announced.get(event, [])) or 'no sink'
            told = f'source {source.number}, train for event {event}; announced to {whom}'
            for time, octets in source.train_packets(event, train_at):
                yield Packet(BEGIN + time, octets, told)

    def pdus(self, source: Source) -> Iterator[Pdu]:
        """The PDUs of the source, event by event."""
        if self.program is None:
            for (event, stream, subevent), octets in sorted(self.run.printed[source.number].items()):
                yield Pdu(event, stream, subevent, octets)
            return
        pieces = Pieces(self.program, self.path, self.run.lines, source.number, source.places(), source.events(), self.run.is_relayed)
        yield from pieces
        if pieces.left:
            self.run.left_out[NO_ROOM] += pieces.left

    def stream_packets(self, source: Source) -> Iterator[Packet]:
        together: list[Pdu] = []
        for pdu in self.pdus(source):
            if together and together[0].event != pdu.event:
                yield from self.event_packets(source, together)
                together = []
            together.append(pdu)
        if together:
            yield from self.event_packets(source, together)

    def event_packets(self, source: Source, pdus: list[Pdu]) -> Iterator[Packet]:
        heard = self.listeners(source, pdus[0].event)
        for pdu in sorted(pdus, key=lambda it: source.place(*it[:3])):
            whom = heard.pop(pdu[1:3], {})
            if self.is_heard([sink for sink, _ in whom]):
                yield stream_packet(source, pdu, heard_by([f'sink {sink}{late(back)}' for sink, back in whom]))
        self.run.left_out[NO_PDU] += sum(map(len, heard.values()))

    def listeners(self, source: Source, event: int) -> dict:
        """Who heard each PDU of an event: by its stream and subevent the sinks, each with how many events later."""
        heard: dict[tuple[int, int], dict] = {}
        for one in self.run.heard_in.pop((source.number, event), ()):
            if one & IS_AIR:
                for place in aired(source, event, one & 255):
                    heard.setdefault(place, {})[one >> 8 & 7, 0] = None
            else:
                heard.setdefault((one >> 5 & 31, one & 31), {})[one >> 15, one >> 10 & 31] = None
        return heard


def aired(source: Source, event: int, lose: int) -> Iterator[tuple[int, int]]:
    """The places of an event whose PDUs an `air` line hands to its sink."""
    front = event * source.group['num_bis'] * source.group['nse']
    return (place for p, place in enumerate(source.places(), front) if lose == 0 or p % lose != lose - 1)


def stream_packet(source: Source, pdu: Pdu, told: str) -> Packet:
    event, stream, subevent, octets = pdu
    payload = link_layer.payload_number(source.group, event, subevent)
    return Packet(BEGIN + source.place(event, stream, subevent), source.stream_packet(stream, octets),
                  f'source {source.number}, event {event}, stream {stream}, subevent {subevent}, payload {payload}; {told}')


def is_whole(octets: bytes) -> bool:
    return len(octets) >= 2 and len(octets) == 2 + octets[1]


def is_control(octets: bytes) -> bool:
    """Whether the octets are a BIG_CHANNEL_MAP_IND or a BIG_TERMINATE_IND."""
    return is_whole(octets) and octets[0] & 3 == CONTROL and len(octets) == CONTROL_LENGTHS.get(octets[2:3])


def late(back: int) -> str:
    return f' ({back} event{"s" if back > 1 else ""} later)' if back else ''


def heard_by(whom: list[str]) -> str:
    return 'heard by ' + (', '.join(whom) or 'no sink')


def read_run(run: Run, path: str, rows: Iterable[str]) -> str | None:
    """Takes all steps of the scenario with these rows, and gives the row that refused a line, or None."""
    with open(path, 'rb') as file:
        reading = run_reading.Reading(run_reading.text_of(file), rows)
        for step in reading:
            run.take(step)
    return reading.refusal


def write_run(scenario: str, capture: str, program: str, transcript: str | None, ear: str | None):
    """Writes the run of a scenario as a capture, and gives how many packets it has, what was left out, and the refusal or None."""
    with contextlib.closing(Run()) as run, run_reading.at_rest(scenario) as path, contextlib.ExitStack() as files:
        if transcript is None:
            text = files.enter_context(open(path, 'rb'))
            rows: Iterable[str] = files.enter_context(contextlib.closing(run_reading.program_rows(program, text)))
        else:
            rows = run_reading.rows_in(run_reading.text_of(files.enter_context(open(transcript, 'rb'))))
        refusal = read_run(run, path, rows)
        air = Air(run, ear, program if transcript is None else None, path)
        packets = link_layer.write_capture(capture, air.packets())
        return packets, {what: many for what, many in run.left_out.items() if many}, refusal
