"""Lays a device's log beside the proved logic: what the log says is run by `explain`, line by line, and each answer is compared.

The Source_IDs of the device are its own choice, so operations are run with those of the scenario in their place. Where a device is found
elsewhere than the logic puts it, the difference is told once, and the sink is brought to where the device is."""
import collections
import dataclasses
import typing
from collections.abc import Callable

import log_files
import log_gatt
import log_hci
import log_program
import log_radio
from log_compare import Comparison
from log_gatt import Gatt, Said, Server
from log_hci import Happening
from log_rules import RULES, SECURITY
from log_sink import Link, Notice, Reply, Sink, Sources
from log_states import ADD, CODE, REMOVE, told_line
from log_survey import MOST_SINKS, MOST_SLOTS, Found, Survey

MOST_OPERATION = 512  # octets


class Difference(typing.NamedTuple):
    """Something in which the log and the logic differ: when, whose, by which rule, the octets of both, and the notes of `explain`."""
    record: int
    time: int
    server: Server
    rule: str
    log: str
    own: str
    line: int
    notes: tuple[str, ...] = ()


@dataclasses.dataclass
class Open:
    """A write whose response the log hasn't had yet: its octets, whether a response is due, when it came, and, once it is served, what it
    was answered here and what the slots had before it."""
    octets: bytes
    is_answered: bool
    record: int
    time: int
    reply: Reply | None = None
    before: list[bytes] = dataclasses.field(default_factory=list)


class Laying:
    """A log as it is laid beside the logic. Each difference is handed to `tell`, in the order of the log."""

    def __init__(self, found: Found, program: log_program.Program, given: dict[int, int], tell: Callable[[Difference], None]):
        self.found, self.program, self.given, self.tell = found, program, given, tell
        self.counted: collections.Counter[str] = collections.Counter()
        self.left: collections.Counter[str] = collections.Counter()
        self.by_rule: collections.Counter[str] = collections.Counter()
        self.sinks: dict[Server, Sink] = {}
        self.known: dict[Server, list[bytes]] = {}  # the last whole value of each slot that the log told
        self.replies: dict[tuple[Server, int], Open] = {}
        self.excused: set[Server] = set()  # whose slots differ since a write was answered otherwise
        self.waiting: list[Difference] = []  # until the notes of their lines have come
        self.sources = Sources(program)
        self.radio = log_radio.Radio(self)
        self.now = Happening(0, 0, 0, log_hci.Disconnected(0))
        self.begun: int | None = None

    def lay(self, path: str) -> None:
        """Goes through the log."""
        self.program.send('scenario 2')
        self.begin()
        gatt = Gatt(self.given, self.found.tables)
        for happening in log_hci.Reader().read(log_files.read_log(path)):
            self.now = happening
            if self.begun is None:
                self.begun = happening.time
            if isinstance(happening.what, log_hci.Attribute):
                for said in gatt.said(happening):
                    if said.server in self.sinks:
                        self.take(said, gatt)
            elif isinstance(happening.what, log_hci.Disconnected):
                self.part(happening.what.connection)
            elif not isinstance(happening.what, log_hci.Connected):
                self.radio.take(happening)
            self.hand_over()
        for connection in {it for sink in self.sinks.values() for it in sink.links}:
            self.part(connection)
        self.program.send('end', len(self.sinks))
        self.program.close()
        self.hand_over(is_over=True)

    def begin(self) -> None:
        """The sinks as they are when the log begins."""
        for server, known in self.found.servers.items():
            if len(self.sinks) == MOST_SINKS:
                self.left['sinks'] += 1
                continue
            self.program.send(f'# {server.name()}')
            if known.slots > MOST_SLOTS:
                self.left['slots'] += known.slots - MOST_SLOTS
            sink = Sink(self.program, self.sources, len(self.sinks), min(known.slots, MOST_SLOTS), known.mtu())
            self.sinks[server] = sink
            self.publish(server, sink, known)
            first = [known.first.get(slot, b'') for slot in range(sink.slots)]
            self.known[server] = first
            if any(first):
                self.program.send('# what its slots had before the log began')
                sink.adopt(first, dict(enumerate(it[0] for it in first if it)))

    def publish(self, server: Server, sink: Sink, known: Survey) -> None:
        """The records, locations and contexts that the log tells; a device whose radio is in the log and that tells none takes any LC3."""
        for kind, values in known.told.items():
            for octets in values[:1] if kind != log_gatt.PAC else values:
                try:
                    lines = told_line(sink.number, log_gatt.Told(kind, octets))
                except ValueError:
                    self.counted['values of its capabilities that are malformed'] += 1
                    continue
                for line in lines:
                    self.program.send(line)
        if not server.peer and log_gatt.PAC not in known.told:
            self.program.send(f'pac {sink.number} 0600000000 0301ffff0202030203ff05040000ffff0205ff -')

    def part(self, connection: int) -> None:
        """A connection ends: what was due on it never came."""
        for server, sink in self.sinks.items():
            if connection not in sink.links:
                continue
            self.serve(server, connection)
            self.replies.pop((server, connection), None)
            for notice in self.due(sink, sink.links[connection]):
                self.lacks(server, notice)
            sink.part(connection)

    @staticmethod
    def due(sink: Sink, link: Link) -> list[Notice]:
        return [it for it in link.notices if link.asked.get(it.slot, 0) & 3 and it.slot not in sink.blind]

    def lacks(self, server: Server, notice: Notice) -> None:
        self.differ(server, 'NoNotice', '(none)', f'slot {notice.slot}: {notice.octets.hex() or "-"}', notice.line)

    def take(self, said: Said, gatt: Gatt) -> None:
        """Takes something of a server."""
        sink, what = self.sinks[said.server], said.what
        link = sink.join(said.connection, gatt.mtu(said.connection))
        sink.time = max(0, said.time - (self.begun or 0)) % 2 ** 48
        if link is None:
            self.left['links'] += 1
        elif isinstance(what, log_gatt.Written):
            self.written(said, what)
        elif isinstance(what, log_gatt.Answered):
            self.answered(said.server, said.connection, what.code)
        elif isinstance(what, log_gatt.Asked):
            link.asked[what.slot] = what.bits
        elif isinstance(what, log_gatt.Value) and what.slot < sink.slots:
            self.counted['notices' if what.way != 'read' else 'states read'] += 1
            if what.way == 'read':
                self.settle(said.server, said.connection)
            if what.slot in sink.blind:
                self.blind(said.server, sink, what)
            else:
                Comparison(self, said, sink, link).take(what)
            if what.is_whole:
                self.known[said.server][what.slot] = what.octets

    def blind(self, server: Server, sink: Sink, value: log_gatt.Value) -> None:
        """A slot that isn't followed is followed again once it is empty."""
        self.left['blind'] += 1
        if not value.octets:
            self.known[server][value.slot] = b''
            self.adopt(server, sink)

    def mark(self) -> None:
        """A comment that says where in the log the next lines come from."""
        self.program.send(f'# record {self.now.record}, {self.seconds(self.now.time)} s')

    def seconds(self, time: int) -> str:
        return f'{(time - (self.begun or 0)) / 1e6:.6f}'

    def written(self, said: Said, what: log_gatt.Written) -> None:
        """A write comes. It is served at its response, or at the first notice that it explains: an assistant sees notices that were under
        way before its write was."""
        if len(what.octets) > MOST_OPERATION:
            self.left['mtu'] += 1
            return
        self.counted['writes'] += 1
        place = said.server, said.connection
        self.settle(*place)
        if place in self.replies:
            opened = self.replies.pop(place)
            self.differ(said.server, 'NoResponse', '(none)', 'a response', self.program.number, f'to {opened.octets.hex()}')
        self.replies[place] = Open(what.octets, what.is_answered, self.now.record, self.now.time)
        self.left['scan'] += what.octets[:1] in (b'\x00', b'\x01')
        self.counted['writes without a response'] += not what.is_answered

    def settle(self, server: Server, connection: int) -> None:
        """Serves what waits of a connection, and is done with it where no response is due."""
        self.serve(server, connection)
        opened = self.replies.get((server, connection))
        if opened and not opened.is_answered:
            del self.replies[server, connection]

    def serve(self, server: Server, connection: int, is_taken: bool = False) -> bool:
        """Serves the write that waits, if any, behind those that came before it on other links, and says whether one did. `is_taken` says
        that the device has accepted it."""
        opened, sink = self.replies.get((server, connection)), self.sinks[server]
        if opened is None or opened.reply is not None:
            return False
        for place, other in list(self.replies.items()):
            if other is opened:
                break
            if place[0] == server:
                self.serve(*place)
        octets = with_source(opened.octets, sink, is_taken)
        self.program.send(f'# record {opened.record}, {self.seconds(opened.time)} s')
        opened.before = list(sink.model)
        opened.reply = sink.write(octets, sink.links[connection])
        return True

    def answered(self, server: Server, connection: int, code: int | None) -> None:
        """Compares the response to a write."""
        self.serve(server, connection, code is None)
        opened = self.replies.get((server, connection))
        if opened is None or opened.reply is None or not opened.is_answered:
            return
        del self.replies[server, connection]
        reply, sink = opened.reply, self.sinks[server]
        self.counted['replies'] += 1
        if code == reply.code:
            self.counted['replies that agree'] += 1
            return
        if code in SECURITY:
            self.left['security'] += 1
        elif reply.cause == 'NoDecrypt' and code not in (0x81,):
            self.left['code'] += 1
            return
        else:
            self.differ(server, rule_of(reply, code), 'ok' if code is None else f'error {code:02x}',
                        'ok' if reply.code is None else f'error {reply.code:02x} {reply.cause}', reply.line, f'to {opened.octets.hex()}')
        if reply.code is None:
            self.known[server] = self.as_device(server, opened.before)
            self.adopt(server, sink)
        elif code is None and opened.octets[:1] in (bytes([ADD]), bytes([ADD + 1]), bytes([REMOVE])):
            self.excused.add(server)

    def as_device(self, server: Server, states: list[bytes]) -> list[bytes]:
        """States of the scenario with the Source_IDs of the device."""
        ids = self.sinks[server].ids
        return [bytes([ids.get(it[0], it[0])]) + it[1:] if it else it for it in states]

    def adopt(self, server: Server, sink: Sink) -> None:
        """Brings the sink to where the device is."""
        self.program.send('# brought to where the device is')
        states = self.known[server]
        sink.adopt(states, {slot: it[0] for slot, it in enumerate(states) if it})
        self.counted['times brought to where the device is'] += 1

    def differ(self, server: Server, rule: str, log: str, own: str, line: int, more: str = '') -> None:
        self.by_rule[rule] += 1
        self.waiting.append(Difference(self.now.record, self.now.time, server, rule, ' '.join(filter(None, [log, more])), own, line,
                                       tuple(self.program.notes.get(line, ()))))
        assert rule in RULES

    def hand_over(self, is_over: bool = False) -> None:
        """Hands over the differences whose notes have come."""
        while self.waiting and (is_over or self.waiting[0].line < self.program.number):
            difference = self.waiting.pop(0)
            self.tell(difference._replace(notes=difference.notes or tuple(self.program.notes.get(difference.line, ()))))


def with_source(octets: bytes, sink: Sink, is_taken: bool) -> bytes:
    """An operation with the Source_ID of the scenario in the place of the device's. One that no value of the log told yet is that of the
    only source whose Source_ID is unknown, where the device accepted the operation."""
    if len(octets) < 2 or octets[0] not in (ADD + 1, CODE, REMOVE):
        return octets
    found = [own for own, other in sink.ids.items() if other == octets[1]]
    used = [it[0] for it in sink.model if it]
    unknown = [it for it in used if it not in sink.ids]
    if not found and is_taken and len(unknown) == 1:
        found = unknown
    if found:
        return octets[:1] + bytes([found[0]]) + octets[2:]
    if octets[1] in sink.ids:  # of another source here, and of none on the device
        return octets[:1] + bytes([next(it for it in range(255, -1, -1) if it not in used)]) + octets[2:]
    return octets


def rule_of(reply: Reply, code: int | None) -> str:
    """By which rule a response differs."""
    if reply.code is not None and (code not in (0x80, 0x81) or reply.cause in ('Opcode', 'SourceUnknown')):
        return reply.cause if reply.cause in RULES else 'Codes'
    return 'Codes' if code in (0x80, 0x81) else 'Taken'

