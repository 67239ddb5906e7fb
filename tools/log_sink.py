"""A sink of the scenario that stands for a server of a log, with its links: it runs lines, and follows what they make of the slots."""
import dataclasses
import typing

from log_program import Program
from log_states import (ADD, CODEC, NEEDS_CODE, REMOVE, SYNCED, State, adding, extended, state_of, supposed_train, word)

DUMMY = bytes([0]) + b'\xdd' * 6 + b'\x00'  # a source that fills an empty slot for a moment
LEFT = '030401130000'  # a PDU that ends a group
GROUP = 'group unframed 20000 0 8 10000 1 1 1 1 1 1 0 0 0 1'


@dataclasses.dataclass
class Notice:
    """A notice that waits, or was told in the scenario and not yet in the log."""
    slot: int
    octets: bytes
    line: int
    by: str  # what changed the slot
    is_told: bool = False


@dataclasses.dataclass
class Link:
    """A client of the server."""
    number: int
    mtu: int
    asked: dict[int, int] = dataclasses.field(default_factory=dict)
    notices: list[Notice] = dataclasses.field(default_factory=list)
    reads: set[int] = dataclasses.field(default_factory=set)


class Reply(typing.NamedTuple):
    """What a write was answered: an error code and its cause, or None and 'ok'; and the line that served it."""
    code: int | None
    cause: str
    line: int


class Sources:
    """The sources of the scenario: it has two, and a train has the address type and the SID of one of them."""

    def __init__(self, program: Program):
        self.program, self.named, self.chosen = program, list[bytes](), 0

    def choose(self, origin: bytes) -> bool:
        """Chooses the source with the address type and the SID of this origin, if there is one or room for one."""
        named = origin[:1] + origin[7:8]
        if named not in self.named and len(self.named) == 2:
            return False
        is_new = named not in self.named
        if is_new:
            self.named.append(named)
        if self.chosen != self.named.index(named):
            self.chosen = self.named.index(named)
            self.program.send(f'source {self.chosen}')
        if is_new:
            self.program.send(GROUP)
            self.program.send(f'ident {origin[0]} {origin[1:7].hex()} {origin[7]} {origin[8:11].hex()}')
        return True


class Sink:
    """A sink with its slots, as the scenario has it."""

    def __init__(self, program: Program, sources: Sources, number: int, slots: int, mtu: int | None):
        self.program, self.sources, self.number, self.slots, self.mtu = program, sources, number, slots, mtu
        self.model = [b''] * slots
        self.wishes = [0] * slots  # PA_Sync of the last operation on each
        self.wanted = [0] * slots  # the streams that it wants
        self.blind: set[int] = set()  # slots in which the device has what this sink can't
        self.still: set[int] = set()  # slots whose synchronization is not followed
        self.ids: dict[int, int] = {}  # the device's Source_ID for each of the scenario
        self.links: dict[int, Link] = {}
        self.reserved = 0  # notices that wait on link 0 while no client has it: that link is never left
        self.time = 0
        program.send(f'sink {number} 31 {slots}' + (f' {mtu}' if mtu else ''))
        program.send(f'pac {number} {CODEC} - -')

    def line(self, kind: str, link: Link, *words: str) -> str:
        """A line of a link; those of link 0 have other names than those of the others."""
        front = [kind, str(self.number)] if link.number == 0 else ['a' + kind, str(self.number), str(link.number)]
        return ' '.join([*front, *words])

    def join(self, connection: int, mtu: int) -> Link | None:
        """The link of a connection, joined where it isn't; None where there are four."""
        if connection in self.links:
            self.links[connection].mtu = mtu
            return self.links[connection]
        free = [it for it in range(4) if it not in {link.number for link in self.links.values()}]
        if not free:
            return None
        link = Link(free[0], mtu)
        if link.number:
            self.program.send(f'assist {self.number} {link.number}')
            self.program.send(f'adrain {self.number} {link.number}', self.slots)
        else:
            self.tell_reserved()
        self.links[connection] = link
        return link

    def tell_reserved(self) -> None:
        for _ in range(self.reserved):
            self.program.send(f'tell {self.number}', 1)
        self.reserved = 0

    def part(self, connection: int) -> Link | None:
        link = self.links.pop(connection, None)
        if link and link.number:
            self.program.send(f'apart {self.number} {link.number}')
        elif link:
            self.reserved += sum(not it.is_told for it in link.notices)
        return link

    def write(self, octets: bytes, link: Link | None = None) -> Reply:
        """Writes and serves an operation, and follows what becomes of the slots."""
        link = link or Link(0, 0)
        self.program.send(self.line('write', link, word(octets)))
        [row] = self.program.send(self.line('serve', link), 1)
        row = row[2 if link.number == 0 else 3:]
        reply = Reply(None, 'ok', self.program.number) if row == ['ok'] else Reply(int(row[0], 16), row[1], self.program.number)
        if reply.code is None and octets[0] >= ADD:
            self.changed(octets)
        return reply

    def changed(self, octets: bytes) -> None:
        """Follows an operation that was accepted."""
        before = list(self.model)
        ids = {it[0]: slot for slot, it in enumerate(before) if it}
        slot = ids.get(octets[1]) if octets[0] != ADD else None
        place = 15 if octets[0] == ADD else 5
        self.refresh('modify' if octets[0] == 3 else 'write')
        if octets[0] == ADD:
            slot = next(it for it in range(self.slots) if self.model[it] and not before[it])
        if slot is None:
            return
        if octets[0] == REMOVE:
            self.ids.pop(octets[1], None)
            self.still.discard(slot)
            self.blind.discard(slot)
        elif octets[0] in (ADD, 3):
            self.wishes[slot] = octets[12 if octets[0] == ADD else 2]
            self.wanted[slot] = wanted_in(octets, place)

    def refresh(self, by: str) -> None:
        """Asks for the states, and counts a notice on each link for each that changed."""
        line = self.program.number
        rows = self.program.send(f'show {self.number}', 2 * self.slots)
        for row in rows:
            if row[0] != 'state':
                continue
            slot, octets = int(row[2]), b'' if row[3] == '-' else bytes.fromhex(row[3])
            if octets != self.model[slot]:
                self.model[slot] = octets
                for link in self.links.values():
                    link.notices.append(Notice(slot, octets, line, by))
                self.reserved += all(link.number for link in self.links.values())

    def tell(self, link: Link, upto: int) -> None:
        """Delivers the notices up to this place."""
        for notice in link.notices[:upto + 1]:
            if not notice.is_told:
                self.program.send(self.line('tell', link), 1)
                notice.is_told = True
                if self.mtu and len(notice.octets) >= self.mtu - 3:
                    link.reads.add(notice.slot)

    def read(self, link: Link, slot: int) -> None:
        """Serves the reads that wait, up to that of the slot."""
        while link.reads and slot in link.reads:
            self.program.send(self.line('read', link), 1)
            link.reads.discard(min(link.reads))

    def quiet(self) -> None:
        """Delivers all notices, of which the log has none."""
        for link in self.links.values():
            self.tell(link, len(link.notices))
            link.notices.clear()
        self.tell_reserved()

    def train(self, origin: bytes, adv: bytes, acad: bytes) -> list[str]:
        """Hands the sink a train, and gives its answer; an empty one where no line can say it."""
        if not self.sources.choose(origin):
            return []
        words = [word(it) for it in (extended(origin[8:11]), adv, acad)]
        if len(adv) > 1650 or len(acad) > 255:
            return []
        [row] = self.program.send(f'train {self.number} {self.time} {" ".join(words)}', 1)
        self.refresh('train')
        return row[2:]

    def lose(self) -> None:
        self.program.send(f'lose {self.number}', 1)
        self.refresh('train')

    def leave(self) -> None:
        self.program.send(f'control {self.number} {LEFT}', 1)
        self.refresh('train')

    def follow(self, slot: int, told: State) -> bool:
        """Brings the sink where a state says that it is, and says whether anything was done for it."""
        now, line = state_of(self.model[slot]), self.program.number
        if now is None or now.origin != told.origin or [it[1] for it in now.subgroups] != [it[1] for it in told.subgroups]:
            return False
        is_on_train = told.pa == SYNCED
        if not is_on_train:
            if now.pa == SYNCED:
                self.lose()
            return line != self.program.number
        if not self.wishes[slot]:
            return False
        if now.streams and now.streams != told.streams:
            self.lose() if told.streams else self.leave()
            now = state_of(self.model[slot]) or now
        if told.streams and told.streams != now.streams or (told.encryption == NEEDS_CODE) != (now.encryption == NEEDS_CODE):
            if len(told.subgroups) and told.encryption <= NEEDS_CODE:
                self.train(told.origin, *supposed_train(told))
        elif now.pa != SYNCED:
            self.train(told.origin, b'', b'')
        return line != self.program.number

    def adopt(self, states: list[bytes], ids_of: dict[int, int]) -> None:
        """Brings the slots to these values, as far as operations and trains do; the notices of it are delivered at once."""
        if any((state := state_of(it)) and state.pa == SYNCED for it in self.model):
            self.lose()
        for octets in [it for it in self.model if it]:
            self.write(bytes([REMOVE, octets[0]]))
        self.ids.clear()
        self.blind, self.still = set(), set()
        filled = [slot for slot, it in enumerate(states) if it]
        for slot in range(max(filled, default=-1) + 1):
            state = state_of(states[slot])
            reply = None
            if state:
                reply = self.write(adding(state, 2 if state.pa else 0))
                if reply.code is None and states[slot][0] in ids_of.values():
                    self.ids[self.model[slot][0]] = states[slot][0]
            if reply is None or reply.code is not None:
                if states[slot]:
                    self.blind.add(slot)
                self.write(bytes([ADD]) + DUMMY + bytes([slot, 0xDD, 0xDD, 0, 0xFF, 0xFF, 0]))
        for slot in [it for it in range(max(filled, default=-1) + 1) if not states[it]]:
            self.write(bytes([REMOVE, self.model[slot][0]]))
        for slot in filled:
            if (state := state_of(states[slot])) and slot not in self.blind:
                self.follow(slot, state)
                for bits, _ in state.subgroups:
                    self.wanted[slot] |= bits
                self.wishes[slot] = 2 if state.pa else 0
        self.quiet()


def wanted_in(octets: bytes, place: int) -> int:
    """The streams that the subgroups of a good operation want, whose number stands at this place."""
    bits, at = 0, place + 1
    for _ in range(octets[place]):
        bits |= int.from_bytes(octets[at:at + 4], 'little')
        at += 5 + octets[at + 4]
    return bits
