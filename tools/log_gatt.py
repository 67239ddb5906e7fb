"""What the attribute PDUs of a log say of the Broadcast Audio Scan Service and of Published Audio Capabilities.

Core 5.2, volume 3 part F, section 3.4, and part G, section 4; Broadcast Audio Scan Service 1.0, section 3; Published Audio Capabilities
Service 1.0, section 3. Which handle is what is found by the discovery in the log, or by words."""
import re
import typing
from collections.abc import Iterator

import log_hci
from log_hci import Happening

CONTROL, STATE, PAC, LOCATIONS, CONTEXTS = 0x2BC7, 0x2BC8, 0x2BC9, 0x2BCA, 0x2BCD
NAMES = {'control': CONTROL, 'states': STATE, 'pac': PAC, 'locations': LOCATIONS, 'contexts': CONTEXTS}
CHARACTERISTIC, SETTING = 0x2803, 0x2902
LEAST_MTU = 23
MOST_PREPARED = 4096  # octets
ERROR, MTU_REQUEST, MTU_RESPONSE, FIND, FOUND, BY_TYPE, BY_TYPE_RESPONSE = 0x01, 0x02, 0x03, 0x04, 0x05, 0x08, 0x09
READ, READ_RESPONSE, BLOB, BLOB_RESPONSE, WRITE, WRITTEN, COMMAND = 0x0A, 0x0B, 0x0C, 0x0D, 0x12, 0x13, 0x52
PREPARE, PREPARED, EXECUTE, EXECUTED, NOTIFY, INDICATE, SEVERAL = 0x16, 0x17, 0x18, 0x19, 0x1B, 0x1D, 0x23
REQUESTS = (MTU_REQUEST, FIND, 0x06, BY_TYPE, READ, BLOB, 0x0E, 0x10, WRITE, PREPARE, EXECUTE, 0x20)
PAST_END = 0x07  # the error of a read past the end of a value
OWN = 'the log\'s own device'


class Server(typing.NamedTuple):
    """A server of the log: its own device, or another one by its address."""
    adapter: int
    peer: str

    def name(self) -> str:
        return (self.peer or OWN) + (f' (adapter {self.adapter})' if self.adapter else '')


class Written(typing.NamedTuple):
    """A write to the control point; `is_answered` says whether a response is due."""
    octets: bytes
    is_answered: bool


class Answered(typing.NamedTuple):
    """The response to the last write of this connection: an error code, or None."""
    code: int | None


class Value(typing.NamedTuple):
    """A value of a receive state: notified, indicated or read, whole or its front."""
    slot: int
    octets: bytes
    way: str
    is_whole: bool


class Asked(typing.NamedTuple):
    """What a client set for the notices of a slot: bit 0 notifications, bit 1 indications."""
    slot: int
    bits: int


class Agreed(typing.NamedTuple):
    mtu: int


class Told(typing.NamedTuple):
    """A value of the Published Audio Capabilities."""
    kind: int
    octets: bytes


class Said(typing.NamedTuple):
    """Something of a server, on a connection."""
    record: int
    time: int
    connection: int
    server: Server
    what: Written | Answered | Value | Asked | Agreed | Told


class WordFault(Exception):
    """A word of the command line can't be read, with which."""


def handles_of(word: str | None) -> dict[int, int]:
    """The kinds of handles given in words, as `control=12,states=15+18`, in hexadecimal digits."""
    found: dict[int, int] = {}
    for part in (word or '').split(',') if word else ():
        matched = re.fullmatch(r'(\w+)=((?:0x)?[0-9a-f]{1,4}(?:\+(?:0x)?[0-9a-f]{1,4})*)', part.lower())
        if not matched or matched[1] not in NAMES:
            raise WordFault(f'--handles {part!a}: it has {", ".join(NAMES)}, each with = and handles in hexadecimal digits')
        for handle in matched[2].split('+'):
            found[int(handle, 16)] = NAMES[matched[1]]
    return found


class Table:
    """What is known of the attributes of a server."""

    def __init__(self, given: dict[int, int]):
        self.kinds = dict(given)
        self.settings: set[int] = set()

    def states(self) -> list[int]:
        return sorted(handle for handle, kind in self.kinds.items() if kind == STATE)

    def slot_of_setting(self, handle: int) -> int | None:
        """The slot whose notices a handle sets: the nearest value before it."""
        before = [it for it in self.kinds if it < handle]
        if not before or self.kinds[max(before)] != STATE or handle not in self.settings | {max(before) + 1}:
            return None
        return self.states().index(max(before))


class Exchange:
    """A direction of a connection: the request that is open, and what is put together of several."""

    def __init__(self) -> None:
        self.request = b''
        self.prepared = b''
        self.read: tuple[int, bytes] | None = None


class Gatt:
    """Follows the attribute PDUs of all connections. `tables` has what is known of each server."""

    def __init__(self, given: dict[int, int] | None = None, tables: dict[Server, Table] | None = None):
        self.given = given or {}
        self.tables = {} if tables is None else tables
        self.exchanges: dict[tuple[int, Server], Exchange] = {}
        self.mtus: dict[int, int] = {}

    def table(self, server: Server) -> Table:
        if server not in self.tables:
            self.tables[server] = Table(self.given)
        return self.tables[server]

    def said(self, happening: Happening) -> Iterator[Said]:
        """What a PDU says; nothing of one that is cut or of another kind."""
        attribute = happening.what
        assert isinstance(attribute, log_hci.Attribute)
        pdu = attribute.pdu
        is_request = pdu[0] in REQUESTS or pdu[0] & 0x40 != 0 or pdu[0] == 0x1E
        is_own = is_request != attribute.is_sent
        server = Server(happening.adapter, '' if is_own else attribute.peer)
        exchange = self.exchanges.setdefault((attribute.connection, server), Exchange())
        try:
            told = self.asked(exchange, server, pdu) if is_request else self.told(exchange, server, attribute.connection, pdu)
            for what in told:
                yield Said(happening.record, happening.time, attribute.connection, server, what)
        except (IndexError, ValueError):
            return

    def mtu(self, connection: int) -> int:
        return self.mtus.get(connection, LEAST_MTU)

    def asked(self, exchange: Exchange, server: Server, pdu: bytes) -> Iterator[Written | Asked | Value | Told]:
        """What a request says as it is sent."""
        table, opcode = self.table(server), pdu[0]
        handle = int.from_bytes(pdu[1:3], 'little')
        if exchange.read and (opcode != BLOB or handle != exchange.read[0]):
            yield from self.ended_read(exchange, table, False)
        if opcode in REQUESTS:
            exchange.request = pdu
        kind = table.kinds.get(handle)
        if opcode in (WRITE, COMMAND) and kind == CONTROL:
            yield Written(pdu[3:], opcode == WRITE)
        elif opcode in (WRITE, COMMAND) and len(pdu) == 5 and (slot := table.slot_of_setting(handle)) is not None:
            yield Asked(slot, pdu[3])
        elif opcode == PREPARE and kind == CONTROL and len(exchange.prepared) < MOST_PREPARED:
            exchange.prepared += pdu[5:]
        elif opcode == EXECUTE:
            octets, exchange.prepared = exchange.prepared, b''
            if octets and pdu[1]:
                yield Written(octets, True)

    def told(self, exchange: Exchange, server: Server, connection: int, pdu: bytes) -> Iterator[Answered | Value | Agreed | Told]:
        """What a response says, or a notification."""
        table, opcode, request = self.table(server), pdu[0], exchange.request
        if opcode in (NOTIFY, INDICATE):
            way = 'notification' if opcode == NOTIFY else 'indication'
            yield from self.value(table, int.from_bytes(pdu[1:3], 'little'), pdu[3:], way, len(pdu) < self.mtu(connection))
        elif opcode == SEVERAL:
            yield from self.several(table, pdu[1:])
        elif opcode == ERROR:
            yield from self.failed(exchange, table, pdu)
        elif opcode == MTU_RESPONSE and request[:1] == bytes([MTU_REQUEST]):
            self.mtus[connection] = max(LEAST_MTU, min(int.from_bytes(request[1:3], 'little'), int.from_bytes(pdu[1:3], 'little')))
            yield Agreed(self.mtus[connection])
        elif opcode == FOUND and pdu[1] == 1:
            for place in range(2, len(pdu) - 3, 4):
                learn(table, *(int.from_bytes(pdu[it:it + 2], 'little') for it in (place, place + 2)))
        elif opcode == BY_TYPE_RESPONSE and len(request) == 7:
            yield from self.by_type(table, int.from_bytes(request[5:7], 'little'), pdu)
        elif opcode in (READ_RESPONSE, BLOB_RESPONSE):
            yield from self.read(exchange, table, connection, pdu)
        elif opcode in (WRITTEN, EXECUTED) and request and is_of_control(table, request):
            yield Answered(None)
        exchange.request = b'' if opcode not in (NOTIFY, INDICATE, SEVERAL) else request

    def failed(self, exchange: Exchange, table: Table, pdu: bytes) -> Iterator[Answered | Value | Told]:
        if exchange.read and pdu[1] == BLOB:
            yield from self.ended_read(exchange, table, pdu[4] in (PAST_END, 0x0B))
        elif pdu[1] in (WRITE, EXECUTE) and exchange.request and is_of_control(table, exchange.request):
            yield Answered(pdu[4])

    def several(self, table: Table, octets: bytes) -> Iterator[Value | Told]:
        while len(octets) >= 4:
            size = int.from_bytes(octets[2:4], 'little')
            yield from self.value(table, int.from_bytes(octets[:2], 'little'), octets[4:4 + size], 'notification', True)
            octets = octets[4 + size:]

    def by_type(self, table: Table, kind: int, pdu: bytes) -> Iterator[Value | Told]:
        for place in range(2, len(pdu) - pdu[1] + 1, max(2, pdu[1])):
            handle, value = int.from_bytes(pdu[place:place + 2], 'little'), pdu[place + 2:place + pdu[1]]
            if kind == CHARACTERISTIC and len(value) == 5:
                learn(table, int.from_bytes(value[1:3], 'little'), int.from_bytes(value[3:], 'little'))
            elif kind in NAMES.values():
                learn(table, handle, kind)
                yield from self.value(table, handle, value, 'read', False)

    def read(self, exchange: Exchange, table: Table, connection: int, pdu: bytes) -> Iterator[Value | Told]:
        request = exchange.request
        if request[:1] not in (bytes([READ]), bytes([BLOB])):
            return
        handle = int.from_bytes(request[1:3], 'little')
        if request[0] == READ:
            exchange.read = handle, pdu[1:]
        elif exchange.read and exchange.read[0] == handle and len(exchange.read[1]) == int.from_bytes(request[3:5], 'little'):
            exchange.read = handle, exchange.read[1] + pdu[1:]
        else:
            return
        if len(pdu) < self.mtu(connection):
            yield from self.ended_read(exchange, table, True)

    def ended_read(self, exchange: Exchange, table: Table, is_whole: bool) -> Iterator[Value | Told]:
        assert exchange.read
        handle, octets = exchange.read
        exchange.read = None
        yield from self.value(table, handle, octets, 'read', is_whole)

    @staticmethod
    def value(table: Table, handle: int, octets: bytes, way: str, is_whole: bool) -> Iterator[Value | Told]:
        kind = table.kinds.get(handle)
        if kind == STATE:
            yield Value(table.states().index(handle), octets, way, is_whole)
        elif kind in (PAC, LOCATIONS, CONTEXTS) and is_whole:
            yield Told(kind, octets)


def learn(table: Table, handle: int, kind: int) -> None:
    if kind in NAMES.values():
        table.kinds[handle] = kind
    elif kind == SETTING:
        table.settings.add(handle)
    elif handle in table.kinds:
        del table.kinds[handle]


def is_of_control(table: Table, request: bytes) -> bool:
    """Whether the response to a request is one of the control point."""
    return request[0] == EXECUTE or request[0] == WRITE and table.kinds.get(int.from_bytes(request[1:3], 'little')) == CONTROL
