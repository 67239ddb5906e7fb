"""What the packets of a log say: attribute PDUs of connections, and what a host hears of periodic trains and of their groups.

Core 5.2, volume 4 part E (HCI), sections 5.4 and 7.7.65; volume 3 part A, sections 3.1 and 7.2.1 (L2CAP). What this project doesn't look at
is counted."""
import collections
import struct
import typing
from collections.abc import Iterable, Iterator

from log_files import ACL, COMMAND, EVENT, ISO, Packet

ATTRIBUTE, SIGNALLING = 0x0004, 0x0005  # the channels of L2CAP
ENHANCED, ENHANCED_PSM = 0x17, 0x0027  # a request for channels of the enhanced ATT
DISCONNECTED, COMPLETE, STATUS, META = 0x05, 0x0E, 0x0F, 0x3E
BIG_CREATE_SYNC, BIG_TERMINATE_SYNC, TERMINATE_SYNC = 0x206B, 0x206C, 0x2046
LOST_STATUS = 2  # of an SDU
MOST_PARTS = 8192  # octets of a periodic report that comes in parts


class Connected(typing.NamedTuple):
    connection: int
    peer: str


class Disconnected(typing.NamedTuple):
    connection: int


class Attribute(typing.NamedTuple):
    """A PDU of ATT on a connection. `is_sent` says whether the log's own host sent it."""
    connection: int
    peer: str
    is_sent: bool
    pdu: bytes


class Advertised(typing.NamedTuple):
    """An extended report: the SID is above 15 where the advertiser has none."""
    address_type: int
    address: bytes
    sid: int
    data: bytes


class SyncMade(typing.NamedTuple):
    status: int
    sync: int
    sid: int
    address_type: int
    address: bytes


class SyncLost(typing.NamedTuple):
    sync: int


class Report(typing.NamedTuple):
    sync: int
    data: bytes


class BigInfo(typing.NamedTuple):
    sync: int
    fields: dict[str, int]


class BigAsked(typing.NamedTuple):
    big: int
    sync: int
    streams: tuple[int, ...]


class BigMade(typing.NamedTuple):
    status: int
    big: int
    connections: tuple[int, ...]


class BigLost(typing.NamedTuple):
    big: int
    reason: int


class Sdu(typing.NamedTuple):
    """A unit that the controller hands up: its time in µs or None, its number, its status and its octets."""
    connection: int
    time: int | None
    number: int
    status: int
    octets: int


What = (Connected | Disconnected | Attribute | Advertised | SyncMade | SyncLost | Report | BigInfo | BigAsked | BigMade | BigLost | Sdu)


class Happening(typing.NamedTuple):
    """Something that a record says, with its time in µs since 1970."""
    record: int
    time: int
    adapter: int
    what: What


class Reader:
    """Reads the packets of a log. `counted` has what was passed over."""

    def __init__(self) -> None:
        self.counted: collections.Counter[str] = collections.Counter()
        self.connections: dict[tuple[int, int], tuple[int, str]] = {}  # by adapter and handle: a number of its own, and the peer
        self.begun: dict[tuple[int, int, bool], bytes] = {}  # frames of L2CAP that aren't whole yet
        self.parts: dict[tuple[int, int], bytes] = {}  # periodic reports that aren't whole yet
        self.number = 0

    def read(self, packets: Iterable[Packet]) -> Iterator[Happening]:
        for packet in packets:
            if not packet.is_whole:
                self.counted['records that the log has cut'] += 1
                continue
            try:
                for what in self.said(packet):
                    yield Happening(packet.record, packet.time, packet.adapter, what)
            except (IndexError, struct.error):
                self.counted['packets that are too short'] += 1

    def said(self, packet: Packet) -> Iterable[What]:
        if packet.kind == ACL:
            return self.acl(packet)
        if packet.kind == EVENT:
            return self.event(packet.adapter, packet.octets)
        if packet.kind == COMMAND:
            return command(packet.octets)
        if packet.kind == ISO and not packet.is_sent:
            return sdu(packet.octets)
        return ()

    def connection_of(self, adapter: int, handle: int) -> tuple[int, str]:
        """The connection of a handle, which may have been there before the log began."""
        if (adapter, handle) not in self.connections:
            self.number += 1
            self.connections[adapter, handle] = self.number, f'handle {handle:#06x}'
        return self.connections[adapter, handle]

    def acl(self, packet: Packet) -> Iterator[What]:
        word, size = struct.unpack_from('<HH', packet.octets)
        handle, boundary, data = word & 0xFFF, word >> 12 & 3, packet.octets[4:]
        if len(data) != size:
            self.counted['packets whose length differs'] += 1
            return
        place = packet.adapter, handle, packet.is_sent
        if boundary == 1:
            if place not in self.begun:
                self.counted['parts of a frame without its front'] += 1
                return
            data = self.begun.pop(place) + data
        elif self.begun.pop(place, None) is not None:
            self.counted['frames without their end'] += 1
        if len(data) < 4 or len(data) < 4 + int.from_bytes(data[:2], 'little'):
            self.begun[place] = data
            return
        channel, pdu = int.from_bytes(data[2:4], 'little'), data[4:]
        if len(pdu) != int.from_bytes(data[:2], 'little'):
            self.counted['frames with octets behind them'] += 1
        elif channel == ATTRIBUTE and pdu:
            connection, peer = self.connection_of(packet.adapter, handle)
            yield Attribute(connection, peer, packet.is_sent, pdu)
        elif channel == SIGNALLING and pdu[:1] == bytes([ENHANCED]) and pdu[4:6] == ENHANCED_PSM.to_bytes(2, 'little'):
            self.counted['requests for enhanced ATT, whose channels are left out'] += 1

    def event(self, adapter: int, octets: bytes) -> Iterator[What]:
        code, body = octets[0], octets[2:]
        if len(body) != octets[1]:
            self.counted['packets whose length differs'] += 1
        elif code == DISCONNECTED and not body[0]:
            handle = int.from_bytes(body[1:3], 'little') & 0xFFF
            if (adapter, handle) in self.connections:
                yield Disconnected(self.connections.pop((adapter, handle))[0])
            for is_sent in (False, True):
                self.begun.pop((adapter, handle, is_sent), None)
        elif code == META:
            yield from self.meta(adapter, body)
        elif code == COMPLETE and int.from_bytes(body[1:3], 'little') == BIG_TERMINATE_SYNC and not body[3]:
            yield BigLost(body[4], 0x16)

    def meta(self, adapter: int, body: bytes) -> Iterator[What]:
        kind = body[0]
        if kind in (0x01, 0x0A, 0x29) and not body[1]:
            handle = int.from_bytes(body[2:4], 'little') & 0xFFF
            self.number += 1
            self.connections[adapter, handle] = self.number, spelled(body[6:12])
            yield Connected(*self.connections[adapter, handle])
        elif kind == 0x0D:
            yield from advertised(body)
        elif kind in (0x0E, 0x24):
            yield SyncMade(body[1], number_at(body, 2), body[4], body[5], whole(body[6:12], 6))
        elif kind in (0x0F, 0x25):
            yield from self.periodic(adapter, body[1:] if kind == 0x0F else body[1:6] + body[9:])
        elif kind == 0x10:
            yield SyncLost(number_at(body, 1))
        elif kind in (0x18, 0x26):
            yield SyncMade(body[1], number_at(body, 6), body[8], body[9], whole(body[10:16], 6))
        elif kind == 0x1D:
            handles = body[15:15 + 2 * body[14]]
            yield BigMade(body[1], body[2], tuple(it & 0xFFF for it in struct.unpack(f'<{body[14]}H', handles)))
        elif kind == 0x1E:
            yield BigLost(body[1], body[2])
        elif kind == 0x22:
            yield BigInfo(number_at(body, 1), big_info(whole(body, 20)))

    def periodic(self, adapter: int, body: bytes) -> Iterator[What]:
        """A periodic report, once all its parts were heard: sync, power, strength, kind of tone, status, and octets."""
        place, status, size = (adapter, number_at(body, 0)), body[5], body[6]
        data = self.parts.pop(place, b'') + whole(body[7:], size)
        if status == 1 and len(data) <= MOST_PARTS:
            self.parts[place] = data
        elif status == 0:
            yield Report(place[1], data)
        else:
            self.counted['periodic reports that are cut'] += 1


def whole(octets: bytes, size: int) -> bytes:
    """These octets; IndexError where there are fewer."""
    if len(octets) < size:
        raise IndexError
    return octets[:size]


def number_at(octets: bytes, place: int) -> int:
    return int(struct.unpack_from('<H', octets, place)[0]) & 0xFFF


def spelled(address: bytes) -> str:
    """An address as people write it, the octet first that is last on the air."""
    return ':'.join(f'{it:02X}' for it in reversed(whole(address, 6)))


def advertised(body: bytes) -> Iterator[Advertised]:
    place = 2
    for _ in range(body[1]):
        size = body[place + 23]
        yield Advertised(body[place + 2], whole(body[place + 3:], 6), body[place + 11], whole(body[place + 24:], size))
        place += 24 + size


def big_info(body: bytes) -> dict[str, int]:
    """What HCI tells of a BIGInfo. The spacing of streams and subevents isn't among it."""
    iso, = struct.unpack_from('<H', body, 5)
    return {'num_bis': body[3], 'nse': body[4], 'iso': iso, 'bn': body[7], 'pto': body[8], 'irc': body[9],
            'max_pdu': int(struct.unpack_from('<H', body, 10)[0]), 'sdu': int.from_bytes(body[12:15], 'little'),
            'max_sdu': int(struct.unpack_from('<H', body, 15)[0]), 'phy': body[17] - 1, 'framing': body[18], 'encryption': body[19]}


def command(octets: bytes) -> Iterator[What]:
    opcode = int(struct.unpack_from('<H', octets)[0])
    body = octets[3:]
    if opcode == BIG_CREATE_SYNC:
        yield BigAsked(body[0], number_at(body, 1), tuple(whole(body[24:], body[23])))
    elif opcode == TERMINATE_SYNC:
        yield SyncLost(number_at(body, 0))


def sdu(octets: bytes) -> Iterator[Sdu]:
    """The front of a unit, as section 5.4.5 lays it out."""
    word, _ = struct.unpack_from('<HH', octets)
    if word >> 12 & 3 in (0, 2):
        place, time = 4, None
        if word >> 14 & 1:
            time, = struct.unpack_from('<I', octets, 4)
            place = 8
        number, size = struct.unpack_from('<HH', octets, place)
        yield Sdu(word & 0xFFF, time, number, size >> 14, size & 0xFFF)
