"""The records of a device's log: a btsnoop file with packets of HCI, of a phone (H4) or of a Linux host (the monitor's format).

A file is read record by record, so that a log of any length takes the same memory. log_hci.py says what the packets are."""
import gzip
import os
import struct
import typing
from collections.abc import Iterator

MARK = b'btsnoop\0'
GZIP = b'\x1f\x8b'
H4, MONITOR = 1002, 2001
OTHERS = {1001: 'HCI without types of packets (H1)', 1003: 'BSCP', 1004: 'H5', 2002: 'the simulator of BlueZ'}
EPOCH = 0x00DCDDB30F2F8000  # µs, of 1970 in the time of a record
MOST_OCTETS = 1 << 17  # of a record: more than any packet of HCI has
COMMAND, ACL, EVENT, ISO = 1, 2, 4, 5  # the types of packets by H4
# The opcodes of the monitor that carry packets, each with the type of its packet and whether the host sent it.
CARRYING = {2: (COMMAND, True), 3: (EVENT, False), 4: (ACL, True), 5: (ACL, False), 18: (ISO, True), 19: (ISO, False)}
SENT_KINDS = (COMMAND,)


class LogFault(Exception):
    """The log can't be read, with why."""


class Packet(typing.NamedTuple):
    """A packet of HCI: the number of its record from 1 on, its time in µs since 1970, the adapter, the type of the packet, whether the
    host sent it, its octets behind the type, and whether the log has all of them."""
    record: int
    time: int
    adapter: int
    kind: int
    is_sent: bool
    octets: bytes
    is_whole: bool


def read_log(path: str) -> Iterator[Packet]:
    """The packets of a log, which may be in a gzip."""
    try:
        with open(path, 'rb') as file:
            is_zipped = file.read(2) == GZIP
        with (gzip.open(path, 'rb') if is_zipped else open(path, 'rb')) as file:
            yield from packets_in(typing.cast(typing.BinaryIO, file), os.path.basename(path))
    except (OSError, EOFError, ValueError) as error:
        raise LogFault(f'{path}: {getattr(error, "strerror", None) or error or "the file is cut"}') from error
    except gzip.zlib.error as error:  # type: ignore[attr-defined]
        raise LogFault(f'{path}: the gzip is broken') from error


def packets_in(file: typing.BinaryIO, name: str) -> Iterator[Packet]:
    front = file.read(16)
    if front[:8] != MARK:
        raise LogFault(f'{name} is no btsnoop file: it begins with {front[:8].hex() or "nothing"}')
    if len(front) < 16:
        raise LogFault(f'{name} is cut in its header')
    version, link = struct.unpack('>II', front[8:])
    if version != 1:
        raise LogFault(f'{name} is a btsnoop file of version {version}, and version 1 alone is read')
    if link not in (H4, MONITOR):
        told = f' ({OTHERS[link]})' if link in OTHERS else ''
        raise LogFault(f'{name} is a btsnoop file of link type {link}{told}; read are {H4} (HCI by H4) and {MONITOR} (the Linux monitor)')
    number = 0
    while header := file.read(24):
        number += 1
        if len(header) < 24:
            raise LogFault(f'{name} is cut in the header of record {number}')
        original, included, flags, _, time = struct.unpack('>IIIIq', header)
        if included > MOST_OCTETS or included > original:
            raise LogFault(f'{name}: record {number} claims {included} octets of {original}, which no packet of HCI has')
        octets = file.read(included)
        if len(octets) < included:
            raise LogFault(f'{name} is cut in record {number}')
        if link == H4:
            if not octets:
                raise LogFault(f'{name}: record {number} has no octets')
            yield Packet(number, time - EPOCH, 0, octets[0], not flags & 1, octets[1:], included == original)
        elif flags & 0xFFFF in CARRYING:
            kind, is_sent = CARRYING[flags & 0xFFFF]
            yield Packet(number, time - EPOCH, flags >> 16, kind, is_sent, octets, included == original)
        elif flags & 0xFFFF > 0x40 or (not original and not flags and not time):
            raise LogFault(f'{name}: record {number} is none of the monitor\'s')


class Writer:
    """Writes packets as a btsnoop file."""

    def __init__(self, file: typing.BinaryIO, link: int = H4):
        self.file, self.link = file, link
        file.write(MARK + struct.pack('>II', 1, link))

    def write(self, packet: Packet) -> None:
        if self.link == H4:
            octets = bytes([packet.kind]) + packet.octets
            flags = (not packet.is_sent) | (2 if packet.kind in (COMMAND, EVENT) else 0)
        else:
            opcode = next(it for it, what in CARRYING.items() if what == (packet.kind, packet.is_sent))
            octets, flags = packet.octets, packet.adapter << 16 | opcode
        original = len(octets) + (not packet.is_whole)
        self.file.write(struct.pack('>IIIIq', original, len(octets), flags, 0, packet.time + EPOCH) + octets)
