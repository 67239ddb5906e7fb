"""The Link Layer of a broadcast as it stands in a capture of link type 256. capture_out.py and capture_in.py use it.

The layouts are those of Core 5.2, volume 6 part B: the access addresses of a group are of section 2.1.2, extended advertising is of
2.3.4, the BIGInfo of 4.4.6.11, and the CRC of 3.1. Headers are scapy's, and what its layers lack stands here: extended advertising, what
it carries, and the address and the CRC of a stream."""
import contextlib
import functools
import gzip
import logging
import shutil
import struct
import tempfile
import typing
import zlib
from collections.abc import Iterable, Iterator

from run_reading import at_rest

logging.getLogger('scapy.runtime').setLevel(logging.CRITICAL)
from scapy.error import Scapy_Exception  # noqa: E402
from scapy.layers.bluetooth4LE import BTLE_ADV, BTLE_RF  # noqa: E402
from scapy.utils import RawPcapReader  # noqa: E402

LINK_TYPE = 256
HEADER = 10  # octets of the pseudo header of this link type
GZIP = b'\x1f\x8b'
MOST_COMMENT = 4096  # octets of a comment; a longer one is cut
ADVERTISING_ADDRESS, ADVERTISING_CRC = 0x8E89BED6, 0x555555
EXTENDED = 7  # the PDU type of all PDUs of extended and of periodic advertising
ALL_CHANNELS = 2 ** 37 - 1
BROADCAST_AUDIO, BASIC_AUDIO = 0x1852, 0x1851
SERVICE_DATA, BIG_INFO_TYPE = 0x16, 0x2C

# The PDU types of the pseudo header, and the sorts of an auxiliary PDU, which stand in the places of the MIC.
CRC_CHECKED, CRC_VALID = 0x0400, 0x0800  # flags of the pseudo header
UNTOLD, AUXILIARY, FROM_CENTRAL, FROM_PERIPHERAL, BROADCAST_STREAM = 0, 1, 2, 3, 6
AUX_ADV_IND, AUX_CHAIN_IND, AUX_SYNC_IND = 0, 1, 2

# Fields with their bits, the least bit of the first octet first.
BIG_INFO = (('offset', 14), ('offset_units', 1), ('iso', 12), ('num_bis', 5), ('nse', 5), ('bn', 3), ('sub', 20), ('pto', 4),
            ('spacing', 20), ('irc', 4), ('max_pdu', 8), ('rfu', 8), ('seed', 32), ('sdu', 20), ('max_sdu', 12), ('crc', 16),
            ('channels', 37), ('phy', 3), ('payload', 39), ('framing', 1))
SYNC_INFO = (('offset', 13), ('offset_units', 1), ('adjust', 1), ('rfu', 1), ('interval', 16), ('channels', 37), ('accuracy', 3),
             ('address', 32), ('crc', 24), ('counter', 16))
AUX_POINTER = (('channel', 6), ('accuracy', 1), ('offset_units', 1), ('offset', 13), ('phy', 3))
DATA_INFO = (('identifier', 12), ('sid', 4))
# The fields of an extended advertising header behind its flags, by rising flag, with their octets.
HEADER_FIELDS = (('address', 6), ('target', 6), ('tone', 1), ('data_info', 2), ('aux_pointer', 3), ('sync_info', 18), ('power', 1))


class CaptureFault(Exception):
    """The file can't be read or written as a capture, with why."""


class Captured(typing.NamedTuple):
    """A packet of a capture: when it came in µs, whether the sniffer found its CRC right or None where it did not look, its access
    address, the octets of its PDU, and its CRC."""
    time: float
    is_right: bool | None
    address: int
    pdu: bytes
    crc: bytes


def crc_steps() -> list[int]:
    """What the register of the CRC becomes for each octet, where the rest of it is 0: x^24 + x^10 + x^9 + x^6 + x^4 + x^3 + x + 1, each
    octet and the register with the bit first that is first on the air, as the least one."""
    steps = []
    for register in range(256):
        for _ in range(8):
            register = register >> 1 ^ (0xDA6000 if register & 1 else 0)
        steps.append(register)
    return steps


CRC_STEPS = crc_steps()


@functools.lru_cache(maxsize=256)
def crc_register(start: int) -> int:
    """What the CRC begins with, its 24 bits the other way round."""
    return int(f'{start & 0xFFFFFF:024b}'[::-1], 2)


def crc_of(pdu: bytes, start: int) -> bytes:
    """The CRC of a PDU as it stands on the air."""
    register = crc_register(start)
    for octet in pdu:
        register = register >> 8 ^ CRC_STEPS[(register ^ octet) & 255]
    return register.to_bytes(3, 'little')


def spell(layout, **values):
    """The octets of the fields; those that aren't given are 0."""
    number = place = 0
    for name, bits in layout:
        value = values.get(name, 0)
        if value >> bits:
            raise ValueError(f'{name} is {value} and has {bits} bits')
        number |= value << place
        place += bits
    return number.to_bytes(place // 8, 'little')


def read(layout, octets):
    """The values of the fields by their names."""
    number, values = int.from_bytes(octets, 'little'), {}
    for name, bits in layout:
        values[name] = number & ((1 << bits) - 1)
        number >>= bits
    return values


def octets_in(layout):
    return sum(bits for _, bits in layout) // 8


def payload_number(group, event, subevent):
    """The number of the payload that a subevent of an event carries (Core 5.2, volume 6 part B, section 4.4.6)."""
    carrier, place = divmod(subevent, group['bn'])
    later = group['pto'] * (carrier - group['irc'] + 1) if carrier >= group['irc'] else 0
    return (event + later) * group['bn'] + place


@functools.lru_cache(maxsize=256)
def stream_address(seed, number):
    """The access address of the stream of this BIS_Number, or with 0 that of the control PDUs of the group."""
    d = (35 * number + 42) % 128
    bit = [d >> place & 1 for place in range(7)]
    word = [bit[0]] * 6 + [bit[1], bit[6], bit[1], 0, bit[5], bit[4], 0, bit[3], bit[2], 0]
    return seed ^ int(''.join(map(str, word)), 2) << 16


def stream_crc(base, number):
    """What the CRC of this stream's PDUs begins with."""
    return base << 8 | number


def extended_payload(data=b'', acad=b'', mode=0, **fields):
    """The payload of a PDU of extended advertising with these fields of its header."""
    flags, header = 0, b''
    for place, (name, _) in enumerate(HEADER_FIELDS):
        if name in fields:
            flags |= 1 << place
            header += fields[name]
    header = bytes([flags]) + header + acad if flags or acad else b''
    return bytes([len(header) | mode << 6]) + header + data


def read_extended(payload):
    """The fields of such a payload that are there, with `acad` and `data`, or None where it is cut."""
    length = payload[0] & 63 if payload else 0
    if not payload or len(payload) < 1 + length:
        return None
    fields, place = {'data': payload[1 + length:], 'acad': b''}, 2
    flags = payload[1] if length else 0
    for bit, (name, octets) in enumerate(HEADER_FIELDS):
        if flags >> bit & 1:
            fields[name] = payload[place:place + octets]
            place += octets
    if length:
        if place > 1 + length:
            return None
        fields['acad'] = payload[place:1 + length]
    return fields


def structures(octets):
    """The structures of advertising data as pairs of type and contents, or None where one passes the end."""
    found, place = [], 0
    while place < len(octets) and octets[place]:
        end = place + 1 + octets[place]
        if end > len(octets):
            return None
        found.append((octets[place + 1], octets[place + 2:end]))
        place = end
    return found


def service_data(octets, service):
    """What follows the service in the first Service Data of it, or None."""
    for kind, contents in structures(octets) or []:
        if kind == SERVICE_DATA and contents[:2] == service.to_bytes(2, 'little'):
            return contents[2:]
    return None


def big_info_of(acad):
    """The contents of the first BIGInfo, or None."""
    for kind, contents in structures(acad) or []:
        if kind == BIG_INFO_TYPE:
            return contents
    return None


@functools.lru_cache(maxsize=1024)
def pseudo_header(channel: int, kind: int, phy: int, sort: int) -> bytes:
    """The header of a packet that a sniffer gives without whitening, its CRC checked and right. `channel` is that of the radio."""
    return bytes(BTLE_RF(rf_channel=channel, dewhitened=1, type=kind, crc_checked=1, crc_valid=1, phy=phy, mic_checked=sort & 1,
                         mic_valid=sort >> 1))


def framed(pdu: bytes, address: int, crc_start: int, channel: int, kind: int, phy=0, sort=0) -> bytes:
    """A packet of the PDU as a sniffer gives it."""
    return pseudo_header(channel, kind, phy, sort) + address.to_bytes(4, 'little') + pdu + crc_of(pdu, crc_start)


def extended(payload, address, crc_start, channel, sort, is_random=0, kind=AUXILIARY):
    """A packet of extended advertising."""
    pdu = bytes(BTLE_ADV(PDU_type=EXTENDED, TxAdd=is_random, Length=len(payload))) + payload
    return framed(pdu, address, crc_start, channel, kind, sort=sort)


class Packet(typing.NamedTuple):
    """A packet of a capture that is written: its time in µs, its octets, and a comment or none."""
    time: int
    octets: bytes
    comment: str = ''


def write_capture(path: str, packets: Iterable[Packet], link_type=LINK_TYPE) -> int:
    """Writes packets as a pcapng, one by one as they come, and gives how many these were."""
    written = 0
    with open(path, 'wb') as file:
        file.write(block(0x0A0D0D0A, struct.pack('<IHHq', 0x1A2B3C4D, 1, 0, -1)) + block(1, struct.pack('<HHI', link_type, 0, 0)))
        for time, octets, comment in packets:
            if not 0 <= time < 1 << 64:
                raise CaptureFault(f'a packet at {time} us, a time that no capture holds')
            size = len(octets)
            body = struct.pack('<IIIII', 0, time >> 32, time & 0xFFFFFFFF, size, size) + octets + bytes(-size % 4)
            file.write(block(6, body + option(comment)))
            written += 1
    return written


def block(kind: int, body: bytes) -> bytes:
    """A block of a pcapng."""
    size = struct.pack('<I', 12 + len(body))
    return struct.pack('<I', kind) + size + body + size


def option(comment: str) -> bytes:
    """The options of a packet with this comment. scapy takes a comment up to its first line end."""
    if not comment:
        return b''
    octets = comment.encode()[:MOST_COMMENT] + b'\n'
    return struct.pack('<HH', 1, len(octets)) + octets + bytes(-len(octets) % 4) + bytes(4)


def has_good_crc(packet, crc_start):
    """What the sniffer says of the CRC where it checked it, else whether it is right."""
    if packet.is_right is not None:
        return packet.is_right
    return crc_of(packet.pdu, crc_start) == packet.crc


def read_capture(path: str, skipped: dict[str, int]) -> Iterator[Captured]:
    """The packets of a file of pcap or pcapng, which may be in a gzip. `skipped` counts by their reason those that can't be used."""
    with unpacked(path) as name, open(name, 'rb') as file:
        try:
            reader = RawPcapReader(file)  # of a name it would open a gzip by itself
        except (Scapy_Exception, struct.error, EOFError) as error:
            raise CaptureFault(f'{path} is neither pcap nor pcapng') from error
        with contextlib.closing(reader):
            for octets, about in reader:
                link_type = getattr(about, 'linktype', None) if hasattr(about, 'tsresol') else reader.linktype
                reason = 'without a time' if getattr(about, 'tshigh', 0) is None else unusable(octets, link_type)
                if reason:
                    skipped[reason] += 1
                    continue
                flags = octets[8] | octets[9] << 8
                is_right = bool(flags & CRC_VALID) if flags & CRC_CHECKED else None
                yield Captured(time_of(about, reader), is_right, int.from_bytes(octets[10:14], 'little'), octets[14:-3], octets[-3:])


@contextlib.contextmanager
def unpacked(path: str) -> Iterator[str]:
    """The path of the capture, or of a copy where it is a gzip."""
    with at_rest(path) as name:
        with open(name, 'rb') as file:
            is_packed = file.read(2) == GZIP
        if not is_packed:
            yield name
            return
        with tempfile.NamedTemporaryFile() as copy:
            try:
                with gzip.open(name) as file:
                    shutil.copyfileobj(file, copy)
            except (EOFError, zlib.error, gzip.BadGzipFile) as error:
                raise CaptureFault(f'{path} is a gzip that is cut or broken') from error
            copy.flush()
            yield copy.name


def time_of(about, reader):
    """The time of a packet in µs."""
    if hasattr(about, 'tsresol'):
        return ((about.tshigh << 32) + about.tslow) * 1000000 / about.tsresol
    return about.sec * 1000000 + about.usec / (1000 if reader.nano else 1)


def unusable(octets, link_type):
    """Why a packet can't be used, or None."""
    if link_type != LINK_TYPE:
        return f'of link type {link_type}, not {LINK_TYPE}'
    if len(octets) < HEADER + 4 + 2 + 3:
        return 'shorter than a PDU'
    if not octets[8] & 1:
        return 'still whitened'
    if octets[15] != len(octets) - HEADER - 4 - 2 - 3:
        return 'cut, or with a length that isn\'t theirs'
    return None
