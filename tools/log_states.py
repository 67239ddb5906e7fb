"""Receive states and operations as octets, and the trains that bring a sink where a log says it is. The layouts are those of
docs/formats.md."""
import dataclasses
import struct
from collections.abc import Iterator

import log_gatt

BIG_INFO = (('offset', 14), ('offset_units', 1), ('iso', 12), ('num_bis', 5), ('nse', 5), ('bn', 3), ('sub', 20), ('pto', 4),
            ('spacing', 20), ('irc', 4), ('max_pdu', 8), ('rfu', 8), ('seed', 32), ('sdu', 20), ('max_sdu', 12), ('crc', 16),
            ('channels', 37), ('phy', 3), ('payload', 39), ('framing', 1))
FAILED_SYNC = 0xFFFFFFFF
CODEC = 'ff00000000'  # of the streams of a train that is only supposed; any record of it fits
PLAIN_GROUP = {'iso': 8, 'nse': 1, 'bn': 1, 'irc': 1, 'pto': 0, 'sdu': 10000, 'max_sdu': 1, 'max_pdu': 1, 'phy': 1, 'framing': 0}
ADD, MODIFY, CODE, REMOVE = 2, 3, 4, 5
REQUESTED, SYNCED, NOT_SYNCED, NO_PAST = 1, 2, 3, 4  # of PA_Sync_State
NEEDS_CODE, DECRYPTING, BAD_CODE = 1, 2, 3  # of BIG_Encryption


@dataclasses.dataclass(frozen=True)
class State:
    """A receive state that is well-formed."""
    source: int
    origin: bytes  # address type, address, SID and Broadcast_ID
    pa: int
    encryption: int
    code: bytes
    subgroups: tuple[tuple[int, bytes], ...]

    @property
    def streams(self) -> int:
        """The streams of all subgroups, as bits."""
        bits = 0
        for wanted, _ in self.subgroups:
            bits |= 0 if wanted == FAILED_SYNC else wanted
        return bits


def state_of(octets: bytes) -> State | None:
    """The state that these octets are, or None where they are none."""
    try:
        origin, pa, encryption = octets[1:12], octets[12], octets[13]
        place = 30 if encryption == BAD_CODE else 14
        subgroups, end = subgroups_at(octets, place)
    except (IndexError, struct.error):
        return None
    is_good = (len(octets) == end and origin[0] <= 1 and origin[7] <= 15 and pa <= NO_PAST and encryption <= BAD_CODE
               and all(bits >> 31 == 0 or bits == FAILED_SYNC for bits, _ in subgroups))
    return State(octets[0], origin, pa, encryption, octets[14:place], subgroups) if is_good else None


def subgroups_at(octets: bytes, place: int) -> tuple[tuple[tuple[int, bytes], ...], int]:
    """The subgroups from this place on, and where they end."""
    found, count = [], octets[place]
    place += 1
    for _ in range(count):
        bits, size = struct.unpack_from('<IB', octets, place)
        if len(octets) < place + 5 + size:
            raise IndexError
        found.append((bits, octets[place + 5:place + 5 + size]))
        place += 5 + size
    return tuple(found), place


def adding(state: State, pa: int) -> bytes:
    """An Add Source after which a slot has this state, once the sink is synchronized as it says."""
    return bytes([ADD]) + state.origin + bytes([pa]) + b'\xff\xff' + wishes(state)


def wishes(state: State) -> bytes:
    octets = bytes([len(state.subgroups)])
    for bits, metadata in state.subgroups:
        octets += struct.pack('<IB', FAILED_SYNC if bits == 0 else bits, len(metadata)) + metadata
    return octets


def big_info(fields: dict[str, int]) -> bytes:
    """A BIGInfo with what HCI tells of it. Spacings, which it doesn't tell, are the least that are allowed."""
    airtime = fields['max_pdu'] + (4 if fields.get('encryption') else 0)
    longest = (airtime + 11) * 4 if fields['phy'] == 1 else (airtime + 10) * 8
    values = dict(fields, offset=100, channels=2 ** 37 - 1, sub=longest + 150, spacing=(longest + 150) * fields['nse'])
    number = place = 0
    for name, bits in BIG_INFO:
        number |= (values.get(name, 0) & ((1 << bits) - 1)) << place
        place += bits
    return number.to_bytes(place // 8, 'little') + (bytes(24) if fields.get('encryption') else b'')


def structure(kind: int, octets: bytes) -> bytes:
    return bytes([len(octets) + 1, kind]) + octets


def extended(broadcast: bytes) -> bytes:
    return structure(0x16, b'\x52\x18' + broadcast)


def supposed_train(state: State) -> tuple[bytes, bytes]:
    """Advertising data and ACAD after which a sink that takes any stream is as this state says."""
    base = b'\x00\x00\x00' + bytes([len(state.subgroups)])
    for place, (bits, _) in enumerate(state.subgroups):
        streams = [it for it in range(1, 32) if bits >> it - 1 & 1 and bits != FAILED_SYNC] or [31 - place]
        base += bytes([len(streams)]) + bytes.fromhex(CODEC) + b'\x00\x00' + b''.join(bytes([it, 0]) for it in streams)
    fields = dict(PLAIN_GROUP, num_bis=max(1, state.streams.bit_length()), encryption=int(state.encryption == NEEDS_CODE))
    fields['iso'] = 80
    fields['sdu'] = 100000
    return structure(0x16, b'\x51\x18' + base), structure(0x2C, big_info(fields))


def pac_lines(sink: int, octets: bytes) -> Iterator[str]:
    """The `pac` lines of a Sink PAC value, whose records are a codec, capabilities and metadata. ValueError where it can't be read."""
    place = 1
    for _ in range(octets[0] if octets else 0):
        codec, place = octets[place:place + 5], place + 5
        lists = []
        for _ in range(2):
            if place >= len(octets) or place + 1 + octets[place] > len(octets):
                raise ValueError
            lists.append(octets[place + 1:place + 1 + octets[place]])
            place += 1 + octets[place]
        if not all(map(is_list, lists)):
            raise ValueError
        yield f'pac {sink} {codec.hex()} {word(lists[0])} {word(lists[1])}'


def told_line(sink: int, told: log_gatt.Told) -> list[str]:
    """The lines of a value of the Published Audio Capabilities. ValueError where it can't be read."""
    if told.kind == log_gatt.PAC:
        return list(pac_lines(sink, told.octets))
    if len(told.octets) != 4:
        raise ValueError
    if told.kind == log_gatt.LOCATIONS:
        return [f'locate {sink} {told.octets.hex()}']
    return [f'context {sink} {told.octets[:2].hex()} {told.octets[2:].hex()}']


def word(octets: bytes) -> str:
    return octets.hex() or '-'


def is_list(octets: bytes) -> bool:
    """Whether the octets are structures of a length, a type and a value, one behind the other."""
    place = 0
    while place < len(octets):
        if octets[place] == 0:
            return False
        place += 1 + octets[place]
    return place == len(octets)
