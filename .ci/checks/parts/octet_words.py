"""Octets that stand in the words of a scenario: operations, values of slots, advertising data, PDUs."""
import typing
from collections.abc import Iterator

ALL = 0xffffffff
Pairs = list[tuple[int, bytes]]  # the BIS_Sync value and the metadata of each subgroup
Train = tuple[str, str, str]  # the type of the address, SID and Broadcast_ID


class Operation(typing.NamedTuple):
    """What a line writes: its name, the train that it adds or the Source_ID that it names, PA_Sync, and its subgroups."""
    name: str
    key: Train | int
    pa_sync: int = 0
    pairs: Pairs | None = None


def octets(word: str) -> bytes:
    return bytes.fromhex(word) if word != '-' else b''


def structure(ads: bytes, kind: int, front: bytes = b'') -> bytes | None:
    """The contents of the first AD structure of a type that begins so, or None."""
    while ads and ads[0]:
        if ads[1:2 + len(front)] == bytes([kind]) + front:
            return ads[2 + len(front):1 + ads[0]]
        ads = ads[1 + ads[0]:]
    return None


def pairs_of(body: bytes) -> Pairs | None:
    """The BIS_Sync values and metadata of an operation, or None."""
    found: Pairs = []
    count, body = body[0] if body else 0, body[1:]
    for _ in range(count):
        if len(body) < 5 or len(body) < 5 + body[4]:
            return None
        found.append((int.from_bytes(body[:4], 'little'), body[5:5 + body[4]]))
        body = body[5 + body[4]:]
    return None if body else found


def operation(words: list[str]) -> Operation:
    if words[0] == 'add':
        pairs = [(int.from_bytes(octets(a), 'little'), octets(b)) for a, b in zip(words[8::2], words[9::2])]
        return Operation('Add', (words[2], words[4], words[5].lower()), int(words[6]), pairs)
    if words[0] == 'modify':
        pairs = [(int.from_bytes(octets(a), 'little'), octets(b)) for a, b in zip(words[5::2], words[6::2])]
        return Operation('Modify', int(words[2]), int(words[3]), pairs)
    if words[0] in ('remove', 'code'):
        return Operation(words[0].capitalize(), int(words[2]))
    raw = octets(words[-1])
    if raw[:1] == b'\2' and len(raw) > 15:
        return Operation('Add', (str(raw[1]), str(raw[8]), raw[9:12].hex()), raw[12], pairs_of(raw[15:]))
    if raw[:1] == b'\3' and len(raw) > 5:
        return Operation('Modify', raw[1], raw[2], pairs_of(raw[5:]))
    names = ('Scan Stopped', 'Scan Started', 'Add', 'Modify', 'Code', 'Remove')
    name = names[raw[0]] if raw and raw[0] < 6 else 'none'
    return Operation(name, raw[1] if len(raw) > 1 else 0)


def is_value(value: bytes) -> bool:
    """Whether the octets are the value of a slot."""
    if not value:
        return True
    if len(value) < 15 or value[1] > 1 or value[8] > 15 or value[12] > 4 or value[13] > 3:
        return False
    pairs = pairs_of(value[14 + (16 if value[13] == 3 else 0):])
    return pairs is not None and all(bits < 1 << 31 or bits == ALL for bits, _ in pairs)


class Segment(typing.NamedTuple):
    """A segment of a framed PDU: whether it starts a unit and completes one, the time offset of a start, and its octets."""
    starts: bool
    is_complete: bool
    offset: int | None
    part: bytes


def segments(payload: bytes) -> Iterator[Segment]:
    """The segments of a framed PDU."""
    while len(payload) > 1:
        part, starts, is_complete = payload[2:2 + payload[1]], not payload[0] & 1, bool(payload[0] & 2)
        if starts:
            yield Segment(True, is_complete, int.from_bytes(part[:3], 'little'), part[3:])
        else:
            yield Segment(False, is_complete, None, part)
        payload = payload[2 + payload[1]:]
