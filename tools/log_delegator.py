"""A Scan Delegator for logs to try the tools on, over the host of Bumble: written after the Broadcast Audio Scan Service 1.0, sections 3.1
and 3.2, and after nothing of this project's code. log_record.py uses it.

What the service leaves to a server is chosen by words: the first Source_ID and whether it is used again, what a source that is there
already is answered, and whether a notification comes before the response."""
import asyncio
import dataclasses
import struct
import typing

from bumble import att, device, gatt
from bumble.core import UUID

SERVICE, CONTROL_POINT, RECEIVE_STATE = UUID.from_16_bits(0x184F), UUID.from_16_bits(0x2BC7), UUID.from_16_bits(0x2BC8)
NOT_SUPPORTED, INVALID_SOURCE, REJECTED = 0x80, 0x81, 0xFC
LENGTHS = {0: 1, 1: 1, 4: 18, 5: 2}  # octets of the operations of one length


@dataclasses.dataclass
class Ways:
    """What the service leaves to a server, and the faults that a delegator may be made with."""
    first_id: int = 0
    is_counting: bool = False  # a Source_ID isn't used again
    is_told_first: bool = False  # a notification comes before the response
    has_code: bool = False  # a Broadcast_Code is accepted
    length_code: int = REJECTED
    takes_known: bool = False  # an Add Source of a source that is there is accepted, and changes it
    takes_opcodes: bool = False
    is_reusing_slots: bool = True  # the lowest empty slot, else the one behind the last


@dataclasses.dataclass
class Source:
    """A source in a slot."""
    number: int
    origin: bytes
    wish: int
    subgroups: list[tuple[int, bytes]]
    pa: int = 0
    encryption: int = 0
    bits: list[int] = dataclasses.field(default_factory=list)

    def octets(self) -> bytes:
        octets = bytes([self.number]) + self.origin + bytes([self.pa, self.encryption, len(self.subgroups)])
        for place, (_, metadata) in enumerate(self.subgroups):
            bits = self.bits[place] if place < len(self.bits) else 0
            octets += struct.pack('<IB', bits, len(metadata)) + metadata
        return octets


class Delegator:
    """The service of a device, with its slots."""

    def __init__(self, host: device.Device, slots: int, ways: Ways):
        self.host, self.ways, self.next = host, ways, ways.first_id
        self.slots: list[Source | None] = [None] * slots
        self.control = gatt.Characteristic(
            CONTROL_POINT, gatt.Characteristic.Properties.WRITE | gatt.Characteristic.Properties.WRITE_WITHOUT_RESPONSE,
            gatt.Characteristic.WRITEABLE, gatt.CharacteristicValue(write=self.written))
        self.states = [gatt.Characteristic(
            RECEIVE_STATE, gatt.Characteristic.Properties.READ | gatt.Characteristic.Properties.NOTIFY,
            gatt.Characteristic.Permissions.READABLE, gatt.CharacteristicValue(read=lambda _, it=slot: self.value(it)))
            for slot in range(slots)]
        host.add_service(gatt.Service(SERVICE, [self.control, *self.states]))

    def value(self, slot: int) -> bytes:
        source = self.slots[slot]
        return source.octets() if source else b''

    async def tell(self, slot: int) -> None:
        """Notifies all clients that asked for it."""
        await self.host.notify_subscribers(self.states[slot], self.value(slot))

    async def written(self, _: typing.Any, octets: bytes) -> None:
        slot = self.serve(bytes(octets))
        if slot is None:
            return
        if self.ways.is_told_first:
            await self.tell(slot)
        else:
            asyncio.get_running_loop().call_later(0.002, self.tell_soon, slot)

    def tell_soon(self, slot: int) -> None:
        asyncio.ensure_future(self.tell(slot))

    def serve(self, octets: bytes) -> int | None:
        """Does an operation, and gives the slot whose value changed."""
        if not octets:
            raise att.ATT_Error(REJECTED)
        opcode = octets[0]
        if opcode > 5:
            if self.ways.takes_opcodes:
                return None
            raise att.ATT_Error(NOT_SUPPORTED)
        if opcode in LENGTHS and len(octets) != LENGTHS[opcode]:
            raise att.ATT_Error(self.ways.length_code)
        if opcode == 2:
            return self.add(octets)
        if opcode in (3, 4, 5):
            slot = next((it for it, source in enumerate(self.slots) if len(octets) > 1 and source and source.number == octets[1]), None)
            if opcode == 3:
                return self.modify(octets, slot)
            if slot is None:
                raise att.ATT_Error(INVALID_SOURCE)
            return self.remove(slot) if opcode == 5 else self.code(slot)
        return None

    def add(self, octets: bytes) -> int:
        subgroups = self.subgroups(octets, 15)
        if octets[1] > 1 or octets[8] > 15 or octets[12] > 2:
            raise att.ATT_Error(REJECTED)
        origin = octets[1:12]
        known = [it for it, source in enumerate(self.slots) if source and key(source.origin) == key(origin)]
        if known and self.ways.takes_known:
            source = self.slots[known[0]]
            assert source
            source.wish, source.subgroups = octets[12], subgroups
            return known[0]
        empty = [it for it, source in enumerate(self.slots) if source is None]
        if known or not empty:
            raise att.ATT_Error(REJECTED)
        slot = empty[0] if self.ways.is_reusing_slots else empty[-1]
        self.slots[slot] = Source(self.number(), origin, octets[12], subgroups)
        return slot

    def number(self) -> int:
        used = {it.number for it in self.slots if it}
        number = self.next if self.ways.is_counting else self.ways.first_id
        while number in used:
            number = (number + 1) % 256
        self.next = (number + 1) % 256
        return number

    def modify(self, octets: bytes, slot: int | None) -> int | None:
        subgroups = self.subgroups(octets, 5)
        if octets[2] > 2:
            raise att.ATT_Error(REJECTED)
        if slot is None:
            raise att.ATT_Error(INVALID_SOURCE)
        source, before = self.slots[slot], self.value(slot)
        assert source
        has_changed = [it[0] for it in subgroups] != [it[0] for it in source.subgroups]
        source.wish, source.subgroups = octets[2], subgroups
        if octets[2] == 0:
            source.pa = source.encryption = 0
        if octets[2] == 0 or has_changed:
            source.bits = []
        return slot if self.value(slot) != before else None

    def code(self, slot: int) -> int | None:
        if not self.ways.has_code:
            raise att.ATT_Error(NOT_SUPPORTED)
        source = self.slots[slot]
        assert source
        if source.encryption != 1:
            return None
        source.encryption = 2
        return slot

    def remove(self, slot: int) -> int:
        source = self.slots[slot]
        assert source
        if source.pa == 2 or any(source.bits):
            raise att.ATT_Error(REJECTED)
        self.slots[slot] = None
        return slot

    def subgroups(self, octets: bytes, place: int) -> list[tuple[int, bytes]]:
        """The subgroups whose number stands at this place; all octets must be theirs, and no stream be wanted twice."""
        found, seen, at = [], 0, place + 1
        if len(octets) <= place:
            raise att.ATT_Error(self.ways.length_code)
        for _ in range(octets[place]):
            if len(octets) < at + 5 or len(octets) < at + 5 + octets[at + 4]:
                raise att.ATT_Error(self.ways.length_code)
            bits = int.from_bytes(octets[at:at + 4], 'little')
            found.append((bits, octets[at + 5:at + 5 + octets[at + 4]]))
            at += 5 + octets[at + 4]
        if at != len(octets):
            raise att.ATT_Error(self.ways.length_code)
        for bits, _ in found:
            if bits != 0xFFFFFFFF:
                if bits >> 31 or bits & seen:
                    raise att.ATT_Error(REJECTED)
                seen |= bits
        return found

    async def becomes(self, slot: int, **changes: typing.Any) -> None:
        """What the radio makes of a slot, which is told."""
        source = self.slots[slot]
        assert source
        for name, value in changes.items():
            setattr(source, name, value)
        await self.tell(slot)


def key(origin: bytes) -> bytes:
    """What tells a source from others: its address type, SID and Broadcast_ID."""
    return origin[:1] + origin[7:]
