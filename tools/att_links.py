"""The ATT of a link between an assistant and a sink, as packets of a connection. capture_out.py uses it.

Core 5.2, volume 3 part F, and volume 6 part B, section 2.4. A run tells what was written, answered, told and read on a link. All
else is put around it here so that a reader of captures follows it: a connection, an exchange of the MTU, and the handles with the UUIDs
of the Broadcast Audio Scan Service 1.0. The assistant is the central, the sink the peripheral."""
import functools

from link_layer import ADVERTISING_ADDRESS, ADVERTISING_CRC, FROM_CENTRAL, FROM_PERIPHERAL, UNTOLD, framed
from scapy.layers.bluetooth import (
    ATT_Error_Response, ATT_Exchange_MTU_Request, ATT_Exchange_MTU_Response, ATT_Execute_Write_Request, ATT_Execute_Write_Response,
    ATT_Find_Information_Request, ATT_Find_Information_Response, ATT_Handle, ATT_Handle_Value_Notification, ATT_Hdr,
    ATT_Prepare_Write_Request, ATT_Prepare_Write_Response, ATT_Read_Blob_Request, ATT_Read_Blob_Response, ATT_Read_Request,
    ATT_Read_Response, ATT_Write_Request, ATT_Write_Response, L2CAP_Hdr)
from scapy.layers.bluetooth4LE import BTLE_ADV, BTLE_CONNECT_REQ, BTLE_CTRL, BTLE_DATA, LL_TERMINATE_IND
from scapy.packet import Packet

GREATEST_MTU = 517  # of an ATT whose attributes have at most 512 octets
LEAST_MTU = 23
FRAGMENT = 27  # octets of a data PDU before another length is agreed
ATTRIBUTE = 4  # the L2CAP channel
SERVICE, CHARACTERISTIC, SETTING, CONTROL_POINT, RECEIVE_STATE = 0x2800, 0x2803, 0x2902, 0x2BC7, 0x2BC8
CONTROL_HANDLE, FIRST_STATE_HANDLE = 0x0012, 0x0014
CONNECT_IND, START, FURTHER, LINK_CONTROL = 5, 2, 1, 3
FIRST_ADDRESS, FIRST_CRC = 0x5A3B6D25, 0x3C5A00  # of the first connection; each has its own
USER_ENDED = 0x13


def state_handle(slot):
    return FIRST_STATE_HANDLE + 3 * slot


def attributes(slots):
    """The handles of the server with their UUIDs."""
    listed = [(CONTROL_HANDLE - 2, SERVICE), (CONTROL_HANDLE - 1, CHARACTERISTIC), (CONTROL_HANDLE, CONTROL_POINT)]
    for slot in range(slots):
        handle = state_handle(slot)
        listed += [(handle - 1, CHARACTERISTIC), (handle, RECEIVE_STATE), (handle + 1, SETTING)]
    return listed


@functools.lru_cache(maxsize=2048)
def data_header(sort, number, expected, size):
    """The header of a PDU of a connection."""
    return bytes(BTLE_DATA(LLID=sort, SN=number, NESN=expected, len=size))


@functools.lru_cache(maxsize=64)
def introduced(slots, mtu):
    """How a link begins, as requests with their responses, each an L2CAP frame: the MTU and the handles with their UUIDs."""
    exchanges = []
    if mtu > LEAST_MTU:
        exchanges.append((ATT_Exchange_MTU_Request(mtu=GREATEST_MTU), ATT_Exchange_MTU_Response(mtu=mtu)))
    listed, fitting = attributes(slots), (mtu - 2) // 4
    for place in range(0, len(listed), fitting):
        part = listed[place:place + fitting]
        answer = ATT_Find_Information_Response(format=1, handles=[ATT_Handle(handle=handle, value=uuid) for handle, uuid in part])
        exchanges.append((ATT_Find_Information_Request(start=part[0][0], end=0xFFFF), answer))
    return [tuple(bytes(L2CAP_Hdr(cid=ATTRIBUTE) / ATT_Hdr() / value) for value in exchange) for exchange in exchanges]


class Link:
    """A link of a sink: the connection of this number. Each call gives the events of the connection that it takes, each a list of
    packets with their comments."""

    def __init__(self, connection, sink, number, slots, mtu):
        self.name = f'sink {sink}, link {number}'
        self.slots, self.mtu = slots, mtu or GREATEST_MTU
        self.access_address, self.crc_start = FIRST_ADDRESS + 17 * connection, FIRST_CRC + connection
        self.channel = 1 + 4 * sink + number
        self.sink_address = f'c0:00:00:00:00:{sink:02x}'
        self.assistant_address = f'c0:00:00:00:01:{16 * sink + number:02x}'
        self.is_open, self.events = False, 0

    def event(self, from_central, from_peripheral, comment):
        """A packet of the central and one of the peripheral, of which one has no octets, each with its comment."""
        number = self.events & 1
        self.events += 1
        packets = []
        for kind, (sort, octets), expected in ((FROM_CENTRAL, from_central, number), (FROM_PERIPHERAL, from_peripheral, 1 - number)):
            pdu = data_header(sort, number, expected, len(octets)) + octets
            packet = framed(pdu, self.access_address, self.crc_start, self.channel, kind)
            packets.append((packet, f'{self.name}: {comment}' if octets else ''))
        return packets

    def sent(self, value, comment, is_request=True):
        """The events in which an ATT PDU is sent, given as a layer of scapy or by the octets of its L2CAP frame."""
        octets = bytes(L2CAP_Hdr(cid=ATTRIBUTE) / ATT_Hdr() / value) if isinstance(value, Packet) else value
        nothing, events = (FURTHER, b''), []
        for place in range(0, len(octets), FRAGMENT):
            part = (START if place == 0 else FURTHER, octets[place:place + FRAGMENT])
            events.append(self.event(*((part, nothing) if is_request else (nothing, part)), comment))
        return events

    def exchanged(self, request, response, comment):
        return self.sent(request, comment) + self.sent(response, comment, False)

    def opened(self):
        """The connection, the MTU and the handles, where the link isn't open yet."""
        if self.is_open:
            return []
        self.is_open, self.events = True, 0
        comment = 'of the capture, not of the run'
        events = [[self.connection(comment)]]
        for request, response in introduced(self.slots, self.mtu):
            events += self.exchanged(request, response, comment)
        return events

    def connection(self, comment):
        backwards = int.from_bytes(self.access_address.to_bytes(4, 'little'), 'big'), int.from_bytes(
            self.crc_start.to_bytes(3, 'little'), 'big')
        request = BTLE_CONNECT_REQ(InitA=self.assistant_address, AdvA=self.sink_address, AA=backwards[0], crc_init=backwards[1],
                                   win_size=1, interval=8, timeout=100, chM=2 ** 37 - 1, hop=5)
        pdu = bytes(BTLE_ADV(PDU_type=CONNECT_IND, TxAdd=1, RxAdd=1, ChSel=1) / request)
        return framed(pdu, ADVERTISING_ADDRESS, ADVERTISING_CRC, 0, UNTOLD), f'{self.name}: {comment}'

    def closed(self):
        if not self.is_open:
            return []
        self.is_open = False
        return [self.event((LINK_CONTROL, bytes(BTLE_CTRL() / LL_TERMINATE_IND(code=USER_ENDED))), (FURTHER, b''), 'parted')]

    def written(self, octets, code, cause):
        """A write to the control point, with the error code of its answer or None. One that doesn't fit goes in parts."""
        events, comment = self.opened(), f'write, answered {cause}'
        refused = ATT_Error_Response(request=0x12, handle=CONTROL_HANDLE, ecode=code or 0)
        if len(octets) <= self.mtu - 3:
            request = ATT_Write_Request(gatt_handle=CONTROL_HANDLE, data=octets)
            return events + self.exchanged(request, ATT_Write_Response() if code is None else refused, comment)
        room = self.mtu - 5
        for place in range(0, len(octets), room):
            part = {'gatt_handle': CONTROL_HANDLE, 'offset': place, 'data': octets[place:place + room]}
            events += self.exchanged(ATT_Prepare_Write_Request(**part), ATT_Prepare_Write_Response(**part), comment)
        refused.request = 0x18
        response = ATT_Execute_Write_Response() if code is None else refused
        return events + self.exchanged(ATT_Execute_Write_Request(flags=1), response, comment)

    def told(self, slot, octets, comment):
        return self.opened() + self.sent(ATT_Handle_Value_Notification(gatt_handle=state_handle(slot), value=octets), comment, False)

    def read(self, slot, octets):
        """A read of a slot, and of what is left of it where it is longer than a part can be."""
        handle, room, comment = state_handle(slot), self.mtu - 1, f'read of slot {slot}'
        events = self.opened() + self.exchanged(ATT_Read_Request(gatt_handle=handle), ATT_Read_Response(value=octets[:room]), comment)
        place = room
        while place < len(octets):
            request = ATT_Read_Blob_Request(gatt_handle=handle, offset=place)
            events += self.exchanged(request, ATT_Read_Blob_Response(value=octets[place:place + room]), comment)
            place += room
        return events


def written_octets(words):
    """The octets of a write by its line, as the Broadcast Audio Scan Service 1.0 spells them in section 3.1.1."""
    kind, rest = words[0], words[2:]
    if kind == 'awrite':
        return octets_of(words[3])
    if kind == 'write':
        return octets_of(rest[0])
    if kind == 'add':
        front = bytes([2, number(rest[0], 0, 1)]) + octets_of(rest[1], 6) + bytes([number(rest[2], 0, 15)]) + octets_of(rest[3], 3)
        return front + wishes_of(rest[4:])
    if kind == 'modify':
        return bytes([3, number(rest[0], 0, 255)]) + wishes_of(rest[1:])
    if kind == 'remove':
        return bytes([5, number(rest[0], 0, 255)])
    return bytes([4, number(rest[0], 0, 255)]) + octets_of(rest[1], 16)


def wishes_of(words):
    octets = bytes([number(words[0], 0, 2)]) + number(words[1], 0, 65535).to_bytes(2, 'little') + bytes([len(words[2:]) // 2])
    for streams, metadata in zip(words[2::2], words[3::2], strict=True):
        metadata = octets_of(metadata)
        octets += octets_of(streams, 4) + bytes([len(metadata)]) + metadata
    return octets


def octets_of(word, size=None):
    """The octets that a word spells; ValueError where it spells none, or not as many as these."""
    octets = b'' if word == '-' else bytes.fromhex(word)
    if size is not None and len(octets) != size:
        raise ValueError(f'{len(octets)} octets in place of {size}')
    return octets


def number(word, least, most):
    """The number that a word spells; ValueError where it spells none from the least to the most."""
    if not (word.isascii() and word.isdigit() and len(word) < 20 and least <= int(word) <= most):
        raise ValueError(f'no number from {least} to {most}: {word[:20]}')
    return int(word)
