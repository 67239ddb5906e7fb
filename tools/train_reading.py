"""The periodic trains of a capture, with what they announce. capture_in.py uses it.

An AUX_ADV_IND with SyncInfo leads to a train and has the Broadcast_ID; an AUX_SYNC_IND of the train has the BASE, and in its ACAD the
BIGInfo (Basic Audio Profile 1.0, section 3.7.2; Core 5.2, volume 6 part B, sections 2.3.4 and 4.4.6.11)."""
import typing
from typing import Any

import link_layer
from anchor_fit import Mark

OFFSET_UNITS = (30, 300)  # µs
CHAIN_SLACK = 300  # µs
TYPE_OF_ADDRESS = 0x40  # the bit of an advertising PDU's first octet that says that the address is random


class Announced(typing.NamedTuple):
    """An AUX_SYNC_IND with a BIGInfo: its time, its advertising data, its ACAD, and what it says of the anchor."""
    data: bytes
    acad: bytes
    mark: Mark


class Train:
    """A train, as one AUX_ADV_IND leads to it."""

    def __init__(self, packet, fields):
        sync_info = link_layer.read(link_layer.SYNC_INFO, fields['sync_info'])
        self.address, self.crc_start = sync_info['address'], sync_info['crc']
        self.address_type = int(bool(packet.pdu[0] & TYPE_OF_ADDRESS))
        self.advertiser = fields.get('address', b'')
        self.sid = link_layer.read(link_layer.DATA_INFO, fields.get('data_info', b''))['sid']
        self.extended_data = fields['data']
        self.broadcast_id = (link_layer.service_data(fields['data'], link_layer.BROADCAST_AUDIO) or b'')[:3]
        self.heard, self.base, self.announced, self.other_groups = 0, None, [], 0
        self.info_octets: Any = None

    def name(self):
        return self.broadcast_id.hex() or 'without a Broadcast_ID'

    def is_named(self):
        return len(self.broadcast_id) == 3 and len(self.advertiser) == 6

    def info(self):
        return link_layer.read(link_layer.BIG_INFO, self.info_octets[:link_layer.octets_in(link_layer.BIG_INFO)])

    def missing(self):
        """What must still be heard before its group can be followed."""
        if not self.is_named():
            return 'an AUX_ADV_IND that has the address of the advertiser and the Broadcast_ID'
        if not self.heard:
            return 'an AUX_SYNC_IND with a good CRC'
        if self.info_octets is None:
            return 'an AUX_SYNC_IND with a BIGInfo'
        return None if self.base is not None else 'an AUX_SYNC_IND with a BASE that is whole'

    def take(self, time, fields):
        """Takes an AUX_SYNC_IND with all its advertising data."""
        self.heard += 1
        if self.base is None:
            self.base = link_layer.service_data(fields['data'], link_layer.BASIC_AUDIO)
        octets = link_layer.big_info_of(fields['acad'])
        if octets is None or len(octets) < link_layer.octets_in(link_layer.BIG_INFO):
            return
        if self.info_octets is None:
            self.info_octets = octets
        elif not is_same_group(self.info_octets, octets):
            self.other_groups += 1
            return
        info = link_layer.read(link_layer.BIG_INFO, octets[:link_layer.octets_in(link_layer.BIG_INFO)])
        unit = OFFSET_UNITS[info['offset_units']]
        earliest = time + info['offset'] * unit
        mark = Mark(time, info['payload'] // max(info['bn'], 1), earliest, earliest + unit)
        self.announced.append(Announced(fields['data'], fields['acad'], mark))


def is_same_group(one, other):
    """Whether two BIGInfos are of one group: all is the same but where its next event is, and the channels."""
    size = link_layer.octets_in(link_layer.BIG_INFO)
    first, second = link_layer.read(link_layer.BIG_INFO, one[:size]), link_layer.read(link_layer.BIG_INFO, other[:size])
    for name in ('offset', 'offset_units', 'payload', 'channels', 'rfu'):
        first[name] = second[name]
    return first == second and one[size:] == other[size:]


def trains_of(packets):
    """The trains to which an AUX_ADV_IND of the capture leads, by their access addresses."""
    trains: dict[int, Any] = {}
    for packet in packets:
        if packet.address != link_layer.ADVERTISING_ADDRESS or packet.pdu[0] & 15 != link_layer.EXTENDED:
            continue
        if not link_layer.has_good_crc(packet, link_layer.ADVERTISING_CRC):
            continue
        fields = link_layer.read_extended(packet.pdu[2:])
        if fields and len(fields.get('sync_info', b'')) == link_layer.octets_in(link_layer.SYNC_INFO):
            train = Train(packet, fields)
            known = trains.get(train.address)
            if known is None or not known.is_named():
                trains[train.address] = train
    return trains


def read_trains(packets):
    """All trains with what was heard of them. What continues an AUX_SYNC_IND stands at the time that its pointer names."""
    trains = trains_of(packets)
    begun: dict[Any, Any] = {}
    for packet in packets:
        train = trains.get(packet.address)
        if train is None or packet.pdu[0] & 15 != link_layer.EXTENDED or not link_layer.has_good_crc(packet, train.crc_start):
            continue
        fields = link_layer.read_extended(packet.pdu[2:])
        if fields is None:
            continue
        start, first, expected = begun.pop(packet.address, (packet.time, fields, None))
        if expected is not None and abs(packet.time - expected) <= CHAIN_SLACK:
            first['data'] += fields['data']
        elif expected is not None:
            train.take(start, first)
            start, first = packet.time, fields
        if 'aux_pointer' in fields:
            begun[packet.address] = start, first, packet.time + pointed(fields['aux_pointer'])
        else:
            train.take(start, first)
    for address, (start, first, _) in begun.items():
        trains[address].take(start, first)
    return list(trains.values())


def pointed(octets):
    pointer = link_layer.read(link_layer.AUX_POINTER, octets)
    return pointer['offset'] * OFFSET_UNITS[pointer['offset_units']]
