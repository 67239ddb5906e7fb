"""A source of a run, as its lines describe it: what it announces, and when each of its PDUs is on the air. capture_out.py uses it.

The layouts and the times are those of docs/formats.md and docs/scenario-language.md. What a run leaves open is chosen here: the access
addresses and what the CRCs begin with, which the program announces as 0, and the interval of the periodic train."""
import link_layer
from att_links import number, octets_of
from typing import Any

LC3 = bytes([6, 0, 0, 0, 0])
# The numbers of a `group` line, each with the greatest one.
NUMBERS = (('origin', 2 ** 48), ('delay', 2 ** 24 - 1), ('iso', 2 ** 12 - 1), ('sdu', 2 ** 20 - 1), ('max_sdu', 2 ** 12 - 1),
           ('max_pdu', 255), ('num_bis', 31), ('bn', 7), ('nse', 31), ('irc', 15), ('pto', 15), ('sub', 2 ** 20 - 1),
           ('spacing', 2 ** 20 - 1), ('phy', 7))
NEEDED = ('iso', 'num_bis', 'bn', 'nse')  # with one of them 0 no group starts
GREATEST_EVENT = 2 ** 39 - 1
GREATEST_BASE = 252  # octets, with which its service data fills a structure of advertising data
TRAIN_BEFORE = 3000  # µs from the start of an announcement to the anchor that it speaks of
OFFSET_UNIT = 30  # µs
LEAST_INTERVAL = 6  # of a periodic train, in units of 1.25 ms
CHAIN_AFTER, CHAIN_AFTER_FULL = 900, 2430  # µs from an AUX_SYNC_IND on LE 1M to what continues it, by its length
FULL_PAYLOAD = 255
BETWEEN_PACKETS = 150  # µs
# Access addresses that meet the rules of volume 6 part B, section 2.1.2; those of the groups the ones for a seed.
SEEDS, TRAIN_ADDRESSES = (0x4D9B9A3C, 0x4D9B9A5A), (0x2C8E5D61, 0x2C8E5DA9)
CRC_BASES, TRAIN_CRCS = (0x3A51, 0x3AC6), (0x51A7C0, 0x51A7D3)


class Source:
    """One source. `group` has the numbers of its `group` line, and `event` its next event."""

    def __init__(self, place):
        self.number = place
        self.group, self.ident, self.cipher, self.subgroups = {}, (0, bytes(6), 0, bytes(3)), b'', []
        self.first: Any = None
        self.event: Any = None
        self.seed, self.crc_base = SEEDS[place], CRC_BASES[place]
        self.train_address, self.train_crc = TRAIN_ADDRESSES[place], TRAIN_CRCS[place]

    def describe(self, words):
        """Takes a line that describes the source."""
        kind, rest = words[0], words[1:]
        if kind == 'group':
            self.group = {name: number(word, 0, most) for word, (name, most) in zip(rest[1:], NUMBERS, strict=True)}
            self.group['framing'] = int(rest[0] == 'framed')
        elif kind == 'ident':
            self.ident = number(rest[0], 0, 1), octets_of(rest[1], 6), number(rest[2], 0, 15), octets_of(rest[3], 3)
        elif kind == 'cipher':
            self.cipher = octets_of(rest[0], 8) + octets_of(rest[1], 16)
        elif kind == 'subgroup':
            self.subgroups.append([octets_of(rest[0], 5), octets_of(rest[1]), b'', []])
        elif kind == 'meta':
            self.subgroups[-1][2] = octets_of(rest[0])
        elif kind == 'bis':
            self.subgroups[-1][3].append((number(rest[0], 1, 31), octets_of(rest[1])))
        elif kind == 'start':
            if not all(map(self.group.get, NEEDED)) or len(self.base()) > GREATEST_BASE:
                raise ValueError('no group that can start')
            self.first = self.event = number(rest[0], 0, GREATEST_EVENT)

    def performed(self):
        """Takes the next event, and gives its number."""
        if self.event is None:
            raise ValueError('no event before the start')
        self.event += 1
        return self.event - 1

    def last_event(self):
        """The number of the event that was performed last."""
        if self.event in (None, self.first):
            raise ValueError('no event yet')
        return self.event - 1

    def events(self):
        """How many events were performed."""
        return 0 if self.event is None else self.event - self.first

    def places(self):
        """The places of an event as stream and subevent, by rising stream."""
        return [(stream, subevent) for stream in range(1, self.group['num_bis'] + 1) for subevent in range(self.group['nse'])]

    def packet_time(self):
        """How long a PDU of the greatest length is on the air, in µs."""
        octets = self.group['max_pdu'] + (4 if self.cipher else 0)
        return (octets + 10) * 8 if self.group['phy'] == 0 else (octets + 11) * 4

    def anchor(self, event):
        return self.group['origin'] + (event - self.first) * self.group['iso'] * 1250

    def place(self, event, stream, subevent):
        """When the PDU of this place begins."""
        return self.anchor(event) + (stream - 1) * self.group['spacing'] + subevent * self.group['sub']

    def sync_delay(self):
        group = self.group
        return (group['num_bis'] - 1) * group['spacing'] + (group['nse'] - 1) * group['sub'] + self.packet_time()

    def control_place(self, event):
        """When the control PDU of an event begins: behind all its streams."""
        return self.anchor(event) + self.sync_delay() + BETWEEN_PACKETS

    def stream_address(self, stream):
        return link_layer.stream_address(self.seed, stream)

    def stream_crc(self, stream):
        return link_layer.stream_crc(self.crc_base, stream)

    def base(self):
        """The BASE by the lines, or the one of a source without them."""
        subgroups = self.subgroups or [[LC3, b'', b'', [(index, b'') for index in range(1, self.group['num_bis'] + 1)]]]
        octets = self.group['delay'].to_bytes(3, 'little') + bytes([len(subgroups)])
        for codec, config, metadata, streams in subgroups:
            octets += bytes([len(streams)]) + codec + counted(config) + counted(metadata)
            octets += b''.join(bytes([index]) + counted(own) for index, own in streams)
        return octets

    def announcement(self, event, seed, crc_base):
        """The three lists of an announcement for an event: in extended advertising, in periodic advertising, and its ACAD."""
        group = {name: value for name, value in self.group.items() if name not in ('origin', 'delay')}
        info = link_layer.spell(link_layer.BIG_INFO, **group, offset=TRAIN_BEFORE // OFFSET_UNIT, seed=seed, crc=crc_base,
                                channels=link_layer.ALL_CHANNELS, payload=event * self.group['bn']) + self.cipher
        kind = bytes([link_layer.SERVICE_DATA])
        return (counted(kind + link_layer.BROADCAST_AUDIO.to_bytes(2, 'little') + self.ident[3]),
                counted(kind + link_layer.BASIC_AUDIO.to_bytes(2, 'little') + self.base()),
                counted(bytes([link_layer.BIG_INFO_TYPE]) + info))

    def events_between_trains(self):
        """The train comes before each event, and before each second one where the interval would be below what is allowed."""
        return 1 if self.group['iso'] >= LEAST_INTERVAL else 2

    def data_info(self):
        return link_layer.spell(link_layer.DATA_INFO, identifier=1, sid=self.ident[2])

    def advertising_packets(self, event, train_at):
        """The packets that lead to the periodic train, with their times: ADV_EXT_IND and AUX_ADV_IND before this event's train."""
        ours = self.announcement(event, self.seed, self.crc_base)[0]
        pointer = link_layer.spell(link_layer.AUX_POINTER, offset=600 // OFFSET_UNIT)
        counter = (event - self.first) // self.events_between_trains() % 65536
        sync_info = link_layer.spell(
            link_layer.SYNC_INFO, offset=1500 // OFFSET_UNIT, interval=self.group['iso'] * self.events_between_trains(),
            channels=link_layer.ALL_CHANNELS, address=self.train_address, crc=self.train_crc, counter=counter)
        first = link_layer.extended_payload(data_info=self.data_info(), aux_pointer=pointer)
        second = link_layer.extended_payload(data=ours, address=self.ident[1], data_info=self.data_info(), sync_info=sync_info)
        address, crc = link_layer.ADVERTISING_ADDRESS, link_layer.ADVERTISING_CRC
        return [
            (train_at - 2100, link_layer.extended(first, address, crc, 0, 0, kind=link_layer.UNTOLD)),
            (train_at - 1500, link_layer.extended(second, address, crc, 1, link_layer.AUX_ADV_IND, self.ident[0])),
        ]

    def train_packets(self, event, train_at):
        """AUX_SYNC_IND, and an AUX_CHAIN_IND where it can't hold all, with their times. The advertising data is not cut as long as one
        of them holds it."""
        _, data, acad = self.announcement(event, self.seed, self.crc_base)
        if len(data) <= FULL_PAYLOAD - len(link_layer.extended_payload(acad=acad)):
            return [(train_at, self.train_packet(link_layer.extended_payload(data=data, acad=acad), link_layer.AUX_SYNC_IND))]
        after, front = CHAIN_AFTER, 0
        if len(data) > FULL_PAYLOAD - len(link_layer.extended_payload()):
            after = CHAIN_AFTER_FULL
            front = FULL_PAYLOAD - len(link_layer.extended_payload(acad=acad, aux_pointer=bytes(3)))
        pointer = link_layer.spell(link_layer.AUX_POINTER, offset=after // OFFSET_UNIT)
        first = link_layer.extended_payload(data=data[:front], acad=acad, aux_pointer=pointer)
        second = link_layer.extended_payload(data=data[front:])
        return [(train_at, self.train_packet(first, link_layer.AUX_SYNC_IND)),
                (train_at + after, self.train_packet(second, link_layer.AUX_CHAIN_IND))]

    def train_packet(self, payload, sort):
        return link_layer.extended(payload, self.train_address, self.train_crc, 2 + self.number, sort)

    def stream_packet(self, stream, pdu):
        """A packet of a stream, or for stream 0 of the control of the group."""
        return link_layer.framed(pdu, self.stream_address(stream), self.stream_crc(stream), 5 + stream, link_layer.BROADCAST_STREAM,
                                 self.group['phy'])


def counted(octets):
    return bytes([len(octets)]) + octets
