"""Runs that are drawn, and captures of them that are bent as those of a sniffer may be. captures.py uses them.

A run hands its sink some of its PDUs by `hear` lines. A capture of it is bent: the PDUs that were not heard are deleted and all of the
train but one packet, the clock is 50 ppm wrong, times jitter, BIG_Offset is in units of 300 us, control PDUs repeat, and other packets
are put between."""
import contextlib
import random
import struct
from collections.abc import Iterable, Iterator, Sequence
from decimal import Decimal
from typing import Any

import link_layer
from scapy.utils import PcapNgWriter, RawPcapReader, RawPcapWriter

Packet = tuple[int, bytes]  # when it was received in us, and its octets
Record = tuple[int, bytes, str]  # with its comment
BEGIN, EPOCH = 1000000, 1700000000 * 1000000  # us: the run's time 0 in a capture that was written, and in one that was bent
DRIFT, JITTER = 50e-6, 15
CHECKED, VALID = 0x0400, 0x0800
ORIGIN, ISO = 20000, 10000
IDENT = 'ident 1 665544332211 3 563412'
SUBGROUP = 'subgroup 0600000000 02010802020103046400'
# What follows the delay in a `group` line, the first event, how many events, and the units of an event and the PDUs of a unit, or
# None where it is framed.
GROUPS: dict[str, tuple[str, str, int, int, tuple[int, int] | None]] = {
    'early copies': ('unframed', '8 10000 100 100 2 1 3 2 1 600 1800 1', 0, 80, (1, 1)),
    'two units an event, two PDUs a unit': ('unframed', '8 5000 40 20 2 4 8 2 0 300 2400 1', 7, 50, (2, 2)),
    'framed, interleaved': ('framed', '8 7500 60 40 2 2 6 2 1 1200 600 0', 1000000, 70, None),
    'one PDU an event, ended': ('unframed', '8 10000 30 30 1 1 1 1 0 0 0 1', 65500, 80, (1, 1)),
}


class Run:
    """A run by `hear` lines, drawn: its text, and the units that the streams hand up where that can be worked out here."""

    def __init__(self, name: str, draw: random.Random):
        framing, numbers, self.first, self.events, self.units = GROUPS[name]
        self.name, self.is_ended = name, name.endswith('ended')
        words = [int(it) for it in numbers.split(' ')]
        (_, self.sdu, self.max_sdu, self.max_pdu, self.streams, self.bn, self.nse, self.irc, self.pto, self.sub, self.spacing,
         _) = words
        self.ahead = self.pto * (self.nse // self.bn - self.irc)
        self.given: dict[int, list[bytes]] = {stream: [] for stream in range(1, self.streams + 1)}
        self.heard: set[tuple[int, int]] = set()
        lines = ['scenario 2', f'group {framing} {ORIGIN} 40000 {numbers}', IDENT, SUBGROUP] + [f'bis {it} -' for it in self.given]
        lines += [f'start {self.first}', 'sink 0 31 1', 'tuned 0 ' + ' '.join(map(str, self.given))]
        for event in range(self.events):
            lines += self.unit_lines(event, draw) + ['event'] + self.hear_lines(event, draw)
        if self.is_ended:
            instant = struct.pack('<H', (self.first + self.events) % 65536).hex()
            lines += ['terminate 19', f'control 0 03040113{instant}']
        self.text = '\n'.join(lines + ['end']) + '\n'

    def unit_lines(self, event: int, draw: random.Random) -> list[str]:
        """Enough units for all events that are laid with this one."""
        lines: list[str] = []
        for stream, given in self.given.items():
            while len(given) < (event + self.ahead + 1) * (self.units[0] if self.units else 2):
                time = ORIGIN - 4000 + len(given) * self.sdu
                if not self.units and time > ORIGIN + (event + self.ahead) * ISO:
                    break
                given.append(draw.randbytes(draw.randrange(self.max_sdu + 1)))
                lines.append(f'unit {stream} {"-" if self.units else time} {given[-1].hex() or "-"}')
        return lines

    def hear_lines(self, event: int, draw: random.Random) -> list[str]:
        """Four of five PDUs; all of the first and the last event, so that the capture begins and ends with the run."""
        is_all = event in (0, self.events - 1)
        lines: list[str] = []
        places = [(stream, subevent) for stream in self.given for subevent in range(self.nse)]
        for stream, subevent in sorted(places, key=lambda it: (it[0] - 1) * self.spacing + it[1] * self.sub):
            if is_all or draw.random() < 0.8:
                lines.append(f'hear 0 0 {stream} {subevent}')
                carrier, place = divmod(subevent, self.bn)
                later = self.pto * (carrier - self.irc + 1) if carrier >= self.irc else 0
                self.heard.add((stream, (event + later) * self.bn + place))
        return lines

    def worked(self) -> Iterator[tuple[str, str]]:
        """The units by slot: valid where all payloads that carry the unit were heard. A copy comes no later than its event."""
        for event in range(self.events):
            for stream, given in self.given.items():
                assert self.units
                for slot in range(self.units[0]):
                    octets = given[event * self.units[0] + slot]
                    number = event * self.bn + slot * self.units[1]
                    parts = max(1, -(-len(octets) // self.max_pdu))
                    is_heard = all((stream, number + part) in self.heard for part in range(parts))
                    yield str(stream), f'valid {len(octets)} {octets.hex() or "-"}' if is_heard else 'lost'


def records(path: str) -> list[Record]:
    """The packets of a pcapng as times in us, octets and comments."""
    with contextlib.closing(RawPcapReader(path)) as reader:
        return [((about.tshigh << 32) + about.tslow, octets, (about.comment or b'').decode()) for octets, about in reader]


def write(path: str, packets: Iterable[Sequence[Any]], link_type: int = link_layer.LINK_TYPE, is_old: bool = False) -> None:
    writer = RawPcapWriter(path, linktype=link_type) if is_old else PcapNgWriter(path)
    writer.linktype = link_type
    writer.write_header(None)
    for time, octets, *_ in packets:
        if is_old:
            writer.write_packet(octets, sec=time // 1000000, usec=time % 1000000)
        else:
            writer.write_packet(octets, sec=Decimal(time) / 1000000)
    writer.close()


def flagged(octets: bytes, clear: int, put: int = 0) -> bytes:
    flags = int.from_bytes(octets[8:10], 'little') & ~clear | put
    return octets[:8] + flags.to_bytes(2, 'little') + octets[10:]


def long_offset(time: int, octets: bytes, draw: random.Random) -> Packet:
    """The announcement earlier by less than 300 us, with its offset in units of 300 us."""
    place = octets.index(b'\x22\x2c') + 2
    numbers = int.from_bytes(octets[place:place + 2], 'little')
    numbers = numbers & 0x8000 | 1 << 14 | 3000 // 300
    return time - draw.randrange(300), octets[:place] + numbers.to_bytes(2, 'little') + octets[place + 2:]


class Bent:
    """A capture as a bad sniffer gives it, with what was deleted of it and what was put between."""

    def __init__(self, written: list[Record], draw: random.Random, train: int):
        self.deleted, self.put, self.draw, trains = 0, 0, draw, 0
        kept: list[Packet] = []
        for time, octets, comment in written:
            if 'heard by no sink' in comment:
                self.deleted += 1
            elif 'train for event' in comment:
                trains += 1
                if trains == train:
                    kept.append(long_offset(time, octets, draw))
            elif 'leads to' in comment:
                kept += [(time, octets)] if octets[14:16] != octets[14:15] + b'\x07' and not kept else []
            elif 'control;' in comment:
                kept += [(time - back * ISO, octets) for back in range(5)]
            else:
                is_unchecked = draw.random() < 0.3
                kept.append((time, flagged(octets, CHECKED | VALID) if is_unchecked else octets))
        self.packets = sorted((self.moved(time), octets) for time, octets in kept + list(self.others(kept)))

    def moved(self, time: int) -> int:
        return EPOCH + round((time - BEGIN) * (1 + DRIFT) + self.draw.uniform(-JITTER, JITTER))

    def others(self, kept: list[Packet]) -> Iterator[Packet]:
        """Packets of others, and of the source with a wrong CRC."""
        streams = [it for it in kept if flagged(it[1], 0)[9] & 3 == 3]
        for number in range(60):
            self.put += 5
            time, octets = self.draw.choice(streams)
            wrong = octets[:16] + bytes([octets[16] ^ 1]) + octets[17:] if octets[15] else octets[:-1] + bytes([octets[-1] ^ 1])
            yield time, flagged(wrong, VALID, CHECKED)
            yield time + 1, flagged(wrong, CHECKED | VALID)
            yield time + 2, octets[:10] + self.draw.randbytes(4) + octets[14:]
            yield time + 3, flagged(wrong, 1)
            yield time + 4, octets[:-2] if number % 2 else octets[:14]
        payload = link_layer.extended_payload(data=bytes.fromhex('06165218999999'), address=bytes(6), data_info=b'\x01\x20',
                                              sync_info=link_layer.spell(link_layer.SYNC_INFO, address=0x11223345, interval=8))
        yield kept[0][0] - 1, bytes(link_layer.extended(payload, link_layer.ADVERTISING_ADDRESS, link_layer.ADVERTISING_CRC, 1, 0))
