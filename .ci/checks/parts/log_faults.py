"""Logs with faults put into them, and logs that are bent. checks/logs.py uses it."""
import argparse
import gzip
import os
import random
import shutil
import struct
import subprocess
import typing
from collections import Counter
from collections.abc import Iterator

import log_files
import log_gatt
import log_hci
import log_in
import log_lay
from log_files import Packet, Writer

RADIO = ('follows', 'rejoins', 'loses', 'parts', 'encrypted', 'past')  # lives in which the delegator's radio does something
UNSURE = ('encrypted', 'past', 'returns')  # lives in which something is taken as it is told
CODES = (0x80, 0x81, 0xFC, 0x0D)
GREATEST = 1 << 31  # octets of the longest log that is bent
PLACE_OF_PA, PLACE_OF_STREAMS = 12, 15


def names(folder: str) -> list[str]:
    return sorted(it for it in os.listdir(folder) if it.endswith('.gz'))


def laid(path: str, explain: str) -> tuple[log_lay.Laying, list[log_lay.Difference]]:
    found: list[log_lay.Difference] = []
    laying, _ = log_in.laid(argparse.Namespace(log=path, handles=None, program=explain), None, found.append)
    return laying, found


def line_of(name: str, laying: log_lay.Laying) -> str:
    """What a log has, in a line of told.txt."""
    count = laying.counted
    parts = [f'{count["writes"]} writes', f'replies {count["replies that agree"]}/{count["replies"]}',
             f'notices {count["notices that agree"]}/{count["notices"]}', f'reads {count["states read that agree"]}/{count["states read"]}']
    rules = ' '.join(f'{it}={number}' for it, number in sorted(laying.by_rule.items()))
    return f'{name}: {", ".join(parts)}; {rules or "agrees"}'


class Place(typing.NamedTuple):
    """A record in which a fault can be put."""
    record: int
    kind: str
    pdu: bytes
    octets: tuple[int, ...] = ()  # of the PDU, of which a bit can be another one


def places(packets: list[Packet], is_radio_in: bool) -> list[Place]:
    """Where faults can be put into a log: replies to writes of the control point, notices, and values whose source is known."""
    reader, gatt, found = log_hci.Reader(), log_gatt.Gatt(), list[Place]()
    fronts: dict[tuple[log_gatt.Server, int], bytes] = {}
    written = b''
    for happening in reader.read(packets):
        if not isinstance(happening.what, log_hci.Attribute):
            continue
        pdu, record = happening.what.pdu, happening.record
        for said in gatt.said(happening):
            if isinstance(said.what, log_gatt.Written):
                written = said.what.octets
            elif isinstance(said.what, log_gatt.Answered) and written[:1] != b'\x04':
                found.append(Place(record, 'reply', pdu))
            elif isinstance(said.what, log_gatt.Value):
                front = 3 if said.what.way != 'read' else 1
                value, place = said.what.octets, (said.server, said.what.slot)
                if said.what.way != 'read':
                    found.append(Place(record, 'notice', pdu))
                is_known = fronts.get(place) == value[:12] and len(value) > 0
                fronts[place] = value[:12]
                octets = [it for it in range(0 if is_known else 1, len(value)) if is_radio_in or it < PLACE_OF_PA or
                          it in (14,) or it > PLACE_OF_STREAMS + 4]
                if len(value) == len(pdu) - front and octets and not (not is_radio_in and len(value) > 20):
                    found.append(Place(record, 'state', pdu, tuple(front + it for it in octets)))
    return found


def changed(place: Place, draw: random.Random) -> bytes | None:
    """The PDU with a fault in it, or None where it is left out."""
    if place.kind == 'notice':
        return None
    if place.kind == 'reply':
        if place.pdu[0] in (0x13, 0x19):
            return bytes([1, 0x12 if place.pdu[0] == 0x13 else 0x18, 0x12, 0x00, draw.choice(CODES)])
        code = draw.choice([it for it in (None, *CODES) if it != place.pdu[4]])
        if code is None:
            return bytes([0x13 if place.pdu[1] == 0x12 else 0x19])
        return place.pdu[:4] + bytes([code])
    octets = bytearray(place.pdu)
    octets[draw.choice(place.octets)] ^= 1 << draw.randrange(8)
    return bytes(octets)


def planted(source: str, folder: str, number: int) -> Iterator[tuple[str, str, str]]:
    """So many logs with a fault each: the name of the log, what the fault is, and where the log is."""
    draw, agreeing = random.Random(50), []
    with open(os.path.join(source, 'told.txt'), encoding='ascii') as file:
        for line in file:
            name, life = line.split(':')[0], line.split('-')[0]
            is_own = 'delegator' in name
            if line.endswith('; agrees\n') and life not in UNSURE and (is_own or life not in RADIO) and 'monitor' not in life:
                agreeing.append((name, is_own))
    kinds = ('reply', 'notice', 'state')
    made = 0
    while made < number:
        name, is_own = draw.choice(agreeing)
        packets = list(log_files.read_log(os.path.join(source, name)))
        fitting = [it for it in places(packets, is_own) if it.kind == kinds[made % 3] and packets[it.record - 1].octets[8:] == it.pdu]
        if not fitting:
            continue
        place = draw.choice(fitting)
        pdu = changed(place, draw)
        path = os.path.join(folder, f'planted{made}')
        with open(path, 'wb') as file:
            writer = Writer(file)
            for packet in packets:
                if packet.record != place.record:
                    writer.write(packet)
                elif pdu is not None:
                    front = packet.octets[:2] + struct.pack('<HHH', len(pdu) + 4, len(pdu), 4)
                    writer.write(packet._replace(octets=front + pdu))
        told = 'is dropped' if pdu is None else f'{place.pdu.hex()} is {pdu.hex()}'
        yield name, f'{place.kind} of record {place.record}: {told}', path
        made += 1


def bent(source: str, folder: str) -> Iterator[tuple[str, str]]:
    """Logs that can't be taken."""
    draw = random.Random(5)
    with gzip.open(os.path.join(source, names(source)[0])) as zipped:
        whole = zipped.read()
    path = os.path.join(folder, 'bent')

    def put(octets: bytes) -> str:
        with open(path, 'wb') as file:
            file.write(octets)
        return path

    for place in (0, 5, 12, 16, 20, 39, 41, *(draw.randrange(60, len(whole)) for _ in range(6)), len(whole) - 1):
        yield f'cut behind octet {place}', put(whole[:place])
    for link in (0, 1001, 1003, 1004, 2002, 201):
        yield f'of link type {link}', put(whole[:12] + struct.pack('>I', link) + whole[16:])
    yield 'of another version', put(whole[:8] + struct.pack('>I', 2) + whole[12:])
    yield 'a pcap', put(b'\xd4\xc3\xb2\xa1' + whole)
    yield 'a cut gzip', put(gzip.compress(whole)[:-20])
    yield 'a record of 4 GB', put(whole[:16] + struct.pack('>IIIIq', 2 ** 32 - 1, 2 ** 32 - 1, 0, 0, 0))
    yield 'no such file', os.path.join(folder, 'none')
    yield 'a folder', folder
    for link in (log_files.H4, log_files.MONITOR):
        with open(put(log_files.MARK + struct.pack('>II', 1, link)), 'r+b') as file:
            file.truncate(GREATEST)
        yield f'2 GB of nothing, of link type {link}', path
    with open(put(whole), 'r+b') as file:
        file.truncate(GREATEST)
    yield 'a log and 2 GB of nothing', path
    shutil.copyfile(os.path.join(source, 'told.txt'), path)
    yield 'a text', path


def by_tshark(source: str, counts: Counter[str]) -> Iterator[str]:
    """What tshark calls malformed in the logs, where it is there."""
    if not shutil.which('tshark'):
        return
    for name in names(source)[::5]:
        ran = subprocess.run(['tshark', '-r', os.path.join(source, name), '-T', 'fields', '-e', 'frame.number', '-e', '_ws.malformed'],
                             capture_output=True, text=True, timeout=60, check=False)
        rows = [line.split('\t') for line in ran.stdout.split('\n')[:-1]]
        counts['packets'] += len(rows)
        wrong = [row[0] for row in rows if row[1:] != ['']]
        if ran.returncode or not rows or wrong:
            yield f'{name}: tshark ends with {ran.returncode}, malformed are {wrong[:5]}'
