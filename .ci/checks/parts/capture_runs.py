"""Runs that go out as captures and come in again, by tools/capture_out.py and tools/capture_in.py, whose packages have to be there.

What is read of a capture that was bent must bring the program to the units of the run by its `hear` lines. Where no unit depends on
framing, these are also worked out here, by the payloads that were heard."""
import os
import random
from collections.abc import Iterable, Iterator

import air_pieces
import link_layer
from anchor_fit import Fit, Heard, Mark
from checks import TOP
from checks.parts import files
from checks.parts.bent_captures import (
    BEGIN, DRIFT, EPOCH, GROUPS, IDENT, JITTER, ORIGIN, SUBGROUP, Bent, Record, Run, records, write)
from checks.parts.corpus_captures import (
    BETWEEN, FIELDS, Captures, Counts, Units, by_tshark, captures_of_all, malformed_in, replay, said, tshark, units_of)
from checks.parts.steps import TOOLS

Results = Iterator[tuple[str, str | None]]  # what was tried, and what is wrong with it
SHIFT = 20  # us by which a fitted anchor may be wrong
# The access addresses of control and of stream 1 for the seed 0, by section 2.1.2: 42 is 0101010, 77 is 1001101.
WORKED_ADDRESSES = {0: 0x02A40000, 1: 0xFD060000}


def register_crc(pdu: bytes, start: int) -> bytes:
    """The CRC by the register of volume 6 part B, section 3.1: x^24 + x^10 + x^9 + x^6 + x^4 + x^3 + x + 1, octets from their least bit
    on, and the CRC from its greatest."""
    register = start
    for bit in (octet >> place & 1 for octet in pdu for place in range(8)):
        is_fed = register >> 23 ^ bit
        register = (register << 1 & 0xFFFFFF) ^ (0x00065B if is_fed else 0)
    return bytes(sum((register >> 23 - place - 8 * octet & 1) << place for place in range(8)) for octet in range(3))


def wrong_crcs(written: list[Record]) -> int:
    """How many packets of streams and of their control have another CRC than BaseCRCInit and the number of their stream give."""
    octets = next(octets for _, octets, _ in written if b'\x22\x2c' in octets)
    place = octets.index(b'\x22\x2c') + 2
    base = int.from_bytes(octets[place + 21:place + 23], 'little')
    numbers = [(octets, 0 if 'control;' in comment else int(comment.split(', stream ')[1].split(',')[0]))
               for _, octets, comment in written if 'control;' in comment or ', stream ' in comment]
    return sum(register_crc(octets[14:-3], base << 8 | number) != octets[-3:] for octets, number in numbers)


def taken_out(program: str, text: str, path: str, *words: str) -> list[Record]:
    files.write(path + '.scn', text)
    status, told = said('capture_out', [path + '.scn', path, '--program', program, *words])
    if status:
        raise RuntimeError(told)
    return records(path)


def taken_in(path: str, *words: str) -> tuple[str | None, str]:
    """The scenario of a capture, or what was said instead."""
    status, told = said('capture_in', [path, '--out', path + '.in', *words])
    if status:
        return None, told
    return files.text_of(path + '.in'), told


def different(run: Run, expected: Units, got: Units, base: int) -> tuple[int, str | None]:
    """In how many units what was read of a bent capture differs, and what else is wrong with it."""
    wrong = sum(one[::2] != other[::2] for one, other in zip(expected, got)) + abs(len(expected) - len(got))
    shifts = {other[1] - one[1] for one, other in zip(expected, got)}
    if wrong:
        return wrong, f'{wrong} units differ'
    if len(shifts) != 1 or abs(shifts.pop() - (EPOCH + ORIGIN * DRIFT - base)) > SHIFT:
        return wrong, 'the times are not those of the capture'
    if run.units and list(run.worked()) != [it[::2] for it in got]:
        return wrong, 'the units are not those that were worked out'
    return wrong, None


def base_of(text: str) -> int:
    return int(text.split('\n')[1].split(' ')[3])


def bent_runs(program: str, folder: str, counts: Counts) -> Results:
    """Each group out, bent, and in again, as it is, without repeats, and with the announcement followed."""
    for place, name in enumerate(GROUPS):
        draw = random.Random(place)
        run = Run(name, draw)
        written = taken_out(program, run.text, os.path.join(folder, f'run{place}'))
        expected = units_of(replay(program, run.text), '0')
        wrong = wrong_crcs(written)
        yield f'{name}: CRCs', f'{wrong} are not those of the standard' if wrong else None
        for train, words in ((run.events // 2, ()), (run.events // 3, ('--once',)), (1, ('--follow',))):
            path = os.path.join(folder, f'bent{place}')
            bent = Bent(written, draw, train)
            write(path, bent.packets, is_old=train == 1)
            text, told = taken_in(path, *words)
            what = f'{name} {" ".join(words)}'
            if text is None:
                yield what, told
                continue
            transcript = replay(program, text)
            wrong, why = different(run, expected, units_of(transcript, '0'), base_of(text))
            if run.is_ended and 'sink 0 Left' not in transcript:
                why = why or 'the end of the group was not heard'
            for key, number in (('captures', 1), ('deleted', bent.deleted), ('put', bent.put), ('units', len(expected)),
                                ('wrong', wrong)):
                counts[key] += number
            yield what, why
        if place == 0:
            yield from circles(program, folder, path, counts)
            yield from by_transcript(program, folder)
            yield from missing(program, folder, written)


def circles(program: str, folder: str, path: str, counts: Counts) -> Results:
    """What was read of a capture, written as a capture of what its sink heard, is read as the same."""
    text, _ = taken_in(path)
    again = os.path.join(folder, 'again')
    taken_out(program, text or '', again, '--ear', '0')
    other, told = taken_in(again, '--base', str(BEGIN))
    counts['captures'] += 1
    is_same = text is not None and other is not None and other.split('\n')[2:] == text.split('\n')[2:]
    yield 'in, out and in again', None if is_same else told or 'the scenarios differ'
    for place, octets in enumerate((234, 236)):
        meta = f'meta {octets + 1:02x}03{"41" * octets}'
        lines = ['scenario 1', f'group unframed {ORIGIN} 40000 8 10000 4 4 1 1 1 1 0 0 0 1', IDENT, 'subgroup 0600000000 -', meta]
        lines += ['bis 1 -', 'start 0', 'event', 'end', '']
        path = os.path.join(folder, 'again' if place else 'run9')
        taken_out(program, '\n'.join(lines), path)
        text, told = taken_in(path)
        yield 'a BASE that is continued', None if text and meta in text.split('\n') else told or 'the BASE differs'


def by_transcript(program: str, folder: str) -> Results:
    """An example whose `sniff` lines print all PDUs is the same capture by its transcript as by a run."""
    example, path = os.path.join(TOP, 'examples', 'framed'), os.path.join(folder, 'again')
    said('capture_out', [example + '.scn', path, '--program', program])
    by_run = records(path)
    status, told = said('capture_out', [example + '.scn', path, '--transcript', example + '.out'])
    yield 'a transcript', None if status == 0 and records(path) == by_run else told or 'it differs'
    status, _ = said('capture_out', [example + '.scn', path, '--transcript', os.path.join(TOP, 'examples', 'stereo.out')])
    yield 'the transcript of another scenario', None if status == 1 else 'it is not refused'


def missing(program: str, folder: str, written: list[Record]) -> Results:
    """What can't be taken is named."""
    path = os.path.join(folder, 'missing')

    def changed(old: str, new: str) -> list[Record]:
        return [(time, octets.replace(bytes.fromhex(old), bytes.fromhex(new)), comment) for time, octets, comment in written]

    def without(words: str) -> list[Record]:
        return [it for it in written if words not in it[2]]

    cases = [
        ('an AUX_ADV_IND with SyncInfo', without('leads to')), ('an AUX_SYNC_IND with a good CRC', without('train for event')),
        ('an AUX_SYNC_IND with a BIGInfo', changed('222c', '222d')), ('an AUX_SYNC_IND with a BASE', changed('165118', '165218')),
        ('the Broadcast_ID', changed('06165218', '06165118')), ('a PDU of its streams', without(', stream ')),
    ]
    for told, packets in cases:
        write(path, packets)
        text, why = taken_in(path)
        yield f'without {told}', None if text is None and told in why else f'it says: {why}'
    write(path, written, link_type=251)
    yield 'of another link type', None if 'of link type 251' in taken_in(path)[1] else 'it is not named'
    yield 'no capture', None if 'neither pcap' in taken_in(os.path.join(folder, 'run0.scn'))[1] else 'it is not named'
    for example, told in (('encrypted', 'is encrypted'), ('two-sources', 'choose one')):
        taken_out(program, files.text_of(os.path.join(TOP, 'examples', example + '.scn')), path)
        yield example, None if told in taken_in(path)[1] else 'it is not named'


def in_pieces(program: str, folder: str) -> Results:
    """A text that has no room for the `sniff` lines of all its PDUs is the same capture by several runs; without any room it goes out
    too, and what is left out is counted."""
    draw, path = random.Random(9), os.path.join(folder, 'pieces')
    for name in ('early copies', 'framed, interleaved'):
        text = Run(name, draw).text
        whole = taken_out(program, text, path)
        lines = sum(len(line) + 1 for line in text.split('\n') if line.split(' ')[0] in ('unit', 'event', 'group'))
        for room in (2000, 311):
            cut, air_pieces.GREATEST_TEXT = air_pieces.GREATEST_TEXT, lines + room
            try:
                yield f'{name}, in pieces', None if taken_out(program, text, path) == whole else 'the capture differs'
            finally:
                air_pieces.GREATEST_TEXT = cut
        cut, air_pieces.GREATEST_TEXT = air_pieces.GREATEST_TEXT, lines // 2
        try:
            status, told = said('capture_out', [path + '.scn', path, '--program', program])
        finally:
            air_pieces.GREATEST_TEXT = cut
        yield f'{name}, without room', None if status == 0 and 'has no room' in told else told


def greatest_group(program: str, folder: str) -> Results:
    """31 streams of 31 subevents, whose `sniff` lines have no room in one text: each PDU goes out, and all are placed again."""
    path, events = os.path.join(folder, 'greatest'), 6
    lines = ['scenario 2', f'group unframed {ORIGIN} 40000 200 250000 1 1 31 1 31 15 1 250 7750 1', IDENT, SUBGROUP]
    lines += [f'bis {it} -' for it in range(1, 32)] + ['start 0'] + ['event'] * events + ['end', '']
    cut, air_pieces.GREATEST_TEXT = air_pieces.GREATEST_TEXT, 30000
    try:
        written = taken_out(program, '\n'.join(lines), path)
    finally:
        air_pieces.GREATEST_TEXT = cut
    pdus = sum(', stream ' in comment for _, _, comment in written)
    text, told = taken_in(path)
    placed = 0 if text is None else text.count('\ninject ')
    yield 'the greatest group', None if pdus == placed == events * 31 * 31 else f'{pdus} PDUs are out, and {placed} in again: {told}'


def addresses_by_tshark(folder: str, captures: Captures, counts: Counts) -> Results:
    """The access addresses of the streams that tshark works out from each BIGInfo are those of the capture. Behind all packets comes one
    that is broken, which tshark must find."""
    path, packets, addresses = os.path.join(folder, 'all'), [], set()
    for place, (_, capture) in enumerate(captures):
        for time, octets, comment in records(capture)[:400]:
            packets.append((time + place * 1000000000, octets))
            if ', stream ' in comment:
                addresses.add(int.from_bytes(octets[10:14], 'little'))
    announcement = next(octets for _, octets in reversed(packets) if b'\x22\x2c' in octets)
    packets.append((packets[-1][0] + 1, announcement.replace(b'\x22\x2c', b'\x72\x2c')))
    write(path, packets)
    told = tshark(path, *FIELDS, 'btcommon.eir_ad.entry.biginfo.bis_access_address')
    severe = malformed_in(told)
    yield f'tshark: {len(packets)} packets', None if len(told) == len(packets) and severe == [len(packets) - 1] else (
        f'{len(told)} packets, malformed are those at {severe}, not the last alone')
    worked = {int(it, 0) for *_, listed in told for it in listed.split(BETWEEN) if it}
    yield f'tshark: {len(addresses)} access addresses', None if addresses and addresses <= worked else 'they differ from those worked out'
    counts['packets by tshark'] += len(packets)


def fits() -> Results:
    """PDUs that are placed by their times alone: none wrong, and none left out, with gaps of 20 and 40 s and a clock that jumps."""
    cases = [
        ('a gap of 40 s', {'iso': 8, 'nse': 3, 'sub': 600, 'spacing': 1800}, 4800, (400, 4400), {100}, 0),
        ('a gap of 40 s before the BIGInfo', {'iso': 8, 'nse': 6, 'sub': 240, 'spacing': 1500}, 4800, (300, 4300), {4500}, 0),
        ('a gap of 20 s before the clocks were compared', {'iso': 8, 'nse': 2, 'sub': 400, 'spacing': 900}, 2300, (30, 2030), {0}, 0),
        ('a gap of an hour, then a BIGInfo', {'iso': 8, 'nse': 2, 'sub': 400, 'spacing': 900}, 360300, (200, 360200), {0, 360199}, 0),
        ('a clock that jumps', {'iso': 24, 'nse': 4, 'sub': 1000, 'spacing': 250}, 400, (0, 0), {5, 200}, 5432),
    ]
    for place, (name, info, events, (low, high), marked, jump) in enumerate(cases):
        draw = random.Random(place)
        length, marks, places = info['iso'] * 1250 * (1 - DRIFT if place % 2 else 1 + DRIFT), [], {}
        for event in (it for it in range(events) if not low <= it < high or it in marked):
            anchor = EPOCH + event * length + (jump if event >= 200 else 0)
            if event in marked:
                time = anchor - 3000 - draw.uniform(0, 300)
                marks.append(Mark(time, event, time + 3000, time + 3300))
            for stream, subevent in ((stream, subevent) for stream in (1, 2) for subevent in range(info['nse'])):
                if draw.random() < 0.4:
                    time = anchor + (stream - 1) * info['spacing'] + subevent * info['sub'] + draw.uniform(-JITTER, JITTER)
                    places[Heard(time, stream, b'')] = event, subevent
        fit = Fit(info, marks, list(places))
        wrong = sum(places[it.heard] != (it.event, it.subevent) for it in fit.placed)
        left = len(places) - len(fit.placed)
        yield name, f'of {len(places)} PDUs {wrong} are in a wrong place, {left} in none' if wrong or left else None


def guarded(name: str, results: Iterable[tuple[str, str | None]]) -> Results:
    """The results; a step that fails is one more, and what comes behind it goes on."""
    try:
        yield from results
    except Exception as error:
        yield name, f'{type(error).__name__}: {error}'


def all_results(program: str, folder: str, counts: Counts) -> Results:
    is_right = all(link_layer.stream_address(0, number) == address for number, address in WORKED_ADDRESSES.items())
    yield 'access addresses', None if is_right else 'they are not those of the standard'
    captures: Captures = []
    yield from guarded('fits', fits())
    yield from guarded('bent runs', bent_runs(program, folder, counts))
    yield from guarded('in pieces', in_pieces(program, folder))
    yield from guarded('the greatest group', greatest_group(program, folder))
    yield from guarded('all scenarios', captures_of_all(program, folder, counts, captures))
    if TOOLS['tshark'].is_there():
        runs = [(f'run{place}', os.path.join(folder, f'run{place}')) for place in [*range(len(GROUPS)), 9]]
        runs += [it for it in captures if it[0].startswith('examples')]
        yield from guarded('tshark', addresses_by_tshark(folder, runs, counts))
        yield from guarded('tshark', by_tshark(captures, folder, counts))
