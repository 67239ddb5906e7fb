"""The notes of `explain`."""
import math
import re
import subprocess
from collections import Counter
from collections.abc import Iterator, Sequence

from checks.parts import comparing, scenarios
from checks.parts.mistakes import BASE, DOCUMENTS, HEARD, MISTAKES, OTHER, RECORD, SECOND, WANTED
from checks.parts.running import run
from checks.parts.steps import Faults, step

LONGEST = 120  # seconds for a text
STREAM = 'stream 1 of subgroup 0 is not taken: '
# Broadcast_ID 000000, and a BASE of one subgroup of LC3 with stream 1 and no value.
TRAIN = 'train 0 17000 06165218000000 11165118409c000101060000000000000100'
# A BIGInfo: its first 32 bits are 100 of offset in 14, the unit of that, ISO = 3 in 12, and NUMBIS = 2 in 5.
SHORT_ISO = '222c64800110' + '21000000080710640000000000102740060000ffffffff3f0000000000'
# a BASE of the two streams, and a BIGInfo of ISO = 8 and NUMBIS = 1
BASE_OF_TWO = '29165118409c0001' + '02' + '0600000000' + '0a02010802020103046400' + '00' + '0106050301000000' + '0206050302000000'
ONE_BIS = '222c64000408' + '21000000080710640000000000102740060000ffffffff3f0000000000'
# octets that are no BASE, and what is wrong with them: three octets of delay, subgroups, and in each Num_BIS, a codec and two lists
BAD_BASES = [
    ('409c', 'the octets end within the field that begins at octet 0'),
    ('409c0000', 'Num_Subgroups, octet 3, is 0'),
    ('409c0001000600000000' + '0000', 'Num_BIS of a subgroup is 0, at octet 4'),
    ('409c0001010600000000' + '0000' + '2000', 'BIS_index is not from 1 to 31, at octet 12'),
    ('409c0001020600000000' + '0000' + '01000100', 'BIS_index stands before, at octet 14'),
    ('409c0001010600000000' + '0100' + '00' + '0100', 'what begins at octet 11 is no LTV list: a length is 0, at its octet 0'),
    ('409c0001010600000000' + '0105' + '00' + '0100', 'what begins at octet 11 is no LTV list: a length passes its end, at its octet 0'),
    ('409c0001010600000000' + '0000' + '010000', 'octets follow the BASE, from octet 14'),
]
JOINED = [*HEARD, RECORD, 'add 0 0 000000000000 0 000000 2 65535 ffffffff -', 'serve 0', 'announce 0']
# an answer to a train, its lines, and words of a note that has the values that were compared
COMPARED = [
    ('NotWanted', [*HEARD[:-2], 'ident 1 0102030405c6 9 aabbcc', *HEARD[-2:], *WANTED], 'the train has TYPE 1 SID 9 ID aabbcc'),
    ('no slot', [*HEARD, 'announce 0', 'end'], 'the train has TYPE 0 SID 0 ID 000000'),
    ('a slot for another', [*HEARD, *[it.replace(' 0 000000 2', ' 5 0a0b0c 2') for it in WANTED]],
     'slot 0 has TYPE 0 SID 5 ID 0a0b0c and is for another train'),
    ('a slot without a wish', [*HEARD, *[it.replace(' 2 65535', ' 0 65535') for it in WANTED]],
     'slot 0 has TYPE 0 SID 0 ID 000000 and PA 0'),
    ('OtherTrain', [*HEARD[:-1], *SECOND, 'sink 0 2 2', RECORD, 'source 0', *WANTED[:-1], 'source 1', *OTHER],
     'the train has TYPE 0 SID 1 ID 010000'),
    ('OtherTrain and the one followed', [*HEARD[:-1], *SECOND, 'sink 0 2 2', RECORD, 'source 0', *WANTED[:-1], 'source 1', *OTHER],
     'the sink is on that of TYPE 0 SID 0 ID 000000'),
    ('OtherTrain behind `tuned`', [*HEARD, 'tuned 0 1', *WANTED], 'the sink is on a group by `tuned`'),
    ('AlreadyOnGroup', [*JOINED, 'announce 0', 'end'], 'the train has TYPE 0 SID 0 ID 000000'),
    ('BadBigInfo', [*HEARD, RECORD, *WANTED[:2], f'{TRAIN} 042c010203', 'end'], 'the structure has 3 octets'),
    ('BadGroup', [*HEARD, RECORD, *WANTED[:2], f'{TRAIN} {SHORT_ISO}', 'end'], 'here ISO is 3 and NUMBIS 2'),
    ('an encrypted group', [*HEARD[:-2], 'cipher 0000000000000000 00000000000000000000000000000000', *HEARD[-2:], RECORD, *WANTED],
     'Encrypted: the group has a `cipher`'),
    ('OnGroup', [*JOINED, 'end'], 'stream 1 of subgroup 0 is taken: a record fits, and the slot wants it; '
     'here codec 0600000000 locations 01000000 and 00000000 contexts 0400 and ffff'),
    ('a stream beside the ear', [*HEARD, RECORD, 'locate 0 01000000', *WANTED], 'stream 2 of subgroup 0 is not taken: Location: '
     'its locations and those of `locate` share no bit: another ear; here 02000000 and 01000000'),
    *[(f'BadBase {octets}', [*HEARD, RECORD, *WANTED[:2],
                             f'train 0 17000 06165218000000 {len(octets) // 2 + 3:02x}165118{octets} -', 'end'], words)
      for octets, words in BAD_BASES],
    ('a stream above NUMBIS', [*HEARD, RECORD, *WANTED[:2], f'train 0 17000 06165218000000 {BASE_OF_TWO} {ONE_BIS}', 'end'],
     'stream 2 of subgroup 0 is not taken: a record fits, but it is above NUMBIS, which is 1'),
    ('Codec', [*HEARD, 'pac 0 ff01000200 - -', *WANTED], f'{STREAM}Codec: CODEC of its subgroup is not that of the record; '
     'here 0600000000 and ff01000200'),
    ('Frequency', [*HEARD, RECORD.replace('03018000', '03010700'), *WANTED], 'here 8 and 0700'),
    ('no frequencies', [*HEARD, 'pac 0 0600000000 - -', *WANTED], 'here 8 and -'),
    ('Duration', [*HEARD, RECORD.replace('020202', '020201'), *WANTED], 'here 1 and 01'),
    ('FrameOctets', [*HEARD, RECORD.replace('64006400', '1a003c00'), *WANTED], 'here 100 and 26 to 60'),
    ('Channels', [*HEARD, RECORD.replace(' -', '020302 -'), *WANTED], 'here 1 and 02'),
    ('FramesPerSdu', [line.replace('03046400', '03046400020502') for line in HEARD] + [RECORD.replace(' -', '020501 -'), *WANTED],
     'here 2 and 1'),
    ('Location', [*HEARD, RECORD, 'locate 0 04000000', *WANTED], 'here 01000000 and 04000000'),
    ('Context', [*HEARD, RECORD, 'context 0 0200 0000', *WANTED], 'here 0400 and 0200'),
    ('the context of no meta', [it for it in HEARD if it != BASE[1]] + [RECORD, 'context 0 0200 0000', *WANTED], 'here 0100 and 0200'),
]


def slot_note(time: int, anchor: int, sync: int, slot: int, sdu: int, delay: int, told: str) -> str:
    """The note of an unframed unit that has the sum of its time, and when it is handed up."""
    return (f'unit 0 1 at {time}: anchor {anchor} + BIG_Sync_Delay {sync} + {slot} x SDU_Interval {sdu} + Presentation_Delay {delay}; '
            f'handed up by {told}')


def framed_note(time: int, own: int, told: str) -> str:
    """The same of a framed unit of the group below."""
    return (f'unit 0 1 at {time}: unit time {own} + BIG_Sync_Delay 124 + SDU_Interval 10000 + ISO_Interval 10000 '
            f'+ Presentation_Delay 40000; '
            f'handed up by {told}')


# A unit takes two PDUs, a payload each: those of event e are 2e and 2e + 1. 20000 + 400 + (4 + 11) x 4 + 40000 = 60460.
HALVES = ['scenario 1', 'group unframed 20000 40000 8 10000 8 4 1 2 2 1 0 400 0 1', 'sink 0 1 1', 'start 0', 'tuned 0 1']
# The payload of event e is sent in subevent 2 of e - 1 and in the subevents 0 and 1 of e: 20000 + 2 x 400 + 60 + 40000 = 60860.
COPIES = ['scenario 1', 'group unframed 20000 40000 8 10000 4 4 1 1 3 2 1 400 0 1', 'sink 0 1 1', 'start 0', 'tuned 0 1']
# Two units an event, which are rendered at once: 20000 + 400 + 60, and 5000 later. The next anchor is 30000.
AT_ONCE = ['scenario 1', 'group unframed 20000 0 8 5000 4 4 1 2 2 1 0 400 0 1', 'sink 0 1 1', 'start 0', 'tuned 0 1']
# A unit comes at its time + (20 + 11) x 4 + 10000 + 10000 + 40000, and a PDU has room for two short ones.
FRAMED = ['scenario 1', 'group framed 70000 40000 8 10000 20 20 1 1 1 1 0 0 0 1', 'sink 0 1 1', 'start 0', 'tuned 0 1']
# a run, its lines, and all notes of its units and their counts
UNITS = [
    ('the second half of a unit', [*HALVES, 'unit 1 - 0011223344', 'event', 'hear 0 0 1 0', 'event', 'stop', 'end'], [
        'unit 0 1 at 60460: source 0 event 0 slot 0',
        'unit 0 1 at 60460: payload 1 was not heard, sent in event 0 subevent 1',
        slot_note(60460, 20000, 460, 0, 10000, 40000, '30000 us, 30460 us in time'),
        'unit 0 1 at 70460: source 0 event 1 slot 0, for which no unit was given',
        slot_note(70460, 30000, 460, 0, 10000, 40000, '40000 us, 30460 us in time'),
        'sink 0 stream 1 of source 0: units 0 valid, 1 lost, 0 never begun, 1 slots without a unit; '
        'PDUs 1 heard, 0 repeated, 0 late, 3 missed']),
    ('a short unit without its padding', [*HALVES, 'unit 1 - 00', 'event', 'hear 0 0 1 0', 'end'], [
        'unit 0 1 at 60460: source 0 event 0 slot 0',
        slot_note(60460, 20000, 460, 0, 10000, 40000, '30000 us, 30460 us in time'),
        'sink 0 stream 1 of source 0: units 1 valid, 0 lost, 0 never begun, 0 slots without a unit; '
        'PDUs 1 heard, 0 repeated, 0 late, 1 missed']),
    ('a payload of three PDUs', [*COPIES, 'unit 1 - 00', 'unit 1 - 11', 'event', 'air 0 0', 'event', 'hear 0 1 1 0', 'event', 'air 0 3',
                                 'drop 0', 'end'], [
        'unit 0 1 at 60860: source 0 event 0 slot 0',
        slot_note(60860, 20000, 860, 0, 10000, 40000, '30000 us, 30860 us in time'),
        'unit 0 1 at 70860: source 0 event 1 slot 0',
        slot_note(70860, 30000, 860, 0, 10000, 40000, '40000 us, 30860 us in time'),
        'sink 0 stream 1 of source 0: units 2 valid, 0 lost, 0 never begun, 0 slots without a unit; '
        'PDUs 3 heard, 2 repeated, 1 late, 4 missed']),
    ('an early copy that was missed too', [*COPIES, 'unit 1 - 00', 'unit 1 - 11', 'event', 'hear 0 0 1 1', 'event', 'end'], [
        'unit 0 1 at 60860: source 0 event 0 slot 0',
        slot_note(60860, 20000, 860, 0, 10000, 40000, '30000 us, 30860 us in time'),
        'unit 0 1 at 70860: source 0 event 1 slot 0',
        'unit 0 1 at 70860: payload 1 was not heard, sent in event 0 subevent 2 and event 1 subevent 0 and event 1 subevent 1',
        slot_note(70860, 30000, 860, 0, 10000, 40000, '40000 us, 30860 us in time'),
        'sink 0 stream 1 of source 0: units 1 valid, 1 lost, 0 never begun, 0 slots without a unit; '
        'PDUs 1 heard, 0 repeated, 0 late, 5 missed']),
    ('two starts in a PDU that was missed', [*FRAMED, 'unit 1 65000 a0', 'unit 1 66000 b0', 'event', 'event', 'air 0 0', 'end'], [
        'unit 0 1 at 125124: never begun, source 0 event 0 start in payload 0',
        'unit 0 1 at 125124: payload 0 was not heard, sent in event 0 subevent 0',
        'unit 0 1 at 126124: never begun, source 0 event 0 start in payload 0',
        'unit 0 1 at 126124: payload 0 was not heard, sent in event 0 subevent 0',
        'sink 0 stream 1 of source 0: units 0 valid, 0 lost, 2 never begun, 0 slots without a unit; '
        'PDUs 1 heard, 0 repeated, 0 late, 1 missed']),
    ('the end of a framed unit', [*FRAMED, 'unit 1 65000 ' + 20 * 'c0', 'event', 'air 0 0', 'event', 'event', 'end'], [
        'unit 0 1 at 125124: source 0 event 0 start in payload 0',
        'unit 0 1 at 125124: payload 1 was not heard, sent in event 1 subevent 0',
        framed_note(125124, 65000, '90000 us, 35124 us in time'),
        'sink 0 stream 1 of source 0: units 0 valid, 1 lost, 0 never begun, 0 slots without a unit; '
        'PDUs 1 heard, 0 repeated, 0 late, 2 missed']),
    ('units that are rendered before they are handed up', [*AT_ONCE, 'unit 1 - 00', 'event', 'air 0 0', 'end'], [
        'unit 0 1 at 20460: source 0 event 0 slot 0',
        slot_note(20460, 20000, 460, 0, 5000, 0, '30000 us, 9540 us late'),
        'unit 0 1 at 25460: source 0 event 0 slot 1, for which no unit was given',
        slot_note(25460, 20000, 460, 1, 5000, 0, '30000 us, 4540 us late'),
        'sink 0 stream 1 of source 0: units 1 valid, 0 lost, 0 never begun, 1 slots without a unit; '
        'PDUs 2 heard, 0 repeated, 0 late, 0 missed']),
    ('octets in the place of a PDU', [*FRAMED, 'unit 1 65000 a0', 'event', 'inject 0 0 1 0 0200', 'event', 'end'], [
        'sink 0 stream 1 of source 0: units 0 valid, 0 lost, 0 never begun, 0 slots without a unit; '
        'PDUs 1 heard, 0 repeated, 0 late, 1 missed']),
]
SUMMED = re.compile(rb'  # unit (\d) (\d+) at (\d+): (?:anchor|unit time) (.*); handed up by (\d+) us, (\d+) us (in time|late)')
PLACED = re.compile(rb'  # unit (\d) (\d+) at (\d+): source \d')
COUNTED = re.compile(rb'  # sink (\d) stream (\d+) of source \d: units (\d+) valid, (\d+) lost, \d+ never begun, (\d+) slots')
# a name, the words, the text, what is written, the exit status, and what is said on standard error
ENDS: list[tuple[str, list[str | bytes], bytes, bytes, int, bytes]] = [
    ('a word', ['--migrate'], b'scenario 1\nend\n', b'', 2, b'usage: explain [--toml]\n'),
    ('two words', ['--toml', '--toml'], b'version = 1\nsteps = []\n', b'', 2, b'usage: explain [--toml]\n'),
    ('a word that is no text', [b'\xff'], b'', b'', 2, b'usage: explain [--toml]\n'),
    ('a document', ['--toml'], b'steps = ["end"]\nversion = 1\n', b'1 scenario 1\n2 end\n', 0, b''),
    ('a document without `end`', ['--toml'], b'steps = []\nversion = 1\n', b'1 scenario 1\n  line 2: NoEnd\n', 1, b''),
    ('a document that is none', ['--toml'], b'version = 1\n', b'  line 0: BadDocument\n'
     b'  # the key steps is missing: expected an array of texts, each a line\n', 1, b''),
    ('a document that is too long', ['--toml'], b'#' * 1048577,
     b'  line 0: TextTooLong\n  # the document has more than 1048576 octets\n', 1, b''),
    ('a mark', [], b'# a note\n\nscenario 1\nend\n', b'1 # a note\n2 \n3 scenario 1\n4 end\n', 0, b''),
    ('a refusal', [], b'scenario 1\nend\nend\n', b'1 scenario 1\n2 end\n3 end\n  line 3: AfterEnd\n  # a step follows `end`\n', 1, b''),
    ('no octet', [], b'', b'  line 1: NoEnd\n', 1, b''),
]


def told(octets: bytes) -> bytes:
    """The rows of the transcript in an explanation, without their blanks."""
    rows = octets.split(b'\n')
    kept = [it[3:] if it.startswith(b'  ##') else it[2:] for it in rows if it.startswith(b'  ') and not it.startswith(b'  # ')]
    return b'\n'.join(kept) + (b'\n' if kept and octets.endswith(b'\n') else b'')


def lines_in(octets: bytes) -> list[bytes] | None:
    """The lines in an explanation, without their numbers, or None where the numbers don't count them."""
    rows = [it for it in octets.split(b'\n')[:-1] if not it.startswith(b'  ')]
    numbered = [it.partition(b' ') for it in rows]
    return [it[2] for it in numbered] if [it[0] for it in numbered] == [b'%d' % (place + 1) for place in range(len(rows))] else None


def is_sum(time: bytes, terms: bytes, close: bytes, count: bytes, word: bytes) -> bool:
    """Whether the terms of a note make this time, which is so much before or behind the close."""
    numbers = [[int(it) for it in term.split(b' ') if it.isdigit()] for term in terms.split(b' + ')]
    ahead = int(time) - int(close)
    return sum(map(math.prod, numbers)) == int(time) and (abs(ahead), ahead < 0) == (int(count), word == b'late')


def notes_differ(octets: bytes, is_done: bool) -> str | None:
    """What of the notes of units differs from their rows, or None. Only a run that is done counts all of them."""
    rows = octets.split(b'\n')
    units = [it.split(b' ')[2:7] for it in rows if it.startswith(b'  unit ')]
    placed = [match.groups() for match in map(PLACED.match, rows) if match]
    if placed != [(sink, stream, time) for _, sink, stream, _, time in (it[:5] for it in units)]:
        return f'its notes are of the units {placed}'
    sums = [match.groups() for match in map(SUMMED.fullmatch, rows) if match]
    if [it[:3] for it in sums] != [match.groups() for match in map(PLACED.match, rows) if match and b' by octets ' not in match.string]:
        return f'its sums are of the units {sums}'
    wrong = [it for it in sums if not is_sum(*it[2:])]
    if wrong:
        return f'no sums are {wrong}'
    wanted: Counter[tuple[bytes, ...]] = Counter()
    counts: Counter[tuple[bytes, ...]] = Counter()
    for row in rows:
        words, match = row.split(b' '), COUNTED.match(row)
        if row.startswith(b'  unit '):
            wanted[words[3], words[4], words[7]] += 1
        elif match:
            sink, stream, valid, *others = match.groups()
            counts[sink, stream, b'valid'] += int(valid)
            counts[sink, stream, b'lost'] += sum(map(int, others))
    return f'its counts are {+counts}, not {wanted}' if is_done and +counts != wanted else None


def lines_differ(explain: str, text: bytes, words: Sequence[str], got: bytes, is_done: bool) -> str | None:
    """How the lines of an explanation differ from those of the text, or None. A document is explained as the lines are that it stands for;
    of these one that is too long isn't told."""
    lines, lent = lines_in(got), text.split(b'\n')
    if lines is None:
        return 'its lines are not numbered'
    if words:
        again = run(explain, b''.join(it + b'\n' for it in lines), patience=LONGEST).stdout if lines else got
        return None if again == got or b': LineTooLong\n' in got else f'its lines are explained by {again[-300:]!r}'
    if lines != lent[:len(lines)] or is_done and lines != lent[:-1] + [it for it in lent[-1:] if it]:
        return 'its lines are not those of the text'
    return None


def difference(replay: str, explain: str, text: bytes, words: Sequence[str]) -> str | None:
    """What differs, or None."""
    try:
        wanted, got = (run(it, text, words, patience=LONGEST) for it in (replay, explain))
    except (OSError, subprocess.TimeoutExpired) as error:
        return str(error)
    if (got.returncode, got.stderr) != (wanted.returncode, wanted.stderr):
        return f'status {got.returncode} {got.stderr!r}, not {wanted.returncode} {wanted.stderr!r}'
    if told(got.stdout) != wanted.stdout:
        return f'tells {told(got.stdout)[-300:]!r}, not {wanted.stdout[-300:]!r}'
    is_done = wanted.returncode == 0
    return lines_differ(explain, text, words, got.stdout, is_done) or notes_differ(got.stdout, is_done)


def notes_of(explain: str, lines: list[str]) -> list[str]:
    """The rows that `explain` writes of a scenario."""
    return rows_of(explain, '\n'.join([*lines, '']))


def rows_of(explain: str, text: str, words: Sequence[str] = ()) -> list[str]:
    """The rows that `explain` writes of a text."""
    return run(explain, text.encode(), words).stdout.decode().split('\n')


def mistakes(explain: str) -> Iterator[str]:
    """Each mistake that has not its note, and each answer to a train of which no note has what was compared."""
    told_of: list[tuple[str, list[str], str]] = [(name, notes_of(explain, lines), note) for name, lines, note in MISTAKES]
    told_of += [(name, rows_of(explain, document, ['--toml']), note) for name, document, note in DOCUMENTS]
    for name, got, note in told_of:
        if f'  # {note}' not in got:
            yield '\n'.join([f'{name}: no note is {note!r}:', *got])
    for name, lines, words in COMPARED:
        got = notes_of(explain, lines)
        if not any(row.startswith('  # ') and words in row for row in got):
            yield '\n'.join([f'{name}: no note has {words!r}:', *got])


def unit_notes(explain: str) -> Iterator[str]:
    """Each run whose notes of units are others."""
    for name, lines, wanted in UNITS:
        notes = [row[4:] for row in notes_of(explain, lines) if row.startswith(('  # unit ', '  # sink 0 stream '))]
        if notes != wanted:
            yield f'{name}: the notes are {notes}'


def ends(explain: str) -> Iterator[str]:
    """Each end that differs."""
    for name, words, text, written, status, said in ENDS:
        got = run(explain, text, words)
        if (got.stdout, got.returncode, got.stderr) != (written, status, said):
            yield f'{name}: {got.stdout!r} {got.returncode} {got.stderr!r}'
    with open('/dev/full', 'wb') as full:
        filled = subprocess.run([explain], input=b'scenario 1\nend\n', stdout=full, stderr=subprocess.PIPE, timeout=LONGEST, check=False)
    if (filled.returncode, filled.stderr) != (4, b'write fault\n'):
        yield f'a full device: {filled.returncode} {filled.stderr!r}'


@step(seconds=8)
def check(replay: str, explain: str) -> Faults:
    """Of the examples, the worked rows and the corpus `explain` tells the rows that `replay` writes and each line with its number, and ends
    as it does; each `unit` row has its notes, the sum in them is its time, and the counts at the end are those of the rows. It tells
    documents as the lines that they stand for. Mistakes have the notes that are meant, answers to trains what was compared, and the
    program's ends are tried."""
    found = list(scenarios.told_runs())
    yield from comparing.each(found, lambda it: difference(replay, explain, it.text, it.words))
    yield from mistakes(explain)
    yield from unit_notes(explain)
    yield from ends(explain)
    mistaken = f'{len(MISTAKES)} mistakes, {len(DOCUMENTS)} in documents, {len(COMPARED)} trains'
    return f'{len(found)} scenarios and documents, {mistaken}, {len(UNITS)} runs and {len(ENDS) + 1} ends'
