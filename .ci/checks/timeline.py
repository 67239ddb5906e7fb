"""Pages of runs, by what they embed."""
import os
import re
import tempfile
from collections import Counter
from collections.abc import Iterator
from typing import Any

from checks.parts import comparing, scenarios
from checks.parts.files import text_of as page_text
from checks.parts.page_runs import Data, explained, rows_of, run_of, text_of
from checks.parts.running import Outcome, closed_tool, tool
from checks.parts.scenarios import Scenario
from checks.parts.steps import Faults, step
from timeline_data import column, data_of, kept_marks, read_run
from timeline_page import page_of
from timeline_reading import OCTETS, RunFault, read_lines
from timeline_run import Mark, Run, Unit

Pdus = list[tuple[Any, ...]]  # payload, event, subevent, when it is sent, and what it was to the sink
Missed = dict[int, list[tuple[int, ...]]]  # the events and subevents in which a payload was sent
Told = tuple[int, ...]  # the line that told a unit, its sink, its stream and its time
Counts = Counter[tuple[int, int, int, str]]  # by sink, source, stream and fate
MOST_OCTETS = 1000000  # of the page of 3 s of stereo
HEARD = ('heard', 'injected')
MISSED = re.compile(r'unit (\d) (\d+) at (\d+): payload (\d+) was not heard, sent in event (.*)')
COUNTED = re.compile(r'sink (\d) stream (\d+) of source (\d): units (\d+) valid, (\d+) lost, (\d+) never begun, (\d+) slots')

# Of each example its units: the sink and the stream, when it is rendered, its fate, the line that gave it, and its PDUs as payload, event,
# subevent, when it is sent, and what it was to the sink.
UNITS = {
    # An anchor is at 20000 + 10000 x event, the longest PDU of 4 octets takes (4 + 11) x 4 = 60 on LE 2M, and the delay is 40000.
    'whole-life': [
        ('0, stream 1', 60060, 'valid', 17, [(0, 0, 0, 20000, 'heard')]),
        ('0, stream 1', 70060, 'lost', 20, [(1, 1, 0, 30000, 'missed')]),
    ],
    # Each payload is sent twice, 2000 apart, and a PDU takes (100 + 11) x 4 = 444: a unit comes 42444 behind its anchor.
    'two-sources': [
        ('0, stream 1', 62444, 'valid', 14, [(0, 0, 0, 20000, 'heard'), (0, 0, 1, 22000, 'repeated')]),
        ('1, stream 1', 67444, 'valid', 19, [(0, 0, 0, 25000, 'heard'), (0, 0, 1, 27000, 'repeated')]),
        ('0, stream 1', 77444, 'valid', 20, [(1, 1, 0, 35000, 'heard'), (1, 1, 1, 37000, 'repeated')]),
        ('1, stream 1', 77444, 'lost', 20, [(1, 1, 0, 35000, 'missed'), (1, 1, 1, 37000, 'missed')]),
    ],
    # Two units an event, each in a subevent of its own, 400 apart; stream 2 is 1000 behind stream 1. 1000 + 400 + 60 is the delay of a BIG.
    'stereo': [
        ('0, stream 1', 61460, 'valid', 10, [(0, 0, 0, 20000, 'heard')]),
        ('0, stream 1', 66460, 'valid', 11, [(1, 0, 1, 20400, 'heard')]),
        ('0, stream 2', 61460, 'valid', 12, [(0, 0, 0, 21000, 'heard')]),
        ('0, stream 2', 66460, 'valid', 13, [(1, 0, 1, 21400, 'heard')]),
        ('1, stream 2', 61460, 'lost', 12, [(0, 0, 0, 21000, 'missed')]),
        ('1, stream 2', 66460, 'valid', 13, [(1, 0, 1, 21400, 'heard')]),
    ],
    # A unit comes at its time + 124 for a PDU + SDU 10000 + ISO interval 10000 + delay 40000. Two starts were not heard.
    'framed-losses': [
        ('0, stream 1', 125124, 'valid', 9, [(0, 0, 0, 70000, 'heard')]),
        ('0, stream 1', 135124, 'unbegun', 13, [(1, 1, 0, 80000, 'missed')]),
        ('0, stream 1', 145124, 'lost', 17, [(2, 2, 0, 90000, 'heard'), (3, 3, 0, 100000, 'missed')]),
        ('0, stream 1', 155124, 'unbegun', 22, [(3, 3, 0, 100000, 'missed')]),
        ('0, stream 1', 165124, 'valid', 27, [(4, 4, 0, 110000, 'heard')]),
    ],
    # Subevent 2 carries the payload of the next event, and subevent 3 that of the one behind it. Sink 1 joins for event 1.
    'early-copies': [
        ('0, stream 1', 61260, 'lost', 9, [(0, 0, 0, 20000, 'missed'), (0, 0, 1, 20400, 'missed')]),
        ('0, stream 1', 71260, 'lost', 10, [(1, 0, 2, 20800, 'missed'), (1, 1, 0, 30000, 'missed'), (1, 1, 1, 30400, 'missed')]),
        ('1, stream 1', 71260, 'lost', 10, [(1, 0, 2, 20800, 'before it joined'), (1, 1, 0, 30000, 'missed'), (1, 1, 1, 30400, 'missed')]),
        ('0, stream 1', 81260, 'valid', 11, [(2, 0, 3, 21200, 'heard'), (2, 1, 2, 30800, 'missed'), (2, 2, 0, 40000, 'missed'),
                                             (2, 2, 1, 40400, 'missed')]),
        ('1, stream 1', 81260, 'lost', 11, [(2, 0, 3, 21200, 'before it joined'), (2, 1, 2, 30800, 'missed'), (2, 2, 0, 40000, 'missed'),
                                            (2, 2, 1, 40400, 'missed')]),
    ],
}
# The loss rates of each run: the sink, the source and the stream, the units that are valid, lost, and never begun, and the rate; and the
# longest gap: how many units, from when to when.
RATES = {
    'whole-life': [(0, 0, 1, 1, 1, 0, 0.5, [1, 70060, 80060])],
    'two-sources': [(0, 0, 1, 1, 0, 0, 0.0, []), (0, 1, 1, 1, 0, 0, 0.0, []), (1, 1, 1, 1, 1, 0, 0.5, [1, 77444, 87444])],
    'stereo': [(0, 0, 1, 2, 0, 0, 0.0, []), (0, 0, 2, 2, 0, 0, 0.0, []), (1, 0, 2, 1, 1, 0, 0.5, [1, 61460, 66460])],
    'framed-losses': [(0, 0, 1, 2, 1, 2, 0.6, [3, 135124, 165124])],
    'early-copies': [(0, 0, 1, 1, 2, 0, 0.666667, [2, 61260, 81260]), (1, 0, 1, 0, 2, 0, 1.0, [2, 71260, 91260])],
    'hundred': [(0, 0, 1, 67, 33, 0, 0.33, [1, 72244, 82244]), (0, 0, 2, 67, 33, 0, 0.33, [1, 82244, 92244])],
}
# What stands in the lanes of each run beside events and units, in the order of the lines.
MARKS = {
    'whole-life': {
        'source 0': ['start', 'train'],
        'sink 0': ['begun', 'joined', 'left', 'state', 'state', 'sum'],
        'sink 0, link 0': ['write', 'reply', 'view', 'notice', 'notice', 'notice', 'view'],
    },
    'two-sources': {
        'source 0': ['start', 'stop'], 'source 1': ['start'],
        'sink 0': ['begun', 'joined', 'joined', 'sum'], 'sink 1': ['begun', 'joined', 'sum'],
    },
}


def units_of(run: Run) -> Iterator[tuple[object, ...]]:
    for unit in run.units:
        pdus = [tuple(it) for it in unit.pdus()]
        yield f'{unit.sink}, stream {unit.stream}', unit.at, unit.fate, unit.given.line, pdus


def marks_of(data: Data) -> dict[str, list[str]]:
    lanes: dict[str, list[str]] = {}
    for mark in data['marks']:
        lanes.setdefault(data['lanes'][mark['lane']], []).append(mark['kind'])
    return lanes


def worked(runs: dict[str, tuple[Run, Data]]) -> Iterator[str]:
    """Each value that isn't the one that was worked out."""
    for name, (run, data) in runs.items():
        if name in UNITS and list(units_of(run)) != UNITS[name]:
            yield f'{name}: the units are {list(units_of(run))}'
        keys = ('sink', 'source', 'stream', 'valid', 'lost', 'unbegun', 'rate', 'longest')
        got = [tuple(it[key] for key in keys) for it in data['rates']]
        if name in RATES and got != RATES[name]:
            yield f'{name}: the rates are {got}'
        if name in MARKS and marks_of(data) != MARKS[name]:
            yield f'{name}: the marks are {marks_of(data)}'
    lost = [(it.stream, it.event, it.at) for it in runs['hundred'][0].units if it.fate == 'lost']
    wanted = [(stream, event, 62244 + 10000 * event) for event in range(100) for stream in (1, 2) if event % 3 == stream]
    if lost != wanted:
        yield f'hundred: lost are {lost}'
    parts = runs['gap'][1]['parts']
    if len(parts) != 2 or parts[0][1] > 30000 or parts[1] != [1020060, 1030060]:
        yield f'gap: the parts are {parts}'
    cut = runs['no-end'][1]
    if (cut['refusal'], cut['sources'][0]['events'], marks_of(cut)['source 0']) != ('line 9: NoEnd', [7, 1], ['start', 'refused']):
        yield f'no-end: the refusal is {cut["refusal"]}, the marks are {marks_of(cut)}'
    size = len(page_of(runs['three-seconds'][1], '').encode())
    if size > MOST_OCTETS:
        yield f'three seconds of stereo are {size} octets'
    marks = [Mark(('sink', 0), 1, kind, '') for kind in ('sum', *20000 * ['heard'], 'state')]
    kept, left_out = kept_marks(marks)
    if [it.kind for it in kept] != ['sum', 'state'] or left_out != {'heard': 20000} or kept_marks(marks[1:-1]) != (marks[1:-1], {}):
        yield f'of {len(marks)} marks {len(kept)} are kept, and left out are {left_out}'
    if column([5, 15, 25, 25, None]) != [5, 1, 10, 2, 0, 1, -26, 1] or column([]) != []:
        yield f'a column is {column([5, 15, 25, 25, None])}'


def differs_from_pdus(run: Run) -> str | None:
    """A unit whose fate is not the one that what was heard of its PDUs gives, or None."""
    for unit in run.units:
        pdus = unit.pdus()
        if unit.given is None or unit.fate == 'valid' and (unit.given.octets or '-') != unit.octets or is_injected(pdus):
            continue
        numbers, heard = {it[0] for it in pdus}, heard_in(pdus)
        begun = pdus and min(numbers) in heard
        if (unit.fate == 'valid') != (numbers == heard) or unit.fate == 'unbegun' and begun:
            return f'{unit}'
    return None


def is_injected(pdus: Pdus) -> bool:
    return any(it[4] == 'injected' for it in pdus)


def heard_in(pdus: Pdus) -> set[int]:
    return {it[0] for it in pdus if it[4] in HEARD}


def told_of(told: str) -> tuple[dict[Told, Missed], Counts]:
    """What the notes tell: of each unit, by the line that told it, its sink, its stream and its time, the payloads that were missed with
    their places, and the counts of units."""
    missed: dict[Told, Missed] = {}
    counts: Counts = Counter()
    for line in read_lines(rows_of(told)):
        for note in line.notes:
            found = MISSED.fullmatch(note)
            if found:
                places = [tuple(map(int, it.split(' subevent '))) for it in found[5].split(' and event ')]
                missed.setdefault((line.number, *map(int, found.groups()[:3])), {})[int(found[4])] = places
            found = COUNTED.match(note)
            if found:
                sink, stream, source, *units = map(int, found.groups())
                counts.update({(sink, source, stream, fate): count for fate, count in zip(('valid', 'lost', 'unbegun', 'empty'), units)})
    return missed, counts


def notes_differ(run: Run, told: str) -> str | None:
    """What of the notes on units and of the counts is not what is worked out here, or None."""
    missed, counts = told_of(told)
    wanted: Counts = Counter()
    for unit in run.units:
        wanted[unit.sink, unit.stay.source.number, unit.stream, unit.fate] += 1
        if unit.fate in ('lost', 'unbegun') and not is_injected(unit.pdus()):
            noted = missed.get((unit.line, unit.sink, unit.stream, unit.at), {})
            if noted != missed_in(unit):
                return f'{unit}: told as missed is {noted}'
    return f'the counts are {+counts}, not {wanted}' if not run.refusal and +counts != wanted else None


def missed_in(unit: Unit) -> Missed:
    """The payloads of a unit that weren't heard, each with the events and subevents in which it was sent: of a framed one the first."""
    heard = heard_in(unit.pdus())
    missed: Missed = {}
    for number, event, subevent, *_ in unit.pdus():
        if number not in heard:
            missed.setdefault(number, []).append((event, subevent))
    return missed if unit.slot is not None else dict(sorted(missed.items())[:1])


def tried(explain: str, scenario: Scenario) -> str | None:
    """Why the page of a text can't be made, or a unit that its PDUs don't bear out, or None."""
    try:
        told = explained(explain, scenario.text)
        run, _ = run_of(told)
    except RunFault as fault:
        return f'{fault}'
    return differs_from_pdus(run) or notes_differ(run, told)


# What the tool is called with behind the page, the text on its standard input, its exit status, and what it says. A run's text is changed
# by one replacement.
WORDS: tuple[tuple[list[str], tuple[str, str] | None, int, str], ...] = (
    ([], None, 0, ''),
    (['--title', 'a <run> & more'], None, 0, ''),
    (['--fold', '5'], None, 0, ''),
    (['--fold', '\u00b2'], None, 2, 'no time in ms'),
    (['--fold', '-1'], None, 2, 'no time in ms'),
    (['--folded'], None, 2, 'unrecognized arguments'),
    (['another.html'], None, 2, 'unrecognized arguments'),
    ([], ('60060', '60061'), 1, 'is not of slot 0'),
    ([], ('unit 0 1 at 60060', 'unit 2 1 at 60060'), 1, 'hands up the unit'),
    ([], ('unit 0 1 at 60060', 'unit 0 1 at \u00b2'), 1, 'has no form that is known'),
    ([], ('40000 8 10000', '40000 0 10000'), 1, 'no source starts on this group'),
    ([], ('4 4 1 1 1 1', '4 4 0 1 1 1'), 1, 'no source starts on this group'),
    ([], ('4 4 1 1 1 1', '4 4 1 1 0 1'), 1, 'no source starts on this group'),
    ([], ('4 4 1 1 1 1', '4 4 1 1 999999999 1'), 1, 'out of its bounds'),
)
NO_RUNS = (('no run\n', 'row 1 is not what'), ('', 'no run is told'), ('\n', 'row 1 is not what'), ('2 end\n', 'row 1 is not what'))


def fault_of(words: list[str], ended: Outcome, status: int, said: str) -> Iterator[str]:
    """What is wrong with how the tool ended with these words."""
    if ended.status != status or said not in ended.told or 'Traceback' in ended.told or status == 1 and ended.told.count('\n') != 1:
        yield f'the tool with {words} ends with {ended.status} and says {ended.told!r}'


def by_words(told: str, folder: str) -> Iterator[str]:
    """Each end of the tool that isn't the one that its words and its text should bring."""
    page = os.path.join(folder, 'page.html')

    def ends(words: list[str], text: str, status: int, said: str) -> Iterator[str]:
        yield from fault_of(words, tool('timeline', words, text.encode(OCTETS)), status, said)

    for words, change, status, said in WORDS:
        yield from ends([page, *words], told.replace(*change) if change else told, status, said)
    for text, said in NO_RUNS:
        yield from ends([page], text, 1, said)
    for unwritten in (folder, os.path.join(folder, 'none', 'page.html'), *(['/dev/full'] if os.path.exists('/dev/full') else [])):
        yield from ends([unwritten], told, 1, 'timeline: [Errno')
    yield from ends(['--help'], '', 0, '')
    yield from ends([], '', 2, 'required')
    yield from fault_of([page], closed_tool('timeline', [page]), 1, 'timeline: standard input is closed\n')
    yield from page_differs(told, page)


def page_differs(told: str, page: str) -> Iterator[str]:
    """Whether the tool writes another page than its parts, or a name that isn't taken as text."""
    name = '</title><script>0</script>'
    ended, written = tool('timeline', [page, '--title', name], told.encode(OCTETS)), page_text(page)
    if ended.status or written != page_of(data_of(read_run(rows_of(told)), None), name) or name in written:
        yield 'the tool writes another page'


@step(seconds=15)
def check(explain: str) -> Faults:
    """Pages of runs have what is worked out: of a few runs by hand, and of each worked row, example and scenario each unit is valid exactly
    where each payload that carries it was heard in time, as the notes of `explain` tell it. tools/timeline.py is called with good and bad
    words and texts. What a page shows in a browser, the step pages asks."""
    told = {name: explained(explain, text_of(name)) for name in (*UNITS, 'hundred', 'three-seconds', 'gap', 'no-end')}
    runs = {name: run_of(text) for name, text in told.items()}
    yield from worked(runs)
    found = list(scenarios.plain_runs())
    yield from comparing.each(found, lambda it: tried(explain, it))
    with tempfile.TemporaryDirectory() as folder:
        yield from by_words(told['whole-life'], folder)
    size = len(page_of(runs['three-seconds'][1], '').encode()) // 1000
    return (f'{len(runs)} runs by hand, 3 s of stereo are {size} KB; {len(found)} runs by their notes; '
            f'{len(WORDS) + len(NO_RUNS)} texts and words')
