"""Pages of runs in a browser."""
import os
import re
import subprocess
import tempfile
import time
from collections import Counter
from collections.abc import Callable, Iterator
from typing import Any

from checks.parts import chromium
from checks.parts.chromium import Browser
from checks.parts.long_run import long_run
from checks.parts.files import write
from checks.parts.page_runs import Data, explained, run_of, text_of
from checks.parts.running import tool
from checks.parts.steps import Faults, step
from timeline_data import tracks_of
from timeline_page import page_of
from timeline_reading import OCTETS
from timeline_run import Run, Unit

SMALL = ('whole-life', 'two-sources', 'stereo', 'early-copies', 'framed-losses', 'gap', 'often-shown', 'hundred')
CTRL, SHIFT = 2, 8
FIRST, NEXT = 1000, 300  # ms until the first picture, and until what an act of the reader brings is painted
MOST_OCTETS = 10000000
LONGEST = 300  # seconds for the page of ten minutes
Act = Callable[..., object]  # what a reader does
Lost = list[tuple[str, int]]  # the lane of each loss, and when it is rendered
SLOWER = float(os.environ.get('SLOWER', '1'))
# What a page knows of its units, and what is drawn of them.
KNOWN = """tracks.map((track) => Array.from(track.at, (at, index) => {
    const unit = unitOf(track, index);
    return [run.lanes[track.lane], at, unit.fate, unit.line, unit.event, unit.slot, unit.given && unit.given.line,
        unit.given && unit.given.octets, unit.handed, pdusOf(unit)];
}))"""
DRAWN = """Array.from(document.querySelectorAll('#picture %s'), (it) => [it.dataset.lane, it.classList[0] + ' ' + it.classList[1],
    Number(it.getAttribute('x')), Number(it.getAttribute('width')), Number(it.dataset.units ?? 1), Number(it.dataset.lost ?? 0)])"""
MARKS = "Array.from(document.querySelectorAll('#picture .mark'), (it) => Number(it.dataset.marks))"
WINDOW = '[shown.from, shown.to]'
ROW = re.compile(r'^  unit (\d) (\d+) at (\d+) (valid|lost)', re.MULTILINE)
# How many PDUs are drawn for each sink: of early-copies 3 events of 4 subevents, of which sink 0 heard one, and sink 1 joined behind one;
# of two-sources one event of 2 subevents of source 0 and two of source 1, to which sink 0 went behind its first.
PDUS = {
    'early-copies': {'sink 0, stream 1': {'heard': 1, 'missed': 11}, 'sink 1, stream 1': {'before': 4, 'missed': 8}},
    'two-sources': {'sink 0, stream 1': {'heard': 2, 'repeated': 2, 'before': 2},
                    'sink 1, stream 1': {'heard': 1, 'repeated': 1, 'missed': 2}},
}


def number(value: int | None) -> int:
    return -1 if value is None else value


def known_of(run: Run) -> list[list[list[object]]]:
    """What the page should know of each unit, stream by stream."""
    def known(unit: Unit) -> list[object]:
        given: Any = unit.given
        is_other = unit.fate == 'valid' and (given is None or (given.octets or '-') != unit.octets)
        return [f'sink {unit.sink}, stream {unit.stream}', unit.at, unit.fate, unit.line, number(unit.event), number(unit.slot),
                given and given.line, given and given.octets, unit.octets if is_other else None, unit.pdus()]
    return [[known(unit) for unit in track] for track in tracks_of(run.units).values()]


def text(browser: Browser, name: str) -> str:
    return browser.value(f'document.getElementById("{name}").textContent')


def told_pdus(browser: Browser) -> list[list[str]]:
    """The table of PDUs that a choice tells."""
    return browser.value('Array.from(document.querySelectorAll("#pdus tr"), (row) => Array.from(row.querySelectorAll("td"), '
                         '(it) => it.textContent)).slice(1)')


def cells_of(pdus: list[tuple[Any, ...]]) -> list[list[str]]:
    return [[*map(str, it[:3]), f'{it[3] / 1000:,.3f} ms', it[4]] for it in pdus]


def small_page(browser: Browser, page: str, name: str, run: Run, data: Data) -> Iterator[str]:
    """What of the page of a small run is not as it should be, once it is opened and its last unit is clicked on."""
    browser.open(page)
    if browser.value('[document.title, document.querySelector("h1").textContent]') != [name, name]:
        yield 'the title is not its name'
    if browser.value(KNOWN) != known_of(run):
        yield f'its units are {browser.value(KNOWN)}'
    wanted = Counter((f'sink {it.sink}, stream {it.stream}', f'unit {it.fate}') for it in run.units)
    drawn = Counter((it[0], it[1]) for it in browser.value(DRAWN % '.unit'))
    if drawn != wanted:
        yield f'drawn are {drawn}, not {wanted}'
    if browser.value('document.querySelectorAll(".fold").length') != len(data['parts']) - 1:
        yield 'not all gaps are folded'
    if sum(browser.value(MARKS)) != len(data['marks']):
        yield 'not all marks are drawn'
    tracks = list(tracks_of(run.units).values())
    if not tracks:
        return
    browser.click_on(f'#unit-{len(tracks) - 1}-{len(tracks[-1]) - 1}')
    if told_pdus(browser) != cells_of(tracks[-1][-1].pdus()):
        yield f'a click on the last unit tells {told_pdus(browser)}'
    if browser.value('document.querySelectorAll(".ring").length') != 1:
        yield 'the unit that was clicked on has no ring'


def marks_told(browser: Browser, page: str) -> Iterator[str]:
    """Whether a click on a mark of whole-life tells of its line, and one on an event of its payload."""
    browser.open(page)
    browser.click_on('#picture .mark.noticed')
    if 'drain 0' not in text(browser, 'detail'):
        yield f'a click on a notice tells {text(browser, "detail")!r}'
    browser.click_on('#event-0-1')
    if told_pdus(browser) != [['0', '1']]:
        yield f'a click on event 1 tells {told_pdus(browser)}'
    if browser.value('document.querySelectorAll("#legend .mark").length') != 4:
        yield 'the legend has not four kinds of marks'


def stacked(browser: Browser, page: str) -> Iterator[str]:
    """Whether marks for which there is no room become one, and a click on it tells all of them."""
    browser.open(page)
    counts = browser.value(MARKS)
    if max(counts) < 2:
        yield f'marks are drawn together as {counts}'
    browser.click_on('#picture .mark:not([data-marks="1"])')
    if browser.value('document.querySelectorAll("#detail tr").length') - 1 not in counts:
        yield f'a click on marks that are drawn together tells {text(browser, "detail")!r}'


def pdus_drawn(browser: Browser, folder: str) -> Iterator[str]:
    """What of the PDUs is not drawn as it was heard, in the lanes of their own."""
    for name, wanted in PDUS.items():
        browser.open(os.path.join(folder, name + '.html'))
        drawn = Counter((it[0], it[1]) for it in browser.value(DRAWN % '.pdu'))
        if drawn != Counter({(lane, f'pdu {kind}'): count for lane, kinds in wanted.items() for kind, count in kinds.items()}):
            yield f'{name}: PDUs are drawn as {drawn}'
    browser.open(os.path.join(folder, 'early-copies.html'))
    browser.click_on('#picture .pdu.heard')
    if ['2', '0', '3', '21.200 ms', 'heard'] not in told_pdus(browser):
        yield f'early-copies: a click on the PDU that was heard tells {told_pdus(browser)}'


def losses_of_hundred(browser: Browser, page: str) -> Iterator[str]:
    """The run of 100 events: its losses stand where they belong, buttons and keys go from one to the next, and windows show a part."""
    browser.open(page)
    (begin, end), room = browser.value(WINDOW), browser.value('[LABELS, document.getElementById("picture").clientWidth - MARGIN]')
    place = lambda at: room[0] + (at - begin) * (room[1] - room[0]) / (end - begin)  # noqa: E731
    wanted = sorted(place(62244 + 10000 * event) for event in range(100) if event % 3)
    lost = sorted(it[2] for it in browser.value(DRAWN % '.unit.lost'))
    if len(lost) != len(wanted) or any(abs(one - other) > 1 for one, other in zip(lost, wanted)):
        yield f'losses are drawn at {lost}'
    drawn = Counter(it[1] for it in browser.value(DRAWN % '.pdu'))
    if drawn != Counter({'pdu heard': 134, 'pdu missed': 66}):
        yield f'PDUs are drawn as {drawn}'
    for act, words, said in ((browser.click_on, '#next', 'Loss 1 of 66: 1 unit of sink 0, stream 1.'),
                             (browser.press, 'n', 'Loss 2 of 66: 1 unit of sink 0, stream 2.'),
                             (browser.press, 'n', 'Loss 3 of 66: 1 unit of sink 0, stream 1.'),
                             (browser.press, 'p', 'Loss 2 of 66: 1 unit of sink 0, stream 2.'),
                             (browser.click_on, '#previous', 'Loss 1 of 66: 1 unit of sink 0, stream 1.'),
                             (browser.press, 'p', 'No loss is before this one.')):
        act(words)
        if text(browser, 'loss') != said:
            yield f'{words} tells {text(browser, "loss")!r}, not {said!r}'
    browser.open(page, '#from=62244&to=92243')
    drawn = Counter((it[1], it[0][-1]) for it in browser.value(DRAWN % '.unit'))
    if drawn != Counter({('unit valid', '1'): 2, ('unit lost', '1'): 1, ('unit valid', '2'): 2, ('unit lost', '2'): 1}):
        yield f'in a window of three events units are drawn as {drawn}'
    if text(browser, 'shown') != 'Shown: 29.999 ms, 6 of 200 units, 2 of 66 lost or never begun.':
        yield f'of a window of three events is told {text(browser, "shown")!r}'


def moves_of_hundred(browser: Browser, page: str) -> Iterator[str]:
    """Buttons, keys, the wheel and drags: what each makes of a window of 400 ms."""
    def moved(act: Act, *words: object) -> list[float]:
        browser.open(page, '#from=200000&to=600000')
        act(*words)
        browser.value(chromium.PAINTED)
        window: list[float] = browser.value(WINDOW)
        return window
    whole, per_pixel = moved(browser.press, 'a'), 400000 / browser.value('document.getElementById("picture").clientWidth - LABELS - MARGIN')
    moves: tuple[tuple[Act, tuple[object, ...], list[float]], ...] = (
        (browser.click_on, ('#in',), [300000, 500000]), (browser.press, ('+',), [300000, 500000]),
        (browser.click_on, ('#out',), [0, 800000]), (browser.press, ('-',), [0, 800000]),
        (browser.click_on, ('#earlier',), [100000, 500000]), (browser.press, ('ArrowLeft',), [100000, 500000]),
        (browser.click_on, ('#later',), [300000, 700000]), (browser.press, ('ArrowRight',), [300000, 700000]),
        (browser.click_on, ('#all',), whole), (browser.wheel, ('#picture', 120), [200000, 600000]),
        (browser.wheel, ('#picture', 120, SHIFT), [250000, 650000]),
        (browser.drag, ('#picture', -100), [200000 + 100 * per_pixel, 600000 + 100 * per_pixel]))
    for act, words, wanted in moves:
        got, wanted = moved(act, *words), [max(wanted[0], whole[0]), min(wanted[1], whole[1])]
        if any(abs(one - other) > 1 for one, other in zip(got, wanted)):
            yield f'{words} makes of the window {got}, not {wanted}'
    begin, end = moved(browser.wheel, '#picture', -120, CTRL)
    if abs(end - begin - 320000) > 1:
        yield f'the wheel with Ctrl makes of the window {begin, end}'
    begin, end = moved(browser.click_on, '#overview')
    middle = browser.value('overview.scale.time(document.getElementById("overview").clientWidth / 2)')
    if abs((begin + end) / 2 - middle) > 2000 or abs(end - begin - 400000) > 1:
        yield f'a click in the overview makes of the window {begin, end}'
    moved(browser.click_on, '#rates .gap')
    if text(browser, 'loss') != 'Loss 1 of 66: 1 unit of sink 0, stream 1.':
        yield f'a click on the longest gap tells {text(browser, "loss")!r}'
    moved(browser.click_on, '#from')
    browser.press('n')
    if text(browser, 'loss'):
        yield 'a key that is typed as a number is taken'


def looks(browser: Browser, page: str) -> Iterator[str]:
    """Light and dark by the reader's setting, and a narrow window."""
    browser.open(page)
    grounds = []
    for scheme in ('light', 'dark'):
        browser.prefer(scheme)
        grounds.append(browser.value('getComputedStyle(document.body).backgroundColor'))
    browser.prefer('light')
    if grounds != ['rgb(255, 255, 255)', 'rgb(17, 22, 29)']:
        yield f'the grounds in light and dark are {grounds}'
    browser.resize(420, 800)
    browser.value(chromium.PAINTED)
    if browser.value('document.documentElement.scrollWidth') > 420 or browser.value('shown.scale.pieces[0].x') != 0:
        yield 'a narrow window is scrolled sideways, or has names beside its lanes'
    browser.resize(1200, 900)


def boxes_differ(browser: Browser, lost: Lost) -> Iterator[str]:
    """What of the merged boxes is wrong: each loss in the window lies in a box of losses at least 2 px wide, drawn behind all others."""
    begin, end = browser.value(WINDOW)
    boxes = browser.value(DRAWN % ':is(.unit, .part)')
    spans: dict[str, list[tuple[float, float]]] = {}
    is_behind = False
    for lane, kind, x, width, *_ in boxes:
        if kind.endswith('lost'):
            is_behind = True
            spans.setdefault(lane, []).append((x, x + width))
            if width < 2:
                yield f'a loss is {width} px wide'
        elif is_behind:
            yield 'a loss is not drawn last'
            break
    inside = [(lane, at) for lane, at in lost if begin <= at < end]
    places = browser.value(f'{[at for _, at in inside]}.map((at) => shown.scale.place(at))')
    for (lane, at), place in zip(inside, places):
        if not any(left - 1 <= place <= right for left, right in spans.get(lane, ())):
            yield f'the loss at {at} of {lane} is not drawn between {begin} and {end}'
            break
    if len(boxes) > 6000:
        yield f'{len(boxes)} boxes are drawn between {begin} and {end}'


def merged_of_long(browser: Browser, all_units: int, lost: Lost) -> Iterator[str]:
    """The whole run of ten minutes, drawn in boxes of many units."""
    parts = browser.value(DRAWN % '.part')
    units = sum(it[4] for it in parts if it[1] == 'part valid')
    missing = sum(it[5] for it in parts if it[1] == 'part lost')
    if missing != len(lost) or not 0.99 * all_units <= units <= all_units:
        yield f'the boxes of the whole run have {units} units and {missing} lost ones, not {all_units} and {len(lost)}'
    said = f'{all_units:,} of {all_units:,} units, {len(lost):,} of {len(lost):,} lost or never begun.'
    if not text(browser, 'shown').endswith(said):
        yield f'of the whole run is told {text(browser, "shown")!r}'
    if 'Of each unit the first 12 octets are kept here.' not in text(browser, 'summary'):
        yield f'the summary is {text(browser, "summary")!r}'
    bars = browser.value('Array.from(document.querySelectorAll("#overview .bar"), (it) => Number(it.dataset.missing))')
    if sum(bars) != len(lost):
        yield f'the bars of the loss rate have {sum(bars)} losses'


def least_of(browser: Browser, act: Act, *words: object) -> float:
    return min(browser.timed(act, *words) for _ in range(3))


def long_page(browser: Browser, page: str, told: str, figures: dict[str, float]) -> Iterator[str]:
    """The run of ten minutes: its times, and its losses at every zoom."""
    units = ROW.findall(told)
    lost = [(f'sink {sink}, stream {stream}', int(at)) for sink, stream, at, fate in units if fate == 'lost']
    figures['first'] = min(browser.open(page) for _ in range(3))
    yield from merged_of_long(browser, len(units), lost)
    yield from boxes_differ(browser, lost)
    figures['next'] = 0
    acts: tuple[tuple[Act, tuple[object, ...]], ...] = (
        (browser.click_on, ('#in',)), (browser.press, ('ArrowRight',)), (browser.press, ('ArrowLeft',)),
        (browser.wheel, ('#picture', -120, CTRL)), (browser.drag, ('#picture', 200)), (browser.click_on, ('#next',)),
        (browser.press, ('p',)), (browser.press, ('-',)), (browser.press, ('-',)), (browser.press, ('-',)),
        (browser.click_on, ('#overview',)), (browser.press, ('a',)), (browser.wheel, ('#picture', -120, CTRL)))
    for act, words in acts:
        taken = least_of(browser, act, *words)
        figures['next'] = max(figures['next'], taken)
        if taken > NEXT * SLOWER:
            yield f'{words} takes {taken:.0f} ms'
        yield from boxes_differ(browser, lost)
    if figures['first'] > FIRST * SLOWER:
        yield f'the first picture takes {figures["first"]:.0f} ms'
    browser.press('a')
    browser.click_on('#picture .part.lost')
    browser.click_on('#closer')
    if browser.value(WINDOW)[1] - browser.value(WINDOW)[0] > 20e6:
        yield 'the units of a merged box are not shown nearer'


def made_long(explain: str, folder: str, figures: dict[str, float]) -> tuple[str, list[str], str]:
    """The page of the run of ten minutes, by the tool itself; gives what failed, and what was told of the run."""
    page = os.path.join(folder, 'ten-minutes.html')
    began = time.monotonic()
    told = explained(explain, text_of('ten-minutes'))
    figures['told'], began = time.monotonic() - began, time.monotonic()
    done = tool('timeline', [page], told.encode(OCTETS), patience=LONGEST)
    figures['made'], figures['octets'] = time.monotonic() - began, os.path.getsize(page)
    failed = [f'the tool ends with {done.status}: {done.told}'] if done.status else []
    if figures['octets'] > MOST_OCTETS:
        failed.append(f'ten minutes are a page of {figures["octets"]} octets')
    if figures['made'] > 4 and 'lines are read' not in done.told:
        failed.append(f'no progress is told: {done.told!r}')
    return page, failed, told


def over_pages(browser: Browser, explain: str, folder: str, figures: dict[str, float]) -> Iterator[tuple[str, str]]:
    """All that is wrong, by the name of the page."""
    for name in SMALL:
        run, data = run_of(explained(explain, text_of(name)))
        page = os.path.join(folder, name + '.html')
        write(page, page_of(data, name))
        yield from ((name, it) for it in small_page(browser, page, name, run, data))
    page = os.path.join(folder, 'hundred.html')
    yield from (('whole-life', it) for it in marks_told(browser, os.path.join(folder, 'whole-life.html')))
    yield from (('often-shown', it) for it in stacked(browser, os.path.join(folder, 'often-shown.html')))
    yield from (('PDUs', it) for it in pdus_drawn(browser, folder))
    for check in (losses_of_hundred, moves_of_hundred, looks):
        yield from (('hundred', it) for it in check(browser, page))
    page, failed, told = made_long(explain, folder, figures)
    yield from (('ten-minutes', it) for it in failed)
    yield from (('ten-minutes', it) for it in long_page(browser, page, told, figures))
    yield from (('script', it) for it in browser.faults)


def pictured(browser: Browser, explain: str, folder: str, file: str) -> int:
    """Writes a picture of 30 s of stereo at two sinks, near its first loss, and gives its octets."""
    name = 'stereo-at-two-sinks'
    _, data = run_of(explained(explain, '\n'.join([*long_run(3000, octets=30), '']).encode()))
    page = os.path.join(folder, name + '.html')
    write(page, page_of(data, name))
    browser.resize(1100, 900)
    browser.open(page)
    for key in ('n', '+', '+', '+', '+', 'ArrowLeft'):
        browser.press(key)
    browser.resize(1100, browser.value('document.documentElement.scrollHeight'))
    browser.value(chromium.PAINTED)
    return browser.picture(file)


@step(seconds=60, needs=('chromium',))
def check(explain: str, *, picture: str = '') -> Faults:
    """Pages of nine runs show in a Chromium without a window what tools/timeline.py worked out, and what is clicked, typed, dragged and
    turned there brings what it should. The times of the run of ten minutes are the least of three; where SLOWER=3 is set, they may be three times
    as long. --picture FILE writes a picture of a run with losses, as docs/run.png is, and tries nothing."""
    path = chromium.find()
    figures: dict[str, float] = {}
    try:
        with tempfile.TemporaryDirectory(ignore_cleanup_errors=True) as folder, chromium.Browser(path, folder) as browser:
            if picture:
                return f'{picture}: {pictured(browser, explain, folder, picture)} octets'
            for name, fault in over_pages(browser, explain, folder, figures):
                yield f'{name}: {fault}'
    except (chromium.BrowserFault, subprocess.SubprocessError) as fault:
        yield f'browser: {fault}'
    told, made, octets, first, slowest = (figures.get(it, 0) for it in ('told', 'made', 'octets', 'first', 'next'))
    return (f'{len(SMALL) + 1} in {chromium.version(path)}; 10 minutes of stereo at two sinks: told in {told:.0f} s, made in '
            f'{made:.0f} s, {octets / 1e6:.1f} MB, first picture {first:.0f} ms, slowest act {slowest:.0f} ms')
