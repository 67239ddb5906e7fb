"""What the page of a run embeds. timeline.py uses it.

A column of numbers is embedded as the differences between neighbours, each with how often it stands in a row: [20000,1,10000,299] are the
anchors of 300 events. Times are µs, and -1 stands for none."""
from collections import Counter, defaultdict
from typing import Any

from timeline_reading import named_fault, read_lines
from timeline_run import Run

SPAN = 10000  # µs, what is drawn where no event fixes a time
GREATEST = 2 ** 53 - 1  # that a page takes for a number as it is
UNIT_FATES = ('valid', 'lost', 'empty', 'unbegun')
MISSING = ('lost', 'unbegun')
MOST_GIVEN, LEAST_GIVEN = 1500000, 4  # octets of all units that a page keeps, and how many of each at least
MOST_MARKS = 20000


def column(numbers):
    """A column of numbers."""
    runs: list[int] = []
    before = 0
    for number in numbers:
        number = -1 if number is None else min(number, GREATEST)
        if runs and runs[-2] == number - before:
            runs[-1] += 1
        else:
            runs += [number - before, 1]
        before = number
    return runs


def times_of(moments, interval):
    """The time of each line: that which it fixes, but none before an earlier line's; the others are spread between those."""
    fixed = [(place, time) for place, (_, time) in enumerate(moments) if time is not None]
    if not fixed:
        fixed = [(len(moments), interval)]
    places, now = [(-1, max(0, fixed[0][1] - interval))], 0
    for place, time in fixed:
        now = max(now, time)
        places.append((place, now))
    places.append((len(moments), now + interval))
    times = {}
    for (before, begin), (after, end) in zip(places, places[1:]):
        for place in range(before + 1, min(after + 1, len(moments))):
            times[moments[place][0]] = begin + (end - begin) * (place - before) // (after - before)
    return times


def parts_of(spans, fold):
    """The stretches of time that are drawn: those in which nothing is for longer than `fold` are left out."""
    parts: list[list[int]] = []
    for begin, end in sorted(spans):
        if parts and begin - parts[-1][1] <= fold:
            parts[-1][1] = max(parts[-1][1], end)
        else:
            parts.append([begin, end])
    return parts


def lane_name(lane):
    return {'source': 'source {}', 'sink': 'sink {}', 'stream': 'sink {}, stream {}', 'link': 'sink {}, link {}'}[lane[0]].format(*lane[1:])


def lanes_of(run, marks):
    """The lanes from above: the sources, then each sink with its streams and its links."""
    lanes = {('source', source.number) for source in run.sources if source.first is not None} | {mark.lane for mark in marks}
    lanes |= {('stream', unit.sink, unit.stream) for unit in run.units}
    kinds = ('sink', 'stream', 'link')
    return sorted(lanes, key=lambda lane: (0, lane[1]) if lane[0] == 'source' else (1, lane[1], kinds.index(lane[0]), lane[2:]))


def tracks_of(units):
    """The units of each stream of a sink, by their times."""
    tracks = defaultdict(list)
    for unit in units:
        tracks[unit.sink, unit.stream].append(unit)
    return {key: sorted(track, key=lambda unit: unit.at) for key, track in sorted(tracks.items())}


def gaps_of(track):
    """The gaps of a stream: of each the places of its first and last unit, and how many units are lost or never begun in a row. An empty
    slot neither counts nor ends a gap."""
    gaps: list[Any] = []
    is_open = False
    for place, unit in enumerate(track):
        if unit.fate in MISSING:
            if is_open and track[gaps[-1][0]].stay.source is unit.stay.source:
                gaps[-1][1:] = [place, gaps[-1][2] + 1]
            else:
                gaps.append([place, place, 1])
            is_open = True
        elif unit.fate == 'valid':
            is_open = False
    return gaps


def rates_of(tracks):
    """For each sink, source and stream the counts of its units by their fate, what of the units that were given is lost, and the longest
    gap: how many units, from when to when."""
    counts: defaultdict[Any, Counter[str]] = defaultdict(Counter)
    longest: dict[Any, Any] = {}
    for (sink, stream), track in tracks.items():
        for unit in track:
            counts[sink, unit.stay.source.number, stream][unit.fate] += 1
        for first, last, count in gaps_of(track):
            source = track[first].stay.source
            key, span = (sink, source.number, stream), (track[first].at, track[last].at + source.group.sdu)
            longest[key] = max(longest.get(key, (0, 0, 0)), (count, *span), key=lambda it: (it[0], it[2] - it[1]))
    rates = []
    for key, count in sorted(counts.items()):
        missing = count['lost'] + count['unbegun']
        of = missing + count['valid']
        rates.append({**dict(zip(('sink', 'source', 'stream'), key)), **{fate: count[fate] for fate in UNIT_FATES},
                      'rate': round(missing / of, 6) if of else None, 'longest': list(longest.get(key, ()))})
    return rates


def track_data(lane, key, track, stays, given):
    """The units of a stream of a sink. Those that were handed up with other octets than their source was given stand with these."""
    def handed(unit):
        return unit.fate == 'valid' and (unit.given is None or (unit.given.octets or '-') != unit.octets)
    gaps = gaps_of(track)
    return {
        'lane': lane, 'sink': key[0], 'stream': key[1], 'at': column(unit.at for unit in track),
        'fate': column(UNIT_FATES.index(unit.fate) for unit in track), 'stay': column(stays[id(unit.stay)] for unit in track),
        'line': column(unit.line for unit in track), 'event': column(unit.event for unit in track),
        'slot': column(unit.slot for unit in track), 'given': column(given.get(id(unit.given)) for unit in track),
        'handed': {place: unit.octets for place, unit in enumerate(track) if handed(unit)},
        'gaps': [column(it[part] for it in gaps) for part in range(3)],
    }


def stay_data(stay):
    streams = [] if stay.is_told else [stream for stream in stay.streams if 1 <= stream <= stay.source.group.num_bis]
    return {'sink': stay.sink, 'source': stay.source.number, 'since': stay.since,
            'letters': {stream: stay.letters(stream) for stream in streams}}


def given_by_stream(source):
    return sorted(source.given, key=lambda it: it.stream)


def source_data(source, most):
    """A source: its group's numbers, the lines of its events, and the units given to it, stream by stream, of each `most` octets."""
    group, given = source.group, given_by_stream(source)
    return {
        'first': source.first, 'origin': group.origin, 'interval': group.interval, 'sdu': group.sdu, 'bn': group.bn, 'nse': group.nse,
        'irc': group.irc, 'pto': group.pto, 'sub': group.sub, 'spacing': group.spacing, 'sync': group.sync_delay,
        'longest': group.longest, 'events': column(event.line for event in source.events),
        'given': {
            'stream': column(it.stream for it in given), 'line': column(it.line for it in given), 'time': column(it.time for it in given),
            'number': column(it.numbers[0] if it.numbers else None for it in given), 'pdus': column(len(it.numbers) for it in given),
            'length': column(it.length for it in given), 'octets': [it.octets[:2 * most] for it in given],
        },
    }


def kept_marks(marks):
    """The marks that a page shows, and how many of each kind it leaves out: of too many, the most frequent kinds."""
    left_out = {}
    for kind, count in Counter(mark.kind for mark in marks).most_common():
        if len(marks) > MOST_MARKS:
            marks, left_out[kind] = [mark for mark in marks if mark.kind != kind], count
    return marks, left_out


def octets_kept(sources):
    """How many octets of each unit a page keeps."""
    lengths = [it.length for source in sources for it in source.given]
    return max([*lengths, 0]) if sum(lengths) <= MOST_GIVEN else max(LEAST_GIVEN, MOST_GIVEN // len(lengths))


@named_fault
def data_of(run, fold):
    """The data of a run. A gap in which nothing is for longer than `fold` is folded, or than five ISO intervals."""
    started = [source for source in run.sources if source.first is not None]
    interval = max([source.group.interval for source in started], default=SPAN)
    shown, left_out = kept_marks(run.marks)
    lanes, times, most = lanes_of(run, shown), times_of(run.moments, interval), octets_kept(started)
    marks = [{'lane': lanes.index(mark.lane), 'at': times[mark.line] if mark.at is None else mark.at, 'line': mark.line,
              'kind': mark.kind, 'text': mark.text} for mark in shown]
    spans = [(event.anchor, event.anchor + source.group.sync_delay) for source in started for event in source.events]
    spans += [(unit.at, unit.at + unit.stay.source.group.sdu) for unit in run.units] + [(mark['at'],) * 2 for mark in marks]
    lines = {mark.line: run.lines[mark.line] for mark in shown}
    tracks, stays = tracks_of(run.units), {id(stay): place for place, stay in enumerate(run.stays)}
    given = {id(unit): place for source in started for place, unit in enumerate(given_by_stream(source))}
    return {
        'refusal': run.refusal, 'lanes': [lane_name(lane) for lane in lanes],
        'sources': {source.number: source_data(source, most) for source in started},
        'stays': [stay_data(stay) for stay in run.stays],
        'tracks': [track_data(lanes.index(('stream', *key)), key, track, stays, given) for key, track in tracks.items()],
        'marks': marks, 'left_out': left_out, 'rates': rates_of(tracks),
        'parts': parts_of(spans or [(0, SPAN)], 5 * interval if fold is None else fold),
        'lines': {number: [line.text, line.rows, line.notes] for number, line in lines.items()},
    }


@named_fault
def read_run(rows, tell=lambda _: None):
    """The run that `explain` told in these rows. `tell` is called now and then with the line that was taken."""
    run = Run()
    for line in read_lines(rows):
        run.take(line)
        if line.number % 1000 == 0:
            tell(line.number)
    return run
