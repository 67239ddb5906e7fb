"""The files of a sweep: what its jobs brought, kept so that shards can be merged, and figures as CSV. choose.py uses it."""
import contextlib
import csv
import json
from dataclasses import asdict
from typing import Any

import big_groups
import sweep_runs
from sweep_runs import Heard, SweepFault

KIND = 'results of a sweep'
MOST_RUNS = 10000
COLUMNS = (
    'choice', 'unbeaten', 'refused', 'nse', 'bn', 'irc', 'pto', 'iso', 'pdu', 'air_percent', 'latency_ms', 'sync_delay_us', 'listener',
    'runs', 'sdus', 'lost', 'never_begun', 'loss', 'loss_low', 'loss_high', 'pdu_loss', 'longest_gap_ms', 'gaps_per_minute', 'gaps')


def front_line(sweep):
    return json.dumps({'kind': KIND, 'sweep': sweep.written()}, sort_keys=True) + '\n'


def refusals_line(refusals):
    return json.dumps({'refusals': sorted(refusals.items())}) + '\n'


def job_line(job, result):
    found: dict[str, Any] = {'refused': result} if isinstance(result, str) else {'listeners': [asdict(it) for it in result]}
    return json.dumps({'run': job[0], 'choice': job[1], **found}, separators=(',', ':')) + '\n'


def result_of(values):
    if 'refused' in values:
        return str(values['refused'])
    return [Heard(**dict(it, gaps={int(length): int(count) for length, count in it['gaps'].items()})) for it in values['listeners']]


def read(path):
    """The sweep, the refusals and the results of a file. A last line that is cut counts for nothing."""
    try:
        with open(path, encoding='ascii') as file:
            lines = file.read().split('\n')[:-1]
        front, second, *rest = [json.loads(it) for it in lines]
        if front['kind'] != KIND:
            raise SweepFault(f'{path}: it has no results of a sweep')
        refusals = {int(place): str(refusal) for place, refusal in second['refusals']}
        results = {(int(it['run']), int(it['choice'])): result_of(it) for it in rest}
        sweep = sweep_runs.sweep_of(front['sweep'])
        check(sweep, results)
        return sweep, refusals, results
    except (OSError, UnicodeError) as error:
        raise SweepFault(f'{path}: {error}') from error
    except (ValueError, KeyError, TypeError, AttributeError, RecursionError, OverflowError) as error:
        raise SweepFault(f'{path}: it has no results of a sweep: {error!r}'.replace('\n', ' ')) from error


@contextlib.contextmanager
def named_faults():
    """Each fault that values which no sweep has bring is told as SweepFault."""
    try:
        yield
    except (LookupError, ValueError, AttributeError, TypeError, ArithmeticError) as error:
        raise SweepFault(f'the values are those of no sweep: {error!r}'.replace('\n', ' ')) from error


def check(sweep, results):
    """Refuses values that no sweep has."""
    numbers = [number for group in sweep.groups for name in big_groups.WIDTHS for number in [getattr(group, name)]]
    counts = [number for it in results.values() if isinstance(it, list) for heard in it
              for number in (heard.units, heard.lost, heard.unbegun, heard.sent, heard.heard)]
    if not all(isinstance(it, int) and 0 <= it < 2 ** 53 for it in numbers + counts + [sweep.runs, sweep.seed]):
        raise SweepFault('a count or a place of a group is no number')
    is_number = isinstance(sweep.confidence, float) and isinstance(sweep.seconds, (int, float))
    if not is_number or not 0 < sweep.confidence < 1 or not sweep.listeners or sweep.runs > MOST_RUNS:
        raise SweepFault('the confidence, the seconds, the runs or the listeners are none')
    for (run, place), it in results.items():
        if not 0 <= run < sweep.runs or not 0 <= place < len(sweep.groups) or isinstance(it, list) and len(it) != len(sweep.listeners):
            raise SweepFault(f'run {run} of choice {place} is none of the sweep')


def merged(paths):
    """The sweep of all files, with the results of all."""
    sweep, refusals, results = read(paths[0])
    for path in paths[1:]:
        other, more, others = read(path)
        if other.written() != sweep.written():
            raise SweepFault(f'{path}: the sweep is another than that of {paths[0]}')
        refusals.update(more)
        results.update(others)
    return sweep, refusals, results


def csv_rows(rows):
    """The rows of the CSV: one for each choice and listener, and one for a choice that is refused."""
    for row in rows:
        group = row.group
        front = [big_groups.label(group), int(row.is_unbeaten), row.refusal or '', group.nse, group.bn, group.irc, group.pto, group.iso,
                 group.max_pdu]
        if not row.listeners:
            yield front + (len(COLUMNS) - len(front)) * ['']
            continue
        front += [f'{100 * group.airtime:.4f}', f'{group.latency / 1000:.3f}', group.sync_delay]
        for it in row.listeners:
            gaps = ' '.join(f'{length}:{count}' for length, count in it.gaps.items())
            losses = ['' if value is None else f'{value:.8f}' for value in (it.loss, it.low, it.high, it.pdu_loss)]
            yield [*front, it.name, it.runs, it.units, it.lost, it.unbegun, *losses, f'{it.longest:.3f}', f'{it.rate:.4f}', gaps]


def write_csv(path, rows):
    with open(path, 'w', encoding='ascii', newline='') as file:
        writer = csv.writer(file, lineterminator='\n')
        writer.writerow(COLUMNS)
        writer.writerows(csv_rows(rows))


def part(value, digits=3):
    return '-' if value is None else f'{100 * value:.{digits}f}'


def table(sweep, rows):
    """The lines of the table that is printed."""
    setting, broadcast = big_groups.SETTINGS[sweep.broadcast.setting], sweep.broadcast
    framing = 'framed' if any(it.is_framed for it in sweep.groups) else 'unframed'
    yield (f'{broadcast.setting}: {setting.octets} octets each {setting.sdu / 1000:g} ms, {framing}; {broadcast.streams} streams, '
           f'LE {"2M" if broadcast.phy else "1M"}, {broadcast.packing}; presentation delay {broadcast.delay / 1000:g} ms')
    if setting.low and setting.high:
        of_aim = (('low latency', setting.low), ('high reliability', setting.high))
        aims = (f'for {aim} RTN {it[0]} and at most {it[1]} ms' for aim, it in of_aim)
        yield f'Basic Audio Profile 1.0, table 6.4: {"; ".join(aims)}, without the presentation delay'
    yield (f'{sweep.runs} runs of {sweep.seconds:g} s, seed {sweep.seed}; intervals of {100 * sweep.confidence:g} % by Student\'s t over '
           'runs; * is a choice that no other beats in loss (of the worst listener), latency and airtime')
    wide = max([len(big_groups.label(it)) for it in sweep.groups] + [6]) + 2
    names = max([len(it.name) for it in sweep.listeners] + [8])
    yield (f'  {"choice":{wide}}{"air %":>7}{"latency ms":>12}{"sync ms":>9}  {"listener":{names}}{"PDU loss %":>11}{"loss %":>9}'
           f'{"low":>9}{"high":>9}{"lost":>8}{"unbegun":>9}{"gap ms":>9}{"gaps/min":>10}{"runs":>6}')
    for row in rows:
        yield from row_lines(row, wide, names)


def row_lines(row, wide, names):
    """The lines of a choice: one for each listener."""
    front, group = f'{"*" if row.is_unbeaten else " "} {big_groups.label(row.group):{wide}}', row.group
    if not row.listeners:
        yield f'{front} {"refused: " + row.refusal if row.refusal else "no run was made"}'
        return
    front += f'{100 * group.airtime:7.1f}{group.latency / 1000:12.2f}{group.sync_delay / 1000:9.2f}'
    for it in row.listeners:
        yield (f'{front}  {it.name:{names}}{part(it.pdu_loss, 2):>11}{part(it.loss):>9}{part(it.low):>9}{part(it.high):>9}{it.lost:8}'
               f'{it.unbegun:9}{it.longest:9.1f}{it.rate:10.1f}{it.runs:6}')
        front = ' ' * len(front)
