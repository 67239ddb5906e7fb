"""The page of a sweep: the plot of its choices, and the timelines of their first runs in a folder beside it. choose.py uses it."""
import html
import json
import os
import sys
from dataclasses import asdict

import big_groups
import sweep_files
import sweep_runs
import timeline_page
from timeline_data import data_of, read_run
from timeline_reading import OCTETS, RunFault


def told_of(row, timeline):
    """What the page knows of a choice."""
    found = {'name': big_groups.label(row.group), 'refusal': row.refusal and f'refused: {row.refusal}', 'best': row.is_unbeaten,
             'listeners': [asdict(it) for it in row.listeners]}
    if row.listeners:
        found.update(air=row.group.airtime, latency=row.group.latency / 1000, sync=row.group.sync_delay / 1000, timeline=timeline)
    return found


def page_of(title, sweep, rows, timelines):
    """The page. No octet of the data can end the element that it stands in."""
    summary = [line for line in sweep_files.table(sweep, []) if not line.startswith('  choice')]
    data = {'summary': '\n'.join(summary), 'sdu': big_groups.SETTINGS[sweep.broadcast.setting].sdu,
            'listeners': [it.name for it in sweep.listeners],
            'choices': [told_of(row, timelines.get(place)) for place, row in enumerate(rows)]}
    parts = {'title': html.escape(title), 'style': timeline_page.part('choices.css'), 'script': timeline_page.part('choices.js'),
             'sweep': json.dumps(data, separators=(',', ':')).replace('<', '\\u003c')}
    return timeline_page.PLACE.sub(lambda it: parts[it[1]], timeline_page.part('choices.html'))


def write_timeline(sweep, programs, place, seconds, path):
    """Writes the timeline of the front of a choice's first run."""
    group = sweep.groups[place]
    text, _ = sweep.text(group, 0, min(seconds, sweep.seconds))
    told, _ = sweep_runs.ran(programs.explain, text.encode())
    try:
        data = data_of(read_run(iter(told.decode(OCTETS).removesuffix('\n').split('\n'))), None)
    except RunFault as fault:
        raise sweep_runs.SweepFault(f'{path}: {fault}') from fault
    with open(path, 'w', encoding='utf-8') as file:
        file.write(timeline_page.page_of(data, big_groups.label(group)))


def timeline_worked(job):
    place, seconds, path = job
    write_timeline(sweep_runs.WORKING['sweep'], sweep_runs.WORKING['programs'], place, seconds, path)
    return place


def write_timelines(path, sweep, rows, programs, seconds):
    """Writes the timelines of all choices that ran; gives their places in a link, those that were made where Ctrl-C comes."""
    folder, made = os.path.splitext(path)[0] + '-runs', {}
    os.makedirs(folder, exist_ok=True)
    labels = {place: big_groups.label(row.group) for place, row in enumerate(rows) if row.listeners}
    names = {place: it.replace(' ', '-').replace('=', '') + '.html' for place, it in labels.items()}
    jobs = [(place, seconds, os.path.join(folder, name)) for place, name in names.items()]
    progress = sweep_runs.Progress(len(jobs), sys.stderr, 'timelines')
    try:
        for place in sweep_runs.over_processes(timeline_worked, sweep, programs, jobs, progress):
            made[place] = f'{os.path.basename(folder)}/{names[place]}'
    except KeyboardInterrupt:
        print(f'choose: stopped: {len(made)} of {len(jobs)} timelines are made', file=sys.stderr)
    return made


def write(path, sweep, rows, programs, seconds):
    """Writes the page, with timelines where there are programs."""
    timelines = write_timelines(path, sweep, rows, programs, seconds) if programs else {}
    title = os.fsencode(os.path.splitext(os.path.basename(path))[0]).decode('utf-8', 'replace')
    with open(path, 'w', encoding='utf-8') as file:
        file.write(page_of(title, sweep, rows, timelines))
