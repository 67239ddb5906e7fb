"""A sweep: its choices, its runs, and what the programs tell of each run. choose.py uses it."""
import collections
import concurrent.futures
import contextlib
import itertools
import os
import re
import signal
import subprocess
import threading
import time
from dataclasses import asdict, dataclass, field
from typing import Any

import big_groups
import lossy_runs
from loss_channels import Part

UNFRAMED_ROW = re.compile(rb'^unit (\d) (\d+) at \d+ ([vl])', re.MULTILINE)
TOLD_ROW = re.compile(rb'^  (?:# )?unit (\d) (\d+) at (\d+)(?: ([vl])|: (n)ever begun)', re.MULTILINE)
COUNTED = re.compile(rb'^  # sink (\d) stream (\d+) of source 0: units (\d+) valid, (\d+) lost, (\d+) never begun, \d+ slots', re.MULTILINE)
REFUSAL = re.compile(rb'^(?:  )?line \d+: ([A-Za-z]+(?: \d+)?)$', re.MULTILINE)
END = 4000  # octets of what a program writes in which its refusal and the notes on it stand
GAP = re.compile(rb'[ln]+')
PATIENCE = 600  # seconds that a program may take
LOOK = 0.2  # seconds until it is looked whether Ctrl-C came
QUIET = 2  # seconds until progress is told
MARGIN = 8  # runs that wait for each processor


class SweepFault(Exception):
    """A sweep can't be made, with why."""


@dataclass(frozen=True)
class Sweep:
    """All that the figures of a sweep depend on. A run of a choice depends on these and its number alone."""
    broadcast: big_groups.Broadcast
    groups: tuple
    listeners: tuple
    seconds: float
    runs: int
    seed: int
    confidence: float

    def channels(self, run):
        """The channels of a run, the same ones for each choice."""
        return lossy_runs.channels_of(self.listeners, f'{self.seed}/{run}')

    def text(self, group, run, seconds=None):
        return lossy_runs.made_run(group, self.listeners, seconds or self.seconds, self.channels(run))

    def jobs(self, shard=(1, 1)):
        """The jobs of a shard: a run, and the place of a choice. The choices of a run stand together, since they have the same channels."""
        every = [(run, place) for run in range(self.runs) for place in range(len(self.groups))]
        return every[shard[0] - 1::shard[1]]

    def written(self):
        """The sweep as values of JSON."""
        return asdict(self)


def sweep_of(values):
    """The sweep that such values say."""
    try:
        values = dict(values)
        values['broadcast'] = big_groups.Broadcast(**values['broadcast'])
        values['groups'] = tuple(big_groups.Group(**it) for it in values['groups'])
        values['listeners'] = tuple(
            lossy_runs.Listener(it['name'], tuple(it['streams']), tuple(map(part_of, it['parts']))) for it in values['listeners'])
        return Sweep(**values)
    except (KeyError, TypeError, AttributeError) as error:
        raise SweepFault(f'the words of a sweep are not there: {error!r}') from error


def part_of(values):
    values = dict(values)
    return Part(values['kind'], tuple(values['numbers']), tuple(map(tuple, values['rows'])), values['name'], values['side'])


@dataclass
class Heard:
    """What a listener had of a run: its units, those that were lost and those never begun, PDUs, and how many gaps have how many units."""
    units: int = 0
    lost: int = 0
    unbegun: int = 0
    sent: int = 0
    heard: int = 0
    gaps: dict = field(default_factory=dict)

    @property
    def loss(self):
        return (self.lost + self.unbegun) / self.units if self.units else 0.0

    def add(self, fates):
        """Takes the units of a stream in order: v for valid, l for lost, n for never begun."""
        self.units += len(fates)
        self.lost += fates.count(b'l')
        self.unbegun += fates.count(b'n')
        for length, count in collections.Counter(len(it) for it in GAP.findall(fates)).items():
            self.gaps[length] = self.gaps.get(length, 0) + count


@dataclass(frozen=True)
class Programs:
    """The built programs."""
    replay: str
    explain: str | None


def ran(program, text):
    """What a program writes of a text, and the refusal with which that ends or None."""
    try:
        done = subprocess.run([program], input=text, stdout=subprocess.PIPE, stderr=subprocess.PIPE, timeout=PATIENCE, check=False)
    except (OSError, subprocess.SubprocessError) as error:
        raise SweepFault(f'{program}: {error}') from error
    if done.returncode not in (0, 1):
        said = done.stderr.decode(errors='replace').strip().splitlines()
        raise SweepFault(f'{program} ends with {done.returncode}: {said[-1] if said else "it says nothing"}')
    if done.returncode == 0:
        return done.stdout, None
    found = REFUSAL.findall(done.stdout[-END:])
    if not found:
        raise SweepFault(f'{program} ends with 1 and without a refusal')
    return done.stdout, found[-1].decode()


def refusal_of(group, programs):
    """How the program refuses a group: by its row of the group check, or None."""
    if any(getattr(group, name) > most for name, most in big_groups.WIDTHS.items()):
        return 'no room in the BIGInfo'
    _, refusal = ran(programs.replay, f'scenario 2\n{group.line()}\nstart 0\nend\n'.encode())
    if refusal is None or not refusal.startswith('BadGroup '):
        return refusal
    row = int(refusal.split(' ')[1])
    return f'BadGroup {row} {big_groups.FAULTS[row - 1]}'


def unframed_fates(transcript, group):
    """The fates of the units of each sink and stream, by the rows of a transcript."""
    found = collections.defaultdict(list)
    for sink, stream, fate in UNFRAMED_ROW.findall(transcript):
        found[int(sink), int(stream)].append(fate)
    return {key: b''.join(it[lossy_runs.empty_slots(group):]) for key, it in found.items()}


def framed_fates(told):
    """The same of a framed group, by what `explain` tells: a unit that is never begun has no row."""
    found = collections.defaultdict(list)
    for sink, stream, at, fate, never in TOLD_ROW.findall(told):
        found[int(sink), int(stream)].append((int(at), fate or never))
    fates = {key: b''.join(fate for _, fate in sorted(it)) for key, it in found.items()}
    for sink, stream, *counts in COUNTED.findall(told):
        units = fates.get((int(sink), int(stream)), b'')
        if [units.count(it) for it in (b'v', b'l', b'n')] != list(map(int, counts)):
            raise SweepFault('the counts of `explain` are not those of its rows')
    return fates


def result_of(sweep, programs, run, place):
    """What becomes of a run of a choice: a `Heard` for each listener, or the refusal."""
    group = sweep.groups[place]
    text, ears = sweep.text(group, run)
    program = programs.explain if group.is_framed else programs.replay
    told, refusal = ran(program, text.encode())
    if refusal is not None:
        return refusal
    fates = framed_fates(told) if group.is_framed else unframed_fates(told, group)
    found = []
    for sink, (listener, ear) in enumerate(zip(sweep.listeners, ears)):
        heard = Heard(sent=ear.sent, heard=ear.heard)
        for stream in listener.streams:
            heard.add(fates.get((sink, stream), b''))
        found.append(heard)
    return found


WORKING = {}


def begin(sweep, programs):
    """Makes a process ready for jobs. It leaves Ctrl-C to the one that began it, and so do the programs that it runs."""
    signal.signal(signal.SIGINT, signal.SIG_IGN)
    WORKING['sweep'], WORKING['programs'] = sweep, programs


def worked(job):
    return job, result_of(WORKING['sweep'], WORKING['programs'], *job)


def processors():
    return len(os.sched_getaffinity(0))


class Progress:
    """Tells on standard error how far it is, once it takes longer than some seconds."""

    def __init__(self, all_jobs, stream, what='runs'):
        self.all, self.stream, self.what, self.begun, self.told = all_jobs, stream, what, time.monotonic(), 0.0
        self.every = 1 if stream.isatty() else 10

    def tell(self, done):
        now = time.monotonic()
        if now - self.begun < QUIET or now - self.told < self.every or not done:
            return
        self.told = now
        left = (now - self.begun) * (self.all - done) / done
        end = '\r' if self.stream.isatty() else '\n'
        print(f'choose: {done:,} of {self.all:,} {self.what}, {left:,.0f} s left ', end=end, file=self.stream, flush=True)

    def end(self):
        if self.stream.isatty() and self.told:
            print(50 * ' ', end='\r', file=self.stream, flush=True)


@contextlib.contextmanager
def noted_interrupt():
    """An event that Ctrl-C sets. It raises nothing, since a KeyboardInterrupt amid the locks of the futures would leave them locked."""
    asked = threading.Event()
    before = signal.signal(signal.SIGINT, lambda *_: asked.set())
    try:
        yield asked
    finally:
        signal.signal(signal.SIGINT, before)


def over_processes(function, sweep, programs, jobs, progress):
    """What the function makes of each job, as they end. Ctrl-C begins no further job, and comes out as KeyboardInterrupt."""
    workers = concurrent.futures.ProcessPoolExecutor(processors(), initializer=begin, initargs=(sweep, programs))
    with noted_interrupt() as asked, workers as pool:
        left, done = iter(jobs), 0
        running: set[Any] = set()
        try:
            while not asked.is_set():
                for job in itertools.islice(left, MARGIN * processors() - len(running)):
                    running.add(pool.submit(function, job))
                if not running:
                    return
                ended, running = concurrent.futures.wait(running, LOOK, concurrent.futures.FIRST_COMPLETED)
                for it in ended:
                    done += 1
                    yield it.result()
                progress.tell(done)
        finally:
            progress.end()
            pool.shutdown(cancel_futures=True)
    raise KeyboardInterrupt


def results(sweep, programs, jobs, progress):
    """Each job with its result, as they come."""
    return over_processes(worked, sweep, programs, jobs, progress)
