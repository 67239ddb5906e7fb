"""Losses that the tools measure, by what can be computed of them."""
import itertools
import os
import signal
import subprocess
import sys
import tempfile
import time
from collections.abc import Callable, Iterator, Sequence
from typing import Any

import big_groups
import loss_words
import lossy_runs
import sweep_figures
import sweep_runs
from checks import TOP
from checks.parts import files, loss_sums, running
from checks.parts.loss_words_tried import WORDS
from checks.parts.running import Outcome
from checks.parts.steps import Faults, step
from loss_channels import Channel, named_of, own_part, parts_of, steps_of

Choice = dict[str, int]
CONFIDENCE = 0.999
BURST, PERIOD = 'burst:0.05,0.8,150,30', 'interference:0.9,19.37,0.6'
NUMBERS = {it: tuple(map(float, it.split(':')[1].split(','))) for it in (BURST, PERIOD)}
# Of each choice its numbers, a channel, and what is lost of a unit, by the group.
CHOICES: tuple[tuple[Choice, str, Callable[[Any], float]], ...] = (
    ({'nse': 1}, 'independent:0.1', lambda group: 0.1),
    ({'nse': 3}, 'independent:0.3', lambda group: loss_sums.of_copies(0.3, 3)),
    ({'nse': 2, 'irc': 1, 'pto': 4}, 'independent:0.3', lambda group: loss_sums.of_copies(0.3, 2)),
    ({'nse': 6, 'max_pdu': 34}, 'independent:0.2', lambda group: loss_sums.of_copies(0.2, 2, 3)),
    ({'nse': 6, 'iso': 24, 'irc': 1, 'pto': 1}, 'independent:0.2', lambda group: loss_sums.of_copies(0.2, 2)),
    ({'nse': 1}, BURST, lambda group: loss_sums.of_burst(NUMBERS[BURST], loss_sums.copies_of(group), group.longest)),
    ({'nse': 3}, BURST, lambda group: loss_sums.of_burst(NUMBERS[BURST], loss_sums.copies_of(group), group.longest)),
    ({'nse': 3, 'irc': 1, 'pto': 2}, BURST, lambda group: loss_sums.of_burst(NUMBERS[BURST], loss_sums.copies_of(group), group.longest)),
    ({'nse': 2}, PERIOD, lambda group: loss_sums.of_period(NUMBERS[PERIOD], loss_sums.copies_of(group), group.longest)),
    ({'nse': 2, 'irc': 1, 'pto': 1}, PERIOD, lambda group: loss_sums.of_period(NUMBERS[PERIOD], loss_sums.copies_of(group), group.longest)),
)
PATIENCE = 120  # seconds
SECONDS, RUNS = 5.0, 16
# Framed choices: of one PDU an event that mostly has one unit, of two PDUs that units cross, and with early copies.
FRAMED: tuple[Choice, ...] = ({'nse': 3}, {'nse': 4, 'bn': 2, 'max_pdu': 70}, {'nse': 6, 'bn': 2, 'irc': 1, 'pto': 2, 'max_pdu': 80},
          {'nse': 6, 'bn': 3, 'iso': 24, 'max_pdu': 140})
QUANTILES = {(1, 0.95): 12.706, (9, 0.95): 2.262, (9, 0.999): 4.781, (30, 0.95): 2.042, (4, 0.99): 4.604}  # as tables have them


def sweep(setting: str, choices: Sequence[Choice], channel: str, seconds: float, runs: int, streams: int = 2) -> sweep_runs.Sweep:
    broadcast = big_groups.Broadcast(setting, streams)
    listeners = loss_words.listeners_of([f'all={"+".join(map(str, range(1, streams + 1)))}@{channel}'], {}, streams)
    groups = tuple(map(broadcast.group, choices))
    return sweep_runs.Sweep(broadcast, groups, tuple(listeners), seconds, runs, 1, CONFIDENCE)


class Still:
    """A progress that tells nothing."""

    def tell(self, done: int) -> None:
        pass

    def end(self) -> None:
        pass


def by_sums(programs: sweep_runs.Programs, figures: list[str]) -> Iterator[str]:
    """Each choice whose loss is not what the sum says."""
    for channel in dict.fromkeys(it[1] for it in CHOICES):
        mine = [it for it in CHOICES if it[1] == channel]
        made = sweep('48_2', [it[0] for it in mine], channel, SECONDS, RUNS)
        results = dict(sweep_runs.results(made, programs, made.jobs(), Still()))
        for (choice, _, wanted), row in zip(mine, sweep_figures.rows_of(made, results, {})):
            got, exact = row.listeners[0] if row.listeners else None, wanted(row.group)
            figures.append(f'{exact:.4f}')
            if got is None or got.low is None or not got.low <= exact <= got.high or got.high - got.low > exact:
                yield f'{choice} over {channel}: {exact} is lost, and measured is {row}'


def by_none(programs: sweep_runs.Programs) -> Iterator[str]:
    """Each choice of which a unit is lost where no PDU is, or of which not each unit is counted once; and losses of single PDUs."""
    made = sweep('48_2', [it[0] for it in CHOICES], 'independent:0', 1.2, 1)
    for place, group in enumerate(made.groups):
        result = sweep_runs.result_of(made, programs, 0, place)
        if isinstance(result, str) or (result[0].units, result[0].loss, result[0].gaps) != (240, 0, {}):
            yield f'{big_groups.label(group)} without losses: {result}'
    for loss in (0.02, 0.5):
        at = range(0, 140000000, 700)
        lost = len(at) - len(heard_of(f'independent:{loss}', seconds=140))
        if abs(lost - loss * len(at)) > 4 * (len(at) * loss * (1 - loss)) ** 0.5:
            yield f'of {len(at)} PDUs {lost} are lost by {loss}'


def by_counts(programs: sweep_runs.Programs) -> Iterator[str]:
    """Each framed choice whose units are not those that are counted over the same draws."""
    made = sweep('441_2', FRAMED, 'burst:0.1,0.7,60,20', 6.0, 1)
    for place, group in enumerate(made.groups):
        result = sweep_runs.result_of(made, programs, 0, place)
        text, _ = made.text(group, 0)
        wanted = [sum(it) for it in zip(*(loss_sums.of_framed(group, text, 0, stream) for stream in (1, 2)))]
        got = result
        if not isinstance(result, str):
            [it] = result
            got = [it.units - it.lost - it.unbegun, it.lost, it.unbegun]
        if got != wanted or not all(wanted[0::2]):
            yield f'framed {FRAMED[place]}: {wanted} are valid, lost and never begun, and told are {got}'


def heard_of(text: str, named: Sequence[str] = (), name: str = 'a', seconds: int = 20, length: int = 0) -> set[int]:
    """Which of PDUs that are sent each 700 µs are heard over a channel."""
    channel = Channel(parts_of(text, named_of(named)), 1, name)
    return {at for at in range(0, seconds * 1000000, 700) if channel.heard(at, [0], length)}


def by_channels(folder: str) -> Iterator[str]:
    """What is wrong with channels: parts that are shared, sides of a body, a trace, and draws."""
    every, hall = set(range(0, 20000000, 700)), ['hall=burst:0,1,50,10']
    one, other = heard_of('hall', hall), heard_of('hall', hall, 'b')
    if one != other or one == every or one == heard_of('burst:0,1,50,10') or not heard_of('hall+independent:0.5', hall) < one:
        yield 'sinks that share a part of a channel do not meet the same states'
    half = ['hall=burst:0,0.5,50,10']
    if heard_of('hall', half) == heard_of('hall', half, 'b') or not heard_of('hall', half) > every - (every - one):
        yield 'sinks that share a part have not draws of their own'
    left, right = (every - heard_of(f'head.{side}', ['head=body:1,0,30,20']) for side in ('left', 'right'))
    if left & right or not left or not right or abs(len(left) + len(right) - 0.6 * len(every)) > 0.1 * len(every):
        yield f'of a body {len(left)} PDUs are lost on the left, {len(right)} on the right, {len(left & right)} on both, of {len(every)}'
    left, right = (every - heard_of(f'head.{side}', ['head=body:1,0,30,0']) for side in ('left', 'right'))
    if left & right or left | right != every:
        yield 'a body with no time between its shadows leaves a PDU'
    steps = list(itertools.islice(steps_of(own_part('burst:0,1,50,10'), 1, 'a'), 20001))
    for loss, mean in ((0, 50000), (1, 10000)):
        times = [after[0] - before[0] for before, after in zip(steps, steps[1:]) if before[1] == loss]
        if abs(sum(times) / len(times) - mean) > 4 * mean / len(times) ** 0.5:
            yield f'a state of {mean} us lasts {sum(times) / len(times)} in the mean'
    path = os.path.join(folder, 'trace.csv')
    files.write(path, '# ms, loss\n0,0\n100,1\n\n250.7,0\n')
    if every - heard_of(f'trace:{path}') != {it for it in every if 100000 <= it < 250700}:
        yield 'a trace loses other PDUs'
    if every - heard_of(f'trace:{path}', length=444) != {it for it in every if 100000 - 444 <= it < 250700}:
        yield 'a PDU that a loss begins to meet is not lost'
    for (freedom, confidence), wanted in QUANTILES.items():
        if abs(sweep_figures.quantile(confidence, freedom) - wanted) > 0.001:
            yield f"Student's t of {freedom} and {confidence} is {sweep_figures.quantile(confidence, freedom)}"


def replayed(program: str, text: str) -> tuple[int, bytes]:
    done = running.run(program, text.encode())
    return done.returncode, done.stdout


def by_rewriting(program: str, folder: str) -> Iterator[str]:
    """Whether a scenario in which all is heard becomes the one that is made with losses, and keeps its transcript without."""
    made = sweep('48_2', [{'nse': 3, 'irc': 1, 'pto': 2}], BURST, 2.0, 1)
    whole, _ = lossy_runs.made_run(made.groups[0], made.listeners, 2.0, [Channel(parts_of('independent:0', {}), 1, 'all')])
    channel = Channel(made.listeners[0].parts, '1/0', 'all')
    again = ''.join(lossy_runs.rewritten(whole.splitlines(keepends=True), {'0': channel}))
    if again != made.text(made.groups[0], 0)[0] or 'hear' in whole:
        yield 'a scenario in which all is heard does not become the one with losses'
    relay = files.text_of(os.path.join(TOP, 'examples', 'hall-relay.scn')).replace('air 1 1', 'air 1 0')
    path = os.path.join(folder, 'relay.scn')
    files.write(path, relay)
    for loss, is_same in ('0', True), ('0.7', False), ('1', False):
        words = ['--sink', f'0@independent:{loss}', '--sink', f'1@independent:{loss}', '--out', path + '.lost']
        ended = tool('losses', [path, *words])
        got = replayed(program, files.text_of(path + '.lost'))
        if ended.status or got[0] or (got == replayed(program, relay)) != is_same:
            yield f'a relay with a loss of {loss}: {ended.status}, {ended.told}, {got}'


def tool(name: str, words: Sequence[str]) -> Outcome:
    return running.tool(name, words, patience=PATIENCE)


SWEEP = ('--channel', 'hall=burst:0.02,0.8,200,30', '--sink', 'front=1+2@independent:0.2', '--sink', 'back=2@hall+independent:0.01',
         '--nse', '2-3', '--irc', '1,2,3', '--pto', '0-1', '--runs', '2', '--seconds', '1')


def by_shards(programs: list[str], folder: str) -> Iterator[str]:
    """Whether four shards that are merged are the whole sweep, and a cut one is told."""
    built = ['--program', programs[0], '--explain', programs[1]]

    def at(name: str) -> str:
        return os.path.join(folder, name)
    whole = tool('choose', [*SWEEP, *built, '--csv', at('whole.csv'), '--keep', at('kept')])
    for number in range(1, 5):
        tool('choose', [*SWEEP, *built, '--shard', f'{number}/4', '--keep', at(f'shard{number}')])
    merged = tool('choose', ['--merge', *(at(f'shard{it}') for it in (4, 2, 1, 3)), '--csv', at('merged.csv')])
    again = tool('choose', ['--merge', at('kept')])
    is_same = files.text_of(at('whole.csv')) == files.text_of(at('merged.csv'))
    if whole.status or not is_same or not whole.output == merged.output == again.output or 'BadGroup 6 Irc' not in whole.output:
        yield f'shards that are merged are not the whole sweep: {whole.told} {merged.told}'
    part = tool('choose', ['--merge', at('shard1')])
    if part.status or 'lack' not in part.told:
        yield f'a sweep of which runs are missing: {part.told}'
    other = tool('choose', [*SWEEP, *built, '--seed', '2', '--keep', at('other')])
    both = tool('choose', ['--merge', at('shard1'), at('other')])
    if other.status or both.status != 1 or both.told.count('\n') != 1:
        yield f'two sweeps that are merged: {both.status}, {both.told}'


def lines_of(path: str) -> int:
    return files.octets_of(path).count(b'\n') if os.path.exists(path) else 0


def by_stopping(programs: list[str], folder: str) -> Iterator[str]:
    """Whether a sweep that Ctrl-C ends tells and keeps what was made until then."""
    path = os.path.join(folder, 'stopped')
    words = [*SWEEP, '--runs', '5000', '--program', programs[0], '--explain', programs[1], '--keep', path, '--csv', path + '.csv']
    with subprocess.Popen([sys.executable, running.tool_path('choose'), *words], stdout=subprocess.PIPE, stderr=subprocess.PIPE,
                          text=True, start_new_session=True) as sweeping:
        until = time.monotonic() + PATIENCE
        while lines_of(path) < 5 and time.monotonic() < until:
            time.sleep(0.05)
        os.killpg(sweeping.pid, signal.SIGINT)
        output, told = sweeping.communicate(timeout=PATIENCE)
    made = lines_of(path) - 2
    if sweeping.returncode != 130 or f'stopped: {made} of ' not in told or made < 3 or 'Traceback' in told or lines_of(path + '.csv') < 3:
        yield f'a sweep that is stopped ends with {sweeping.returncode}, {made} runs: {told[-300:]!r}'
    merged = tool('choose', ['--merge', path])
    if merged.status or merged.output != output:
        yield f'what a stopped sweep kept is not what it told: {merged.told}'


def by_words(programs: list[str]) -> Iterator[str]:
    """Each call that doesn't end as it should: with 1 and one line, or with 2 and nothing on standard output."""
    built = ['--program', programs[0], '--explain', programs[1]]
    for name, words, status in WORDS:
        ended = running.called(name, [*(built if name == 'choose' else []), *words], patience=PATIENCE)
        is_well = ended.status == status and (status != 2 or not ended.output and ended.told)
        if not is_well or status == 1 and (ended.told.count('\n') != 1 or not ended.told.startswith(f'{name}: ')):
            yield f'{name} {" ".join(words)}: status {ended.status}, not {status}: {ended.told[-200:]!r}{ended.traceback}'
    whole = [(it.status, it.output, 'Traceback' in it.told) for it in (tool('losses', ['--no-such-word']), tool('choose', []))]
    if whole != [(2, '', False), (2, '', False)]:
        yield f'tools in processes of their own end with {whole}'


@step(seconds=20)
def check(replay: str, explain: str) -> Faults:
    """Losses that tools/losses.py and tools/choose.py measure are what is worked out: of copies, of several PDUs a unit, in bursts and by a
    period within the interval of 99.9 % that they state, framed units by counts over the same draws. Sinks that share a part of a channel
    meet the same states. A sweep in four shards is the whole one, and each tool ends as it should with good and bad words and files."""
    programs, paths = sweep_runs.Programs(replay, explain), [replay, explain]
    figures: list[str] = []
    with tempfile.TemporaryDirectory() as folder:
        yield from by_sums(programs, figures)
        yield from by_none(programs)
        yield from by_counts(programs)
        yield from by_channels(folder)
        yield from by_rewriting(replay, folder)
        yield from by_shards(paths, folder)
        yield from by_stopping(paths, folder)
        yield from by_words(paths)
    return (f'{len(CHOICES)} choices lose what is worked out, {", ".join(figures)}; {len(FRAMED)} framed ones by counts; shards, '
            f'channels and a relay; {len(WORDS)} calls')
