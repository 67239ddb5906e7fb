"""All scenarios of the corpus, of the worked rows and of the examples as captures, and what tshark makes of them. captures.py uses it.

Each goes out, with the refusal named where it ends with one. Those with a sink that heard every PDU of every event from its start on are
taken in again, and have to bring that sink's units."""
import contextlib
import os
import subprocess
from collections import Counter, deque
from collections.abc import Iterator
from typing import Any

import air_run
import link_layer
import run_reading
from checks.parts import files, scenarios
from checks.parts.bent_captures import records
from checks.parts.running import called, run
from checks.parts.scenarios import Scenario
from checks.parts.steps import TOOLS

Counts = Counter[str]
Captures = list[tuple[str, str]]  # names and paths
Units = list[tuple[str, int, str]]  # the stream, the time and the rest of each `unit` row
Span = tuple[str, str]  # the name and the path of a capture
Spans = deque[tuple[int, str, str]]  # with how many packets there are up to its end
PATIENCE = 120  # seconds for a capture
FIELDS = ('_ws.malformed', '_ws.expert.severity', '_ws.expert.message')
BETWEEN, WARNING = '^', 0x600000  # between the values of a field, and the least severity that counts
OF_ANOTHER_LINK = 'Packet size exceed current ATT_MTU'  # tshark takes the MTU of whichever link agreed on one last
APART = 1000000000  # µs between the captures of two scenarios where these are put behind one another
FOLLOWED = ('tuned', 'announce', 'train', 'lose', 'drop', 'control', 'inject')  # lines of a sink that may change what it hears
ANSWERED = ('answered Opcode', 'answered Length', 'answered Rfu', 'answered BisTwice', 'answered Empty', 'that the sink did not send',
            'not sent, but heard')  # what isn't well formed on purpose, and may be called malformed


def said(tool: str, words: list[str]) -> tuple[int, str]:
    """The exit status of a tool and what it says on standard error."""
    ended = called(tool, words, patience=PATIENCE)
    if ended.traceback:
        raise RuntimeError(ended.traceback)
    return ended.status, ended.told


def replay(program: str, text: str) -> str:
    return run(program, text.encode(run_reading.OCTETS)).stdout.decode()


def captures_of_all(program: str, folder: str, counts: Counts, captures: Captures) -> Iterator[tuple[str, str]]:
    """Every scenario out, and in again where a sink heard all. `captures` becomes the names and paths of what was written."""
    for place, scenario in enumerate(scenarios.plain_runs()):
        path, name = os.path.join(folder, f'all{place}'), scenario.title
        files.write(path + '.scn', scenario.text)
        status, told = said('capture_out', [path + '.scn', path, '--program', program])
        counts['scenarios out'] += 1
        why = named_wrongly(status, told, scenario)
        if why:
            yield name, why
            continue
        counts['refusals named'] += scenario.exit_code
        captures.append((name, path))
        why = in_again(program, path, scenario, counts) if scenario.exit_code == 0 else None
        if why:
            yield name, why


def named_wrongly(status: int, told: str, scenario: Scenario) -> str | None:
    """What is wrong with what was said of a scenario that went out, or None."""
    refusal = scenario.transcript.rstrip(b'\n').split(b'\n')[-1].decode(run_reading.OCTETS).split(': ')[-1]
    expected = [f'capture_out: the run ends with a refusal: {refusal}'] if scenario.exit_code else []
    if status != 0 or [line for line in told.split('\n') if 'refusal' in line] != expected:
        return f'status {status}: {told}'
    return told if air_run.NO_PDU in told or air_run.NO_ROOM in told else None


def in_again(program: str, path: str, scenario: Scenario, counts: Counts) -> str | None:
    """What is wrong with a capture that is taken in again for the first sink that heard all, or None."""
    found = hearer(path + '.scn', scenario)
    if found is None:
        return None
    sink, streams, expected = found
    words = ['--out', path + '.in', '--base', str(air_run.BEGIN), '--streams', ','.join(map(str, streams))]
    status, told = said('capture_in', [path, *words])
    if status:
        counts['not taken in'] += 1
        return None if 'several sources' in told or 'settle' in told else told
    got = units_of(replay(program, files.text_of(path + '.in')), '0')
    counts['scenarios in again'] += 1
    counts['units of these'] += len(expected)
    return None if got == expected else f'sink {sink} has {len(expected)} units, and {len(got)} of its capture; they differ'


def units_of(transcript: str, sink: str) -> Units:
    """The stream, the time and the rest of each `unit` row of a sink."""
    words = [line.split(' ', 5) for line in transcript.split('\n') if line.startswith(f'unit {sink} ')]
    return [(stream, int(time), rest) for _, _, stream, _, time, rest in words]


def hearer(path: str, scenario: Scenario) -> tuple[str, list[int], Units] | None:
    """A sink that was put on the only group before its first event and heard every PDU of it, with its streams and its units, or None."""
    transcript = scenario.transcript.decode(run_reading.OCTETS)
    joined: dict[str, list[int] | None] = {}
    later: set[str] = set()
    with contextlib.closing(air_run.Run()) as air_of, open(path, 'rb') as file:
        for step in run_reading.Reading(run_reading.text_of(file), transcript.split('\n')[:-1]):
            air_of.take(step)
            if step.words[0] in FOLLOWED:
                streams = streams_joined(step)
                if step.words[1] in joined or streams is None or air_of.source().events():
                    later.add(step.words[1])
                joined[step.words[1]] = streams
        started = [it for it in air_of.sources if it.events()]
        if len(started) != 1 or air_of.is_relayed:
            return None
        source: Any = started[0]
        air = air_run.Air(air_of, None, None, path)
        hearing = [air.listeners(source, event) for event in range(source.first, source.event)]
    for sink, streams in joined.items():
        wanted = [place for place in source.places() if streams and place[0] in streams]
        is_heard = all((int(sink), 0) in heard.get(place, ()) for heard in hearing for place in wanted)
        if streams and sink not in later and wanted and is_heard:
            units = units_of(transcript, sink)
            return (sink, streams, units) if units else None
    return None


def streams_joined(step: run_reading.Step) -> list[int] | None:
    """The streams with which a line puts its sink on a group, or None."""
    if step.words[0] == 'tuned':
        return [int(it) for it in step.words[2:]]
    answer = step.printed[-1][2:]
    return [int(it) for it in answer[1:]] if answer[:1] == ['OnGroup'] else None


def behind_one_another(captures: Captures, spans: Spans) -> Iterator[link_layer.Packet]:
    """The packets of all captures, each capture at times of its own. `spans` becomes for each how many packets there are up to its end."""
    count = 0
    for place, (name, path) in enumerate(captures):
        for time, octets, comment in records(path):
            count += 1
            yield link_layer.Packet(time + place * APART, octets, comment)
        spans.append((count, name, path))


def tshark(path: str, *fields: str) -> list[list[str]]:
    """What tshark reads of a capture: for each packet the values of these fields; or what it says of its failing."""
    words = ['tshark', '-r', path, '-T', 'fields', '-E', 'separator=|', '-E', f'aggregator={BETWEEN}']
    done = subprocess.run(words + [word for field in fields for word in ('-e', field)], capture_output=True, check=False, timeout=300)
    if done.returncode:
        raise RuntimeError(f'tshark: {done.stderr.decode(errors="replace")}')
    return [line.split('|') for line in done.stdout.decode(errors='replace').removesuffix('\n').split('\n')]


def malformed_in(told: list[list[str]]) -> list[int]:
    """The places of the packets that tshark calls malformed, or of which it says a warning or an error that is not of the MTU."""
    return [place for place, (malformed, severities, messages, *_) in enumerate(told) if malformed or any(
        int(severity, 0) >= WARNING and message != OF_ANOTHER_LINK
        for severity, message in zip(severities.split(BETWEEN), messages.split(BETWEEN)) if severity)]


def is_cut(octets: bytes) -> bool:
    """Whether a packet has a part of a structure, whose rest is in the next one. tshark calls that malformed."""
    fields = link_layer.read_extended(octets[16:-3])
    return octets[14] & 15 == link_layer.EXTENDED and 'aux_pointer' in fields and link_layer.structures(fields['data']) is None


def by_tshark(captures: Captures, folder: str, counts: Counts) -> Iterator[tuple[str, str]]:
    """None of these packets is malformed, but for those that are so on purpose."""
    spans: Spans = deque()
    path = os.path.join(folder, 'behind')
    packets = link_layer.write_capture(path, behind_one_another(captures, spans))
    counts['packets by tshark'] += packets
    told = tshark(path, *FIELDS)
    if len(told) != packets:
        yield 'tshark: all', f'it reads {len(told)} of {packets} packets'
        return
    suspected: Counter[Span] = Counter()
    for place in malformed_in(told):
        while spans and spans[0][0] <= place:
            spans.popleft()
        suspected[spans[0][1:]] += 1
    for name, path in suspected:
        here, malformed = records(path), malformed_in(tshark(path, *FIELDS))
        wrong = [here[it][2] for it in malformed if not is_cut(here[it][1]) and not any(word in here[it][2] for word in ANSWERED)]
        counts['malformed on purpose'] += len(malformed) - len(wrong)
        if wrong:
            yield name, f'tshark calls {len(wrong)} packets malformed, as: {wrong[0]}'


def tshark_version() -> str:
    if not TOOLS['tshark'].is_there():
        return ''
    told = subprocess.run(['tshark', '--version'], capture_output=True, check=False).stdout.decode(errors='replace')
    return ' and ' + ' '.join(told.split('\n')[0].split(' ')[:1] + [it for it in told.split('\n')[0].split(' ') if it[:1].isdigit()][:1])

