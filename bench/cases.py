"""The scenarios that bench/run.py measures: of each case how its text is made, how many events or rounds it has, and how its
transcript ends. All of it follows from the size alone. What is said of the last lines is worked out here from the language, and not
from what a program wrote."""
import collections
import dataclasses
from collections.abc import Callable, Iterator, Sequence

HEAD = 'scenario 2\n'
END = 'end\n'
GENERATED = 'group unframed 20000 40000 8 10000 100 100 2 1 3 2 1 600 1800 1\n'
UNFRAMED = 'group unframed 20000 40000 8 10000 100 100 1 1 2 2 0 2000 0 1\n'
FRAMED = 'group framed 20000 40000 8 10000 100 60 1 2 2 1 0 2000 0 1\n'
EVERY_SUBEVENT = 'group unframed 20000 40000 8 10000 20 20 31 1 31 15 0 274 50 1\n'
EVERY_STREAM = 'group unframed 20000 40000 8 10000 20 20 31 1 1 1 0 0 150 1\n'
EVERY_FRAMED_STREAM = 'group framed 20000 40000 8 10000 40 30 31 2 2 1 0 500 150 1\n'
FAR_AHEAD = 'group unframed 20000 40000 8 10000 20 20 2 1 31 1 1 280 150 1\n'
LONG_UNITS = 'group unframed 20000 40000 16 20000 1500 251 1 6 12 2 0 1200 0 1\n'
GROUP = 'framing origin delay iso sdu max_sdu max_pdu num_bis bn nse irc pto sub spacing phy'.split()
ALL_STREAMS = range(1, 32)
SOURCE = '0 665544332211 3 563412'
STATE = '0000665544332211035634120000010000000000'


Text = Callable[[int], Iterator[str]]  # what is read, in pieces, by how many events or rounds it has
Last = Callable[[int], list[str]]  # the last lines that are written, by the same
Unit = Callable[[int, int], str]  # a line that gives a unit, by its event and stream
Lose = Callable[[int], int]  # what the lines of an event lose


@dataclasses.dataclass(frozen=True)
class Case:
    """A kind of scenario. `sizes` counts its events or rounds; the instructions are counted of as many sizes, from the first on, as
    `counted` says. `text` gives the pieces of what is read, and `last` the last lines printed. `program` is the one that is run, `words`
    are those of its command line, and `is_piped` says that it writes into a pipe."""

    name: str
    sizes: tuple[int, ...]
    text: Text
    last: Last
    counted: int = 2
    program: str = 'replay'
    words: Callable[[int], list[str]] = lambda size: []
    is_piped: bool = False

    def fault(self, size: int, transcript: bytes) -> str | None:
        """What is wrong with a transcript of this size, or None."""
        last = '\n'.join(['', *self.last(size), '']).encode()
        if (b'\n' + transcript).endswith(last):
            return None
        return f'ends with {transcript[-len(last):].decode()!r} and not with {last.decode()!r}'


def no_step(_: int) -> Iterator[str]:
    """A scenario that does nothing: what the program takes to start and to end."""
    yield HEAD + END


def octets(number: int, length: int) -> str:
    """So many octets of one value, in digits."""
    return f'{number % 256:02x}' * length


def sums(sinks: int, units: int, length: int) -> list[str]:
    """The sums of so many sinks, each of which got as many valid units of one length."""
    return [f'sum {sink} {units} {units * length}' for sink in range(sinks)]


# The scenario of the generator, with seed 1.

def draws() -> Iterator[int]:
    """The numbers that the generator draws."""
    state = 1
    while True:
        state = (state * 1103515245 + 12345) % 2**31
        yield 1 + state // 65536 % 9


def generated_steps(events: int) -> Iterator[str]:
    """The lines behind those of the sinks, some at a time."""
    yield f'start 0\ntuned 0 1\ntuned 1 2\nunit 1 - {octets(0, 100)}\nunit 2 - {octets(0, 100)}\n'
    drawn = draws()
    for event in range(events):
        unit = octets(event + 1, 100)
        yield f'unit 1 - {unit}\nunit 2 - {unit}\nevent\nair 0 {next(drawn)}\nair 1 {next(drawn)}\n'
    yield END


def generated_text(events: int) -> Iterator[str]:
    yield f'scenario 1\n{GENERATED}sink 0 1 1\nsink 1 1 1\n'
    yield from generated_steps(events)


def generated_document(events: int) -> Iterator[str]:
    """The same as a document in TOML."""
    yield 'version = 1\nsteps = [\n'
    yield from (f'"{step}",\n' for steps in generated_steps(events) for step in steps.splitlines())
    yield ']\n[group]\n'
    yield from (f'{key} = {word}\n' for key, word in zip(GROUP, GENERATED.replace('unframed', '"unframed"').split()[1:]))
    yield from (f'[[sinks]]\nnumber = {sink}\nstreams = 1\nslots = 1\n' for sink in range(2))


def generated_heard(events: int) -> Iterator[tuple[int, list[bool]]]:
    """Of each event and each of the two sinks which PDUs are heard: two copies of the event's own, and a third of the next one's."""
    drawn = draws()
    for event in range(events):
        for sink in range(2):
            lose, first = next(drawn), (event * 2 + sink) * 3
            yield sink, [(first + subevent) % lose != lose - 1 for subevent in range(3)]


@dataclasses.dataclass
class Counts:
    """What a sink of the generator got: valid units, PDUs that were heard first, those that were heard again, and those that were lost."""

    valid: int = 0
    heard: int = 0
    repeated: int = 0
    missed: int = 0
    is_ahead: bool = False


def generated_counts(events: int) -> list[Counts]:
    """The counts of both sinks."""
    counts = [Counts(), Counts()]
    for sink, (*own, ahead) in generated_heard(events):
        it = counts[sink]
        it.valid += it.is_ahead or any(own)
        first = any(own) and not it.is_ahead
        it.heard += first + ahead
        it.repeated += sum(own) - first
        it.missed += 3 - sum(own) - ahead
        it.is_ahead = ahead
    return counts


def generated_sums(events: int) -> list[str]:
    return [f'sum {sink} {it.valid} {it.valid * 100}' for sink, it in enumerate(generated_counts(events))]


def generated_summary(events: int) -> list[str]:
    units = sum(it.valid for it in generated_counts(events))
    return [f'events {events}', f'units {units} lost {2 * events - units}', *generated_sums(events)]


def generated_notes(events: int) -> list[str]:
    """What is told of each sink at the end."""
    return [f'  # sink {sink} stream {sink + 1} of source 0: units {it.valid} valid, {events - it.valid} lost, 0 never begun, '
            f'0 slots without a unit; PDUs {it.heard} heard, {it.repeated} repeated, 0 late, {it.missed} missed'
            for sink, it in enumerate(generated_counts(events))]


def generated_last(events: int) -> list[str]:
    """The lines of the last event, which migration leaves as they are."""
    return ''.join(collections.deque(generated_text(events), maxlen=2)).splitlines()


def generated_words(events: int) -> list[str]:
    return ['--seed', '1', '--events', str(events)]


def nothing(_: int) -> Iterator[str]:
    """The text of a case that doesn't read standard input."""
    return iter(())


# Streams, units and sinks.

def unframed_unit(length: int) -> Unit:
    return lambda event, stream: f'unit {stream} - {octets(event + stream, length)}\n'


def framed_unit(length: int) -> Unit:
    return lambda event, stream: f'unit {stream} {15000 + 10000 * event} {octets(event + stream, length)}\n'


def broadcast(group: str, streams: Sequence[int], sinks: int, unit: Unit | None, lose: Lose | None) -> Text:
    """A source that sends a unit of each stream an event, and sinks on all of its streams. `lose` gives for each event what its `air`
    lines lose, and is None where nothing is heard; `unit` is None where no unit is given."""
    def text(events: int) -> Iterator[str]:
        yield HEAD + group + 'start 0\n'
        for sink in range(sinks):
            yield f'sink {sink} {len(streams)} 1\ntuned {sink} {" ".join(map(str, streams))}\n'
        for event in range(events):
            if unit:
                yield from (unit(event, stream) for stream in streams)
            yield 'event\n'
            if lose:
                yield from (f'air {sink} {lose(event)}\n' for sink in range(sinks))
        yield END
    return text


def heard_whole(streams: Sequence[int], sinks: int, length: int, less: int = 0) -> Last:
    """The last lines where each sink gets the unit of each stream and event, but for so many events. Those are H where the first event
    lays H slots ahead, for which no unit was given yet."""
    return lambda events: sums(sinks, len(streams) * (events - less), length)


def all_heard(_: int) -> int:
    return 0


def third_loses(event: int) -> int:
    """Each third event loses its second PDU."""
    return 0 if event % 3 else 2


def fifth_lost(_: int) -> int:
    """One PDU of five is lost, and never both of two that are six places apart."""
    return 5


# Assistants and trains. The source has a stream, and what it announces has the octets below.

ANNOUNCED = f'''group unframed 20000 40000 8 10000 4 4 1 1 1 1 0 0 0 1
ident {SOURCE}
subgroup 0600000000 02010802020103040400
meta 03020400
bis 1 050301000000
start 0
'''
TRAIN = ('06165218563412 25165118409c00010106000000000a0201080202010304040004030204000106050301000000 '
         '222c6400040821000000000010040000000000102740000000ffffffff3f0000000000')
EARBUD = 'pac 0 0600000000 03018000020203050404009b00 -\nlocate 0 01000000\n'
ADD = f'add 0 {SOURCE} 2 65535 ffffffff -\n'


def modify(number: int) -> str:
    """A Modify Source that gives the slot another metadata."""
    return f'modify 0 0 2 0 ffffffff {octets(number, 1)}\n'


def modified(number: int) -> str:
    """The state of the slot after that."""
    return STATE[:-2] + '01' + octets(number, 1)


def trains_text(rounds: int) -> Iterator[str]:
    """A round: the sink takes the stream as the source announces it, loses it, takes it by the octets of a train, and loses it again."""
    yield f'{HEAD}{ANNOUNCED}sink 0 1 1\n{EARBUD}{ADD}serve 0\ndrain 0\n'
    yield from (f'announce 0\nlose 0\ntrain 0 17000 {TRAIN}\nlose 0\ndrain 0\n' for _ in range(rounds))
    yield f'show 0\n{END}'


def writes_text(rounds: int) -> Iterator[str]:
    """A round: a source is added, modified and removed, a write in between is refused, and each change is told."""
    yield HEAD + 'sink 0 1 1\n'
    for number in range(rounds):
        yield f'{ADD}serve 0\ntell 0\n{modify(number)}serve 0\ntell 0\nwrite 0 06\nserve 0\nremove 0 0\nserve 0\ntell 0\n'
    yield f'show 0\n{END}'


def drains_text(rounds: int) -> Iterator[str]:
    """A round: eight writes wait and are drained, with their notices, on two links whose notices are cut, so that reads wait."""
    yield f'{HEAD}sink 0 1 8 23\nassist 0 1\n{ADD}drain 0\nadrain 0 1\n'
    for number in range(rounds):
        yield from (modify(8 * number + place) for place in range(8))
        yield 'drain 0\nadrain 0 1\n'
    yield f'show 0\n{END}'


def notices_text(changes: int) -> Iterator[str]:
    """Each change of a slot waits as a notice on four links, and all are delivered at the end."""
    yield f'{HEAD}sink 0 1 1\nassist 0 1\nassist 0 2\nassist 0 3\n{ADD}serve 0\n'
    yield from (f'{modify(number)}serve 0\n' for number in range(changes - 1))
    yield 'drain 0\n' + ''.join(f'adrain 0 {link}\n' for link in range(1, 4)) + 'show 0\n'
    yield ''.join(f'ashow 0 {link}\n' for link in range(1, 4)) + END


def shown(state: str, slots: int = 1) -> list[str]:
    """What `show` prints where slot 0 has a state and its view is equal, and then the sum of a sink that got no unit."""
    empty = [f'{word} 0 {slot} -' for slot in range(1, slots) for word in ('state', 'view')]
    return [f'state 0 0 {state}', f'view 0 0 {state}', *empty, 'sum 0 0 0']


def trains_last(_: int) -> list[str]:
    return shown(STATE)


def writes_last(_: int) -> list[str]:
    return ['reply 0 ok', 'notice 0 0 -', *shown('-')]


def drains_last(rounds: int) -> list[str]:
    return shown(modified(8 * rounds - 1), 8)


def notices_last(changes: int) -> list[str]:
    state = modified(changes - 2)
    views = [f'aview 0 {link} 0 {state}' for link in range(1, 4)]
    return [*shown(state)[:-1], *views, 'sum 0 0 0']


def streams_case(name: str, sizes: tuple[int, ...], group: str, last: Last, *, streams: Sequence[int] = (1,), sinks: int = 1,
                 unit: Unit | None = None, lose: Lose | None = None, counted: int = 2) -> Case:
    return Case(name, sizes, broadcast(group, streams, sinks, unit, lose), last, counted)


MOST_IN_A_DOCUMENT = 2_292  # of 1,048,576 octets
START = 'no step'
CASES = [
    Case(START, (1,), no_step, lambda _: []),
    Case('generated text', (1_000, 10_000, 100_000), generated_text, generated_sums),
    Case('generated text, into a pipe', (1_000, 10_000, 100_000), generated_text, generated_sums, is_piped=True),
    Case('generated text, as a document', (100, 1_000, MOST_IN_A_DOCUMENT), generated_document, generated_sums,
         counted=3, words=lambda _: ['--toml']),
    Case('generated text, migrated', (1_000, 10_000, 100_000), generated_text, generated_last, words=lambda _: ['--migrate']),
    Case('generated text, explained', (1_000, 10_000, 100_000), generated_text, generated_notes, program='explain'),
    Case('generated mode', (1_000, 10_000, 100_000), nothing, generated_summary, words=generated_words),
    streams_case('a stream, unframed', (1_000, 10_000, 250_000), UNFRAMED, heard_whole([1], 1, 100),
                 unit=unframed_unit(100), lose=third_loses),
    streams_case('a stream, framed', (1_000, 10_000, 250_000), FRAMED, lambda events: sums(1, events - (events + 2) // 3, 100),
                 unit=framed_unit(100), lose=third_loses),
    streams_case('31 streams, NSE 31, a sink', (100, 1_000, 10_000), EVERY_SUBEVENT, heard_whole(ALL_STREAMS, 1, 20),
                 streams=ALL_STREAMS, unit=unframed_unit(20), lose=all_heard),
    streams_case('31 streams, NSE 31, eight sinks', (30, 300, 3_000), EVERY_SUBEVENT, heard_whole(ALL_STREAMS, 8, 20),
                 streams=ALL_STREAMS, sinks=8, unit=unframed_unit(20), lose=all_heard),
    streams_case('31 streams, eight sinks that hear nothing', (100, 1_000, 10_000), EVERY_STREAM, lambda _: sums(8, 0, 20),
                 streams=ALL_STREAMS, sinks=8),
    streams_case('H = 30', (1_000, 10_000, 100_000), FAR_AHEAD, heard_whole([1, 2], 1, 20, less=30),
                 streams=(1, 2), unit=unframed_unit(20), lose=fifth_lost),
    streams_case('31 streams, framed', (100, 1_000, 10_000), EVERY_FRAMED_STREAM, heard_whole(ALL_STREAMS, 1, 40),
                 streams=ALL_STREAMS, unit=framed_unit(40), lose=all_heard),
    streams_case('units of 1,500 octets', (100, 1_000, 10_000), LONG_UNITS, heard_whole([1], 1, 1500),
                 unit=unframed_unit(1500), lose=fifth_lost, counted=3),
    Case('notices on four links', (100, 1_000, 10_000), notices_text, notices_last, counted=3),
    Case('trains', (100, 1_000, 10_000), trains_text, trains_last, counted=3),
    Case('writes', (100, 1_000, 10_000), writes_text, writes_last, counted=3),
    Case('drains', (100, 1_000, 10_000), drains_text, drains_last, counted=3),
]
