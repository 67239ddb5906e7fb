"""The allocations of the built program, which are counted, and of which one is refused."""
import tempfile
from collections.abc import Callable, Iterator

from allocations import Allocator
from checks.parts.steps import Faults, step

Text = Callable[[int], str]  # a text by how often it does something
TIMES = [10, 300]
KEPT = 40  # more events than a stream of these groups keeps
UNFRAMED = 'scenario 1\ngroup unframed 20000 40000 8 10000 8 4 1 2 2 1 0 400 0 1\n{}start 0\n{}'
FRAMED = 'scenario 1\ngroup framed 20000 40000 8 10884 8 10 1 2 2 1 0 400 0 1\n{}start 0\n{}'
SINK = 'sink 0 1 1\n', 'tuned 0 1\n'
HEAR = 'hear 0 0 1 0\nhear 0 0 1 1\n'


def unframed_unit(event: int) -> str:
    return 'unit 1 - 0102030405\nevent\n'


def framed_unit(event: int) -> str:
    return f'unit 1 {15000 + 10000 * event} 0102030405060708\nevent\n'


def lines(line: str) -> Text:
    """A text with so many of a line."""
    return lambda times: 'scenario 1\n' + line * times + 'end\n'


def hears(group: str, unit: Text) -> Text:
    """A text in which a sink hears the PDUs of an event so often."""
    return lambda times: group.format(*SINK) + unit(0) + HEAR * times + 'end\n'


def lays(group: str) -> Text:
    """A text in which a source lays so many events more than its streams keep."""
    return lambda times: group.format('', '') + 'event\n' * (KEPT + times) + 'end\n'


def streams(group: str, unit: Text) -> Text:
    """A text in which a source is given a unit, lays it, and a sink hears and hands it up, so often more than its streams keep events."""
    def text(times: int) -> str:
        events = ''.join(unit(event) + 'air 0 0\n' for event in range(KEPT + times))
        return group.format(*SINK) + events + 'end\n'
    return text


def closes(count: Callable[[str], int], group: str, unit: Text, heard: str) -> Callable[[int], int]:
    """How many allocations more so many events take where a sink closes them than where none is there."""
    def more(times: int) -> int:
        events = [unit(event) for event in range(times)]
        alone = group.format('', '') + ''.join(events) + 'end\n'
        return count(group.format(*SINK) + ''.join(event + heard for event in events) + 'end\n') - count(alone)
    return more


def differences(allocator: Allocator) -> Iterator[tuple[str, list[int]]]:
    """What takes more allocations, or fewer, than it should."""
    def count(text: str) -> int:
        return allocator.count(text.encode())

    for name, text in [
        ('comments', lines('#\n')),
        ('long comments', lines('#' + 'x' * 8999 + '\n')),
        ('PDUs of an unframed stream', hears(UNFRAMED, unframed_unit)),
        ('PDUs of a framed stream', hears(FRAMED, framed_unit)),
        ('events of an unframed source', lays(UNFRAMED)),
        ('events of a framed source', lays(FRAMED)),
        ('units of an unframed stream', streams(UNFRAMED, unframed_unit)),
        ('units of a framed stream', streams(FRAMED, framed_unit)),
    ]:
        yield name, [count(text(times)) for times in TIMES]
    for name, group, unit in [('unframed', UNFRAMED, unframed_unit), ('framed', FRAMED, framed_unit)]:
        for heard in ['', 'hear 0 0 1 0\n', 'air 0 0\n']:
            more = closes(count, group, unit, heard)
            yield f'closes of a {name} stream after {heard!r}', [more(times) for times in TIMES]


@step(seconds=1, needs=('cc',))
def check(replay: str) -> Faults:
    """Nothing is allocated by reading a line, by handing a sink a PDU, by closing an event, once the memory is there that a valid unit has
    until it goes to its box, and by laying one, once the streams keep all events that they may, nor by all of it together: runs that
    differ only in how often they do so make as many allocations. A run whose first allocation is refused ends with 6 and writes nothing."""
    with tempfile.TemporaryDirectory() as folder:
        allocator, tried = Allocator(replay, folder), 0
        for name, counts in differences(allocator):
            tried += 1
            if counts[1] != counts[0]:
                yield f'{name}: {counts} allocations for {TIMES} times'
        ran = allocator.refusing(b'scenario 1\nend\n', 1)
        if (ran.returncode, ran.stdout, ran.stderr) != (6, b'', b'no memory\n'):
            yield f'the first allocation refused: {ran}'
    return f'{tried} kinds of runs'
