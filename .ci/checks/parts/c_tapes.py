"""Tapes that c/tests/fuzz.c begins with: a sink follows a source and hears some of its PDUs.

An octet is read by what the target does with it; behind a call stand the octets that it reads. Octets that are missing are 0."""
import random
from collections.abc import Iterator

# The number of a part, and of calls in its list in c/tests/.
SINK, LINK, SOURCE = 0, 1, 2
NEW_SINK, NOTICE = 0, 18
NEW_LINK = 0
NEW_SOURCE, GIVE, EVENT, PDU, ANNOUNCE = 0, 1, 4, 7, 11


def begun(group: int) -> Iterator[bytes]:
    """A link, a sink that follows, and a source with this group."""
    yield bytes([LINK, NEW_LINK, 0, 2])
    yield bytes([SINK, NEW_SINK, 0, 2, 2, 1])
    # the group and not bent, in the clear, the BASE not bent, the handle, and origin, event and times as they are
    yield bytes([SOURCE, NEW_SOURCE, group, 1, 1, 0, 0, 1, 1, 0, 0])
    yield bytes([SOURCE, ANNOUNCE, 0, 1, 0, 0, 0, 0])
    yield bytes([SINK, NOTICE, 0, 1])


def events(r: random.Random, is_framed: bool) -> Iterator[bytes]:
    """Each stream is given a unit, the event before is over, and some PDUs of this one are heard."""
    for event in range(r.randint(2, 8)):
        for bis in (1, 2):
            yield bytes([SOURCE, GIVE, 0, 5, *r.randbytes(5), bis, is_framed, 1, min(255, 95 * event)])
        yield bytes([SOURCE, EVENT, 0, 1, 1, 0, 1])
        for subevent in range(4):
            yield bytes([SOURCE, PDU, 0, 0, r.randint(1, 2), subevent, 1, 0, 0])


def tapes(count: int = 200) -> Iterator[bytes]:
    r = random.Random(1)
    for number in range(count):
        yield b''.join([*begun(number % 4), *events(r, number % 4 >= 2)])
