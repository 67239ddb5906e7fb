"""Scenarios that are drawn for c/tests/play.c: sinks on one or two sources of either framing, with several links, PDUs in any order.

What replay refuses of a scenario ends it, so a draw need not know what is allowed."""
import dataclasses
import random
from collections.abc import Iterator

LC3, CONFIG, CAPS = '0600000000', '02010802020103046400', '03018000020202050464006400'
ADDRESSES = '665544332211', '010203040506'
IDS = '563412', '9a7856'


def draw_octets(r: random.Random, count: int) -> str:
    return r.randbytes(count).hex() or '-'


@dataclasses.dataclass
class Broadcast:
    """A source as it was drawn, and where its events are."""
    number: int
    is_framed: bool
    origin: int
    interval: int
    sdu: int
    max_sdu: int
    streams: int
    nse: int
    words: str
    done: int = 0
    given: dict[int, int] = dataclasses.field(default_factory=dict)


def draw_broadcast(r: random.Random, number: int, is_framed: bool) -> Broadcast:
    iso = r.choice([4, 6, 8, 12, 16])
    interval, streams, pdu = iso * 1250, r.randint(1, 3), r.choice([4, 6, 10, 20, 40])
    if is_framed:
        sdu = r.choice([interval // 2, interval, interval * 2 // 3, interval + 884, 7500, 10000, 8163])
        max_sdu, pdu, bn = r.choice([4, 10, 25, 60]), max(pdu, 8), r.randint(1, 4)
    else:
        units, parts = r.choice([1, 1, 2, 3]), r.randint(1, 2)
        sdu, max_sdu, bn = interval // units, r.randint(max(1, pdu * (parts - 1) + 1), pdu * parts), units * parts
    nse = bn * r.randint(1, 3)
    irc = r.randint(1, nse // bn)
    ahead = r.choice([0, 1, 2, 5]) if irc < nse // bn else 0
    sub = r.choice([400, 500, 700])
    origin = r.randint(3000, 60000)
    words = (f'group {"framed" if is_framed else "unframed"} {origin} {r.randint(0, 90000)} {iso} {sdu} {max_sdu} {pdu} {streams} {bn} {nse} '
             f'{irc} {ahead} {sub} {sub * nse + r.choice([0, 100])} 1')
    return Broadcast(number, is_framed, origin, interval, sdu, max_sdu, streams, nse, words)


def described(it: Broadcast) -> Iterator[str]:
    yield f'source {it.number}'
    yield it.words
    yield f'ident {it.number} {ADDRESSES[it.number]} {it.number + 3} {IDS[it.number]}'
    yield f'subgroup {LC3} {CONFIG}'
    yield 'meta 03020400'
    yield from (f'bis {bis + 1} 0503{1 << bis:02x}000000' for bis in range(it.streams))


def units(r: random.Random, it: Broadcast) -> Iterator[str]:
    for bis in range(1, it.streams + 1):
        for _ in range(r.randint(0, 3 if it.is_framed else 2)):
            unit = draw_octets(r, r.randint(0, it.max_sdu))
            if it.is_framed:
                before = it.given.get(bis, it.origin)
                it.given[bis] = max(before + r.randint(it.sdu // 2, it.sdu), it.origin + max(0, it.done - 1) * it.interval)
                yield f'unit {bis} {it.given[bis]} {unit}'
            else:
                yield f'unit {bis} - {unit}'


def hearings(r: random.Random, it: Broadcast, sinks: int) -> Iterator[str]:
    """The PDUs of the last events that some sinks hear, in any order, some not at all and some twice."""
    places = [(sink, back, bis, subevent) for sink in range(sinks) for bis in range(1, it.streams + 1) for subevent in range(it.nse)
              for back in range(min(it.done, 3)) if r.random() < (0.7 if back == 0 else 0.1)]
    r.shuffle(places)
    for sink, back, bis, subevent in places:
        if r.random() < 0.05:
            yield f'inject {sink} {back} {bis} {subevent} {draw_octets(r, r.randint(1, 12))}'
        else:
            if r.random() < 0.05:
                yield f'sniff {back} {bis} {subevent}'
            yield f'hear {sink} {back} {bis} {subevent}'


def operation(r: random.Random, sink: int) -> str:
    wish = r.choice(['ffffffff', '03000000', '01000000', '07000000', '00000000'])
    which = r.randrange(2)
    return r.choice([
        f'add {sink} {which} {ADDRESSES[which]} {which + 3} {IDS[which]} {r.randint(0, 2)} 65535 {wish} -',
        f'add {sink} {which} {ADDRESSES[which]} {which + 3} {IDS[which]} 2 65535 {wish} 03020400 {wish} -',
        f'modify {sink} {r.randrange(3)} {r.randint(0, 2)} 65535 {wish} -',
        f'remove {sink} {r.randrange(3)}',
        f'code {sink} {r.randrange(3)} {draw_octets(r, 16)}',
        f'write {sink} {r.choice(["-", "07", "0000", "01", "00", "0509", draw_octets(r, r.randint(1, 20))])}',
    ])


def on_links(r: random.Random, sinks: int) -> Iterator[str]:
    """What assistants do between two events."""
    for sink in range(sinks):
        link = r.randint(1, 3)
        for _ in range(r.choice([0, 0, 1, 2])):
            yield operation(r, sink)
            yield r.choice([f'serve {sink}', f'drain {sink}'])
        if r.random() < 0.15:
            yield from (f'assist {sink} {link}', f'awrite {sink} {link} 01', f'adrain {sink} {link}', f'ashow {sink} {link}')
            yield f'apart {sink} {link}'
        if r.random() < 0.1:
            yield f'forge {sink} {r.randrange(5)} {draw_octets(r, r.choice([0, 3, 20, 30]))}'
        if r.random() < 0.05:
            yield f'control {sink} {r.choice(["0301", "030401130a00", "03080000000000000000", "030105", "03020100", "020100", "00", "-"])}'
        if r.random() < 0.03:
            yield f'lose {sink}'
        if r.random() < 0.1:
            yield f'show {sink}'


def joins(r: random.Random, it: Broadcast, sinks: int) -> Iterator[str]:
    for sink in range(sinks):
        if r.random() < 0.5:
            yield f'announce {sink}'
        elif r.random() < 0.2:
            yield f'tuned {sink} {" ".join(map(str, range(1, r.randint(1, it.streams) + 1)))}'


def scenario(seed: int) -> str:
    """A scenario of version 2."""
    r = random.Random(seed)
    broadcasts = [draw_broadcast(r, number, r.random() < 0.5) for number in range(r.choice([1, 2]))]
    sinks = r.randint(1, 3)
    lines = ['scenario 2']
    for it in broadcasts:
        lines += described(it)
    for sink in range(sinks):
        lines += [f'sink {sink} {r.randint(1, 3)} {r.randint(1, 8)}{r.choice(["", "", " 23", " 60", " 517"])}', f'pac {sink} {LC3} {CAPS} -',
                  f'locate {sink} 07000000', f'context {sink} 0400 0000']
    for it in broadcasts:
        lines += [f'source {it.number}', f'start {r.choice([0, 5, 1000])}']
    for sink in range(sinks):
        which = r.randrange(len(broadcasts))
        lines += [f'add {sink} {which} {ADDRESSES[which]} {which + 3} {IDS[which]} 2 65535 ffffffff -', f'serve {sink}']
    for _ in range(r.randint(3, 10)):
        it = r.choice(broadcasts)
        lines += [f'source {it.number}', *joins(r, it, sinks), *units(r, it), 'event']
        it.done += 1
        lines += [*hearings(r, it, sinks), *on_links(r, sinks)]
    for sink in range(sinks):
        lines += [f'drain {sink}', f'show {sink}']
    return '\n'.join([*lines, *([f'terminate {r.randrange(256)}'] if r.random() < 0.2 else []), 'end', ''])
