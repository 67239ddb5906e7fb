"""Channels: how likely a PDU is lost, as a function of time. losses.py and choose.py use it.

A channel has parts. Each part gives steps: from when on which loss holds. A PDU is lost by a part with the greatest loss that holds at any
moment while it is sent, and by the channel where any part loses it. Whether it is lost then says a draw of the moment in which it begins.
Steps and draws depend on the seed, the names and the time alone, so whatever is sent meets the same channel."""
import array
import bisect
import functools
import itertools
import math
import random
import re
import sys
from dataclasses import dataclass
from typing import Any

CELL = 50  # µs: PDUs that begin in the same cell have the same draw; those of one stream begin at least 198 µs apart
CELLS = 20000  # cells of a block of draws, which is a second
CERTAIN = 2 ** 32  # the draws are below this
MOST_STEPS = 2000000
KINDS = {  # of each kind what its numbers are
    'independent': ('LOSS',), 'burst': ('LOSS', 'LOSS', 'MS', 'MS'), 'interference': ('LOSS', 'MS', 'PART'),
    'body': ('LOSS', 'LOSS', 'MS', 'MS or 0'),
}
SIDES = ('left', 'right')
NUMBER = re.compile(r'[0-9]{1,9}(?:\.[0-9]{1,9})?')
NAME = re.compile(r'[A-Za-z][A-Za-z0-9_-]{0,30}')
LEAST_MS, MOST_MS = 0.1, 1e7
HELP = """A channel is parts with a + between each two; a PDU is lost where any part loses it:
  independent:LOSS                            each PDU is lost with this chance, from 0 to 1
  burst:GOOD_LOSS,BAD_LOSS,GOOD_MS,BAD_MS     two states (Gilbert-Elliott): the loss in each, and how long each lasts in the mean
  interference:LOSS,PERIOD_MS,DUTY            this loss for the part DUTY of each period, which begins at a drawn moment
  body:LOSS,CLEAR_LOSS,SHADOW_MS,FREE_MS      a body turns: its left or its right is in the shadow for SHADOW_MS in the mean, then
                                              neither for FREE_MS (0: at once the other); of a --channel NAME parts NAME.left, NAME.right
  trace:FILE                                  lines TIME_MS,LOSS with rising times; each loss holds until the next
  NAME                                        the part that --channel NAME=.. has: sinks that name it meet the same states, each with
                                              draws of its own"""


class ChannelFault(Exception):
    """A channel can't be read, with why."""


@dataclass(frozen=True)
class Part:
    """A part of a channel. One that sinks share has a name, and one of a body a side."""
    kind: str
    numbers: tuple = ()
    rows: tuple = ()
    name: str = ''
    side: str = ''


def numbers_of(kind, text):
    """The numbers of a part."""
    needed, words = KINDS[kind], text.split(',')
    if len(words) != len(needed) or not all(map(NUMBER.fullmatch, words)):
        raise ChannelFault(f'{kind}:{text[:40]}: the numbers are {",".join(needed)}')
    numbers = tuple(map(float, words))
    for what, number in zip(needed, numbers):
        if what.startswith('MS') and not (LEAST_MS <= number <= MOST_MS or what.endswith('0') and number == 0):
            raise ChannelFault(f'{kind}:{text[:40]}: a time is from {LEAST_MS:g} to {MOST_MS:.0f} ms')
        if not what.startswith('MS') and number > 1:
            raise ChannelFault(f'{kind}:{text[:40]}: a loss and a part of a period are from 0 to 1')
    return numbers


def rows_of(path):
    """The times and losses of a trace."""
    rows: list[Any] = []
    try:
        with open(path, encoding='ascii') as file:
            for place, line in enumerate(file, 1):
                words = line.strip().split(',')
                if line.strip() == '' or line.startswith('#'):
                    continue
                if len(words) != 2 or not all(NUMBER.fullmatch(it.strip()) for it in words) or float(words[1]) > 1:
                    raise ChannelFault(f'{path}: line {place} is not TIME_MS,LOSS')
                if rows and float(words[0]) <= rows[-1][0]:
                    raise ChannelFault(f'{path}: the time of line {place} is not above the one before')
                rows.append((float(words[0]), float(words[1])))
    except (OSError, UnicodeError) as error:
        raise ChannelFault(f'{path}: {error}') from error
    if not rows:
        raise ChannelFault(f'{path}: no line has a time and a loss')
    return tuple(rows)


def own_part(text):
    """A part with its kind."""
    kind, colon, rest = text.partition(':')
    if kind == 'trace' and rest:
        return Part(kind, rows=rows_of(rest))
    if not colon or kind not in KINDS:
        raise ChannelFault(f'{text[:40]!a} is no channel; they are {", ".join(KINDS)} and trace, or the name of a --channel')
    return Part(kind, numbers_of(kind, rest))


def named_of(texts):
    """The parts of `--channel NAME=KIND:..`, by their names."""
    named = {}
    for text in texts:
        name, equals, rest = text.partition('=')
        if not equals or not NAME.fullmatch(name) or name in KINDS or name in named:
            raise ChannelFault(f'--channel {text[:40]!a}: it is NAME=CHANNEL, and a name stands once and is no kind')
        part = own_part(rest)
        named[name] = Part(part.kind, part.numbers, part.rows, name)
    return named


def part_of(text, named):
    """A part of a sink's channel: of its own, or one that is named."""
    name, dot, side = text.partition('.')
    if name not in named:
        part = own_part(text)
        if part.kind == 'body':
            raise ChannelFault('body: it needs a name, as in --channel head=body:..; sinks then have head.left and head.right')
        return part
    part = named[name]
    if (part.kind == 'body') != bool(dot) or dot and side not in SIDES:
        raise ChannelFault(f'{text[:40]!a}: a body has the sides {name}.left and {name}.right, another channel none')
    return Part(part.kind, part.numbers, part.rows, name, side)


def parts_of(text, named):
    """The parts of a sink's channel."""
    return tuple(part_of(it, named) for it in text.split('+'))


def burst(draw, good, bad, good_ms, bad_ms):
    is_bad, at = draw.random() * (good_ms + bad_ms) < bad_ms, 0.0
    while True:
        yield at, bad if is_bad else good
        at += draw.expovariate(1) * 1000 * (bad_ms if is_bad else good_ms)
        is_bad = not is_bad


def interference(draw, loss, period_ms, duty):
    begin = -draw.random()
    for number in itertools.count():
        yield (begin + number) * period_ms * 1000, loss if duty else 0.0
        if 0 < duty < 1:
            yield (begin + number + duty) * period_ms * 1000, 0.0


def body(draw, side, loss, clear, shadow_ms, free_ms):
    shadowed, at = draw.choice(SIDES), 0.0
    is_free = draw.random() * (shadow_ms + free_ms) < free_ms
    while True:
        yield at, loss if shadowed == side and not is_free else clear
        at += draw.expovariate(1) * 1000 * (free_ms if is_free else shadow_ms)
        is_free = not is_free and free_ms > 0
        if not is_free:
            shadowed = SIDES[shadowed == SIDES[0]]


def steps_of(part, seed, key):
    """The steps of a part, the first of which is at 0 or before."""
    draw = random.Random(f'{seed}/{part.name or key}/steps')
    if part.kind == 'trace':
        return iter([(0.0, part.rows[0][1])] + [(at * 1000, loss) for at, loss in part.rows])
    if part.kind == 'independent':
        return iter([(0.0, part.numbers[0])])
    if part.kind == 'body':
        return body(draw, part.side, *part.numbers)
    kinds: dict[str, Any] = {'burst': burst, 'interference': interference}
    return kinds[part.kind](draw, *part.numbers)


def merged(parts):
    """The steps of all parts together."""
    losses = [next(it)[1] for it in parts]
    nexts: list[Any] = [next(it, None) for it in parts]
    yield -math.inf, 1 - math.prod(1 - it for it in losses)
    while any(nexts):
        place = min((place for place, it in enumerate(nexts) if it), key=lambda place: nexts[place][0])
        at, losses[place] = nexts[place]
        nexts[place] = next(parts[place], None)
        yield at, 1 - math.prod(1 - it for it in losses)


class Channel:
    """The channel of a sink. Times are µs from 0 on."""

    def __init__(self, parts, seed, name):
        self.name, self.seed = name, seed
        self.steps: Any = merged([steps_of(it, seed, f'{name}/{place}') for place, it in enumerate(parts)])
        self.starts, self.limits = [], []  # from when on a PDU is lost whose draw is below which limit
        self.block = functools.lru_cache(maxsize=64)(self.drawn_block)

    def extend(self, until):
        """Takes the steps up to the first that is later than this."""
        while self.steps is not None and (not self.starts or self.starts[-1] <= until):
            step: Any = next(self.steps, (None, None))
            at, loss = step
            if at is None:
                self.steps = None
            elif self.starts and self.starts[-1] == at:
                self.limits[-1] = round(loss * CERTAIN)
            elif len(self.starts) == MOST_STEPS:
                raise ChannelFault(f'the channel of {self.name} changes more than {MOST_STEPS} times')
            else:
                self.starts.append(at)
                self.limits.append(round(loss * CERTAIN))

    def drawn_block(self, number):
        draws = array.array('I')
        draws.frombytes(random.Random(f'{self.seed}/{self.name}/draws/{number}').randbytes(4 * CELLS))
        if sys.byteorder == 'big':
            draws.byteswap()
        return draws

    def draws(self, at, offsets):
        """The draws of the moments that lie so far behind this one."""
        first, last = at // (CELL * CELLS), (at + offsets[-1]) // (CELL * CELLS)
        if first == last:
            block, begin = self.block(first), at - first * CELL * CELLS
            return [block[(begin + it) // CELL] for it in offsets]
        cells = [(at + it) // CELL for it in offsets]
        return [self.block(it // CELLS)[it % CELLS] for it in cells]

    def heard(self, at, offsets, length):
        """The places of those PDUs that are heard: PDUs of this length that begin so far behind a moment, by rising offsets."""
        last = at + offsets[-1] + length
        self.extend(last)
        first = bisect.bisect(self.starts, at) - 1
        after = bisect.bisect(self.starts, last, first)
        if after == first + 1:
            limit = self.limits[first]
            if limit == 0:
                return range(len(offsets))
            return [place for place, draw in enumerate(self.draws(at, offsets)) if draw >= limit]
        limits = [self.limit(at + it, length, first, after) for it in offsets]
        return [place for place, (draw, limit) in enumerate(zip(self.draws(at, offsets), limits)) if draw >= limit]

    def limit(self, begin, length, first, after):
        """The greatest limit while a PDU is sent, which lies between these steps."""
        one = bisect.bisect(self.starts, begin, first, after) - 1
        other = bisect.bisect(self.starts, begin + length, first, after)
        return max(self.limits[one:other])
