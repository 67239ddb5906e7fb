"""What is lost by sums, and by counts of another kind than the tools make: of copies, of bursts, of a period, of framed units. losses.py
uses it."""
import math
import typing
from collections.abc import Sequence

Matrix = list[list[float]]
Group = typing.Any  # of big_groups.py
PHASES = 20000


def copies_of(group: Group) -> list[int]:
    """When the copies of a payload are sent, by the anchor of its event, where BN is 1."""
    every = range(group.nse)
    return sorted(it * group.sub - max(0, it - group.irc + 1) * group.pto * group.interval for it in every)


def of_copies(loss: float, copies: int, pdus: int = 1) -> float:
    """Independent losses: a unit of so many PDUs, each sent so often."""
    return 1 - (1 - loss ** copies) ** pdus


def product(one: Matrix, other: Matrix) -> Matrix:
    return [[sum(one[i][k] * other[k][j] for k in (0, 1)) for j in (0, 1)] for i in (0, 1)]


def of_burst(numbers: Sequence[float], times: Sequence[int], length: int) -> float:
    """Two states: how likely all PDUs are lost which are sent at these times for so long, by the chain of two states. A PDU has the loss of
    the bad state where that holds at any moment while it is sent."""
    good, bad, good_time, bad_time = numbers[0], numbers[1], numbers[2] * 1000, numbers[3] * 1000
    of_good, of_bad = good_time / (good_time + bad_time), bad_time / (good_time + bad_time)

    def moved(time: float) -> Matrix:
        left = math.exp(-time * (1 / good_time + 1 / bad_time))
        return [[of_good + of_bad * left, of_bad * (1 - left)], [of_good * (1 - left), of_bad + of_good * left]]
    through, stays = moved(length), math.exp(-length / good_time)
    sent = [[good * stays + bad * (through[0][0] - stays), bad * through[0][1]], [bad * through[1][0], bad * through[1][1]]]
    all_lost = sent
    for before, after in zip(times, times[1:]):
        all_lost = product(product(all_lost, moved(after - before - length)), sent)
    return of_good * sum(all_lost[0]) + of_bad * sum(all_lost[1])


def of_period(numbers: Sequence[float], times: Sequence[int], length: int) -> float:
    """A period, in a part of which each PDU is lost: for which part of the moments at which it may begin all PDUs meet it."""
    loss, period, duty = numbers[0], numbers[1] * 1000, numbers[2]
    found = 0.0
    for step in range(PHASES):
        begin = (step + 0.5) / PHASES * period
        met = [(it - begin) % period < duty * period or (it - begin) % period + length >= period for it in times]
        found += loss ** len(times) if all(met) else 0
    return found / PHASES


def laid(group: Group, units: Sequence[int], events: int) -> list[list[int]]:
    """For each unit of a framed stream, of so many octets at so many times, the numbers of the PDUs that carry it."""
    numbers: list[list[int]] = [[] for _ in units]
    waiting = left = 0
    for number in range(events * group.bn):
        anchor, room = group.origin + number // group.bn * group.interval, group.max_pdu
        while True:
            if left and room >= 3:
                part = min(left, room - 2)
                room -= part + 2
                left -= part
                numbers[waiting - 1].append(number)
            elif not left and waiting < len(units) and units[waiting] <= anchor and room >= 6:
                part = min(group.octets, room - 5)
                room -= part + 5
                left = group.octets - part
                numbers[waiting].append(number)
                waiting += 1
            else:
                break
    return numbers


def heard_numbers(group: Group, text: str, sink: int, stream: int) -> tuple[set[int], int]:
    """Which payload numbers of a stream a sink hears by the lines of a scenario."""
    event = -1
    heard: set[int] = set()
    for line in text.split('\n'):
        words = line.split(' ')
        if words[0] == 'event':
            event += 1
        elif words == ['air', str(sink), '0']:
            heard |= {payload(group, event, it) for it in range(group.nse)}
        elif words[:2] == ['hear', str(sink)] and words[3] == str(stream):
            heard.add(payload(group, event, int(words[4])))
    return heard, event + 1


def payload(group: Group, event: int, subevent: int) -> int:
    ahead = max(0, subevent // group.bn - group.irc + 1) * group.pto
    return (event + ahead) * group.bn + subevent % group.bn


def of_framed(group: Group, text: str, sink: int, stream: int) -> tuple[int, int, int]:
    """How many framed units of a scenario are valid, lost and never begun."""
    heard, events = heard_numbers(group, text, sink, stream)
    times = [int(it.split(' ')[2]) for it in text.split('\n') if it.startswith(f'unit {stream} ')]
    valid = lost = unbegun = 0
    for numbers in laid(group, times, events + group.horizon + 1):
        closed = [it for it in numbers if it < events * group.bn]
        if not closed:
            continue
        if closed[0] not in heard:
            unbegun += 1
        elif not all(it in heard for it in closed):
            lost += 1
        elif closed == numbers:
            valid += 1
    return valid, lost, unbegun
