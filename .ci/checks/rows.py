"""The worked rows, and long generated runs."""
import subprocess
from collections.abc import Iterator

from checks.parts import comparing, scenarios
from checks.parts.running import run
from checks.parts.steps import Faults, step


def generated(replay: str, events: int) -> str:
    return run(replay, words=['--seed', '1', '--events', str(events)]).stdout.decode()


def long_runs(replay: str) -> Iterator[str]:
    """What differs from the summaries that long generated runs have."""
    if generated(replay, 2000) != generated(replay, 2000):
        yield '2000 events: two runs differ'
    events, units, *sums = [line.split(' ') for line in generated(replay, 100000).splitlines()]
    valid, lost = int(units[1]), int(units[3])
    if events != ['events', '100000'] or valid + lost != 200000:
        yield f'100000 events: {events}, {units}'
    if len(sums) != 2 or sum(int(units) for _, _, units, _ in sums) != valid:
        yield f'100000 events: {sums} of {valid} units'
    if any(int(octets) != 100 * int(units) for _, _, units, octets in sums):
        yield f'100000 events: {sums} of 100 octets each'


@step(seconds=1)
def check(replay: str) -> Faults:
    """Each worked row of corpus/rows/ has its transcript. A generated run of 2,000 events gives the same summary twice, and one of 100,000
    events, a text of 44 million octets, the sums that all its units make, in a minute."""
    found = list(scenarios.rows())
    yield from comparing.differences(replay, found)
    try:
        yield from long_runs(replay)
    except (subprocess.SubprocessError, ValueError, IndexError) as error:
        yield f'long runs: {error}'
    return f'{len(found)} rows and two long runs'
