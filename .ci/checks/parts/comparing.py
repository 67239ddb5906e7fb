"""What a built program writes, compared with what it should."""
import subprocess
from collections.abc import Callable, Iterator, Mapping, Sequence

from checks.parts.running import run, side_by_side
from checks.parts.scenarios import Scenario

ENDED = (0, 1)  # the exit statuses with which nothing is said on standard error


def difference(program: str, scenario: Scenario, env: Mapping[str, str] | None = None) -> str | None:
    """What differs between a run and the scenario, or None."""
    try:
        got = run(program, scenario.text, scenario.words, env)
    except (OSError, subprocess.TimeoutExpired) as error:
        return str(error)
    if got.returncode != scenario.exit_code or got.stderr and got.returncode in ENDED:
        return f'status {got.returncode}, not {scenario.exit_code} {got.stderr.decode(errors="replace").strip()}'
    if got.stdout == scenario.transcript:
        return None
    has, wanted = got.stdout.split(b'\n'), scenario.transcript.split(b'\n')
    place = next((i for i, (a, b) in enumerate(zip(has, wanted)) if a != b), min(len(has), len(wanted)))
    return f'line {place + 1} of the transcript: {has[place:place + 1]!r}, not {wanted[place:place + 1]!r}'


def each(found: Sequence[Scenario], differs: Callable[[Scenario], str | None]) -> Iterator[str]:
    """The scenarios that differ, each with what does."""
    for scenario, told in zip(found, side_by_side(differs, found)):
        if told:
            yield f'{scenario.title}: {told}'
    if not found:
        yield 'there is none'


def differences(program: str, found: Sequence[Scenario], env: Mapping[str, str] | None = None) -> Iterator[str]:
    """The scenarios of which a program writes something else, each with what differs."""
    return each(found, lambda it: difference(program, it, env))
