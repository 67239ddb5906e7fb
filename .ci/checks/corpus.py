"""The corpus."""
from checks.parts import comparing, scenarios
from checks.parts.steps import Faults, step


@step(seconds=3)
def check(replay: str) -> Faults:
    """Each scenario of corpus/ has its transcript and its exit status."""
    found = list(scenarios.corpus())
    yield from comparing.differences(replay, found)
    return f'{len(found)} scenarios'
