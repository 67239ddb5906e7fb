"""The examples."""
from checks.parts import comparing, scenarios
from checks.parts.steps import Faults, step


@step(seconds=1)
def check(replay: str) -> Faults:
    """Each scenario of examples/, and each document with --toml, has the transcript that stands beside it, and ends with 1 where that ends
    with a refusal, else with 0."""
    found = [*scenarios.examples(), *scenarios.example_documents()]
    yield from comparing.differences(replay, found)
    return f'{len(found)} examples'
