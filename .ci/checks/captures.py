"""Captures of runs."""
import tempfile
from collections import Counter

from checks.parts.steps import Faults, step


@step(seconds=60, needs=('scapy',), wants=('tshark',))
def check(replay: str) -> Faults:
    """Runs go out as captures and come in again, by tools/capture_out.py and tools/capture_in.py: what is read of a capture that was bent
    brings the program to the units of the run by its `hear` lines. All scenarios of the corpus, of the worked rows and of the examples go
    out, and in again where a sink heard all. tshark finds nothing malformed in what was written, and works out the same access addresses
    of the streams."""
    import scapy

    from checks.parts.capture_runs import all_results
    from checks.parts.corpus_captures import tshark_version
    counts: Counter[str] = Counter()
    with tempfile.TemporaryDirectory() as folder:
        for name, why in all_results(replay, folder, counts):
            counts['cases'] += 1
            if why:
                yield f'{name}: {why.strip()}'
    return (f'with scapy {scapy.__version__}{tshark_version()}: {counts["captures"]} out and in '
            f'again, {counts["deleted"]} PDUs deleted, {counts["put"]} packets put between, {counts["wrong"]} of {counts["units"]} units '
            f'differ; {counts["scenarios out"]} scenarios out, {counts["refusals named"]} of them with their refusal, '
            f'{counts["scenarios in again"]} in again with {counts["units of these"]} units, {counts["not taken in"]} not; '
            f'{counts["packets by tshark"]} packets by tshark, {counts["malformed on purpose"]} malformed on purpose; '
            f'{counts["cases"]} cases')
