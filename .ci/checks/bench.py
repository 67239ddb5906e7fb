"""What bench/ measures, at the least size of each case."""
import os
import subprocess
import tempfile
from collections.abc import Iterator

import cases
import measures
from checks.parts.steps import Faults, step

# texts, and the octets that are decoded of them
FLOOR = [(b'', b''), (b'unit 1 - 0a0b0c\nevent\n', b'0a0b0c'), (b'unit 1 - 0f10\nair 0 1\nunit 1 - 0A\nlocate 0 09', b'0f10')]
WRITE = 65_536  # octets at a time; each begins with the first octet
LENGTHS = (0, 1, WRITE, WRITE + 1, 200_000)


def faults(path: str, programs: dict[str, str]) -> Iterator[str]:
    """What is wrong with the transcripts, by the names of the cases."""
    for case in cases.CASES:
        size = case.sizes[0]
        with open(path, 'w', encoding='ascii') as file:
            file.writelines(case.text(size))
        try:
            transcript = measures.transcript_of(programs[case.program], case.words(size), path)
            fault = 'the words are not known' if transcript is None else case.fault(size, transcript)
        except ValueError as ended:
            fault = str(ended)
        if fault:
            yield f'{case.name}, {size:,}: {fault}'


def floor_faults(program: str) -> Iterator[str]:
    """What is wrong with the floor: in each write it has the octets that it decoded, and zeros behind them."""
    for text, digits in FLOOR:
        for length in LENGTHS:
            ran = subprocess.run([program, str(length)], input=text, capture_output=True, check=False)
            is_whole = ran.returncode == 0 and len(ran.stdout) == length
            if not is_whole or ran.stdout[:WRITE] != digits.ljust(WRITE, b'0')[:length]:
                yield f'floor {length} of {text!r}: status {ran.returncode}, {len(ran.stdout)} octets, {ran.stdout[:40]!r}'
    if (ran := subprocess.run([program], capture_output=True, check=False)).returncode != measures.MISUSED:
        yield f'floor without a word: {ran}'


@step(seconds=3, wants=('cc',))
def check(replay: str, explain: str) -> Faults:
    """Each case of bench/ is run at its least size, and ends with the lines that are worked out for it: texts, the modes of `replay`, and
    `explain`. The floor beside which they are measured decodes the octets of a text, and writes as many as it is asked for."""
    with tempfile.TemporaryDirectory() as folder:
        yield from faults(os.path.join(folder, 'scenario'), {'replay': replay, 'explain': explain})
        if floor := measures.floor_in(folder):
            yield from floor_faults(floor)
    return f'{len(cases.CASES)} cases'
