"""The library for C, C++ and Rust."""
import functools
import os
import re
import shutil
import subprocess
import tempfile
from collections import Counter
from collections.abc import Callable, Iterator

from checks.parts import c_bindings, c_builds, c_cross, c_document, c_drawn, c_logs, c_prototypes, c_tapes, scenarios
from checks.parts.files import write
from checks.parts.running import run, side_by_side
from checks.parts.steps import Faults, step

Log = tuple[str, list[str], list[str]]  # the name of a scenario, its calls, and the lines that they have to write
MOST_CALLS = 200  # of a scenario in which each call for memory fails
NO_ROOM, FAILED = 'the tick found no memory', 'the source has failed'
OF_STREAM = 'a close found no memory'


def corpus_logs() -> Iterator[Log]:
    """The scenarios of the corpus and of the examples of which each step is a call of the library."""
    for it in scenarios.plain_runs():
        try:
            calls, wanted = c_logs.log_of(it.steps)
        except c_logs.Unfit:
            continue
        if wanted:
            yield it.title, calls, wanted


def drawn_log(replay: str, seed: int) -> Log | None:
    """A scenario that is drawn, and what replay writes of it: none where replay refuses its group."""
    text = c_drawn.scenario(seed).encode()
    transcript = run(replay, text).stdout
    if b': BadGroup ' in transcript:
        return None
    calls, wanted = c_logs.log_of(scenarios.steps_of(text, transcript))
    return f'drawn {seed}', calls, wanted


def drawn_logs(replay: str, count: int) -> Iterator[Log]:
    seed = 0
    while count > 0:
        for log in side_by_side(functools.partial(drawn_log, replay), range(seed, seed + count)):
            if log is not None:
                count -= 1
                yield log
        seed += max(count, 100) if count > 0 else 0


def played(program: str, calls: list[str], *words: str) -> subprocess.CompletedProcess[bytes]:
    return run(program, ('\n'.join(calls) + '\n').encode(), words)


def difference(program: str, log: Log) -> str:
    """Where the lines of the player differ from those of replay."""
    name, calls, wanted = log
    ran = played(program, calls)
    rows = ran.stdout.decode(errors='replace').splitlines()
    if ran.returncode:
        return f'{name}: status {ran.returncode}: {ran.stderr.decode(errors="replace")[-800:]}'
    for place, (own, other) in enumerate(zip(rows + [''], wanted + [''])):
        if own != other:
            return f'{name}: line {place + 1}: {own[:200]!r} in place of {other[:200]!r}'
    return '' if len(rows) == len(wanted) else f'{name}: {len(rows)} lines in place of {len(wanted)}'


def is_part(rows: list[str], wanted: list[str]) -> bool:
    """Whether the rows stand in those that are wanted, in their order."""
    left = iter(wanted)
    return all(row in left for row in rows)


def want_of_memory(program: str, log: Log) -> tuple[int, list[str]]:
    """Each call for memory fails in turn: how many there are, and what differs.

    What answers VM_MEMORY is called again. Then all lines are the same. Where a tick has lost units, what it wrote is a part of them."""
    name, calls, wanted = log
    count = int(played(program, calls, '0').stderr)
    found = []
    for place in range(1, count + 1):
        ran = played(program, calls, str(place))
        rows = ran.stdout.decode(errors='replace').splitlines()
        lost = NO_ROOM in rows or FAILED in rows
        rows = [row for row in rows if row not in (NO_ROOM, FAILED, OF_STREAM) and not (lost and row.startswith('sum '))]
        if ran.returncode or (not is_part(rows, wanted) if lost else rows != wanted):
            told = ran.stderr.decode(errors='replace')[-300:]
            found.append(f'{name}: call {place} of {count} for memory fails: status {ran.returncode}: {told}')
    return count, found


def tried(part: Callable[[], None]) -> Iterator[str]:
    try:
        part()
    except c_builds.Broken as broken:
        yield str(broken)


def compilers(*names: str) -> list[str]:
    return [name for name in names if shutil.which(name)]


@step(seconds=900, needs=('cc',), wants=('clang', 'cxx', 'cargo', 'cmake', 'aarch64'))
def check(replay: str, archives: str = '', draws: int = 1000, seconds: int = 120, emulated: int = 300) -> Faults:
    """libvicemint.a builds and calls six symbols. vicemint.h has the exports of the crates, and C++ and Rust have all of it. The player in
    C, built by each compiler under sanitizers, writes for the scenarios of the corpus and for drawn ones what replay writes, octet for
    octet; each stream that a sink is on is played beside it by vm_stream_*, and hands up what the sink does. Where a call for memory fails,
    the call that says so goes on when it is made again. A fuzzer finds nothing in some seconds of random calls. The example, its likes in
    C++ and Rust, over CMake and pkg-config, and the commands of docs/using-from-c.md run. Some of the scenarios, --emulated of them, and
    the example are played on an emulated aarch64 too, where its tools are there. --archives names a folder with the static libraries of the
    crates, which has those for aarch64 in its folder `aarch64`."""
    yield from c_prototypes.differences()
    yield from c_bindings.differences()
    with tempfile.TemporaryDirectory() as room:
        try:
            archives = archives or c_builds.archives_in(room, emulated > 0 and c_cross.is_there())
            library = c_builds.library(room, archives)
            players = [library.player(name) for name in compilers('gcc', 'clang') or ['cc']]
        except c_builds.Broken as broken:
            yield str(broken)
            return 'nothing'
        logs = [*corpus_logs(), *drawn_logs(replay, draws)]
        for program in players:
            yield from filter(None, side_by_side(functools.partial(difference, program), logs))
        small = [log for log in logs if len(log[1]) <= MOST_CALLS and log[0].startswith('drawn')][:20]
        failing = list(side_by_side(functools.partial(want_of_memory, players[0]), small))
        for _, found in failing:
            yield from found
        yield from over(library)
        yield from c_document.differences(library)
        on_other = logs[-emulated:] if emulated and c_cross.is_there(archives) else []
        yield from played_elsewhere(room, archives, on_other)
        try:
            tapes = fuzz(library, seconds) if shutil.which('clang') else 0
        except c_builds.Broken as broken:
            yield str(broken)
            tapes = 0
        return (f'{counted(logs)}, by {len(players)} compilers, {len(on_other)} scenarios on aarch64, {sum(count for count, _ in failing)} calls '
                f'for memory that fail, {tapes} tapes of the fuzzer')


def counted(logs: list[Log]) -> str:
    """How much the scenarios have of each kind."""
    calls = Counter(call.split(' ', 1)[0] for _, made, _ in logs for call in made)
    rows = Counter(row.split(' ', 1)[0] for _, _, wanted in logs for row in wanted)
    return (f'{len(logs)} scenarios with {calls["hear"] + calls["inject"]} PDUs and {rows.total()} lines, of them {rows["unit"]} units and '
            f'{rows["notice"] + rows["anotice"]} notices')


def played_elsewhere(room: str, archives: str, logs: list[Log]) -> Iterator[str]:
    """What differs on another processor."""
    if logs:
        try:
            program = c_cross.player(room, archives)
        except c_builds.Broken as broken:
            yield str(broken)
            return
        yield from filter(None, side_by_side(functools.partial(difference, program), logs))


def fuzz(library: c_builds.Library, seconds: int) -> int:
    """Runs the fuzzer for so long, which has to find nothing: how many tapes it played."""
    begun = os.path.join(library.room, 'tapes')
    os.makedirs(begun)
    for number, tape in enumerate(c_tapes.tapes()):
        write(os.path.join(begun, str(number)), tape)
    words = [library.fuzzer(), f'-max_total_time={seconds}', '-max_len=4096', f'-artifact_prefix={library.room}/', begun]
    runs = re.search(r'Done (\d+) runs', c_builds.done(words, seconds + 300))
    return int(runs[1]) if runs else 0


def over(library: c_builds.Library) -> Iterator[str]:
    """What other languages and tools make of the library, as far as they are here."""
    for compiler in compilers('gcc', 'clang') or ['cc']:
        yield from tried(functools.partial(library.examples, compiler))
    for compiler in compilers('g++', 'clang++'):
        for standard in ('c++17', 'c++20'):
            yield from tried(functools.partial(library.in_cpp, compiler, standard))
    for tool, part in (('cargo', library.in_rust), ('cmake', library.in_cmake), ('pkg-config', library.in_pkg_config)):
        if shutil.which(tool):
            yield from tried(part)
