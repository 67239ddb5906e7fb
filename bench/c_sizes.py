#!/usr/bin/env python3
"""c_sizes.py [FOLDER]: what the library for C takes, of libvicemint.a in FOLDER, which is build/c where none is named: the size of its code
by part, the stack of its calls, the memory of sources and of sinks by their kind, and the instructions of a call.

They are those of c/tests/measure_source.c and c/tests/measure_sink.c: 48_2, which is a frame of 100 octets each 10 ms, sent three times; a
sink has 2 receive states. `ahead` has each frame in the events 15 and 30 before its own too. Memory is counted by memory_counted.c, and
`block` is what memory_block.c used, with its headers. The stack is told twice, with the return address of the call: at most, by the frames
of the functions that a call may reach, without what the back end for memory takes; and as it was measured, by painted stacks under each
call of the corpus' scenarios and of tapes of the fuzzer, with malloc below. Instructions are counted by valgrind's callgrind, from entry to
return. It needs a C compiler, `size` and `objdump`, and valgrind for the last table."""
import contextlib
import os
import platform
import random
import re
import shutil
import subprocess
import sys
import tempfile
import typing
from collections.abc import Iterator

TOP = os.path.dirname(os.path.dirname(os.path.abspath(__file__)))
sys.dont_write_bytecode = True
sys.path[:0] = [os.path.join(TOP, '.ci'), os.path.join(TOP, 'tools')]
from checks.parts import c_builds, c_logs, c_tapes, scenarios  # noqa: E402
from checks.parts.c_prototypes import declared  # noqa: E402
from checks.parts.files import text_of  # noqa: E402

C = os.path.join(TOP, 'c')
EVENTS = 1000
KINDS = ('unframed', 'framed', 'ahead')
TRAINS, PDUS, UNITS, OF_EVENTS = range(4)
# how often each call is made
CALLS = {'vm_sink_hear': PDUS, 'vm_sink_tick': OF_EVENTS, 'vm_sink_next_unit': UNITS, 'vm_sink_train': TRAINS,
         'vm_source_give': UNITS, 'vm_source_event': OF_EVENTS, 'vm_source_pdu': PDUS, 'vm_source_announce': TRAINS}
BACK_ENDS: dict[str, tuple[str, ...]] = {'counted': (), 'block': ('-DOF_BLOCK', '-DVM_BLOCK=1048576')}
PARTS = {'sink_c': 'sinks', 'link_c': 'links', 'source_c': 'sources', 'stream_c': 'one stream alone', 'layouts_c': 'layouts'}


def built(room: str, archive: str, name: str, part: str, memory: str, *flags: str) -> str:
    program = os.path.join(room, name)
    subprocess.run(['cc', '-std=c99', '-O2', f'-I{C}', *flags, '-o', program, f'{C}/tests/measure_{part}.c', f'{C}/memory_{memory}.c', archive],
                   check=True)
    return program


def code(archive: str) -> None:
    """Prints the sizes of the members of the archive: code with constants, and data."""
    print('| Part | Octets of code | of data |\n|---|---|---|')
    total = [0, 0]
    for line in subprocess.run(['size', archive], capture_output=True, text=True, check=True).stdout.splitlines()[1:]:
        words = line.split()
        sizes = [int(words[0]), int(words[1]) + int(words[2])]
        total = [one + other for one, other in zip(total, sizes)]
        print(f'| {PARTS.get(words[5].removesuffix(".o"), words[5])} | {sizes[0]:,} | {sizes[1]:,} |')
    print(f'| all | {total[0]:,} | {total[1]:,} |\n')


class Frame(typing.NamedTuple):
    """What a function puts on the stack, in octets with its return address, and which functions it calls or jumps to."""
    size: int
    calls: frozenset[str]


OUTSIDE = ('memcpy', 'memmove', 'memset', 'rattle_alloc', 'rattle_realloc', 'rattle_dealloc')
MEMBER = re.compile(r'\S+: +file format \S+')
FUNCTION = re.compile(r'[0-9a-f]+ <(.+)>:')
TAKEN = re.compile(r'\tsub +\$0x([0-9a-f]+),%rsp')
ALIGNED = re.compile(r'\tand +\$0xf+([0-9a-f]0),%rsp')
GOES = re.compile(r'\t(call|j\w+) +')
TO = re.compile(r'R_X86_64_(?:PLT32|PC32)\s+(?:\.text\.(?:unlikely\.)?)?(.+)-0x4$|\t(?:call|j\w+) +[0-9a-f]+ <([^+]+)>$')


def frames(archive: str) -> list[dict[str, Frame]]:
    """The frames of the functions of each member of an archive, by their code: what is pushed, and what is taken off the pointer of the
    stack."""
    words = ['objdump', '--disassemble', '--reloc', '--no-show-raw-insn', archive]
    members: list[dict[str, Frame]] = []
    name = goes = ''
    for line in subprocess.run(words, capture_output=True, text=True, check=True).stdout.splitlines():
        if MEMBER.fullmatch(line):
            members.append({})
            name = ''
        elif begins := FUNCTION.fullmatch(line):
            name = begins[1]
            members[-1][name] = Frame(8, frozenset())
        elif name:
            is_behind = 'R_X86_64' in line  # a relocation stands in the line behind what goes there
            how = goes if is_behind else how_it_goes(line)
            members[-1][name] = with_line(members[-1][name], line, '' if how == 'call' else name, bool(how))
            goes = '' if is_behind else how
    return members


def how_it_goes(line: str) -> str:
    """Whether a line of code calls or jumps, and how."""
    goes = GOES.search(line)
    if goes and line[goes.end()] == '*' and goes[1] == 'call':
        raise ValueError(f'a call by a pointer, so nothing bounds the stack: {line}')
    return goes[1] if goes else ''


def with_line(frame: Frame, line: str, own: str, goes: bool) -> Frame:
    """A frame with what a line of its function's code adds. A jump within the function adds nothing."""
    if taken := TAKEN.search(line):
        return frame._replace(size=frame.size + int(taken[1], 16))
    if aligned := ALIGNED.search(line):
        return frame._replace(size=frame.size + 0x100 - int(aligned[1], 16))
    if '\tpush ' in line:
        return frame._replace(size=frame.size + 8)
    to = TO.search(line) if goes else None
    name = (to[1] or to[2]) if to else own
    if name.startswith('.'):
        raise ValueError(f'a place in a section, and no function: {line}')
    return frame if name == own else frame._replace(calls=frame.calls | {name})


def deepest(name: str, member: dict[str, Frame], above: tuple[str, ...] = ()) -> int:
    """The most octets of stack under a function; what the member calls from outside takes none."""
    if name in above:
        raise ValueError(f'{name} calls itself, so nothing bounds its stack')
    it = member[name] if name not in OUTSIDE else Frame(0, frozenset())
    return it.size + max((deepest(to, member, (*above, name)) for to in it.calls), default=0)


def measured_stack(room: str, archive: str, calls: list[str]) -> dict[str, int]:
    """The most octets under each call that the scenarios of the corpus and the fuzzer's tapes make."""
    with open(os.path.join(room, 'calls.h'), 'w', encoding='ascii') as file:
        file.writelines(f'CALL({number}, {name})\n' for number, name in enumerate(calls))
    own = [f'{C}/tests/measure_stack.{kind}' for kind in ('S', 'c')] + [f'{C}/memory_counted.c', archive]
    # the loader finds no name during a call, which would take stack of its own
    flags = ['-O2', '-Wl,-z,now', f'-I{C}', f'-I{room}', *(f'-Wl,--wrap={name}' for name in calls)]
    runs: list[tuple[list[str], bytes]] = []
    play, tapes = os.path.join(room, 'play'), os.path.join(room, 'tapes')
    subprocess.run(['cc', *flags, '-o', play, *c_builds.PLAYER, *own], check=True)
    subprocess.run(['cc', *flags, '-o', tapes, f'{C}/tests/measure_tapes.c', *c_builds.FUZZER, *own], check=True)
    for it in scenarios.plain_runs():
        with contextlib.suppress(c_logs.Unfit):
            runs.append(([play], '\n'.join([*c_logs.log_of(it.steps)[0], '']).encode()))
    runs.append(([tapes, *taped(room)], b''))
    most = dict.fromkeys(calls, 0)
    for words, sent in runs:
        for line in subprocess.run(words, input=sent, capture_output=True, check=True).stderr.decode().splitlines():
            name, octets = line.split()
            most[name] = max(most[name], int(octets))
    return most


def taped(room: str) -> Iterator[str]:
    """Files with the tapes that the fuzzer begins with, each once as it is and often with random octets behind it."""
    r = random.Random(1)
    for number, tape in enumerate(c_tapes.tapes(2000)):
        path = os.path.join(room, f'tape{number}')
        with open(path, 'wb') as file:
            file.write(tape + (r.randbytes(2000) if number % 4 else b''))
        yield path


def stack(room: str, archive: str) -> None:
    """Prints the stack of the calls of each part: the deepest by the code, and the deepest as it was measured."""
    calls = list(declared(text_of(os.path.join(C, 'vicemint.h'))))
    by_code = {name: deepest(name, member) for member in frames(archive) for name in calls if name in member}
    measured = measured_stack(room, archive, calls) if platform.machine() == 'x86_64' else dict.fromkeys(calls, 0)
    print('| Calls | Deepest by the code | Octets | Deepest as measured | Octets |\n|---|---|---|---|---|')
    for part in ('vm_sink', 'vm_link', 'vm_source', 'vm_stream', 'air'):
        own = [name for name in calls if name.startswith(part)]
        most, seen = max(own, key=by_code.__getitem__), max(own, key=measured.__getitem__)
        print(f'| `{part}_*` | `{most}` | {by_code[most]:,} | `{seen}` | {measured[seen]:,} |')
    unseen = [name for name in calls if not measured[name]]
    print(f'not measured: {", ".join(unseen)}\n' if unseen else '')


class Made(typing.NamedTuple):
    """What a program of c/tests sent, and what it tells by name: the memory that it took, and how much it made."""
    sent: bytes
    told: dict[str, list[int]]


def made(words: list[str], sent: bytes = b'') -> Made:
    ran = subprocess.run(words, input=sent, capture_output=True, check=True)
    return Made(ran.stdout, {line[0]: [int(it) for it in line[1:]] for line in map(str.split, ran.stderr.decode().splitlines())})


def instructions(words: list[str], sent: bytes, call: str, room: str) -> int:
    """Those of all calls of one kind."""
    of_valgrind = ['valgrind', '--tool=callgrind', f'--toggle-collect={call}', f'--callgrind-out-file={room}/callgrind.out']
    ran = subprocess.run([*of_valgrind, *words], input=sent, capture_output=True, check=True).stderr.decode()
    found = re.search(r'Collected : (\d+)', ran)
    return int(found[1]) if found else 0


def memory(room: str, archive: str) -> dict[str, bytes]:
    """Prints what memory each kind of source and of sink takes, and gives back what stereo sources sent."""
    programs = {(part, back_end): built(room, archive, f'{part}_{back_end}', part, back_end, *flags)
                for part in ('source', 'sink') for back_end, flags in BACK_ENDS.items()}
    rows: dict[str, list[str]] = {'source': [], 'sink': []}
    sent: dict[str, bytes] = {}
    for kind in KINDS:
        for streams in (1, 2):
            words = [kind, str(streams), str(EVENTS)]
            of_source = [made([programs['source', it], *words]) for it in BACK_ENDS]
            sent[kind] = of_source[0].sent
            of_sink = [made([programs['sink', it]], sent[kind]) for it in BACK_ENDS]
            for part, (own, of_block) in (('source', of_source), ('sink', of_sink)):
                begun, end = own.told['begun'], own.told['end']
                rows[part].append(f'| {part}, {streams} of 48_2, {kind} | {begun[0]:,} | {begun[1]} | {end[2]:,} | {end[3]} | '
                                  f'{of_block.told["block"][0]:,} |')
    print('| Of | Octets, as it begins | in blocks | at most | in blocks | of a block |\n|---|---|---|---|---|---|')
    print('\n'.join([*rows['sink'], *rows['source'], '']))
    return sent


def calls(room: str, archive: str, sent: dict[str, bytes]) -> None:
    """Prints the instructions of a call, on average."""
    programs = {part: built(room, archive, f'{part}_traced', part, 'counted', '-g') for part in ('source', 'sink')}
    print('| Call | ' + ' | '.join(KINDS) + ' |\n|---|' + '---|' * len(KINDS))
    for call, often in CALLS.items():
        row = []
        for kind in KINDS:
            words = [programs['sink']] if call.startswith('vm_sink') else [programs['source'], kind, '2', str(EVENTS)]
            times = [*made(words, sent[kind]).told['made'], EVENTS][often]
            row.append(f'{round(instructions(words, sent[kind], call, room) / times):,}')
        print(f'| `{call}` | ' + ' | '.join(row) + ' |')


def main() -> int:
    words = sys.argv[1:]
    if words in (['-h'], ['--help']):
        print(__doc__)
        return 0
    archive = os.path.join(words[0] if words else os.path.join(TOP, 'build', 'c'), 'libvicemint.a')
    if len(words) > 1 or not os.path.isfile(archive):
        print(f'{archive} is no file: c/build.sh makes it; usage: c_sizes.py [FOLDER]', file=sys.stderr)
        return 2
    with tempfile.TemporaryDirectory() as room:
        code(archive)
        stack(room, archive)
        sent = memory(room, archive)
        if shutil.which('valgrind'):
            calls(room, archive, sent)
        else:
            print('valgrind is missing (apt-get install valgrind), so instructions are not counted')
    return 0


if __name__ == '__main__':
    sys.exit(main())
