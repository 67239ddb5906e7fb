"""Runs the steps of the gate that come behind `rt ci`.

A step is a module of checks/ with a function `check` under `@step(seconds=..)`: its docstring says what it shows, its parameters `replay`
and `explain` are the programs that it is given, keyword parameters with a default are its options, and `needs` and `wants` name the tools
without which it, or a part of it, is skipped. It yields each fault and gives back in a line what it tried; what it shares with others
stands in checks/parts/. Put its name into STEPS below, where it should run, and try it by `.ci/run NAME`."""
import argparse
import importlib
import os
import signal
import subprocess
import sys
import textwrap
import time
import types
import typing

from checks import TOP
from checks.parts.steps import TOOLS, Step, Tool, python_with

STEPS = ('trust', 'scripts', 'lint', 'examples', 'corpus', 'coverage', 'rows', 'ends', 'documents', 'explained', 'allocations', 'bench',
         'in_turn', 'pieces', 'timeline', 'pages', 'transcript_rows', 'captures', 'logs', 'audio', 'losses', 'doc_commands', 'bent_inputs',
         'comparison', 'c_library')
USAGE = 'usage: check [NAME [PROGRAM ..] [OPTION ..] | --list | --help | --version]'
HELP = f"""{USAGE}

check             runs all steps, over the programs that are built
check NAME ..     runs one step, over these programs where some are named; `check NAME --help` tells what it takes
check --list      tells of each step what it shows, what it needs, and how long it usually takes
"""
FAILED, MISUSED, SKIPPED, LEFT_OUT = 1, 2, 3, 4  # how a step ends
MOST = 1500  # characters of a fault that are shown


def step_of(name: str) -> Step:
    found: Step = importlib.import_module(f'checks.{name}').check
    return found


def built(program: str) -> str:
    """Where a program is built, by its name."""
    return os.path.join(TOP, 'crates', f'{program}_command', 'out', f'{program}_command')


def parsed(step: Step, words: list[str]) -> dict[str, typing.Any]:
    """What a step is given, by these words."""
    parser = argparse.ArgumentParser(prog=f'check {step.name}', description=step.shows, allow_abbrev=False,
                                     formatter_class=argparse.RawDescriptionHelpFormatter)
    for program in step.programs:
        parser.add_argument(program, nargs='?', default=built(program), help='that one which is built, where none is named')
    for option in step.options:
        if option.default is False:
            parser.add_argument(f'--{option.name}', action='store_true')
        else:
            kinds = [it for it in typing.get_args(option.annotation) or (option.annotation,) if it is not types.NoneType]
            parser.add_argument(f'--{option.name}', type=kinds[0], default=option.default)
    asked = vars(parser.parse_args(words))
    for program in step.programs:
        asked[program] = os.path.abspath(asked[program])
        if not os.path.isfile(asked[program]) or not os.access(asked[program], os.X_OK):
            parser.error(f'{asked[program]} is no program; ./prove builds it')
    return asked


def tell_skipped(step: Step, lacking: list[Tool], part: str = '') -> None:
    for it in lacking:
        print(f'skipped: {part}{step.name}, since {it.lack} (apt-get install {it.packages})')


def run(step: Step, words: list[str]) -> int:
    """Runs a step, and tells how it ends."""
    asked = parsed(step, words)
    if why := step.absent():
        print(f'left out: {step.name}, since {why}')
        return LEFT_OUT
    if 'scapy' in step.needs + step.wants and not TOOLS['scapy'].is_there():
        if python := python_with('scapy'):
            os.execv(python, [python, os.path.join(TOP, '.ci', 'check'), step.name, *words])
    if lacking := step.missing(step.needs):
        tell_skipped(step, lacking)
        return SKIPPED
    faults, failed = step.run(**asked), 0
    while True:
        try:
            fault = next(faults)
        except StopIteration as ending:
            told = ending.value
            break
        failed += 1
        print(f'{step.name}: {fault[:MOST]}', flush=True)
    print(f'{step.name}: {told}; {failed} fail')
    if failed:
        return FAILED
    lacking = step.missing(step.wants)
    tell_skipped(step, lacking, 'a part of ')
    return SKIPPED if lacking else 0


def run_all() -> int:
    """Runs each step in a process of its own. A step that is skipped fails the run where CI is true."""
    failed: list[str] = []
    skipped: list[str] = []
    count = 0
    for name in STEPS:
        begun = time.monotonic()
        status = subprocess.run([sys.executable, os.path.join(TOP, '.ci', 'check'), name], cwd=TOP, check=False).returncode
        if status == LEFT_OUT:
            continue
        count += 1
        ended = {0: 'passed', SKIPPED: 'skipped'}.get(status, 'FAILED')
        skipped += [name] * (ended == 'skipped')
        failed += [name] * (ended == 'FAILED')
        print(f'-- {name}: {ended}, {time.monotonic() - begun:.0f} s', flush=True)
    told = f'{count} steps, {len(skipped)} skipped' + (f', failed: {", ".join(failed)}' if failed else '')
    is_strict = bool(skipped) and os.environ.get('CI') == 'true'
    print(told + ('; a skipped step fails the run, since CI is true' if is_strict else ''))
    return FAILED if failed or is_strict else 0


def tell_steps() -> None:
    for step in map(step_of, STEPS):
        words = [*step.programs, *(f'[--{it.name}]' for it in step.options)]
        tools = f'; needs {", ".join(step.needs + step.wants)}' if step.needs + step.wants else ''
        print(f'{" ".join([step.name, *words])}: {step.seconds:g} s{tools}')
        print(textwrap.fill(' '.join(step.shows.split()), 118, initial_indent='    ', subsequent_indent='    '))


def main(words: list[str]) -> int:
    if not words:
        return run_all()
    if words[0] in STEPS:
        return run(step_of(words[0]), words[1:])
    if words in (['-h'], ['--help']):
        print(HELP, end='')
    elif words == ['--version']:
        return subprocess.run([os.path.join(TOP, 'tools', 'version')], check=False).returncode
    elif words == ['--list']:
        signal.signal(signal.SIGPIPE, signal.SIG_DFL)
        tell_steps()
    else:
        print(f'{"" if words[0].startswith("-") else f"there is no step {words[0]}; "}{USAGE}', file=sys.stderr)
        return MISUSED
    return 0
