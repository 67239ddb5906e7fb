"""How scripts and tools take words: each tells what it takes, and ends with 2 for a word that it doesn't know."""
import concurrent.futures
import os
import subprocess
import sys
import typing

from checks import TOP

WORD = '--no-such-word'
USAGE = 2
# those of bench/ are no programs of their own where nothing calls main
TOP_SCRIPTS = ['replay', 'explain', 'prove', 'try', '.ci/run', '.ci/check', '.ci/tools', 'bench/first_run.sh']
WITHOUT_VERSION = ('.ci/tools', 'bench/')


def scripts() -> list[str]:
    """The scripts and the tools by their places."""
    found = list(TOP_SCRIPTS)
    for folder in ('tools', 'bench'):
        for name in sorted(os.listdir(os.path.join(TOP, folder))):
            path = os.path.join(TOP, folder, name)
            if os.path.isfile(path) and f'{folder}/{name}' not in found:
                with open(path, encoding='utf-8', errors='replace') as file:
                    text = file.read()
                if text.startswith('#!'):
                    found.append(f'{folder}/{name}')
    return found


def run(script: str, *words: str) -> subprocess.CompletedProcess[bytes]:
    by = {'.py': [sys.executable], '.sh': ['bash']}.get(os.path.splitext(script)[1], [])
    return subprocess.run([*by, os.path.join(TOP, script), *words], stdin=subprocess.DEVNULL, capture_output=True, timeout=120, check=False)


def told(script: str, word: str, ran: subprocess.CompletedProcess[bytes]) -> str:
    return f'{script} {word}: status {ran.returncode}, {ran.stdout[:80]!r}, {ran.stderr[-200:]!r}'


def refuses(script: str) -> str | None:
    """What is wrong with how the script takes the word, or None."""
    ran = run(script, WORD)
    is_well = ran.returncode == USAGE and not ran.stdout and ran.stderr and b'Traceback' not in ran.stderr
    return None if is_well else told(script, WORD, ran)


def answers(script: str) -> str | None:
    """What is wrong with what the script answers to each of these words alone, on standard output and with status 0."""
    with open(os.path.join(TOP, 'VERSION'), encoding='ascii') as file:
        version = f'vicemint {file.read().strip()} ('.encode()
    for word, front in (('--help', b''), ('-h', b''), ('--version', version)):
        if word == '--version' and script.startswith(WITHOUT_VERSION):
            continue
        ran = run(script, word)
        # a tool for captures says on standard error that scapy is missing
        is_quiet = not ran.stderr or b'scapy is missing' in ran.stderr
        if ran.returncode or not is_quiet or not ran.stdout or not ran.stdout.startswith(front):
            return told(script, word, ran)
    return None


def takes_files() -> typing.Iterator[str]:
    """What is wrong with how `./replay FILE` is told where its scenario comes from."""
    for script in ('replay', 'explain'):
        ran = run(script, 'README.md' if os.getcwd() == TOP else os.path.join(TOP, 'README.md'))
        if ran.returncode != USAGE or ran.stdout or f'standard input: ./{script} < '.encode() not in ran.stderr:
            yield told(script, 'README.md', ran)
        lines = run(script, '--version').stdout.decode().splitlines()
        if len(lines) != 3 or not lines[1].startswith('kit: ') or not lines[2].startswith(f'{script}: '):
            yield f'{script} --version: {lines}'


def faults(names: list[str]) -> typing.Iterator[str]:
    with concurrent.futures.ThreadPoolExecutor(os.cpu_count()) as pool:
        for fault in [*pool.map(refuses, names), *pool.map(answers, names)]:
            if fault:
                yield fault
    yield from takes_files()
