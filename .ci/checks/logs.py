"""Logs of devices laid beside the logic."""
import os
import subprocess
import sys
import tempfile
from collections import Counter
from collections.abc import Iterator

from checks import TOP
from checks.parts import log_faults
from checks.parts.steps import Faults, step

FOLDER = os.path.join(TOP, 'corpus', 'logs')
MOST_MEMORY = 80 * 1024  # KiB of a tool over 2 GB
PAGES = ('formats.md', 'DECISIONS.md', 'answers.md', 'trust.md', 'scenario-language.md')
CAUSES = ('## Replies to a write', '## Answers to a forged notice')  # what stands between these in docs/answers.md
MEASURED = 'import os, resource, runpy, sys; sys.argv = sys.argv[1:]\nsys.path.insert(0, os.path.dirname(sys.argv[0]))\ntry:\n' \
           '    runpy.run_path(sys.argv[0], run_name="__main__")\nfinally:\n' \
           '    print(resource.getrusage(resource.RUSAGE_SELF).ru_maxrss, resource.getrusage(resource.RUSAGE_CHILDREN).ru_maxrss)'


def rules() -> Iterator[str]:
    """What is amiss with the table of rules: each of this project's own has its words in a page, and each cause has a rule."""
    from log_rules import OWN_CAUSES, RULES
    pages = {}
    for name in PAGES:
        with open(os.path.join(TOP, 'docs', name), encoding='utf-8') as file:
            pages[name] = ' '.join(file.read().split())
    for name, rule in RULES.items():
        if rule.is_demanded == bool(rule.document):
            yield f'rule {name} is neither demanded nor this project\'s own'
        elif rule.document and ' '.join(rule.words.split()) not in pages[rule.document]:
            yield f'rule {name}: docs/{rule.document} doesn\'t say "{rule.words}"'
    with open(os.path.join(TOP, 'docs', 'answers.md'), encoding='utf-8') as file:
        table = file.read().split(CAUSES[0])[1].split(CAUSES[1])[0]
    causes = {line.split('|')[1].strip() for line in table.split('\n') if line.startswith('| ')} - {'Cause'}
    for cause in causes ^ {*OWN_CAUSES, *(it for it in RULES if it in causes)}:
        yield f'the cause {cause} of docs/answers.md has no rule'


def told(explain: str, counts: Counter[str]) -> Iterator[str]:
    """What the logs are told to have, as corpus/logs/told.txt says."""
    with open(os.path.join(FOLDER, 'told.txt'), encoding='ascii') as file:
        wanted = file.read().split('\n')[:-1]
    got = []
    for name in log_faults.names(FOLDER):
        laying, differences = log_faults.laid(os.path.join(FOLDER, name), explain)
        got.append(log_faults.line_of(name, laying))
        counts['logs'] += 1
        counts['replies'] += laying.counted['replies']
        counts['values'] += laying.counted['notices'] + laying.counted['states read']
        counts['differences'] += len(differences)
    for line in sorted(set(wanted) ^ set(got)):
        yield f'{"missing" if line in wanted else "told"}: {line}'


def planted(explain: str, counts: Counter[str]) -> Iterator[str]:
    """A hundred faults put into logs that agree, each of which has to be found."""
    with tempfile.TemporaryDirectory() as folder:
        for name, what, path in log_faults.planted(FOLDER, folder, 100):
            _, differences = log_faults.laid(path, explain)
            counts['planted'] += 1
            counts['found'] += bool(differences)
            if not differences:
                yield f'{name}: {what} is not found'


def bent(explain: str, counts: Counter[str]) -> Iterator[str]:
    """Logs that are cut, are of other kinds, or have 2 GB of nothing end in one line and with status 1, in little memory."""
    with tempfile.TemporaryDirectory() as folder:
        for what, path in log_faults.bent(FOLDER, folder):
            for tool in ('log_in.py', 'log_check.py'):
                words = [sys.executable, '-c', MEASURED, os.path.join(TOP, 'tools', tool), path, '--program', explain]
                ran = subprocess.run(words, capture_output=True, text=True, timeout=120, check=False)
                memory = sum(map(int, ran.stdout.split('\n')[-2].split())) if ran.stdout else 0
                counts['bent'] += 1
                counts['memory'] = max(counts['memory'], memory)
                if ran.returncode != 1 or ran.stderr.count('\n') != 1 or memory > MOST_MEMORY:
                    yield f'{tool}, {what}: status {ran.returncode}, {memory} KiB, {ran.stderr[-300:]!r}'


def scenarios(explain: str, replay: str, counts: Counter[str]) -> Iterator[str]:
    """log_in.py writes the scenario that log_check.py runs, and `replay` refuses no line of it."""
    with tempfile.TemporaryDirectory() as folder:
        for name in log_faults.names(FOLDER)[::6]:
            paths = [os.path.join(folder, it) for it in ('one', 'other')]
            for tool, word, path in (('log_in.py', '--out', paths[0]), ('log_check.py', '--scenario', paths[1])):
                subprocess.run([sys.executable, os.path.join(TOP, 'tools', tool), os.path.join(FOLDER, name), word, path,
                                '--program', explain], capture_output=True, timeout=120, check=False)
            with open(paths[0], 'rb') as one, open(paths[1], 'rb') as other:
                if one.read() != other.read():
                    yield f'{name}: the scenarios of log_in.py and log_check.py differ'
            with open(paths[0], 'rb') as text:
                ran = subprocess.run([replay], stdin=text, capture_output=True, timeout=60, check=False)
            counts['scenarios'] += 1
            if ran.returncode:
                yield f'{name}: replay ends with {ran.returncode}: {ran.stdout[-80:]!r}'


@step(seconds=60, wants=('tshark',))
def check(replay: str, explain: str) -> Faults:
    """The logs of corpus/logs are laid beside the logic by tools/log_check.py, and told to have what told.txt says. A hundred faults put
    into those that agree are found. Bent logs end in one line, in little memory. Each rule that is called this project's own has its
    words in a page, each cause a rule. tshark finds nothing malformed in the logs."""
    counts: Counter[str] = Counter()
    yield from rules()
    yield from told(explain, counts)
    yield from planted(explain, counts)
    yield from bent(explain, counts)
    yield from scenarios(explain, replay, counts)
    yield from log_faults.by_tshark(FOLDER, counts)
    return (f'{counts["logs"]} logs with {counts["replies"]} replies and {counts["values"]} values, {counts["differences"]} differences; '
            f'{counts["found"]} of {counts["planted"]} planted faults are found; {counts["bent"]} runs over bent logs in at most '
            f'{counts["memory"] // 1024} MiB; {counts["scenarios"]} scenarios run again; {counts["packets"]} packets by tshark')
