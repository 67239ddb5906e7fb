"""Scenarios with their transcripts, from where they stand: the corpus, the worked rows in it, and the examples.

corpus/README.md tells how a file of the corpus is written."""
import dataclasses
import glob
import os
import re
from collections.abc import Iterable, Iterator

from checks import TOP
from checks.parts import document_forms
from checks.parts.files import octets_of

Steps = list[tuple[bytes | None, list[bytes]]]
REPEATED = re.compile(r'\{([^{}]*)\*(\d+)\}')
OCTET = re.compile(rb'\\x([0-9a-f]{2})')
STEP = re.compile(r'(\d*)>(?: (.*))?')
MANY = re.compile(r'(\d+)< (.*)')

# The lines of a transcript that a step may print, by their first words, in order; `unit` and `relay` lines stand among each other.
PRINTS = {
    'event': ('unit', 'relay', 'stale'), 'stop': ('unit', 'relay'), 'terminate': ('unit', 'relay', 'control'),
    'end': ('unit', 'relay', 'sum'), 'drop': ('sum',), 'sniff': ('pdu',), 'inject': ('heard',),
    'announce': ('train', 'sink'), 'train': ('sink',), 'control': ('sink',),
    'lose': ('sink',), 'serve': ('reply',), 'tell': ('notice',), 'read': ('read',), 'drain': ('reply', 'notice', 'read'),
    'show': ('state', 'view'), 'forge': ('forged',), 'aserve': ('areply',), 'atell': ('anotice',), 'aread': ('aread',),
    'adrain': ('areply', 'anotice', 'aread'), 'ashow': ('aview',),
}
ONCE = ('sniff', 'inject', 'train', 'control', 'lose', 'serve', 'tell', 'read', 'forge', 'aserve', 'atell', 'aread', 'drop')
OF_A_LINK = ('areply', 'anotice', 'aread', 'aview')
OF_A_SINK = ('sum', 'heard', 'train', 'sink', 'reply', 'notice', 'read', 'state', 'view', 'forged') + OF_A_LINK


@dataclasses.dataclass(frozen=True)
class Scenario:
    """A text, the words of the command line, what the program writes, and its exit status, with where it stands. `steps` are the lines of
    the text, each with the lines of the transcript that it brings; None stands for no line at all. Those before `counted_from` lead to the
    others and stand in another scenario too."""
    where: str
    name: str
    text: bytes
    transcript: bytes
    exit_code: int
    words: list[str]
    steps: Steps
    counted_from: int = 0

    @property
    def title(self) -> str:
        return f'{self.where}: {self.name}'


def lines_of(lines: Iterable[bytes], is_whole: bool = True) -> bytes:
    """The lines as a text, of which the last has no end where it isn't whole."""
    text = b''.join(line + b'\n' for line in lines)
    return text if is_whole else text[:-1]


def text_in(steps: Steps, is_whole: bool = True) -> bytes:
    return lines_of((line for line, _ in steps if line is not None), is_whole)


def transcript_in(steps: Steps, is_whole: bool = True) -> bytes:
    return lines_of((line for _, lines in steps for line in lines), is_whole)


def plain(line: str) -> bytes:
    """A line of a corpus file without its repetitions and escapes."""
    return OCTET.sub(lambda it: bytes([int(it[1], 16)]), REPEATED.sub(lambda it: it[1] * int(it[2]), line).encode('ascii'))


def is_of(step: bytes | None, printed: bytes) -> bool:
    """Whether the step may print the line: it has one of the kinds, and the sink and the link of the step."""
    words, has = (step or b'').split(b' '), printed.split(b' ')
    word, kind = words[0].decode(errors='replace'), has[0].decode(errors='replace')
    if kind not in PRINTS.get(word, ()):
        return False
    if kind in OF_A_SINK and word != 'end' and has[1:2] != words[1:2]:
        return False
    return kind not in OF_A_LINK or has[2:3] == words[2:3]


def is_refusal(line: bytes) -> bool:
    return re.fullmatch(rb'line \d+: [A-Za-z]+( \d+)?', line) is not None


class Reader:
    """Reads a file of the corpus, line by line."""

    def __init__(self, where: str):
        self.where = where
        self.begin('')

    def begin(self, name: str) -> None:
        self.name, self.is_whole, self.is_ended = name, True, True
        self.words: list[str] = []
        self.steps: Steps = []

    def ended(self, status: int) -> Scenario:
        steps = self.steps_here()
        text, transcript = text_in(steps, self.is_whole), transcript_in(steps, self.is_ended)
        return Scenario(self.where, self.name, text, transcript, status, self.words, steps)

    def steps_here(self) -> Steps:
        """The steps up to here, to which no row is added any more."""
        return [(line, list(rows)) for line, rows in self.steps]

    def refused(self, refusal: str, last: str) -> Scenario:
        """The scenario up to here with one line more, which is refused."""
        steps = self.steps_here() + [(plain(last), [b'line %d: %s' % (len(self.steps) + 1, refusal.encode())])]
        return Scenario(self.where, f'{self.name}: {last[:40]}', text_in(steps), transcript_in(steps), 1, [], steps, len(self.steps))

    def step(self, times: str, text: str) -> None:
        self.is_whole = not text.endswith('\\')
        self.steps += [(plain(text.removesuffix('\\')), []) for _ in range(int(times or 1))]

    def printed(self, line: str) -> None:
        many = MANY.fullmatch(line)
        line = many[2] if many else line
        self.is_ended = not line.endswith('\\')
        printed = plain(line.removesuffix('\\'))
        if not (self.words or is_refusal(printed) or self.steps and is_of(self.steps[-1][0], printed)):
            raise ValueError(f'{self.where}: {self.name}: the line above does not print {line}')
        if not self.steps:
            self.steps.append((None, []))
        self.steps[-1][1].extend([printed] * int(many[1] if many else 1))

    def line(self, line: str) -> Scenario | None:
        """Takes a line, and gives the scenario that it ends."""
        step = STEP.fullmatch(line)
        if line.startswith('## '):
            self.begin(line[3:])
        elif line.startswith('$ '):
            self.words = line[2:].split(' ')
        elif line.startswith('exit '):
            return self.ended(int(line[5:]))
        elif line.startswith('! '):
            refusal, _, last = line[2:].partition(': ')
            return self.refused(refusal, last)
        elif step:
            self.step(step[1], step[2] or '')
        elif line and not line.startswith('#'):
            self.printed(line)
        return None


def files_of(folder: str) -> Iterator[Scenario]:
    """The scenarios of the files of a folder."""
    for path in sorted(glob.glob(os.path.join(TOP, folder, '*.txt'))):
        reader = Reader(os.path.relpath(path, TOP))
        with open(path, encoding='utf-8') as file:
            for line in file:
                if scenario := reader.line(line.rstrip('\n')):
                    yield scenario


def corpus() -> Iterator[Scenario]:
    return files_of('corpus')


def rows() -> Iterator[Scenario]:
    """The worked rows."""
    return files_of('corpus/rows')


def steps_of(text: bytes, transcript: bytes) -> Steps:
    """The lines of a text, each with the lines of the transcript that it brings, as far as their kinds tell."""
    slots: dict[bytes, int] = {}
    steps: Steps = []
    printed = transcript.split(b'\n')[:-1]
    for line in text.removesuffix(b'\n').split(b'\n') if text else []:
        words = line.split(b' ')
        word = words[0].decode(errors='replace')
        taken: list[bytes] = []
        if word == 'sink' and len(words) > 3:
            slots[words[1]] = int(words[3])
        kinds = [it.encode() for it in PRINTS.get(word, ())]
        most = 1 if word in ONCE else 2 if word == 'announce' else 10 ** 9
        if word in ('show', 'ashow'):
            most = slots.get(words[1], 0) * len(kinds)
        place = 0
        while printed and len(taken) < most and is_of(line, printed[0]):
            now = kinds.index(printed[0].split(b' ')[0].replace(b'relay', b'unit'))
            if now < place and word != 'show':
                break
            place = now
            taken.append(printed.pop(0))
        steps.append((line, taken))
    if printed:
        steps.append((None, []))
        number = int(printed[-1].split(b' ')[1].rstrip(b':')) if is_refusal(printed[-1]) else 0
        here = steps[number - 1] if 0 < number <= len(steps) else steps[-1]
        here[1].extend(printed)
    return steps


def examples() -> Iterator[Scenario]:
    for path in sorted(glob.glob(os.path.join(TOP, 'examples', '*.scn'))):
        text, transcript = octets_of(path), octets_of(path[:-4] + '.out')
        yield Scenario('examples', os.path.basename(path), text, transcript, status_of(transcript), [], steps_of(text, transcript))


def status_of(transcript: bytes) -> int:
    """The exit status of a run that is done or refused."""
    return int(any(map(is_refusal, transcript.splitlines())))


def of_document(where: str, name: str, text: bytes, transcript: bytes) -> Scenario:
    """A document, of which no line is told, but what is written."""
    return Scenario(where, name, text, transcript, status_of(transcript), ['--toml'], [(None, transcript.splitlines())])


def example_documents() -> Iterator[Scenario]:
    for path in sorted(glob.glob(os.path.join(TOP, 'examples', '*.toml'))):
        yield of_document('examples', os.path.basename(path), octets_of(path), octets_of(path[:-5] + '.out'))


def worked_documents() -> Iterator[Scenario]:
    for name, document, written in document_forms.FORMS:
        text = document if isinstance(document, bytes) else document.encode()
        yield of_document('documents', name, text, written.encode())


def everything() -> Iterator[Scenario]:
    yield from rows()
    yield from examples()
    yield from corpus()
    yield from worked_documents()


def plain_runs() -> Iterator[Scenario]:
    """All that is a text of the language, which the tools can read: no word stands behind the program's name."""
    return (it for it in everything() if not it.words and it.text)


def told_runs() -> Iterator[Scenario]:
    """The same, and each document in TOML: all that `explain` takes."""
    return (it for it in everything() if it.words in ([], ['--toml']) and it.text)
