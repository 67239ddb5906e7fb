"""The commands of the documents, run from the documents' own text."""
import concurrent.futures
import glob
import os
import re
import subprocess
import tempfile
from collections.abc import Iterator

from checks import TOP
from checks.parts import doc_blocks, doc_links, doc_pages
from checks.parts.doc_blocks import Block
from checks.parts.steps import TOOLS, Faults, step

DOCUMENTS = ('*.md', 'docs/*.md', 'tools/README.md', 'corpus/README.md')
PATIENCE = 300  # seconds for the commands of a block

# Blocks that say `by-hand`, by what their first command begins with, and why they aren't run here.
BY_HAND = {
    '.ci/run': 'it runs the gate for more than an hour, or a step of it, as this is one',
    './prove': 'it proves everything below the programs, for half an hour',
    'c/build.sh': 'it proves and builds the library for C; the step `c_library` does, and runs the example',
    'tools/archives.py --aarch64': 'it proves the library; the step `c_library` does, and runs the example on aarch64',
    'cc -std=c99 -Ic -o first': 'it needs that library; the step `c_library` runs it over what it built',
    'python3 bench/c_sizes.py': 'it needs the library for C, which is proved and built first',
    'python3 bench/run.py': 'it measures for some minutes, and each machine has figures of its own',
    'python3 tools/choose.py --sink front': 'a sweep of 1,070 runs takes minutes',
    'python3 tools/capture_': 'it needs scapy, or a capture of the air; the step `captures` tries both ways',
    'python3 tools/log_check.py btsnoop_hci.log': 'it needs a log of a device; the step `logs` reads 73',
    'python3 tools/audio.py out speech.wav': 'nobody has this sound; docs/simulate.md makes one, and goes the same way',
    'tools/install': 'it writes into a folder that the reader chooses',
}

# What differs from run to run, on the left, and what stands for it in the comparison. Lines that become nothing are left out.
VARYING = [
    (re.compile(r'[^\n]*\r'), ''),                                                 # what a terminal writes over
    (re.compile(r'^choose: [\d,]+ of [\d,]+ .*, [\d,]+ s left *\n', re.M), ''),    # how far a sweep is
    (re.compile(r'^(timeline|losses|choose): .* (are|is) (read|written).*\n', re.M), ''),  # how far a long run is
    (re.compile(r'^(vicemint [\d.]+) \(.*\)$', re.M), r'\1 (COMMIT)'),             # the commit that is checked out
    (re.compile(r'\b\d+(\.\d+)? (s|min) (of the processor|by the clock)'), r'N \2 \3'),
]


def prepared(folder: str, programs: dict[str, str]) -> None:
    """The folder has what stands at the top of the repository, with the programs in the place of the scripts of their names."""
    for name in os.listdir(TOP):
        if not name.startswith('.') and name not in programs:
            os.symlink(os.path.join(TOP, name), os.path.join(folder, name))
    for name, program in programs.items():
        os.symlink(program, os.path.join(folder, name))


def constant(text: str) -> str:
    for pattern, given in VARYING:
        text = pattern.sub(given, text)
    return text


def pattern_of(wanted: str) -> re.Pattern[str]:
    """What a document shows, as a pattern: three dots stand for what is left out, in a line of their own for any lines."""
    lines = []
    for line in constant(wanted).splitlines():
        if line.strip() == '...':
            lines.append(r'(?:[^\n]*\n)*?')
        else:
            lines.append('[^\n]*?'.join(map(re.escape, line.split('...'))) + '\n')
    return re.compile(''.join(lines))


def written(wanted: str, printed: str) -> str:
    """What is printed now, as a document shows it: lines that it cuts stay cut, and what it leaves out in front stays left out."""
    lines, cut = printed.splitlines(keepends=True), wanted.splitlines(keepends=True)
    if len(cut) > 1 and cut[0].strip() == '...' and cut[1] in lines:
        lines = [cut[0], *lines[lines.index(cut[1]):]]
    shorter = [it for it in cut if '...' in it and it.strip() != '...']
    return ''.join(next((short for short in shorter if pattern_of(short).fullmatch(it)), it) for it in lines)


def ran(block: Block, folder: str) -> tuple[int, str]:
    """How the commands end, and what they print on both outputs."""
    done = subprocess.run(['bash', '-euo', 'pipefail', '-c', block.text], cwd=folder, stdin=subprocess.DEVNULL, stdout=subprocess.PIPE,
                          stderr=subprocess.STDOUT, check=False, timeout=PATIENCE, text=True, errors='replace')
    return done.returncode, done.stdout


def reason_of(block: Block) -> str | None:
    """The entry of BY_HAND that says why a block isn't run, or None."""
    return next((it for it in BY_HAND if block.text.startswith(it)), None)


def part_of(block: Block, path: str) -> str | None:
    """What is wrong with a block that shows a part of a file, or None."""
    with open(os.path.join(TOP, path), encoding='utf-8') as file:
        if '\n' + block.text in '\n' + file.read():
            return None
    return f'line {block.line}: {path} has no such lines'


class Document:
    """A document, which is run block by block. `faults` has what is wrong, `now` its text with what the commands print, and `reasons` the
    entries of BY_HAND that it needs."""

    def __init__(self, path: str, programs: dict[str, str]):
        self.path, self.programs = path, programs
        self.faults: list[str] = []
        self.reasons: set[str] = set()
        self.count = self.pages = 0
        with open(os.path.join(TOP, path), encoding='utf-8') as file:
            self.text = self.now = file.read()

    def fault(self, told: str) -> None:
        self.faults.append(f'{self.path}: {told}')

    def run(self) -> 'Document':
        for wrong in doc_links.faults(self.path):
            self.fault(wrong)
        try:
            blocks = list(doc_blocks.blocks_of(self.text))
        except doc_blocks.BlockFault as error:
            self.fault(str(error))
            return self
        if any(it.language == 'sh' or 'of' in it.words or 'file' in it.words for it in blocks):
            with tempfile.TemporaryDirectory(ignore_cleanup_errors=True) as folder:
                prepared(folder, self.programs)
                self.run_in(folder, blocks)
        return self

    def run_in(self, folder: str, blocks: list[Block]) -> None:
        pieces: list[str] = []
        printed: str | None = None
        place = 0
        for block in blocks:
            if block.language == 'sh':
                printed = self.commands(block, folder)
            elif 'file' in block.words:
                with open(os.path.join(folder, block.words['file']), 'w', encoding='utf-8') as file:
                    file.write(block.text)
            elif 'of' in block.words:
                if wrong := part_of(block, block.words['of']):
                    self.fault(wrong)
            elif block.is_output:
                if printed is not None and not pattern_of(block.text).fullmatch(printed):
                    self.fault(f'line {block.line}: what is printed is {printed[-900:]!r}')
                    pieces += [self.text[place:block.begin], written(block.text, printed)]
                    place = block.end
                printed = None
        self.now = ''.join(pieces) + self.text[place:]
        for wrong in doc_pages.faults(folder):
            self.fault(wrong)
        self.pages = len(glob.glob(os.path.join(folder, '*.html')))

    def commands(self, block: Block, folder: str) -> str | None:
        """What the commands of a block print; None where they aren't run, or don't end as they should."""
        if 'by-hand' in block.words:
            if reason := reason_of(block):
                self.reasons.add(reason)
            else:
                self.fault(f'line {block.line}: {block.text[:60]!r} is by hand, and .ci/checks/doc_commands.py has no reason')
            return None
        if 'needs' in block.words and not TOOLS[block.words['needs']].is_there():
            return None
        self.count += 1
        wanted = int(block.words.get('status', '0'))
        status, printed = ran(block, folder)
        if status != wanted or 'Traceback' in printed:
            self.fault(f'line {block.line}: {block.text[:60]!r} ends with {status}, not {wanted}: {printed[-900:]!r}')
            return None
        return constant(printed)


def paths(named: str) -> Iterator[str]:
    for pattern in [named] if named else DOCUMENTS:
        yield from sorted(os.path.relpath(it, TOP) for it in glob.glob(os.path.join(TOP, pattern)))


@step(seconds=60, wants=('chromium', 'lc3'))
def check(replay: str, explain: str, document: str = '', write: bool = False) -> Faults:
    """Each command of README.md and of docs/ is run from the document's own text, in a folder of its own, and prints what stands behind it
    there; the pages that they make are opened in a Chromium, and their links lead somewhere. CONTRIBUTING.md has the words of a block.
    --document PATH leaves the other documents out, and --write puts what is printed in the place of what differs."""
    programs = {'replay': replay, 'explain': explain}
    found = [Document(it, programs) for it in paths(document)]
    if not found:
        yield f'there is no document {document}'
    with concurrent.futures.ThreadPoolExecutor(os.cpu_count()) as pool:
        for it in pool.map(Document.run, found):
            yield from it.faults
            if write and it.now != it.text:
                with open(os.path.join(TOP, it.path), 'w', encoding='utf-8') as file:
                    file.write(it.now)
    if not document:
        unused = BY_HAND.keys() - {reason for it in found for reason in it.reasons}
        yield from (f'no document has a block by hand that begins with {it!r}' for it in sorted(unused))
    return f'{sum(it.count for it in found)} blocks of commands in {len(found)} documents, which make {sum(it.pages for it in found)} pages'
