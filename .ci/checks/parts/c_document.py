"""The commands of docs/using-from-c.md, run over a library that is built: c/build.sh has run then, so its example alone is run again, and what
builds it for another processor is left to c_cross."""
import os
import subprocess
from collections.abc import Iterator

from checks import TOP
from checks.parts.c_builds import Library
from checks.parts.doc_blocks import Block, blocks_of
from checks.parts.files import text_of, write

DOCUMENT = os.path.join('docs', 'using-from-c.md')
BUILDS, EXAMPLE, ELSEWHERE = 'c/build.sh', 'build/c/stereo', 'tools/archives.py'


def laid(library: Library, blocks: list[Block]) -> str:
    """A folder as the top of the repository, with the library where c/build.sh puts it, and the files of the document."""
    folder = os.path.join(library.room, 'document')
    os.makedirs(os.path.join(folder, 'build'))
    os.symlink(os.path.join(TOP, 'c'), os.path.join(folder, 'c'))
    os.symlink(library.folder, os.path.join(folder, 'build', 'c'))
    for block in blocks:
        if 'file' in block.words:
            write(os.path.join(folder, block.words['file']), block.text)
    return folder


def differences(library: Library) -> Iterator[str]:
    """Each command that doesn't end as it should, or prints something else than the figure behind it."""
    blocks = list(blocks_of(text_of(os.path.join(TOP, DOCUMENT))))
    folder = laid(library, blocks)
    for at, block in enumerate(blocks):
        if block.language != 'sh' or block.text.startswith(ELSEWHERE):
            continue
        commands = block.text.replace(BUILDS, EXAMPLE)
        ran = subprocess.run(['bash', '-euo', 'pipefail', '-c', commands], cwd=folder, capture_output=True, text=True, timeout=300, check=False)
        figure = next((it for it in blocks[at + 1:] if 'figure' in it.words or it.language == 'sh'), None)
        if ran.returncode or figure is None or ran.stdout != figure.text:
            yield f'{DOCUMENT}, line {block.line}: {commands!r} ends with {ran.returncode} and prints {(ran.stdout + ran.stderr)[-600:]!r}'
