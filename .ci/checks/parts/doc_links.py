"""The links of the documents to files and headings of the repository."""
import functools
import os
import re
from collections.abc import Iterator

from checks import TOP

BLOCK = re.compile(r'^```.*?^```$', re.DOTALL | re.MULTILINE)
LINK = re.compile(r'\]\(([^)\s]+)\)')
HEADING = re.compile(r'^#+ (.*)$', re.MULTILINE)


def prose_of(path: str) -> str:
    """A document without its blocks."""
    with open(os.path.join(TOP, path), encoding='utf-8') as file:
        return BLOCK.sub('', file.read())


def anchor_of(heading: str) -> str:
    """The place of a heading, as readers of Markdown name it."""
    shown = re.sub(r'\[([^\]]*)\]\([^)]*\)', r'\1', heading.strip())
    return re.sub(r'[^\w -]', '', shown.lower()).replace(' ', '-')


@functools.cache
def anchors(path: str) -> frozenset[str]:
    return frozenset(map(anchor_of, HEADING.findall(prose_of(path))))


def faults(path: str) -> Iterator[str]:
    """Each link of a document that leads to no file, or to no heading of it."""
    for link in LINK.findall(prose_of(path)):
        if '://' in link:
            continue
        to, _, anchor = link.partition('#')
        file = os.path.normpath(os.path.join(os.path.dirname(path), to)) if to else path
        if not os.path.exists(os.path.join(TOP, file)):
            yield f'the link {link} leads to no file'
        elif anchor and anchor not in anchors(file):
            yield f'the link {link} leads to no heading'
