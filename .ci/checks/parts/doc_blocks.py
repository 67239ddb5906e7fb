"""The fenced blocks of a document, by the words behind their first three backticks."""
import typing
from collections.abc import Iterator

FENCE = '```'
# For each language the words that may follow it; one that ends with `=` has a value.
WORDS: dict[str, tuple[str, ...]] = {
    'sh': ('by-hand', 'status=', 'needs='),
    'text': ('figure', 'of=', 'file='),
    'toml': ('file=', 'of='),
    'rust': ('file=', 'of='), 'antt': ('file=', 'of='),
}


class BlockFault(Exception):
    """A block that isn't written as CONTRIBUTING.md says, with why."""


class Block(typing.NamedTuple):
    """A block: its language, the words behind it with their values, what stands in it, the line of its fence, and where that text stands."""
    language: str
    words: dict[str, str]
    text: str
    line: int
    begin: int
    end: int

    @property
    def is_output(self) -> bool:
        """Whether it is what the commands before it print."""
        return self.language == 'text' and not self.words


def info_of(line: str, number: int) -> tuple[str, dict[str, str]]:
    """The language and the words of a fence."""
    language, *words = line.removeprefix(FENCE).split() or ['']
    if language not in WORDS:
        raise BlockFault(f'line {number}: a block of {language!r}, which is none of {", ".join(WORDS)}')
    named = {}
    for word in words:
        name, equals, value = word.partition('=')
        if name + equals not in WORDS[language]:
            raise BlockFault(f'line {number}: a block of {language} has the word {word!r}')
        named[name] = value
    return language, named


def blocks_of(text: str) -> Iterator[Block]:
    """The blocks in their order. A block of text without words has to stand behind one of commands."""
    opened: tuple[str, dict[str, str], int, int] | None = None
    at, has_commands = 0, False
    for number, line in enumerate(text.splitlines(keepends=True), 1):
        if opened is not None and line.rstrip() == FENCE:
            language, words, begun, begin = opened
            block = Block(language, words, text[begin:at], begun, begin, at)
            if block.is_output and not has_commands:
                raise BlockFault(f'line {begun}: a block of text behind no commands; it is a figure, or of a file')
            has_commands = language == 'sh' or has_commands and not block.is_output
            yield block
            opened = None
        elif opened is None and line.lstrip().startswith(FENCE):
            if not line.startswith(FENCE):
                raise BlockFault(f'line {number}: a block that is set in, which no copy brings back as it was')
            opened = (*info_of(line, number), number, at + len(line))
        at += len(line)
    if opened is not None:
        raise BlockFault(f'line {opened[2]}: a block without an end')
