#!/usr/bin/env python3
"""man_pages.py FOLDER: writes the man pages replay.1, explain.1 and scenario.5 into a folder, of what docs/ says.

replay.1 has the words of the command line and the exit statuses, explain.1 what a run of `explain` tells, and scenario.5 the whole
page of the language, each with its tables. Nothing is said in a page that doesn't stand in docs/."""
import argparse
import os
import re
import subprocess
import sys
import typing

sys.dont_write_bytecode = True
TOP = os.path.dirname(os.path.dirname(os.path.realpath(__file__)))
LANGUAGE, EXPLAINED = 'docs/scenario-language.md', 'docs/explain.md'
# what roff has in the place of signs that mean something to it, the backslash first
SIGNS = (('\\', '\\e'), ('-', '\\-'), ('^', '\\(ha'), ('~', '\\(ti'), ("'", '\\(aq'), ('`', '\\(ga'))
HEADING = re.compile('^(##+) +(.*)')


class Page(typing.NamedTuple):
    """A page: its section, what it is for, how it is called, and the sections of documents that it has. Of these None is what stands first,
    and * is all."""
    number: int
    what: str
    synopsis: str
    parts: list[tuple[str, str | None]]
    also: str


PAGES = {
    'replay': Page(
        1, 'runs a scenario of LE Audio broadcasts, and writes its transcript',
        '.B replay\n[\n.B \\-\\-migrate\n|\n.B \\-\\-toml\n|\n.BI \\-\\-seed\\  N\n.BI \\-\\-events\\  M\n] <\n.I scenario',
        [(LANGUAGE, 'The words of the command line'), (LANGUAGE, 'How `replay` ends')], 'explain (1), scenario (5)'),
    'explain': Page(
        1, 'tells each line of a scenario of LE Audio broadcasts, what it brings, and why', '.B explain\n[\n.B \\-\\-toml\n] <\n.I scenario',
        [(EXPLAINED, None), (EXPLAINED, 'What the notes tell'), (EXPLAINED, 'Units and PDUs')], 'replay (1), scenario (5)'),
    'scenario': Page(
        5, 'the lines of a scenario, what they print, and documents in TOML', '', [(LANGUAGE, '*')], 'replay (1), explain (1)'),
}


class PageFault(Exception):
    """What a document lacks that a page has."""


def sections_of(text: str) -> dict[str | None, list[str]]:
    """The lines of each section of a document, by its heading; those below its title have None."""
    sections: dict[str | None, list[str]] = {None: []}
    at, is_code = None, False
    for line in text.splitlines():
        is_code ^= line.startswith('```')
        found = None if is_code else HEADING.match(line)
        if found:
            at = found[2]
            sections[at] = []
        elif is_code or not line.startswith('# '):
            sections[at].append(line)
    return sections


def escaped(text: str) -> str:
    """A text as roff has it."""
    for sign, mark in SIGNS:
        text = text.replace(sign, mark)
    return text


def inline(text: str) -> str:
    """Words of Markdown in one line: code and strong words are bold, and a link is its text."""
    text = re.sub(r'\[([^\]]*)\]\([^)]*\)', r'\1', text)
    pieces = []
    for place, piece in enumerate(re.split(r'`([^`]*)`', text)):
        if place % 2:
            pieces.append(f'\\fB{escaped(piece)}\\fR' if piece else '')
        else:
            pieces += [f'\\fB{escaped(it)}\\fR' if number % 2 else escaped(it) for number, it in enumerate(piece.split('**'))]
    return ''.join(pieces)


def row(line: str) -> list[str]:
    """The cells of a row of a table."""
    cells = re.split(r'(?<!\\)\|', line.strip().strip('|'))
    return [it.strip().replace('\\|', '|') for it in cells]


def table(lines: list[str]) -> list[str]:
    """A table: of each row the first cell stands at the margin, and the others follow, each below the last."""
    heads = row(lines[0])
    roff = ['.PP', '\\fI' + escaped(' / '.join(inline_text(it) for it in heads)) + '\\fR']
    for line in lines[2:]:
        first, *others = row(line)
        roff += ['.TP', guarded(inline(first) or '\\&')]
        filled = [guarded(inline(it)) for it in others if it]
        for place, it in enumerate(filled or ['\\&']):
            roff += ['.br'] * (place > 0) + [it]
    return roff


def inline_text(text: str) -> str:
    return re.sub(r'\[([^\]]*)\]\([^)]*\)', r'\1', text).replace('`', '').replace('**', '')


def guarded(line: str) -> str:
    """A line of text that is no request."""
    return '\\&' + line if line.startswith(('.', '\\(aq')) else line


def code(lines: list[str]) -> list[str]:
    return ['.PP', '.in +4n', '.nf', *(guarded(escaped(it)) for it in lines), '.fi', '.in']


def text_end(lines: list[str], place: int) -> int:
    """Where a paragraph or an item ends that begins here."""
    place += 1
    while place < len(lines) and lines[place].strip() and not re.match(r'```|\||!\[|[-*] ', lines[place]):
        place += 1
    return place


def body(lines: list[str]) -> list[str]:
    """The roff of the lines of a section: paragraphs, lists, tables and code. Pictures are left out."""
    roff: list[str] = []
    place = 0
    while place < len(lines):
        line, begun = lines[place], place
        place += 1
        if line.startswith('```'):
            place = next((it for it in range(place, len(lines)) if lines[it].startswith('```')), len(lines)) + 1
            roff += code(lines[begun + 1:place - 1])
        elif line.startswith('|'):
            place = next((it for it in range(place, len(lines)) if not lines[it].startswith('|')), len(lines))
            roff += table(lines[begun:place])
        elif line.strip() and not line.startswith('!['):
            place = text_end(lines, begun)
            text = ' '.join(it.strip() for it in lines[begun:place])
            is_item = re.match('[-*] ', text)
            roff += ['.IP \\(bu 2', guarded(inline(text[2:]))] if is_item else ['.PP', guarded(inline(text))]
    return roff


def of_document(path: str, section: str | None) -> list[tuple[str, list[str]]]:
    """The sections of a document that a page has, with their headings."""
    with open(os.path.join(TOP, path), encoding='utf-8') as file:
        sections = sections_of(file.read())
    if section == '*':
        return [(name or 'Description', lines) for name, lines in sections.items()]
    if section not in sections:
        raise PageFault(f'{path} has no section {section!r}')
    return [(section or 'Description', sections[section])]


def page(name: str, version: str) -> str:
    """A page as roff."""
    number, what, synopsis, parts, others = PAGES[name]
    also = others.split(', ')
    roff = [f'.TH {name.upper()} {number} "" "vicemint {version}" "Vicemint"', '.SH NAME', f'{name} \\- {what}']
    if synopsis:
        roff += ['.SH SYNOPSIS', synopsis]
    for path, section in parts:
        for heading, lines in of_document(path, section):
            roff += [f'.SH {escaped(inline_text(heading)).upper()}', *body(lines)]
    roff += ['.SH SEE ALSO', *(f'.BR {it},' for it in also[:-1]), f'.BR {also[-1]}']
    return '\n'.join(roff) + '\n'


def pages() -> dict[str, str]:
    """The pages by the names of their files."""
    with open(os.path.join(TOP, 'VERSION'), encoding='ascii') as file:
        version = file.read().strip()
    return {f'{name}.{PAGES[name].number}': page(name, version) for name in PAGES}


def folder_of(name: str, what: str, words: list[str] | None) -> str | None:
    """The folder that the words of a command line name, or nothing where they ask for the version."""
    parser = argparse.ArgumentParser(prog=f'{name}.py', description=what, allow_abbrev=False)
    parser.add_argument('--version', action='store_true', help='prints the version of the repository')
    parser.add_argument('folder', nargs='?', help='where the files are written')
    asked = parser.parse_args(words)
    if not asked.folder and not asked.version:
        parser.error('a folder has to be named')
    return None if asked.version else asked.folder


def write_files(name: str, what: str, made: typing.Callable[[], dict[str, str]], words: list[str] | None) -> int:
    """A program that writes files into the folder that its words name, and how it ends."""
    folder = folder_of(name, what, words)
    if folder is None:
        return subprocess.run([os.path.join(TOP, 'tools', 'version')], check=False).returncode
    try:
        for file_name, text in made().items():
            with open(os.path.join(folder, file_name), 'w', encoding='utf-8') as file:
                file.write(text)
    except (OSError, PageFault) as fault:
        print(f'{name}: {fault}', file=sys.stderr)
        return 1
    return 0


def main(words: list[str] | None = None) -> int:
    return write_files('man_pages', 'Writes the man pages replay.1, explain.1 and scenario.5 of what docs/ says.', pages, words)


if __name__ == '__main__':
    sys.exit(main())
