"""What tools/install copies and takes away, in a small repository, and what its man pages, completions and syntax files say."""
import json
import os
import re
import shutil
import subprocess
import tempfile
import typing

import editor_files
import man_pages

from checks import TOP
from checks.parts.script_copy import NAMES, PROGRAM, Copy, write
from checks.parts.script_runs import CANNOT, USAGE, differs

COPIED = 12


def files_of(folder: str) -> list[str]:
    """The files and folders below one, by their places."""
    found = []
    for at, folders, names in os.walk(folder):
        found += [os.path.relpath(os.path.join(at, it), folder) for it in (*folders, *names)]
    return sorted(found)


def installed(copy: Copy) -> typing.Iterator[str | None]:
    """An install before the programs are proved, over what another put there, twice, and taken away."""
    prefix = copy.path('prefix')
    yield differs('install, unproved', copy.run('tools/install', prefix), CANNOT, b'', b'./prove')
    copy.build()
    if os.path.exists(prefix):
        yield 'install, unproved, made a folder'
    write(f'{prefix}/bin/replay', 'of another')
    yield differs('install over a foreign file', copy.run('tools/install', prefix), 1, b'', b'nothing was copied')
    if files_of(prefix) != ['bin', 'bin/replay']:
        yield f'install over a foreign file: {files_of(prefix)}'
    os.remove(f'{prefix}/bin/replay')
    for _ in range(2):
        yield differs('install', copy.run('tools/install', prefix), 0, None)
    for name in NAMES:
        with open(f'{prefix}/bin/{name}', encoding='ascii') as file:
            if file.read() != PROGRAM or not os.access(file.name, os.X_OK):
                yield f'install: bin/{name} is not the program'
    count = sum(os.path.isfile(os.path.join(prefix, it)) for it in files_of(prefix))
    if count != COPIED + 1:
        yield f'install: {count} files, {files_of(prefix)}'
    write(f'{prefix}/share/man/man1/other.1', 'of another')
    yield differs('uninstall', copy.run('tools/install', '--uninstall', prefix), 0, None)
    # bin/ was there before
    if files_of(prefix) != ['bin', 'share', 'share/man', 'share/man/man1', 'share/man/man1/other.1']:
        yield f'uninstall leaves {files_of(prefix)}'
    yield differs('uninstall again', copy.run('tools/install', '--uninstall', prefix), 1, b'', b'nothing is installed')
    for words in ((), (prefix, prefix), ('--uninstall',), ('--no-such-word',), ('--uninstall', prefix, 'x'), ('',)):
        yield differs(f'install {words}', copy.run('tools/install', *words), USAGE, b'', b'usage: ')


def plain(text: str) -> str:
    """What a text says without marks, blanks and the breaks of lines."""
    text = re.sub(r'\[([^\]]*)\]\([^)]*\)', r'\1', text)
    return re.sub(r'[\s`*]', '', text.replace('\\|', '|')).replace('\u2010', '').replace('\u2212', '-')


def rows_of(path: str, section: str | None) -> typing.Iterator[str]:
    """The cells of the tables of a section of a document, or of all its sections."""
    for _, lines in man_pages.of_document(path, section):
        for line in lines:
            if line.startswith('|') and not line.startswith('|---'):
                yield from filter(None, man_pages.row(line))


def shown(folder: str, name: str) -> str:
    """A page as man shows it, in one line of any length, or else as it is written, without marks of roff."""
    if shutil.which('groff'):
        words = ['groff', '-man', '-Kutf8', '-Tutf8', '-ww', '-rLL=60000u', os.path.join(folder, name)]
        ran = subprocess.run(words, capture_output=True, text=True, check=False, env={**os.environ, 'GROFF_NO_SGR': '1'})
        return re.sub('.\b', '', ran.stdout) + (f'\nWARNED {ran.stderr}' if ran.stderr or ran.returncode else '')
    with open(os.path.join(folder, name), encoding='utf-8') as file:
        text = re.sub(r'^\.\w.*$|\\f.|\\&', '', file.read(), flags=re.M)
    for sign, mark in reversed(man_pages.SIGNS):
        text = text.replace(mark, sign)
    return text


def manual(folder: str) -> typing.Iterator[str]:
    """Cells of the tables of docs/ that a page lacks, and what groff warns of."""
    for name, text in man_pages.pages().items():
        write(os.path.join(folder, name), text)
        page = shown(folder, name)
        if 'WARNED' in page:
            yield f'{name}: groff warns: {page.partition("WARNED")[2]}'
        said = plain(page)
        for path, section in man_pages.PAGES[name.partition('.')[0]].parts:
            for cell in rows_of(path, section):
                if plain(cell) not in said:
                    yield f'{name} lacks {cell!r} of {path}'


def completions(folder: str) -> typing.Iterator[str]:
    """What bash completes otherwise than the documents have it."""
    words = {'replay': editor_files.replay_words(), 'explain': editor_files.EXPLAIN_WORDS}
    for name, every in words.items():
        ask = f'source {folder}/{name}.bash; COMP_WORDS=({name} "$1"); COMP_CWORD=1; _vicemint_{name}; echo "${{COMPREPLY[@]}}"'
        for front in ('', '--', '--s', '--toml', 'x'):
            ran = subprocess.run(['bash', '-c', ask, 'bash', front], capture_output=True, text=True, check=False)
            wanted = [it for it in every if it.startswith(front)]
            if ran.stdout.split() != wanted or ran.stderr:
                yield f'bash completes {name} {front}: {ran.stdout!r} {ran.stderr!r}, not {wanted}'
        with open(f'{folder}/_{name}', encoding='utf-8') as file:
            if file.readline() != f'#compdef {name}\n' or re.findall(r"'(--[a-z]+)", file.read()) != every:
                yield f'_{name} has not the words {every}'
    if set(words['replay']) != {'--migrate', '--toml', '--seed', '--events'}:
        yield f'replay takes {words["replay"]} by docs/scenario-language.md'


def example_lines() -> typing.Iterator[str]:
    for name in sorted(os.listdir(os.path.join(TOP, 'examples'))):
        if name.endswith('.scn'):
            with open(os.path.join(TOP, 'examples', name), encoding='ascii') as file:
                yield from filter(None, file.read().splitlines())


def scopes(grammar: dict[str, typing.Any], line: str) -> list[str]:
    """The names that a TextMate grammar gives the pieces of a line, as an editor goes over it."""
    comment, of_line, other = grammar['patterns']
    if re.match(comment['match'], line):
        return [comment['name']]
    found = re.match(of_line['begin'], line)
    if not found:
        return [other['name']]
    names, place = [of_line['beginCaptures']['1']['name']], found.end()
    while place < len(line):
        first = min(((hit.start(), number, hit.end(), it['name']) for number, it in enumerate(of_line['patterns'])
                     if (hit := re.compile(it['match']).search(line, place))), default=None)
        if first is None:
            break
        names.append(first[3])
        place = first[2]
    return names


def syntax(folder: str) -> typing.Iterator[str]:
    """Lines of the examples that a grammar calls wrong, wrong lines that it doesn't, and words of lines that it lacks."""
    with open(os.path.join(TOP, '.ci', 'words'), encoding='ascii') as file:
        words = file.read().split()
    if sorted(words) != sorted(editor_files.first_words()):
        yield f'docs/scenario-language.md and .ci/words differ in {set(words) ^ set(editor_files.first_words())}'
    with open(f'{folder}/vicemint.tmLanguage.json', encoding='utf-8') as file:
        grammar = json.load(file)
    for line in example_lines():
        if any('invalid' in it for it in scopes(grammar, line)):
            yield f'the TextMate grammar calls {line!r} wrong: {scopes(grammar, line)}'
    for line in ('events', 'event ', 'air 0  1', 'air\t0 1', 'unit 1 - 0a0', 'unit 1 - xx', ' event', 'air 0 01x', 'event\r'):
        if not any('invalid' in it for it in scopes(grammar, line)):
            yield f'the TextMate grammar takes {line!r}'


def in_vim(folder: str) -> typing.Iterator[str]:
    """Lines that Vim's syntax file colours otherwise than they should be."""
    marked = [f'ok {it}' for it in example_lines()] + ['bad events', 'bad air 0  1', 'bad unit 1 - xx', 'bad air 0\t1']
    write(f'{folder}/lines', '\n'.join(it.partition(' ')[2] for it in marked) + '\n')
    script = (f'syntax clear\nunlet! b:current_syntax\nsource {folder}/vicemint.vim\n'
              'let told = []\nfor at in range(1, line("$"))\n  let names = {}\n  for place in range(1, '
              'col([at, "$"]) - 1)\n    let names[synIDattr(synID(at, place, 1), "name")] = 1\n  endfor\n'
              f'  call add(told, join(sort(keys(names)), ","))\nendfor\ncall writefile(told, "{folder}/told")\nqall!\n')
    write(f'{folder}/look.vim', script)
    subprocess.run(['vim', '-u', 'NONE', '-i', 'NONE', '-n', '-es', '-c', 'syntax on', '-S', f'{folder}/look.vim', f'{folder}/lines'],
                   stdin=subprocess.DEVNULL, capture_output=True, timeout=60, check=False)
    if not os.path.exists(f'{folder}/told'):
        yield 'Vim does not take vicemint.vim'
        return
    with open(f'{folder}/told', encoding='utf-8') as file:
        told = file.read().splitlines()
    for line, names in zip(marked, told):
        is_bad = 'vicemintBad' in names or 'vicemintFault' in names
        if is_bad == line.startswith('ok ') or not names:
            yield f'Vim: {line!r} has {names!r}'


def faults(folder: str) -> typing.Generator[str, None, str]:
    yield from filter(None, installed(Copy(folder)))
    with tempfile.TemporaryDirectory() as room:
        yield from manual(room)
        for name, text in editor_files.files().items():
            write(f'{room}/{name}', text)
        yield from completions(room)
        yield from syntax(room)
        has_vim = shutil.which('vim') is not None
        if has_vim:
            yield from in_vim(room)
    return f'{COPIED} files installed and taken away' + ('' if has_vim else ', their syntax file not tried in Vim, which is not here')
