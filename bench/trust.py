#!/usr/bin/env python3
"""trust.py [--check | --write | --others]: which definitions one must read to know what the contract of the public call `replay` says.

It begins with that contract, takes the names that it uses, the names that their definitions use, and so on, and prints a line for
each file that has some of them: the file, how many lines these definitions take there, and their names; the lowest crate first. A
file of src/ stands there for the types, the traits and the call that it declares. At the end it counts all, and the names of the
kit's libraries, which it doesn't follow. A line counts where it is of such a definition or of the comment above it, and isn't blank;
imports and attributes don't.

With --write it writes these definitions into docs/spec/, a page for each chapter. What stands at the top of a page, with the files of
the chapter in their order, is written by hand; what stands below is not. It writes docs/spec/names.md, and the numbers of docs/trust.md
too. A new file is one more row `| `crate/specs/File` | what it says | what it follows |` of the table at the top of a page.
With --check it prints what --write would change, each file that no page names, or two do, and each name of the kit that
docs/spec/kit.md has not, or needn't have, and fails where there is something.
With --others it prints the files of specs/ that have none of these names."""
import collections
import glob
import os
import re
import sys
from typing import Any

sys.dont_write_bytecode = True
sys.path.insert(0, os.path.dirname(os.path.abspath(__file__)))
from definitions import CRATES, TOP, Scan, item_of, opened, text_of  # noqa: E402

ROOT = ('crates/replay_command/src/replay.rt', 'replay')
FRONT = 'docs/trust.md'
PAGES = 'docs/spec'
NAMES = f'{PAGES}/names.md'
KIT = f'{PAGES}/kit.md'
ROW = re.compile(r'\| \[?`(\w+/(?:specs|src)/[\w/]+(?:\.rt)?)`(?:\]\(\S*\))? \| ([^|]+) \| ([^|]+) \|')
KIT_ROW = re.compile(r'^\| (`.+`) \| (\w+) \| [^|]+ \|$', re.M)
FRONT_ROW = re.compile(r'^(\| \[[^\]]+\]\(spec/([\w-]+\.md)\) \| [^|]+ \|).*$', re.M)
SUM_ROW = re.compile(r'^\| All \|.*$', re.M)
FENCE = '```'


def followed(module, name):
    """The item of a name, by its file or its module; None for one of the kit."""
    return opened(module).items[name] if '/' in module else item_of(module, name)


class Reached:
    """The items that the contract needs, those of each file in their order there, what each word in a file means, and the names of
    the kit that they use, each with the library that has it."""

    def __init__(self):
        waiting, self.kit = [followed(*ROOT)], set()
        self.items: dict[int, Any] = {}
        self.words: dict[str, dict[str, Any]] = collections.defaultdict(dict)
        while waiting:
            item = waiting.pop()
            if id(item) in self.items:
                continue
            self.items[id(item)] = item
            scan = Scan(item)
            scan.read()
            for word, (module, name) in scan.words.items():
                found = followed(module, name)
                self.words[item.file][word] = (found, name)
                if found:
                    waiting.append(found)
                else:
                    self.kit.add((name, module.partition('.')[0]))
        files = collections.defaultdict(list)
        for item in self.items.values():
            files[item.file].append(item)
        self.files = {file: sorted(own, key=list(opened(file).items.values()).index) for file, own in files.items()}

    def lines(self, file):
        return sum(item.count for item in self.files[file])

    @property
    def all_lines(self):
        return sum(map(self.lines, self.files))

    def meanings(self):
        """Each name with all that it stands for in some place: the item, and its own name where that is another."""
        meanings: dict[str, dict[tuple[str, str], Any]] = collections.defaultdict(dict)
        for item in self.items.values():
            meanings[item.name][item.file, item.name] = item
            for member in item.members:
                meanings[member][item.file, item.name] = item
        for words in self.words.values():
            for item, name in words.values():
                if item:
                    meanings[name.strip('◌')][item.file, item.name] = item
                else:
                    meanings[name.strip('◌')]['kit', name] = None
        return meanings


def crate_of(file):
    return file.split('/')[1]


def layers():
    """The place of each crate in crates.txt, which has the lowest first."""
    with open(os.path.join(TOP, 'crates.txt'), encoding='utf-8') as file:
        names = [line.partition(':')[0] for line in file if ':' in line]
    return {name: place for place, name in enumerate(names)}


def told(count, what):
    return f'{count:,} {what}{"s" * (count != 1)}'


def counted(reached):
    """What is counted of all."""
    code = sum(file.endswith('.rt') for file in reached.files)
    return (f'{told(len(reached.files), "file")} of {told(len(set(map(crate_of, reached.files))), "crate")}, {code} of them of src/: '
            f'{told(len(reached.items), "definition")}, {told(reached.all_lines, "line")}')


def show(reached):
    """Prints the files and the counts."""
    places = layers()
    for file in sorted(reached.files, key=lambda file: (places[crate_of(file)], file)):
        print(file, reached.lines(file), *(item.name for item in reached.files[file]))
    print(counted(reached))
    libraries = collections.Counter(library for _, library in reached.kit)
    print(f'and {told(len(reached.kit), "name")} of the kit:', ', '.join(f'{name} {count}' for name, count in sorted(libraries.items())))


def path_of(named):
    """The file that a page names without its first folder, and without its ending where it has definitions."""
    return f'crates/{named}' if named.endswith('.rt') else f'crates/{named}.antt'


def short(file):
    """How a page names a file."""
    return file.removeprefix('crates/').removesuffix('.antt')


def anchor(file):
    """The place of a heading in its page, as readers of Markdown make it."""
    return '#' + re.sub(r'[^\w -]', '', file).lower().replace(' ', '-')


def prose(lines):
    """The lines of a comment as text of a page: no sign in it, but between backticks, is one of Markdown's."""
    parts = re.split(r'(`[^`]*`)', '\n'.join(lines))
    return ''.join(part if part.startswith('`') else re.sub(r'([*<\[\]|\\])', r'\\\1', part) for part in parts)


class Page:
    """A page of a chapter: its title, what is written by hand, and the files that it names."""

    def __init__(self, path):
        self.path, self.whole = path, text_of(path)
        self.head = self.whole.partition('\n## ')[0].rstrip('\n').split('\n')
        self.title = self.head[0].removeprefix('# ')
        self.files = [path_of(found[1]) for found in map(ROW.match, self.head) if found]

    @property
    def name(self):
        return os.path.basename(self.path)


class Writer:
    """The pages as they have to be."""

    def __init__(self, reached):
        self.reached, self.meanings = reached, reached.meanings()
        self.pages = [Page(os.path.relpath(path, TOP)) for path in sorted(glob.glob(os.path.join(TOP, PAGES, '[0-9]*.md')))]
        self.of_file = {file: page for page in reversed(self.pages) for file in page.files}

    def wrong(self):
        """What no writing mends: files that aren't named once, and names of the kit that its page has not, or needn't have."""
        times = collections.Counter(file for page in self.pages for file in page.files)
        for file in sorted(self.reached.files.keys() - times.keys()):
            yield f'{PAGES}: no page names {short(file)}, which must be read'
        for file, count in sorted(times.items()):
            if file not in self.reached.files:
                yield f'{self.of_file[file].path}: {short(file)} is named, and need not be read'
            elif count > 1:
                yield f'{PAGES}: {short(file)} is named {count} times'
        rows = [(name.strip('` ').replace('\\|', '|'), library) for name, library in KIT_ROW.findall(text_of(KIT))]
        for name, library in sorted(self.reached.kit - set(rows)):
            yield f'{KIT}: {name} of {library} is missing'
        for name, library in sorted(set(rows) - self.reached.kit):
            yield f'{KIT}: {name} of {library} is not used'

    def link(self, file, page=None):
        """A link to a file, from its own page where none is given."""
        of_file = self.of_file.get(file)
        if of_file is None:
            return f'`{short(file)}`'
        return f'[`{short(file)}`]({"" if of_file is page else of_file.name}{anchor(file)})'

    def row(self, line, page):
        """A row of the table at the top of a page, with its link and its lines."""
        found = ROW.match(line)
        if not found or path_of(found[1]) not in self.reached.files:
            return line
        file = path_of(found[1])
        return f'| {self.link(file, page)} | {found[2]} | {found[3]} | {self.reached.lines(file):,} |'

    def meant(self, file, page):
        """The names of a file that a reader may take for others: those that have another name where they are defined, and those that
        several files define. A line for each file that defines some, with the type of constructors and variants behind them."""
        groups: dict[Any, dict[Any, set[Any]]] = collections.defaultdict(lambda: collections.defaultdict(set))
        scope = opened(file).scope
        for word, (item, name) in self.reached.words[file].items():
            head, name = word.partition('.')[0], name.strip('◌')
            other = f'`{name}` as `{head}`' if head != name and '◌' not in name else ''
            of_type = item.name if item and item.name != name else ''
            if item is None:
                if other:
                    groups['the kit'][''].add(other)
            elif scope.get(head, (None, name))[1] is None:
                is_of_type = scope[head][0].endswith('TheVariants')
                groups[self.link(item.file, page)][of_type * is_of_type].add(f'all as `{head}.`')
            elif item.file != file and (other or len(self.meanings[name]) > 1):
                groups[self.link(item.file, page)][of_type].add(other or f'`{name}`')
        for place, types in sorted(groups.items()):
            yield f'- {place}: ' + '; '.join(', '.join(sorted(words)) + f' (of `{of_type}`)' * bool(of_type)
                                             for of_type, words in sorted(types.items()))

    def section(self, file, page):
        """What a page has of a file: its comment, what words mean there, and its definitions by the parts of the file."""
        lines = [f'## `{file}`', '']
        if opened(file).head:
            lines += [prose(opened(file).head), '']
        mark, fence = '', FENCE + 'rust' * file.endswith('.rt')
        for place, item in enumerate(self.reached.files[file]):
            if place and item.mark == mark:
                lines += ['', *item.lines]
                continue
            mark = item.mark
            lines += [FENCE, ''] * bool(place) + [f'### {prose([mark[:1].upper() + mark[1:]])}', ''] * bool(mark) + [fence, *item.lines]
        meant = list(self.meant(file, page))
        return [*lines, FENCE, *(['', 'Which names are meant:', '', *meant] if meant else [])]

    def written(self, page):
        """A page, all of it."""
        lines = [self.row(line, page) for line in page.head]
        for file in page.files:
            if file in self.reached.files:
                lines += ['', *self.section(file, page)]
        after = self.pages[self.pages.index(page) + 1:][:1]
        further = f'next is [{after[0].title}]({after[0].name})' if after else 'this is the last one'
        return '\n'.join([*lines, '', '## Further', '', f'[The chapters](../trust.md) list all pages; {further}.', ''])

    def names(self):
        """The page of the names."""
        lines = ['# Names', '',
                 'Each name of the definitions that the contract of `replay` reaches, with the files that define it. A constructor or a',
                 'variant has its type behind it. [The kit\'s names](kit.md) are on a page of their own.', '']
        for name in sorted(self.meanings, key=lambda name: (name.lower(), name)):
            places = sorted((item.file, item.name) for item in self.meanings[name].values() if item)
            if places:
                told_places = (self.link(file) + (f' (`{item}`)' if item != name else '') for file, item in places)
                lines.append(f'- `{name}`: {", ".join(told_places)}')
        return '\n'.join([*lines, ''])

    def front(self):
        """The first page with its numbers."""
        so_far = 0
        by_name = {page.name: page for page in self.pages}

        def row(found):
            nonlocal so_far
            page = by_name.get(found[2])
            if page is None:
                return found[0]
            files = [file for file in page.files if file in self.reached.files]
            lines = sum(map(self.reached.lines, files))
            so_far += lines
            items = sum(len(self.reached.files[file]) for file in files)
            return f'{found[1]} {len(files)} | {items} | {lines:,} | {so_far:,} |'

        text = FRONT_ROW.sub(row, text_of(FRONT))
        every = f'| All | | {len(self.reached.files)} | {len(self.reached.items):,} | {self.reached.all_lines:,} | {so_far:,} |'
        return SUM_ROW.sub(every, text)

    def unnamed(self):
        """The pages of chapters that the first page has no link to."""
        return [page.path for page in self.pages if page.name not in {name for _, name in FRONT_ROW.findall(text_of(FRONT))}]

    def texts(self):
        """Each file that is written, with what it has to have."""
        yield from ((page.path, self.written(page)) for page in self.pages)
        yield NAMES, self.names()
        yield FRONT, self.front()


def differs(path, text):
    """Where a file first has another line than it should, or None."""
    if not os.path.isfile(os.path.join(TOP, path)):
        return f'{path} is missing'
    old, new = text_of(path).split('\n'), text.split('\n')
    for at, (has, should) in enumerate(zip(old, new), 1):
        if has != should:
            return f'{path}:{at}: {has[:60]!r}, and should be {should[:60]!r}'
    return None if len(old) == len(new) else f'{path}: {len(old)} lines, and should have {len(new)}'


def check(reached, is_to_write):
    """Writes what differs, where it is to, or prints it, and prints what is wrong besides."""
    writer = Writer(reached)
    wrong = list(writer.wrong()) + [f'{FRONT}: {path} has no row' for path in writer.unnamed()]
    for path, text in writer.texts():
        if is_to_write:
            with open(os.path.join(TOP, path), 'w', encoding='utf-8') as file:
                file.write(text)
        elif difference := differs(path, text):
            wrong.append(difference)
    print(*wrong, sep='\n', end='\n' * bool(wrong))
    if wrong and not is_to_write:
        print(f'trust: {PAGES}/ is not what the files say; bench/trust.py --write writes it')
    print(f'trust: {counted(reached)}, on {told(len(writer.pages), "page")}')
    return not wrong


def others(reached):
    """Prints the files of specs/ that the contract doesn't need, but for those that only list modules."""
    for path in sorted(glob.glob(os.path.join(CRATES, '*', 'specs', '**', '*.antt'), recursive=True)):
        file = os.path.relpath(path, TOP)
        if file not in reached.files and opened(file).items:
            print(file)


def main(words: list[str]) -> None:
    if words in (['-h'], ['--help']):
        print(__doc__)
        return
    if words not in ([], ['--check'], ['--write'], ['--others']):
        print(__doc__, file=sys.stderr)
        sys.exit(2)
    reached = Reached()
    if words == ['--others']:
        others(reached)
    elif words:
        sys.exit(not check(reached, words == ['--write']))
    else:
        show(reached)


if __name__ == '__main__':
    main(sys.argv[1:])
