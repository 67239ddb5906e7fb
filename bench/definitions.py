"""definitions.py: the definitions of specs/, and the types, traits and public calls of src/, as items: each with the count of its
lines and the names that it uses. What a name means its file says, by its imports and its own items; variables, labels and fields
are no names. It has no usage of its own: trust.py imports it."""
import dataclasses
import functools
import glob
import os
import re
from typing import Any

TOP = os.path.dirname(os.path.dirname(os.path.abspath(__file__)))
CRATES = os.path.join(TOP, 'crates')

IMPORT = re.compile(r'(?:ghost )?use Rattle\.([\w.]+?)(?:\.\{([^}]*)\})?(?: as (\S+?))?;?$')
MARK = '-- ---- '
CODE_IMPORT = re.compile(r'^(?:pub )?use (\w+)::([^;]+);', re.M)
ANTT_ITEM = re.compile(r'(?:(?:abbrev|unfoldable) )?(?:pub )?(record |data )?(\S+)( :.*|.*)$')
FIELD = re.compile(r'  (?:pub )?(\S+) : ')
CODE_ITEM = re.compile(r'^(?:pub(?:\(crate\))? )?(?:struct|enum|trait|type) (\w+)|^pub fn (\w+)', re.M)
MODEL = re.compile(r'^impl(?:<[^>]*>)? Model for (\w+)', re.M)
WORD = re.compile(r'\[\]|λ|↦|[(){}\[\];,]|[^\s(){}\[\];,λ]+')
BINDERS = re.compile(r'([^\s(){}:]+(?: [^\s(){}:]+)*) : ')
LIMITS = set('(){}[];,') | {'λ', '↦', '=', ':', '→', 'let', 'in', 'record', 'elim', 'as', '|'}


class Unread(Exception):
    """Something that stands in a file and isn't understood here, so that no answer would be right."""


@dataclasses.dataclass
class Item:
    """A definition with its comment, or a type, a trait or a call with its contract."""
    file: str
    name: str
    kind: str
    mark: str = ''
    lines: list = dataclasses.field(default_factory=list)
    text: list = dataclasses.field(default_factory=list)
    members: set = dataclasses.field(default_factory=set)

    @property
    def count(self):
        """How many lines it has, without blank ones."""
        return sum(bool(line) for line in self.lines)


def text_of(file):
    with open(os.path.join(TOP, file), encoding='utf-8') as opened_file:
        return opened_file.read()


def without_comment(line, mark):
    """A line without the texts in quotes and without its comment."""
    return re.sub(r'"[^"]*"', '', line).split(mark)[0].rstrip()


def imported(line, scope):
    """Puts what an import brings into a scope: a name stands for a module and a name in it, an alias for a module and none."""
    found = IMPORT.match(line)
    if not found:
        raise Unread(line)
    module, names, alias = found.groups()
    if names is None:
        scope[alias or module.rpartition('.')[2]] = (module, None)
        return
    for name in names.split(', '):
        own, _, other = name.partition(' as ')
        # an operator is used without the marks of its places
        for used in (other or own).split('◌') if '◌' in own else (other or own,):
            if used:
                scope[used] = (module, own)


class Definitions:
    """A file of specs/: its head comment, its scope and its items, by their names and those of their constructors. An item has the
    comment above it, and the mark of its part of the file."""

    def __init__(self, file):
        self.file, self.head = file, []
        self.scope: dict[str, Any] = {}
        self.items: dict[str, Item] = {}
        self.current: Any = None
        self.notes, self.mark, self.blank = [], '', False
        for line in text_of(file).split('\n'):
            self.read(line)
        for item in list(self.items.values()):
            for member in item.members:
                self.items.setdefault(member, item)

    def read(self, line):
        """Takes a line to the item that it is of."""
        text = without_comment(line, '--')
        if not line:
            self.close_notes()
            self.blank = True
        elif line.startswith('use '):
            self.close_notes()
            imported(line, self.scope)
        elif not text.strip() or line.startswith('infix'):
            self.notes.append(line)
        elif text.startswith(' ') or text.startswith('}') or not self.begins(text, line):
            self.current.lines += [''] * self.blank + [*self.notes, line]
            self.notes, self.blank = [], False
            self.current.text.append(text)
            if self.current.kind == 'data' and (field := FIELD.match(text)):
                self.current.members.add(field[1])

    def close_notes(self):
        """Takes a comment that no item follows: that of the file, or the mark of a part."""
        if not self.notes:
            return
        said = [note.removeprefix(MARK).removeprefix('--').strip() for note in self.notes]
        if self.notes[0].startswith(MARK):
            self.mark = ' '.join(said)
        elif not self.items and not self.head:
            self.head = said
        else:
            raise Unread(f'{self.file}: {self.notes[0]}')
        self.notes = []

    def begins(self, text, line):
        """Whether a line begins an item, which then is the current one."""
        if text.startswith('pub mod '):
            return True
        item: Any = ANTT_ITEM.match(text)
        kind, name, rest = item.groups()
        if kind or rest.startswith(' :'):
            self.current = Item(self.file, name.strip('◌'), (kind or 'value').strip(), self.mark, [*self.notes, line], [text])
            self.items[self.current.name] = self.current
            self.notes, self.blank = [], False
            return True
        if self.current is None or name != self.current.name and f' {self.current.name} ' not in text:
            raise Unread(f'{self.file}: {text}')
        return False


class Code:
    """A file of src/: its scope, and its public types, traits and calls with their contracts."""

    def __init__(self, file):
        self.file, self.head, self.whole = file, [], text_of(file)
        self.scope: dict[str, Any] = {}
        self.items: dict[str, Item] = {}
        for line in self.whole.split('\n'):
            if line.strip().startswith('ghost use '):
                imported(line.strip(), self.scope)
        for crate, names in CODE_IMPORT.findall(self.whole):
            for name in re.findall(r'[A-Z]\w+', names):
                self.scope[name] = (f'{file.split("/")[1] if crate == "crate" else crate}.specs.declared', name)
        for found in CODE_ITEM.finditer(self.whole):
            self.take(found, found[1] or found[2])
        for found in MODEL.finditer(self.whole):
            if found[1] in self.items:
                self.take(found, found[1])

    def take(self, found, name):
        """Takes the text of an item, from its documentation to its end, or that of a call to its body."""
        front: Any = re.search(r'(?:^[ \t]*(?:///|//|#\[)[^\n]*\n)*\Z', self.whole[:found.start()], re.M)
        is_call = found[0].startswith('pub fn')
        text = self.whole[found.start():].partition('\n')[0]
        if not text.endswith((';', '}')):
            ended: Any = re.match(r'(?s).*?\{\}?$' if is_call else r'(?s).*?^\}', self.whole[found.start():], re.M)
            text = ended[0]
        item = self.items.setdefault(name, Item(self.file, name, 'call' if is_call else 'type'))
        lines = [line for line in text.removesuffix('\n{').split('\n') if 'ghost use' not in line]
        item.text += [without_comment(line, '//') for line in lines]
        item.lines += [''] * bool(item.lines) + [line for line in front[0].split('\n') if line and not line.startswith('#[')]
        item.lines += [line for at, line in enumerate(lines) if line or not lines[at - 1].endswith('{')]


@functools.cache
def code_of(crate):
    """The files of src/ by the names of the types, traits and calls that stand in them."""
    files: dict[str, str] = {}
    for path in sorted(glob.glob(os.path.join(CRATES, crate, 'src', '**', '*.rt'), recursive=True)):
        file = os.path.relpath(path, TOP)
        for names in CODE_ITEM.findall(text_of(file)):
            files.setdefault(''.join(names), file)
    return files


@functools.cache
def opened(file):
    """A file with its scope and its items, read once."""
    return Definitions(file) if file.endswith('.antt') else Code(file)


def item_of(module, name):
    """The item that a name of a module is, None where the module is of the kit."""
    crate, _, rest = module.partition('.specs.')
    if not os.path.isdir(os.path.join(CRATES, crate)):
        return None
    if rest.startswith('declared'):
        names = [part for part in (*rest.split('.'), name) if part[0].isupper() and part in code_of(crate)]
        if not names:
            raise Unread(f'{module}.{name}: no type')
        return opened(code_of(crate)[names[0]]).items[names[0]]
    file = f'crates/{crate}/specs/{rest.replace(".", "/")}.antt'
    if not os.path.isfile(os.path.join(TOP, file)):
        raise Unread(f'{module}.{name}: no file')
    return opened(file).items[name.strip('◌')]


class Scan:
    """The words of an item that are names, each with its module and its name there; one that is bound before it is none."""

    def __init__(self, item):
        self.item, self.file, self.words, self.bound = item, opened(item.file), {}, set()

    def meaning(self, word):
        """The module and the name that a word stands for, or None for a variable, a field or a sign."""
        head, _, rest = word.partition('.')
        if head in self.bound:
            return None
        if head in self.file.items:
            return self.item.file, head
        module, name = self.file.scope.get(head, (None, None))
        if module and name is None:
            return (module, rest.split('.')[0]) if rest else None
        return (module, name) if module else None

    def is_constructor(self, word):
        """Whether a word of a pattern is a constructor, and no variable."""
        means = self.meaning(word)
        if means is None:
            return False
        found = self.file.items[means[1]] if means[0] == self.item.file else item_of(*means)
        return found is None or found.kind == 'type' or means[1] in found.members

    def use(self, word):
        means = self.meaning(word)
        if means and means != (self.item.file, self.item.name):
            self.words[word] = means

    def pattern(self, words):
        """What stands to the left of a clause: constructors are used, all else is bound."""
        for word in words:
            if word not in LIMITS:
                if self.is_constructor(word):
                    self.use(word)
                else:
                    self.bound.add(word)

    def body(self, text):
        """What stands behind a pattern, or a type: names are used, but for labels and what a binder binds."""
        words = WORD.findall(text)
        for at, word in enumerate(words):
            before, behind = words[at - 1] if at else '', words[at + 1] if at + 1 < len(words) else ''
            if word in ('(', '{') and (found := BINDERS.match(' '.join(words[at + 1:at + 24]))):
                self.bound |= set(found[1].split())
            elif word == 'λ':
                end = next(place for place in range(at + 1, len(words)) if words[place].endswith('.') or words[place] in ('(', '{'))
                self.bound |= {name.rstrip('.') for name in words[at + 1:end + 1]}
            elif before == 'let' or behind == '←':
                self.bound.add(word)
            elif word == 'do':
                self.use('>>=')
            elif word.endswith(':') or behind == '=' and before in ('', '{', ';', ','):
                continue
            elif word not in LIMITS and not word.startswith('.'):
                self.use(word)

    def parts(self):
        """The signature and the clauses of an item, each one text."""
        parts: list[str] = []
        for line in self.item.text:
            if not parts or line[0] not in ' }':
                parts.append(line)
            else:
                parts[-1] += '\n' + line
        return parts

    def read(self):
        """Takes all names that the item uses."""
        if self.item.kind in ('type', 'call'):
            self.body(re.sub(r'[<>&]|\bSelf\b', ' ', '\n'.join(self.item.text)))
        elif self.item.kind == 'value':
            first, *clauses = self.parts()
            self.body(first.partition(' :')[2])
            for clause in clauses:
                self.bound = set()
                left, _, right = clause.partition(' =')
                self.pattern(WORD.findall(left))
                self.body(right)
        else:
            self.fields()

    def fields(self):
        """A record or a data type: each field has its type behind its name, and is bound from then on."""
        head, _, rest = '\n'.join(self.item.text).partition('\n')
        self.body(head.partition(self.item.name)[2])
        for field in re.split(r'\n(?=  \S)', '\n' + rest):
            name, _, of_type = field.strip().partition(' :')
            self.body(of_type)
            self.bound.add(name.removeprefix('pub '))

