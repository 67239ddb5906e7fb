"""The one table of what a line of a scenario prints: which rows, in which order, and of which forms. All tools that read a transcript go
by it, and .ci/run transcript_rows compares it with the words of the language and with all rows of the corpus. docs/scenario-language.md
tells what the rows mean."""
import re
import typing

HEARD = 'NotOnGroup NotTaken NoNumber WrongKind Late Beyond Repeat Kept'
OF_TRAINS = 'NoBroadcastId NotWanted OtherTrain AlreadyOnGroup NoBase BadBase NoBigInfo BadBigInfo NoneTaken'
OF_CONTROL = 'NotOnGroup NotControl UnknownOpcode ControlLength MapIgnored Left'
CAUSES = 'Empty Opcode Length Rfu BisTwice SourceUnknown NoDecrypt Known NoRoom ValueTooLong StillSynced'
DROPPED = 'NotStreaming UnitTooLong TimeOrder Backlog'
REFUSED = ('TextTooLong LineTooLong AfterEnd Order BaseTooLong IdentTwice NoSuchSink NoSuchLink LinkTwice SinkTwice NoOutlet NoSuchBis '
           'UnitTooLong TimeOrder RelayTaken Relayed Backlog NoSuchSubevent NotOnAir CounterEnds NothingWaiting RecordsTooLong NoEnd '
           'BadToml BadDocument')

# The fields of a row, each with what may stand there.
FIELDS = {
    'SINK': '[0-7]', 'LINK': '[0-3]', 'STREAM': '(?:[1-9]|[12][0-9]|3[01])', 'SUBEVENT': '(?:[12]?[0-9]|30)',
    'SLOT': '[0-7]', 'FAULT': '[1-9][0-9]?', 'WORD': '(?:0|[1-9][0-9]?)', 'CODE': '[0-9a-f]{2}',
    'NUMBER': '(?:0|[1-9][0-9]{0,18})', 'OCTETS': '(?:-|(?:[0-9a-f]{2})+)',
}
FIELDS.update((name, f'(?:{"|".join(names.split(" "))})') for name, names in (
    ('HEARD', HEARD), ('ANSWER', f'{OF_TRAINS} {OF_CONTROL} Idle'), ('CAUSE', CAUSES), ('DROPPED', DROPPED), ('REFUSED', REFUSED)))

# The forms of the rows. A field with `..` stands once or more.
FORMS = (
    'unit SINK STREAM at NUMBER valid NUMBER OCTETS', 'unit SINK STREAM at NUMBER lost', 'relay SINK STREAM dropped DROPPED',
    'stale STREAM NUMBER', 'pdu NUMBER STREAM SUBEVENT OCTETS', 'heard SINK HEARD', 'heard SINK Malformed FAULT', 'control OCTETS',
    'train SINK NUMBER OCTETS OCTETS OCTETS', 'sink SINK ANSWER', 'sink SINK OnGroup STREAM..', 'sink SINK BadGroup FAULT',
    'sink SINK Malformed FAULT', 'reply SINK ok', 'reply SINK CODE CAUSE', 'notice SINK SLOT OCTETS', 'read SINK SLOT OCTETS',
    'state SINK SLOT OCTETS', 'view SINK SLOT OCTETS', 'forged SINK ok', 'forged SINK NoSuchSlot', 'forged SINK BadNotice FAULT',
    'areply SINK LINK ok', 'areply SINK LINK CODE CAUSE', 'anotice SINK LINK SLOT OCTETS', 'aread SINK LINK SLOT OCTETS',
    'aview SINK LINK SLOT OCTETS', 'sum SINK NUMBER NUMBER',
    'line NUMBER: REFUSED', 'line NUMBER: BadLine WORD', 'line NUMBER: BadGroup FAULT',
)
REFUSAL = 'line'


class Prints(typing.NamedTuple):
    """Rows that a line prints: of these kinds, in any order, once or any number of times."""
    kinds: tuple[str, ...]
    is_once: bool


def once(*kinds: str) -> tuple[Prints, ...]:
    return tuple(Prints((kind,), True) for kind in kinds)


def many(*kinds: str) -> Prints:
    return Prints(kinds, False)


CLOSED = many('unit', 'relay')
# The lines by their first words, each with what it prints, in this order.
LINES: dict[str, tuple[Prints, ...]] = {
    'event': (CLOSED, many('stale')), 'stop': (CLOSED,), 'terminate': (CLOSED, *once('control')), 'end': (CLOSED, many('sum')),
    'drop': once('sum'), 'sniff': once('pdu'), 'inject': once('heard'), 'announce': once('train', 'sink'), 'train': once('sink'),
    'control': once('sink'), 'lose': once('sink'), 'serve': once('reply'), 'tell': once('notice'), 'read': once('read'),
    'drain': (many('reply'), many('notice'), many('read')), 'show': (many('state', 'view'),), 'forge': once('forged'),
    'aserve': once('areply'), 'atell': once('anotice'), 'aread': once('aread'),
    'adrain': (many('areply'), many('anotice'), many('aread')), 'ashow': (many('aview'),),
}
SILENT = ('scenario', 'group', 'sink', 'start', 'tuned', 'unit', 'hear', 'air', 'ident', 'source', 'relay', 'subgroup', 'meta', 'bis',
          'cipher', 'pac', 'locate', 'context', 'write', 'add', 'modify', 'remove', 'code', 'assist', 'apart', 'awrite')
LINES.update((word, ()) for word in SILENT)


def pattern_of(form: str) -> str:
    """The form as a pattern."""
    parts = []
    for word in form.split(' '):
        name = word.rstrip('.:')
        field = FIELDS.get(name, name)
        parts.append(f'{field}(?: {field})*' if word.endswith('..') else field + ':' * word.endswith(':'))
    return ' '.join(parts)


PATTERNS = {form: re.compile(pattern_of(form)) for form in FORMS}
KINDS = tuple(dict.fromkeys(form.split(' ')[0] for form in FORMS))
OF_KIND = {kind: re.compile('|'.join(PATTERNS[form].pattern for form in FORMS if form.split(' ')[0] == kind)) for kind in KINDS}


def is_row(row: str) -> bool:
    """Whether the row has one of the forms."""
    pattern = OF_KIND.get(row.partition(' ')[0])
    return pattern is not None and pattern.fullmatch(row) is not None


def form_of(row: str) -> str | None:
    """The form of a row, or None where it has none."""
    return next((form for form, pattern in PATTERNS.items() if pattern.fullmatch(row)), None)


def place_of(form: str) -> int:
    """How many words behind its first one a row of this form has of its sink and its link."""
    return ('SINK' in form) + ('LINK' in form)


# How many words a row has in common with the line that prints it, behind the first word; not where the line names no sink.
NAMED = {form.split(' ')[0]: place_of(form) for form in FORMS}
CLOSING = ('event', 'stop', 'terminate', 'end')


def is_of(words: list[str], row: list[str]) -> bool:
    """Whether a row may be of this line by the sink and the link that both name. A close names none."""
    named = NAMED.get(row[0], 0)
    return words[0] in CLOSING or row[1:1 + named] == words[1:1 + named]
