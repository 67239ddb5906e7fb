"""Which cases a scenario has: what its lines say, in which state they come, and what they are answered.

A case is a pair of its kind and its name. It is read from the lines of the scenario and of its transcript alone; the state that is
kept beside them (phases, slots, places) follows docs/answers.md and docs/refusals.md."""
import re
from collections import Counter
from collections.abc import Iterable, Iterator, Mapping

from checks.parts.octet_words import Segment, octets, segments
from checks.parts.scenarios import Scenario
from checks.parts.sink_cases import Printed, SinkCases, Words, where

SOURCE_LINES = ('group', 'ident', 'subgroup', 'meta', 'bis', 'cipher', 'start', 'tuned', 'unit', 'event', 'hear', 'air', 'inject', 'sniff',
                'announce', 'train', 'terminate', 'stop')
SINK_LINES = ('pac', 'locate', 'context', 'tuned', 'hear', 'air', 'inject', 'announce', 'train', 'write', 'add', 'modify', 'remove', 'code',
              'serve', 'tell', 'read', 'drain', 'show', 'lose', 'drop', 'control', 'forge', 'assist', 'apart', 'awrite', 'aserve', 'atell',
              'aread', 'adrain', 'ashow')

# The lines, with the words behind the first: those of all, and those that may follow.
LINES = {
    'scenario': 1, 'group': 15, 'ident': 4, 'subgroup': 2, 'meta': 1, 'bis': 2, 'cipher': 2, 'start': 1, 'sink': 4, 'pac': 4, 'locate': 2,
    'context': 3, 'tuned': 2, 'unit': 3, 'event': 0, 'hear': 4, 'air': 2, 'inject': 5, 'sniff': 3, 'announce': 1, 'train': 5, 'write': 2,
    'add': 7, 'modify': 4, 'remove': 2, 'code': 3, 'serve': 1, 'tell': 1, 'read': 1, 'drain': 1, 'show': 1, 'lose': 1, 'drop': 1,
    'terminate': 1, 'control': 2, 'forge': 3, 'stop': 0, 'end': 0, 'assist': 2, 'apart': 2, 'awrite': 3, 'aserve': 2, 'atell': 2,
    'aread': 2, 'adrain': 2, 'ashow': 2, 'source': 1, 'relay': 3,
}


Counts = Counter[tuple[str, str]]  # how often each case comes: its kind and its name
Numbers = dict[str, int]  # those of a `group` line, by their names


class Source:
    """A source: its group by the words of its line, its identity, and its phase."""

    def __init__(self) -> None:
        self.group: Words = []
        self.ident, self.first, self.performed = ('0', '0', '000000'), 0, 0
        self.subgroups: list[int] = []
        self.is_ciphered = self.is_started = self.is_open = False
        self.end = ''

    def phase(self) -> str:
        if not self.group:
            return 'no group'
        if not self.is_started:
            return 'a subgroup without a stream' if self.subgroups[-1:] == [0] else 'a group'
        if self.is_ciphered:
            return 'encrypted and ended' if self.end else 'encrypted'
        return self.end or ('an event is open' if self.is_open else 'started')

    def numbers(self) -> Numbers:
        names = ('origin', 'delay', 'iso', 'sdu', 'max_sdu', 'max_pdu', 'num_bis', 'bn', 'nse', 'irc', 'pto', 'sub', 'spacing', 'phy')
        numbers = dict(zip(names, map(int, self.group[2:])))
        numbers['horizon'] = numbers['pto'] * (numbers['nse'] // max(1, numbers['bn']) - numbers['irc'])
        return numbers

    @property
    def framing(self) -> str:
        return self.group[1]


def numbers_of(has: Numbers, framing: str) -> Iterator[str]:
    """What the numbers of a group are counted by."""
    horizon, streams, k = has['horizon'], has['num_bis'], has['iso'] * 1250 // has['sdu']
    yield f'BN {has["bn"]}'
    yield f'PHY {has["phy"]}'
    yield f'k {"above 1" if k > 1 else k}'
    yield f'NSE {"31" if has["nse"] == 31 else "below 31"}'
    yield '1 stream' if streams == 1 else '31 streams' if streams == 31 else '2 to 30 streams'
    yield f'horizon {horizon if horizon in (0, 15, 30) else "1 to 14" if horizon < 15 else "16 to 29"}'
    if framing == 'unframed':
        yield 'a PDU a unit' if has['max_sdu'] <= has['max_pdu'] else 'several PDUs a unit'


def segment_cases(found: list[Segment]) -> dict[str, bool]:
    """What the segments of a PDU are counted by."""
    starts = [it for it in found if it.starts]
    return {
        'a continuation': len(starts) < len(found),
        'two starts': len(starts) > 1,
        'a continuation and a start': len(found) > len(starts) > 0,
        'a start that is not complete': any(not it.is_complete for it in starts),
        'an empty unit': any(not it.part for it in starts),
        'TimeOffset 0': any(it.offset == 0 for it in starts),
        'TimeOffset 16,777,215': any(it.offset == 0xffffff for it in starts),
    }


class Walk(SinkCases):
    """Walks through the lines of a scenario, and counts its cases."""

    def __init__(self, counts: Counts) -> None:
        self.counts = counts
        super().__init__()
        self.version = 0
        self.sources = Source(), Source()
        self.relays: set[str] = set()

    def count(self, kind: str, name: object) -> None:
        self.counts[kind, str(name)] += 1

    def count_those(self, kind: str, names: Mapping[str, bool]) -> None:
        for name, holds in names.items():
            if holds:
                self.count(kind, name)

    def line(self, line: bytes | None, lines: Iterable[bytes]) -> None:
        """A line of the text, without its end, and what it brings."""
        words = (line or b'').decode('ascii', 'replace').split(' ')
        printed = [it.decode('ascii', 'replace').split(' ') for it in lines]
        refusal = printed[-1] if printed and printed[-1][0] == 'line' else None
        if refusal and refusal[2] in ('LineTooLong', 'TextTooLong', 'NoEnd'):
            self.count('refusals', refusal[2])
            if refusal[2] != 'NoEnd':
                return
            refusal = None
        if not line or line.startswith(b'#'):
            return
        if refusal:
            self.refuse(words, refusal[2], refusal[3] if len(refusal) > 3 else '')
            return
        if not self.version:
            self.version = int(words[1])
        self.count(f'lines of version {self.version}', words[0])
        source = self.sources[self.chosen]
        if words[0] in SOURCE_LINES:
            self.count('phases', source.phase())
            self.count('lines in a phase', f'{words[0]}, {source.phase()}')
        for has in (it for it in printed if it[0] != 'line'):
            self.count('printed lines', 'unit ' + has[5] if has[0] == 'unit' else has[0])
        if len(words) > 1 and words[1] in self.sinks and words[0] in SINK_LINES:
            self.count('lines at a place', f'{words[0]}, {where(self.sinks[words[1]].place)}')
        getattr(self, 'do_' + words[0], self.nothing)(words, source, printed)
        if len(words) > 1 and words[1] in self.sinks and words[0] in SINK_LINES and words[0] not in SOURCE_LINES:
            self.links(words, printed)

    def nothing(self, words: Words, source: Source, printed: Printed) -> None:
        pass

    # Refusals.

    def refuse(self, words: Words, name: str, number: str) -> None:
        self.count('refusals', name)
        source, word = self.sources[self.chosen], words[0]
        if name == 'BadLine':
            self.count('BadLine', self.bad_line(words, int(number)))
        elif name == 'Order':
            self.count('Order', f'{word}, {source.phase()}' if word in SOURCE_LINES and self.version else word)
        elif name == 'BadGroup':
            self.count('BadGroup at a start', number)
            self.count('BadGroup at a start, by framing', f'{number} {source.framing}')
        else:
            self.count('refusals of a line', f'{name}, {word}')
        if name == 'CounterEnds':
            self.count('the payload counter', f'{word} refused, {source.framing}')
        if name == 'LinkTwice':
            self.count('links', f'{words[2]} joined twice')
        if name == 'TimeOrder':
            self.count('TimeOrder', self.time_order(words, source))

    def bad_line(self, words: Words, number: int) -> str:
        if number == 0:
            return f'0 {words[0]}, version {self.version or 1}' if words[0] in LINES else '0 other, none'
        return f'{number} {words[0]}, {"missing" if number == len(words) else "not fitting"}'

    def time_order(self, words: Words, source: Source) -> str:
        if source.framing == 'unframed':
            return 'a time, unframed'
        return 'no time, framed' if words[2] == '-' else f'framed, version {self.version}'

    # Sources.

    def do_source(self, words: Words, _source: Source, _printed: Printed) -> None:
        self.chosen = int(words[1])
        self.count('sources', words[1])

    def do_group(self, words: Words, source: Source, _printed: Printed) -> None:
        source.group = words

    def do_ident(self, words: Words, source: Source, _printed: Printed) -> None:
        source.ident = (words[1], words[3], words[4].lower())

    def do_cipher(self, _words: Words, source: Source, _printed: Printed) -> None:
        source.is_ciphered = True

    def do_subgroup(self, _words: Words, source: Source, _printed: Printed) -> None:
        source.subgroups.append(0)

    def do_bis(self, _words: Words, source: Source, _printed: Printed) -> None:
        source.subgroups[-1] += 1

    def do_start(self, words: Words, source: Source, _printed: Printed) -> None:
        source.is_started, source.first = True, int(words[1])
        self.count('sources', f'started with {sum(it.is_started for it in self.sources)}')
        has, subgroups = source.numbers(), len(source.subgroups)
        for name in numbers_of(has, source.framing):
            self.count('groups', f'{source.framing}, {name}')
        self.count('BASE', f'{subgroups if subgroups < 3 else "3 or more"} subgroups')
        greatest = {'961 PDUs an event': has['num_bis'] * has['nse'] == 961,
                    '217 payloads in a window': (has['horizon'] + 1) * has['bn'] == 217, '24 subgroups of a BASE': subgroups == 24}
        self.count_those('greatest numbers', greatest)

    def do_event(self, _words: Words, source: Source, printed: Printed) -> None:
        has = source.numbers()
        number = source.first + source.performed
        source.performed += 1
        source.is_open = True
        if (number + has['horizon'] + 2) * has['bn'] > 1 << 39:
            self.count('the payload counter', f'the last event, {source.framing}')
        if source.performed > 32:
            self.count('sources', 'more than 32 events')
        left_out = [line[1] for line in printed if line[0] == 'stale']
        for bis in left_out:
            self.count('framed units', 'left out')
        if any(left_out.count(bis) == 16 for bis in left_out):
            self.count('greatest numbers', '16 units of a stream left out at once')
        self.units(printed)

    def do_stop(self, words: Words, source: Source, printed: Printed) -> None:
        source.end, source.is_open = 'stopped' if words[0] == 'stop' else 'terminated', False
        self.units(printed)

    do_terminate = do_stop

    def do_end(self, _words: Words, _source: Source, printed: Printed) -> None:
        self.count('sources', f'open at the end: {sum(it.is_open for it in self.sources)}')
        if any(line[0] == 'relay' for line in printed):
            self.count('relays', 'a unit dropped at the end')
        self.units(printed)
        self.chosen = 0

    def do_relay(self, words: Words, _source: Source, _printed: Printed) -> None:
        self.relays.add(words[1])
        self.count('relays', 'made while an event is open' if self.sources[0].is_open else 'made')
        if len(self.relays) == 2:
            self.count('relays', 'two at once')

    def do_drop(self, words: Words, source: Source, printed: Printed) -> None:
        if words[1] in self.relays:
            self.relays.remove(words[1])
            self.count('relays', 'ended by `drop`')
        super().do_drop(words, source, printed)

    def do_unit(self, words: Words, source: Source, _printed: Printed) -> None:
        has, length = source.numbers(), len(octets(words[3]))
        if source.framing == 'framed':
            ahead = int(words[2]) > has['origin'] + source.performed * has['iso'] * 1250
            self.count('framed units', 'given past the next anchor' if ahead else 'given for the next anchor or before')
        much = 'no octet' if not length else 'MAXSDU' if length == has['max_sdu'] else 'between'
        self.count('units given', f'{source.framing}, {much}')

    def units(self, printed: Printed) -> None:
        for words in printed:
            if words[0] == 'relay':
                self.count('units dropped', words[4])
            if words[0] != 'unit' or words[1] not in self.sinks:
                continue
            sink = self.sinks[words[1]]
            source = self.sources[sink.source]
            framing = sink.framing or source.framing
            kind = f'{framing} units'
            if words[5] == 'lost':
                self.count(kind, 'lost')
                continue
            length, has = int(words[6]), source.numbers()
            self.count_those(kind, {'valid': True, 'valid, no octet': length == 0, f'valid, {length} octets': length in (1757, 4095),
                                    'valid, of several PDUs': length > has['max_pdu'],
                                    'valid, of several events': framing == 'framed' and length > has['bn'] * has['max_pdu']})

    # What is on the air.

    def do_sniff(self, words: Words, source: Source, printed: Printed) -> None:
        framing, payload = source.framing, octets(printed[0][4])
        self.count('PDUs on the air', f'{framing}, {"padding" if payload in (bytes([1, 0]), bytes([2, 0])) else "more"}')
        if words[1] == '31':
            self.count('sources', 'the event 31 before the last')
        if framing == 'framed':
            self.count_those('framed PDUs on the air', segment_cases(list(segments(payload[2:]))))

    def do_inject(self, words: Words, source: Source, printed: Printed) -> None:
        answer = ' '.join(printed[0][2:])
        self.count('answers to a PDU', answer)
        self.count('answers to a PDU, by framing', f'{answer}, {source.framing}')


def count_cases(counts: Counts, scenario: Scenario) -> None:
    """Counts the cases of a scenario."""
    walk = Walk(counts)
    if scenario.words:
        name = re.sub(r'[=\d]+', '', scenario.words[0])
        counts['words', f'{name}, status {scenario.exit_code}'] += 1
        if scenario.words == ['--toml'] and scenario.exit_code == 1:
            counts['refusals', scenario.transcript.splitlines()[-1].split(b' ')[2].decode()] += 1
        return
    for place, (line, printed) in enumerate(scenario.steps):
        walk.counts = Counts() if place < scenario.counted_from else counts
        walk.line(line, printed)
        if printed and printed[-1].startswith(b'line '):
            return
