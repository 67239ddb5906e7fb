"""The cases of the lines that name a sink: its place, its slots, and what waits on its links."""
import typing
from collections.abc import Mapping

from checks.parts.octet_words import Operation, is_value, octets, operation, structure

LATE = ('NoBase', 'BadBase', 'NoBigInfo', 'BadBigInfo', 'BadGroup', 'NoneTaken')


Words = list[str]
Printed = list[Words]  # the rows that a line brings
Place = tuple[str, int | None]  # idle, on a train or on a group; and the slot for which: -1 for one that isn't known, None for none


class Sink:
    """A sink: its links with their writes that wait, its slots by Source_ID, and its place."""

    def __init__(self, words: Words):
        self.slots, self.mtu = int(words[3]), int(words[4]) if len(words) > 4 else None
        self.links: dict[int, list[Operation]] = {0: []}
        self.held: dict[int, tuple[object, int, list[int]]] = {}  # the train of each slot, PA_Sync and the wanted streams of its subgroups
        self.place: Place = ('idle', None)
        self.source, self.framing, self.records = 0, '', 0


def where(place: Place) -> str:
    if place[0] == 'idle':
        return 'idle'
    return 'on the train' if place[0] == 'train' else 'on a group of no slot' if place[1] is None else 'on the group of a slot'


class SinkCases:
    """The part of a walk that knows the sinks."""

    def __init__(self) -> None:
        self.sinks: dict[str, Sink] = {}
        self.numbers: set[str] = set()
        self.chosen = 0

    def count(self, kind: str, name: object) -> None:
        raise NotImplementedError

    def count_those(self, kind: str, names: Mapping[str, bool]) -> None:
        raise NotImplementedError

    # Sinks.

    def do_sink(self, words: Words, _source: typing.Any, _printed: Printed) -> None:
        sink = self.sinks[words[1]] = Sink(words)
        self.count('sinks', f'number {words[1]}')
        self.count('sinks', f'slots: {sink.slots}')
        self.count('sinks', f'MTU {sink.mtu if sink.mtu in (None, 23, 185, 517) else "of another number"}'.replace('None', 'none'))
        self.count('sinks', f'living: {len(self.sinks)}')
        self.count('sinks', f'{"a stream" if words[2] == "1" else "31 streams" if words[2] == "31" else "some streams"} at most')
        if words[1] in self.numbers:
            self.count('sinks', 'a number a second time')
        self.numbers.add(words[1])

    def do_drop(self, words: Words, _source: typing.Any, _printed: Printed) -> None:
        self.count('sinks', f'dropped, {where(self.sinks.pop(words[1]).place)}')

    def do_pac(self, words: Words, _source: typing.Any, _printed: Printed) -> None:
        sink = self.sinks[words[1]]
        sink.records += 1
        if sink.records == 73:
            self.count('greatest numbers', '73 records')

    def of_source(self, sink: Sink, framing: str) -> None:
        if sink.framing and sink.source != self.chosen:
            self.count('sinks', 'from one source to the other')
        sink.source, sink.framing = self.chosen, framing

    def do_tuned(self, words: Words, source: typing.Any, _printed: Printed) -> None:
        sink = self.sinks[words[1]]
        self.count('places', f'tuned, {where(sink.place)}')
        self.count('sinks', f'tuned to {"a stream" if len(words) == 3 else "31 streams" if len(words) == 33 else "some streams"}')
        sink.place = ('group', None)
        self.of_source(sink, source.framing)

    def do_lose(self, words: Words, _source: typing.Any, _printed: Printed) -> None:
        self.count('places', f'lose, {where(self.sinks[words[1]].place)}')
        self.sinks[words[1]].place = ('idle', None)

    def do_control(self, words: Words, _source: typing.Any, printed: Printed) -> None:
        sink, answer = self.sinks[words[1]], ' '.join(printed[0][2:])
        self.count('answers to a control PDU', answer)
        if answer in ('Left', 'MapIgnored'):
            self.count('places', f'{answer}, {where(sink.place)}')
        if answer == 'Left':
            sink.place = ('train', sink.place[1]) if sink.place[1] is not None else ('idle', None)

    def do_announce(self, words: Words, source: typing.Any, printed: Printed) -> None:
        self.train(words, source, printed[0][3:6], printed[1])
        has = source.numbers()
        number = source.first + source.performed
        if (number + 1) * has['bn'] >= 1 << 39:
            self.count('the payload counter', f'the last train, {source.framing}')

    def do_train(self, words: Words, source: typing.Any, printed: Printed) -> None:
        self.train(words, source, words[3:6], printed[0])

    def train(self, words: Words, source: typing.Any, parts: Words, printed: Words) -> None:
        sink, answer = self.sinks[words[1]], printed[2]
        self.count(f'answers to {words[0]}', answer)
        self.count('places', f'{answer}, {where(sink.place)}')
        if answer == 'BadGroup':
            self.count('BadGroup of a train', printed[3])
        if answer == 'OnGroup':
            self.count('streams taken', '31' if len(printed) == 34 else '1' if len(printed) == 4 else '2 or more')
        if answer in LATE + ('OnGroup',):
            key = (source.ident[0], source.ident[1], (structure(octets(parts[0]), 0x16, b'\x52\x18') or b'')[:3].hex())
            wanted = [source_id for source_id, held in sink.held.items() if held[0] == key and held[1]]
            sink.place = ('group' if answer == 'OnGroup' else 'train', wanted[0] if wanted else -1)
            info = structure(octets(parts[2]), 0x2c) or b''
            self.of_source(sink, 'framed' if len(info) > 32 and info[32] & 0x80 else 'unframed')
            if len(info) == 57 and answer in ('BadGroup', 'NoneTaken', 'OnGroup'):
                self.count('places', 'a code is required')

    # Links.

    def links(self, words: Words, printed: Printed) -> None:
        sink = self.sinks[words[1]]
        is_linked = words[0] in ('assist', 'apart', 'awrite', 'aserve', 'atell', 'aread', 'adrain', 'ashow')
        link = int(words[2]) if is_linked else 0
        if is_linked:
            self.count('links', f'{words[0]} {link}')
        if words[0] == 'assist':
            sink.links[link] = []
            self.count('links', f'joined at once: {len(sink.links)}')
        elif words[0] == 'apart':
            self.count('links', 'parted with a write' if sink.links.pop(link) else 'parted')
        elif words[0] in ('write', 'awrite', 'add', 'modify', 'remove', 'code'):
            sink.links[link].append(operation(words))
            if len(sink.links[link][-1].pairs or ()) == 99:
                self.count('greatest numbers', '99 subgroups of a write')
            waiting = len(sink.links[link])
            self.count('writes that wait', waiting if waiting < 9 else '9 or more')
            if words[0] in ('add', 'modify'):
                count = (len(words) - (8 if words[0] == 'add' else 5)) // 2
                self.count('subgroups wanted', count if count < 3 else '31' if count == 31 else '3 to 30')
        if words[0] == 'forge':
            self.forge(sink, int(words[2]), octets(words[3]), ' '.join(printed[0][2:]))
        for has in printed:
            self.told(sink, link, has)
        if words[0] in ('drain', 'adrain'):
            for kind in ('reply', 'notice', 'read'):
                many = sum(it[0].removeprefix('a') == kind or it[0] == kind for it in printed)
                name = {'reply': 'writes', 'notice': 'notices', 'read': 'reads'}[kind]
                self.count(f'{name} of a drain', many if many < 9 else '9 or more')
                if many > 32:
                    self.count('greatest numbers', f'more than 32 {name} of a drain')
                if many > 8 or many == 8 and kind == 'read':
                    self.count('long drains', f'{words[0]}: {"more than eight " if many > 8 else "eight "}{name}')

    def told(self, sink: Sink, link: int, has: Words) -> None:
        kind = has[0]
        if kind in ('reply', 'areply') and sink.links[link]:
            self.reply(sink, sink.links[link].pop(0), has[-1])
        if kind in ('notice', 'read', 'state', 'view', 'anotice', 'aread', 'aview'):
            self.count('slots', f'{kind} {has[-2]}')
            value = octets(has[-1])
            if len(value) == 512:
                self.count('greatest numbers', f'512 octets, {kind}')
            if kind.endswith(('view', 'state')) and len(value) > 14:
                groups = value[14 + (16 if value[13] == 3 else 0)]
                self.count('subgroups of a value', f'{kind} {groups if groups < 3 else "3 or more"}')
            if kind.endswith('notice'):
                edge = 'no MTU' if sink.mtu is None else 'at MTU - 3' if len(value) >= sink.mtu - 3 else 'below MTU - 3'
                self.count('notices', edge)

    def forge(self, sink: Sink, slot: int, value: bytes, answer: str) -> None:
        self.count('answers to forge', answer)
        if slot < sink.slots:
            self.count('slots', f'forged {slot}')
        if sink.mtu is None or slot >= sink.slots:
            return
        over = len(value) - (sink.mtu - 3)
        if over >= 0:
            self.count('forged values', f'{"MTU - 3" if over == 0 else "above MTU - 3"}, {"a state" if is_value(value) else "no state"}')
        elif over == -1:
            self.count('forged values', f'MTU - 4, {"a state" if is_value(value) else "no state"}')

    def reply(self, sink: Sink, op: Operation, cause: str) -> None:
        name, key, pa_sync, pairs = op
        self.count('replies', cause)
        self.count('replies to an operation', f'{cause}, {name}')
        if cause == 'NoRoom':
            self.count('slots', f'no room in {sink.slots}')
        if cause in ('StillSynced', 'Known'):
            self.count('places', f'{cause}, {where(sink.place)}')
        if cause != 'ok':
            return
        if name == 'Add':
            source_id = next(it for it in range(256) if it not in sink.held)
            sink.held[source_id] = (key, pa_sync, [bits for bits, _ in pairs or ()])
            self.count('slots', f'filled {source_id}')
            self.count('PA_Sync', f'Add {pa_sync}')
        elif name == 'Remove':
            sink.held.pop(typing.cast(int, key), None)
            self.count('slots', f'emptied {key}')
        elif name == 'Modify' and isinstance(key, int) and key in sink.held:
            wishes = [bits for bits, _ in pairs or ()]
            here = where(sink.place) if sink.place[1] == key else 'elsewhere'
            same = 'the same streams' if wishes == sink.held[key][2] else 'others'
            self.count('PA_Sync', f'Modify {pa_sync}, {same}, {here}')
            if here != 'elsewhere' and pa_sync == 0:
                sink.place = ('idle', None)
            elif here == 'on the group of a slot' and same == 'others':
                sink.place = ('train', key)
            sink.held[key] = (sink.held[key][0], pa_sync, wishes)
