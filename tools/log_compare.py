"""How a value of a slot in a log is compared with what the proved logic has. log_lay.py uses it."""
from __future__ import annotations

import dataclasses
import typing

import log_gatt
from log_sink import Link, Notice, Sink
from log_states import BAD_CODE, DECRYPTING, FAILED_SYNC, NEEDS_CODE, NOT_SYNCED, REQUESTED, SYNCED, State, state_of

if typing.TYPE_CHECKING:
    from log_lay import Laying


class Comparison:
    """A value that the log tells, beside the sink that stands for its server."""

    def __init__(self, laying: Laying, said: log_gatt.Said, sink: Sink, link: Link):
        self.laying, self.said, self.sink, self.link = laying, said, sink, link

    def take(self, value: log_gatt.Value) -> None:
        if value.way == 'read':
            self.read(value)
        else:
            self.notified(value)

    def read(self, value: log_gatt.Value) -> None:
        sink, slot = self.sink, value.slot
        sink.read(self.link, slot)
        if self.is_same(sink.model[slot], value) or self.followed(value) and self.is_same(sink.model[slot], value):
            self.laying.counted['states read that agree'] += 1
            return
        self.differ(value, sink.model[slot], self.laying.program.number, '')

    def notified(self, value: log_gatt.Value) -> None:
        """Looks for the notice that a notification is."""
        link, slot = self.link, value.slot
        if link.asked.get(slot) == 0:
            self.tell('NotAsked', value, '(none)', self.laying.program.number)
        link.asked.setdefault(slot, 1)
        if self.found(value):
            self.laying.counted['notices that agree'] += 1
            return
        if self.said.server in self.laying.excused and not any(it.slot == slot for it in link.notices):
            self.differ(value, self.sink.model[slot], self.laying.program.number, '')
            return
        if self.laying.serve(self.said.server, self.said.connection) and self.found(value):
            self.laying.counted['notices that agree'] += 1
            return
        waiting = [it for it in link.notices if it.slot == slot]
        if not waiting and self.is_same(self.sink.model[slot], value):
            if self.is_left_out(self.sink.model[slot], value):
                self.laying.counted['notices that agree'] += 1
            else:
                self.tell('OneNotice', value, '(none)', self.laying.program.number)
            return
        own = waiting[0] if waiting else Notice(slot, self.sink.model[slot], self.laying.program.number, '')
        self.sink.tell(link, link.notices.index(own) if waiting else -1)
        if waiting:
            link.notices.remove(own)
        self.differ(value, own.octets, own.line, own.by)

    def found(self, value: log_gatt.Value) -> bool:
        """Whether a notice that waits is this one, as things are or once the sink was brought where the device says it is."""
        return self.matched(value) or self.followed(value) and self.matched(value)

    def matched(self, value: log_gatt.Value) -> bool:
        """Whether a notice that waits is this one. Those of the slot before it never came."""
        link = self.link
        place = next((it for it, notice in enumerate(link.notices)
                      if notice.slot == value.slot and self.is_same(notice.octets, value)), None)
        if place is None:
            return False
        self.sink.tell(link, place)
        for notice in [it for it in link.notices[:place] if it.slot == value.slot]:
            self.laying.lacks(self.said.server, notice)
            link.notices.remove(notice)
        del link.notices[next(it for it, notice in enumerate(link.notices)
                              if notice.slot == value.slot and self.is_same(notice.octets, value))]
        return True

    def followed(self, value: log_gatt.Value) -> bool:
        """Brings the sink to the synchronization that a device tells whose radio isn't in the log."""
        told = state_of(value.octets)
        if not self.said.server.peer or told is None or value.slot in self.sink.still:
            return False
        if not self.sink.follow(value.slot, told):
            return False
        self.laying.left['radio'] += 1
        return True

    def is_same(self, own: bytes, value: log_gatt.Value) -> bool:
        """Whether a value of the logic is this one of the log, but for the Source_ID and what is left out."""
        told = value.octets
        if not own or not told:
            return own == told
        whole, least = own, self.link.mtu - 3
        if value.way != 'read' and len(own) > least:
            whole = own[:least]
        elif not value.is_whole:
            whole = own[:len(told)]
        if len(whole) != len(told):
            return self.is_left_out(own, value)
        if not self.is_source(own[0], told[0]):
            return False
        if whole[1:] == told[1:] or self.is_left_out(own, value):
            self.sink.ids[own[0]] = told[0]
            return True
        return False

    def is_source(self, own: int, told: int) -> bool:
        """Whether a Source_ID of the device may be that of this source."""
        ids = self.sink.ids
        return ids[own] == told if own in ids else told not in ids.values()

    def is_left_out(self, own: bytes, value: log_gatt.Value) -> bool:
        """Whether two values differ in nothing but what the logic leaves out."""
        mine, told, slot = state_of(own), state_of(value.octets), value.slot
        if mine is None or told is None or not self.is_source(mine.source, told.source):
            return False
        kinds = set()
        if told.pa != mine.pa and mine.pa != SYNCED and told.pa in (REQUESTED, NOT_SYNCED, NOT_SYNCED + 1):
            if told.pa != NOT_SYNCED and self.sink.wishes[slot] != 1:
                return False
            kinds.add('failed' if told.pa == NOT_SYNCED else 'past')
            mine = dataclasses.replace(mine, pa=told.pa)
        if told.encryption in (DECRYPTING, BAD_CODE) and mine.encryption == NEEDS_CODE and self.is_within(told, slot):
            kinds.add('code')
            mine = placed(mine, told)
        if slot in self.sink.still and self.is_within(told, slot):
            kinds.add('still')
            mine = dataclasses.replace(placed(mine, told), pa=told.pa)
        if not kinds or key(mine) != key(told):
            return False
        for kind in kinds:
            self.laying.left[kind] += 1
        self.sink.ids[own[0]] = told.source
        return True

    def is_within(self, told: State, slot: int) -> bool:
        """Whether all streams of a state are asked for."""
        return told.streams & ~self.sink.wanted[slot] == 0

    def differ(self, value: log_gatt.Value, own: bytes, line: int, by: str) -> None:
        """Tells a difference, and brings the sink to where the device is."""
        server, laying = self.said.server, self.laying
        if server in laying.excused and (not own or not value.octets or own[1:12] != value.octets[1:12] or not by):
            laying.excused.discard(server)
            laying.counted['values that follow from a write answered otherwise'] += 1
        else:
            self.tell(self.rule(own, value, by), value, own.hex() or '-', line)
        if value.is_whole and (not value.octets or state_of(value.octets)):
            states = laying.as_device(server, self.sink.model)
            states[value.slot] = value.octets
            laying.known[server] = states
            laying.adopt(server, self.sink)

    def tell(self, rule: str, value: log_gatt.Value, own: str, line: int) -> None:
        self.laying.differ(self.said.server, rule, f'{value.way} of slot {value.slot}: {value.octets.hex() or "-"}', own, line)

    def rule(self, own: bytes, value: log_gatt.Value, by: str) -> str:
        """The rule of the first field in which two values differ."""
        told, limit = value.octets, self.link.mtu - 3
        if value.way != 'read' and len(own) > limit and (len(told) > limit or len(told) < limit and state_of(told) is None):
            return 'Cut'
        if not told:
            return 'Filled'
        if not own:
            elsewhere = [slot for slot, it in enumerate(self.sink.model) if it[1:12] == told[1:12]]
            return 'Layout' if state_of(told) is None and value.is_whole else 'Slot' if elsewhere else 'Unasked'
        mine, other = state_of(own), state_of(told)
        if other is None or mine is None:
            return 'Layout' if value.is_whole and len(own) <= limit else self.first_field(own, told)
        if other.origin != mine.origin:
            return 'Source'
        if not self.is_source(mine.source, other.source):
            return 'SourceId'
        return self.rule_of_place(mine, other, value.slot, by)

    @staticmethod
    def first_field(own: bytes, told: bytes) -> str:
        """The rule of the first octet that differs, of values that are cut."""
        place = next((it for it, (one, other) in enumerate(zip(own, told)) if one != other), len(told))
        return ('SourceId' if place == 0 else 'Source' if place < 12 else 'PaSync' if place == 12 else 'Encryption' if place == 13 else
                'Subgroups' if place == 14 else 'Cut' if place == len(told) else 'Metadata')

    def rule_of_place(self, mine: State, other: State, slot: int, by: str) -> str:
        if len(mine.subgroups) != len(other.subgroups):
            return 'Subgroups'
        if [it[1] for it in mine.subgroups] != [it[1] for it in other.subgroups]:
            return 'Metadata'
        if mine.pa != other.pa:
            return 'Modified' if by == 'modify' else 'PaSync'
        if (mine.encryption, mine.code) != (other.encryption, other.code):
            return 'Modified' if by == 'modify' else 'Encryption'
        if any(bits == FAILED_SYNC for bits, _ in other.subgroups) or not self.is_within(other, slot):
            return 'BisSync'
        if by == 'modify':
            return 'Modified'
        return 'Streams' if other.streams and other.streams == self.laying.radio.asked else 'BisSync'


def key(state: State) -> tuple[object, ...]:
    return state.origin, state.pa, state.encryption, state.code, state.subgroups


def placed(mine: State, told: State) -> State:
    """A state with the encryption and the streams of another one."""
    if len(mine.subgroups) != len(told.subgroups):
        return mine
    subgroups = tuple((other[0], one[1]) for one, other in zip(mine.subgroups, told.subgroups))
    return dataclasses.replace(mine, encryption=told.encryption, code=told.code, subgroups=subgroups)
