"""What a device's own host hears of trains and groups, as lines of its sink. log_lay.py uses it.

A sink is handed a train where the host has synchronized to it, again with BASE and BIGInfo where the controller has synchronized to the
group, and loses them where the log says so."""
from __future__ import annotations

import collections
import dataclasses
import typing

import log_hci
from log_gatt import Server
from log_hci import Happening
from log_sink import Sink
from log_states import NEEDS_CODE, PLAIN_GROUP, SYNCED, big_info, state_of, structure

if typing.TYPE_CHECKING:
    from log_lay import Laying

ANNOUNCEMENT = b'\x52\x18'
MOST_NAMED = 4096  # advertisers whose Broadcast_ID is kept
SLACK = 1000  # parts per million by which the times of units may drift


@dataclasses.dataclass
class Train:
    """A train that the host is synchronized to."""
    address: bytes  # type, address and SID
    data: bytes = b''
    info: dict[str, int] | None = None


@dataclasses.dataclass
class Group:
    """A group that the host asked for, or is on."""
    train: Train | None
    streams: tuple[int, ...]
    is_made: bool = False


@dataclasses.dataclass
class Units:
    """What the controller handed up of a stream."""
    stream: int
    interval: int
    valid: int = 0
    lost: int = 0
    stray: int = 0  # whose time is no whole number of SDU intervals behind the one before
    last: tuple[int, int] | None = None

    def take(self, sdu: log_hci.Sdu) -> None:
        if sdu.status == log_hci.LOST_STATUS or sdu.status == 1:
            self.lost += 1
        else:
            self.valid += 1
        if sdu.time is None:
            return
        if self.last and self.interval:
            count, passed = (sdu.number - self.last[0]) % 65536, (sdu.time - self.last[1]) % 2 ** 32
            self.stray += abs(passed - count * self.interval) > 2 + count * self.interval * SLACK // 1000000
        self.last = sdu.number, sdu.time


class Radio:
    """The trains and groups of all adapters."""

    def __init__(self, laying: Laying):
        self.laying = laying
        self.named: collections.OrderedDict[bytes, bytes] = collections.OrderedDict()  # the Broadcast_ID of an address and SID
        self.trains: dict[tuple[int, int], Train] = {}
        self.groups: dict[tuple[int, int], Group] = {}
        self.units: dict[tuple[int, int], Units] = {}
        self.asked = 0  # the streams of the last group, as bits

    def take(self, happening: Happening) -> None:
        what, adapter = happening.what, happening.adapter
        sink = self.laying.sinks.get(Server(adapter, ''))
        if sink:
            sink.time = max(0, happening.time - (self.laying.begun or 0)) % 2 ** 48
        if isinstance(what, log_hci.Advertised):
            self.name(what)
        elif isinstance(what, log_hci.SyncMade) and what.status == 0:
            train = self.trains[adapter, what.sync] = Train(bytes([what.address_type & 1]) + what.address + bytes([what.sid]))
            if sink:
                self.hand(sink, train, b'', b'')
        elif isinstance(what, log_hci.SyncLost):
            self.lost(adapter, what.sync, sink)
        elif isinstance(what, (log_hci.Report, log_hci.BigInfo)):
            self.heard(adapter, what, sink)
        elif isinstance(what, log_hci.BigAsked):
            self.groups[adapter, what.big] = Group(self.trains.get((adapter, what.sync)), what.streams)
        elif isinstance(what, log_hci.BigMade):
            self.made(adapter, what, sink)
        elif isinstance(what, log_hci.BigLost):
            group = self.groups.pop((adapter, what.big), None)
            if group and group.is_made and group.train and sink and self.is_on(sink, group.train, True):
                self.laying.mark()
                sink.leave()
        elif isinstance(what, log_hci.Sdu) and (adapter, what.connection) in self.units:
            self.units[adapter, what.connection].take(what)

    def name(self, report: log_hci.Advertised) -> None:
        """Keeps the Broadcast_ID that an advertiser announces."""
        place = 0
        while place + 1 < len(report.data) and report.data[place]:
            if report.data[place + 1:place + 4] == b'\x16' + ANNOUNCEMENT and report.data[place] >= 6:
                address = bytes([report.address_type & 1]) + report.address + bytes([report.sid & 0xFF])
                self.named[address] = report.data[place + 4:place + 7]
                if len(self.named) > MOST_NAMED:
                    self.named.popitem(last=False)
            place += 1 + report.data[place]

    def slot(self, sink: Sink, train: Train) -> int | None:
        """The slot that has this train, if any."""
        for slot, octets in enumerate(sink.model):
            if octets[1:9] == train.address and self.named.get(train.address, octets[9:12]) == octets[9:12]:
                return slot
        return None

    def is_on(self, sink: Sink, train: Train, is_group: bool = False) -> bool:
        slot = self.slot(sink, train)
        state = state_of(sink.model[slot]) if slot is not None else None
        return state is not None and (state.streams != 0 if is_group else state.pa == SYNCED)

    def hand(self, sink: Sink, train: Train, adv: bytes, acad: bytes) -> list[str]:
        """Hands a train to the sink where a slot has it, and gives the answer."""
        slot = self.slot(sink, train)
        if slot is None or not sink.wishes[slot]:
            self.laying.left['train'] += slot is None
            return []
        self.laying.mark()
        line = self.laying.program.number
        answer = sink.train(sink.model[slot][1:12], adv, acad)
        if not answer:
            self.laying.left['train'] += 1
        elif answer[0] == 'OtherTrain':
            if slot not in sink.still:
                server = Server(self.laying.now.adapter, '')
                self.laying.differ(server, 'OneTrain', 'synchronized to a second train', 'OtherTrain', line + 1)
            sink.still.add(slot)
        return answer

    def lost(self, adapter: int, sync: int, sink: Sink | None) -> None:
        train = self.trains.pop((adapter, sync), None)
        if train and sink and self.is_on(sink, train):
            self.laying.mark()
            sink.lose()

    def heard(self, adapter: int, what: log_hci.Report | log_hci.BigInfo, sink: Sink | None) -> None:
        train = self.trains.get((adapter, what.sync))
        if train is None:
            return
        if isinstance(what, log_hci.Report):
            train.data = what.data or train.data
            return
        train.info = what.fields
        slot = self.slot(sink, train) if sink else None
        state = state_of(sink.model[slot]) if sink and slot is not None else None
        if sink and state and what.fields['encryption'] and state.pa == SYNCED and state.encryption != NEEDS_CODE:
            self.hand(sink, train, train.data, structure(0x2C, big_info(what.fields)))

    def made(self, adapter: int, what: log_hci.BigMade, sink: Sink | None) -> None:
        """The controller is on a group: so is the sink, by BASE and BIGInfo as they were heard."""
        group = self.groups.get((adapter, what.big))
        if what.status or group is None:
            self.laying.left['failed'] += what.status != 0
            return
        group.is_made = True
        self.asked = sum(1 << it - 1 for it in group.streams if 1 <= it <= 31)
        info = group.train.info if group.train and group.train.info else dict(PLAIN_GROUP, num_bis=max(group.streams, default=1))
        for handle, stream in zip(what.connections, group.streams):
            self.units[adapter, handle] = Units(stream, 0 if info['framing'] else info['sdu'])
        if not sink or not group.train:
            return
        if info.get('encryption'):
            self.laying.left['code'] += 1
            if (slot := self.slot(sink, group.train)) is not None:
                sink.still.add(slot)
            return
        answer = self.hand(sink, group.train, group.train.data, structure(0x2C, big_info(info)))
        if answer and answer[0] not in ('OtherTrain', 'NotWanted') and answer[1:] != [str(it) for it in sorted(group.streams)]:
            self.laying.differ(Server(adapter, ''), 'Streams', f'streams {" ".join(map(str, group.streams))}', ' '.join(answer),
                               self.laying.program.number - 1)
            if (slot := self.slot(sink, group.train)) is not None:
                sink.still.add(slot)
