"""A broadcast as a capture has it, and the scenario of what was heard of it. capture_in.py uses it."""
import collections
import sys
from typing import Any

import link_layer
from anchor_fit import Fit, FitFault, Heard
from base_lines import BaseFault, base_lines, subgroups_of
from train_reading import OFFSET_UNITS, read_trains

SECOND = 1000000
LEAST_ORIGIN, GREATEST_TIME, GREATEST_TEXT = 3000, 2 ** 48, 67108864
ENCRYPTED_INFO = 57  # octets
CONTROL = 3  # the LLID of a control PDU
TERMINATE = 1
MOST_CODEC_CAPABILITIES = '0301ffff0202030203ff05040000ffff0205ff'
LC3 = '0600000000'
MOST_NAMED = 20  # sources


class Missing(Exception):
    """The capture can't be taken, with why."""


class Broadcast:
    """A source of a capture, and what was heard of its group."""

    def __init__(self, train, packets, streams):
        self.train, self.info = train, train.info()
        self.streams = streams or list(range(1, self.info['num_bis'] + 1))
        self.counted: collections.Counter[str] = collections.Counter()
        heard, self.controls = [], []
        addresses = {link_layer.stream_address(self.info['seed'], number): number for number in [0] + self.streams}
        for packet in packets:
            number = addresses.get(packet.address)
            if number is None:
                self.counted['of other access addresses'] += packet.address not in (train.address, link_layer.ADVERTISING_ADDRESS)
            elif not link_layer.has_good_crc(packet, link_layer.stream_crc(self.info['crc'], number)):
                self.counted['of its group with a wrong CRC'] += 1
            elif number == 0:
                self.controls.append(packet)
            else:
                heard.append(Heard(packet.time, number, packet.pdu))
        self.fit = Fit(self.info, [it.mark for it in train.announced], heard)
        self.counted['of its streams in no subevent'] += self.fit.stray
        self.counted['of its streams that may be of several subevents'] += self.fit.unsure
        self.ended_at, self.ended_by = None, None
        self.find_end(max(packet.time for packet in packets))

    def find_end(self, last_time):
        """The event from which on the group is no more, by a control PDU that was heard; the capture must go on until the event
        before it, or what came until then isn't known."""
        for packet in self.controls:
            if packet.pdu[0] & 3 != CONTROL or len(packet.pdu) != 6 or packet.pdu[2] != TERMINATE:
                self.counted['of its control that do not end the group'] += 1
                continue
            event = self.fit.event_at(packet.time)
            instant = event + (int.from_bytes(packet.pdu[4:6], 'little') - event) % 65536
            if self.fit.anchor(instant - 1) > last_time:
                self.counted[f'that end the group at event {instant}, past the end of the capture'] += 1
            elif self.ended_at is None or instant < self.ended_at:
                self.ended_at, self.ended_by = instant, packet.pdu

    def placed(self, first):
        """The PDUs by their events, from the first event on and before the end."""
        by_event: dict[int, Any] = {}
        for place in self.fit.placed:
            if place.event < first:
                self.counted['before the first announcement'] += 1
            elif self.ended_at is not None and place.event >= self.ended_at:
                self.counted['behind the end of the group'] += 1
            else:
                by_event.setdefault(place.event, []).append(place)
        return by_event


def group_line(info, origin, delay):
    numbers = [origin, delay] + [info[name] for name in ('iso', 'sdu', 'max_sdu', 'max_pdu', 'num_bis', 'bn', 'nse', 'irc', 'pto', 'sub',
                                                         'spacing', 'phy')]
    return f'group {"framed" if info["framing"] else "unframed"} ' + ' '.join(map(str, numbers))


def sink_lines(broadcast, asked, chosen, base):
    """The sink, on the group from its first event on."""
    train, streams = broadcast.train, ' '.join(map(str, broadcast.streams))
    if not asked.follow:
        return ['sink 0 31 1', f'tuned 0 {streams}']
    subgroups = subgroups_of(train.base)
    lines = ['sink 0 31 1']
    lines += [f'pac 0 {codec} {MOST_CODEC_CAPABILITIES if codec == LC3 else "-"} -' for codec in sorted({it[0] for it in subgroups})]
    wishes = [wish_of(indices, asked.streams and broadcast.streams) for *_, indices in subgroups]
    info = link_layer.read(link_layer.BIG_INFO, link_layer.big_info_of(chosen.acad))
    offset = info['offset'] * OFFSET_UNITS[info['offset_units']]
    time = round(broadcast.fit.anchor(chosen.mark.event) - base - offset)
    lines += [f'add 0 {train.address_type} {train.advertiser.hex()} {train.sid} {train.broadcast_id.hex()} 2 65535 {" ".join(wishes)}',
              'serve 0', f'train 0 {time} {train.extended_data.hex() or "-"} {chosen.data.hex() or "-"} {chosen.acad.hex() or "-"}']
    return lines


def wish_of(indices, streams):
    """The wish for a subgroup: those of its streams that are asked for, or any."""
    wanted = sum(1 << index - 1 for index, _ in indices if index in streams) if streams else 2 ** 32 - 1
    return f'{wanted.to_bytes(4, "little").hex()} -'


def event_lines(broadcast, first, is_once):
    """An `event` for each event, with the PDUs heard in it, and the end of the group where it was heard."""
    by_event = broadcast.placed(first)
    last = broadcast.ended_at - 1 if broadcast.ended_at is not None else max(by_event, default=first)
    if last - first > GREATEST_TEXT // len('event\n'):
        raise Missing(f'the events {first} to {last} are more than a scenario holds')
    lines = []
    given: dict[Any, Any] = {}
    for event in range(first, last + 1):
        lines.append('event')
        for _, subevent, heard in by_event.get(event, []):
            payload = heard.stream, link_layer.payload_number(broadcast.info, event, subevent)
            octets = bytes([heard.pdu[0] & 3]) + heard.pdu[1:]
            if is_once and given.get(payload) == octets:
                broadcast.counted['that repeat a payload'] += 1
                continue
            given.setdefault(payload, octets)
            lines.append(f'inject 0 0 {heard.stream} {subevent} {heard.pdu.hex()}')
    if broadcast.ended_by is not None:
        lines += [f'terminate {broadcast.ended_by[3]}', f'control 0 {broadcast.ended_by.hex()}']
    return lines


def scenario_of(broadcast, asked):
    """The lines of the scenario."""
    train, fit = broadcast.train, broadcast.fit
    first = fit.first_mark.event if asked.follow else min(fit.first_mark.event, *(it.event for it in fit.placed))
    chosen = next(it for it in train.announced if it.mark == fit.first_mark)
    anchor = fit.anchor(first)
    base = asked.base if asked.base is not None else int(anchor // SECOND - 1) * SECOND
    origin = round(anchor - base)
    if not LEAST_ORIGIN <= origin <= GREATEST_TIME:
        raise Missing(f'with this base the first anchor is at {origin}; it must be from {LEAST_ORIGIN} to {GREATEST_TIME}')
    lines = ['scenario 2', f'# a capture; {base} us were taken from its times, and from event {first} on they are by the source\'s clock',
             group_line(broadcast.info, origin, int.from_bytes(train.base[:3], 'little')),
             f'ident {train.address_type} {train.advertiser.hex()} {train.sid} {train.broadcast_id.hex()}']
    lines += base_lines(train.base, broadcast.info['num_bis'], broadcast.counted)
    lines += [f'start {first}'] + sink_lines(broadcast, asked, chosen, base)
    return lines + event_lines(broadcast, first, asked.once) + ['end']


def chosen_train(trains, wanted):
    """The train that is asked for, or the only one with a group. What each one misses is named."""
    if wanted is not None:
        trains = [it for it in trains if it.broadcast_id.hex() == wanted.lower()]
    if not trains:
        raise Missing('missing: an AUX_ADV_IND with SyncInfo' + (f' and the Broadcast_ID {wanted}' if wanted else ''))
    whole = [it for it in trains if it.missing() is None]
    if not whole:
        raise Missing('; '.join(f'source {it.name()}: missing: {it.missing()}' for it in trains[:MOST_NAMED]))
    if len(whole) > 1:
        raise Missing('several sources; choose one with --broadcast: ' + ', '.join(sorted(it.name() for it in whole)[:MOST_NAMED]))
    train = whole[0]
    size, info = len(train.info_octets), train.info()
    if size == ENCRYPTED_INFO:
        raise Missing(f'source {train.name()} is encrypted, and only what is open can be taken')
    if size != link_layer.octets_in(link_layer.BIG_INFO) or 0 in (info['iso'], info['num_bis'], info['nse'], info['bn']):
        raise Missing(f'the BIGInfo of source {train.name()} is of no group: {train.info_octets.hex()}')
    return train


def read_broadcast(asked):
    """The source that is asked for, with what was heard of it."""
    skipped: collections.Counter[str] = collections.Counter()
    packets = list(link_layer.read_capture(asked.capture, skipped))
    if not packets:
        raise Missing('no packet can be used' + ''.join(f'; {number} are {why}' for why, number in skipped.items()))
    packets.sort(key=lambda it: it.time)
    train = chosen_train(read_trains(packets), asked.broadcast)
    streams = asked.streams
    if streams and streams[-1] > train.info()['num_bis']:
        raise Missing(f'the group has the streams 1 to {train.info()["num_bis"]}')
    try:
        broadcast = Broadcast(train, packets, streams)
    except FitFault as error:
        raise Missing(f'source {train.name()}: missing: {error}') from error
    broadcast.counted.update(skipped)
    broadcast.counted['of its train that are of another group'] += train.other_groups
    return broadcast


def tell(broadcast):
    """Says on standard error what was taken and what was left out."""
    fit = broadcast.fit
    print(f'capture_in: source {broadcast.train.name()}: {len(fit.placed)} PDUs placed in events {fit.placed[0].event} to '
          f'{fit.placed[-1].event}; its clock and the sniffer\'s differ by {abs(fit.drift()):.1f} ppm', file=sys.stderr)
    if fit.begun_anew:
        print(f'capture_in: the anchors were begun anew {fit.begun_anew} times', file=sys.stderr)
    for what, number in broadcast.counted.items():
        if number:
            print(f'capture_in: left out: {number} {what}', file=sys.stderr)


FAULTS = (Missing, BaseFault, link_layer.CaptureFault)


def text_of(asked):
    """The scenario of the capture that is asked for, once it was told on standard error what it has."""
    broadcast = read_broadcast(asked)
    text = '\n'.join(scenario_of(broadcast, asked)) + '\n'
    tell(broadcast)
    if len(text) > GREATEST_TEXT:
        raise Missing(f'the scenario has {len(text)} octets, more than `replay` reads')
    return text
