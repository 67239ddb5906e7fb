"""Which event and which subevent a PDU of a group was sent in, by when it was heard. capture_in.py uses it.

A BIGInfo says when the anchor of an event comes: in a window as long as its unit, 30 or 300 µs, by the sniffer's clock. Where in the
window is found by the PDUs heard nearby. From there on the anchor is fitted anew with each event that was heard, and so is the length
of an event, so that neither the clock of the source nor that of the sniffer needs to be right. After a gap in which the clocks may
have drifted too far, the anchor is settled once more as at a BIGInfo, and so it is at a BIGInfo that contradicts the fit, as where the
sniffer's clock jumped."""
import bisect
import typing
from collections import Counter
from typing import Any

SLACK = 60  # µs by which a single time may be wrong; two subevents of a stream are at least 230 µs apart
NEARBY = 500000  # µs around a BIGInfo in which no clock drifts by as much as the slack
UNKNOWN_DRIFT, FITTED_DRIFT = 150e-6, 15e-6  # of the two clocks together, before and after they were compared
MOST_NEARBY = 2000  # PDUs around a BIGInfo by which an anchor is settled; these are enough where more are heard
MOST_TRIED = 300  # BIGInfos of which one has to settle its anchor
EVENTS_TO_COMPARE = 150
MEMORY = 0.998  # how much an event counts beside the one after it
LIKELY_ERROR, LIKELY_DRIFT = 15.0, 50e-6
LOOSE = 1.7  # by how much more than the slack a PDU may be out of place before the anchor is settled anew


class FitFault(Exception):
    """The PDUs can't be placed, with what is missing."""


class Mark(typing.NamedTuple):
    """What a BIGInfo says, heard at a time: the anchor of this event comes between two times."""
    time: float
    event: int
    earliest: float
    latest: float


class Heard(typing.NamedTuple):
    """A PDU of a stream, heard at a time."""
    time: float
    stream: int
    pdu: bytes


class Placed(typing.NamedTuple):
    """The event and the subevent in which a PDU was sent."""
    event: int
    subevent: int
    heard: Heard


class Anchors:
    """The anchors of the events as a line, by least squares in which an event counts the less the longer it is past. Kept are means
    and sums over the events since the first one, and over what their anchors are later than by the length that the group names."""

    def __init__(self, event, anchor, length, events_heard=0):
        self.event, self.anchor, self.length = event, anchor, length
        self.weight, self.events_heard, self.last = 1.0, events_heard, event
        self.mean, self.mean_later, self.spread, self.shared = 0.0, 0.0, 0.0, 0.0
        self.stiffness = (LIKELY_ERROR / (LIKELY_DRIFT * length)) ** 2

    def slope(self):
        """By how much an event is longer than the length that was thought at first."""
        return self.shared / (self.spread + self.stiffness)

    def begun_at(self, event, anchor):
        """The same line through another place."""
        return Anchors(event, anchor, self.length + self.slope(), self.events_heard)

    def at(self, event):
        place = event - self.event
        return self.anchor + place * self.length + self.mean_later + self.slope() * (place - self.mean)

    def event_near(self, time):
        """The event whose anchor is nearest."""
        length = max(self.length + self.slope(), self.length / 2)
        return self.last + round((time - self.at(self.last)) / length)

    def tolerance(self, event):
        """How far from its place a PDU of this event may be heard."""
        drift = FITTED_DRIFT if self.events_heard >= EVENTS_TO_COMPARE else UNKNOWN_DRIFT
        return SLACK + abs(event - self.last) * self.length * drift

    def take(self, event, anchor):
        """Takes the anchor of an event as it was heard."""
        place = event - self.event
        later = anchor - self.anchor - place * self.length
        self.weight = self.weight * MEMORY + 1
        aside, behind = place - self.mean, later - self.mean_later
        self.mean += aside / self.weight
        self.mean_later += behind / self.weight
        self.spread = self.spread * MEMORY + aside * (place - self.mean)
        self.shared = self.shared * MEMORY + aside * (later - self.mean_later)
        self.last, self.events_heard = event, self.events_heard + 1


class Fit:
    """All PDUs that could be placed. `stray` counts those that were in no subevent, and `unsure` those that may have been in
    several."""

    def __init__(self, info, marks, heard):
        self.spacing, self.sub, self.nse, self.length = info['spacing'], info['sub'], info['nse'], info['iso'] * 1250.0
        self.placed: list[Placed] = []
        self.stray = self.unsure = self.begun_anew = 0
        self.marks, self.heard = sorted(marks), sorted(heard)
        self.times = [it.time for it in self.heard]
        self.first_mark, anchor = self.start()
        first = Anchors(self.first_mark.event, anchor, self.length)
        items = sorted(self.marks + self.heard, key=lambda it: it.time)
        self.before = self.follow(first, [it for it in reversed(items) if it.time < self.first_mark.time])
        first = Anchors(self.first_mark.event, anchor, self.length)
        self.after = self.follow(first, [it for it in items if it.time >= self.first_mark.time])
        if not self.placed:
            raise FitFault('PDUs of its streams that are in a subevent')
        self.placed.sort(key=lambda it: it.heard.time)

    def start(self):
        """The first BIGInfo whose anchor the PDUs nearby settle, and that anchor."""
        for mark in self.marks[::1 + len(self.marks) // MOST_TRIED]:
            anchor, is_settled = self.anchor_by(mark, self.length)
            if is_settled:
                return mark, anchor
        if not self.heard:
            raise FitFault('a PDU of its streams with a good CRC')
        raise FitFault('PDUs of its streams near a BIGInfo that settle in which subevents they were sent')

    def anchor_by(self, mark, length):
        """The anchor of this event for which the most PDUs nearby are in some subevent of some event, and whether no other place of the
        window is as good."""
        aside, window = [], mark.latest - mark.earliest
        low, middle, high = (bisect.bisect_left(self.times, mark.earliest + side) for side in (-NEARBY, 0, NEARBY))
        low, high = max(low, middle - MOST_NEARBY // 2), min(high, middle + MOST_NEARBY // 2)
        for number, heard in enumerate(self.heard[low:high]):
            for subevent in range(self.nse):
                behind = heard.time - mark.earliest - (heard.stream - 1) * self.spacing - subevent * self.sub + SLACK
                behind = behind % length - SLACK
                if behind <= window + SLACK:
                    aside.append((behind, number))
        best = most_within(sorted(aside), SLACK)
        if not best:
            return None, False
        low, number = best[0][0], best[1]
        others = most_within(sorted(it for it in aside if not low <= it[0] <= low + SLACK), SLACK)
        near = [behind for behind, _ in best[0][1]]
        return mark.earliest + sum(near) / len(near), not others or others[1] < number

    def follow(self, anchors, items):
        """Places the PDUs in the order in which they are given, and gives the anchors as they were fitted last."""
        now, tried = None, None
        together: list[Any] = []
        for item in items:
            before, is_mark = anchors, isinstance(item, Mark)
            event = anchors.event_near(item.time)
            if is_mark:
                anchors = self.checked(anchors, item)
            elif anchors.tolerance(event) > LOOSE * SLACK and (tried is None or abs(item.time - tried) > NEARBY / 2):
                anchors, tried = self.settled(anchors, event), item.time
            if anchors is not before:
                now, together = None, []
            place = None if is_mark else self.place(anchors, item)
            if place is None:
                continue
            if place.event != now:
                take_mean(anchors, now, together)
                now, together = place.event, []
            together.append(item.time - self.behind_anchor(item.stream, place.subevent))
            self.placed.append(place)
        take_mean(anchors, now, together)
        return anchors

    def settled(self, anchors, event):
        """The anchors, moved by what was heard around this event where that leaves no doubt."""
        anchor, slack = anchors.at(event), anchors.tolerance(event)
        if 2 * slack >= self.length:
            return anchors
        anchor, is_settled = self.anchor_by(Mark(anchor, event, anchor - slack, anchor + slack), anchors.length + anchors.slope())
        return anchors.begun_at(event, anchor) if is_settled else anchors

    def behind_anchor(self, stream, subevent):
        return (stream - 1) * self.spacing + subevent * self.sub

    def checked(self, anchors, mark):
        """The anchors, or new ones where the BIGInfo contradicts them, or where they say less than it does, and it settles its own."""
        anchor, slack = anchors.at(mark.event), anchors.tolerance(mark.event)
        is_right = mark.earliest - slack <= anchor <= mark.latest + slack
        if is_right and slack <= LOOSE * SLACK:
            return anchors
        anchor, is_settled = self.anchor_by(mark, anchors.length + anchors.slope())
        if not is_settled:
            return anchors
        self.begun_anew += not is_right
        return anchors.begun_at(mark.event, anchor) if is_right else Anchors(mark.event, anchor, self.length)

    def place(self, anchors, heard):
        """The only place of this PDU, or None."""
        found = []
        for subevent in range(self.nse):
            anchor = heard.time - self.behind_anchor(heard.stream, subevent)
            event = anchors.event_near(anchor)
            if event >= 0 and abs(anchor - anchors.at(event)) <= anchors.tolerance(event):
                found.append(Placed(event, subevent, heard))
        if len(found) == 1 and 2 * anchors.tolerance(found[0].event) < self.length:
            return found[0]
        self.stray += not found
        self.unsure += bool(found)
        return None

    def anchor(self, event):
        """When the anchor of an event came, by the sniffer's clock."""
        return (self.before if event < self.first_mark.event else self.after).at(event)

    def event_at(self, time):
        """The event that is on the air at a time."""
        anchors = self.before if time < self.first_mark.time else self.after
        event = anchors.event_near(time)
        return event if anchors.at(event) <= time + SLACK else event - 1

    def drift(self):
        """By how much the source's clock is slower than the sniffer's, in millionths."""
        return ((self.after.length + self.after.slope()) / self.length - 1) * 1e6


def take_mean(anchors, event, together):
    if together:
        anchors.take(event, sum(together) / len(together))


def most_within(found, width):
    """Of sorted pairs of a place and a number those in a range of this width that have the most numbers: the least of the places with
    the pairs, and how many numbers; or None where there are no pairs."""
    best, begin = None, 0
    inside: Counter[Any] = Counter()
    for end, (place, number) in enumerate(found):
        inside[number] += 1
        while place - found[begin][0] > width:
            gone = found[begin][1]
            begin += 1
            inside[gone] -= 1
            if not inside[gone]:
                del inside[gone]
        if best is None or len(inside) > best[2]:
            best = begin, end, len(inside)
    return best and ((found[best[0]][0], found[best[0]:best[1] + 1]), best[2])
