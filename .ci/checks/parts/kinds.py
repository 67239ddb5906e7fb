"""The kinds of cases that can come: what each is read from, and which cases it has."""
from collections.abc import Iterable

from checks.parts.cases import LINES, SINK_LINES, SOURCE_LINES

OF_LINKS = ('assist', 'apart', 'awrite', 'aserve', 'atell', 'aread', 'adrain', 'ashow')
VERSION_2 = OF_LINKS + ('source', 'relay')
FRAMINGS = ('unframed', 'framed')

DESCRIBING = ('group', 'ident', 'subgroup', 'meta', 'bis', 'cipher', 'start')
ON_AIR = ('hear', 'air', 'inject', 'sniff')
SENDING = ('tuned', 'unit', 'event')
ENDING = ('announce', 'stop', 'terminate')

# The lines of a source that are refused as Order in a phase; all others are allowed there.
REFUSED = {
    'no group': DESCRIBING[1:] + SENDING + ON_AIR + ENDING,
    'a group': ('group', 'meta', 'bis') + SENDING + ON_AIR + ENDING,
    'a subgroup without a stream': ('group', 'subgroup', 'start') + SENDING + ON_AIR + ENDING,
    'started': DESCRIBING,
    'an event is open': DESCRIBING,
    'stopped': DESCRIBING + SENDING + ENDING,
    'terminated': DESCRIBING + SENDING + ENDING,
    'encrypted': DESCRIBING + SENDING + ON_AIR,
    'encrypted and ended': DESCRIBING + SENDING + ON_AIR + ENDING,
}
PLACES = ('idle', 'on the train', 'on the group of a slot', 'on a group of no slot')
HELD = PLACES[1:3]

HEARD = ('NotOnGroup', 'NotTaken', 'NoNumber', 'Malformed 1', 'Malformed 2', 'Malformed 3', 'Malformed 4', 'Malformed 5', 'WrongKind',
         'Late', 'Beyond', 'Repeat', 'Kept')
CONTROLS = ('NotOnGroup', 'Malformed 1', 'Malformed 2', 'Malformed 3', 'Malformed 4', 'Malformed 5', 'NotControl', 'UnknownOpcode',
            'ControlLength', 'MapIgnored', 'Left')
PRINTED = ('unit valid', 'unit lost', 'relay', 'stale', 'pdu', 'heard', 'train', 'sink', 'reply', 'notice', 'read', 'state', 'view',
           'forged', 'control', 'sum', 'areply', 'anotice', 'aread', 'aview')
REFUSALS = ('TextTooLong', 'LineTooLong', 'BadLine', 'AfterEnd', 'Order', 'BadGroup', 'BaseTooLong', 'IdentTwice', 'NoSuchSink',
            'NoSuchLink', 'LinkTwice', 'SinkTwice', 'NoOutlet', 'NoSuchBis', 'UnitTooLong', 'TimeOrder', 'RelayTaken', 'Relayed', 'Backlog',
            'NoSuchSubevent', 'NotOnAir', 'CounterEnds', 'NothingWaiting', 'RecordsTooLong', 'NoEnd', 'BadToml', 'BadDocument')
CAUSES = ('Empty', 'Opcode', 'Length', 'Rfu', 'BisTwice', 'SourceUnknown', 'NoDecrypt', 'Known', 'NoRoom', 'ValueTooLong', 'StillSynced')
OPERATIONS = ('Scan Stopped', 'Scan Started', 'Add', 'Modify', 'Code', 'Remove')
FIRST_ANSWERS = ('NoBroadcastId', 'NotWanted', 'OtherTrain', 'AlreadyOnGroup')
LATER_ANSWERS = ('NoBase', 'BadBase', 'NoBigInfo', 'BadBigInfo', 'BadGroup', 'NoneTaken', 'OnGroup')
WAITED = [str(it) for it in range(9)] + ['9 or more']
UP_TO_2 = ('0', '1', '2', '3 or more')


def each(names: Iterable[str], others: Iterable[object]) -> list[str]:
    """Each name with each other."""
    return [f'{name}, {other}' for name in names for other in others]


def many(name: str, numbers: Iterable[object]) -> list[str]:
    """The name with each number."""
    return [f'{name} {number}' for number in numbers]


def allowed() -> list[str]:
    """The lines of a source in the phases in which they do something. Before the first event nothing is on the air."""
    return [f'{word}, {phase}' for phase, refused in REFUSED.items() for word in SOURCE_LINES
            if word not in refused and not (phase == 'started' and word in ON_AIR)]


def refused_lines() -> list[str]:
    return (each(['NoSuchSink'], SINK_LINES + ('relay',)) + each(['NoSuchLink'], OF_LINKS[1:])
            + each(['NothingWaiting'], ('serve', 'tell', 'read', 'aserve', 'atell', 'aread'))
            + each(['NoSuchBis'], ('bis', 'tuned', 'unit', 'hear', 'inject', 'sniff', 'relay'))
            + each(['NoSuchSubevent'], ('hear', 'inject', 'sniff')) + each(['NotOnAir'], ON_AIR)
            + each(['AfterEnd'], ('end', 'event', 'scenario', 'source', 'relay')) + each(['CounterEnds'], ('event', 'announce'))
            + ['LinkTwice, assist', 'SinkTwice, sink', 'NoOutlet, sink', 'UnitTooLong, unit', 'TimeOrder, unit', 'Backlog, unit',
               'RecordsTooLong, pac', 'BaseTooLong, start', 'IdentTwice, start', 'RelayTaken, relay', 'Relayed, unit'])


def bad_lines() -> list[str]:
    """K and the first word of the line, for each word that may not fit, be missing or be too many."""
    found = ['0 other, none'] + [f'0 {word}, version 1' for word in VERSION_2]
    for word, count in LINES.items():
        found += [f'{k} {word}, not fitting' for k in range(1, count + 2)]
        found += [f'{k} {word}, missing' for k in range(1, count + (word != 'sink'))]
    return found + each(('9 add', '6 modify'), ('not fitting', 'missing')) + ['70 add, not fitting', '67 modify, not fitting']


def bad_groups() -> list[str]:
    either = [k for k in range(1, 14) if k not in (8, 9, 10)]
    return [f'{k} {framing}' for k in either for framing in FRAMINGS] + ['8 framed', '9 unframed', '10 unframed']


def replies() -> list[str]:
    return (['Empty, none', 'Opcode, none', 'NoDecrypt, Code', 'Known, Add', 'NoRoom, Add', 'ValueTooLong, Modify', 'StillSynced, Remove']
            + each(('Rfu', 'BisTwice'), ('Add', 'Modify')) + each(['SourceUnknown'], ('Modify', 'Code', 'Remove'))
            + each(['ok'], [it for it in OPERATIONS if it != 'Code']) + each(['Length'], OPERATIONS))


def places() -> list[str]:
    """What is answered or done at each place of a sink."""
    return (each(('tuned', 'lose', 'NoBroadcastId', 'NotWanted', 'Known'), PLACES) + each(LATER_ANSWERS, PLACES[:2])
            + each(['OtherTrain'], PLACES[1:]) + each(('Left', 'MapIgnored'), PLACES[2:]) + each(['StillSynced'], HELD)
            + ['AlreadyOnGroup, on the group of a slot', 'a code is required'])


def slots() -> list[str]:
    told = ('notice', 'read', 'state', 'view', 'anotice', 'aread', 'aview', 'forged', 'filled', 'emptied')
    return [f'{it} {slot}' for it in told for slot in range(8)] + many('no room in', (1, 4, 8))


def links() -> list[str]:
    return ([f'{it} {link}' for it in OF_LINKS for link in range(it in ('assist', 'apart'), 4)]
            + [f'{link} joined twice' for link in range(4)] + many('joined at once:', (2, 3, 4)) + ['parted', 'parted with a write'])


def sinks() -> list[str]:
    return (many('number', range(8)) + many('slots:', range(1, 9)) + many('living:', range(1, 9))
            + many('MTU', ('none', '23', '185', '517', 'of another number')) + each(['dropped'], PLACES)
            + ['a stream at most', 'some streams at most', '31 streams at most', 'tuned to a stream', 'tuned to some streams',
               'tuned to 31 streams', 'a number a second time', 'from one source to the other'])


def groups() -> list[str]:
    numbers = (many('BN', range(1, 8)) + many('horizon', ('0', '1 to 14', '15', '16 to 29', '30')) + many('PHY', (0, 1))
               + ['k 1', 'k above 1', 'NSE 31', 'NSE below 31', '1 stream', '2 to 30 streams', '31 streams'])
    return each(FRAMINGS, numbers) + ['framed, k 0', 'unframed, a PDU a unit', 'unframed, several PDUs a unit']


LAST = 'the last line of a transcript'
STEP = 'a line of a scenario that is not refused'
REPLY = 'a `reply` or `areply` line'
DRAIN = 'the transcript of a `drain` or `adrain` line'

KINDS: dict[str, tuple[str, Iterable[object]]] = {
    'lines of version 1': (STEP, [it for it in LINES if it not in VERSION_2]),
    'lines of version 2': (STEP, LINES),
    'printed lines': ('a line of a transcript', PRINTED),
    'refusals': (LAST, REFUSALS),
    'refusals of a line': (f'{LAST}, and the line that it names', refused_lines()),
    'BadLine': (f'{LAST}: K, and the first word of the line; a word is missing where the line has K words', bad_lines()),
    'Order': (f'{LAST}, and the phase of the chosen source',
              [f'{word}, {phase}' for phase, words in REFUSED.items() for word in words] + ['scenario', 'end', 'sink', 'serve', 'relay']),
    'TimeOrder': (f'{LAST}, the `unit` line and the `group` line',
                  ('a time, unframed', 'no time, framed', 'framed, version 1', 'framed, version 2')),
    'BadGroup at a start': (LAST, range(1, 14)),
    'BadGroup at a start, by framing': (f'{LAST}, and the `group` line', bad_groups()),
    'phases': ('the lines of the chosen source before a line of it that is not refused', REFUSED),
    'lines in a phase': (f'{STEP}, and the phase of the chosen source', allowed()),
    'lines at a place': (f'{STEP}, and the last answer that moved its sink', each(SINK_LINES, PLACES)),
    'replies': (REPLY, ('ok',) + CAUSES),
    'replies to an operation': (f'{REPLY}, and the first write that waits on its link', replies()),
    'PA_Sync': ('a reply `ok`, its write, and what was accepted for the Source_ID before',
                many('Add', range(3)) + each(each(many('Modify', range(3)), ('the same streams', 'others')), HELD + ('elsewhere',))),
    'answers to train': ('a `sink` line of `train`', FIRST_ANSWERS + LATER_ANSWERS),
    'answers to announce': ('a `sink` line of `announce`', FIRST_ANSWERS[1:] + LATER_ANSWERS[4:]),
    'BadGroup of a train': ('a `sink` line of `train` or `announce`', range(1, 15)),
    'answers to a control PDU': ('a `sink` line of `control`', CONTROLS),
    'places': ('these answers, and the last answer that moved the sink', places()),
    'streams taken': ('a `sink` line with OnGroup', ('1', '2 or more', '31')),
    'answers to a PDU': ('a `heard` line', HEARD),
    'answers to a PDU, by framing': ('a `heard` line, and the `group` line of the chosen source', each(HEARD, FRAMINGS)),
    'answers to forge': ('a `forged` line', ('ok', 'NoSuchSlot', 'BadNotice 1', 'BadNotice 2', 'BadNotice 3')),
    'forged values': ('a `forge` line and the `sink` line', each(('MTU - 4', 'MTU - 3', 'above MTU - 3'), ('a state', 'no state'))),
    'slots': ('a line of the transcript with a slot, a `forge` line, a reply `ok`', slots()),
    'links': ('a line with a link', links()),
    'writes that wait': ('the writes of a link, less its replies', WAITED[1:]),
    'writes of a drain': (DRAIN, WAITED),
    'notices of a drain': (DRAIN, WAITED),
    'reads of a drain': (DRAIN, WAITED[:9]),
    'long drains': (DRAIN, [f'{it}: {what}' for it in ('drain', 'adrain')
                            for what in ('more than eight writes', 'more than eight notices', 'eight reads')]),
    'notices': ('a `notice` or `anotice` line and the `sink` line', ('no MTU', 'at MTU - 3', 'below MTU - 3')),
    'sinks': ('a `sink` line', sinks()),
    'subgroups wanted': ('an `add` or `modify` line', ('0', '1', '2', '3 to 30', '31')),
    'subgroups of a value': ('the octets of a `state`, `view` or `aview` line',
                             [f'{it} {number}' for it in ('state', 'view', 'aview') for number in UP_TO_2]),
    'sources': ('the lines of both sources', ['0', '1', 'more than 32 events', 'the event 31 before the last']
                + many('started with', (1, 2)) + many('open at the end:', range(3))),
    'relays': ('the `relay` lines, and the lines behind them',
               ['made', 'made while an event is open', 'two at once', 'ended by `drop`', 'a unit dropped at the end']),
    'units dropped': ('a `relay` line of the transcript', ('NotStreaming', 'UnitTooLong', 'TimeOrder', 'Backlog')),
    'BASE': ('the `subgroup` lines of a source that is started', [f'{it} subgroups' for it in UP_TO_2]),
    'groups': ('the `group` line of a source that is started', groups()),
    'units given': ('a `unit` line and the `group` line', each(FRAMINGS, ('no octet', 'between', 'MAXSDU'))),
    'unframed units': ('a `unit` line of a transcript',
                       ('valid', 'lost', 'valid, no octet', 'valid, of several PDUs', 'valid, 1757 octets')),
    'framed units': ('a `unit` or `stale` line of a transcript; a `unit` line of a scenario and the anchors by the `group` line',
                     ('valid', 'lost', 'valid, no octet', 'valid, of several PDUs', 'valid, of several events',
                      'valid, 4095 octets', 'left out', 'given for the next anchor or before', 'given past the next anchor')),
    'PDUs on the air': ('a `pdu` line', each(FRAMINGS, ('padding', 'more'))),
    'framed PDUs on the air': ('the segments of a `pdu` line', ('a continuation', 'two starts', 'a start that is not complete',
                                                               'a continuation and a start', 'an empty unit', 'TimeOffset 0',
                                                               'TimeOffset 16,777,215')),
    'the payload counter': ('`start`, the `event` lines and the `group` line',
                            each(('the last event', 'the last train', 'event refused', 'announce refused'), FRAMINGS)),
    'greatest numbers': ('what the rows above are read from',
                         ['961 PDUs an event', '217 payloads in a window', '24 subgroups of a BASE', '73 records',
                          '16 units of a stream left out at once', '99 subgroups of a write', 'more than 32 writes of a drain',
                          'more than 32 notices of a drain'] + each(['512 octets'], ('notice', 'anotice', 'aread', 'state', 'view'))),
    'words': ('the words of the command line and the exit status', [
        *each(('--migrate', '--toml', '--seed', '--events'), ('status 0', 'status 2')), '--toml, status 1']),
}
