"""Mistakes in scenarios and documents, each with the note that `explain` has of it."""

GROUP = 'group unframed 20000 40000 8 10000 100 100 2 1 1 1 0 0 1800 1'
BASE = ['subgroup 0600000000 02010802020103046400', 'meta 03020400', 'bis 1 050301000000', 'bis 2 050302000000']
WANTED = ['add 0 0 000000000000 0 000000 2 65535 ffffffff -', 'serve 0', 'announce 0', 'end']
RECORD = 'pac 0 0600000000 03018000020202050464006400 -'
HEARD = ['scenario 2', GROUP, *BASE, 'start 0', 'sink 0 2 1']
SECOND = ['source 1', GROUP.replace('unframed', 'framed'), 'ident 0 010000000000 1 010000', 'start 0']
OTHER = ['add 0 0 010000000000 1 010000 2 65535 ffffffff -', 'serve 0', 'announce 0', 'end']
# three subevents of one payload; the second copy is sent an event ahead
AHEAD = ['scenario 1', 'group unframed 20000 40000 8 10000 4 4 1 1 3 2 1 400 0 1', 'sink 0 1 1', 'start 0', 'tuned 0 1']

# a mistake, its lines, and its note
MISTAKES = [
    # sixteen that are made most
    ('lines that end with a carriage return', ['scenario 1\r', 'end\r'],
     'the line ends with a carriage return, octet 0d (\\r): a line ends with octet 0a alone'),
    ('a BISSYNC with its octets reversed', [*HEARD, RECORD, WANTED[0].replace('ffffffff', '00000001'), *WANTED[1:]],
     'stream 1 of subgroup 0 is not taken: a record fits, but the slot wants stream 25 and not this one: '
     'BISSYNC 00000001, whose first octet has the streams 1 to 8'),
    ('an `add` that is not served', [*HEARD, RECORD, WANTED[0], 'announce 0', 'end'], '1 write waits on link 0 for `serve` or `drain`'),
    ('a loss as a fraction', [*AHEAD, 'unit 1 - 00', 'event', 'air 0 0.1'], 'word 2 is 0.1, but LOSE takes 0 to 255'),
    ('a subevent that is not there', [*AHEAD, 'event', 'hear 0 0 1 3'], 'SUBEVENT 3; NSE is 3, counted from 0 to 2'),
    ('one unit an event, where the first takes two', [*AHEAD, 'unit 1 - 00', 'event', 'unit 1 - 01', 'event', 'end'],
     'H is 1: k x (H + 1) = 2 units go into the first event, so each later unit comes an event late: stream 1 had 1 then'),
    ('no record', [*HEARD, *WANTED], 'the sink has no record: no `pac` line names it, so no stream fits'),
    ('the wrong ear', [*HEARD, RECORD, 'locate 0 04000000', *WANTED],
     'stream 2 of subgroup 0 is not taken: Location: its locations and those of `locate` share no bit: another ear; '
     'here 02000000 and 04000000'),
    ('another context', [*HEARD, RECORD, 'context 0 0200 0000', *WANTED],
     'stream 1 of subgroup 0 is not taken: Context: the contexts of `meta` and those of `context` share no bit; here 0400 and 0200'),
    ('no scenario first', ['event'], 'the first step is `scenario 1` or `scenario 2`'),
    ('a bare subgroup', ['scenario 1', GROUP, BASE[0], 'start 0'], 'the last `subgroup` of the chosen source has no `bis` yet'),
    ('no start', ['scenario 1', GROUP, 'event'], '`start` comes before it: the chosen source is not started'),
    ('an SDU interval that fits no ISO interval', ['scenario 1', GROUP.replace('8 10000', '8 7500'), 'start 0'],
     'UnframedMultiple: the ISO interval of an unframed group, ISO x 1250 = 10000 us, is a multiple of SDU, here 7500 us'),
    ('an address with marks', ['scenario 1', GROUP, 'ident 0 66:55:44:33:22:11 3 563412'],
     'word 2 is 66:55:44:33:22:11, but ADDRESS takes 6 octets'),
    ('a unit without octets', ['scenario 1', 'unit 1 -'], 'word 3 is missing: OCTETS takes at most 4095 octets, or `-` for none'),
    ('a line of version 2', ['scenario 1', 'assist 0 1'], 'assist begins a line of version 2, which `scenario 2` allows'),
    # twenty more
    ('an empty record', [*HEARD, 'pac 0 0600000000 - -', *WANTED],
     'stream 1 of subgroup 0 is not taken: Frequency: its sampling frequency is left out, or not among those of the record; here 8 and -'),
    ('another codec', [*HEARD, 'pac 0 ff01000200 - -', *WANTED],
     'stream 1 of subgroup 0 is not taken: Codec: CODEC of its subgroup is not that of the record; here 0600000000 and ff01000200'),
    ('no wish', [*HEARD, RECORD, 'add 0 0 000000000000 0 000000 2 65535', *WANTED[1:]],
     'stream 1 of subgroup 0 is not taken: a record fits, but the slot has no BISSYNC for this subgroup, and wants no stream of it'),
    ('more streams than the sink takes', [*HEARD[:-1], 'sink 0 1 1', RECORD, *WANTED],
     'stream 2 of subgroup 0 is not taken: a record fits, but the sink takes no more: STREAMS of its `sink` line are taken'),
    ('indices in one word', [*HEARD, 'tuned 0 1,2'],
     'word 2 is 1,2, but B takes a stream index from 1 to 31, above the one before it where several stand'),
    ('a wish that is taken back', [*HEARD, RECORD, *WANTED[:-1], 'lose 0', 'modify 0 0 2 65535 00000000 -', 'drain 0', 'announce 0', 'end'],
     'stream 1 of subgroup 0 is not taken: a record fits, but the slot wants no stream of this subgroup: '
     'BISSYNC 00000000, whose first octet has the streams 1 to 8'),
    ('a train that was not lost', [*HEARD[:-1], *SECOND, 'sink 0 2 2', RECORD, 'source 0', *WANTED[:-1], 'source 1', *OTHER],
     'the sink is on the train or the group of another slot, or on a group by `tuned`: `lose` comes before another train'),
    ('a second scenario', ['scenario 1', 'scenario 1'], '`scenario` is the first step, and stands once'),
    ('no group', ['scenario 1', 'start 0'], '`group` comes first: the chosen source has none yet'),
    ('a second group', ['scenario 1', GROUP, GROUP], 'the chosen source has a `group`, and has one alone'),
    ('a source that stopped', ['scenario 1', GROUP, 'start 0', 'stop', 'event'], 'the chosen source has stopped, and starts once'),
    ('a cipher', ['scenario 1', GROUP, 'cipher 0000000000000000 00000000000000000000000000000000', 'start 0', 'event'],
     'the chosen source has a `cipher`, so no PDU of it is sent or heard'),
    ('a word that does not fit', ['scenario 1', 'sink 0 1 5'], 'word 3 is 5, but SLOTS takes a decimal from 1 to 4, in version 2 to 8'),
    ('a word too many', ['scenario 1', 'event # the first'], 'word 1 is one too many; the line is event'),
    ('two spaces', ['scenario  1'], 'word 1 has no octet, as two spaces stand together or one ends the line, but VERSION takes 1 or 2'),
    ('a tab', ['scenario\t1'], 'no line of the language begins with the word scenario\\t1'),
    ('no line', ['scenario 1', 'Event'], 'no line of the language begins with the word Event'),
    ('a refused write', [*HEARD, 'remove 0 7', 'serve 0', 'end'], 'no slot has this Source_ID'),
    ('no such sink', ['scenario 1', 'serve 3'], 'no sink of this number lives: its `sink` line comes before it'),
    ('a unit with a time', [*AHEAD, 'unit 1 20000 00'],
     'a unit of an unframed group has no TIME; one of a framed group has a TIME above that of the last one of its stream'),
]
WORD = 'a text of one word, in quotes and of octets from 0x21 to 0x7e'
SINKS = 'version = 1\nsteps = []\n\n[[sinks]]\nnumber = 0\nstreams = 1\nslots = 1\n'
# a mistake in a document, its text, and its note
DOCUMENTS = [
    ('no end of a text', 'version = 1\nsteps = ["end]\n', 'no TOML from line 2, column 15 on: invalid string'),
    ('a key that stands twice', 'version = 1\nversion = 2\n', 'no TOML from line 2, column 1 on: duplicate key'),
    ('no value', 'version\n', 'no TOML from line 1, column 8 on: key with no value, expected `=`'),
    ('no steps', 'version = 1\n', 'the key steps is missing: expected an array of texts, each a line'),
    ('a version in quotes', 'version = "1"\nsteps = []\n', 'the key version is of the type string: expected an integer'),
    ('steps behind a header', 'version = 1\n[ident]\ntype = 0\naddress = "000000000000"\nsid = 0\nid = "000000"\nsteps = []\n',
     'the key steps is missing: expected an array of texts, each a line'),
    ('a key of no table', 'version = 1\nsteps = []\nsink = 1\n',
     'the key sink is not known: expected one of version group ident subgroups sinks steps'),
    ('a key of the document in a table',
     'version = 1\nsteps = []\n[ident]\ntype = 0\naddress = "000000000000"\nsid = 0\nid = "0"\nsteps = []\n',
     'the key ident.steps is not known: expected one of type address sid id; '
     'steps of the document stands above its first header in brackets'),
    ('octets without quotes', 'version = 1\nsteps = []\n[ident]\ntype = 0\naddress = 112233\nsid = 0\nid = "000000"\n',
     f'the key ident.address is of the type integer: expected {WORD}'),
    ('a text of two words', f'{SINKS}locations = "01 00"\n', f'the key sinks[0].locations is of the type string: expected {WORD}'),
    ('a key that is missing in a table of tables', f'{SINKS}[[sinks.pacs]]\ncodec = "0600000000"\ncaps = "-"\n',
     f'the key sinks[0].pacs[0].meta is missing: expected {WORD}'),
    ('a step that is no text', 'version = 1\nsteps = ["# one", 2]\n',
     'the key steps[1] is of the type integer: expected a text in quotes without an end of a line'),
    ('a step of two lines', 'version = 1\nsteps = ["a\\nb"]\n',
     'the key steps[0] is of the type string: expected a text in quotes without an end of a line'),
]
