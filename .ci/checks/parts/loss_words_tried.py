"""Words with which tools/losses.py and tools/choose.py are called, each with the exit status that is expected."""
Call = tuple[str, list[str], int]

NONE: list[str] = []
SINK, MADE = ['--sink', 'a=1@independent:0.1'], ['--nse', '3', '--seconds', '1', '--runs', '1']
BOTH = (('losses', NONE), ('choose', MADE))
# The words of each tool, and its exit status.
WORDS: tuple[Call, ...] = (
    ('losses', ['--help'], 0), ('choose', ['--help'], 0), ('choose', ['--settings'], 0),
    ('losses', [*SINK, '--seconds', '0.1', '--out', '/dev/null'], 0),
    *((it, words, 2) for it in ('losses', 'choose') for words in (['--no-such-word'], NONE)),
    *(('losses', [*SINK, '--nse', it], 2) for it in ('x', '32', '-1', '\u00b2', '', '3,4')),
    ('losses', ['/dev/null', *SINK, '--nse', '3'], 2),
    *(('choose', [*SINK, '--nse', it], 2) for it in ('x', '32', '1-', '-', '', '\u00b2')),
    ('choose', SINK, 2), ('choose', ['--nse', '3'], 2),
    *(('choose', [*SINK, '--big', it], 2) for it in ('x', 'irc=1', 'nse=3,nse=3', 'nse=99', 'nse=3,x=1')),
    *(('choose', [*SINK, *MADE, '--shard', it, '--keep', '/dev/null'], 2) for it in ('0/4', '5/4', '1', 'x/y')),
    ('choose', [*SINK, *MADE, '--shard', '1/2'], 2), ('choose', ['--merge', '/dev/null', '--nse', '3'], 2),
    *(('choose', [*SINK, *MADE, '--confidence', it], 2) for it in ('1', '0', 'x', '0.2')),
    *(('losses', ['--seconds', it, *SINK], 2) for it in ('0', 'x', '-1', '99999', '1e3')),
    *((it, ['--sink', f'a=1@{channel}', *more], 1) for it, more in BOTH for channel in (
        'x', '', 'independent', 'independent:', 'independent:2', 'independent:0.1,0.2', 'burst:0,1,0,10', 'body:1,0,10,10',
        'trace:/not/there', 'trace:', 'trace:/', 'independent:\u00b2', 'independent:0.1+', 'hall.left')),
    *((it, ['--sink', sink, *more], 1) for it, more in BOTH for sink in (
        'a', 'a=1', 'a@independent:0.1', 'a=3@independent:0.1', 'a=0@independent:0.1', '=1@independent:0.1')),
    *(('choose', [*SINK, *MADE, '--channel', it], 1) for it in ('x', 'x=', '=independent:0', 'burst=independent:0', 'x=y')),
    ('losses', ['/not/there', '--sink', '0@independent:0.1'], 1), ('losses', ['/dev/null', '--sink', '0@independent:0.1'], 1),
    ('losses', ['/dev/null', '--sink', '9@independent:0.1'], 1), ('losses', [*SINK, '--out', '/'], 1),
    ('losses', [*SINK, '--streams', '0'], 1),
    ('losses', [*SINK, '--out', '/dev/full'], 1), ('losses', [*SINK, '--irc', '4'], 1), ('losses', [*SINK, '--pdu', '0'], 1),
    ('choose', ['--merge', '/dev/null'], 1), ('choose', ['--merge', '/not/there'], 1), ('choose', ['--merge', '/'], 1),
    ('choose', [*SINK, *MADE, '--program', '/bin/false'], 1), ('choose', [*SINK, *MADE, '--program', '/not/there'], 1),
)
