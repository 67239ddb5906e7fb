#!/usr/bin/env python3
"""losses.py: writes a scenario with the losses of a channel for each sink. README.md in this folder tells more."""
import argparse
import os
import re
import sys

sys.dont_write_bytecode = True
import loss_words  # noqa: E402
import lossy_runs  # noqa: E402
from command_words import Version  # noqa: E402
from loss_channels import HELP, Channel, ChannelFault, named_of, parts_of  # noqa: E402

SINK = re.compile('[0-7]')
OCTETS = 'latin-1'  # each octet of a text is a character, whatever it is


def words_of(words):
    parser = argparse.ArgumentParser(
        prog='losses.py', allow_abbrev=False, formatter_class=argparse.RawDescriptionHelpFormatter, epilog=HELP,
        description='Writes a scenario with losses: of SCENARIO, in which a sink hears all where a line is `air N 0`, or of a broadcast '
                    'that is made of a setting.')
    parser.add_argument('--version', action=Version, default=argparse.SUPPRESS, help='prints the version of the repository')
    parser.add_argument('scenario', nargs='?', metavar='SCENARIO', help='a scenario; - is standard input; without it one is made')
    parser.add_argument('--out', metavar='FILE', help='writes it there in place of standard output')
    parser.add_argument('--sink', action='append', default=[], metavar='SINK@CHANNEL',
                        help='of SCENARIO the number of a sink, as 0@burst:0,1,200,30; of one that is made NAME=STREAMS, as left=1@..')
    loss_words.add_channels(parser)
    loss_words.add_broadcast(parser)
    loss_words.add_numbers(parser, loss_words.number)
    parser.add_argument('--seconds', type=loss_words.seconds, help='how long one that is made lasts; else 30')
    return parser, parser.parse_args(words)


def of_scenario(asked, named):
    """The pieces of the scenario that is given."""
    channels = {}
    for text in asked.sink:
        sink, at, rest = text.partition('@')
        if not at or not SINK.fullmatch(sink) or sink in channels:
            raise ChannelFault(f'--sink {text[:40]!a}: it is SINK@CHANNEL, with a number from 0 to 7 that stands once')
        channels[sink] = Channel(parts_of(rest, named), asked.seed, sink)
    with open(0 if asked.scenario == '-' else asked.scenario, encoding=OCTETS, newline='\n', closefd=asked.scenario != '-') as file:
        yield from lossy_runs.rewritten(file, channels)


def of_setting(asked, named):
    """The pieces of a scenario that is made."""
    broadcast = loss_words.broadcast_of(asked)
    listeners = loss_words.listeners_of(asked.sink, named, broadcast.streams)
    choice = {name: getattr(asked, name) for name in loss_words.NUMBERS if getattr(asked, name) is not None}
    group = broadcast.group({'nse': 3, **choice})
    if not loss_words.is_sendable(group):
        raise ChannelFault(f'no source sends this group: {group.line()}')
    text, _ = lossy_runs.made_run(group, listeners, asked.seconds or 30, lossy_runs.channels_of(tuple(listeners), asked.seed))
    yield text


def write(pieces, path):
    with open(path, 'w', encoding=OCTETS) if path else os.fdopen(os.dup(1), 'w', encoding=OCTETS) as file:
        file.writelines(pieces)


def main(words=None):
    parser, asked = words_of(words)
    if not asked.sink:
        parser.error('no --sink is named')
    of_made = ('setting', 'framed', 'streams', 'phy', 'packing', 'delay', 'seconds', *loss_words.NUMBERS)
    made = [it for it in of_made if getattr(asked, it) is not None]
    if asked.scenario is not None and made:
        parser.error(f'--{made[0].replace("max_pdu", "pdu")} is for a scenario that is made')
    try:
        named = named_of(asked.channel)
        write(of_setting(asked, named) if asked.scenario is None else of_scenario(asked, named), asked.out)
    except (OSError, ChannelFault, lossy_runs.TextFault) as error:
        print(f'losses: {error}', file=sys.stderr)
        return 1
    return 0


if __name__ == '__main__':
    sys.exit(main())
