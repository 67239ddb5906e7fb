#!/usr/bin/env python3
"""capture_in.py CAPTURE: writes the scenario of a broadcast as a sniffer heard it, from pcap or pcapng of link type 256.

  --out FILE            writes the scenario there in place of standard output
  --broadcast ID        follows the source with this Broadcast_ID, six digits as they stand on the air; needed where there are several
  --streams 1,2         takes these streams; else all of the group
  --once                leaves out what only repeats a payload that was heard
  --follow              the sink follows the announcement as it was heard, by an Add Source, in place of `tuned`
  --base MICROSECONDS   takes this from each time; else whole seconds, so that the first anchor comes in the second one

The capture needs an AUX_ADV_IND with SyncInfo and Broadcast_ID, an AUX_SYNC_IND with BASE and BIGInfo, and the PDUs of the streams.
Each PDU that was heard becomes an `inject` line of sink 0 in the place in which it was sent. Exit status 1: something is missing or
can't be taken, and is named. README.md in this folder tells more."""
import os
import re
import sys

sys.dont_write_bytecode = True
import command_words  # noqa: E402


class WordFault(Exception):
    """A word of the command line can't be read, with which."""


def words_of(words):
    """The words of the command line, read; SystemExit where they are read no further."""
    parser = command_words.parser('capture_in.py', 'Writes the scenario of a broadcast that a sniffer heard.')
    parser.add_argument('capture', help='the capture, pcap or pcapng of link type 256')
    parser.add_argument('--out', metavar='FILE', help='writes the scenario there in place of standard output')
    parser.add_argument('--broadcast', metavar='ID', help='follows the source with this Broadcast_ID')
    parser.add_argument('--streams', metavar='1,2', help='takes these streams; else all of the group')
    parser.add_argument('--once', action='store_true', help='leaves out what only repeats a payload that was heard')
    parser.add_argument('--follow', action='store_true', help='the sink follows the announcement as it was heard')
    parser.add_argument('--base', metavar='MICROSECONDS', help='takes this from each time; else whole seconds')
    return parser.parse_args(words)


def streams_of(word):
    """The streams that are asked for, or None."""
    if word is None:
        return None
    if not re.fullmatch('(?:[1-9]|[12][0-9]|3[01])(?:,(?:[1-9]|[12][0-9]|3[01]))*', word):
        raise WordFault(f'--streams {word!a}: streams are numbers from 1 to 31 with a comma between each two')
    return sorted({int(it) for it in word.split(',')})


def base_of(word):
    """The time that is taken from each, or None."""
    if word is None:
        return None
    if not re.fullmatch('-?[0-9]{1,18}', word):
        raise WordFault(f'--base {word!a}: a time is a number of microseconds')
    return int(word)


def main(words=None):
    asked = words_of(words)
    if not command_words.has_scapy('capture_in'):
        return 1
    import heard_broadcast
    try:
        asked.streams, asked.base = streams_of(asked.streams), base_of(asked.base)
        text = heard_broadcast.text_of(asked)
        with open(asked.out, 'w', encoding='ascii') if asked.out else os.fdopen(os.dup(1), 'w', encoding='ascii') as file:
            file.write(text)
    except (WordFault, OSError, ValueError, *heard_broadcast.FAULTS) as error:
        print(f'capture_in: {error}', file=sys.stderr)
        return 1
    return 0


if __name__ == '__main__':
    sys.exit(main())
