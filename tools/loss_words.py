"""The words of the command lines of losses.py and choose.py, and what they mean."""
import argparse
import re
from typing import Any

import big_groups
from loss_channels import NAME, ChannelFault, parts_of
from lossy_runs import Listener

NUMBERS = {
    'nse': 'NSE, subevents of a stream in an event', 'bn': 'BN, new PDUs of a stream in an event; else the least that carries the units',
    'irc': 'IRC, groups of subevents for the event itself; else all of them',
    'pto': 'PTO, how many events ahead early copies go; else 0',
    'iso': 'ISO interval in units of 1.25 ms; else an SDU interval, rounded down',
    'max_pdu': 'octets of a PDU; else as an SDU needs, at most 251',
}
MOST_SINKS = 8
MOST_SECONDS = 3600


def number(word, greatest=4095):
    if not re.fullmatch('[0-9]{1,6}', word) or int(word) > greatest:
        raise argparse.ArgumentTypeError(f'{word[:20]!a} is no number from 0 to {greatest}')
    return int(word)


def numbers(word):
    """Numbers and ranges, as 1,3,5-8."""
    found: list[int] = []
    for piece in word.split(','):
        first, dash, last = piece.partition('-')
        found += range(number(first), number(last) + 1) if dash else [number(first)]
    if not found:
        raise argparse.ArgumentTypeError(f'{word[:20]!a} has no number')
    return sorted(set(found))


def positive(word):
    if not number(word, 999999):
        raise argparse.ArgumentTypeError('0 is too few')
    return int(word)


def seconds(word):
    if not re.fullmatch(r'[0-9]{1,4}(\.[0-9]{1,3})?', word) or not 0 < float(word) <= MOST_SECONDS:
        raise argparse.ArgumentTypeError(f'{word[:20]!a} is no time up to {MOST_SECONDS} s')
    return float(word)


def seed(word):
    if not re.fullmatch('[0-9]{1,18}', word):
        raise argparse.ArgumentTypeError(f'{word[:20]!a} is no seed, which is a number')
    return int(word)


def add_channels(parser):
    parser.add_argument('--channel', action='append', default=[], metavar='NAME=CHANNEL', help='a part that sinks share by its name')
    parser.add_argument('--seed', type=seed, default=1, help='the same seed is the same channel, whatever is sent over it; else 1')


def add_broadcast(parser):
    parser.add_argument('--setting', choices=big_groups.SETTINGS, help='of LC3, by its name in the Basic Audio Profile; else 48_2')
    parser.add_argument('--framed', action='store_true', default=None, help='a framed group, as the settings of 44.1 kHz have it in any case')
    parser.add_argument('--streams', type=lambda it: number(it, 31), help='how many streams; else 2')
    parser.add_argument('--phy', choices=('1M', '2M'), help='LE 1M or LE 2M; else 2M')
    parser.add_argument('--packing', choices=('sequential', 'interleaved'), help="how the streams' subevents lie; else sequential")
    parser.add_argument('--delay', metavar='MS', type=lambda it: number(it, 16000), help='presentation delay in ms; else 40')


def add_numbers(parser, kind):
    for name, what in NUMBERS.items():
        word = '--pdu' if name == 'max_pdu' else f'--{name}'
        parser.add_argument(word, dest=name, type=lambda it, name=name: checked(kind(it), name), help=what)


def checked(found, name):
    """The numbers, where all have room in the place of the group."""
    for it in found if isinstance(found, list) else [found]:
        if it > big_groups.WIDTHS[name]:
            raise argparse.ArgumentTypeError(f'{it} is above {big_groups.WIDTHS[name]}')
    return found


def broadcast_of(asked):
    known = {'setting': asked.setting or '48_2', 'packing': asked.packing or 'sequential'}
    if asked.streams == 0:
        raise ChannelFault('--streams 0: a broadcast has a stream')
    return big_groups.Broadcast(
        **known, is_framed=bool(asked.framed), streams=asked.streams or 2, phy=big_groups.LE_1M if asked.phy == '1M' else big_groups.LE_2M,
        delay=(40 if asked.delay is None else asked.delay) * 1000)


def listeners_of(texts, named, streams):
    """The sinks of `--sink NAME=STREAMS@CHANNEL`."""
    listeners: list[Any] = []
    for text in texts:
        found = re.fullmatch(r'([^=@]+)=([0-9]{1,2}(?:\+[0-9]{1,2})*)@(.+)', text, re.DOTALL)
        if not found or not NAME.fullmatch(found[1]) or found[1] in [it.name for it in listeners]:
            raise ChannelFault(f'--sink {text[:40]!a}: it is NAME=STREAMS@CHANNEL, as left=1@.. or all=1+2@.., and a name stands once')
        taken = sorted({int(it) for it in found[2].split('+')})
        if not 1 <= taken[0] <= taken[-1] <= streams:
            raise ChannelFault(f'--sink {text[:40]!a}: the streams are from 1 to {streams}')
        listeners.append(Listener(found[1], tuple(taken), parts_of(found[3], named)))
    if len(listeners) > MOST_SINKS:
        raise ChannelFault(f'{len(listeners)} sinks are more than {MOST_SINKS}')
    return listeners


def is_sendable(group):
    """Whether the numbers stand in a `group` line and a run can be made of them; what else is refused, the program tells."""
    return all(getattr(group, name) <= most for name, most in big_groups.WIDTHS.items()) and all(
        (group.iso, group.bn, group.nse, group.max_pdu, group.streams)) and group.irc <= group.nse // group.bn
