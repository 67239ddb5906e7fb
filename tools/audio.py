#!/usr/bin/env python3
"""audio.py out IN.wav SCENARIO, audio.py in SCENARIO TRANSCRIPT OUT.wav: what listeners of a run hear.

The first codes a WAV by LC3 and makes its frames the units of a scenario. The second takes what sinks handed up when `replay` ran it,
conceals what was lost as an LC3 decoder does, and writes that as a WAV. README.md in this folder tells more."""
import argparse
import re
import sys
from typing import Any

sys.dont_write_bytecode = True
import audio_scenario  # noqa: E402
import lc3_coder  # noqa: E402
from command_words import Version  # noqa: E402

TEXT = 'latin-1'  # each octet of a text is a character, whatever it is
LONGEST = 10_000
SINKS = re.compile('[0-7](?:,[0-7])*')


class Help(argparse.Action):
    """`--help`: prints it, and on standard error what is missing."""

    def __init__(self, option_strings, dest, **others):
        super().__init__(option_strings, dest, nargs=0, **others)

    def __call__(self, parser, *_):
        parser.print_help()
        has_coder()
        parser.exit()


def has_coder():
    """Whether the programs of LC3 are there; else one line says on standard error what to install."""
    if lc3_coder.is_there():
        return True
    print(f'audio: {lc3_coder.NEEDED}', file=sys.stderr)
    return False


def words_of(words):
    """The words of the command line, read; SystemExit where they are read no further."""
    common: dict[str, Any] = {'add_help': False, 'allow_abbrev': False, 'epilog': 'tools/README.md tells more.'}
    parser = argparse.ArgumentParser(prog='audio.py', description='Brings a WAV into a scenario, and what sinks hear of it back.', **common)
    parser.add_argument('--version', action=Version, default=argparse.SUPPRESS, help='prints the version of the repository')
    ways = parser.add_subparsers(dest='way', metavar='out | in', required=True)
    out = ways.add_parser('out', help='a WAV into a scenario', description='Codes a WAV by LC3 into the units of a scenario.', **common)
    out.add_argument('wav', metavar='IN.wav', help='a WAV of one or two channels with samples of 16 or 24 bits')
    out.add_argument('scenario', metavar='SCENARIO', help='the scenario that is written')
    out.add_argument('--setting', metavar='NAME', choices=lc3_coder.SETTINGS,
                     help="a setting of Basic Audio Profile, from 8_1 to 48_6; else the one of the WAV's rate that ends with _2")
    out.add_argument('--group', metavar='WORDS', help='the words of a `group` line behind `group`; else each unit is sent three times')
    listeners = out.add_mutually_exclusive_group()
    listeners.add_argument('--sinks', metavar='NUMBER', type=int, choices=range(1, 9), default=1,
                           help='how many sinks there are, from 1 to 8, each of which takes all channels; else 1')
    listeners.add_argument('--earbuds', action='store_true', help='two sinks: sink 0 takes the left channel, and sink 1 the right one')
    into = ways.add_parser('in', help='what sinks hand up into a WAV', description='Writes what sinks hand up as a WAV.', **common)
    into.add_argument('scenario', metavar='SCENARIO', help='the scenario that was run, as `audio.py out` wrote it, with any losses')
    into.add_argument('transcript', metavar='TRANSCRIPT', help='what `replay` wrote for it')
    into.add_argument('wav', metavar='OUT.wav', help='the WAV that is written')
    into.add_argument('--sink', metavar='N', required=True, help='the sink that is heard; of 0,1 each channel is of the first that has it')
    for each in (parser, out, into):
        each.add_argument('-h', '--help', action=Help, default=argparse.SUPPRESS, help='prints this, and does nothing else')
    return parser.parse_args(words)


def bring_out(asked):
    """Writes the scenario of a WAV."""
    sound, frames = lc3_coder.encoded(asked.wav, asked.setting)
    taken = audio_scenario.taken_streams(sound, asked.sinks, asked.earbuds)
    text = audio_scenario.text_of(sound, frames, asked.group, taken)
    with open(asked.scenario, 'w', encoding='ascii') as file:
        file.write(text)
    print(f'audio: {sound.name}, {sound.channels} x {len(frames[0])} frames of {sound.setting.octets} octets', file=sys.stderr)


def bring_in(asked):
    """Writes the WAV of what sinks handed up, and tells what was lost."""
    if not SINKS.fullmatch(asked.sink):
        raise lc3_coder.AudioFault(f'--sink {asked.sink!a}: sinks are numbers from 0 to 7 with a comma between each two')
    with open(asked.scenario, encoding=TEXT, newline='\n') as text, open(asked.transcript, encoding=TEXT, newline='\n') as told:
        sound, frames, by = audio_scenario.heard_frames(lines_in(text), lines_in(told), asked.sink.split(','))
    octets = lc3_coder.decoded(sound, frames)
    with open(asked.wav, 'wb') as file:
        file.write(octets)
    for channel, (sink, those) in enumerate(zip(by, frames), 1):
        print(f'audio: channel {channel}: {loss_of(sink, those, sound.setting)}', file=sys.stderr)


def lines_in(file):
    """The lines of a text, with their ends; none is longer than one that `replay` takes or writes."""
    while line := file.readline(LONGEST):
        if len(line) == LONGEST:
            raise lc3_coder.AudioFault(f'{file.name} has a line of {LONGEST} octets or more')
        yield line


def loss_of(sink, frames, setting):
    """What is said of the frames of a channel."""
    if sink is None:
        return 'no sink has it, so it is silent'
    lost, run, longest = frames.count(None), 0, 0
    for frame in frames:
        run = 0 if frame else run + 1
        longest = max(longest, run)
    gap = f', the longest gap {setting.time_of(longest) / 1000:.1f} ms' if lost else ''
    return f'sink {sink}, {lost} of {len(frames)} frames are lost ({lost / len(frames):.1%}){gap}'


def main(words=None):
    asked = words_of(words)
    if not has_coder():
        return 1
    try:
        bring_out(asked) if asked.way == 'out' else bring_in(asked)
    except (OSError, ValueError, lc3_coder.AudioFault) as error:
        print(f'audio: {error}', file=sys.stderr)
        return 1
    return 0


if __name__ == '__main__':
    sys.exit(main())
