#!/usr/bin/env python3
"""choose.py: compares choices of NSE, BN, IRC, PTO and ISO_Interval by what listeners lose of them. README.md in this folder tells more."""
import argparse
import contextlib
import os
import re
import subprocess
import sys

sys.dont_write_bytecode = True
import big_groups  # noqa: E402
import loss_words  # noqa: E402
import sweep_figures  # noqa: E402
import sweep_files  # noqa: E402
import sweep_page  # noqa: E402
import sweep_runs  # noqa: E402
from command_words import Version  # noqa: E402
from loss_channels import HELP, ChannelFault, named_of  # noqa: E402

TOP = os.path.dirname(os.path.dirname(os.path.abspath(__file__)))
STOPPED = 130
LINES = 1  # a file that is written line by line, so that what is killed leaves its results
MOST_CHOICES, MOST_RUNS = 100000, sweep_files.MOST_RUNS
FAULTS = (OSError, ChannelFault, sweep_runs.SweepFault)
BIG = re.compile('(?:(nse|bn|irc|pto|iso|pdu)=([0-9]{1,4}))')


def shard(word):
    found = re.fullmatch('([0-9]{1,6})/([0-9]{1,6})', word)
    if not found or not 1 <= int(found[1]) <= int(found[2]):
        raise argparse.ArgumentTypeError(f'{word[:20]!a} is not K/N with K from 1 to N')
    return int(found[1]), int(found[2])


def confidence(word):
    if not re.fullmatch(r'0\.[0-9]{1,6}', word) or not 0.5 <= float(word) <= 0.9999:
        raise argparse.ArgumentTypeError(f'{word[:20]!a} is no part from 0.5 to 0.9999')
    return float(word)


def big(word):
    """A choice, as nse=4,irc=2,pto=3."""
    choice = {}
    for piece in word.split(','):
        found = BIG.fullmatch(piece)
        name = {'pdu': 'max_pdu'}.get(found[1], found[1]) if found else None
        if not found or name in choice:
            raise argparse.ArgumentTypeError(f'{word[:40]!a} is not as nse=4,irc=2,pto=3, each once')
        choice[name] = loss_words.checked(int(found[2]), name)
    if 'nse' not in choice:
        raise argparse.ArgumentTypeError(f'{word[:40]!a} has no nse')
    return choice


def words_of(words):
    parser = argparse.ArgumentParser(
        prog='choose.py', allow_abbrev=False, formatter_class=argparse.RawDescriptionHelpFormatter, epilog=HELP,
        description='Compares choices of the parameters of a broadcast by runs over channels with losses. Each choice meets the same ones.')
    parser.add_argument('--version', action=Version, default=argparse.SUPPRESS, help='prints the version of the repository')
    parser.add_argument('--sink', action='append', default=[], metavar='NAME=STREAMS@CHANNEL',
                        help='a listener, as all=1+2@burst:0,1,200,30')
    loss_words.add_channels(parser)
    loss_words.add_broadcast(parser)
    loss_words.add_numbers(parser, loss_words.numbers)
    parser.add_argument('--big', action='append', default=[], type=big, metavar='nse=4,irc=2,pto=3',
                        help='a choice by itself; lists as --nse 3,4 --pto 0-3 are a grid of choices')
    parser.add_argument('--seconds', type=loss_words.seconds, help='how long a run lasts; else 30')
    parser.add_argument('--runs', type=loss_words.positive, help='runs of each choice, each with channels drawn anew; else 10')
    parser.add_argument('--confidence', type=confidence, help='of the intervals; else 0.95')
    parser.add_argument('--csv', metavar='FILE', help='writes the figures there')
    parser.add_argument('--page', metavar='FILE', help='writes a page with the plot there, and timelines of runs in a folder beside it')
    parser.add_argument('--timeline', metavar='SECONDS', type=loss_words.seconds, default=5.0,
                        help='how much of a run a timeline has; else 5')
    parser.add_argument('--keep', metavar='FILE', help='keeps what each run brings, for --merge')
    parser.add_argument('--shard', metavar='K/N', type=shard, help='makes the runs of part K of N alone, with --keep')
    parser.add_argument('--merge', metavar='FILE', nargs='+', help='takes the runs that --keep wrote, and makes none')
    parser.add_argument('--settings', action='store_true', help='prints the settings of LC3, and does nothing else')
    parser.add_argument('--program', help='the program replay; else the one that ./prove built')
    parser.add_argument('--explain', help='the program explain; else the one that ./prove built')
    asked = parser.parse_args(words)
    of_sweep = ('setting', 'framed', 'streams', 'phy', 'packing', 'delay', 'seconds', 'runs', 'shard', 'confidence', 'keep',
                *loss_words.NUMBERS)
    known = [it for it in of_sweep if getattr(asked, it) is not None]
    if asked.merge and (known or asked.sink or asked.big or asked.channel):
        parser.error('with --merge the words of the sweep are those of the files')
    if not asked.merge and not asked.settings and (not asked.sink or not asked.big and not asked.nse):
        parser.error('a --sink, and an --nse or a --big, have to be named')
    if asked.shard and not asked.keep:
        parser.error('--shard needs --keep, else what its runs bring would be lost')
    return asked


def sweep_of(asked):
    """The sweep that is asked for."""
    broadcast = loss_words.broadcast_of(asked)
    listeners = loss_words.listeners_of(asked.sink, named_of(asked.channel), broadcast.streams)
    grid = {name: getattr(asked, name) for name in loss_words.NUMBERS if getattr(asked, name) is not None}
    size = 1
    for it in grid.values():
        size *= len(it)
    if 'nse' not in grid and grid:
        raise ChannelFault('a grid needs --nse')
    if size > MOST_CHOICES or (asked.runs or 10) > MOST_RUNS:
        raise ChannelFault(f'a sweep has at most {MOST_CHOICES} choices and {MOST_RUNS} runs')
    groups = big_groups.groups_of(broadcast, asked.big + (big_groups.choices_of(grid) if grid else []))
    return sweep_runs.Sweep(broadcast, tuple(groups), tuple(listeners), asked.seconds or 30.0, asked.runs or 10, asked.seed,
                            asked.confidence or 0.95)


def is_script(path: str) -> bool:
    with open(path, 'rb') as file:
        return file.read(2) == b'#!'


def program_of(named: str | None, name: str) -> str:
    """A program: the one that is named, the one that lies where the script of its name does, or the one that ./prove built of the files as
    they are. It has to be proved, since a sweep makes many runs."""
    script, built = os.path.join(TOP, name), os.path.join(TOP, 'crates', f'{name}_command', 'out', f'{name}_command')
    if named or not is_script(script):
        return os.path.abspath(named or script)
    done = subprocess.run([sys.executable, os.path.join(TOP, 'tools', 'build.py'), name, 'state'], stdin=subprocess.DEVNULL,
                          stdout=subprocess.PIPE, text=True, check=False)
    if done.returncode:
        why = done.stdout.strip().removeprefix('unproved run').lstrip(',; ')
        raise sweep_runs.SweepFault(f'{name} is not proved and built of the files as they are: {why or "the Rattle kit is not here"}')
    return built


def programs_of(asked, sweep):
    """The programs that are needed: `explain` tells of framed groups, and of the runs that a page shows."""
    is_told = asked.page or any(it.is_framed for it in sweep.groups)
    return sweep_runs.Programs(program_of(asked.program, 'replay'), program_of(asked.explain, 'explain') if is_told else None)


def swept(asked, sweep, programs):
    """Makes the runs of the shard; gives the refusals and results, and whether all were made."""
    refusals = {place: it for place, group in enumerate(sweep.groups) if (it := sweep_runs.refusal_of(group, programs)) is not None}
    jobs = [it for it in sweep.jobs(asked.shard or (1, 1)) if it[1] not in refusals]
    results, is_whole = {}, False
    with contextlib.ExitStack() as files:
        file = files.enter_context(open(asked.keep, 'w', encoding='ascii', buffering=LINES)) if asked.keep else None
        if file:
            file.write(sweep_files.front_line(sweep) + sweep_files.refusals_line(refusals))
        try:
            for job, result in sweep_runs.results(sweep, programs, jobs, sweep_runs.Progress(len(jobs), sys.stderr)):
                results[job] = result
                if file:
                    file.write(sweep_files.job_line(job, result))
            is_whole = True
        except KeyboardInterrupt:
            print(f'choose: stopped: {len(results)} of {len(jobs)} runs are made', file=sys.stderr)
    return refusals, results, is_whole


def settings():
    yield f'{"setting":9}{"octets":>7}{"SDU ms":>9}  {"framing":9} low latency: RTN, ms    high reliability: RTN, ms'
    for name, it in big_groups.SETTINGS.items():
        low, high = ('-' if aim is None else f'{aim[0]}, {aim[1]}' for aim in (it.low, it.high))
        yield f'{name:9}{it.octets:7}{it.sdu / 1000:9.3f}  {"framed" if it.is_framed else "unframed":9} {low:24}{high}'
    yield 'Basic Audio Profile 1.0, table 6.4: of retransmissions (RTN) and the transport latency those of its rows NAME_1 and NAME_2'


def told(asked, sweep, refusals, results, programs):
    """Prints the table, and writes the figures and the page that are asked for."""
    rows = sweep_figures.rows_of(sweep, results, refusals)
    print('\n'.join(sweep_files.table(sweep, rows)))
    if asked.csv:
        sweep_files.write_csv(asked.csv, rows)
    if asked.page:
        sweep_page.write(asked.page, sweep, rows, programs, asked.timeline)


def merged(asked):
    """Tells of runs that were kept."""
    with sweep_files.named_faults():
        sweep, refusals, results = sweep_files.merged(asked.merge)
        missing = sweep.runs * (len(sweep.groups) - len(refusals)) - len(results)
        if missing:
            print(f'choose: the files lack {missing} runs of the sweep', file=sys.stderr)
        told(asked, sweep, refusals, results, programs_of(asked, sweep) if asked.page else None)


def made(asked):
    """Does what is asked; gives the exit status."""
    if asked.settings:
        print('\n'.join(settings()))
        return 0
    if asked.merge:
        merged(asked)
        return 0
    sweep = sweep_of(asked)
    programs = programs_of(asked, sweep)
    refusals, results, is_whole = swept(asked, sweep, programs)
    told(asked, sweep, refusals, results, programs if is_whole else None)
    return 0 if is_whole else STOPPED


def main(words=None):
    asked = words_of(words)
    try:
        return made(asked)
    except FAULTS as error:
        print(f'choose: {error}', file=sys.stderr)
        return 1
    except KeyboardInterrupt:
        print('choose: stopped before a run was made', file=sys.stderr)
        return STOPPED


if __name__ == '__main__':
    sys.exit(main())
