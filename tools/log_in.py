#!/usr/bin/env python3
"""log_in.py LOG: writes the scenario of a device's log, a btsnoop file of a phone (HCI by H4) or of a Linux host (btmon).

  --out FILE          writes the scenario there in place of standard output
  --handles WORDS     names the handles of a server whose discovery isn't in the log, in hexadecimal digits:
                      control=12,states=15+18,pac=20,locations=23,contexts=26
  --program EXPLAIN   runs this program, which answers line by line; else the one that is built

Each server of the Broadcast Audio Scan Service is a sink, each client of it a link. Exit status 1: the log can't be read, or has no such
server, as a line tells. docs/logs.md tells more."""
import os
import sys
import typing

sys.dont_write_bytecode = True
import argparse  # noqa: E402

import command_words  # noqa: E402
import log_files  # noqa: E402
import log_gatt  # noqa: E402
import log_lay  # noqa: E402
import log_program  # noqa: E402
import log_survey  # noqa: E402

TOP = os.path.dirname(os.path.dirname(os.path.realpath(__file__)))
BUILT = os.path.join(TOP, 'crates', 'explain_command', 'out', 'explain_command')
FAULTS = (log_files.LogFault, log_survey.Missing, log_program.ProgramFault, log_gatt.WordFault, OSError)


def parser(name: str, what: str) -> argparse.ArgumentParser:
    """The words that log_in.py and log_check.py have in common."""
    words = argparse.ArgumentParser(prog=name, description=what, epilog='docs/logs.md tells more.', allow_abbrev=False)
    words.add_argument('--version', action=command_words.Version, default=argparse.SUPPRESS, help='prints the version of the repository')
    words.add_argument('log', help='a btsnoop file: HCI by H4, or the Linux monitor\'s; it may be in a gzip')
    words.add_argument('--handles', metavar='WORDS', help='the handles of a server, as control=12,states=15+18, in hexadecimal digits')
    words.add_argument('--program', metavar='EXPLAIN', default=BUILT, help='runs this program; else the one that is built')
    return words


def laid(asked: argparse.Namespace, copy: typing.TextIO | None,
         tell: typing.Callable[[log_lay.Difference], None]) -> tuple[log_lay.Laying, log_survey.Found]:
    """Lays a log beside the logic, and gives what was found."""
    given = log_gatt.handles_of(asked.handles)
    found = log_survey.survey(asked.log, given)
    if asked.program == BUILT and not os.path.exists(BUILT):
        raise log_program.ProgramFault('the program `explain` is not built here; ./prove builds it, or --program names one')
    program = log_program.Program(asked.program, copy)
    try:
        laying = log_lay.Laying(found, program, given, tell)
        laying.lay(asked.log)
    finally:
        program.close()
    return laying, found


def main(words: list[str] | None = None) -> int:
    own = parser('log_in.py', 'Writes the scenario of a device\'s log.')
    own.add_argument('--out', metavar='FILE', help='writes the scenario there in place of standard output')
    asked = own.parse_args(words)
    try:
        with open(asked.out, 'w', encoding='ascii') if asked.out else os.fdopen(os.dup(1), 'w', encoding='ascii') as file:
            laid(asked, file, lambda _: None)
    except FAULTS as error:
        print(f'log_in: {error}', file=sys.stderr)
        return 1
    return 0


if __name__ == '__main__':
    sys.exit(main())
