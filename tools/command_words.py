"""The words of the command lines of the tools for captures, and the package that these need. capture_out.py and capture_in.py use it."""
import argparse
import importlib.util
import os
import subprocess
import sys

NEEDED = 'scapy is missing for this python3; `apt-get install python3-scapy` gives it to Debian\'s own, /usr/bin/python3'


def has_scapy(tool: str) -> bool:
    """Whether scapy is there; else one line says on standard error what to install."""
    if importlib.util.find_spec('scapy') is not None:
        return True
    print(f'{tool}: {NEEDED}', file=sys.stderr)
    return False


class Help(argparse.Action):
    """`--help`: prints it, and on standard error what is missing."""

    def __init__(self, option_strings, dest, **others):
        super().__init__(option_strings, dest, nargs=0, **others)

    def __call__(self, parser, *_):
        parser.print_help()
        has_scapy(parser.prog.removesuffix('.py'))
        parser.exit()


class Version(argparse.Action):
    """`--version`: prints the version of the repository."""

    def __init__(self, option_strings, dest, **others):
        super().__init__(option_strings, dest, nargs=0, **others)

    def __call__(self, parser, *_):
        parser.exit(subprocess.run([os.path.join(os.path.dirname(os.path.realpath(__file__)), 'version')], check=False).returncode)


def parser(name: str, what: str) -> argparse.ArgumentParser:
    """A parser of these words, which takes no part of an option for it."""
    words = argparse.ArgumentParser(prog=name, description=what, epilog='tools/README.md tells more.', add_help=False, allow_abbrev=False)
    words.add_argument('-h', '--help', action=Help, default=argparse.SUPPRESS, help='prints this, and does nothing else')
    words.add_argument('--version', action=Version, default=argparse.SUPPRESS, help='prints the version of the repository')
    return words
