#!/usr/bin/env python3
"""capture_out.py SCENARIO CAPTURE: writes the run of a scenario as a pcapng of link type 256, which Wireshark opens.

  --program PROGRAM     the program that runs it; else ./replay beside this folder
  --transcript FILE     reads this transcript in place of running a program; the PDUs are then those of `sniff` lines alone
  --ear SINK            of the streams and their control only what this sink heard

On the air are the announcements of each source, the PDUs of its streams, and the control PDU that ends its group; besides, what
went over the link of each assistant. Each packet has a comment that says who heard it. A time of the run is one second later in the
capture, so that what comes before the first anchor has a place. README.md in this folder tells more."""
import os
import re
import sys

sys.dont_write_bytecode = True
import command_words  # noqa: E402
from run_reading import RunFault  # noqa: E402

TOP = os.path.dirname(os.path.dirname(os.path.abspath(__file__)))


def words_of(words):
    """The words of the command line, read; SystemExit where they are read no further."""
    parser = command_words.parser('capture_out.py', 'Writes the run of a scenario as a capture.')
    parser.add_argument('scenario', help='the scenario')
    parser.add_argument('capture', help='the capture that is written')
    parser.add_argument('--program', default=os.path.join(TOP, 'replay'), help='the program that runs it; else ./replay')
    parser.add_argument('--transcript', metavar='FILE', help='a transcript in place of a run; the PDUs are those of `sniff` lines alone')
    parser.add_argument('--ear', metavar='SINK', help='of the streams and their control only what this sink heard')
    return parser.parse_args(words)


def main(words=None):
    asked = words_of(words)
    if not command_words.has_scapy('capture_out'):
        return 1
    import air_run
    import link_layer
    try:
        if asked.ear is not None and not re.fullmatch('[0-7]', asked.ear):
            raise RunFault(f'--ear {asked.ear!a}: a sink is a number from 0 to 7')
        packets, left_out, refusal = air_run.write_run(asked.scenario, asked.capture, asked.program, asked.transcript, asked.ear)
    except (OSError, ValueError, RunFault, link_layer.CaptureFault) as error:
        print(f'capture_out: {error}', file=sys.stderr)
        return 1
    if refusal is not None:
        print(f'capture_out: the run ends with a refusal: {refusal.split(": ")[-1]}', file=sys.stderr)
    for what, number in left_out.items():
        print(f'capture_out: left out: {number} {what}', file=sys.stderr)
    print(f'capture_out: {packets} packets', file=sys.stderr)
    return 0


if __name__ == '__main__':
    sys.exit(main())
