#!/usr/bin/env python3
"""log_check.py LOG: lays a device's log beside the proved logic, and tells each response, notice and state that differs.

  --scenario FILE     keeps the scenario that was run
  --handles WORDS     names the handles of a server, as log_in.py takes them
  --program EXPLAIN   runs this program, which answers line by line; else the one that is built
  --demanded          tells only what the standards demand

Exit status 0: nothing that the standards demand differs. 3: something does. 1: the log can't be read, or has no server of the Broadcast
Audio Scan Service, as a line tells. docs/logs.md tells more."""
import sys

sys.dont_write_bytecode = True
import contextlib  # noqa: E402

import log_in  # noqa: E402
import log_lay  # noqa: E402
import log_survey  # noqa: E402
from log_rules import LEFT_OUT, RULES  # noqa: E402

DIFFERS = 3
MOST_OCTETS = 400  # characters of a value that are shown


def shown(text: str) -> str:
    return text if len(text) <= MOST_OCTETS else f'{text[:MOST_OCTETS]}.. ({len(text)} characters)'


class Teller:
    """Tells differences as they come."""

    def __init__(self, is_demanded_alone: bool):
        self.is_demanded_alone, self.demanded = is_demanded_alone, 0

    def tell(self, it: log_lay.Difference) -> None:
        rule = RULES[it.rule]
        self.demanded += rule.is_demanded
        if self.is_demanded_alone and not rule.is_demanded:
            return
        print(f'record {it.record}, {utc(it.time)}, {it.server.name()}: {it.rule}')
        print(f'  log:  {shown(it.log)}')
        print(f'  here: {shown(it.own)}, line {it.line}')
        print(f'  rule: {rule.says}; {rule.source()}')
        for note in it.notes:
            print(f'  note: {shown(note)}')


def utc(time: int) -> str:
    """A time in µs since 1970, as a date and a time of day."""
    days, rest = divmod(time, 86400000000)
    year, month, day = date_of(days)
    seconds, micros = divmod(rest, 1000000)
    return f'{year:04}-{month:02}-{day:02} {seconds // 3600:02}:{seconds // 60 % 60:02}:{seconds % 60:02}.{micros:06}'


def date_of(days: int) -> tuple[int, int, int]:
    """The date of a day since 1970, by the calendar that is used."""
    era, of_era = divmod(days + 719468, 146097)
    years = (of_era - of_era // 1460 + of_era // 36524 - of_era // 146096) // 365
    of_year = of_era - (365 * years + years // 4 - years // 100)
    month = (5 * of_year + 2) // 153
    day = of_year - (153 * month + 2) // 5 + 1
    month = month + 3 if month < 10 else month - 9
    return years + era * 400 + (month <= 2), month, day


def summary(laying: log_lay.Laying, found: log_survey.Found) -> None:
    """Counts what was laid beside, what differs, and what was left out."""
    count = laying.counted
    servers = ', '.join(f'{server.name()} with {it.slots} slots' for server, it in found.servers.items())
    print(f'{found.records} records; {servers}')
    print(f'{count["writes"]} writes; {count["replies that agree"]} of {count["replies"]} replies agree; {count["notices that agree"]} of '
          f'{count["notices"]} notices; {count["states read that agree"]} of {count["states read"]} states that were read')
    demanded = sum(number for rule, number in laying.by_rule.items() if RULES[rule].is_demanded)
    print(f'{sum(laying.by_rule.values())} differences, {demanded} of them of what the standards demand')
    for rule, number in sorted(laying.by_rule.items(), key=lambda it: (not RULES[it[0]].is_demanded, -it[1])):
        print(f'  {number} {rule}: {RULES[rule].says}; {RULES[rule].source()}')
    for what, number in sorted(laying.left.items()):
        if number and what in LEFT_OUT:
            print(f'left out: {number} of {LEFT_OUT[what]}')
    for what in ('writes without a response', 'times brought to where the device is',
                 'values that follow from a write answered otherwise', 'values of its capabilities that are malformed'):
        if count[what]:
            print(f'{count[what]} {what}')
    for what, number in found.counted.items():
        print(f'passed over: {number} {what}')
    for units in laying.radio.units.values():
        print(f'stream {units.stream}: {units.valid} units valid, {units.lost} lost or broken, {units.stray} at a time of no slot')


def main(words: list[str] | None = None) -> int:
    own = log_in.parser('log_check.py', 'Lays a device\'s log beside the proved logic.')
    own.add_argument('--scenario', metavar='FILE', help='keeps the scenario that was run')
    own.add_argument('--demanded', action='store_true', help='tells only what the standards demand')
    asked = own.parse_args(words)
    teller = Teller(asked.demanded)
    try:
        with contextlib.ExitStack() as stack:
            copy = stack.enter_context(open(asked.scenario, 'w', encoding='ascii')) if asked.scenario else None
            laying, found = log_in.laid(asked, copy, teller.tell)
    except log_in.FAULTS as error:
        print(f'log_check: {error}', file=sys.stderr)
        return 1
    summary(laying, found)
    return DIFFERS if teller.demanded else 0


if __name__ == '__main__':
    sys.exit(main())
