"""What a log has, found by reading it once before it is laid beside the proved logic: the servers with their slots, MTUs and
capabilities, and what stood in the slots before the first write."""
import collections
import typing

import log_files
import log_gatt
import log_hci
from log_gatt import Gatt, Server

MOST_SINKS, MOST_SLOTS, MOST_MTU = 8, 8, 517


class Missing(Exception):
    """The log has nothing that can be laid beside, with why."""


class Survey:
    """What is known of a server."""

    def __init__(self) -> None:
        self.slots = 0
        self.mtus: set[int] = set()
        self.first: dict[int, bytes] = {}  # of each slot the first value, where none was written before
        self.told: dict[int, list[bytes]] = {}  # values of the Published Audio Capabilities, each once
        self.is_written = False
        self.asking: set[int] = set()  # connections whose client set notices

    def mtu(self) -> int | None:
        """The MTU of all its links, or None where they differ."""
        return min(*self.mtus, MOST_MTU) if len(self.mtus) == 1 else None


class Found(typing.NamedTuple):
    servers: dict[Server, Survey]
    tables: dict[Server, log_gatt.Table]
    counted: collections.Counter[str]
    records: int


def survey(path: str, given: dict[int, int]) -> Found:
    """What the log at this path has."""
    gatt, reader, servers, records = Gatt(given), log_hci.Reader(), dict[Server, Survey](), 0
    for happening in reader.read(log_files.read_log(path)):
        records = happening.record
        if isinstance(happening.what, log_hci.Attribute):
            for said in gatt.said(happening):
                take(servers.setdefault(said.server, Survey()), said, gatt)
    for server, table in gatt.tables.items():
        if table.states():
            servers.setdefault(server, Survey()).slots = len(table.states())
    found = {server: it for server, it in servers.items() if it.slots}
    if not found:
        raise Missing('no receive state of the Broadcast Audio Scan Service is found; where a phone knew the handles before the log '
                      'began, name them by --handles')
    return Found(found, gatt.tables, reader.counted, records)


def take(known: Survey, said: log_gatt.Said, gatt: Gatt) -> None:
    what = said.what
    if isinstance(what, log_gatt.Written):
        known.is_written = known.is_written or what.octets[:1] >= bytes([2])
        known.mtus.add(gatt.mtu(said.connection))
    elif isinstance(what, log_gatt.Value):
        if not known.is_written and what.is_whole:
            known.first.setdefault(what.slot, what.octets)
        known.mtus.add(gatt.mtu(said.connection))
    elif isinstance(what, log_gatt.Asked):
        known.asking.add(said.connection)
    elif isinstance(what, log_gatt.Told) and what.octets not in known.told.setdefault(what.kind, []):
        known.told[what.kind].append(what.octets)

