#!/usr/bin/env python3
"""log_record.py FOLDER: writes the logs of corpus/logs into a folder, by lives of devices that Bumble plays: one host is the Scan
Delegator, others are assistants, over Bumble's link between them, each with a snooper on.

  --only NAME   writes the logs of this life alone

It needs Bumble (`apt-get install python3-bumble` on Debian sid; 0.0.236 was taken). Status 1: a life went otherwise than it should."""
import asyncio
import gzip
import io
import logging
import os
import struct
import sys
import typing

sys.dont_write_bytecode = True
import argparse  # noqa: E402

import command_words  # noqa: E402
import log_files  # noqa: E402
from log_files import Packet, Writer  # noqa: E402

BEGIN = 1_790_000_000_000_000  # µs since 1970, when each log begins
STEP = 1250  # µs from one record to the next
SETTLED = 0.012  # s of the real clock in which all that is under way has come
GREATEST_MTU = 517
LC3 = bytes.fromhex('0600000000')
CAPABILITIES = bytes.fromhex('0301ff0002020203020301050428007800020501')
ADDRESSES = ('F0:F0:F0:F0:F0:F0', 'F1:F1:F1:F1:F1:F1', 'F2:F2:F2:F2:F2:F2')


class Snoop:
    """Keeps the packets of a host, each a step later than the one before."""

    def __init__(self, link: int, clock: typing.Iterator[int]):
        self.file = io.BytesIO()
        self.writer, self.clock, self.number, self.is_on = Writer(self.file, link), clock, 0, True

    def snoop(self, packet: bytes, direction: int) -> None:
        time = next(self.clock)
        if self.is_on:
            self.number += 1
            self.writer.write(Packet(self.number, time, 0, packet[0], direction == 0, packet[1:], True))


class World:
    """The devices of a life: the delegator is the first one, the assistants come behind it."""

    def __init__(self, assistants: int = 1, slots: int = 2, ways: typing.Any = None, link: int = log_files.H4, mtu: int = GREATEST_MTU,
                 is_own: bool = True):
        from bumble import controller, device, hci, host
        from bumble import link as links
        from bumble.transport.common import AsyncPipeSink
        import log_delegator
        air, clock = links.LocalLink(), iter(range(BEGIN, BEGIN + 10 ** 12, STEP))
        self.controllers = [controller.Controller(f'C{it}', link=air, public_address=ADDRESSES[it]) for it in range(assistants + 1)]
        self.devices: list[typing.Any] = []
        self.logs: list[Snoop] = []
        self.clients: list[Client] = []
        for it in range(assistants + 1):
            hosted = host.Host(self.controllers[it], AsyncPipeSink(self.controllers[it]))
            self.devices.append(device.Device(address=hci.Address(ADDRESSES[it]), host=hosted))
            self.logs.append(Snoop(link, clock))
            hosted.snooper = self.logs[it]
        self.mtu = mtu
        self.delegator = log_delegator.Delegator(self.devices[0], slots, ways or log_delegator.Ways()) if is_own else None
        if not is_own:
            from bumble.profiles import bass
            self.devices[0].add_service(bass.BroadcastAudioScanService())
        self.publish()

    def publish(self) -> None:
        from bumble import gatt
        from bumble.core import UUID
        values = {0x2BC9: bytes([1]) + LC3 + bytes([len(CAPABILITIES)]) + CAPABILITIES + b'\x00', 0x2BCA: b'\x03\x00\x00\x00',
                  0x2BCD: b'\xff\x0f\x00\x00'}
        self.devices[0].add_service(gatt.Service(UUID.from_16_bits(0x1850), [gatt.Characteristic(
            UUID.from_16_bits(kind), gatt.Characteristic.Properties.READ, gatt.Characteristic.Permissions.READABLE, octets)
            for kind, octets in values.items()]))

    async def begin(self, is_asking: bool = True) -> None:
        for it in self.devices:
            await it.power_on()
        for it in range(1, len(self.devices)):
            await self.connect(it, is_asking)

    async def connect(self, number: int, is_asking: bool = True) -> 'Client':
        """An assistant connects, agrees on the MTU, finds the services and sets the notices."""
        from bumble import device
        await self.devices[0].start_advertising(advertising_interval_min=1.0)
        connection = await self.devices[number].connect(self.devices[0].random_address)
        peer = device.Peer(connection)
        if self.mtu > 23:
            await peer.request_mtu(self.mtu)
        await peer.discover_services()
        for service in peer.services:
            await service.discover_characteristics()
        client = Client(peer)
        self.clients.append(client)
        for state in client.states:
            if is_asking:
                await state.discover_descriptors()
                await state.subscribe(lambda _: None)
        for kind in (0x2BC9, 0x2BCA, 0x2BCD):
            await peer.gatt_client.read_value(client.found(kind)[0].handle)
        await asyncio.sleep(SETTLED)
        return client

    def hears(self, *events: typing.Any) -> None:
        """Events that the delegator's controller tells its host."""
        for event in events:
            self.controllers[0].send_hci_packet(event)

    def asks(self, command: typing.Any) -> None:
        """A command of the delegator's host."""
        self.devices[0].host.send_hci_packet(command)


class Client:
    """An assistant on its connection."""

    def __init__(self, peer: typing.Any):
        self.peer, self.gatt = peer, peer.gatt_client
        self.control, self.states = self.found(0x2BC7)[0], self.found(0x2BC8)

    def found(self, kind: int) -> list[typing.Any]:
        from bumble.core import UUID
        return [it for service in self.peer.services for it in service.characteristics if it.uuid == UUID.from_16_bits(kind)]

    async def write(self, octets: bytes, is_answered: bool = True) -> int | None:
        """Writes to the control point, in parts where it has no room, and gives the error code."""
        from bumble import att
        try:
            if len(octets) <= self.gatt.mtu - 3:
                await self.gatt.write_value(self.control.handle, octets, is_answered)
            else:
                await self.in_parts(octets)
        except att.ATT_Error as error:
            await asyncio.sleep(SETTLED)
            return error.error_code
        await asyncio.sleep(SETTLED)
        return None

    async def in_parts(self, octets: bytes) -> None:
        from bumble import att
        room = self.gatt.mtu - 5
        for place in range(0, len(octets), room):
            await self.gatt.send_request(att.ATT_Prepare_Write_Request(
                attribute_handle=self.control.handle, value_offset=place, part_attribute_value=octets[place:place + room]))
        answer = await self.gatt.send_request(att.ATT_Execute_Write_Request(flags=1))
        if answer.op_code == 1:
            raise att.ATT_Error(answer.error_code)

    async def read(self, slot: int) -> bytes | None:
        """The value of a slot, or None where it may not be read."""
        from bumble import att
        try:
            return bytes(await self.gatt.read_value(self.states[slot].handle))
        except att.ATT_Error:
            return None

    async def part(self) -> None:
        await self.peer.connection.disconnect()
        await asyncio.sleep(SETTLED)


def origin(number: int, sid: int = 1) -> bytes:
    """The address type, address, SID and Broadcast_ID of a source."""
    return bytes([0]) + bytes([number] * 6) + bytes([sid]) + bytes([number, 0x34, 0x12])


def subgroups(*wanted: tuple[int, bytes]) -> bytes:
    octets = bytes([len(wanted)])
    for bits, metadata in wanted:
        octets += struct.pack('<IB', bits, len(metadata)) + metadata
    return octets


def add(number: int, *wanted: tuple[int, bytes], pa: int = 2, sid: int = 1) -> bytes:
    return bytes([2]) + origin(number, sid) + bytes([pa, 0xFF, 0xFF]) + subgroups(*wanted)


def modify(source: int, *wanted: tuple[int, bytes], pa: int = 2) -> bytes:
    return bytes([3, source, pa, 0xFF, 0xFF]) + subgroups(*wanted)


async def lived(name: str, life: typing.Any, folder: str) -> list[str]:
    """Plays a life, and writes its logs."""
    worlds = await life()
    written = []
    for world, sides in worlds:
        await asyncio.sleep(SETTLED)
        for side in sides:
            path = os.path.join(folder, f'{name}-{"delegator" if side == 0 else f"assistant{side}"}.btsnoop.gz')
            with open(path, 'wb') as file, gzip.GzipFile('', 'wb', 9, file, 0) as zipped:
                zipped.write(world.logs[side].file.getvalue())
            written.append(path)
    return written


def main(words: list[str] | None = None) -> int:
    own = argparse.ArgumentParser(prog='log_record.py', description='Writes the logs of devices that Bumble plays.', allow_abbrev=False)
    own.add_argument('--version', action=command_words.Version, default=argparse.SUPPRESS, help='prints the version of the repository')
    own.add_argument('folder', help='where the logs are written')
    own.add_argument('--only', metavar='NAME', help='the logs of this life alone')
    asked = own.parse_args(words)
    try:
        import log_lives
    except ImportError as error:
        print(f'log_record: {error}; `apt-get install python3-bumble` gives Bumble on Debian sid', file=sys.stderr)
        return 1
    logging.disable(logging.CRITICAL)
    lives = {name: life for name, life in log_lives.LIVES.items() if asked.only in (None, name)}
    if not lives:
        print(f'log_record: there is no life {asked.only}; the lives are {", ".join(log_lives.LIVES)}', file=sys.stderr)
        return 2
    os.makedirs(asked.folder, exist_ok=True)
    count = 0
    for name, life in lives.items():
        try:
            count += len(asyncio.run(asyncio.wait_for(lived(name, life, asked.folder), 60)))
        except Exception as error:  # whatever Bumble raises, the life is named
            print(f'log_record: {name}: {type(error).__name__}: {error}', file=sys.stderr)
            return 1
    print(f'{count} logs of {len(lives)} lives')
    return 0


if __name__ == '__main__':
    sys.exit(main())
