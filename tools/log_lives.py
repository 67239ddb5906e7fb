"""The lives of which log_record.py writes logs. Each gives its worlds with the sides whose logs are kept: 0 is the delegator, others are
assistants."""
import asyncio
import random
import struct
import typing

from bumble import hci
from log_delegator import Ways
from log_files import MONITOR
from log_record import LC3, Client, World, add, modify, origin

LISTED = list[tuple[World, tuple[int, ...]]]
ANY = (0xFFFFFFFF, b'')
ENGLISH = b'\x04\x04eng'
LONG = bytes([200]) + b'\x03' + bytes(range(65, 65 + 26)) * 7 + b'abcdefghijklmnopq'


async def written(client: Client, *octets: bytes) -> None:
    for it in octets:
        await client.write(it)


async def plain(*octets: bytes, **words: typing.Any) -> LISTED:
    """One assistant that writes these, and reads all slots before and behind."""
    world = World(**words)
    await world.begin()
    client = world.clients[0]
    for slot in range(len(client.states)):
        await client.read(slot)
    await written(client, *octets)
    for slot in range(len(client.states)):
        await client.read(slot)
    return [(world, (0, 1))]


async def adds() -> LISTED:
    return await plain(add(1, (1, b'')), add(2, (3, ENGLISH), (4, b'')), slots=3)


async def modifies() -> LISTED:
    return await plain(add(1, (1, b'')), modify(0, (2, ENGLISH)), modify(0, (2, ENGLISH)), modify(0, (2, b''), (4, b'')), modify(0, pa=0))


async def removes() -> LISTED:
    return await plain(add(1, (1, b'')), add(2, ANY), bytes([5, 0]), add(3, ANY), bytes([5, 1]), bytes([5, 0]))


async def lengths() -> LISTED:
    good, other = add(1, (1, ENGLISH)), modify(0, (1, b''))
    cut = [good[:it] for it in (1, 2, 8, 12, 15, 16, 20, 21, len(good) - 1)] + [good + b'\x00', other[:4], other[:-1], other + b'\x07']
    return await plain(good, *cut, bytes([0, 0]), bytes([1, 9]), bytes([5]), bytes([5, 0, 0]), bytes([4, 0]), bytes([4, 0]) + bytes(17))


async def other_codes() -> LISTED:
    """A delegator that answers a wrong length with 0d, as some do."""
    good = add(1, (1, ENGLISH))
    return await plain(good, good[:9], good + b'\x01', bytes([5]), bytes([5, 0]), ways=Ways(length_code=0x0D))


async def opcodes() -> LISTED:
    return await plain(*(bytes([it]) + bytes(it % 3) for it in (6, 7, 8, 0x10, 0x7F, 0x80, 0xFE, 0xFF)), add(1, ANY))


async def full() -> LISTED:
    return await plain(*(add(it, ANY) for it in range(1, 6)), bytes([5, 1]), add(7, (8, b'')), add(8, ANY), slots=4)


async def known() -> LISTED:
    return await plain(add(1, (1, b'')), add(1, (2, b'')), add(1, (2, b''), sid=2), add(1, ANY, sid=2), slots=3)


async def known_taken() -> LISTED:
    """A delegator that takes an Add Source of what it has for a change."""
    return await plain(add(1, (1, b'')), add(1, (2, ENGLISH)), modify(0, (4, b'')), add(1, (4, ENGLISH)), bytes([5, 0]),
                       ways=Ways(takes_known=True))


async def reserved() -> LISTED:
    good = add(1, (1, b''))
    bent = [bytes([*good[:at], value, *good[at + 1:]]) for at, value in ((1, 2), (1, 0xFF), (8, 16), (12, 3))]
    return await plain(*bent, add(1, (0x80000000, b'')), add(1, (3, b''), (2, b'')), add(1, (1, b''), ANY), modify(0, (5, b''), (4, b'')),
                       modify(0, (1, b''), pa=3))


async def unknown() -> LISTED:
    return await plain(modify(0, ANY), bytes([5, 0]), bytes([4, 0]) + bytes(16), add(1, ANY), modify(9, ANY), bytes([5, 7]), bytes([5, 0]))


async def scanning() -> LISTED:
    return await plain(b'\x01', add(1, ANY), b'\x00', b'\x01', b'\x00')


async def counting() -> LISTED:
    """Source_IDs that begin with 1 and aren't used again."""
    return await plain(add(1, (1, b'')), add(2, (1, b'')), bytes([5, 1]), add(3, (2, b'')), modify(3, (6, b'')), bytes([5, 2]),
                       bytes([5, 3]), add(4, ANY), modify(4, pa=0), ways=Ways(first_id=1, is_counting=True))


async def told_first() -> LISTED:
    return await plain(add(1, (1, b'')), modify(0, (2, b'')), bytes([5, 0]), add(2, ANY), ways=Ways(is_told_first=True))


async def small() -> LISTED:
    """Long values over the least MTU: writes in parts, notices cut, and reads in parts."""
    listed = await plain(add(1, (1, ENGLISH)), modify(0, (2, LONG), (4, LONG)), mtu=23)
    client = listed[0][0].clients[0]
    await client.read(0)
    await written(client, modify(0, (2, LONG)), bytes([5, 0]))
    return listed


async def middle() -> LISTED:
    return await plain(add(1, (1, LONG)), modify(0, (1, LONG), (2, LONG)), modify(0, (1, b'')), mtu=64)


async def commands() -> LISTED:
    """Writes that ask for no response."""
    world = World()
    await world.begin()
    client = world.clients[0]
    for octets in (add(1, (1, b'')), b'\x09', modify(0, (2, b'')), bytes([5, 3]), bytes([5, 0])):
        await client.write(octets, False)
    await client.read(0)
    return [(world, (0, 1))]


async def unasked() -> LISTED:
    """An assistant that set no notices, and reads."""
    world = World()
    await world.begin(is_asking=False)
    client = world.clients[0]
    for octets in (add(1, (1, b'')), modify(0, (2, ENGLISH)), bytes([5, 0])):
        await client.write(octets)
        await client.read(0)
    return [(world, (0, 1))]


async def two() -> LISTED:
    """Two assistants on one delegator."""
    world = World(assistants=2)
    await world.begin()
    one, other = world.clients
    await written(one, add(1, (1, b'')))
    await written(other, add(2, (2, b'')), modify(0, (3, b'')))
    await one.read(1)
    await written(one, bytes([5, 1]), bytes([5, 1]))
    await other.read(0)
    await other.part()
    await written(one, bytes([5, 0]))
    return [(world, (0,))]


async def returns() -> LISTED:
    """An assistant that parts and comes back, and then a log that begins while a source stands in a slot."""
    world = World()
    world.logs[1].is_on = False
    await world.begin()
    await written(world.clients[0], add(1, (1, b'')), add(2, (2, ENGLISH)), bytes([5, 0]))
    await world.clients[0].part()
    world.logs[1].is_on = True
    client = await world.connect(1)
    for slot in range(2):
        await client.read(slot)
    await written(client, modify(1, (6, b'')), add(3, ANY), bytes([5, 1]))
    return [(world, (0, 1))]


async def monitor() -> LISTED:
    return await plain(add(1, (1, b'')), modify(0, (2, ENGLISH)), bytes([9]), bytes([5, 0]), link=MONITOR)


def drawn(seed: int) -> typing.Callable[[], typing.Coroutine[typing.Any, typing.Any, LISTED]]:
    """A life of operations that are drawn, good and bent."""
    async def life() -> LISTED:
        draw, octets = random.Random(seed), []
        for _ in range(14):
            wanted = [(draw.choice((0, 1, 2, 4, 8)) << 5 * it, draw.choice((b'', ENGLISH))) for it in range(draw.choice((1, 1, 2)))]
            number = draw.randint(0, 3)
            octets.append(draw.choice((add(number + 1, *wanted), add(number + 1, *wanted), modify(number, *wanted), bytes([5, number]),
                                       bytes([draw.randint(0, 9)]), add(number + 1, *wanted)[:-draw.randint(1, 9)])))
        return await plain(*octets, slots=draw.randint(1, 4), ways=Ways(is_told_first=seed % 2 == 0, first_id=seed % 3))
    return life


def base(*subgroups: tuple[int, ...]) -> bytes:
    """The advertising data of a BASE with these streams: LC3, 48 kHz, 10 ms, 100 octets."""
    octets = struct.pack('<I', 40000)[:3] + bytes([len(subgroups)])
    for streams in subgroups:
        config = bytes.fromhex('02010802020103046400')
        octets += bytes([len(streams)]) + LC3 + bytes([len(config)]) + config + b'\x04\x03\x02\x04\x00'
        octets += b''.join(bytes([it, 0]) for it in streams)
    return bytes([len(octets) + 3]) + b'\x16\x51\x18' + octets


def synced(number: int, sync: int = 1, is_past: bool = False) -> typing.Any:
    address = hci.Address(bytes([number] * 6), hci.Address.PUBLIC_DEVICE_ADDRESS)
    words = {'status': 0, 'sync_handle': sync, 'advertising_sid': 1, 'advertiser_address_type': 0, 'advertiser_address': address,
             'advertiser_phy': 2, 'periodic_advertising_interval': 80, 'advertiser_clock_accuracy': 0}
    if is_past:
        return hci.HCI_LE_Periodic_Advertising_Sync_Transfer_Received_Event(connection_handle=1, service_data=0, **words)
    return hci.HCI_LE_Periodic_Advertising_Sync_Established_Event(**words)


def reported(data: bytes, sync: int = 1, status: int = 0) -> typing.Any:
    return hci.HCI_LE_Periodic_Advertising_Report_Event(sync_handle=sync, tx_power=0, rssi=-50, cte_type=0xFF, data_status=status,
                                                      data=data)


def info(streams: int, encryption: int = 0, sync: int = 1) -> typing.Any:
    return hci.HCI_LE_BIGInfo_Advertising_Report_Event(
        sync_handle=sync, num_bis=streams, nse=3, iso_interval=8, bn=1, pto=1, irc=2, max_pdu=100, sdu_interval=10000, max_sdu=100, phy=2,
        framing=0, encryption=encryption)


def joined(*streams: int, sync: int = 1) -> typing.Any:
    return hci.HCI_LE_BIG_Create_Sync_Command(big_handle=0, sync_handle=sync, encryption=0, broadcast_code=bytes(16), mse=0,
                                              big_sync_timeout=100, bis=list(streams))


def unit(handle: int, number: int, is_lost: bool = False) -> typing.Any:
    """A unit that is handed up. The status of Bumble 0.0.236 is bit 15 alone, where HCI has bits 14 and 15: so 1 is `lost`, 2."""
    octets = b'' if is_lost else bytes(100)
    return hci.HCI_IsoDataPacket(connection_handle=handle, data_total_length=8 + len(octets), iso_sdu_fragment=octets, pb_flag=2,
                                 time_stamp=1000000 + 10000 * number, packet_sequence_number=number, iso_sdu_length=len(octets),
                                 packet_status_flag=int(is_lost))


async def on_group(world: World, number: int, bits: int, *streams: int) -> None:
    """The delegator's radio comes on the train and the group of a source, and each is told."""
    assert world.delegator
    slot = next(it for it, source in enumerate(world.delegator.slots) if source and source.origin == origin(number))
    world.hears(synced(number))
    await world.delegator.becomes(slot, pa=2)
    world.hears(reported(base(streams)), info(len(streams)))
    world.asks(joined(*(it for it in streams if bits >> it - 1 & 1)))
    await asyncio.sleep(0.005)
    await world.delegator.becomes(slot, bits=[bits])


async def follows() -> LISTED:
    """On train and group, with units; then the client ends it."""
    world = World()
    await world.begin()
    client = world.clients[0]
    await written(client, add(1, (3, b'')))
    await on_group(world, 1, 3, 1, 2)
    world.hears(*(unit(0x200 + it % 2, it // 2, it == 7) for it in range(20)))
    await client.read(0)
    await written(client, bytes([5, 0]), modify(0, (3, ENGLISH)), modify(0, (3, b''), pa=0), bytes([5, 0]))
    return [(world, (0, 1))]


async def rejoins() -> LISTED:
    """Another choice of streams: the group is left, and joined again."""
    world = World()
    await world.begin()
    client = world.clients[0]
    await written(client, add(1, (1, b'')))
    await on_group(world, 1, 1, 1, 2)
    await written(client, modify(0, (2, b'')))
    world.asks(joined(2))
    await asyncio.sleep(0.005)
    await world.delegator.becomes(0, bits=[2])  # type: ignore[union-attr]
    await client.read(0)
    await written(client, modify(0, (2, b''), pa=0))
    return [(world, (0, 1))]


async def loses() -> LISTED:
    """The group ends, and then the train is lost."""
    world = World()
    await world.begin()
    client = world.clients[0]
    await written(client, add(1, (3, b'')))
    await on_group(world, 1, 3, 1, 2)
    world.hears(hci.HCI_LE_BIG_Sync_Lost_Event(big_handle=0, reason=0x13))
    await world.delegator.becomes(0, bits=[])  # type: ignore[union-attr]
    world.hears(hci.HCI_LE_Periodic_Advertising_Sync_Lost_Event(sync_handle=1))
    await world.delegator.becomes(0, pa=0)  # type: ignore[union-attr]
    await client.read(0)
    await written(client, bytes([5, 0]))
    return [(world, (0, 1))]


async def encrypted() -> LISTED:
    """An encrypted group, for which a code is set."""
    world = World(ways=Ways(has_code=True))
    await world.begin()
    client, delegator = world.clients[0], world.delegator
    assert delegator
    await written(client, add(1, (1, b'')))
    world.hears(synced(1))
    await delegator.becomes(0, pa=2)
    world.hears(reported(base((1,))), info(1, 1))
    await delegator.becomes(0, encryption=1)
    await written(client, bytes([4, 0]) + bytes(range(16)))
    await client.read(0)
    await written(client, modify(0, (1, b''), pa=0), bytes([5, 0]))
    return [(world, (0, 1))]


async def past() -> LISTED:
    """A train that the assistant hands over."""
    world = World()
    await world.begin()
    client, delegator = world.clients[0], world.delegator
    assert delegator
    await written(client, add(1, (1, b''), pa=1))
    await delegator.becomes(0, pa=1)
    world.hears(synced(1, is_past=True))
    await delegator.becomes(0, pa=2)
    await written(client, modify(0, (1, b''), pa=0))
    return [(world, (0, 1))]


async def parts() -> LISTED:
    """A BASE that comes in parts, of two subgroups, of which the second is wanted."""
    world = World()
    await world.begin()
    client, delegator = world.clients[0], world.delegator
    assert delegator
    await written(client, add(1, (0, b''), (12, b'')))
    world.hears(synced(1))
    await delegator.becomes(0, pa=2)
    data = base((1, 2), (3, 4))
    world.hears(reported(data[:20], status=1), reported(data[20:]), info(4))
    world.asks(joined(3, 4))
    await asyncio.sleep(0.005)
    await delegator.becomes(0, bits=[0, 12])
    await client.read(0)
    await written(client, modify(0, (0, b''), (12, b''), pa=0), bytes([5, 0]))
    return [(world, (0, 1))]


async def own_service() -> LISTED:
    """The service that Bumble itself has, which takes each write and changes nothing."""
    return await plain(add(1, (1, b'')), modify(0, ANY), bytes([5, 0]), b'\x00', b'\x01', is_own=False)


async def own_opcodes() -> LISTED:
    return await plain(*(bytes([it]) for it in (6, 7, 0x80, 0xFF)), is_own=False)


async def own_lengths() -> LISTED:
    good = add(1, (1, ENGLISH))
    return await plain(good[:5], good + b'\x00', bytes([5]), add(1, (3, b''), (1, b'')), bytes([*good[:12], 3, *good[13:]]), is_own=False)


async def own_long() -> LISTED:
    return await plain(add(1, (1, LONG), (2, LONG)), add(2, ANY), mtu=23, is_own=False)


LIVES = {it.__name__: it for it in (
    adds, modifies, removes, lengths, other_codes, opcodes, full, known, known_taken, reserved, unknown, scanning, counting, told_first,
    small, middle, commands, unasked, two, returns, monitor, follows, rejoins, loses, encrypted, past, parts, own_service, own_opcodes,
    own_lengths, own_long)} | {f'drawn{it}': drawn(it) for it in range(1, 7)}
