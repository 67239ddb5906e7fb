// The layouts and the stream of vicemint.hpp: what is written is read again, each reader names its fault, and one stream alone hands up what a
// source was given.
#include "group.hpp"
#include <algorithm>
#include <cstdio>

namespace layouts = vicemint::layouts;
using vicemint::Octets;
using vicemint::Status;

namespace {

constexpr vm_identity_t IDENTITY = { 0, { 1, 2, 3, 4, 5, 6 }, 3, { 7, 8, 9 } };
constexpr std::uint8_t RECORDS[] = { 1, 6, 0, 0, 0, 0, 13, 3, 1, 0x80, 0, 2, 2, 2, 5, 4, 100, 0, 100, 0, 0 };

bool groups()
{
    std::array<std::uint8_t, 57> room{};
    air_big_info_t info = group();
    auto written = layouts::write_big_info(info, room);
    auto read = layouts::read_big_info(written.value);
    bool is_same = written && written.value.size() == 33 && read && read.value.sdu_interval == info.sdu_interval && read.value.max_pdu == info.max_pdu;
    bool is_cut = layouts::read_big_info(Octets(room.data(), 32)).status == Status::layout
        && layouts::write_big_info(info, vicemint::Room(room.data(), 32)).status == Status::room;
    info.irc = 0;
    auto row = layouts::check_group(info);
    return is_same && is_cut && layouts::check_group(group()) && row.status == Status::group && row.value > 0;
}

bool bases()
{
    auto fault = layouts::check_base(Octets(BASE, 9));
    auto streams = layouts::base_streams(BASE);
    auto effective = layouts::base_effective(BASE, 1);
    return layouts::check_base(BASE) && fault.status == Status::layout && fault.value.number == 1 && fault.value.place == 5 && streams && streams.value == 1
        && effective && effective.value.has_frequency && effective.value.frequency == 8 && !effective.value.has_allocation
        && layouts::base_effective(BASE, 2).status == Status::no_bis && layouts::base_effective(BASE, 32).status == Status::range;
}

// The parts of BASE, and its octets again; and a second subgroup, whose stream shares the first one's configuration.
bool parts()
{
    std::array<std::uint8_t, 252> room{};
    const Octets octets(BASE + 11, 15); // the configuration, the count of the metadata, and the metadata
    const air_base_subgroup_t subgroups[] = { { 0, 10, 11, 4, { 6, 0, 0, 0, 0 } }, { 0, 0, 11, 4, { 6, 0, 0, 0, 0 } } };
    const air_base_stream_t streams[] = { { 0, 10, 1, 2 }, { 0, 0, 0, 1 } };
    using Subgroups = vicemint::Span<const air_base_subgroup_t>;
    using Streams = vicemint::Span<const air_base_stream_t>;
    auto one = layouts::write_base(40000, Subgroups(subgroups, 1), Streams(streams + 1, 1), octets, room);
    if (!one || one.octets.size() != sizeof BASE || !std::equal(one.octets.begin(), one.octets.end(), BASE))
        return false;
    auto both = layouts::write_base(40000, subgroups, streams, octets, room);
    auto second = layouts::base_effective(Octets(room.data(), both.octets.size()), 2);
    auto none = layouts::write_base(40000, {}, {}, {}, room);
    return both && layouts::base_streams(Octets(room.data(), both.octets.size())).value == 3 && second && second.value.subgroup == 1
        && second.value.frequency == 8 && none.status == Status::layout && none.fault.number == 2 && none.fault.place == 3
        && layouts::write_base(1 << 24, subgroups, streams, octets, room).status == Status::range
        && layouts::write_base(40000, Subgroups(subgroups, 1), streams, octets, room).status == Status::range
        && layouts::write_base(40000, subgroups, streams, octets, vicemint::Room(room.data(), 27)).status == Status::room;
}

bool capabilities()
{
    auto reason = layouts::takes(RECORDS, 1, 2, BASE, 1);
    return layouts::check_pac(RECORDS) && layouts::check_pac(Octets(RECORDS, 4)).status == Status::layout && layouts::takes(RECORDS, 1, 4, BASE, 1)
        && reason.status == Status::empty && reason.value == 8;
}

bool links()
{
    std::array<std::uint8_t, 512> room{};
    std::array<std::uint32_t, 2> asked = { 1, 0 }, bits{};
    const std::array<std::uint8_t, 2> no_metadata = { 0, 0 };
    const std::uint8_t pdu[] = { 0, 2, 1, 1 };
    vicemint::Link link;
    vicemint::Sink sink;
    if (link.make(1) != Status::ok || sink.make(1, 1) != Status::ok || link.add(IDENTITY, 2, 0xffff, asked, no_metadata) != Status::ok)
        return false;
    auto write = link.next_write(room);
    if (!layouts::check_operation(write.value) || layouts::check_operation({}).status != Status::layout || !sink.write(write.value))
        return false;
    auto value = sink.read_state(0, room);
    auto state = layouts::read_state(value.value, bits);
    return value && layouts::check_state(value.value) && state && state.value.bis_sync.size() == 2 && state.value.it.sid == IDENTITY.sid
        && layouts::read_state(value.value, vicemint::StreamsRoom(bits.data(), 1)).status == Status::room
        && layouts::read_state({}, bits).status == Status::empty && layouts::check_pdu(pdu, 100)
        && layouts::check_pdu(pdu, 1).status == Status::layout;
}

bool alone()
{
    vicemint::Source source;
    vicemint::Stream made;
    std::array<std::uint8_t, 253> room{};
    const std::array<std::uint8_t, 3> unit = { 1, 2, 3 };
    if (!source.make(IDENTITY, group(), BASE, 20000, 0) || !made.make(group(), { 0, 20000, 40000, 1 }) || made.reserve(1, 100) != Status::ok)
        return false;
    vicemint::Stream stream = std::move(made);
    for (std::uint64_t event = 0; event < 20; event++) {
        if (source.give(1, std::nullopt, unit) != Status::ok || source.event() != Status::ok || stream.open_event() != event)
            return false;
        auto pdu = source.pdu(0, 1, 0, room);
        if (!pdu || stream.hear(pdu.value.second, pdu.value.first).answer != 5 || stream.held() != unit.size())
            return false;
        if (stream.close() != Status::ok || stream.held() != 0)
            return false;
        auto handed = stream.next_unit(room);
        if (!handed || !handed.value.it.is_valid || handed.value.octets.size() != unit.size() || handed.value.octets[2] != 3)
            return false;
    }
    return stream.next_unit(room).status == Status::empty;
}

} // namespace

int main()
{
    const bool all[] = { groups(), bases(), parts(), capabilities(), links(), alone() };
    for (std::size_t place = 0; place < sizeof all / sizeof *all; place++)
        if (!all[place])
            return static_cast<int>(place) + 1;
    std::puts("the layouts are read and written");
    return 0;
}
