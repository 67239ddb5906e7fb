// The handles of vicemint.hpp: an assistant puts a sink on a source, the source sends, and what the sink hands up is what was given.
#include "group.hpp"
#include <cstdio>
#include <cstring>

using vicemint::Link;
using vicemint::Sink;
using vicemint::Source;
using vicemint::Status;

namespace {

bool follows(Sink &sink, Link &link, Source &source, const vm_identity_t &identity)
{
    std::array<std::uint8_t, 512> room{};
    const std::array<std::uint32_t, 1> all = { 0xffffffff };
    const std::array<std::uint8_t, 1> no_metadata = { 0 };
    if (link.add(identity, 2, 0xffff, all, no_metadata) != Status::ok)
        return false;
    auto write = link.next_write(room);
    auto reply = sink.write(write.value);
    auto train = source.announce(room);
    vicemint::Room octets(room);
    auto heard = sink.train(0, identity.sid, vicemint::Octets(room.data(), train.value.ext), vicemint::Octets(room.data() + train.value.ext, train.value.adv),
                            vicemint::Octets(room.data() + train.value.ext + train.value.adv, train.value.acad), train.value.time);
    while (auto notice = sink.next_notice(octets))
        if (!link.notice(notice.value.slot, notice.value.value))
            return false;
    return write && reply && reply.value.code == 0 && train && heard && heard.value.streams == 1 && sink.streams() == 1;
}

bool sends(Sink &sink, Source &source, std::uint8_t event)
{
    std::array<std::uint8_t, 253> room{};
    const std::array<std::uint8_t, 2> unit = { event, 7 };
    if (source.give(1, std::nullopt, unit) != Status::ok || source.event() != Status::ok)
        return false;
    auto pdu = source.pdu(0, 1, 0, room);
    if (!pdu || !sink.hear(event, 1, 0, pdu.value.first) || sink.tick(event) != Status::ok)
        return false;
    std::array<std::uint8_t, 100> octets{};
    auto handed = sink.next_unit(octets);
    return handed && handed.value.it.is_valid && handed.value.octets.size() == 2 && handed.value.octets[0] == event
        && sink.next_unit(octets).status == Status::empty;
}

} // namespace

int main()
{
    const vm_identity_t identity = { 0, { 1, 2, 3, 4, 5, 6 }, 3, { 7, 8, 9 } };
    const std::uint8_t caps[] = { 3, 1, 0x80, 0, 2, 2, 2, 5, 4, 100, 0, 100, 0 };
    Sink made;
    Link link;
    Source source;
    if (made.make(0, 1) != Status::range || made || made.make(1, 1) != Status::ok || link.make(1) != Status::ok
        || !source.make(identity, group(), BASE, 20000, 0))
        return 1;
    Sink sink = std::move(made);
    if (made || !sink || sink.reserve(1, 100) != Status::ok || sink.add_pac({ 6, 0, 0, 0, 0 }, caps, {}) != Status::ok)
        return 2;
    sink.set_locations(1);
    sink.set_contexts(4);
    if (!follows(sink, link, source, identity))
        return 3;
    for (std::uint8_t event = 0; event < 20; event++)
        if (!sends(sink, source, event))
            return 4;
    std::array<std::uint8_t, 512> view{}, state{};
    auto seen = link.view(0, view), is = sink.read_state(0, state);
    if (!seen || !is || seen.value.size() != is.value.size() || std::memcmp(seen.value.data(), is.value.data(), is.value.size()) != 0)
        return 5;
    std::puts("20 units are those that were given");
    return 0;
}
