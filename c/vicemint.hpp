// vicemint.hpp: the handles and the layouts of vicemint.h for C++17. A handle is freed with its object, can be moved and not be copied. Octets
// are given as a span: std::span where the standard library has it, and else a pointer with a count. No call throws, and none but the
// library's own takes memory. The comments of vicemint.h hold: what takes memory, each refusal, and what the caller owes.
#ifndef VICEMINT_HPP
#define VICEMINT_HPP
#include "vicemint.h"
#include <array>
#include <cstddef>
#include <cstdint>
#include <optional>
#include <type_traits>
#include <utility>
#if __has_include(<version>)
#include <version>
#endif
#ifdef __cpp_lib_span
#include <span>
#endif

namespace vicemint {

#ifdef __cpp_lib_span
template <typename Item> using Span = std::span<Item>;
#else
template <typename Item> class Span {
public:
    constexpr Span() noexcept = default;
    constexpr Span(Item *at, std::size_t count) noexcept : at_(at), count_(count) {}
    template <typename Range, typename = decltype(std::declval<Range &>().data())>
    constexpr Span(Range &&range) noexcept : at_(range.data()), count_(range.size()) {}
    template <std::size_t N> constexpr Span(Item (&items)[N]) noexcept : at_(items), count_(N) {}
    constexpr Item *data() const noexcept { return at_; }
    constexpr std::size_t size() const noexcept { return count_; }
    constexpr Item *begin() const noexcept { return at_; }
    constexpr Item *end() const noexcept { return at_ + count_; }
    constexpr Item &operator[](std::size_t place) const noexcept { return at_[place]; }
    constexpr Span first(std::size_t count) const noexcept { return { at_, count }; }

private:
    Item *at_ = nullptr;
    std::size_t count_ = 0;
};
#endif
using Octets = Span<const std::uint8_t>;
using Room = Span<std::uint8_t>;
// The streams of each subgroup: bit n for BIS n + 1.
using Streams = Span<const std::uint32_t>;
using StreamsRoom = Span<std::uint32_t>;

enum class Status : vm_status_t {
    ok = VM_OK, range = VM_RANGE, memory = VM_MEMORY, room = VM_ROOM, empty = VM_EMPTY, too_long = VM_TOO_LONG, layout = VM_LAYOUT,
    no_slot = VM_NO_SLOT, bad_notice = VM_BAD_NOTICE, no_bis = VM_NO_BIS, no_subevent = VM_NO_SUBEVENT, group = VM_GROUP,
    time_order = VM_TIME_ORDER, backlog = VM_BACKLOG, counter_ends = VM_COUNTER_ENDS, not_on_air = VM_NOT_ON_AIR, encrypted = VM_ENCRYPTED
};

namespace detail {
inline Status status(vm_status_t of) noexcept { return static_cast<Status>(of); }

// The library wants an address for no items too, at which it neither reads nor writes.
template <typename Item> inline Item *at(Span<Item> of) noexcept
{
    static std::remove_const_t<Item> none{};
    return of.size() != 0 ? of.data() : &none;
}

inline void free(vm_sink_t *handle) noexcept { vm_sink_free(handle); }
inline void free(vm_link_t *handle) noexcept { vm_link_free(handle); }
inline void free(vm_source_t *handle) noexcept { vm_source_free(handle); }
inline void free(vm_stream_t *handle) noexcept { vm_stream_free(handle); }

// A handle of C that is freed with its owner.
template <typename Handle> class Owned {
public:
    Owned() noexcept = default;
    Owned(const Owned &) = delete;
    Owned &operator=(const Owned &) = delete;
    Owned(Owned &&other) noexcept : handle_(std::exchange(other.handle_, Handle VM_NONE)) {}
    Owned &operator=(Owned &&other) noexcept
    {
        std::swap(handle_, other.handle_);
        return *this;
    }
    ~Owned() { detail::free(&handle_); }

    // Whether a call of new filled it. The other calls want that.
    explicit operator bool() const noexcept { return handle_.at != nullptr; }
    // For calls of vicemint.h.
    Handle *get() noexcept { return &handle_; }
    void free() noexcept { detail::free(&handle_); }

private:
    Handle handle_ VM_NONE;
};
} // namespace detail

// What a call gives: its status, and with Status::ok a value.
template <typename Value> struct Result {
    Status status;
    Value value{};
    explicit operator bool() const noexcept { return status == Status::ok; }
};

// A unit, a write, a notice or a value: how many octets are at the front of the room.
struct Unit {
    vm_unit_t it;
    Room octets;
};
struct Notice {
    std::uint8_t slot;
    Room value;
};

class Sink : public detail::Owned<vm_sink_t> {
public:
    // A new sink in the place of what it was.
    Status make(std::uint8_t streams, std::uint8_t slots) noexcept
    {
        free();
        return detail::status(vm_sink_new(get(), streams, slots));
    }
    Status reserve(std::size_t units, std::size_t octets) noexcept { return detail::status(vm_sink_reserve(get(), units, octets)); }
    // Bit n for BIS n + 1.
    std::uint32_t streams() noexcept
    {
        std::uint32_t streams = 0;
        vm_sink_streams(get(), &streams);
        return streams;
    }
    Status add_pac(const std::array<std::uint8_t, 5> &codec, Octets caps, Octets metadata) noexcept
    {
        return detail::status(vm_sink_add_pac(get(), codec.data(), codec.size(), detail::at(caps), caps.size(), detail::at(metadata), metadata.size()));
    }
    void set_locations(std::uint32_t bits) noexcept { vm_sink_set_locations(get(), bits); }
    void set_contexts(std::uint16_t bits) noexcept { vm_sink_set_contexts(get(), bits); }
    Status set_mtu(std::uint16_t mtu) noexcept { return detail::status(vm_sink_set_mtu(get(), mtu)); }
    Result<vm_reply_t> write(Octets octets) noexcept
    {
        Result<vm_reply_t> it{};
        it.status = detail::status(vm_sink_write(get(), detail::at(octets), octets.size(), &it.value));
        return it;
    }
    Result<vm_train_heard_t> train(std::uint8_t address_type, std::uint8_t sid, Octets ext, Octets adv, Octets acad, std::uint64_t now) noexcept
    {
        Result<vm_train_heard_t> it{};
        it.status = detail::status(vm_sink_train(get(), address_type, sid, detail::at(ext), ext.size(), detail::at(adv), adv.size(), detail::at(acad),
                                                 acad.size(), now, &it.value));
        return it;
    }
    // Of Status::group the value is the row at fault.
    Result<std::uint8_t> tune(const air_big_info_t &info, std::uint32_t streams, std::uint64_t first_event, std::uint64_t anchor,
                              std::uint32_t delay) noexcept
    {
        Result<std::uint8_t> it{};
        it.status = detail::status(vm_sink_tune(get(), &info, streams, first_event, anchor, delay, &it.value));
        return it;
    }
    Result<vm_heard_t> hear(std::uint64_t event, std::uint8_t bis, std::uint8_t subevent, Octets pdu) noexcept
    {
        Result<vm_heard_t> it{};
        it.status = detail::status(vm_sink_hear(get(), event, bis, subevent, detail::at(pdu), pdu.size(), &it.value));
        return it;
    }
    Result<vm_heard_t> would_hear(std::uint64_t event, std::uint8_t bis, std::uint8_t subevent, Octets pdu) noexcept
    {
        Result<vm_heard_t> it{};
        it.status = detail::status(vm_sink_would_hear(get(), event, bis, subevent, detail::at(pdu), pdu.size(), &it.value));
        return it;
    }
    Result<vm_heard_t> control(Octets pdu) noexcept
    {
        Result<vm_heard_t> it{};
        it.status = detail::status(vm_sink_control(get(), detail::at(pdu), pdu.size(), &it.value));
        return it;
    }
    Status lost() noexcept { return detail::status(vm_sink_lost(get())); }
    Status tick(std::uint64_t event) noexcept { return detail::status(vm_sink_tick(get(), event)); }
    Result<Unit> next_unit(Room room) noexcept
    {
        Result<Unit> it{};
        it.status = detail::status(vm_sink_next_unit(get(), detail::at(room), room.size(), &it.value.it));
        it.value.octets = room.first(it ? static_cast<std::size_t>(it.value.it.count) : 0);
        return it;
    }
    Result<Notice> next_notice(Room room) noexcept
    {
        Result<Notice> it{};
        vm_size_t count = 0;
        it.status = detail::status(vm_sink_next_notice(get(), detail::at(room), room.size(), &it.value.slot, &count));
        it.value.value = room.first(static_cast<std::size_t>(count));
        return it;
    }
    Result<Room> read_state(std::uint8_t slot, Room room) noexcept
    {
        vm_size_t count = 0;
        Status status = detail::status(vm_sink_read_state(get(), slot, detail::at(room), room.size(), &count));
        return { status, room.first(static_cast<std::size_t>(count)) };
    }
};

class Link : public detail::Owned<vm_link_t> {
public:
    Status make(std::uint8_t slots) noexcept
    {
        free();
        return detail::status(vm_link_new(get(), slots));
    }
    Status set_mtu(std::uint16_t mtu) noexcept { return detail::status(vm_link_set_mtu(get(), mtu)); }
    Status put(Octets write) noexcept { return detail::status(vm_link_put(get(), detail::at(write), write.size())); }
    Status scan(bool is_started) noexcept { return detail::status(vm_link_scan(get(), is_started)); }
    // For each subgroup the streams that are asked for, and metadata: an octet that counts it and so many octets, one behind the other.
    Status add(const vm_identity_t &source, std::uint8_t pa_sync, std::uint16_t pa_interval, Streams bis_sync, Octets metadata) noexcept
    {
        return detail::status(vm_link_add(get(), source.address_type, source.address, source.sid, source.broadcast_id, pa_sync, pa_interval,
                                          detail::at(bis_sync), bis_sync.size(), detail::at(metadata), metadata.size()));
    }
    Status modify(std::uint8_t source_id, std::uint8_t pa_sync, std::uint16_t pa_interval, Streams bis_sync, Octets metadata) noexcept
    {
        return detail::status(vm_link_modify(get(), source_id, pa_sync, pa_interval, detail::at(bis_sync), bis_sync.size(), detail::at(metadata),
                                             metadata.size()));
    }
    Status code(std::uint8_t source_id, const std::array<std::uint8_t, 16> &code) noexcept
    {
        return detail::status(vm_link_code(get(), source_id, code.data()));
    }
    Status remove(std::uint8_t source_id) noexcept { return detail::status(vm_link_remove(get(), source_id)); }
    Result<Room> next_write(Room room) noexcept
    {
        vm_size_t count = 0;
        Status status = detail::status(vm_link_next_write(get(), detail::at(room), room.size(), &count));
        return { status, room.first(static_cast<std::size_t>(count)) };
    }
    // Of Status::bad_notice the value is the fault.
    Result<air_fault_t> notice(std::uint8_t slot, Octets value) noexcept
    {
        Result<air_fault_t> it{};
        it.status = detail::status(vm_link_notice(get(), slot, detail::at(value), value.size(), &it.value));
        return it;
    }
    void ask_all() noexcept { vm_link_ask_all(get()); }
    Result<std::uint8_t> next_read() noexcept
    {
        Result<std::uint8_t> it{};
        it.status = detail::status(vm_link_next_read(get(), &it.value));
        return it;
    }
    Result<air_fault_t> answer_read(std::uint8_t slot, Octets value) noexcept
    {
        Result<air_fault_t> it{};
        it.status = detail::status(vm_link_answer_read(get(), slot, detail::at(value), value.size(), &it.value));
        return it;
    }
    Result<Room> view(std::uint8_t slot, Room room) noexcept
    {
        vm_size_t count = 0;
        Status status = detail::status(vm_link_view(get(), slot, detail::at(room), room.size(), &count));
        return { status, room.first(static_cast<std::size_t>(count)) };
    }
};

class Source : public detail::Owned<vm_source_t> {
public:
    // Of Status::layout and Status::group the value is the fault.
    Result<air_fault_t> make(const vm_identity_t &identity, const air_big_info_t &info, Octets base, std::uint64_t origin,
                             std::uint64_t first_event, bool times_ahead = false) noexcept
    {
        Result<air_fault_t> it{};
        free();
        it.status = detail::status(vm_source_new(get(), &identity, &info, detail::at(base), base.size(), origin, first_event, times_ahead, &it.value));
        return it;
    }
    Status give(std::uint8_t bis, std::optional<std::uint64_t> time, Octets unit) noexcept
    {
        return detail::status(vm_source_give(get(), bis, time.has_value(), time.value_or(0), detail::at(unit), unit.size()));
    }
    // The next event and its anchor.
    std::pair<std::uint64_t, std::uint64_t> next() noexcept
    {
        std::pair<std::uint64_t, std::uint64_t> it{};
        vm_source_next(get(), &it.first, &it.second);
        return it;
    }
    Status event() noexcept { return detail::status(vm_source_event(get())); }
    // The stream and the time of a unit that the last event left out.
    Result<std::pair<std::uint8_t, std::uint64_t>> next_stale() noexcept
    {
        Result<std::pair<std::uint8_t, std::uint64_t>> it{};
        it.status = detail::status(vm_source_next_stale(get(), &it.value.first, &it.value.second));
        return it;
    }
    // A PDU with its payload number.
    Result<std::pair<Room, std::uint64_t>> pdu(std::uint8_t back, std::uint8_t bis, std::uint8_t subevent, Room room) noexcept
    {
        Result<std::pair<Room, std::uint64_t>> it{};
        vm_size_t count = 0;
        it.status = detail::status(vm_source_pdu(get(), back, bis, subevent, detail::at(room), room.size(), &count, &it.value.second));
        it.value.first = room.first(static_cast<std::size_t>(count));
        return it;
    }
    Result<vm_train_t> announce(Room room) noexcept
    {
        Result<vm_train_t> it{};
        it.status = detail::status(vm_source_announce(get(), detail::at(room), room.size(), &it.value));
        return it;
    }
    std::array<std::uint8_t, 6> terminate(std::uint8_t reason) noexcept
    {
        std::array<std::uint8_t, 6> pdu{};
        vm_source_terminate(get(), reason, pdu.data());
        return pdu;
    }
};

class Stream : public detail::Owned<vm_stream_t> {
public:
    // Of Status::group the value is the row at fault.
    Result<std::uint8_t> make(const air_big_info_t &info, const vm_stay_t &stay) noexcept
    {
        Result<std::uint8_t> it{};
        free();
        it.status = detail::status(vm_stream_new(get(), &info, &stay, &it.value));
        return it;
    }
    vm_heard_t hear(std::uint64_t number, Octets pdu) noexcept
    {
        vm_heard_t heard{};
        vm_stream_hear(get(), number, detail::at(pdu), pdu.size(), &heard);
        return heard;
    }
    Status reserve(std::size_t units, std::size_t octets) noexcept { return detail::status(vm_stream_reserve(get(), units, octets)); }
    Status close() noexcept { return detail::status(vm_stream_close(get())); }
    std::uint64_t open_event() noexcept
    {
        std::uint64_t event = 0;
        vm_stream_open_event(get(), &event);
        return event;
    }
    // The octets that it holds of units that it hasn't handed up.
    std::size_t held() noexcept
    {
        vm_size_t octets = 0;
        vm_stream_held(get(), &octets);
        return static_cast<std::size_t>(octets);
    }
    Result<Unit> next_unit(Room room) noexcept
    {
        Result<Unit> it{};
        it.status = detail::status(vm_stream_next_unit(get(), detail::at(room), room.size(), &it.value.it));
        it.value.octets = room.first(it ? static_cast<std::size_t>(it.value.it.count) : 0);
        return it;
    }
};

// The layouts, with no state. Of Status::layout the fault that a result has is the first one, with its place.
namespace layouts {

inline Result<air_big_info_t> read_big_info(Octets from) noexcept
{
    Result<air_big_info_t> it{};
    it.status = detail::status(air_big_info_read(detail::at(from), from.size(), &it.value));
    return it;
}
// A room of 57 octets is always enough.
inline Result<Room> write_big_info(const air_big_info_t &info, Room room) noexcept
{
    vm_size_t count = 0;
    Status status = detail::status(air_big_info_write(&info, detail::at(room), room.size(), &count));
    return { status, room.first(static_cast<std::size_t>(count)) };
}
// Of Status::group the value is the first row at fault.
inline Result<std::uint8_t> check_group(const air_big_info_t &info) noexcept
{
    Result<std::uint8_t> it{};
    it.status = detail::status(air_group_check(&info, &it.value));
    return it;
}
inline Result<air_fault_t> check_base(Octets from) noexcept
{
    Result<air_fault_t> it{};
    it.status = detail::status(air_base_check(detail::at(from), from.size(), &it.value));
    return it;
}
// The octets that the parts give, at the front of the room. The octets hold configurations and metadata.
struct Base {
    Status status;
    Room octets;
    air_fault_t fault;
    explicit operator bool() const noexcept { return status == Status::ok; }
};
inline Base write_base(std::uint32_t delay, Span<const air_base_subgroup_t> subgroups, Span<const air_base_stream_t> streams, Octets octets,
                       Room room) noexcept
{
    vm_size_t count = 0;
    air_fault_t fault{};
    Status status = detail::status(air_base_write(delay, detail::at(subgroups), subgroups.size(), detail::at(streams), streams.size(),
                                                  detail::at(octets), octets.size(), detail::at(room), room.size(), &count, &fault));
    return { status, room.first(static_cast<std::size_t>(count)), fault };
}
// Bit n for BIS n + 1.
inline Result<std::uint32_t> base_streams(Octets from) noexcept
{
    Result<std::uint32_t> it{};
    it.status = detail::status(air_base_streams(detail::at(from), from.size(), &it.value));
    return it;
}
inline Result<air_effective_t> base_effective(Octets from, std::uint8_t bis) noexcept
{
    Result<air_effective_t> it{};
    it.status = detail::status(air_base_effective(detail::at(from), from.size(), bis, &it.value));
    return it;
}
inline Result<air_fault_t> check_pac(Octets from) noexcept
{
    Result<air_fault_t> it{};
    it.status = detail::status(air_pac_check(detail::at(from), from.size(), &it.value));
    return it;
}
// Status::ok where the device takes the stream. Of Status::empty, where it doesn't, the value is the requirement that isn't met.
inline Result<std::uint8_t> takes(Octets records, std::uint32_t locations, std::uint16_t contexts, Octets base, std::uint8_t bis) noexcept
{
    Result<std::uint8_t> it{};
    it.status = detail::status(air_takes(detail::at(records), records.size(), locations, contexts, detail::at(base), base.size(), bis, &it.value));
    return it;
}
inline Result<air_fault_t> check_pdu(Octets from, std::uint8_t max_pdu) noexcept
{
    Result<air_fault_t> it{};
    it.status = detail::status(air_pdu_check(detail::at(from), from.size(), max_pdu, &it.value));
    return it;
}
inline Result<air_fault_t> check_operation(Octets from) noexcept
{
    Result<air_fault_t> it{};
    it.status = detail::status(air_operation_check(detail::at(from), from.size(), &it.value));
    return it;
}
inline Result<air_fault_t> check_state(Octets from) noexcept
{
    Result<air_fault_t> it{};
    it.status = detail::status(air_state_check(detail::at(from), from.size(), &it.value));
    return it;
}
// A receive state; the streams of its subgroups are at the front of the room.
struct State {
    air_state_t it;
    StreamsRoom bis_sync;
    air_fault_t fault;
};
inline Result<State> read_state(Octets from, StreamsRoom room) noexcept
{
    Result<State> it{};
    it.status = detail::status(air_state_read(detail::at(from), from.size(), &it.value.it, detail::at(room), room.size(), &it.value.fault));
    it.value.bis_sync = room.first(it ? static_cast<std::size_t>(it.value.it.subgroups) : 0);
    return it;
}

} // namespace layouts
} // namespace vicemint
#endif
