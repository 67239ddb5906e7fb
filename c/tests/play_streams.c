/* Each stream that a sink is on is played alone beside it, by vm_stream_*: what it answers to a PDU, and what it hands up, is what the sink
 * does. Streams of an odd index have room for their units from the begin on. */
#include "play.h"

enum { RESERVED = 64, KEPT = 5, NO_NUMBER = 8, BIG_INFO = 0x2c, SERVICE_DATA = 0x16 };

/* The data of the first structure of this type in advertising data, behind these octets. */
static octets_t data_of(octets_t ads, uint8_t type, const uint8_t *begin, vm_size_t count)
{
    for (vm_size_t at = 0; at + 1 < ads.count; at += 1 + (vm_size_t)ads.at[at]) {
        octets_t it = { ads.at + at + 2, (vm_size_t)ads.at[at] - 1 };
        if (ads.at[at] > count && ads.at[at + 1] == type && memcmp(it.at, begin, (size_t)count) == 0)
            return (octets_t){ it.at + count, it.count - count };
    }
    fail("the train", type);
    return (octets_t){ NULL, 0 };
}

void end_streams(own_sink_t *own)
{
    for (unsigned i = 0; i < STREAMS; i++)
        vm_stream_free(&own->streams[i]);
}

void begin_streams(own_sink_t *own, const air_big_info_t *info, uint32_t taken, uint64_t event, uint64_t anchor, uint32_t delay)
{
    end_streams(own);
    own->info = *info;
    for (uint8_t bis = 1; bis <= STREAMS; bis++) {
        vm_stream_t *stream = &own->streams[bis - 1];
        vm_stay_t stay = { event, anchor, delay, bis };
        uint8_t row = 0;
        if ((taken >> (bis - 1) & 1) == 0)
            continue;
        NEED(vm_stream_new(stream, info, &stay, &row));
        if (bis % 2 == 1)
            NEED(vm_stream_reserve(stream, RESERVED, info->max_sdu));
    }
}

void begin_by_train(own_sink_t *own, uint32_t taken, octets_t adv, octets_t acad, uint64_t now)
{
    static const uint8_t basic_announcement[2] = { 0x51, 0x18 };
    octets_t base = data_of(adv, SERVICE_DATA, basic_announcement, sizeof basic_announcement);
    octets_t told = data_of(acad, BIG_INFO, base.at, 0);
    air_big_info_t info = { 0 };
    NEED(air_big_info_read(told.at, told.count, &info));
    uint64_t offset = (uint64_t)info.big_offset * (info.big_offset_units == 1 ? 300 : 30);
    uint32_t delay = base.at[0] | (uint32_t)base.at[1] << 8 | (uint32_t)base.at[2] << 16;
    begin_streams(own, &info, taken, info.bis_payload_count / info.bn, now + offset, delay);
}

void end_where_left(own_sink_t *own)
{
    uint32_t streams = 0;
    vm_sink_streams(&own->sink, &streams);
    if (streams == 0)
        end_streams(own);
}

/* The number of the payload of a subevent (Core 5.2, volume 6 part B, section 4.4.6). */
static uint64_t payload_of(const air_big_info_t *info, uint64_t event, uint8_t subevent)
{
    unsigned copies = subevent / info->bn;
    uint64_t ahead = copies < info->irc ? 0 : (uint64_t)info->pto * (copies - info->irc + 1);
    return (event + ahead) * info->bn + subevent % info->bn;
}

void hear_alone(own_sink_t *own, uint64_t event, uint8_t bis, uint8_t subevent, octets_t pdu, vm_heard_t heard)
{
    vm_stream_t *stream = &own->streams[bis - 1];
    vm_heard_t alone = { 0, 0 };
    if ((stream->at != NULL) != (heard.answer <= KEPT || heard.answer == NO_NUMBER))
        fail("vm_sink_hear", heard.answer);
    if (heard.answer > KEPT)
        return;
    vm_stream_hear(stream, payload_of(&own->info, event, subevent), pdu.at, pdu.count, &alone);
    if (alone.answer != heard.answer || alone.fault != heard.fault)
        fail("vm_stream_hear", alone.answer);
}

static const handed_t *of_stream(const handed_t *it, uint8_t bis)
{
    while (it != NULL && it->unit.bis != bis)
        it = it->next;
    return it;
}

static bool is_same(const handed_t *it, const vm_unit_t *unit, const uint8_t *at)
{
    return it->unit.time == unit->time && it->unit.count == unit->count && it->unit.bis == unit->bis && it->unit.is_valid == unit->is_valid
        && memcmp(it->octets.at, at, (size_t)unit->count) == 0;
}

/* The units that a stream hands up are those that the sink handed of it; where one of both found no memory, it has the first of the other's. */
static void hand_up_alone(vm_stream_t *stream, const handed_t *of_sink, uint8_t bis, bool is_sink_cut, bool is_cut)
{
    octets_t room = room_of(UNIT);
    vm_unit_t unit = { 0, 0, 0, false };
    const handed_t *it = of_stream(of_sink, bis);
    for (; vm_stream_next_unit(stream, room.at, room.count, &unit) == VM_OK; it = it != NULL ? of_stream(it->next, bis) : NULL)
        if (it != NULL ? !is_same(it, &unit, room.at) : !is_sink_cut)
            fail("vm_stream_next_unit", bis);
    if (is_sink_cut ? it != NULL : (it != NULL) != is_cut)
        fail("vm_stream_close", bis);
    free(room.at);
}

void close_alone(own_sink_t *own, uint64_t event, const handed_t *of_sink, bool is_sink_cut)
{
    for (const handed_t *it = of_sink; it != NULL; it = it->next)
        if (own->streams[it->unit.bis - 1].at == NULL)
            fail("vm_sink_next_unit", it->unit.bis);
    for (uint8_t bis = 1; bis <= STREAMS; bis++) {
        vm_stream_t *stream = &own->streams[bis - 1];
        uint64_t open = 0;
        if (stream->at == NULL)
            continue;
        vm_stream_open_event(stream, &open);
        vm_status_t status = open <= event ? vm_stream_close(stream) : VM_OK;
        if (status == VM_MEMORY && bis % 2 == 0)
            puts("a close found no memory");
        else if (status != VM_OK)
            fail("vm_stream_close", status);
        hand_up_alone(stream, of_sink, bis, is_sink_cut, status == VM_MEMORY);
    }
}
