/* The calls of a sink that fuzz.c makes. */
#include "tape.h"

static vm_sink_t sinks[HANDLES];

static vm_sink_t *one(void)
{
    vm_sink_t *sink = &sinks[octet() % HANDLES];
    return sink->at != NULL ? sink : NULL;
}

/* Has the sink take and follow the source of fuzz.c. */
static void follow(vm_sink_t *sink)
{
    const uint8_t lc3[5] = { 6, 0, 0, 0, 0 }, caps[] = { 3, 1, 0x80, 0, 2, 2, 2, 5, 4, 10, 0, 10, 0 };
    uint8_t add[21] = { 2, IDENTITY.address_type };
    const uint8_t wish[] = { 2, 0xff, 0xff, 1, 0xff, 0xff, 0xff, 0xff, 0 };
    vm_reply_t reply;
    memcpy(add + 2, IDENTITY.address, 6);
    add[8] = IDENTITY.sid;
    memcpy(add + 9, IDENTITY.broadcast_id, 3);
    memcpy(add + 12, wish, sizeof wish);
    vm_sink_set_locations(sink, 3);
    vm_sink_set_contexts(sink, 4);
    CALL(vm_sink_add_pac, (sink, lc3, sizeof lc3, caps, sizeof caps, caps, 0), ONE(VM_MEMORY));
    CALL(vm_sink_write, (sink, add, sizeof add, &reply), ONE(VM_MEMORY));
}

static void run_new(void)
{
    vm_sink_t *sink = &sinks[octet() % HANDLES];
    vm_sink_free(sink);
    if (CALL(vm_sink_new, (sink, (uint8_t)(octet() % 34), (uint8_t)(octet() % 10)), ONE(VM_RANGE) | ONE(VM_MEMORY)) != VM_OK)
        NEED(sink->at == NULL);
    else if (octet() % 4 != 0)
        follow(sink);
}

static void run_pac(void)
{
    vm_sink_t *sink = one();
    const uint8_t lc3[5] = { 6, 0, 0, 0, 0 };
    octets_t codec = octet() % 2 != 0 ? octets(6) : from(lc3, sizeof lc3), caps = octets(255), metadata = octets(255);
    if (sink != NULL)
        CALL(vm_sink_add_pac, (sink, codec.at, codec.count, caps.at, caps.count, metadata.at, metadata.count),
             ONE(VM_LAYOUT) | ONE(VM_TOO_LONG) | ONE(VM_MEMORY));
    free(codec.at);
    free(caps.at);
    free(metadata.at);
}

static void run_reserve(void)
{
    vm_sink_t *sink = one();
    uint64_t units = octet() % 32 != 0 ? octet() % 8 : wide(), size = octet() % 32 != 0 ? octet() : wide();
    if (sink != NULL)
        CALL(vm_sink_reserve, (sink, units, size), ONE(VM_MEMORY) | (units >= 1 && units <= 1024 && size >= 1 && size <= 4095 ? 0 : ONE(VM_RANGE)));
}

static void run_streams(void)
{
    vm_sink_t *sink = one();
    uint32_t streams = 0;
    if (sink == NULL)
        return;
    vm_sink_streams(sink, &streams);
    NEED(streams >> 31 == 0);
}

static void run_mtu(void)
{
    vm_sink_t *sink = one();
    uint16_t mtu = (uint16_t)wide();
    if (sink != NULL)
        NEED((CALL(vm_sink_set_mtu, (sink, mtu), ONE(VM_RANGE)) == VM_OK) == (mtu >= 23 && mtu <= 517));
}

void write_to_sink(octets_t write)
{
    vm_sink_t *sink = one();
    vm_reply_t reply;
    MARKED(reply);
    if (sink == NULL)
        return;
    if (CALL(vm_sink_write, (sink, write.at, write.count, &reply), ONE(VM_MEMORY)) == VM_OK)
        NEED(reply.cause <= 11 && (reply.code == 0) == (reply.cause == 0));
    else
        KEEPS(reply);
}

static void run_write(void)
{
    octets_t write = octets(60);
    if (write.count > 0)
        write.at[0] %= 7;
    write_to_sink(write);
    free(write.at);
}

static void trained(octets_t ext, octets_t adv, octets_t acad, uint64_t now)
{
    vm_sink_t *sink = one();
    vm_train_heard_t heard;
    MARKED(heard);
    if (sink == NULL)
        return;
    if (CALL(vm_sink_train, (sink, 0, 3, ext.at, ext.count, adv.at, adv.count, acad.at, acad.count, now, &heard), ONE(VM_RANGE) | ONE(VM_MEMORY))
        == VM_OK)
        NEED(heard.answer <= VM_TRAIN_ON_GROUP && (heard.streams != 0) == (heard.answer == VM_TRAIN_ON_GROUP));
    else
        KEEPS(heard);
}

void hear_train(const uint8_t *room, const vm_train_t *train)
{
    octets_t ext = bent(room, train->ext), adv = bent(room + train->ext, train->adv), acad = bent(room + train->ext + train->adv, train->acad);
    trained(ext, adv, acad, train->time);
    free(ext.at);
    free(adv.at);
    free(acad.at);
}

static void run_train(void)
{
    octets_t ext = octets(40), adv = octets(255), acad = octets(70);
    trained(ext, adv, acad, wide());
    free(ext.at);
    free(adv.at);
    free(acad.at);
}

static void run_tune(void)
{
    vm_sink_t *sink = one();
    air_big_info_t info = GROUPS[octet() % 4];
    uint8_t row = MARK;
    if (octet() % 4 == 0)
        ((uint8_t *)&info)[octet() % offsetof(air_big_info_t, is_encrypted)] = octet();
    uint32_t streams = octet() % 8;
    uint64_t first = wide(), anchor = wide();
    uint32_t delay = (uint32_t)wide();
    if (sink == NULL)
        return;
    if (CALL(vm_sink_tune, (sink, &info, streams, first, anchor, delay, &row), ONE(VM_RANGE) | ONE(VM_GROUP) | ONE(VM_MEMORY)) == VM_GROUP)
        NEED(row >= 1 && row <= 14);
    else
        NEED(row == MARK);
}

void hear_pdu(uint64_t event, uint8_t bis, uint8_t subevent, uint64_t number, octets_t pdu)
{
    vm_sink_t *sink = one();
    vm_heard_t would, heard;
    (void)number;
    MARKED(would);
    MARKED(heard);
    if (sink == NULL)
        return;
    vm_status_t status = CALL(vm_sink_would_hear, (sink, event, bis, subevent, pdu.at, pdu.count, &would), ONE(VM_RANGE));
    NEED(CALL(vm_sink_hear, (sink, event, bis, subevent, pdu.at, pdu.count, &heard), ONE(VM_RANGE)) == status);
    NEED(would.answer == heard.answer && would.fault == heard.fault);
    if (status == VM_OK)
        NEED(heard.answer <= 8 && (heard.fault != 0) == (heard.answer == 0));
    else
        KEEPS(heard);
}

static void run_hear(void)
{
    octets_t pdu = octets(60);
    if (pdu.count >= 2 && octet() % 4 != 0)
        pdu.at[1] = (uint8_t)(pdu.count - 2);
    hear_pdu(octet() % 2 != 0 ? octet() % 8 : wide(), (uint8_t)(octet() % 33), (uint8_t)(octet() % 32), 0, pdu);
    free(pdu.at);
}

static void run_control(void)
{
    vm_sink_t *sink = one();
    octets_t pdu = octets(12);
    vm_heard_t heard;
    MARKED(heard);
    if (pdu.count >= 3 && octet() % 2 != 0) {
        pdu.at[0] = 3;
        pdu.at[1] = (uint8_t)(pdu.count - 2);
    }
    if (sink != NULL && CALL(vm_sink_control, (sink, pdu.at, pdu.count, &heard), ONE(VM_MEMORY)) == VM_OK)
        NEED(heard.answer <= 6);
    else
        KEEPS(heard);
    free(pdu.at);
}

static void run_lost(void)
{
    vm_sink_t *sink = one();
    if (sink != NULL)
        CALL(vm_sink_lost, (sink), ONE(VM_MEMORY));
}

/* Takes a unit, or all. */
static void take(vm_sink_t *sink, vm_size_t size, bool all)
{
    octets_t room = room_of(size);
    vm_unit_t unit;
    vm_status_t status = VM_OK;
    do {
        MARKED(unit);
        status = CALL(vm_sink_next_unit, (sink, room.at, room.count, &unit), ONE(VM_EMPTY) | (size < 4095 ? ONE(VM_ROOM) : 0));
        if (status == VM_OK)
            NEED(unit.count <= room.count && unit.bis >= 1 && unit.bis <= 31 && (unit.is_valid || unit.count == 0));
        else
            KEEPS(unit);
    } while (all && status == VM_OK);
    free(room.at);
}

void tick(uint64_t event)
{
    vm_sink_t *sink = one();
    if (sink == NULL)
        return;
    CALL(vm_sink_tick, (sink, event), ONE(VM_RANGE) | ONE(VM_MEMORY));
    if (octet() % 2 != 0)
        take(sink, 4095, true);
}

static void run_tick(void)
{
    tick(octet() % 8 != 0 ? octet() % 16 : wide());
}

static void run_next_unit(void)
{
    vm_sink_t *sink = one();
    if (sink != NULL)
        take(sink, octet(), false);
}

static void run_next_notice(void)
{
    vm_sink_t *sink = one();
    octets_t room = room_of(octet() % 8 != 0 ? 512 : octet());
    uint8_t slot = MARK;
    vm_size_t count = 0;
    if (sink != NULL
        && CALL(vm_sink_next_notice, (sink, room.at, room.count, &slot, &count), ONE(VM_EMPTY) | (room.count < 512 ? ONE(VM_RANGE) : 0)) == VM_OK) {
        NEED(slot < 8 && count <= room.count);
        octets_t value = from(room.at, count);
        tell_links(slot, value);
        free(value.at);
    } else {
        KEEPS_ROOM(room);
    }
    free(room.at);
}

static void run_read_state(void)
{
    vm_sink_t *sink = one();
    octets_t room = room_of(octet() % 4 != 0 ? 512 : octet());
    uint8_t slot = octet() % 10;
    vm_size_t count = 0;
    if (sink != NULL
        && CALL(vm_sink_read_state, (sink, slot, room.at, room.count, &count),
                ONE(VM_NO_SLOT) | ONE(VM_MEMORY) | (room.count < 512 ? ONE(VM_ROOM) : 0)) == VM_OK)
        NEED(count <= room.count);
    free(room.at);
}

static void run_free(void)
{
    vm_sink_free(&sinks[octet() % HANDLES]);
}

void free_sinks(void)
{
    for (unsigned i = 0; i < HANDLES; i++)
        vm_sink_free(&sinks[i]);
}

call_t *const OF_SINKS[] = { run_new, run_pac, run_mtu, run_reserve, run_streams, run_write, run_write, run_train, run_tune, run_tune, run_hear, run_hear, run_hear, run_control,
                             run_lost, run_tick, run_tick, run_next_unit, run_next_notice, run_next_notice, run_read_state, run_free, NULL };
