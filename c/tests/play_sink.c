/* The calls of a sink that play.c makes. */
#include "play.h"

static const char *const TRAIN[] = { "NoBroadcastId", "NotWanted", "OtherTrain", "AlreadyOnGroup", "NoBase", "BadBase", "NoBigInfo",
                                     "BadBigInfo", "BadGroup", "NoneTaken", "OnGroup" };
static const char *const HEARD[] = { "Malformed", "WrongKind", "Late", "Beyond", "Repeat", "Kept", "NotOnGroup", "NotTaken", "NoNumber" };
static const char *const CONTROL[] = { "NotOnGroup", "Malformed", "NotControl", "UnknownOpcode", "ControlLength", "MapIgnored", "Left" };

static void run_sink(char **w)
{
    own_sink_t *own = sink_of(w[1]);
    memset(own, 0, sizeof *own);
    own->slots = small(w[3]);
    own->mtu = (uint16_t)number(w[4]);
    NEED(vm_sink_new(&own->sink, small(w[2]), own->slots));
    if (own->mtu != 0)
        NEED(vm_sink_set_mtu(&own->sink, own->mtu));
    join(own, 0);
}

static void run_pac(char **w)
{
    octets_t codec = octets(w[2]), caps = octets(w[3]), metadata = octets(w[4]);
    NEED(vm_sink_add_pac(&sink_of(w[1])->sink, codec.at, codec.count, caps.at, caps.count, metadata.at, metadata.count));
    free(codec.at);
    free(caps.at);
    free(metadata.at);
}

static void run_locate(char **w)
{
    vm_sink_set_locations(&sink_of(w[1])->sink, little(w[2]));
}

static void run_context(char **w)
{
    vm_sink_set_contexts(&sink_of(w[1])->sink, (uint16_t)little(w[2]));
}

/* The streams that the sink is on, as it says itself. */
static void is_on(own_sink_t *own, uint32_t streams)
{
    uint32_t said = 0;
    vm_sink_streams(&own->sink, &said);
    if (said != streams)
        fail("vm_sink_streams", said);
}

static void run_train(char **w)
{
    own_sink_t *own = sink_of(w[1]);
    octets_t ext = octets(w[5]), adv = octets(w[6]), acad = octets(w[7]);
    vm_train_heard_t heard = { 0, 0, 0 };
    NEED(vm_sink_train(&own->sink, small(w[2]), small(w[3]), ext.at, ext.count, adv.at, adv.count, acad.at, acad.count, number(w[4]), &heard));
    gather(own);
    if (heard.answer == VM_TRAIN_ON_GROUP) {
        is_on(own, heard.streams);
        begin_by_train(own, heard.streams, adv, acad, number(w[4]));
    }
    printf("sink %s %s", w[1], TRAIN[heard.answer]);
    if (heard.answer == VM_TRAIN_BAD_GROUP)
        printf(" %u", heard.fault);
    for (unsigned bis = 1; bis <= STREAMS; bis++)
        if ((heard.streams >> (bis - 1) & 1) != 0)
            printf(" %u", bis);
    puts("");
    free(ext.at);
    free(adv.at);
    free(acad.at);
}

static void run_tune(char **w)
{
    own_sink_t *own = sink_of(w[1]);
    own_source_t *from = source_of(w[2]);
    uint64_t event = 0, anchor = 0;
    uint8_t row = 0;
    vm_source_next(&from->source, &event, &anchor);
    NEED(vm_sink_tune(&own->sink, &from->info, (uint32_t)number(w[3]), event, anchor, (uint32_t)number(w[4]), &row));
    is_on(own, (uint32_t)number(w[3]));
    begin_streams(own, &from->info, (uint32_t)number(w[3]), event, anchor, (uint32_t)number(w[4]));
    gather(own);
}

/* A PDU is heard: what would_hear says before is what hear answers. */
static vm_heard_t heard_by(own_sink_t *own, uint64_t event, uint8_t bis, uint8_t subevent, octets_t pdu)
{
    vm_heard_t would = { 0, 0 }, heard = { 0, 0 };
    NEED(vm_sink_would_hear(&own->sink, event, bis, subevent, pdu.at, pdu.count, &would));
    NEED(vm_sink_hear(&own->sink, event, bis, subevent, pdu.at, pdu.count, &heard));
    if (would.answer != heard.answer || would.fault != heard.fault)
        fail("vm_sink_would_hear", would.answer);
    hear_alone(own, event, bis, subevent, pdu, heard);
    return heard;
}

static void run_hear(char **w)
{
    vm_source_t *source = &source_of(w[2])->source;
    octets_t room = room_of(PDU);
    uint64_t event = 0, anchor = 0, payload = 0;
    vm_size_t count = 0;
    vm_source_next(source, &event, &anchor);
    NEED(vm_source_pdu(source, small(w[3]), small(w[4]), small(w[5]), room.at, room.count, &count, &payload));
    octets_t pdu = copied(room.at, count);
    heard_by(sink_of(w[1]), event - 1 - number(w[3]), small(w[4]), small(w[5]), pdu);
    free(pdu.at);
    free(room.at);
}

static void run_inject(char **w)
{
    octets_t pdu = octets(w[5]);
    vm_heard_t heard = heard_by(sink_of(w[1]), number(w[2]), small(w[3]), small(w[4]), pdu);
    printf("heard %s %s", w[1], HEARD[heard.answer]);
    if (heard.answer == 0)
        printf(" %u", heard.fault);
    puts("");
    free(pdu.at);
}

static void run_control(char **w)
{
    own_sink_t *own = sink_of(w[1]);
    octets_t pdu = octets(w[2]);
    vm_heard_t heard = { 0, 0 };
    NEED(vm_sink_control(&own->sink, pdu.at, pdu.count, &heard));
    gather(own);
    printf("sink %s %s", w[1], CONTROL[heard.answer]);
    if (heard.answer == 1)
        printf(" %u", heard.fault);
    puts("");
    free(pdu.at);
}

static void run_lose(char **w)
{
    own_sink_t *own = sink_of(w[1]);
    NEED(vm_sink_lost(&own->sink));
    is_on(own, 0);
    gather(own);
    printf("sink %s Idle\n", w[1]);
}

/* What a relay hands on to source 1, behind the units of its sink. */
static void hand_on(const char *name, own_sink_t *own, const uint8_t *unit, const vm_unit_t *it)
{
    own_source_t *to = source_of("1");
    vm_status_t status = to->is_stopped ? VM_NOT_ON_AIR
                                        : TRIED(vm_source_give(&to->source, own->to, true, it->time, unit, it->count));
    if (status == VM_OK)
        return;
    const char *why = status == VM_NOT_ON_AIR ? "NotStreaming" : status == VM_TOO_LONG ? "UnitTooLong" : status == VM_TIME_ORDER ? "TimeOrder" : "Backlog";
    printf("relay %s %u dropped %s\n", name, own->from, why);
}

/* The units that wait. */
static handed_t *units_of(own_sink_t *own)
{
    handed_t *first = NULL, **end = &first;
    octets_t room = room_of(UNIT);
    vm_unit_t unit = { 0, 0, 0, false };
    while (vm_sink_next_unit(&own->sink, room.at, room.count, &unit) == VM_OK) {
        *end = calloc(1, sizeof **end);
        if (*end == NULL)
            fail("calloc", 0);
        (*end)->unit = unit;
        (*end)->octets = copied(room.at, unit.count);
        end = &(*end)->next;
    }
    free(room.at);
    return first;
}

static void tell_unit(const char *name, own_sink_t *own, const handed_t *it)
{
    printf("unit %s %u at %" PRIu64 " ", name, it->unit.bis, it->unit.time);
    if (!it->unit.is_valid) {
        puts("lost");
        return;
    }
    printf("valid %" PRIu64 " ", it->unit.count);
    show(it->octets.at, it->unit.count);
    own->units++;
    own->octets += it->unit.count;
}

static void run_tick(char **w)
{
    own_sink_t *own = sink_of(w[1]);
    vm_status_t status = vm_sink_tick(&own->sink, number(w[2]));
    if (status == VM_MEMORY)
        puts("the tick found no memory");
    else if (status != VM_OK)
        fail("vm_sink_tick", status);
    handed_t *first = units_of(own);
    close_alone(own, number(w[2]), first, status == VM_MEMORY);
    for (const handed_t *it = first; it != NULL; it = it->next)
        tell_unit(w[1], own, it);
    while (first != NULL) {
        handed_t *it = first;
        first = it->next;
        if (it->unit.is_valid && it->unit.bis == own->from)
            hand_on(w[1], own, it->octets.at, &it->unit);
        free(it->octets.at);
        free(it);
    }
}

static void run_relay(char **w)
{
    own_sink_t *own = sink_of(w[1]);
    own->from = small(w[2]);
    own->to = small(w[3]);
}

static void run_drop(char **w)
{
    own_sink_t *own = sink_of(w[1]);
    printf("sum %s %" PRIu64 " %" PRIu64 "\n", w[1], own->units, own->octets);
    for (unsigned link = 0; link < LINKS; link++)
        part(&own->places[link]);
    end_streams(own);
    vm_sink_free(&own->sink);
    memset(own, 0, sizeof *own);
}

const named_t OF_SINKS[] = {
    { "sink", run_sink },
    { "pac", run_pac },
    { "locate", run_locate },
    { "context", run_context },
    { "train", run_train },
    { "tune", run_tune },
    { "hear", run_hear },
    { "inject", run_inject },
    { "control", run_control },
    { "lose", run_lose },
    { "tick", run_tick },
    { "relay", run_relay },
    { "drop", run_drop },
    { NULL, NULL },
};
