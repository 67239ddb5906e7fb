/* A player of a stereo broadcast: a Broadcast Sink that an assistant puts on a source. */
#include "stereo.h"

static vm_sink_t sink = VM_NONE;

/* What this device can take: LC3 at 48 kHz, frames of 10 ms with 100 octets. */
static bool says_what_it_takes(void)
{
    const uint8_t lc3[5] = { 6, 0, 0, 0, 0 };
    const uint8_t caps[] = { 3, 1, 0x80, 0, 2, 2, 2, 5, 4, FRAME, 0, FRAME, 0 };
    vm_sink_set_locations(&sink, 3); /* front left and front right */
    vm_sink_set_contexts(&sink, 4);  /* media */
    return vm_sink_add_pac(&sink, lc3, sizeof lc3, caps, sizeof caps, caps, 0) == VM_OK;
}

/* Hands on what the sink has to tell: after each call that may change a slot. */
static void notify(void)
{
    uint8_t value[512], slot = 0;
    vm_size_t count = 0;
    while (vm_sink_next_notice(&sink, value, sizeof value, &slot, &count) == VM_OK)
        host_notifies(slot, value, count);
}

bool player_begin(void)
{
    /* room for what one event brings, so that a tick takes no memory */
    return vm_sink_new(&sink, STREAMS, SLOTS) == VM_OK && vm_sink_reserve(&sink, STREAMS, FRAME) == VM_OK && says_what_it_takes();
}

/* The host calls this when a client writes to the Broadcast Audio Scan Control Point. */
void player_written(const uint8_t *octets, vm_size_t count)
{
    vm_reply_t reply = { 0, 0 };
    if (vm_sink_write(&sink, octets, count, &reply) != VM_OK)
        reply.code = 0x11; /* insufficient resources */
    host_replies(reply.code);
    notify();
}

/* The host calls this for each train of a broadcast that its scanner hears. */
void player_hears_train(const uint8_t *octets, const vm_train_t *train)
{
    vm_train_heard_t heard = { 0, 0, 0 };
    const uint8_t *adv = octets + train->ext, *acad = adv + train->adv;
    if (vm_sink_train(&sink, 0, 3, octets, train->ext, adv, train->adv, acad, train->acad, train->time, &heard) == VM_OK
        && heard.answer == VM_TRAIN_ON_GROUP)
        host_receives(heard.streams);
    notify();
}

/* The host calls this for each PDU that its radio received. */
void player_hears(uint64_t event, uint8_t bis, uint8_t subevent, const uint8_t *pdu, vm_size_t count)
{
    vm_heard_t heard = { 0, 0 };
    vm_sink_hear(&sink, event, bis, subevent, pdu, count, &heard); /* what it brought is of interest for statistics alone */
}

/* The host calls this when an event of the group is over. A lost unit has no octets: a decoder conceals it. */
void player_event_is_over(uint64_t event)
{
    uint8_t octets[FRAME];
    vm_unit_t unit = { 0, 0, 0, false };
    vm_sink_tick(&sink, event);
    while (vm_sink_next_unit(&sink, octets, sizeof octets, &unit) == VM_OK)
        host_plays(&unit, octets);
}

/* The host calls this when a client reads a Broadcast Receive State. */
vm_size_t player_state(uint8_t slot, uint8_t *room)
{
    vm_size_t count = 0;
    return vm_sink_read_state(&sink, slot, room, 512, &count) == VM_OK ? count : 0;
}

void player_end(void)
{
    vm_sink_free(&sink);
}
