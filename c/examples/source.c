/* A Broadcast Source: two streams of 48_2, front left and front right. */
#include "stereo.h"

static vm_source_t source = VM_NONE;

/* A group of two streams: an event each 10 ms, a frame a stream, three copies of each. */
static const air_big_info_t INFO = {
    .iso_interval = 8, .num_bis = STREAMS, .nse = SUBEVENTS, .bn = 1, .irc = 3, .pto = 0, .sub_interval = 600, .bis_spacing = 1800,
    .sdu_interval = 10000, .max_sdu = FRAME, .max_pdu = FRAME, .phy = 1, .framing = 0
};

/* What it announces of its streams: 40 ms to presentation; LC3 at 48 kHz, 10 ms, 100 octets; media; a location a stream. */
static const uint8_t BASE[] = {
    0x40, 0x9c, 0, 1, /* subgroups */
    2, 6, 0, 0, 0, 0, 10, 2, 1, 8, 2, 2, 1, 3, 4, FRAME, 0, 4, 3, 2, 4, 0, /* streams, codec, configuration, metadata */
    1, 6, 5, 3, 1, 0, 0, 0,
    2, 6, 5, 3, 2, 0, 0, 0
};

bool source_begin(vm_identity_t *identity)
{
    const vm_identity_t own = { 0, { 0x66, 0x55, 0x44, 0x33, 0x22, 0x11 }, 3, { 0x56, 0x34, 0x12 } };
    air_fault_t fault = { 0, 0 };
    *identity = own;
    return vm_source_new(&source, &own, &INFO, BASE, sizeof BASE, 20000, 0, false, &fault) == VM_OK;
}

/* A frame that the encoder made. */
bool source_gives(uint8_t bis, const uint8_t *frame)
{
    return vm_source_give(&source, bis, false, 0, frame, FRAME) == VM_OK;
}

/* What the advertiser sends for the next event. */
bool source_announces(void)
{
    uint8_t octets[512];
    vm_train_t train = { 0, 0, 0, 0 };
    if (vm_source_announce(&source, octets, sizeof octets, &train) != VM_OK)
        return false;
    host_announces(octets, &train);
    return true;
}

/* The next event is on the air. */
bool source_sends(void)
{
    uint64_t event = 0, anchor = 0;
    vm_source_next(&source, &event, &anchor);
    if (vm_source_event(&source) != VM_OK)
        return false;
    for (uint8_t bis = 1; bis <= STREAMS; bis++)
        for (uint8_t subevent = 0; subevent < SUBEVENTS; subevent++) {
            uint8_t pdu[2 + FRAME];
            vm_size_t count = 0;
            uint64_t number = 0;
            if (vm_source_pdu(&source, 0, bis, subevent, pdu, sizeof pdu, &count, &number) != VM_OK)
                return false;
            host_sends(event, bis, subevent, pdu, count);
        }
    return true;
}

void source_end(void)
{
    vm_source_free(&source);
}
