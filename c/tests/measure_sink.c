/* Hears what measure_source.c sent, from standard input, and tells what memory the sink took. It is linked with memory_counted.c, or with
 * memory_block.c and OF_BLOCK. At the end it tells how many trains, PDUs and units there were. */
#include "measure.h"

static vm_sink_t sink = VM_NONE;

/* A sink of so many streams that an assistant asked to follow the source. */
static void begin(uint8_t streams)
{
    const uint8_t lc3[5] = { 6, 0, 0, 0, 0 }, caps[] = { 3, 1, 0x80, 0, 2, 2, 2, 5, 4, FRAME, 0, FRAME, 0 };
    const uint8_t add[] = { 2, 0, 1, 2, 3, 4, 5, 6, 3, 7, 8, 9, 2, 0xff, 0xff, 1, 0xff, 0xff, 0xff, 0xff, 0 };
    vm_reply_t reply = { 0, 0 };
    need("vm_sink_new", vm_sink_new(&sink, streams, 2));
    need("vm_sink_add_pac", vm_sink_add_pac(&sink, lc3, sizeof lc3, caps, sizeof caps, caps, 0));
    vm_sink_set_contexts(&sink, 4);
    need("vm_sink_write", vm_sink_write(&sink, add, sizeof add, &reply));
}

static void tell_all(void)
{
    uint8_t room[512], slot = 0;
    vm_size_t count = 0;
    while (vm_sink_next_notice(&sink, room, sizeof room, &slot, &count) == VM_OK) { }
}

static void hear_train(const record_t *it, const uint8_t *octets)
{
    vm_train_heard_t heard = { 0, 0, 0 };
    const uint8_t *adv = octets + it->counts[0], *acad = adv + it->counts[1];
    begin(it->streams);
    need("vm_sink_train", vm_sink_train(&sink, 0, 3, octets, it->counts[0], adv, it->counts[1], acad, it->counts[2], it->at, &heard));
    need("the train", heard.answer == VM_TRAIN_ON_GROUP ? VM_OK : heard.answer);
    tell_all();
    tell("begun");
}

static unsigned close(uint64_t event)
{
    uint8_t octets[FRAME];
    vm_unit_t unit = { 0, 0, 0, false };
    unsigned units = 0;
    need("vm_sink_tick", vm_sink_tick(&sink, event));
    while (vm_sink_next_unit(&sink, octets, sizeof octets, &unit) == VM_OK)
        units += unit.is_valid;
    return units;
}

int main(void)
{
    static uint8_t octets[4096];
    record_t it;
    unsigned pdus = 0, units = 0, trains = 0;
    while (fread(&it, sizeof it, 1, stdin) == 1) {
        size_t count = it.counts[0] + it.counts[1] + it.counts[2];
        if (count > sizeof octets || fread(octets, 1, count, stdin) != count)
            return 1;
        vm_heard_t heard = { 0, 0 };
        if (it.kind == TRAIN) {
            hear_train(&it, octets);
            trains++;
        } else if (it.kind == PDU) {
            need("vm_sink_hear", vm_sink_hear(&sink, it.at, it.bis, it.subevent, octets, count, &heard));
            pdus++;
        } else {
            units += close(it.at);
        }
    }
    tell("end");
    fprintf(stderr, "made %u %u %u\n", trains, pdus, units);
    vm_sink_free(&sink);
    return 0;
}
