/* Sends a broadcast of 48_2 to standard output, and tells what memory the source took, as measure_sink.c does. Its words are `unframed`,
 * `framed` or `ahead` (each frame in the events 15 and 30 before its own too), the number of streams, and that of events. */
#include "measure.h"

static const air_big_info_t UNFRAMED = { .iso_interval = 8, .nse = SUBEVENTS, .bn = 1, .irc = 3, .sub_interval = 600, .bis_spacing = 1800,
                                         .sdu_interval = 10000, .max_sdu = FRAME, .max_pdu = FRAME, .phy = 1 };
static vm_source_t source = VM_NONE;
static uint8_t streams;
static unsigned trains, pdus, units;

static void put(record_t record, const uint8_t *octets)
{
    size_t count = record.counts[0] + record.counts[1] + record.counts[2];
    record.streams = streams;
    if (fwrite(&record, sizeof record, 1, stdout) != 1 || fwrite(octets, 1, count, stdout) != count)
        exit(1);
}

static air_big_info_t group(const char *kind)
{
    air_big_info_t it = UNFRAMED;
    it.num_bis = streams;
    if (strcmp(kind, "framed") == 0) {
        it.framing = 1;
        it.max_pdu = FRAME + 10;
        it.sub_interval = 700;
        it.bis_spacing = 2100;
    } else if (strcmp(kind, "ahead") == 0) {
        it.irc = 1;
        it.pto = 15;
    }
    return it;
}

static void begin(const air_big_info_t *info)
{
    const vm_identity_t identity = { 0, { 1, 2, 3, 4, 5, 6 }, 3, { 7, 8, 9 } };
    uint8_t base[100] = { 0x40, 0x9c, 0, 1, streams, 6, 0, 0, 0, 0, 10, 2, 1, 8, 2, 2, 1, 3, 4, FRAME, 0, 4, 3, 2, 4, 0 }, room[512];
    vm_train_t train = { 0, 0, 0, 0 };
    air_fault_t fault = { 0, 0 };
    vm_size_t end = 26;
    for (uint8_t bis = 1; bis <= streams; bis++, end += 2)
        base[end] = bis;
    need("vm_source_new", vm_source_new(&source, &identity, info, base, end, 20000, 0, false, &fault));
    need("vm_source_announce", vm_source_announce(&source, room, sizeof room, &train));
    record_t record = { train.time, { (uint32_t)train.ext, (uint32_t)train.adv, (uint32_t)train.acad }, TRAIN, 0, 0, 0 };
    put(record, room);
    trains++;
    tell("begun");
}

static void send(bool is_framed, uint64_t event)
{
    uint8_t frame[FRAME], pdu[253];
    memset(frame, (int)event, sizeof frame);
    for (uint8_t bis = 1; bis <= streams; bis++, units++)
        need("vm_source_give", vm_source_give(&source, bis, is_framed, 20000 + event * 10000 - (event != 0) * 10, frame, FRAME));
    need("vm_source_event", vm_source_event(&source));
    for (uint8_t bis = 1; bis <= streams; bis++)
        for (uint8_t subevent = 0; subevent < SUBEVENTS; subevent++, pdus++) {
            vm_size_t count = 0;
            uint64_t number = 0;
            need("vm_source_pdu", vm_source_pdu(&source, 0, bis, subevent, pdu, sizeof pdu, &count, &number));
            record_t record = { event, { (uint32_t)count, 0, 0 }, PDU, bis, subevent, 0 };
            put(record, pdu);
        }
    record_t over = { event, { 0, 0, 0 }, OVER, 0, 0, 0 };
    put(over, pdu);
}

int main(int count, char **words)
{
    if (count != 4)
        return 2;
    streams = (uint8_t)atoi(words[2]);
    air_big_info_t info = group(words[1]);
    begin(&info);
    for (uint64_t event = 0; event < (uint64_t)atoi(words[3]); event++)
        send(info.framing == 1, event);
    tell("end");
    fprintf(stderr, "made %u %u %u\n", trains, pdus, units);
    vm_source_free(&source);
    return 0;
}
