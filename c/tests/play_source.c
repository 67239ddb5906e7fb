/* The calls of a source that play.c makes. */
#include "play.h"

static void run_source(char **w)
{
    own_source_t *own = source_of(w[1]);
    octets_t address = octets(w[3]), id = octets(w[5]), info = octets(w[6]), base = octets(w[7]);
    vm_identity_t identity = { small(w[2]), { 0 }, small(w[4]), { 0 } };
    air_fault_t fault = { 0, 0 };
    memcpy(identity.address, address.at, sizeof identity.address);
    memcpy(identity.broadcast_id, id.at, sizeof identity.broadcast_id);
    NEED(air_big_info_read(info.at, info.count, &own->info));
    NEED(vm_source_new(&own->source, &identity, &own->info, base.at, base.count, number(w[8]), number(w[9]), true, &fault));
    free(address.at);
    free(id.at);
    free(info.at);
    free(base.at);
}

static void run_unit(char **w)
{
    octets_t unit = octets(w[4]);
    bool has_time = strcmp(w[3], "-") != 0;
    NEED(vm_source_give(&source_of(w[1])->source, small(w[2]), has_time, has_time ? number(w[3]) : 0, unit.at, unit.count));
    free(unit.at);
}

static void run_event(char **w)
{
    vm_source_t *source = &source_of(w[1])->source;
    uint8_t bis = 0;
    uint64_t time = 0;
    vm_status_t status = vm_source_event(source);
    if (status == VM_MEMORY && vm_source_event(source) == VM_MEMORY) {
        puts("the source has failed");
        exit(0);
    }
    if (status != VM_OK)
        fail("vm_source_event", status);
    while (vm_source_next_stale(source, &bis, &time) == VM_OK)
        printf("stale %u %" PRIu64 "\n", bis, time);
}

static void run_sniff(char **w)
{
    vm_source_t *source = &source_of(w[1])->source;
    octets_t room = room_of(PDU);
    uint64_t event = 0, anchor = 0, payload = 0;
    vm_size_t count = 0;
    vm_source_next(source, &event, &anchor);
    NEED(vm_source_pdu(source, small(w[2]), small(w[3]), small(w[4]), room.at, room.count, &count, &payload));
    printf("pdu %" PRIu64 " %s %s ", event - 1 - number(w[2]), w[3], w[4]);
    show(room.at, count);
    free(room.at);
}

static void run_announce(char **w)
{
    octets_t room = room_of(VALUE);
    vm_train_t it = { 0, 0, 0, 0 };
    NEED(vm_source_announce(&source_of(w[1])->source, room.at, room.count, &it));
    printf("train %s %" PRIu64 " ", w[2], it.time);
    for (vm_size_t i = 0; i < it.ext; i++)
        printf("%02x", room.at[i]);
    printf(it.ext != 0 ? " " : "- ");
    for (vm_size_t i = 0; i < it.adv; i++)
        printf("%02x", room.at[it.ext + i]);
    printf(it.adv != 0 ? " " : "- ");
    show(room.at + it.ext + it.adv, it.acad);
    free(room.at);
}

static void run_terminate(char **w)
{
    octets_t pdu = room_of(6);
    vm_source_terminate(&source_of(w[1])->source, small(w[2]), pdu.at);
    printf("control ");
    show(pdu.at, pdu.count);
    free(pdu.at);
}

static void run_stop(char **w)
{
    source_of(w[1])->is_stopped = true; /* what it sent can be heard still */
}

const named_t OF_SOURCES[] = {
    { "source", run_source },
    { "unit", run_unit },
    { "event", run_event },
    { "sniff", run_sniff },
    { "announce", run_announce },
    { "terminate", run_terminate },
    { "stop", run_stop },
    { NULL, NULL },
};
