/* The calls of an assistant on a link that fuzz.c makes. */
#include "tape.h"

static vm_link_t links[HANDLES];

static vm_link_t *one(void)
{
    vm_link_t *link = &links[octet() % HANDLES];
    return link->at != NULL ? link : NULL;
}

static void run_new(void)
{
    vm_link_t *link = &links[octet() % HANDLES];
    vm_link_free(link);
    NEED((CALL(vm_link_new, (link, (uint8_t)(octet() % 10)), ONE(VM_MEMORY)) == VM_OK) == (link->at != NULL));
}

static void run_mtu(void)
{
    vm_link_t *link = one();
    if (link != NULL)
        CALL(vm_link_set_mtu, (link, (uint16_t)wide()), ONE(VM_RANGE));
}

static void run_put(void)
{
    vm_link_t *link = one();
    octets_t write = octets(40);
    if (link != NULL)
        CALL(vm_link_put, (link, write.at, write.count), ONE(VM_MEMORY));
    free(write.at);
}

static void run_operation(void)
{
    vm_link_t *link = one();
    uint32_t streams[3];
    vm_size_t count = octet() % 4;
    octets_t metadata = octet() % 4 != 0 ? room_of(count) : octets(255);
    const unsigned allowed = ONE(VM_MEMORY) | ONE(VM_RANGE) | ONE(VM_TOO_LONG) | ONE(VM_LAYOUT);
    if (metadata.count == count)
        memset(metadata.at, 0, (size_t)count);
    for (vm_size_t i = 0; i < count; i++)
        streams[i] = octet() % 2 != 0 ? 0xffffffff : (uint32_t)wide();
    uint8_t how = octet() % 5, source = octet() % 3, sync = octet() % 4;
    if (link == NULL)
        ;
    else if (how == 0)
        CALL(vm_link_add, (link, IDENTITY.address_type, IDENTITY.address, IDENTITY.sid, IDENTITY.broadcast_id, sync, 0xffff, streams, count, metadata.at,
                           metadata.count), allowed);
    else if (how == 1)
        CALL(vm_link_modify, (link, source, sync, 0xffff, streams, count, metadata.at, metadata.count), allowed);
    else if (how == 2)
        CALL(vm_link_remove, (link, source), allowed);
    else if (how == 3)
        CALL(vm_link_code, (link, source, BASE), allowed);
    else
        CALL(vm_link_scan, (link, source != 0), allowed);
    free(metadata.at);
}

static void run_next_write(void)
{
    vm_link_t *link = one();
    octets_t room = room_of(octet() % 8 != 0 ? 512 : octet());
    vm_size_t count = 0;
    if (link != NULL
        && CALL(vm_link_next_write, (link, room.at, room.count, &count), ONE(VM_EMPTY) | (room.count < 512 ? ONE(VM_ROOM) : 0)) == VM_OK) {
        NEED(count <= room.count);
        octets_t write = bent(room.at, count);
        write_to_sink(write);
        free(write.at);
    } else {
        KEEPS_ROOM(room);
    }
    free(room.at);
}

static void told(vm_link_t *link, uint8_t slot, octets_t value)
{
    air_fault_t fault;
    MARKED(fault);
    if (CALL(vm_link_notice, (link, slot, value.at, value.count, &fault), ONE(VM_NO_SLOT) | ONE(VM_BAD_NOTICE) | ONE(VM_MEMORY)) == VM_BAD_NOTICE)
        NEED(fault.number >= 1 && fault.number <= 3);
    else
        KEEPS(fault);
}

void tell_links(uint8_t slot, octets_t value)
{
    for (unsigned i = 0; i < HANDLES; i++)
        if (links[i].at != NULL)
            told(&links[i], slot, value);
}

static void run_notice(void)
{
    octets_t value = octets(50);
    tell_links(octet() % 10, value);
    free(value.at);
}

static void run_read(void)
{
    vm_link_t *link = one();
    uint8_t slot = MARK;
    octets_t value = octets(50);
    air_fault_t fault;
    if (link != NULL && octet() % 4 == 0)
        vm_link_ask_all(link);
    if (link != NULL && CALL(vm_link_next_read, (link, &slot), ONE(VM_EMPTY)) == VM_OK)
        CALL(vm_link_answer_read, (link, slot, value.at, value.count, &fault), ONE(VM_BAD_NOTICE) | ONE(VM_MEMORY));
    free(value.at);
}

static void run_view(void)
{
    vm_link_t *link = one();
    octets_t room = room_of(octet() % 4 != 0 ? 512 : octet());
    vm_size_t count = 0;
    if (link != NULL
        && CALL(vm_link_view, (link, (uint8_t)(octet() % 10), room.at, room.count, &count),
                ONE(VM_NO_SLOT) | ONE(VM_MEMORY) | (room.count < 512 ? ONE(VM_ROOM) : 0)) == VM_OK)
        NEED(count <= room.count);
    free(room.at);
}

void free_links(void)
{
    for (unsigned i = 0; i < HANDLES; i++)
        vm_link_free(&links[i]);
}

call_t *const OF_LINKS[] = { run_new, run_mtu, run_put, run_operation, run_operation, run_next_write, run_next_write, run_notice, run_read, run_view, NULL };
