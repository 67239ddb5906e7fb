/* A Broadcast Assistant on a link to the player. */
#include "stereo.h"

static vm_link_t to_player = VM_NONE;

static void write_all(void)
{
    uint8_t write[512];
    vm_size_t count = 0;
    while (vm_link_next_write(&to_player, write, sizeof write, &count) == VM_OK)
        host_writes(write, count);
}

/* Where a notice is no receive state, or was cut, a read of its slot waits. */
static void read_all(void)
{
    uint8_t slot = 0, value[512];
    while (vm_link_next_read(&to_player, &slot) == VM_OK) {
        air_fault_t fault = { 0, 0 };
        vm_size_t count = host_reads(slot, value);
        vm_link_answer_read(&to_player, slot, value, count, &fault);
    }
}

bool assistant_begin(void)
{
    if (vm_link_new(&to_player, SLOTS) != VM_OK)
        return false;
    vm_link_ask_all(&to_player); /* what the sink has, before anything was told */
    read_all();
    return true;
}

/* Asks the player to follow the source, and to take all of its streams. */
void assistant_asks_for(const vm_identity_t *source)
{
    const uint32_t all = 0xffffffff; /* no preference */
    const uint8_t no_metadata = 0;
    if (vm_link_add(&to_player, source->address_type, source->address, source->sid, source->broadcast_id, 2, 0xffff, &all, 1, &no_metadata, 1)
        == VM_OK)
        write_all();
}

/* The host calls this for each notification of a Broadcast Receive State. */
void assistant_told(uint8_t slot, const uint8_t *value, vm_size_t count)
{
    air_fault_t fault = { 0, 0 };
    if (vm_link_notice(&to_player, slot, value, count, &fault) == VM_BAD_NOTICE)
        read_all();
}

vm_size_t assistant_view(uint8_t slot, uint8_t *room)
{
    vm_size_t count = 0;
    return vm_link_view(&to_player, slot, room, 512, &count) == VM_OK ? count : 0;
}

void assistant_end(void)
{
    vm_link_free(&to_player);
}
