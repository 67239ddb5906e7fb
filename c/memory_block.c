/* The memory of libvicemint.a from one static block of VM_BLOCK octets: no heap and no system call. It is for one thread, or for calls
 * that the product orders.
 *
 * What suffices for a sink with 2 receive states that is on a group of 48_2, with the headers of 16 octets a part, on x86-64. Each stream has
 * frames of 100 octets each 10 ms, and each frame is sent three times; `ahead` it is sent in the events 15 and 30 before its own too.
 *
 *     streams   unframed   framed    ahead
 *           1      2,080    2,480    5,200
 *           2      2,592    3,184    8,736
 *
 * What suffices for a source of such a group, which keeps the PDUs of its last 32 events:
 *
 *     streams   unframed   framed    ahead
 *           1     11,216   11,248   20,336
 *           2     20,528   20,592   38,768
 *
 * bench/c_sizes.py measures both. An assistant comes on top: vm_block_most tells what a product needed.
 *
 * A part is a header and its octets. The first part that is free and large enough is taken, and what it has too much is a part again. */
#include "vicemint_memory.h"
#include <string.h>

#ifndef VM_BLOCK
#define VM_BLOCK 8192
#endif

enum { UNIT = 16 }; /* parts begin at multiples of this */

typedef struct { uint64_t size; uint64_t is_free; } part_t;

static union { part_t first; uint8_t octets[VM_BLOCK / UNIT * UNIT]; long double aligned; } block __attribute__((aligned(UNIT)));
static const uint8_t *const END = block.octets + sizeof block.octets;
static uint64_t most;

static part_t *next(part_t *part)
{
    return (part_t *)(void *)((uint8_t *)part + sizeof *part + part->size);
}

static part_t *part_of(void *octets)
{
    return (part_t *)(void *)((uint8_t *)octets - sizeof(part_t));
}

/* Joins a free part with the free ones behind it. */
static void join(part_t *part)
{
    for (part_t *behind = next(part); (uint8_t *)behind < END && behind->is_free; behind = next(part))
        part->size += sizeof *behind + behind->size;
}

/* Takes so many octets of a free part, and leaves the rest as a part, where there is room for one. */
static vm_tried_t take(part_t *part, uint64_t size)
{
    if (part->size >= size + sizeof *part + UNIT) {
        uint64_t left = part->size - size - sizeof *part;
        part->size = size;
        next(part)->size = left;
        next(part)->is_free = 1;
    }
    part->is_free = 0;
    uint64_t used = (uint64_t)((uint8_t *)next(part) - block.octets);
    most = used > most ? used : most;
    vm_tried_t it = { 1, (uint64_t)(uintptr_t)(part + 1) };
    return it;
}

vm_tried_t rattle_alloc(uint64_t size, uint64_t align)
{
    vm_tried_t none = { 0, (uint64_t)(uintptr_t)&block };
    if (most == 0) {
        block.first.size = sizeof block.octets - sizeof block.first;
        block.first.is_free = 1;
    }
    if (size > sizeof block.octets || align > UNIT)
        return none;
    size = size == 0 ? UNIT : (size + UNIT - 1) / UNIT * UNIT;
    for (part_t *part = &block.first; (uint8_t *)part < END; part = next(part)) {
        if (!part->is_free)
            continue;
        join(part);
        if (part->size >= size)
            return take(part, size);
    }
    return none;
}

void rattle_dealloc(void *octets)
{
    part_of(octets)->is_free = 1;
}

vm_tried_t rattle_realloc(void *octets, uint64_t had, uint64_t size, uint64_t align)
{
    if (size <= part_of(octets)->size) {
        vm_tried_t same = { 1, (uint64_t)(uintptr_t)octets };
        return same;
    }
    vm_tried_t it = rattle_alloc(size, align);
    if (!it.is_there) {
        it.at = (uint64_t)(uintptr_t)octets;
        return it;
    }
    memcpy((void *)(uintptr_t)it.at, octets, (size_t)(had < size ? had : size));
    rattle_dealloc(octets);
    return it;
}

uint64_t vm_block_most(void)
{
    return most;
}
