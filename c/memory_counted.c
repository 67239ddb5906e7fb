/* The memory of libvicemint.a from malloc, counted, for tests. A call for memory can be made to fail. */
#include "vicemint_memory.h"
#include <stdlib.h>

typedef union { uint64_t size; long double aligned; uint8_t octets[16]; } head_t;

static vm_counts_t counts;
static uint64_t fails_in;

vm_counts_t vm_counts(void)
{
    return counts;
}

void vm_counted_fail_at(uint64_t number)
{
    fails_in = number;
    counts.has_failed = false;
}

/* Counts a call, and tells whether it has to fail. */
static bool fails(uint64_t align)
{
    counts.calls++;
    if (fails_in == 0 || --fails_in != 0)
        return align > sizeof(head_t);
    counts.has_failed = true;
    return true;
}

static vm_tried_t counted(head_t *head, uint64_t size)
{
    head->size = size;
    counts.live += size;
    counts.blocks++;
    counts.most = counts.live > counts.most ? counts.live : counts.most;
    counts.most_blocks = counts.blocks > counts.most_blocks ? counts.blocks : counts.most_blocks;
    vm_tried_t it = { 1, (uint64_t)(uintptr_t)(head + 1) };
    return it;
}

static head_t *uncounted(void *block)
{
    head_t *head = (head_t *)block - 1;
    counts.live -= head->size;
    counts.blocks--;
    return head;
}

vm_tried_t rattle_alloc(uint64_t size, uint64_t align)
{
    vm_tried_t none = { 0, (uint64_t)(uintptr_t)&counts };
    if (fails(align) || size > SIZE_MAX - sizeof(head_t))
        return none;
    head_t *head = malloc(sizeof *head + (size_t)size);
    return head != NULL ? counted(head, size) : none;
}

vm_tried_t rattle_realloc(void *block, uint64_t had, uint64_t size, uint64_t align)
{
    (void)had;
    vm_tried_t none = { 0, (uint64_t)(uintptr_t)block };
    if (fails(align) || size > SIZE_MAX - sizeof(head_t))
        return none;
    head_t *old = uncounted(block);
    uint64_t was = old->size;
    head_t *head = realloc(old, sizeof *head + (size_t)size);
    if (head != NULL)
        return counted(head, size);
    counted(old, was);
    return none;
}

void rattle_dealloc(void *block)
{
    free(uncounted(block));
}
