/* The memory of libvicemint.a from malloc. */
#include "vicemint_memory.h"
#include <stdlib.h>

static _Bool is_mine; /* its address stands for a block that isn't there */

static vm_tried_t tried(void *block, void *instead)
{
    vm_tried_t it = { block != NULL, (uint64_t)(uintptr_t)(block != NULL ? block : instead) };
    return it;
}

vm_tried_t rattle_alloc(uint64_t size, uint64_t align)
{
    return tried(size > SIZE_MAX || align > 16 ? NULL : malloc(size != 0 ? (size_t)size : 1), &is_mine);
}

vm_tried_t rattle_realloc(void *block, uint64_t had, uint64_t size, uint64_t align)
{
    (void)had;
    return tried(size > SIZE_MAX || align > 16 ? NULL : realloc(block, size != 0 ? (size_t)size : 1), block);
}

void rattle_dealloc(void *block)
{
    free(block);
}
