/* vicemint_memory.h: what libvicemint.a calls for memory. One back end defines these three calls: memory_malloc.c, memory_block.c or
 * memory_counted.c, or a file of the product's own. Their names are those that Rattle's compiler calls.
 *
 * The library calls them from the thread that made the call on a handle. Where several threads have handles, the back end has to be safe
 * for that: malloc is, memory_block.c is where the product orders the calls. */
#ifndef VICEMINT_MEMORY_H
#define VICEMINT_MEMORY_H
#include <stdbool.h>
#include <stdint.h>
#ifdef __cplusplus
extern "C" {
#endif

/* Whether there was memory, 1 or 0, and the address of the block, which is never 0. */
typedef struct { uint64_t is_there, at; } vm_tried_t;

/* A new block of so many octets, which may be 0. The alignment is a power of 2, and at most 16. */
vm_tried_t rattle_alloc(uint64_t size, uint64_t align);
/* The block, which had `had` octets, has `size` from now on, and may move. Where there is no memory it stays as it was. */
vm_tried_t rattle_realloc(void *block, uint64_t had, uint64_t size, uint64_t align);
void rattle_dealloc(void *block);

/* ---- of memory_block.c alone */

/* How many octets of the block were ever in use, from its start: a VM_BLOCK of so many serves the same calls. */
uint64_t vm_block_most(void);

/* ---- of memory_counted.c alone */

typedef struct { uint64_t calls, live, most, blocks, most_blocks; bool has_failed; } vm_counts_t;
/* What was asked for since the program began: calls for memory, octets in use now and at most, and blocks now and at most. */
vm_counts_t vm_counts(void);
/* The call for memory of this number from now on, from 1, finds none; 0 is none of them. */
void vm_counted_fail_at(uint64_t number);

#ifdef __cplusplus
}
#endif
#endif
