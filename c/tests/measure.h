/* What measure_source.c writes and measure_sink.c reads: records, each with its octets behind it. */
#ifndef MEASURE_H
#define MEASURE_H
#include "vicemint.h"
#include "vicemint_memory.h"
#include <stdio.h>
#include <stdlib.h>
#include <string.h>

enum { FRAME = 100, SUBEVENTS = 3, TRAIN = 'T', PDU = 'P', OVER = 'O' };

/* A train at a time, a PDU of an event, or an event that is over; the octets are those of the counts. */
typedef struct { uint64_t at; uint32_t counts[3]; uint8_t kind, bis, subevent, streams; } record_t;

/* Tells on standard error what memory is in use: octets, blocks, both at most, and calls for memory. Of memory_block.c it is how many octets
 * of the block were in use at most, told at the end. */
static inline void tell(const char *what)
{
#ifdef OF_BLOCK
    if (strcmp(what, "end") == 0)
        fprintf(stderr, "block %u\n", (unsigned)vm_block_most());
#else
    vm_counts_t now = vm_counts();
    fprintf(stderr, "%s %u %u %u %u %u\n", what, (unsigned)now.live, (unsigned)now.blocks, (unsigned)now.most, (unsigned)now.most_blocks,
            (unsigned)now.calls);
#endif
}

static inline void need(const char *what, vm_status_t status)
{
    if (status != VM_OK) {
        fprintf(stderr, "%s answers %u\n", what, (unsigned)status);
        exit(1);
    }
}
#endif
