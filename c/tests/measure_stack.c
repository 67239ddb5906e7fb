/* Tells at the end of the program, on standard error, what stack was in use under each call of vicemint.h that it made: see measure_stack.S. */
#include <stddef.h>
#include <stdint.h>
#include <stdio.h>

extern uint64_t measured_stack[];
#define CALL(number, name) #name,
static const char *const NAMES[] = {
#include "calls.h"
};

__attribute__((destructor)) static void tell(void)
{
    for (size_t i = 0; i < sizeof NAMES / sizeof *NAMES; i++)
        if (measured_stack[i] != 0)
            fprintf(stderr, "%s %u\n", NAMES[i], (unsigned)measured_stack[i]);
}
