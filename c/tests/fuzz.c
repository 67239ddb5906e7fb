/* A libFuzzer target: a tape of calls on all handles of vicemint.h with random octets. The caller's duties are kept, and a call for memory
 * may fail. It stops where a sanitizer finds something, a status comes that the header doesn't name, or a call that fails changes what
 * it would fill. */
#include "tape.h"

tape_t tape;

const air_big_info_t GROUPS[4] = {
    { .iso_interval = 8, .num_bis = 2, .nse = 3, .bn = 1, .irc = 3, .sub_interval = 600, .bis_spacing = 1800, .sdu_interval = 10000,
      .max_sdu = 10, .max_pdu = 10, .phy = 1 },
    { .iso_interval = 8, .num_bis = 2, .nse = 4, .bn = 2, .irc = 1, .pto = 2, .sub_interval = 400, .bis_spacing = 1600, .sdu_interval = 10000,
      .max_sdu = 20, .max_pdu = 10, .phy = 1 },
    { .iso_interval = 8, .num_bis = 2, .nse = 2, .bn = 2, .irc = 1, .sub_interval = 400, .bis_spacing = 800, .sdu_interval = 10884,
      .max_sdu = 40, .max_pdu = 40, .phy = 1, .framing = 1 },
    { .iso_interval = 16, .num_bis = 1, .nse = 6, .bn = 3, .irc = 2, .sub_interval = 400, .bis_spacing = 2400, .sdu_interval = 7500,
      .max_sdu = 12, .max_pdu = 12, .phy = 1, .framing = 1 },
};
const uint8_t BASE[33] = { 0x40, 0x9c, 0, 1, 2, 6, 0, 0, 0, 0, 10, 2, 1, 8, 2, 2, 1, 3, 4, 10, 0, 4, 3, 2, 4, 0, 1, 0, 2, 3, 2, 1, 8 };
const vm_identity_t IDENTITY = { 0, { 1, 2, 3, 4, 5, 6 }, 3, { 7, 8, 9 } };

static call_t *const *const ALL[] = { OF_SINKS, OF_LINKS, OF_SOURCES, OF_STREAMS, OF_LAYOUTS };

static void run(void)
{
    call_t *const *calls = ALL[octet() % (sizeof ALL / sizeof *ALL)];
    unsigned count = 0;
    while (calls[count] != NULL)
        count++;
    uint8_t which = octet();
    if (which < 240)
        calls[which % count]();
    else
        vm_counted_fail_at(1 + which % 5);
}

int LLVMFuzzerTestOneInput(const uint8_t *data, size_t size);
int LLVMFuzzerTestOneInput(const uint8_t *data, size_t size)
{
    tape.at = data;
    tape.left = size;
    vm_counted_fail_at(0);
    while (tape.left > 0)
        run();
    free_sinks();
    free_links();
    free_sources();
    free_streams();
    NEED(vm_counts().blocks == 0);
    return 0;
}
