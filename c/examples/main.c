/* The host of the three: it carries what they say, loses some of it, and compares at the end what was handed up with what was given. */
#include "stereo.h"
#include <stdio.h>
#include <string.h>

enum { EVENTS = 100, LOST = 50 }; /* the event of which no PDU of stream 2 arrives */

static uint32_t receives;
static unsigned played[1 + STREAMS], concealed, wrong, sent, arrived;

/* The frame of a stream in an event. */
static void frame(uint8_t bis, uint64_t event, uint8_t *into)
{
    for (unsigned i = 0; i < FRAME; i++)
        into[i] = (uint8_t)(event * 7 + i * 3 + bis);
}

/* ---- what the player asks for */

/* The units of a stream come in order, each at its time: here the n-th is that of event n, or lost. */
void host_plays(const vm_unit_t *unit, const uint8_t *octets)
{
    uint8_t given[FRAME];
    uint64_t event = played[unit->bis]++;
    frame(unit->bis, event, given);
    if (!unit->is_valid)
        concealed++;
    else if (unit->count != FRAME || memcmp(octets, given, FRAME) != 0)
        wrong++;
    if (unit->is_valid == (event == LOST && unit->bis == 2))
        wrong++;
}

void host_notifies(uint8_t slot, const uint8_t *value, vm_size_t count) { assistant_told(slot, value, count); }
void host_receives(uint32_t streams) { receives = streams; }
void host_replies(uint8_t error_code) { printf("the write is answered %02x\n", error_code); }

/* ---- what the assistant asks for */

void host_writes(const uint8_t *octets, vm_size_t count) { player_written(octets, count); }
vm_size_t host_reads(uint8_t slot, uint8_t *room) { return player_state(slot, room); }

/* ---- what the source asks for */

void host_announces(const uint8_t *octets, const vm_train_t *train) { player_hears_train(octets, train); }

void host_sends(uint64_t event, uint8_t bis, uint8_t subevent, const uint8_t *pdu, vm_size_t count)
{
    sent++;
    if ((receives >> (bis - 1) & 1) == 0 || (event == LOST && bis == 2) || (event + bis + subevent) % 3 == 0)
        return;
    arrived++;
    player_hears(event, bis, subevent, pdu, count);
}

/* ---- the three */

static bool runs(void)
{
    vm_identity_t identity;
    if (!source_begin(&identity) || !player_begin() || !assistant_begin())
        return false;
    assistant_asks_for(&identity);
    if (!source_announces())
        return false;
    for (uint64_t event = 0; event < EVENTS; event++) {
        for (uint8_t bis = 1; bis <= STREAMS; bis++) {
            uint8_t octets[FRAME];
            frame(bis, event, octets);
            if (!source_gives(bis, octets))
                return false;
        }
        if (!source_sends())
            return false;
        player_event_is_over(event);
    }
    return true;
}

/* Nothing waits any more, so what the assistant has of each slot is what the player has. */
static bool views_are_states(void)
{
    bool same = true;
    for (uint8_t slot = 0; slot < SLOTS; slot++) {
        uint8_t view[512], state[512];
        vm_size_t count = assistant_view(slot, view);
        same = same && count == player_state(slot, state) && memcmp(view, state, (size_t)count) == 0;
        printf("slot %u has %u octets\n", slot, (unsigned)count);
    }
    return same;
}

int main(void)
{
    bool ran = runs();
    printf("%u PDUs were sent, %u arrived\n", sent, arrived);
    printf("%u units of each stream, %u lost, %u wrong\n", played[1], concealed, wrong);
    bool same = ran && views_are_states();
    player_end();
    assistant_end();
    source_end();
    bool holds = same && played[1] == EVENTS && played[2] == EVENTS && concealed == 1 && wrong == 0;
    puts(holds ? "what was handed up is what was given" : "it differs");
    return holds ? 0 : 1;
}
