/* A source, a player and an assistant in one program. Each knows vicemint.h and the calls of the host that it makes; main.c is that host,
 * and stands for three radios and for a link. In a product each of them sits below a host of its own: docs/using-from-c.md tells where. */
#ifndef STEREO_H
#define STEREO_H
#include "vicemint.h"

enum { STREAMS = 2, SLOTS = 2, SUBEVENTS = 3, FRAME = 100 }; /* 48_2: a frame of 100 octets each 10 ms, sent three times */

/* ---- player.c, and what it asks of the host */

bool player_begin(void);
void player_written(const uint8_t *octets, vm_size_t count);
void player_hears_train(const uint8_t *octets, const vm_train_t *train);
void player_hears(uint64_t event, uint8_t bis, uint8_t subevent, const uint8_t *pdu, vm_size_t count);
void player_event_is_over(uint64_t event);
vm_size_t player_state(uint8_t slot, uint8_t *room); /* of 512 octets */
void player_end(void);

void host_plays(const vm_unit_t *unit, const uint8_t *octets);
void host_notifies(uint8_t slot, const uint8_t *value, vm_size_t count);
void host_replies(uint8_t error_code);
void host_receives(uint32_t streams); /* bit n for BIS n + 1: the radio listens to these */

/* ---- assistant.c */

bool assistant_begin(void);
void assistant_asks_for(const vm_identity_t *source);
void assistant_told(uint8_t slot, const uint8_t *value, vm_size_t count);
vm_size_t assistant_view(uint8_t slot, uint8_t *room); /* of 512 octets */
void assistant_end(void);

void host_writes(const uint8_t *octets, vm_size_t count);
vm_size_t host_reads(uint8_t slot, uint8_t *room); /* of 512 octets */

/* ---- source.c */

bool source_begin(vm_identity_t *identity);
bool source_gives(uint8_t bis, const uint8_t *frame);
bool source_announces(void);
bool source_sends(void);
void source_end(void);

void host_announces(const uint8_t *octets, const vm_train_t *train);
void host_sends(uint64_t event, uint8_t bis, uint8_t subevent, const uint8_t *pdu, vm_size_t count);
#endif
