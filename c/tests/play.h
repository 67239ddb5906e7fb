/* What the parts of play.c share. */
#ifndef PLAY_H
#define PLAY_H
#include "vicemint.h"
#include "vicemint_memory.h"
#include <inttypes.h>
#include <stdio.h>
#include <stdlib.h>
#include <string.h>

enum { SINKS = 8, LINKS = 4, SOURCES = 2, WORDS = 80, VALUE = 512, VIEW = 9000, UNIT = 4095, PDU = 253, STREAMS = 31 };

typedef struct { uint8_t *at; vm_size_t count; } octets_t;

/* A notice that waits for an assistant. */
typedef struct waiting { struct waiting *next; uint8_t slot; octets_t value; } waiting_t;

/* An assistant on a link of a sink. */
typedef struct { vm_link_t link; bool is_joined; waiting_t *first; } place_t;

/* A sink with its links, and each stream that it is on alone, of the group of `info`. The MTU is 0 where it has none. Valid units of the
 * stream `from` go to the stream `to` of source 1. */
typedef struct {
    vm_sink_t sink;
    vm_stream_t streams[STREAMS];
    air_big_info_t info;
    place_t places[LINKS];
    uint64_t units, octets;
    uint16_t mtu;
    uint8_t slots, from, to;
} own_sink_t;
typedef struct { vm_source_t source; air_big_info_t info; bool is_stopped; } own_source_t;

/* A unit that a sink handed up. */
typedef struct handed { struct handed *next; vm_unit_t unit; octets_t octets; } handed_t;

/* A call of the log by its words, of which the first is its name. */
typedef void call_t(char **w);
typedef struct { const char *name; call_t *run; } named_t;
extern const named_t OF_SOURCES[], OF_SINKS[], OF_LINKS[]; /* a name NULL is the end */

/* The status of a call, which is made again where it found no memory. */
#define TRIED(call) (is_want(call) ? (last = (call)) : last)
#define NEED(call) do { if (TRIED(call) != VM_OK) fail(#call, last); } while (0)
extern vm_status_t last;
bool is_want(vm_status_t status);
void fail(const char *call, unsigned status);

octets_t room_of(vm_size_t count);
octets_t octets(const char *word);
octets_t copied(const uint8_t *at, vm_size_t count);
uint64_t number(const char *word);
uint8_t small(const char *word);
uint32_t little(const char *word);
void show(const uint8_t *at, vm_size_t count);

own_sink_t *sink_of(const char *word);
own_source_t *source_of(const char *word);

/* The streams of a sink alone. They begin on the group that it is put on, or by a train that put it on one, from an event on; they hear what
 * it heard; when an event is over, they hand up what it did; they end with its stay. */
void begin_streams(own_sink_t *own, const air_big_info_t *info, uint32_t taken, uint64_t event, uint64_t anchor, uint32_t delay);
void begin_by_train(own_sink_t *own, uint32_t taken, octets_t adv, octets_t acad, uint64_t now);
void hear_alone(own_sink_t *own, uint64_t event, uint8_t bis, uint8_t subevent, octets_t pdu, vm_heard_t heard);
void close_alone(own_sink_t *own, uint64_t event, const handed_t *of_sink, bool is_sink_cut);
void end_where_left(own_sink_t *own);
void end_streams(own_sink_t *own);

/* What a host does between a sink and its links. */
void gather(own_sink_t *own);
void join(own_sink_t *own, unsigned link);
void part(place_t *place);
#endif
