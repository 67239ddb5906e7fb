/* The tape of fuzz.c: octets that say which call comes next and with what. At its end it gives zeros. */
#ifndef TAPE_H
#define TAPE_H
#include "vicemint.h"
#include "vicemint_memory.h"
#include <stddef.h>
#include <stdio.h>
#include <stdlib.h>
#include <string.h>

enum { MARK = 0xa5, HANDLES = 2 };

typedef struct { const uint8_t *at; size_t left; } tape_t;
extern tape_t tape;

/* Octets in memory of their very size, so that a sanitizer sees what is read or written past them. */
typedef struct { uint8_t *at; vm_size_t count; } octets_t;

static inline uint8_t octet(void)
{
    if (tape.left == 0)
        return 0;
    tape.left--;
    return *tape.at++;
}

static inline uint64_t wide(void)
{
    uint64_t value = 0;
    for (unsigned count = octet() % 9; count > 0; count--)
        value = value << 8 | octet();
    return value;
}

static inline octets_t room_of(vm_size_t count)
{
    octets_t it = { malloc(count != 0 ? (size_t)count : 1), count };
    if (it.at == NULL)
        abort();
    memset(it.at, MARK, (size_t)count);
    return it;
}

static inline octets_t from(const void *at, vm_size_t count)
{
    octets_t it = room_of(count);
    memcpy(it.at, at, (size_t)count);
    return it;
}

/* So many octets of the tape, at most. */
static inline octets_t octets(unsigned most)
{
    octets_t it = room_of(octet() % (most + 1));
    for (vm_size_t i = 0; i < it.count; i++)
        it.at[i] = octet();
    return it;
}

/* Octets that have a layout, of which one may be bent, and which may be cut. */
static inline octets_t bent(const void *at, vm_size_t count)
{
    uint8_t how = octet();
    octets_t it = from(at, how % 8 == 1 ? count * octet() / 256 : count);
    if (how % 8 == 2 && it.count > 0)
        it.at[octet() % it.count] = octet();
    return it;
}

#define NEED(it) do { if (!(it)) { fprintf(stderr, "%s:%d: %s\n", __FILE__, __LINE__, #it); abort(); } } while (0)

static inline bool is_marked(const void *at, size_t count)
{
    const uint8_t *octets = at;
    for (size_t i = 0; i < count; i++)
        if (octets[i] != MARK)
            return false;
    return true;
}

/* What a call fills keeps its marks where the call fails. */
#define MARKED(it) do { memset(&(it), MARK, sizeof(it)); } while (0)
#define KEEPS(it) NEED(is_marked(&(it), sizeof(it)))
#define KEEPS_ROOM(it) NEED(is_marked((it).at, (size_t)(it).count))
#define ONE(a) (1u << (a))

/* The status is one that the header names for the call; VM_MEMORY comes where a call for memory failed, and nowhere else. */
static inline vm_status_t checked(const char *name, vm_status_t status, unsigned allowed)
{
    bool is_named = status < 32 && (allowed >> status & 1) != 0 && (status != VM_MEMORY || vm_counts().has_failed);
    if (!is_named) {
        fprintf(stderr, "%s answers %u\n", name, (unsigned)status);
        abort();
    }
    return status;
}
#define CALL(name, words, allowed) checked(#name, name words, (allowed) | ONE(VM_OK))

/* A call of the tape. */
typedef void call_t(void);
extern call_t *const OF_SINKS[], *const OF_LINKS[], *const OF_SOURCES[], *const OF_STREAMS[], *const OF_LAYOUTS[]; /* NULL is the end */
void free_sinks(void);
void free_links(void);
void free_sources(void);
void free_streams(void);

/* What goes between handles: trains and PDUs of a source, writes of a link, notices of a sink. */
void hear_train(const uint8_t *room, const vm_train_t *train);
void hear_pdu(uint64_t event, uint8_t bis, uint8_t subevent, uint64_t number, octets_t pdu);
void tick(uint64_t event);
void write_to_sink(octets_t write);
void tell_links(uint8_t slot, octets_t value);

extern const air_big_info_t GROUPS[4];
extern const uint8_t BASE[33];
extern const vm_identity_t IDENTITY;
#endif
