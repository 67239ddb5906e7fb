/* The calls of a source, of a stream alone and of the layouts that fuzz.c makes. */
#include "tape.h"

/* ---- a source */

static vm_source_t sources[HANDLES];
static bool has_failed[HANDLES]; /* an event found no memory: the source gives VM_MEMORY from then on */
static unsigned which;

static vm_source_t *one_source(void)
{
    which = octet() % HANDLES;
    return sources[which].at != NULL && !has_failed[which] ? &sources[which] : NULL;
}

/* A group, of which a field may be bent. */
static air_big_info_t drawn(void)
{
    air_big_info_t info = GROUPS[octet() % 4];
    if (octet() % 4 == 0)
        ((uint8_t *)&info)[octet() % offsetof(air_big_info_t, is_encrypted)] = octet();
    info.is_encrypted = octet() % 16 == 0;
    return info;
}

static void run_new(void)
{
    air_big_info_t info = drawn();
    octets_t base = bent(BASE, sizeof BASE);
    air_fault_t fault;
    MARKED(fault);
    which = octet() % HANDLES;
    vm_source_free(&sources[which]);
    has_failed[which] = false;
    vm_status_t status = CALL(vm_source_new, (&sources[which], &IDENTITY, &info, base.at, base.count, octet() % 8 != 0 ? 20000 : wide(),
                                              octet() % 8 != 0 ? octet() % 4 : wide(), octet() % 2 != 0, &fault),
                              ONE(VM_RANGE) | ONE(VM_MEMORY) | ONE(VM_LAYOUT) | ONE(VM_GROUP));
    NEED((status == VM_OK) == (sources[which].at != NULL));
    if (status == VM_LAYOUT || status == VM_GROUP)
        NEED(fault.number >= 1 && fault.number <= 14);
    else
        KEEPS(fault);
    free(base.at);
}

static void run_give(void)
{
    vm_source_t *source = one_source();
    octets_t unit = octets(45);
    if (source != NULL)
        CALL(vm_source_give, (source, (uint8_t)(octet() % 4), octet() % 2 != 0, octet() % 8 != 0 ? 20000u + 100u * octet() : wide(), unit.at, unit.count),
             ONE(VM_RANGE) | ONE(VM_NO_BIS) | ONE(VM_TOO_LONG) | ONE(VM_TIME_ORDER) | ONE(VM_BACKLOG) | ONE(VM_MEMORY) | ONE(VM_ENCRYPTED));
    free(unit.at);
}

static void run_event(void)
{
    vm_source_t *source = one_source();
    if (source == NULL)
        return;
    uint64_t before = 0, after = 0, anchor = 0;
    vm_source_next(source, &before, &anchor);
    vm_status_t status = CALL(vm_source_event, (source), ONE(VM_COUNTER_ENDS) | ONE(VM_MEMORY) | ONE(VM_ENCRYPTED));
    vm_source_next(source, &after, &anchor);
    NEED(status == VM_MEMORY || after - before == (status == VM_OK));
    has_failed[which] = status == VM_MEMORY;
    if (status == VM_OK && octet() % 2 != 0)
        tick(before - octet() % 2); /* the event before, or this one, is over */
}

static void run_stale(void)
{
    vm_source_t *source = one_source();
    uint8_t bis = MARK;
    uint64_t time = 0;
    if (source != NULL && CALL(vm_source_next_stale, (source, &bis, &time), ONE(VM_EMPTY)) == VM_OK)
        NEED(bis >= 1 && bis <= 31);
}

static void run_pdu(void)
{
    vm_source_t *source = one_source();
    uint8_t back = octet() % 4, bis = octet() % 4, subevent = octet() % 8;
    octets_t room = room_of(octet() % 8 != 0 ? 253 : octet());
    vm_size_t count = 0;
    uint64_t number = 0, event = 0, anchor = 0;
    if (source != NULL
        && CALL(vm_source_pdu, (source, back, bis, subevent, room.at, room.count, &count, &number),
                ONE(VM_RANGE) | ONE(VM_NO_BIS) | ONE(VM_NO_SUBEVENT) | ONE(VM_NOT_ON_AIR) | (room.count < 253 ? ONE(VM_ROOM) : 0)) == VM_OK) {
        octets_t pdu = bent(room.at, count);
        vm_source_next(source, &event, &anchor);
        hear_pdu(event - 1 - back, bis, subevent, number, pdu);
        free(pdu.at);
    } else {
        KEEPS_ROOM(room);
    }
    free(room.at);
}

static void run_announce(void)
{
    vm_source_t *source = one_source();
    octets_t room = room_of(octet() % 8 != 0 ? 512 : octet());
    vm_train_t train = { 0, 0, 0, 0 };
    if (source != NULL
        && CALL(vm_source_announce, (source, room.at, room.count, &train),
                ONE(VM_COUNTER_ENDS) | ONE(VM_MEMORY) | (room.count < 512 ? ONE(VM_ROOM) : 0)) == VM_OK) {
        NEED(train.ext + train.adv + train.acad <= room.count);
        hear_train(room.at, &train);
    } else {
        KEEPS_ROOM(room);
    }
    free(room.at);
}

static void run_terminate(void)
{
    vm_source_t *source = one_source();
    octets_t pdu = room_of(6);
    if (source != NULL)
        vm_source_terminate(source, octet(), pdu.at);
    free(pdu.at);
}

void free_sources(void)
{
    for (unsigned i = 0; i < HANDLES; i++)
        vm_source_free(&sources[i]);
}

call_t *const OF_SOURCES[] = { run_new, run_give, run_give, run_give, run_event, run_event, run_stale, run_pdu, run_pdu, run_pdu, run_pdu, run_announce,
                               run_announce, run_terminate, NULL };

/* ---- one stream alone */

static vm_stream_t stream;
static vm_size_t most_held;

static void check_held(void)
{
    vm_size_t octets = (vm_size_t)-1;
    vm_stream_held(&stream, &octets);
    NEED(octets <= most_held);
}

static void run_stream_new(void)
{
    air_big_info_t info = drawn();
    vm_stay_t stay = { octet() % 8 != 0 ? octet() % 4 : wide(), octet() % 8 != 0 ? 20000 : wide(), (uint32_t)wide(), (uint8_t)(octet() % 4) };
    uint8_t row = MARK;
    vm_stream_free(&stream);
    vm_status_t status = CALL(vm_stream_new, (&stream, &info, &stay, &row), ONE(VM_RANGE) | ONE(VM_MEMORY) | ONE(VM_GROUP));
    NEED((status == VM_OK) == (stream.at != NULL) && (status == VM_GROUP) == (row != MARK));
    most_held = (vm_size_t)info.max_sdu * (info.framing == 0 ? info.bn : 1);
    if (stream.at != NULL)
        check_held();
}

static void run_stream_hear(void)
{
    octets_t pdu = octets(45);
    vm_heard_t heard;
    MARKED(heard);
    if (pdu.count >= 2 && octet() % 4 != 0)
        pdu.at[1] = (uint8_t)(pdu.count - 2);
    uint64_t number = octet() % 4 != 0 ? octet() % 16 : wide();
    if (stream.at != NULL) {
        vm_stream_hear(&stream, number, pdu.at, pdu.count, &heard);
        NEED(heard.answer <= 5);
        check_held();
    }
    free(pdu.at);
}

static void run_stream_reserve(void)
{
    vm_size_t units = octet() % 8, size = octet();
    if (stream.at != NULL)
        CALL(vm_stream_reserve, (&stream, units, size), ONE(VM_MEMORY) | (units >= 1 && size >= 1 ? 0 : ONE(VM_RANGE)));
}

static void run_stream_close(void)
{
    uint64_t before = 0, after = 0;
    if (stream.at == NULL)
        return;
    vm_stream_open_event(&stream, &before);
    vm_status_t status = CALL(vm_stream_close, (&stream), ONE(VM_COUNTER_ENDS) | ONE(VM_MEMORY));
    vm_stream_open_event(&stream, &after);
    NEED(after - before == (status != VM_COUNTER_ENDS));
    check_held();
}

static void run_stream_unit(void)
{
    octets_t room = room_of(octet());
    vm_unit_t unit;
    MARKED(unit);
    if (stream.at != NULL && CALL(vm_stream_next_unit, (&stream, room.at, room.count, &unit), ONE(VM_EMPTY) | ONE(VM_ROOM)) == VM_OK)
        NEED(unit.count <= room.count);
    else
        KEEPS(unit);
    free(room.at);
}

void free_streams(void)
{
    vm_stream_free(&stream);
}

call_t *const OF_STREAMS[] = { run_stream_new, run_stream_hear, run_stream_hear, run_stream_hear, run_stream_close, run_stream_unit, run_stream_reserve, NULL };

/* ---- layouts */

static void run_big_info(void)
{
    air_big_info_t info = drawn(), again;
    uint8_t row = MARK;
    octets_t room = room_of(octet() % 4 != 0 ? 57 : octet());
    vm_size_t count = 0;
    if (CALL(air_group_check, (&info, &row), ONE(VM_RANGE) | ONE(VM_GROUP)) == VM_GROUP)
        NEED(row >= 1 && row <= 14);
    if (CALL(air_big_info_write, (&info, room.at, room.count, &count), ONE(VM_RANGE) | (room.count < 57 ? ONE(VM_ROOM) : 0)) == VM_OK) {
        octets_t written = from(room.at, count);
        memset(&again, 0, sizeof again);
        NEED(CALL(air_big_info_read, (written.at, written.count, &again), 0) == VM_OK);
        NEED(again.sdu_interval == info.sdu_interval && again.num_bis == info.num_bis && again.is_encrypted == info.is_encrypted);
        free(written.at);
    } else {
        KEEPS_ROOM(room);
    }
    free(room.at);
}

static void run_read(void)
{
    octets_t from_tape = octets(60);
    air_big_info_t info;
    NEED((CALL(air_big_info_read, (from_tape.at, from_tape.count, &info), ONE(VM_LAYOUT)) == VM_OK)
         == (from_tape.count == 33 || from_tape.count == 57));
    free(from_tape.at);
}

static void run_checks(void)
{
    octets_t any = octet() % 2 != 0 ? octets(255) : bent(BASE, sizeof BASE);
    air_fault_t fault;
    MARKED(fault);
    const unsigned allowed = ONE(VM_LAYOUT) | ONE(VM_MEMORY);
    switch (octet() % 5) {
    case 0: CALL(air_base_check, (any.at, any.count, &fault), allowed); break;
    case 1: CALL(air_pac_check, (any.at, any.count, &fault), allowed); break;
    case 2: CALL(air_operation_check, (any.at, any.count, &fault), allowed); break;
    case 3: CALL(air_state_check, (any.at, any.count, &fault), allowed); break;
    default: CALL(air_pdu_check, (any.at, any.count, octet(), &fault), ONE(VM_LAYOUT)); break;
    }
    free(any.at);
}

static void run_base(void)
{
    octets_t base = octet() % 8 == 0 ? octets(255) : bent(BASE, sizeof BASE), records = octets(60);
    uint32_t streams = 0;
    uint8_t bis = octet() % 34, reason = MARK;
    air_effective_t effective;
    memset(&effective, 0, sizeof effective);
    vm_status_t status = CALL(air_base_streams, (base.at, base.count, &streams), ONE(VM_LAYOUT) | ONE(VM_MEMORY));
    NEED((status == VM_OK) == (streams != 0));
    CALL(air_base_effective, (base.at, base.count, bis, &effective), ONE(VM_LAYOUT) | ONE(VM_RANGE) | ONE(VM_NO_BIS) | ONE(VM_MEMORY));
    if (CALL(air_takes, (records.at, records.count, octet(), octet(), base.at, base.count, bis, &reason),
             ONE(VM_LAYOUT) | ONE(VM_RANGE) | ONE(VM_NO_BIS) | ONE(VM_EMPTY) | ONE(VM_MEMORY)) == VM_EMPTY)
        NEED(reason >= 1 && reason <= 8);
    free(base.at);
    free(records.at);
}

static void run_base_write(void)
{
    octets_t runs = octets(40), room = room_of(octet());
    air_base_subgroup_t subgroups[3] = { { 0, 0, 0, 0, { 0 } } };
    air_base_stream_t streams[4] = { { 0, 0, 0, 0 } };
    vm_size_t subgroup_count = octet() % 4, stream_count = octet() % 5, count = 0;
    air_fault_t fault;
    MARKED(fault);
    for (unsigned i = 0; i < subgroup_count; i++) {
        air_base_subgroup_t it = { octet() % 8, octet() % 8, octet() % 8, octet() % 8, { 6, 0, 0, 0, octet() % 2 } };
        subgroups[i] = it;
    }
    for (unsigned i = 0; i < stream_count; i++) {
        air_base_stream_t it = { octet() % 8, octet() % 8, octet() % 4, octet() % 8 };
        streams[i] = it;
    }
    vm_status_t status = CALL(air_base_write, (octet() % 8 != 0 ? 40000 : (uint32_t)wide(), subgroups, subgroup_count, streams, stream_count, runs.at,
                                               runs.count, room.at, room.count, &count, &fault),
                              ONE(VM_RANGE) | ONE(VM_LAYOUT) | ONE(VM_ROOM) | ONE(VM_MEMORY));
    NEED((status == VM_OK) == (count != 0) && count <= room.count);
    if (status == VM_LAYOUT)
        NEED(fault.number >= 1 && fault.number <= 8);
    else
        KEEPS(fault);
    if (status == VM_OK)
        CALL(air_base_check, (room.at, count, &fault), ONE(VM_MEMORY));
    free(runs.at);
    free(room.at);
}

static void run_state(void)
{
    octets_t value = octets(60);
    uint32_t streams[3];
    air_state_t state;
    air_fault_t fault;
    MARKED(fault);
    vm_status_t status = CALL(air_state_read, (value.at, value.count, &state, streams, octet() % 4, &fault),
                              ONE(VM_LAYOUT) | ONE(VM_EMPTY) | ONE(VM_ROOM) | ONE(VM_MEMORY));
    if (status != VM_LAYOUT)
        KEEPS(fault);
    NEED((status == VM_EMPTY) == (value.count == 0) || status == VM_MEMORY);
    free(value.at);
}

call_t *const OF_LAYOUTS[] = { run_big_info, run_read, run_checks, run_checks, run_base, run_base_write, run_state, NULL };
