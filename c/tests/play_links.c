/* The links of a sink, and their calls that play.c makes. */
#include "play.h"

static const char *const CAUSE[] = { "", "Empty", "Opcode", "Length", "Rfu", "BisTwice", "SourceUnknown", "NoDecrypt", "Known", "NoRoom",
                                     "ValueTooLong", "StillSynced" };

/* The link of a word: `-` is link 0 in a line that doesn't name it. */
static unsigned link_in(const char *word)
{
    return strcmp(word, "-") != 0 ? (unsigned)(number(word) % LINKS) : 0;
}

static vm_link_t *link_of(char **w)
{
    return &sink_of(w[1])->places[link_in(w[2])].link;
}

/* The begin of a line of a link: a line that names the link has other words. */
static void begin(const char *name, char **w)
{
    if (strcmp(w[2], "-") == 0)
        printf("%s %s ", name, w[1]);
    else
        printf("a%s %s %s ", name, w[1], w[2]);
}

static void wait_on(place_t *place, uint8_t slot, octets_t value)
{
    waiting_t **end = &place->first;
    while (*end != NULL)
        end = &(*end)->next;
    *end = malloc(sizeof **end);
    if (*end == NULL)
        fail("malloc", 0);
    (*end)->next = NULL;
    (*end)->slot = slot;
    (*end)->value = value;
}

/* Each notice of the sink waits for each assistant that is there, and the streams end of a group that it has left. */
void gather(own_sink_t *own)
{
    octets_t room = room_of(VALUE);
    uint8_t slot = 0;
    vm_size_t count = 0;
    while (vm_sink_next_notice(&own->sink, room.at, room.count, &slot, &count) == VM_OK)
        for (unsigned link = 0; link < LINKS; link++)
            if (own->places[link].is_joined)
                wait_on(&own->places[link], slot, copied(room.at, count));
    free(room.at);
    end_where_left(own);
}

void join(own_sink_t *own, unsigned link)
{
    place_t *place = &own->places[link];
    NEED(vm_link_new(&place->link, own->slots));
    if (own->mtu != 0)
        NEED(vm_link_set_mtu(&place->link, own->mtu));
    place->is_joined = true;
}

static waiting_t *taken(place_t *place)
{
    waiting_t *it = place->first;
    if (it != NULL)
        place->first = it->next;
    return it;
}

void part(place_t *place)
{
    for (waiting_t *it = taken(place); it != NULL; it = taken(place)) {
        free(it->value.at);
        free(it);
    }
    vm_link_free(&place->link);
    place->is_joined = false;
}

static bool serve(char **w)
{
    own_sink_t *own = sink_of(w[1]);
    octets_t room = room_of(VALUE);
    vm_reply_t reply = { 0, 0 };
    vm_size_t count = 0;
    bool waits = vm_link_next_write(link_of(w), room.at, room.count, &count) == VM_OK;
    if (waits) {
        octets_t write = copied(room.at, count);
        NEED(vm_sink_write(&own->sink, write.at, write.count, &reply));
        free(write.at);
        gather(own);
        begin("reply", w);
        if (reply.code != 0)
            printf("%02x %s\n", reply.code, CAUSE[reply.cause]);
        else
            puts("ok");
    }
    free(room.at);
    return waits;
}

static bool tell(char **w)
{
    place_t *place = &sink_of(w[1])->places[link_in(w[2])];
    waiting_t *it = taken(place);
    air_fault_t fault = { 0, 0 };
    if (it == NULL)
        return false;
    NEED(vm_link_notice(&place->link, it->slot, it->value.at, it->value.count, &fault));
    begin("notice", w);
    printf("%u ", it->slot);
    show(it->value.at, it->value.count);
    free(it->value.at);
    free(it);
    return true;
}

static bool read_slot(char **w)
{
    own_sink_t *own = sink_of(w[1]);
    vm_link_t *link = link_of(w);
    octets_t room = room_of(VALUE);
    air_fault_t fault = { 0, 0 };
    uint8_t slot = 0;
    vm_size_t count = 0;
    bool waits = vm_link_next_read(link, &slot) == VM_OK;
    if (waits) {
        NEED(vm_sink_read_state(&own->sink, slot, room.at, room.count, &count));
        octets_t value = copied(room.at, count);
        NEED(vm_link_answer_read(link, slot, value.at, value.count, &fault));
        begin("read", w);
        printf("%u ", slot);
        show(value.at, value.count);
        free(value.at);
    }
    free(room.at);
    return waits;
}

static void run_write(char **w)
{
    octets_t write = octets(w[3]);
    NEED(vm_link_put(link_of(w), write.at, write.count));
    free(write.at);
}

/* The subgroups of an operation, two words each: their streams, and their metadata behind octets that count it. */
typedef struct { uint32_t streams[STREAMS]; vm_size_t count; octets_t metadata; } wished_t;

static wished_t wished(char **w)
{
    wished_t it = { { 0 }, 0, { NULL, 0 } };
    octets_t room = room_of(STREAMS * 256);
    vm_size_t end = 0;
    for (; w[0] != NULL && w[1] != NULL; w += 2) {
        octets_t one = octets(w[1]);
        it.streams[it.count++] = little(w[0]);
        room.at[end++] = (uint8_t)one.count;
        memcpy(room.at + end, one.at, (size_t)one.count);
        end += one.count;
        free(one.at);
    }
    it.metadata = copied(room.at, end);
    free(room.at);
    return it;
}

/* An operation with a reserved value, which add and modify refuse, is written as its octets: the first ones, then the subgroups. */
static void put_octets(vm_link_t *link, const uint8_t *first, vm_size_t count, const wished_t *it)
{
    octets_t room = room_of(count + 1 + it->count * 4 + it->metadata.count);
    vm_size_t end = 0, next = 0;
    memcpy(room.at, first, (size_t)count);
    end = count;
    room.at[end++] = (uint8_t)it->count;
    for (vm_size_t n = 0; n < it->count; n++) {
        for (int octet = 0; octet < 4; octet++) {
            room.at[end++] = (uint8_t)(it->streams[n] >> 8 * octet);
        }
        vm_size_t own = (vm_size_t)it->metadata.at[next] + 1;
        memcpy(room.at + end, it->metadata.at + next, (size_t)own);
        end += own;
        next += own;
    }
    octets_t write = copied(room.at, end);
    NEED(vm_link_put(link, write.at, write.count));
    free(write.at);
    free(room.at);
}

static void run_add(char **w)
{
    wished_t it = wished(w + 9);
    octets_t address = octets(w[4]), id = octets(w[6]);
    uint16_t interval = (uint16_t)number(w[8]);
    vm_status_t status = TRIED(vm_link_add(link_of(w), small(w[3]), address.at, small(w[5]), id.at, small(w[7]), interval, it.streams,
                                           it.count, it.metadata.at, it.metadata.count));
    if (status == VM_RANGE) {
        uint8_t first[15] = { 2, small(w[3]) };
        memcpy(first + 2, address.at, 6);
        first[8] = small(w[5]);
        memcpy(first + 9, id.at, 3);
        first[12] = small(w[7]);
        first[13] = (uint8_t)interval;
        first[14] = (uint8_t)(interval >> 8);
        put_octets(link_of(w), first, sizeof first, &it);
    } else if (status != VM_OK) {
        fail("an operation", status);
    }
    free(it.metadata.at);
    free(address.at);
    free(id.at);
}

static void run_modify(char **w)
{
    wished_t it = wished(w + 6);
    uint16_t interval = (uint16_t)number(w[5]);
    vm_status_t status = TRIED(
        vm_link_modify(link_of(w), small(w[3]), small(w[4]), interval, it.streams, it.count, it.metadata.at, it.metadata.count));
    if (status == VM_RANGE) {
        uint8_t first[5] = { 3, small(w[3]), small(w[4]), (uint8_t)interval, (uint8_t)(interval >> 8) };
        put_octets(link_of(w), first, sizeof first, &it);
    } else if (status != VM_OK) {
        fail("an operation", status);
    }
    free(it.metadata.at);
}

static void run_remove(char **w)
{
    NEED(vm_link_remove(link_of(w), small(w[3])));
}

static void run_code(char **w)
{
    octets_t code = octets(w[4]);
    NEED(vm_link_code(link_of(w), small(w[3]), code.at));
    free(code.at);
}

static void run_serve(char **w)
{
    serve(w);
}

static void run_tell(char **w)
{
    tell(w);
}

static void run_read(char **w)
{
    read_slot(w);
}

static void run_drain(char **w)
{
    while (serve(w)) { }
    while (tell(w)) { }
    while (read_slot(w)) { }
}

static void run_state(char **w)
{
    own_sink_t *own = sink_of(w[1]);
    octets_t room = room_of(VALUE);
    vm_size_t count = 0;
    NEED(vm_sink_read_state(&own->sink, small(w[2]), room.at, room.count, &count));
    printf("state %s %s ", w[1], w[2]);
    show(room.at, count);
    free(room.at);
}

static void run_view(char **w)
{
    octets_t room = room_of(VIEW);
    vm_size_t count = 0;
    NEED(vm_link_view(link_of(w), small(w[3]), room.at, room.count, &count));
    begin("view", w);
    printf("%s ", w[3]);
    show(room.at, count);
    free(room.at);
}

static void run_forge(char **w)
{
    octets_t value = octets(w[4]);
    air_fault_t fault = { 0, 0 };
    vm_status_t status = TRIED(vm_link_notice(link_of(w), small(w[3]), value.at, value.count, &fault));
    if (status == VM_BAD_NOTICE)
        printf("forged %s BadNotice %u\n", w[1], fault.number);
    else if (status == VM_OK || status == VM_NO_SLOT)
        printf("forged %s %s\n", w[1], status == VM_OK ? "ok" : "NoSuchSlot");
    else
        fail("vm_link_notice", status);
    free(value.at);
}

static void run_assist(char **w)
{
    join(sink_of(w[1]), link_in(w[2]));
    vm_link_ask_all(link_of(w));
}

static void run_apart(char **w)
{
    part(&sink_of(w[1])->places[link_in(w[2])]);
}

const named_t OF_LINKS[] = {
    { "write", run_write },
    { "add", run_add },
    { "modify", run_modify },
    { "remove", run_remove },
    { "code", run_code },
    { "serve", run_serve },
    { "tell", run_tell },
    { "read", run_read },
    { "drain", run_drain },
    { "state", run_state },
    { "view", run_view },
    { "forge", run_forge },
    { "assist", run_assist },
    { "apart", run_apart },
    { NULL, NULL },
};
