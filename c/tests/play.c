/* Plays a log of calls, a line each, on the handles of vicemint.h, and writes the lines that `replay` writes for the scenario of the log.
 *
 * .ci/checks/parts/c_logs.py makes the log: a line has the name of a call and its words, octets as pairs of hexadecimal digits or `-`.
 * Each string of octets is given in memory of its very size, so that a sanitizer sees what is read or written past it.
 *
 * With a number as its word, the call for memory of this number fails; 0 is none of them, and then their sum is written to standard error.
 * Whatever answers VM_MEMORY is called again, and has to go on as if nothing had been. Where a tick or a close lost units, or a source has
 * failed, which the header says, a line tells it. */
#include "play.h"

static own_sink_t sinks[SINKS];
static own_source_t sources[SOURCES];

own_sink_t *sink_of(const char *word) { return &sinks[number(word) % SINKS]; }
own_source_t *source_of(const char *word) { return &sources[number(word) % SOURCES]; }

void fail(const char *call, unsigned status)
{
    fflush(stdout);
    fprintf(stderr, "%s answers %u\n", call, status);
    exit(9);
}

vm_status_t last;

bool is_want(vm_status_t status)
{
    last = status;
    return status == VM_MEMORY;
}

octets_t room_of(vm_size_t count)
{
    octets_t it = { malloc(count != 0 ? (size_t)count : 1), count };
    if (it.at == NULL)
        fail("malloc", 0);
    return it;
}

octets_t octets(const char *word)
{
    octets_t it = room_of(strcmp(word, "-") != 0 ? strlen(word) / 2 : 0);
    for (size_t i = 0; i < it.count; i++) {
        unsigned octet = 0;
        sscanf(word + 2 * i, "%2x", &octet);
        it.at[i] = (uint8_t)octet;
    }
    return it;
}

octets_t copied(const uint8_t *at, vm_size_t count)
{
    octets_t it = room_of(count);
    memcpy(it.at, at, (size_t)count);
    return it;
}

uint64_t number(const char *word) { return strtoull(word, NULL, 10); }
uint8_t small(const char *word) { return (uint8_t)number(word); }

uint32_t little(const char *word)
{
    octets_t it = octets(word);
    uint32_t value = 0;
    for (size_t i = 0; i < it.count; i++)
        value |= (uint32_t)it.at[i] << (8 * i);
    free(it.at);
    return value;
}

void show(const uint8_t *at, vm_size_t count)
{
    if (count == 0)
        printf("-");
    for (vm_size_t i = 0; i < count; i++)
        printf("%02x", at[i]);
    puts("");
}

static call_t *found(const named_t *calls, const char *name)
{
    while (calls->name != NULL && strcmp(calls->name, name) != 0)
        calls++;
    return calls->run;
}

static void run(char **w)
{
    const named_t *const all[] = { OF_SOURCES, OF_SINKS, OF_LINKS };
    for (size_t i = 0; i < sizeof all / sizeof *all; i++) {
        call_t *call = found(all[i], w[0]);
        if (call != NULL) {
            call(w);
            return;
        }
    }
    fail(w[0], 0);
}

static void free_all(void)
{
    for (unsigned i = 0; i < SINKS; i++) {
        for (unsigned link = 0; link < LINKS; link++)
            part(&sinks[i].places[link]);
        end_streams(&sinks[i]);
        vm_sink_free(&sinks[i].sink);
    }
    for (unsigned i = 0; i < SOURCES; i++)
        vm_source_free(&sources[i].source);
}

int main(int count, char **words)
{
    static char line[40000];
    if (count > 1)
        vm_counted_fail_at(number(words[1]));
    while (fgets(line, sizeof line, stdin) != NULL) {
        char *w[WORDS + 1] = { NULL };
        size_t n = 0;
        for (char *word = strtok(line, " \n"); word != NULL && n < WORDS; word = strtok(NULL, " \n"))
            w[n++] = word;
        if (n > 0)
            run(w);
    }
    free_all();
    if (count > 1 && number(words[1]) == 0)
        fprintf(stderr, "%" PRIu64 "\n", vm_counts().calls);
    if (vm_counts().blocks != 0)
        fail("the end", (unsigned)vm_counts().blocks);
    return 0;
}
