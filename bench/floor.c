/* floor LENGTH: the least that a run of a scenario takes, beside which bench/run.py puts what a program takes. It splits standard input
 * into lines, decodes each word of hexadecimal digits, two an octet, and writes as many octets as the transcript has, LENGTH: digits of the
 * octets that it decoded, in writes of 65,536. It does no other work of a run. The status is 1 where it can't read or write, or where
 * a line is longer than 65,536 octets, and 2 for other words. */
#include <stdint.h>
#include <stdio.h>
#include <stdlib.h>
#include <string.h>
#include <unistd.h>

enum { ROOM = 65536 };

static uint8_t octets[ROOM / 2]; /* those that were decoded last, one word behind the other, from the front on where no room is left */
static size_t next;

/* Each loop over digits runs to its end and looks up nothing, so that the compiler can take many at once. */

static int are_digits(const uint8_t *word, size_t length)
{
    uint8_t are = 1;
    for (size_t place = 0; place < length; place++) {
        uint8_t figure = (uint8_t) (word[place] - '0'), letter = (uint8_t) (word[place] - 'a');
        are &= (figure < 10) | (letter < 6);
    }
    return are;
}

static uint8_t value_of(uint8_t digit)
{
    return (uint8_t) ((digit & 15) + (digit >> 6) * 9);
}

static uint8_t digit_of(uint8_t value)
{
    return (uint8_t) (value + '0' + (value > 9) * ('a' - '0' - 10));
}

static void decode_into(uint8_t *restrict into, const uint8_t *restrict word, size_t length)
{
    for (size_t place = 0; place < length / 2; place++)
        into[place] = (uint8_t) (value_of(word[2 * place]) << 4 | value_of(word[2 * place + 1]));
}

static void decode(const uint8_t *word, size_t length)
{
    if (length % 2 != 0 || length > ROOM || !are_digits(word, length))
        return;
    if (next + length / 2 > ROOM / 2)
        next = 0;
    decode_into(octets + next, word, length);
    next += length / 2;
}

static void take_line(const uint8_t *line, const uint8_t *end)
{
    const uint8_t *space;
    for (; (space = memchr(line, ' ', (size_t) (end - line))); line = space + 1)
        decode(line, (size_t) (space - line));
    decode(line, (size_t) (end - line));
}

/* Takes the whole lines, moves what is left to the front, and gives back its length. */
static size_t take_lines(uint8_t *text, size_t length)
{
    const uint8_t *line = text, *end = text + length, *found;
    for (; (found = memchr(line, '\n', (size_t) (end - line))); line = found + 1)
        take_line(line, found);
    memmove(text, line, (size_t) (end - line));
    return (size_t) (end - line);
}

static int read_all(void)
{
    static uint8_t text[2 * ROOM];
    size_t kept = 0;
    for (;;) {
        ssize_t got = read(STDIN_FILENO, text + kept, ROOM);
        if (got <= 0)
            return got == 0;
        kept = take_lines(text, kept + (size_t) got);
        if (kept > ROOM)
            return 0;
    }
}

static int write_whole(const uint8_t *text, size_t length)
{
    while (length > 0) {
        ssize_t written = write(STDOUT_FILENO, text, length);
        if (written < 0)
            return 0;
        text += written;
        length -= (size_t) written;
    }
    return 1;
}

/* Writes two digits for each octet, from the first on, as far as the length goes. */
static void encode(uint8_t *restrict text, size_t length)
{
    for (size_t place = 0; place < (length + 1) / 2; place++) {
        text[2 * place] = digit_of(octets[place] >> 4);
        text[2 * place + 1] = digit_of(octets[place] & 15);
    }
}

static int write_all(size_t length)
{
    static uint8_t text[ROOM];
    for (; length > ROOM; length -= ROOM) {
        encode(text, ROOM);
        if (!write_whole(text, ROOM))
            return 0;
    }
    encode(text, length);
    return write_whole(text, length);
}

int main(int many, char **words)
{
    char *end = words[0];
    size_t length = many == 2 ? strtoull(words[1], &end, 10) : 0;
    if (many != 2 || end == words[1] || *end != '\0') {
        fputs("usage: floor LENGTH\n", stderr);
        return 2;
    }
    return read_all() && write_all(length) ? 0 : 1;
}
