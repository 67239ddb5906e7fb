"""How an input is bent: octets, words and lines changed, and parts cut, as a random drawing says. bent_inputs.py uses it."""
import gzip
from collections.abc import Callable
from random import Random

Kind = Callable[[bytes, Random], bytes]  # a way to bend
ODD_WORDS = ('0', '1', '-1', '\u00b2', 'x', '-', '00', '1_0', '31', '32', '255', '256', '65536', '999999999', '9' * 20, '1' * 5000, '')
ODD_OCTETS = (0, 9, 10, 13, 32, 35, 45, 48, 49, 57, 95, 127, 128, 178, 255)
ODD_FIELDS = (b'\x00\x00\x00\x00', b'\xff\xff\xff\xff', b'\x00\x00\x00\x80', b'\x01\x00\x00\x00', b'\xff\xff\xff\x7f', b'\x0c\x00\x00\x00')


def changed_octets(octets: bytes, draw: Random) -> bytes:
    changed = bytearray(octets)
    for _ in range(draw.choice((1, 1, 2, 5, 20))):
        if changed:
            changed[draw.randrange(len(changed))] = draw.choice((draw.randrange(256), draw.choice(ODD_OCTETS)))
    return bytes(changed)


def cut(octets: bytes, draw: Random) -> bytes:
    return octets[:draw.randrange(len(octets) + 1)]


def without_a_part(octets: bytes, draw: Random) -> bytes:
    front = draw.randrange(len(octets) + 1)
    return octets[:front] + octets[front + draw.choice((1, 4, 16, 100)):]


def with_a_part_twice(octets: bytes, draw: Random) -> bytes:
    front = draw.randrange(len(octets) + 1)
    return octets[:front] + octets[max(0, front - draw.choice((1, 4, 16, 100))):]


def changed_field(octets: bytes, draw: Random) -> bytes:
    """Four octets in a place that is a multiple of four, as the fields of a pcapng have them."""
    place = draw.randrange(len(octets) // 4 + 1) * 4
    return octets[:place] + draw.choice(ODD_FIELDS) + octets[place + 4:]


def changed_lines(octets: bytes, draw: Random) -> bytes:
    """Lines that are dropped, doubled or moved."""
    lines = octets.split(b'\n')
    for _ in range(draw.choice((1, 1, 2, 4))):
        place = draw.randrange(len(lines))
        line = lines[place] if draw.random() < 0.3 else lines.pop(place)
        if draw.random() < 0.5 or not lines:
            lines.insert(draw.randrange(len(lines) + 1), line)
    return b'\n'.join(lines)


def changed_word(octets: bytes, draw: Random) -> bytes:
    lines = octets.split(b'\n')
    place = draw.randrange(len(lines))
    words = lines[place].split(b' ')
    words[draw.randrange(len(words))] = draw.choice(ODD_WORDS).encode('latin-1')
    lines[place] = b' '.join(words)
    return b'\n'.join(lines)


def packed(octets: bytes, draw: Random) -> bytes:
    """In a gzip, which is bent in its turn."""
    kinds: tuple[Kind, ...] = (cut, changed_octets, lambda it, _: it)
    return draw.choice(kinds)(gzip.compress(octets, 1), draw)


OF_TEXTS: tuple[Kind, ...] = (changed_octets, cut, changed_lines, changed_lines, changed_word, changed_word, without_a_part,
                               with_a_part_twice)
OF_CAPTURES: tuple[Kind, ...] = (changed_octets, changed_octets, changed_field, changed_field, cut, without_a_part,
                                  with_a_part_twice, packed)
