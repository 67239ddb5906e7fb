"""A BASE that was heard, as lines of a scenario. capture_in.py uses it. Basic Audio Profile 1.0, section 3.7.2.2."""


class BaseFault(Exception):
    """The BASE can't be read, with where."""


class Fields:
    """The fields of a BASE from its front."""

    def __init__(self, octets):
        self.octets, self.place = octets, 0

    def take(self, number):
        taken = self.octets[self.place:self.place + number]
        if len(taken) < number:
            raise BaseFault(f'the BASE is cut at octet {self.place}')
        self.place += number
        return taken

    def count(self):
        return self.take(1)[0]

    def counted(self):
        return self.take(self.count())


def subgroups_of(base):
    """The subgroups as a codec, a configuration, metadata, and the streams, each with its configuration."""
    fields, subgroups = Fields(base), []
    fields.take(3)
    for _ in range(fields.count()):
        streams = fields.count()
        subgroups.append((fields.take(5).hex(), fields.counted(), fields.counted(), [
            (fields.count(), fields.counted()) for _ in range(streams)]))
    return subgroups


def base_lines(base, num_bis, counted):
    """The lines of the BASE. What they can't say is left out and counted."""
    lines, named = [], set()
    for codec, config, metadata, streams in subgroups_of(base):
        own = []
        for index, config_of_stream in streams:
            if not 1 <= index <= num_bis or index in named:
                counted[f'stream of the BASE that the group does not have: {index}'] += 1
                continue
            named.add(index)
            own.append(f'bis {index} {word(config_of_stream, counted)}')
        if own:
            lines += [f'subgroup {codec} {word(config, counted)}', f'meta {word(metadata, counted)}'] + own
    return lines


def word(octets, counted):
    """The octets as a word, or `-` where they are no LTV list."""
    if not is_list(octets):
        counted['configuration or metadata of the BASE that is no LTV list'] += 1
        return '-'
    return octets.hex() or '-'


def is_list(octets):
    """Whether the octets are structures of a length, a type and a value, one behind the other."""
    place = 0
    while place < len(octets):
        if octets[place] == 0:
            return False
        place += 1 + octets[place]
    return place == len(octets)
