"""Documents in TOML that were worked by hand, each with what is written: the transcript of the lines that it stands for, or the line of its
refusal. FORMS are whole documents, for the forms of TOML and those of the language; TABLES are the keys of a document that has them all,
with the line and the word of it that each becomes."""

NO_TOML = 'line 0: BadToml\n'
NO_FORM = 'line 0: BadDocument\n'
TOO_LONG = 'line 0: TextTooLong\n'
HEARD = 'unit 0 1 at 60060 valid 3 0a0b0c\nsum 0 1 3\n'
LIMIT = 1048576

# A document that stands for `scenario 1`, `group ..`, `sink 0 1 1` and six steps. Each piece of it may be another.
STEPS = 'steps = ["start 0", "tuned 0 1", "unit 1 - 0a0b0c", "event", "hear 0 0 1 0", "end"]\n'
GROUP = ('framing = "unframed"\norigin = 20000\ndelay = 40000\niso = 8\nsdu = 10000\nmax_sdu = 4\nmax_pdu = 4\nnum_bis = 1\nbn = 1\n'
         'nse = 1\nirc = 1\npto = 0\nsub = 0\nspacing = 0\nphy = 1\n')
SINK = 'number = 0\nstreams = 1\nslots = 1\n'
ROW = f'version = 1\n{STEPS}[group]\n{GROUP}[[sinks]]\n{SINK}'
INLINE = ', '.join(GROUP.splitlines())


def row(old: str, new: str) -> str:
    """The document of the row with one piece in the place of another."""
    assert ROW.count(old) == 1, old
    return ROW.replace(old, new)


def framed_as(text: str) -> str:
    return row('"unframed"', text)


def from_origin(number: str) -> str:
    return row('20000', number)


def steps(*texts: str) -> str:
    """A document of a version and these steps alone, each as TOML spells it."""
    return f'version = 1\nsteps = [{", ".join(texts)}]\n'


def sinks(*tables: str) -> str:
    return steps('"end"') + ''.join(f'[[sinks]]\n{table}\n' for table in tables)


def of_version(value: str) -> str:
    return f'version = {value}\nsteps = ["end"]\n'


def padded(length: int) -> str:
    """The document of the row, with a comment behind it, of so many octets."""
    return ROW + '#' * (length - len(ROW))


# a name, the document, and what is written
FORMS: list[tuple[str, str | bytes, str]] = [
    ('tables under headers', ROW, HEARD),
    ('inline tables', f'version = 1\n{STEPS}group = {{{INLINE}}}\nsinks = [{{number = 0, streams = 1, slots = 1}}]\n', HEARD),
    ('an inline table over several lines', f'version = 1\n{STEPS}group = {{\n{INLINE},\n}}\n[[sinks]]\n{SINK}', HEARD),
    ('dotted keys', f'version = 1\n{STEPS}' + ''.join(f'group . {it}\n' for it in GROUP.splitlines()) + f'[[sinks]]\n{SINK}', HEARD),
    ('quoted keys', f'"version" = 1\n\'steps\'{STEPS[5:]}["group"]\n{GROUP}[[ "sinks" ]]\n{SINK}', HEARD),
    ('a key with an escape', row('version', '"ver\\u0073ion"'), HEARD),
    ('tables in another order', f'version = 1\n{STEPS}[[sinks]]\n{SINK}[group]\n{GROUP}', HEARD),
    ('keys in another order', f'{STEPS}version = 1\n[[sinks]]\nslots = 1\nnumber = 0\nstreams = 1\n[group]\n{GROUP}', HEARD),
    ('comments, blanks and empty lines', ROW.replace('\n', '\t # a comment\n\n').replace(' =', '\t='), HEARD),
    ('carriage returns before line ends', ROW.replace('\n', '\r\n'), HEARD),
    ('a byte order mark', '\ufeff' + ROW, HEARD),
    ('no line end at the end', ROW[:-1], HEARD),
    ('an array over several lines', row('"start 0", ', '"start 0", # the first step\n'), HEARD),
    ('a comma behind the last text', row('"end"]', '"end",]'), HEARD),
    ('version 2', row('version = 1', 'version = 2'), HEARD),
    # what is no document
    ('no octet', '', NO_FORM),
    ('a key alone', 'version =', NO_TOML),
    ('a line of a scenario', 'scenario 1\nend\n', NO_TOML),
    ('a bare carriage return', row('version = 1\n', 'version = 1\r'), NO_TOML),
    ('a NUL', row('version = 1\n', 'version = 1 #\x00\n'), NO_TOML),
    ('a NUL behind all', ROW + '\x00', NO_TOML),
    ('octets that are no UTF-8', ROW.encode() + b'#\xff\n', NO_TOML),
    ('a cut character', ROW.encode() + b'#\xc3', NO_TOML),
    ('UTF-16', ROW.encode('utf-16'), NO_TOML),
    ('a byte order mark in the middle', row('steps', '\ufeffsteps'), NO_TOML),
    # keys that stand twice
    ('version twice', 'version = 1\n' + ROW, NO_TOML),
    ('a key and the same quoted', '"version" = 1\n' + ROW, NO_TOML),
    ('a table twice', ROW + '[group]\n', NO_TOML),
    ('a table and a key of it', 'group.phy = 1\n' + ROW, NO_TOML),
    ('an array and its header', 'sinks = []\n' + ROW, NO_TOML),
    ('an inline table and its header', 'group = {}\n' + ROW, NO_TOML),
    # keys that stand elsewhere
    ('steps behind a header', f'version = 1\n[group]\n{GROUP}{STEPS}', NO_FORM),
    ('version behind a header', f'{STEPS}[group]\n{GROUP}version = 1\n', NO_FORM),
    ('a group of a group', row('[group]', '[group.group]'), NO_FORM),
    ('another key', 'speed = 1\n' + ROW, NO_FORM),
    ('a key with a capital', row('version', 'Version'), NO_FORM),
    ('a key without a letter', '"" = 1\n' + ROW, NO_FORM),
    ('another key of a group', row('phy = 1', 'phy = 1\nphys = 1'), NO_FORM),
    ('another key of a sink', ROW + 'name = "left"\n', NO_FORM),
    ('another key of an ident', ROW + '[ident]\ntype = 0\naddress = "665544332211"\nsid = 3\nid = "563412"\nname = "a"\n', NO_FORM),
    ('another key of a subgroup', ROW + '[[subgroups]]\ncodec = "0600000000"\nconfig = "-"\nname = "a"\n', NO_FORM),
    ('another key of a stream', ROW + '[[subgroups]]\ncodec = "-"\nconfig = "-"\nbis = [{index = 1, config = "-", meta = "-"}]\n', NO_FORM),
    ('another key of a record', ROW + 'pacs = [{codec = "0600000000", caps = "-", meta = "-", config = "-"}]\n', NO_FORM),
    # integers
    ('hexadecimal', from_origin('0x4e20'), HEARD),
    ('hexadecimal with capitals and underscores', from_origin('0x4E_20'), HEARD),
    ('octal', from_origin('0o47040'), HEARD),
    ('binary', from_origin('0b100111000100000'), HEARD),
    ('leading zeros in hexadecimal', from_origin('0x00004e20'), HEARD),
    ('underscores', from_origin('2_0_0_0_0'), HEARD),
    ('a plus', from_origin('+20000'), HEARD),
    ('minus 0', row('pto = 0', 'pto = -0'), HEARD),
    ('plus 0', row('pto = 0', 'pto = +0'), HEARD),
    ('a leading zero', from_origin('020000'), NO_TOML),
    ('two underscores', from_origin('20__000'), NO_TOML),
    ('a last underscore', from_origin('20000_'), NO_TOML),
    ('a plus before hexadecimal', from_origin('+0x4e20'), NO_TOML),
    ('a capital for hexadecimal', from_origin('0X4e20'), NO_TOML),
    ('2^63 - 1', from_origin('9223372036854775807'), 'line 2: BadLine 2\n'),
    ('2^63 - 1 in hexadecimal', from_origin('0x7fffffffffffffff'), 'line 2: BadLine 2\n'),
    ('2^63', from_origin('9223372036854775808'), NO_TOML),
    ('2^63 in hexadecimal', from_origin('0x8000000000000000'), NO_TOML),
    ('-2^63', from_origin('-9223372036854775808'), 'line 2: BadLine 2\n'),
    ('-2^63 - 1', from_origin('-9223372036854775809'), NO_TOML),
    ('a negative version', of_version('-1'), 'line 1: BadLine 1\n'),
    ('version 0', of_version('0'), 'line 1: BadLine 1\n'),
    ('version 3', of_version('3'), 'line 1: BadLine 1\n'),
    ('a negative delay', row('delay = 40000', 'delay = -40000'), 'line 2: BadLine 3\n'),
    ('a negative number of a sink', row('number = 0', 'number = -1'), 'line 3: BadLine 1\n'),
    ('negative slots', row('slots = 1', 'slots = -1'), 'line 3: BadLine 3\n'),
    # values of other types
    ('a float', of_version('1.0'), NO_FORM),
    ('a float with an exponent', of_version('1e0'), NO_FORM),
    ('inf', of_version('inf'), NO_FORM),
    ('minus nan', of_version('-nan'), NO_FORM),
    ('a float past all', of_version('1e400'), NO_TOML),
    ('a float without a digit behind the point', of_version('1.'), NO_TOML),
    ('a boolean', of_version('true'), NO_FORM),
    ('a date', of_version('1979-05-27'), NO_FORM),
    ('a date and time with an offset', of_version('1979-05-27T07:32:00Z'), NO_FORM),
    ('a date and time without seconds', of_version('1979-05-27 07:32'), NO_FORM),
    ('a time', of_version('07:32:00'), NO_FORM),
    ('no date', of_version('1979-13-27'), NO_TOML),
    ('a text of digits', of_version('"1"'), NO_FORM),
    ('a table for version', 'version.x = 1\nsteps = ["end"]\n', NO_FORM),
    ('a text for steps', 'version = 1\nsteps = "end"\n', NO_FORM),
    ('an array of two types', steps('"end"', '1'), NO_FORM),
    ('an array of arrays for steps', steps('["end"]'), NO_FORM),
    ('a table for sinks', row('[[sinks]]', '[sinks]'), NO_FORM),
    ('an array of arrays of tables for sinks', steps('"end"') + 'sinks = [[{number = 0, streams = 1, slots = 1}]]\n', NO_FORM),
    ('a number for a sink', steps('"end"') + 'sinks = [0]\n', NO_FORM),
    ('an array of tables for group', row('[group]', '[[group]]'), NO_FORM),
    # texts that become words
    ('a literal text', framed_as("'unframed'"), HEARD),
    ('a text over several lines', framed_as('"""unframed"""'), HEARD),
    ('a literal text over several lines', framed_as("'''unframed'''"), HEARD),
    ('a line end behind three quotes', framed_as('"""\nunframed"""'), HEARD),
    ('a line end behind three quotes, with its carriage return', framed_as("'''\r\nunframed'''"), HEARD),
    ('a backslash at the line end', framed_as('"""unfr\\\n   \n amed"""'), HEARD),
    ('an escape of four digits', framed_as('"\\u0075nframed"'), HEARD),
    ('an escape of eight digits', framed_as('"unframe\\U00000064"'), HEARD),
    ('an escape of two digits', framed_as('"un\\x66ramed"'), HEARD),
    ('an escape in a literal text', framed_as("'\\u0075nframed'"), 'line 2: BadLine 1\n'),
    ('another escape', framed_as('"\\qunframed"'), NO_TOML),
    ('an escape of half a character', framed_as('"\\ud800"'), NO_TOML),
    ('an escape past all characters', framed_as('"\\U00110000"'), NO_TOML),
    ('an escape cut short', framed_as('"\\u75"'), NO_TOML),
    ('a text without its end', framed_as('"unframed'), NO_TOML),
    ('a line end in a text', framed_as('"un\nframed"'), NO_TOML),
    ('a word without an octet', framed_as('""'), NO_FORM),
    ('a word with a space', framed_as('"un framed"'), NO_FORM),
    ('a word with a space at its end', framed_as('"unframed "'), NO_FORM),
    ('a word with 0x7f', framed_as('"unframed\\u007f"'), NO_FORM),
    ('a word with 0x7f as it is', framed_as('"unframed\x7f"'), NO_TOML),
    ('a word with octets above', framed_as('"unframéd"'), NO_FORM),
    ('a word with a tab', framed_as('"unframed\t"'), NO_FORM),
    ('a word with a line end', framed_as('"unframed\\n"'), NO_FORM),
    ('a word of 0x21', framed_as('"!"'), 'line 2: BadLine 1\n'),
    ('a word of 0x7e', framed_as('"~"'), 'line 2: BadLine 1\n'),
    # texts that become lines
    ('no group and no sink', steps('"end"'), ''),
    ('no step', steps(), 'line 2: NoEnd\n'),
    ('no step behind a group and a sink', row(STEPS, 'steps = []\n'), 'line 4: NoEnd\n'),
    ('no end', row(', "end"]', ']'), 'line 9: NoEnd\n'),
    ('empty steps and comments', steps('""', '"#"', '"# a comment"', "''", '"end"', '""'), ''),
    ('escapes in a comment', steps('"#\\b\\t\\f\\r\\e\\"\\\\\\u0000\\u00e9\\U0001f600"', '"end"'), ''),
    ('a line end in a step', steps('"end\\n"'), NO_FORM),
    ('a line end in a comment of a step', steps('"#\\u000aend"'), NO_FORM),
    ('a line end in a step over several lines', steps('"""end\n"""'), NO_FORM),
    ('a line end with its carriage return there', steps("'''end\r\n'''"), NO_FORM),
    ('a carriage return in a step', steps('"end\\r"'), 'line 2: BadLine 0\n'),
    ('a NUL in a step', steps('"end\\u0000"'), 'line 2: BadLine 0\n'),
    ('a tab in a step', steps('"end\\t"'), 'line 2: BadLine 0\n'),
    ('octets above in a step', steps('"énd"'), 'line 2: BadLine 0\n'),
    ('a space before a step', steps('" end"'), 'line 2: BadLine 0\n'),
    ('a space behind a step', steps('"end "'), 'line 2: BadLine 1\n'),
    ('scenario again', steps('"scenario 1"', '"end"'), 'line 2: Order\n'),
    ('a step behind end', steps('"end"', '"end"'), 'line 3: AfterEnd\n'),
    ('a step of 9,000 octets', steps('"#' + 'x' * 8999 + '"', '"end"'), ''),
    ('a step of 9,001 octets', steps('"#' + 'x' * 9000 + '"', '"end"'), 'line 2: LineTooLong\n'),
    # arrays
    ('two sinks', sinks(SINK, SINK.replace('number = 0', 'number = 5')), 'sum 0 0 0\nsum 5 0 0\n'),
    ('a sink twice', sinks(SINK, SINK), 'line 3: SinkTwice\n'),
    ('empty arrays', steps('"end"') + 'sinks = []\nsubgroups = []\n', ''),
    ('empty arrays in tables', ROW + 'pacs = []\n', HEARD),
    ('no context', ROW + 'contexts = []\n', NO_FORM),
    ('one context', ROW + 'contexts = ["ffff"]\n', NO_FORM),
    ('two contexts', ROW + 'contexts = ["ffff", "ffff"]\n', HEARD),
    ('three contexts', ROW + 'contexts = ["ffff", "ffff", "ffff"]\n', NO_FORM),
    ('contexts that are numbers', ROW + 'contexts = [65535, 65535]\n', NO_FORM),
    ('80 levels', 'x = ' + '[' * 80 + ']' * 80 + '\n', NO_FORM),
    ('81 levels', 'x = ' + '[' * 81 + ']' * 81 + '\n', NO_TOML),
    # lengths
    ('1,048,576 octets', padded(LIMIT), HEARD),
    ('1,048,577 octets', padded(LIMIT + 1), TOO_LONG),
    ('1,048,577 octets that are no document', 'x' * (LIMIT + 1), TOO_LONG),
    ('1,048,576 octets that are no document', 'x' * LIMIT, NO_TOML),
    ('3,000,000 octets', padded(3000000), TOO_LONG),
]

# A document with all keys and no step. It stands for ten lines: `scenario`, `group`, `ident`, `subgroup`, `meta`, `bis`, `sink`, `pac`,
# `locate` and `context`. Behind each header are its keys, each with its value and the word that it becomes, of its line. What is written
# without a key that may be missing stands behind it.
ALL = 'line 11: NoEnd\n'
LESS = 'line 10: NoEnd\n'
Key = tuple[str, str, int | None, int | None, str | None]  # its value, its line and its word there, and what is written without it
TABLES: list[tuple[str, list[Key]]] = [
    ('', [('version', '1', 1, 1, None), ('steps', '[]', None, None, None)]),
    ('[group]', [('framing', '"unframed"', 2, 1, None), *(
        (it.split(' = ')[0], it.split(' = ')[1], 2, word, None) for word, it in enumerate(GROUP.splitlines()[1:], 2))]),
    ('[ident]', [('type', '0', 3, 1, None), ('address', '"665544332211"', 3, 2, None), ('sid', '3', 3, 3, None),
                 ('id', '"563412"', 3, 4, None)]),
    ('[[subgroups]]', [('codec', '"0600000000"', 4, 1, None), ('config', '"02010802020103040400"', 4, 2, None),
                       ('meta', '"03020400"', 5, 1, LESS)]),
    ('[[subgroups.bis]]', [('index', '1', 6, 1, None), ('config', '"050301000000"', 6, 2, None)]),
    ('[[sinks]]', [('number', '0', 7, 1, None), ('streams', '1', 7, 2, None), ('slots', '1', 7, 3, None), ('mtu', '517', 7, 4, ALL),
                   ('locations', '"01000000"', 9, 2, LESS), ('contexts', '["ffff", "0000"]', None, None, LESS)]),
    ('[[sinks.pacs]]', [('codec', '"0600000000"', 8, 2, None), ('caps', '"03018000020203050404009b00"', 8, 3, None),
                        ('meta', '"-"', 8, 4, None)]),
]
# The tables that may be missing: the first header and the last one that go with a key, the header that the key stands behind, and
# what is written without it.
OPTIONAL = [
    ('group', '[group]', '[group]', '', 'line 2: Order\n'),
    ('ident', '[ident]', '[ident]', '', LESS),
    ('subgroups', '[[subgroups]]', '[[subgroups.bis]]', '', 'line 8: NoEnd\n'),
    ('bis', '[[subgroups.bis]]', '[[subgroups.bis]]', '[[subgroups]]', LESS),
    ('sinks', '[[sinks]]', '[[sinks.pacs]]', '', 'line 7: NoEnd\n'),
    ('pacs', '[[sinks.pacs]]', '[[sinks.pacs]]', '[[sinks]]', LESS),
]
VALUES = ['"1"', '1', '1.0', 'true', '1979-05-27', '07:32:00', '[1]', '["1"]', '{}']
# values that fit no place: an integer and a text
NO_NUMBER, NO_OCTETS = '9007199254740992', '"zz"'
