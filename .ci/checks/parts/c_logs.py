"""The log of calls that c/tests/play.c makes for a scenario, and the lines that it has to write."""
import dataclasses
from collections.abc import Iterator, Sequence

from checks.parts.scenarios import Steps, is_refusal

LC3 = '0600000000'
NOT_FOLLOWED = ('NoBroadcastId', 'NotWanted', 'OtherTrain', 'AlreadyOnGroup')
FIELDS = (('iso', 15), ('num_bis', 27), ('nse', 32), ('bn', 37), ('sub', 40), ('pto', 60), ('spacing', 64), ('irc', 84), ('max_pdu', 88),
          ('sdu', 136), ('max_sdu', 156), ('phy', 221), ('framing', 263))  # the first bit of each in a BIGInfo
GROUP = ('origin', 'delay', 'iso', 'sdu', 'max_sdu', 'max_pdu', 'num_bis', 'bn', 'nse', 'irc', 'pto', 'sub', 'spacing', 'phy')


class Unfit(Exception):
    """The scenario has a step that no call of the library makes."""


def octets(word: str) -> bytes:
    return b'' if word == '-' else bytes.fromhex(word)


def word(of: bytes) -> str:
    return of.hex() or '-'


def counted(of: bytes) -> bytes:
    return bytes([len(of)]) + of


@dataclasses.dataclass
class Subgroup:
    codec: bytes
    config: bytes
    metadata: bytes = b''
    streams: list[tuple[int, bytes]] = dataclasses.field(default_factory=list)

    def octets(self) -> bytes:
        streams = b''.join(bytes([bis]) + counted(config) for bis, config in self.streams)
        return bytes([len(self.streams)]) + self.codec + counted(self.config) + counted(self.metadata) + streams


@dataclasses.dataclass
class Source:
    group: dict[str, int] = dataclasses.field(default_factory=dict)
    identity: Sequence[str] = ('0', '000000000000', '0', '000000')
    subgroups: list[Subgroup] = dataclasses.field(default_factory=list)
    cipher: bytes = b''
    next: int = 0
    is_started: bool = False
    is_open: bool = False

    def base(self) -> bytes:
        plain = Subgroup(octets(LC3), b'', b'', [(bis, b'') for bis in range(1, self.group['num_bis'] + 1)])
        subgroups = self.subgroups or [plain]
        return self.group['delay'].to_bytes(3, 'little') + bytes([len(subgroups)]) + b''.join(it.octets() for it in subgroups)

    def info(self) -> bytes:
        bits = sum(self.group[name] << first for name, first in FIELDS)
        return bits.to_bytes(33, 'little') + self.cipher


@dataclasses.dataclass
class Sink:
    slots: int
    source: int | None = None


class Log:
    """Takes the steps of a scenario one by one, and gives the calls of each. What no call writes is taken out of the step's rows."""

    def __init__(self) -> None:
        self.sources = [Source(), Source()]
        self.sinks: dict[int, Sink] = {}
        self.chosen = 0
        self.version = ''

    @property
    def source(self) -> Source:
        return self.sources[self.chosen]

    def calls(self, line: str, rows: list[str]) -> Iterator[str]:
        words = line.split(' ')
        step = getattr(self, f'step_{words[0]}', None)
        if step is None:
            raise Unfit(words[0])
        yield from step(words, rows)

    # what a source is

    def step_scenario(self, w: list[str], rows: list[str]) -> Iterator[str]:
        self.version = w[1]
        yield from ()

    def step_source(self, w: list[str], rows: list[str]) -> Iterator[str]:
        self.chosen = int(w[1])
        yield from ()

    def step_group(self, w: list[str], rows: list[str]) -> Iterator[str]:
        self.source.group = {**dict(zip(GROUP, map(int, w[2:]), strict=True)), 'framing': int(w[1] == 'framed')}
        yield from ()

    def step_ident(self, w: list[str], rows: list[str]) -> Iterator[str]:
        self.source.identity = w[1:]
        yield from ()

    def step_subgroup(self, w: list[str], rows: list[str]) -> Iterator[str]:
        self.source.subgroups.append(Subgroup(octets(w[1]), octets(w[2])))
        yield from ()

    def step_meta(self, w: list[str], rows: list[str]) -> Iterator[str]:
        self.source.subgroups[-1].metadata = octets(w[1])
        yield from ()

    def step_bis(self, w: list[str], rows: list[str]) -> Iterator[str]:
        self.source.subgroups[-1].streams.append((int(w[1]), octets(w[2])))
        yield from ()

    def step_cipher(self, w: list[str], rows: list[str]) -> Iterator[str]:
        self.source.cipher = octets(w[1]) + octets(w[2])
        yield from ()

    def step_start(self, w: list[str], rows: list[str]) -> Iterator[str]:
        it = self.source
        it.next, it.is_started = int(w[1]), True
        yield f'source {self.chosen} {" ".join(it.identity)} {word(it.info())} {word(it.base())} {it.group["origin"]} {w[1]}'

    # what a source does

    def closes(self) -> Iterator[str]:
        """The event that is open is over, for each sink of the source that is chosen."""
        if self.source.is_open:
            for number in sorted(self.sinks):
                if self.sinks[number].source == self.chosen:
                    yield f'tick {number} {self.source.next - 1}'
        self.source.is_open = False

    def step_unit(self, w: list[str], rows: list[str]) -> Iterator[str]:
        yield f'unit {self.chosen} {" ".join(w[1:])}'

    def step_event(self, w: list[str], rows: list[str]) -> Iterator[str]:
        yield from self.closes()
        yield f'event {self.chosen}'
        self.source.next += 1
        self.source.is_open = True

    def step_sniff(self, w: list[str], rows: list[str]) -> Iterator[str]:
        yield f'sniff {self.chosen} {" ".join(w[1:])}'

    def step_stop(self, w: list[str], rows: list[str]) -> Iterator[str]:
        yield from self.closes()
        yield f'stop {self.chosen}'

    def step_terminate(self, w: list[str], rows: list[str]) -> Iterator[str]:
        yield from self.closes()
        yield f'terminate {self.chosen} {w[1]}'
        yield f'stop {self.chosen}'

    def step_end(self, w: list[str], rows: list[str]) -> Iterator[str]:
        for self.chosen in (0, 1):
            yield from self.closes()
        for number in sorted(self.sinks):
            yield f'drop {number}'

    # a sink

    def step_sink(self, w: list[str], rows: list[str]) -> Iterator[str]:
        self.sinks[int(w[1])] = Sink(int(w[3]))
        yield f'sink {w[1]} {w[2]} {w[3]} {w[4] if len(w) > 4 else 0}'

    def step_pac(self, w: list[str], rows: list[str]) -> Iterator[str]:
        yield ' '.join(w)

    step_locate = step_pac

    def step_context(self, w: list[str], rows: list[str]) -> Iterator[str]:
        yield f'context {w[1]} {w[2]}'

    def step_tuned(self, w: list[str], rows: list[str]) -> Iterator[str]:
        if not self.source.is_started:
            raise Unfit('tuned before start')
        self.sinks[int(w[1])].source = self.chosen
        streams = sum(1 << int(bis) - 1 for bis in w[2:])
        yield f'tune {w[1]} {self.chosen} {streams} {self.source.group["delay"]}'

    def train(self, sink: str, train: list[str], row: str) -> Iterator[str]:
        if self.version == '1' and row.endswith(' BadGroup 11'):
            raise Unfit('16 to 31 events ahead, which version 2 allows and the library too')
        if row.split(' ')[2] not in NOT_FOLLOWED:
            self.sinks[int(sink)].source = self.chosen
        yield f'train {sink} {self.source.identity[0]} {self.source.identity[2]} {" ".join(train)}'

    def step_announce(self, w: list[str], rows: list[str]) -> Iterator[str]:
        yield f'announce {self.chosen} {w[1]}'
        yield from self.train(w[1], rows[0].split(' ')[2:], rows[1])

    def step_train(self, w: list[str], rows: list[str]) -> Iterator[str]:
        yield from self.train(w[1], w[2:], rows[0])

    def hears(self, number: str) -> bool:
        return self.sinks[int(number)].source == self.chosen

    def step_hear(self, w: list[str], rows: list[str]) -> Iterator[str]:
        if self.hears(w[1]):
            yield f'hear {w[1]} {self.chosen} {" ".join(w[2:])}'

    def step_air(self, w: list[str], rows: list[str]) -> Iterator[str]:
        count, nse, lose = self.source.group['num_bis'], self.source.group['nse'], int(w[2])
        for bis in range(count if self.hears(w[1]) else 0):
            for subevent in range(nse):
                place = ((self.source.next - 1) * count + bis) * nse + subevent
                if not lose or place % lose != lose - 1:
                    yield f'hear {w[1]} {self.chosen} 0 {bis + 1} {subevent}'

    def step_inject(self, w: list[str], rows: list[str]) -> Iterator[str]:
        if self.hears(w[1]):
            yield f'inject {w[1]} {self.source.next - 1 - int(w[2])} {" ".join(w[3:])}'
        else:
            rows.clear()

    def step_control(self, w: list[str], rows: list[str]) -> Iterator[str]:
        yield ' '.join(w)

    step_lose = step_control

    def step_relay(self, w: list[str], rows: list[str]) -> Iterator[str]:
        yield ' '.join(w)

    def step_drop(self, w: list[str], rows: list[str]) -> Iterator[str]:
        del self.sinks[int(w[1])]
        yield ' '.join(w)

    # a link: lines that name none mean link 0, and print other words

    def on_link(self, w: list[str], rows: list[str]) -> Iterator[str]:
        yield ' '.join([w[0], w[1], '-', *w[2:]])

    step_write = step_add = step_modify = step_remove = step_code = step_serve = step_tell = step_read = step_drain = step_forge = on_link

    def step_show(self, w: list[str], rows: list[str]) -> Iterator[str]:
        for slot in range(self.sinks[int(w[1])].slots):
            yield f'state {w[1]} {slot}'
            yield f'view {w[1]} - {slot}'

    def step_ashow(self, w: list[str], rows: list[str]) -> Iterator[str]:
        for slot in range(self.sinks[int(w[1])].slots):
            yield f'view {w[1]} {w[2]} {slot}'

    def named(self, w: list[str], rows: list[str]) -> Iterator[str]:
        yield ' '.join([w[0].removeprefix('a'), *w[1:]])

    step_awrite = step_aserve = step_atell = step_aread = step_adrain = named

    def step_assist(self, w: list[str], rows: list[str]) -> Iterator[str]:
        yield ' '.join(w)

    step_apart = step_assist


def log_of(steps: Steps) -> tuple[list[str], list[str]]:
    """The calls of a scenario up to its end or to the line that is refused, and the lines that they write."""
    log, calls, wanted = Log(), list[str](), list[str]()
    for line, printed in steps:
        if line is None:
            raise Unfit('no line')
        if any(map(is_refusal, printed)):
            break
        if not line or line.startswith(b'#'):
            continue
        rows = [row.decode() for row in printed]
        calls += log.calls(line.decode(), rows)
        wanted += rows
    return calls, wanted
