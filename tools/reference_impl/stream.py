"""Random streams with plausible observations, of any length: one epoch a second, with a message 1005 every ten."""
import itertools
import random
from collections.abc import Iterator
from dataclasses import dataclass, field

from .fields import FORMS, Fields, packed, pairs_of
from .messages import AHEAD, DAY, FIRST_NUMBERS, WEEK
from .messages import SATELLITES as IDS
from .recode import as_form

# The least and the greatest range of a satellite, in 2^-31 ms.
RANGES = {"G": (67 << 31, 86 << 31), "E": (78 << 31, 96 << 31)}
RANGES |= {
    "R": (63 << 31, 86 << 31),
    "C": (72 << 31, 139 << 31),
    "J": (106 << 31, 138 << 31),
    "S": (120 << 31, 139 << 31),
}
SATELLITES = {"G": 12, "E": 10}
# By ID: GPS 1C, 2L and 5Q; Galileo 1C, 6C, 7Q and 5Q.
SIGNALS = {"G": (2, 16, 23), "E": (2, 8, 15, 23)}
PLAN = ["--gps", "1C,2L,5Q", "--galileo", "1C,6C,7Q,5Q"]
MOST_PAIRS = 64
STATION = 2003
LEAP_SECONDS = 18
# The channels of GLONASS slots, by the rest of the slot by 8.
CHANNELS = (6, 1, -4, 5, -7, 0, -1, 3)
POSITION = (40_278_817_000, 3_306_800_000, 49_199_122_000)
CRC_TABLE = []
for _byte in range(256):
    _rest = _byte << 16
    for _ in range(8):
        _rest = _rest << 1 ^ (0x1864CFB if _rest & 0x800000 else 0)
    CRC_TABLE.append(_rest)


@dataclass(frozen=True)
class Form:
    """What an epoch has of each system, a number of random satellites or their IDs, and how it is split into messages.

    A message has at most `per` satellites and `group` signals, and 64 pairs of them. The messages of a system rise by
    groups, then by satellites, or fall, or are in a random order. Each is sent `times` times, with other values, as an
    MSM of the form `msm`.
    """

    satellites: dict[str, int | tuple[int, ...]] = field(default_factory=lambda: SATELLITES)
    signals: dict[str, tuple[int, ...]] = field(default_factory=lambda: SIGNALS)
    per: int = 64
    group: int = 32
    order: str = "rise"
    times: int = 1
    msm: int = 7


PLAIN = Form()
# Four systems as receivers send them: besides GPS and Galileo GLONASS 1C and 2C, and BeiDou 2I, 6I and 1P.
FOUR = Form(
    SATELLITES | {"R": 9, "C": 14},
    SIGNALS | {"R": (2, 8), "C": (2, 8, 31)},
)


def frame_of(message: bytes) -> bytes:
    """Returns the frame of a message; the CRC is computed by a table."""
    frame = b"\xd3" + len(message).to_bytes(2, "big") + message
    rest = 0
    for byte in frame:
        rest = (rest << 8 & 0xFFFFFF) ^ CRC_TABLE[rest >> 16 ^ byte]
    return frame + rest.to_bytes(3, "big")


def station_message(position: tuple[int, int, int] = POSITION) -> bytes:
    x, y, z = position
    return packed([(12, 1005), (12, STATION), (10, 0b1110), (38, x), (2, 0), (38, y), (2, 0), (38, z)])


def lock_code(milliseconds: int) -> int:
    """Returns DF407 of a lock time."""
    k = max(0, milliseconds.bit_length() - 6)
    return min((milliseconds >> k) + 32 * k, 704)


# The satellites and the signals of a message.
Part = tuple[list[int], list[int]]


def pieces(items: list[int], size: int) -> list[list[int]]:
    return [items[n : n + size] for n in range(0, len(items), size)]


def time_sent(system: str, time: int) -> int:
    """Returns the 30 bits of the time of a system at a GPS time in ms."""
    own = (time - AHEAD[system] - (1000 * LEAP_SECONDS if system == "R" else 0)) % WEEK
    return own // DAY << 27 | own % DAY if system == "R" else own


class System:
    """The satellites of a system: each moves at its own speed, and loses a lock now and then."""

    def __init__(self, system: str, form: Form, draw: random.Random) -> None:
        self.system, self.form, self.draw = system, form, draw
        given = form.satellites[system]
        ids = sorted(draw.sample(range(1, IDS[system] + 1), given)) if isinstance(given, int) else given
        low, high = RANGES[system]
        self.start = {satellite: draw.randrange(low, high) for satellite in ids}
        # m/s in units of 0.0001
        self.rate = {satellite: draw.randrange(-7_000_000, 7_000_000) for satellite in ids}
        self.locked_at = {(satellite, signal): 0 for satellite in ids for signal in form.signals[system]}

    def extended(self, satellites: list[int]) -> list[int]:
        """Returns the extended information: for GLONASS the channels and 7."""
        return [CHANNELS[slot % 8] + 7 if self.system == "R" else 0 for slot in satellites]

    def parts(self) -> list[Part]:
        """Returns the satellites and signals of the messages of an epoch, in the order in which they are sent."""
        form, ids, parts = self.form, list(self.start), []
        for group in pieces(list(form.signals[self.system]), form.group):
            parts += [(part, group) for part in pieces(ids, min(form.per, MOST_PAIRS // len(group)))]
        parts *= form.times
        if form.order == "fall":
            parts.reverse()
        elif form.order == "random":
            self.draw.shuffle(parts)
        return parts

    def message(self, part: Part, time: int, more: int, msm: int | None = None) -> bytes:
        """Returns the MSM of these satellites and signals and a time in ms, of this form or of that of the stream."""
        satellites, signals = part
        draw, low, high = self.draw, *RANGES[self.system]
        ranges, rates = [], []
        for satellite in satellites:
            moved = self.rate[satellite] * time * (1 << 31) // (10_000 * 299_792_458)
            ranges.append(low + (self.start[satellite] - low + moved) % (high - low))
            rates.append(self.rate[satellite])
        rough = [at + (1 << 20) >> 21 for at in ranges]
        speeds = [(rate + 5_000) // 10_000 for rate in rates]
        cells: dict[str, list[int]] = {name: [] for name in FORMS[7].cell}
        for n, satellite in enumerate(satellites):
            rest = ranges[n] - (rough[n] << 21)
            for signal in signals:
                key, noise = (satellite, signal), draw.getrandbits(30)
                if noise >> 13 == 77:
                    self.locked_at[key] = time
                cells["range"].append(rest // 4 + (noise & 255))
                cells["phase"].append(rest + (noise >> 8 & 31))
                cells["lock"].append(lock_code(time - self.locked_at[key]))
                cells["half"].append(noise >> 13 == 78)
                cells["strength"].append(560 + (noise >> 13 & 255))
                cells["rate"].append(rates[n] - 10_000 * speeds[n] + (noise >> 21 & 7))
        number = FIRST_NUMBERS[self.system] + 7
        of_satellites = {
            "whole": [at >> 10 for at in rough],
            "extended": self.extended(satellites),
            "part": rough,
            "speed": speeds,
        }
        pairs = pairs_of(satellites, signals)
        sent_time = time_sent(self.system, time)
        sent = Fields(number, STATION, sent_time, more, satellites, signals, pairs, of_satellites, cells)
        return as_form(sent, msm or self.form.msm).message()


def frames(seed: int, form: Form = PLAIN) -> Iterator[bytes]:
    """Returns the frames of an endless stream; the same seed gives the same frames."""
    draw = random.Random(seed)
    systems = [System(system, form, draw) for system in form.signals]
    for epoch in itertools.count():
        if epoch % 10 == 0:
            yield frame_of(station_message())
        messages = [(system, part) for system in systems for part in system.parts()]
        for place, (system, part) in enumerate(messages, 1):
            yield frame_of(system.message(part, 1000 * epoch, place < len(messages)))


def stream(size: int, seed: int = 1, form: Form = PLAIN) -> bytes:
    """Returns whole frames of at least this number of bytes."""
    made = bytearray()
    for frame in frames(seed, form):
        made += frame
        if len(made) >= size:
            return bytes(made)
    raise AssertionError
