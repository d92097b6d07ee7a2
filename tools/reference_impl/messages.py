"""Messages, and the values of each cell."""
from collections.abc import Iterable
from dataclasses import dataclass, field
from fractions import Fraction

from .fields import FORMS, Bits, Fields, Refused, ones, read_fields

WEEK = 604_800_000

# By ID.
GPS_SIGNALS = {
    2: "1C", 3: "1P", 4: "1W", 8: "2C", 9: "2P", 10: "2W", 15: "2S", 16: "2L", 17: "2X",
    22: "5I", 23: "5Q", 24: "5X", 30: "1S", 31: "1L", 32: "1X",
}  # fmt: skip
GALILEO_SIGNALS = {
    2: "1C", 3: "1A", 4: "1B", 5: "1X", 6: "1Z", 8: "6C", 9: "6A", 10: "6B", 11: "6X", 12: "6Z",
    14: "7I", 15: "7Q", 16: "7X", 18: "8I", 19: "8Q", 20: "8X", 22: "5I", 23: "5Q", 24: "5X",
}  # fmt: skip
GLONASS_SIGNALS = {2: "1C", 3: "1P", 8: "2C", 9: "2P"}
BEIDOU_SIGNALS = {
    2: "2I", 3: "2Q", 4: "2X", 8: "6I", 9: "6Q", 10: "6X", 14: "7I", 15: "7Q", 16: "7X",
    22: "5D", 23: "5P", 24: "5X", 25: "7D", 30: "1D", 31: "1P", 32: "1X",
}  # fmt: skip
QZSS_SIGNALS = {
    2: "1C", 9: "6S", 10: "6L", 11: "6X", 15: "2S", 16: "2L", 17: "2X", 22: "5I", 23: "5Q", 24: "5X",
    30: "1S", 31: "1L", 32: "1X",
}  # fmt: skip
SBAS_SIGNALS = {2: "1C", 22: "5I", 23: "5Q", 24: "5X"}
# The systems in the order of a file, by their letters.
SIGNALS = {
    "G": GPS_SIGNALS, "E": GALILEO_SIGNALS, "R": GLONASS_SIGNALS, "C": BEIDOU_SIGNALS, "J": QZSS_SIGNALS,
    "S": SBAS_SIGNALS,
}  # fmt: skip
SATELLITES = {"G": 32, "E": 36, "R": 27, "C": 63, "J": 10, "S": 39}
# What is added to the ID of a satellite for its number in a file.
NUMBER_OFFSETS = {"G": 0, "E": 0, "R": 0, "C": 0, "J": 0, "S": 19}
# The number of its MSM1, less 1.
FIRST_NUMBERS = {"G": 1070, "E": 1090, "R": 1080, "C": 1120, "J": 1110, "S": 1100}
# GPS time less the time of the system, in ms. That of GLONASS is UTC + 3 h: the leap seconds are added.
AHEAD = {"G": 0, "E": 0, "R": -10_800_000, "C": 14_000, "J": 0, "S": 0}
DAY = 86_400_000
# The greatest time of day of GLONASS, on a day with a leap second.
LAST_OF_DAY = 86_400_999
# The channel numbers of GLONASS.
CHANNELS = range(-7, 7)
LISTED = {first + n for first in range(1071, 1130, 10) for n in range(7)}


# The number of texts of a message with an antenna and a receiver, and the longest.
TEXTS = {1007: 1, 1008: 2, 1033: 5}
LONGEST_TEXT = 31


def numbers_of(systems: Iterable[str], forms: Iterable[int]) -> set[int]:
    """Returns the numbers of the MSMs of these systems and forms."""
    return {FIRST_NUMBERS[system] + form for system in systems for form in forms}


def system_of(number: int) -> str:
    """Returns the letter of the system of an MSM number."""
    return next(system for system, first in FIRST_NUMBERS.items() if first == number // 10 * 10)


# What the program decodes of what is read here.
READ_FORMS = (4, 5, 6, 7)
READ_SYSTEMS = "GERCJS"
# The MSMs that are decoded by `signals` and `options`, and by default by `convert` and `show`.
EVERY = numbers_of(READ_SYSTEMS, READ_FORMS)
DEFAULT = numbers_of("GE", (4, 7))

Key = tuple[str, int, str]


@dataclass
class Station:
    number: int
    station: int
    coordinates: tuple[int, int, int]
    height: int | None


@dataclass
class Cell:
    """The values of a cell in ms, m/s and dB-Hz, and the bounds of its lock time in ms; an unlisted one has no key."""

    key: Key | None
    pseudorange: Fraction | None
    phase: Fraction | None
    rate: Fraction | None
    strength: Fraction | None
    least: int | None
    upper: int | None
    half_cycle: int


# The channels of GLONASS by slots.
Channels = dict[int, int]


@dataclass
class Msm:
    number: int
    station: int
    time: int
    more: int
    satellites: int = 0
    signals: int = 0
    cells: list[Cell] = field(default_factory=list)
    channels: Channels = field(default_factory=dict)

    def gps_time(self, leap_seconds: int) -> int:
        """Returns the time of week in GPS time."""
        system = system_of(self.number)
        return (self.time + AHEAD[system] + (1000 * leap_seconds if system == "R" else 0)) % WEEK


@dataclass
class Other:
    """A message of another number; of a listed MSM with its station and DF393, of a 1020 with a channel."""

    station: int | None = None
    more: int | None = None
    channels: Channels = field(default_factory=dict)


Message = Station | Msm | Other


def number_of(message: bytes) -> int | None:
    return Bits(message).peek(0, 12) if len(message) > 1 else None


def decode(message: bytes, numbers: set[int]) -> Message:
    """Decodes a message; an MSM only if it has one of these numbers."""
    bits = Bits(message)
    number = number_of(message)
    if number is None:
        raise Refused("Short 0")
    if number in (1005, 1006):
        return read_station(bits)
    if number in numbers:
        return read_msm(bits, number)
    if number in LISTED and bits.count >= 55:
        return Other(bits.peek(12, 12), bits.peek(54, 1))
    if number == 1020 and bits.count >= 23:
        return Other(channels=channels_of([bits.peek(12, 6)], [bits.peek(18, 5)]))
    return Other()


def channels_of(slots: list[int], sent: list[int]) -> Channels:
    """Returns the channels as they are sent, 7 more than they are, of listed slots."""
    found = {slot: value - 7 for slot, value in zip(slots, sent) if value - 7 in CHANNELS}
    return {slot: channel for slot, channel in found.items() if 1 <= slot <= SATELLITES["R"]}


def time_of(system: str, sent: int) -> int | None:
    """Returns the time of week of a system in ms, of the 30 bits of the field; None if there is no such time."""
    day, of_day = divmod(sent, 1 << 27)
    if system == "R":
        return None if day == 7 or of_day > LAST_OF_DAY else DAY * day + of_day
    return sent if sent < WEEK else None


def read_station(bits: Bits) -> Station:
    number, station = bits.unsigned(12), bits.unsigned(12)
    for n in (6, 1, 1, 1, 1):
        bits.unsigned(n)
    x = bits.signed(38)
    bits.unsigned(1), bits.unsigned(1)
    y = bits.signed(38)
    bits.unsigned(2)
    z = bits.signed(38)
    return Station(number, station, (x, y, z), bits.unsigned(16) if number == 1006 else None)


def read_msm(bits: Bits, number: int) -> Msm:
    system = system_of(number)
    if bits.count >= 54 and time_of(system, bits.peek(24, 30)) is None:
        raise Refused("BadTime")
    if bits.count >= 169 and len(ones(bits.peek(73, 64), 64)) * len(ones(bits.peek(137, 32), 32)) > 64:
        raise Refused("TooManyCells")
    fields = read_fields(bits)
    cells = [cell_of(fields, system, n) for n in range(len(fields.cells))]
    counts = (len(fields.satellites), len(fields.signals))
    sent = fields.of_satellites.get("extended", []) if system == "R" else []
    channels = channels_of(fields.satellites, sent)
    return Msm(number, fields.station, time_of(system, fields.time), fields.more, *counts, cells, channels)


def cell_of(fields: Fields, system: str, place: int) -> Cell:
    """Returns the values of the cell at this place."""
    id, signal = fields.cells[place]
    code = SIGNALS[system].get(signal)
    layout, form = FORMS[fields.number % 10], fields.number % 10
    at = fields.satellites.index(id)
    satellite = {name: column[at] for name, column in fields.of_satellites.items()}
    cell = {name: column[place] for name, column in fields.of_cells.items()}
    rough = None if satellite["whole"] == 255 else satellite["whole"] + Fraction(satellite["part"], 1024)
    least = least_of_10 if form in (6, 7) else least_of_4
    return Cell(
        key=(system, id, code) if code and id <= SATELLITES[system] else None,
        pseudorange=finer(rough, cell["range"], layout.cell["range"], layout.range_power),
        phase=finer(rough, cell["phase"], layout.cell["phase"], layout.phase_power),
        rate=rate_of(satellite.get("speed", -8192), cell.get("rate", -16384)),
        strength=cell["strength"] * layout.strength_unit if cell["strength"] else None,
        least=least(cell["lock"]),
        upper=least(cell["lock"] + 1),
        half_cycle=cell["half"],
    )


def rate_of(rough: int, fine: int) -> Fraction | None:
    """Returns the sum of a rough and a fine rate; the least of each is invalid."""
    return None if rough == -8192 or fine == -16384 else rough + Fraction(fine, 10_000)


def finer(rough: Fraction | None, fine: int, width: int, power: int) -> Fraction | None:
    """Returns the sum of a rough and a fine value; the least fine value is invalid."""
    return None if rough is None or fine == -(2 ** (width - 1)) else rough + Fraction(fine, 2**power)


def least_of_4(i: int) -> int | None:
    """Returns the minimum lock time of DF402 in ms; None after the last indicator."""
    return None if i > 15 else 0 if i == 0 else 2 ** (i + 4)


def least_of_10(i: int) -> int | None:
    """Returns the minimum lock time of DF407 in ms; None from 705 on (unknown lock)."""
    k = max(0, i // 32 - 1)
    return None if i > 704 else 2**k * (i - 32 * k)


@dataclass
class Equipment:
    """The antenna and the receiver of a station: a message 1007, 1008 or 1033."""

    number: int
    station: int
    setup: int
    texts: list[bytes]


def equipment_of(message: bytes) -> Equipment:
    """Returns the content of a message 1007, 1008 or 1033; all of its fields but the first two are whole bytes."""
    number = number_of(message)
    if len(message) < 3:
        raise Refused("Short 12")
    place, setup, texts = 3, None, []
    while setup is None or len(texts) < TEXTS[number]:
        if place >= len(message):
            raise Refused(f"Short {8 * place}")
        if texts and setup is None:
            setup, place = message[place], place + 1
            continue
        if message[place] > LONGEST_TEXT:
            raise Refused(f"BadCounter {8 * place}")
        text = message[place + 1 : place + 1 + message[place]]
        if len(text) < message[place]:
            raise Refused(f"Short {8 * (place + 1)}")
        texts.append(text)
        place += 1 + len(text)
    return Equipment(number, (message[1] & 15) << 8 | message[2], setup, texts)
