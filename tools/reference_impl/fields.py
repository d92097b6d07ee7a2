"""The fields of MSMs as they are sent: the four forms, reading and writing."""
from dataclasses import dataclass
from fractions import Fraction

# The widths in bits of the fields of a satellite and of a cell, in their order.
SHORT = {"whole": 8, "part": 10}
LONG = {"whole": 8, "extended": 4, "part": 10, "speed": 14}
COARSE = {"range": 15, "phase": 22, "lock": 4, "half": 1, "strength": 6}
FINE = {"range": 20, "phase": 24, "lock": 10, "half": 1, "strength": 10}
RATE = {"rate": 15}
SIGNED = {"speed", "range", "phase", "rate"}


@dataclass(frozen=True)
class Layout:
    """The fields of a form, and its units: negative powers of 2 in ms, and dB-Hz."""

    satellite: dict[str, int]
    cell: dict[str, int]
    range_power: int
    phase_power: int
    strength_unit: Fraction


FORMS = {
    4: Layout(SHORT, COARSE, 24, 29, Fraction(1)),
    5: Layout(LONG, COARSE | RATE, 24, 29, Fraction(1)),
    6: Layout(SHORT, FINE, 29, 31, Fraction(1, 16)),
    7: Layout(LONG, FINE | RATE, 29, 31, Fraction(1, 16)),
}


class Refused(Exception):
    """Why a message is refused: `Short` and its bit, `TooManyCells` or `BadTime`."""


class Bits:
    """Reads the bits of a message field by field."""

    def __init__(self, message: bytes) -> None:
        self.count = 8 * len(message)
        self.number = int.from_bytes(message, "big")
        self.place = 0

    def peek(self, place: int, n: int) -> int:
        return self.number >> (self.count - place - n) & (1 << n) - 1

    def unsigned(self, n: int) -> int:
        if self.place + n > self.count:
            raise Refused(f"Short {self.place}")
        self.place += n
        return self.peek(self.place - n, n)

    def signed(self, n: int) -> int:
        value = self.unsigned(n)
        return value - (1 << n) if value >> (n - 1) else value


def packed(fields: list[tuple[int, int]]) -> bytes:
    """Returns the bits of fields, each a width and a value, padded with zero bits."""
    number = count = 0
    for width, value in fields:
        number, count = number << width | value % (1 << width), count + width
    padding = -count % 8
    return (number << padding).to_bytes((count + padding) // 8, "big")


Pair = tuple[int, int]
# The fields of all satellites or cells by their names.
Columns = dict[str, list[int]]


@dataclass
class Fields:
    """An MSM as it is sent. A cell is a pair of a satellite and a signal, by their IDs."""

    number: int
    station: int
    time: int
    more: int
    satellites: list[int]
    signals: list[int]
    cells: list[Pair]
    of_satellites: Columns
    of_cells: Columns

    def message(self) -> bytes:
        """Returns the message. The fields that are not here are zeros."""
        layout = FORMS[self.number % 10]
        head = [(12, self.number), (12, self.station), (30, self.time), (1, self.more), (18, 0)]
        masks = [(64, sum(1 << 64 - id for id in self.satellites)), (32, sum(1 << 32 - id for id in self.signals))]
        listed = set(self.cells)
        masks += [(1, pair in listed) for pair in pairs_of(self.satellites, self.signals)]
        parts = ((layout.satellite, self.of_satellites), (layout.cell, self.of_cells))
        data = [
            (width, value) for widths, columns in parts for name, width in widths.items() for value in columns[name]
        ]
        return packed([*head, *masks, *data])


def pairs_of(satellites: list[int], signals: list[int]) -> list[Pair]:
    return [(satellite, signal) for satellite in satellites for signal in signals]


def ones(mask: int, width: int) -> list[int]:
    """Returns the IDs of the bits set in a mask; the first bit is ID 1."""
    return [n + 1 for n in range(width) if mask >> (width - 1 - n) & 1]


def read_columns(bits: Bits, widths: dict[str, int], count: int) -> Columns:
    """Reads the fields of a number of satellites or cells, column by column."""
    columns = {}
    for name, width in widths.items():
        read = bits.signed if name in SIGNED else bits.unsigned
        columns[name] = [read(width) for _ in range(count)]
    return columns


def read_fields(bits: Bits) -> Fields:
    """Reads an MSM of one of the four forms."""
    number, station, time, more = (bits.unsigned(n) for n in (12, 12, 30, 1))
    for n in (3, 7, 2, 2, 1, 3):
        bits.unsigned(n)
    satellites, signals = ones(bits.unsigned(64), 64), ones(bits.unsigned(32), 32)
    pairs = pairs_of(satellites, signals)
    mask = bits.unsigned(len(pairs)) if pairs else 0
    cells = [pairs[n - 1] for n in ones(mask, len(pairs))]
    layout = FORMS[number % 10]
    of_satellites = read_columns(bits, layout.satellite, len(satellites))
    of_cells = read_columns(bits, layout.cell, len(cells))
    return Fields(number, station, time, more, satellites, signals, cells, of_satellites, of_cells)
