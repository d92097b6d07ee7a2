"""The lines of an observation file."""
from datetime import datetime, timedelta
from fractions import Fraction

from .epochs import Gathered, Plan, StationValues
from .messages import NUMBER_OFFSETS, SATELLITES, Cell, Channels, Key

LIGHT = 299_792_458
# By the first digit of a signal's code.
CARRIERS = {
    "G": {"1": 1_575_420_000, "2": 1_227_600_000, "5": 1_176_450_000},
    "E": {"1": 1_575_420_000, "5": 1_176_450_000, "6": 1_278_750_000, "7": 1_207_140_000, "8": 1_191_795_000},
    "C": {"1": 1_575_420_000, "2": 1_561_098_000, "5": 1_176_450_000, "6": 1_268_520_000, "7": 1_207_140_000},
    "J": {"1": 1_575_420_000, "2": 1_227_600_000, "5": 1_176_450_000, "6": 1_278_750_000},
    "S": {"1": 1_575_420_000, "5": 1_176_450_000},
}
# Of GLONASS the carrier of channel 0, and the step of a channel.
GLONASS_CARRIERS = {"1": (1_602_000_000, 562_500), "2": (1_246_000_000, 437_500)}


def thousandths(value: Fraction | None) -> int | None:
    """Returns the nearest integer number of thousandths, ties away from zero."""
    if value is None:
        return None
    size = int((2 * abs(value) * 1000 + 1) // 2)
    return size if value >= 0 else -size


def fixed(value: int, decimals: int) -> str:
    """Formats an integer number of units of 10^-decimals with a decimal point."""
    digits = str(abs(value)).rjust(decimals + 1, "0")
    return f"{'-' if value < 0 else ''}{digits[:-decimals]}.{digits[-decimals:]}"


def column(value: int | None, lli: str = " ", digit: str = " ") -> str:
    return " " * 16 if value is None else fixed(value, 3).rjust(14) + lli + digit


def carrier_of(key: Key, channels: Channels) -> int:
    """Returns the carrier of a signal in Hz; a GLONASS satellite without a channel has no value that needs it."""
    system, satellite, code = key
    if system == "R":
        first, step = GLONASS_CARRIERS[code[0]]
        return first + step * channels.get(satellite, 0)
    return CARRIERS[system][code[0]]


def columns(gathered: Gathered, time: int, cell: Cell | None) -> str:
    """Returns the columns C, L, D and S of a signal."""
    if cell is None:
        return " " * 64
    hertz = carrier_of(cell.key, gathered.setup.channels)
    c = None if cell.pseudorange is None else thousandths(cell.pseudorange * LIGHT / 1000)
    l = None if cell.phase is None else thousandths(cell.phase * hertz / 1000)
    d = None if cell.rate is None else thousandths(-cell.rate * hertz / LIGHT)
    s = thousandths(cell.strength)
    digit = " " if s is None else str(min(max(s // 6000, 1), 9))
    lli = gathered.lli(time, cell)
    return column(c, digit=digit) + column(l, str(lli or " "), digit) + column(d) + column(s)


def has_value(cell: Cell | None) -> bool:
    return cell is not None and any(
        value is not None for value in (cell.pseudorange, cell.phase, cell.rate, cell.strength)
    )


def date_of(time: int) -> tuple[datetime, str]:
    """Returns the date to the minute and the seconds with seven decimals."""
    at = datetime(1980, 1, 6) + timedelta(milliseconds=time)
    return at, fixed((at.second * 1000 + at.microsecond // 1000) * 10_000, 7)


def header_line(content: str, label: str) -> str:
    return f"{content:<60}{label:<20}"


def station_lines(values: StationValues) -> list[str]:
    coordinates, height = values
    return [
        header_line("".join(fixed(value, 4).rjust(14) for value in coordinates), "APPROX POSITION XYZ"),
        header_line("".join(fixed(value, 4).rjust(14) for value in (height, 0, 0)), "ANTENNA: DELTA H/E/N"),
    ]


def event_lines(values: StationValues) -> list[str]:
    """Returns the event record of changed station values."""
    return [f">{'':30}4  2", *station_lines(values)]


def type_lines(plan: Plan) -> list[str]:
    lines = []
    for system in (system for system in plan if plan[system]):
        types = [kind + code for code in plan[system] for kind in "CLDS"]
        for n in range(0, len(types), 13):
            front = f"{system}  {len(types):>3}" if n == 0 else " " * 6
            names = "".join(" " + name for name in types[n : n + 13])
            lines.append(header_line(front + names, "SYS / # / OBS TYPES"))
    return lines


def slot_line(front: str, channels: list[tuple[int, int]]) -> str:
    texts = "".join(f"R{slot:02} {channel:>2} " for slot, channel in channels)
    return header_line(front + texts, "GLONASS SLOT / FRQ #")


def glonass_lines(channels: Channels) -> list[str]:
    """Returns the lines of the channels by rising slots, eight in a line, and that of the biases, which are unknown."""
    pairs = sorted(channels.items())
    rows = [pairs[n : n + 8] for n in range(0, max(len(pairs), 1), 8)]
    lines = [slot_line(" " * 4 if n else f"{len(pairs):>3} ", row) for n, row in enumerate(rows)]
    return [*lines, header_line("", "GLONASS COD/PHS/BIS")]


def optional_line(text: str, label: str) -> list[str]:
    """Returns the line of a text of a header, if it isn't blank."""
    return [header_line(text, label)] if text.rstrip(" ") else []


def header(
    texts: dict[str, str],
    plan: Plan,
    values: StationValues,
    first: int,
    channels: Channels | None = None,
    interval: int | None = None,
) -> list[str]:
    systems = [system for system in plan if plan[system]]
    kind = systems[0] if len(systems) == 1 else "M"
    at, seconds = date_of(first)
    day = "".join(str(n).rjust(6) for n in (at.year, at.month, at.day, at.hour, at.minute))
    cells = {name: text.rstrip(" ").ljust(20) for name, text in texts.items()}
    return [
        header_line(f"{'3.05':>9}{'':11}{'OBSERVATION DATA':<20}{kind}", "RINEX VERSION / TYPE"),
        header_line(f"{'rtcm2rinex':<20}{cells['run_by']}{cells['date']}", "PGM / RUN BY / DATE"),
        *optional_line(cells["comment"], "COMMENT"),
        header_line(cells["marker"], "MARKER NAME"),
        *optional_line(cells["marker_number"], "MARKER NUMBER"),
        header_line(cells["marker_type"], "MARKER TYPE"),
        header_line(cells["observer"] + cells["agency"], "OBSERVER / AGENCY"),
        header_line(cells["rec_number"] + cells["rec_type"] + cells["rec_version"], "REC # / TYPE / VERS"),
        header_line(cells["ant_number"] + cells["ant_type"], "ANT # / TYPE"),
        *station_lines(values),
        *type_lines(plan),
        header_line("DBHZ", "SIGNAL STRENGTH UNIT"),
        *([] if interval is None else [header_line(fixed(interval, 3).rjust(10), "INTERVAL")]),
        header_line(f"{day}{seconds:>13}     GPS", "TIME OF FIRST OBS"),
        *(header_line(system, "SYS / PHASE SHIFT") for system in systems),
        *(glonass_lines(channels or {}) if "R" in systems else []),
        header_line("", "END OF HEADER"),
    ]


def epoch_lines(gathered: Gathered, time: int) -> list[str]:
    """Returns the epoch line and its satellite lines; none if no satellite has a value."""
    kept = gathered.kept(time)
    rows = []
    for system, codes in gathered.setup.plan.items():
        for satellite in range(1, SATELLITES[system] + 1):
            cells = [kept.get((system, satellite, code)) for code in codes]
            if any(has_value(cell) for cell in cells):
                row = f"{system}{satellite + NUMBER_OFFSETS[system]:02}" + "".join(
                    columns(gathered, time, cell) for cell in cells
                )
                rows.append(row.rstrip(" "))
    if not rows:
        return []
    at, seconds = date_of(time)
    day = f"{at.year:>4} {at.month:02} {at.day:02} {at.hour:02} {at.minute:02}"
    return [f"> {day}{seconds:>11}  0{len(rows):>3}", *rows]
