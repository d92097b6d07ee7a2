"""The judgement of a file: its counts, or the first line at fault."""
import re
from collections.abc import Iterator
from datetime import datetime, timedelta

from .complete import Completeness
from .lines import fixed, header_line, slot_line, station_lines, type_lines
from .messages import CHANNELS, NUMBER_OFFSETS, SATELLITES, SIGNALS
from .options import MOST, Fault, is_interval

MOST_BYTES = 1220
LAST_TIME = 100_000 * 604_800_000
EPOCH = re.compile(r"> (\d{4}(?: \d\d){4})([ \d]{2}\d\.\d{7})  0([ \d]{3})", re.ASCII)
EVENT = f">{'':30}4  2"
# The lines of texts of the header, each with the blanks up to its label, and whether each header has it.
TEXT_LINES = [
    ("rtcm2rinex          [ -~]{40}", "PGM / RUN BY / DATE", True),
    ("(?! {60})[ -~]{60}", "COMMENT", False),
    ("[ -~]{60}", "MARKER NAME", True),
    ("(?! {60})[ -~]{20} {40}", "MARKER NUMBER", False),
    ("[ -~]{20} {40}", "MARKER TYPE", True),
    ("[ -~]{60}", "OBSERVER / AGENCY", True),
    ("[ -~]{60}", "REC # / TYPE / VERS", True),
    ("[ -~]{40} {20}", "ANT # / TYPE", True),
]


def units(text: str, decimals: int) -> int:
    """Returns a right-aligned decimal number in units of its last place, if it is spelled so."""
    digits = text.strip(" ").replace(".", "", 1)
    number = int(digits) if re.fullmatch(r"-?\d+", digits, re.ASCII) else 0
    if fixed(number, decimals).rjust(len(text)) != text:
        raise ValueError(text)
    return number


def time_of(date: list[int], seconds: str) -> int:
    """Returns the GPS time in ms of a date to the minute and its seconds."""
    since = datetime(*date) - datetime(1980, 1, 6)
    small = units(seconds, 7)
    time = since.days * 86_400_000 + since.seconds * 1000 + small // 10_000
    if small % 10_000 or not 0 <= small < 600_000_000 or not 0 <= time < LAST_TIME:
        raise ValueError(seconds)
    return time


class File:
    """A file that is read line by line. A line that is not as expected raises a ValueError."""

    def __init__(self, data: bytes, complete: Completeness | None = None) -> None:
        self.data, self.place, self.number = data.decode("latin-1"), 0, 0
        self.complete = complete
        self.values: list[int] = []
        self.times: list[int] = []
        # the satellite lines of each epoch
        self.rows: list[list[str]] = []
        self.satellites = self.events = 0
        self.plan: dict[str, list[str]] = {}

    def take(self) -> str:
        """Returns the next line, up to its line feed."""
        self.number += 1
        end = self.data.find("\n", self.place, self.place + MOST_BYTES)
        if end < 0 and len(self.data) - self.place < MOST_BYTES:
            raise Fault(f"CutShort {self.number}")
        if end < 0:
            raise ValueError
        line, self.place = self.data[self.place : end], end + 1
        return line

    def has_next(self, label: str) -> bool:
        """Returns whether the next line ends with a label of the header."""
        return self.data[self.place : self.place + 81].endswith(f"{label:<20}\n")

    def expect(self, is_right: bool) -> None:
        if not is_right:
            raise ValueError(self.number)

    def station_line(self, row: int) -> list[int]:
        """Reads a line of station values: the position (0), or the height (1)."""
        line = self.take()
        values = [units(line[n : n + 14], 4) for n in (0, 14, 28)]
        spelled = station_lines((tuple(values), 0) if row == 0 else ((0, 0, 0), values[0]))[row]
        self.expect(line == spelled)
        if row == 1:
            self.expect(0 <= values[0] < 1 << 16)
            return values[:1]
        self.expect(all(-MOST <= value < MOST for value in values))
        return values

    def types(self, system: str) -> None:
        """Reads the lines of the observation types of a system."""
        row, count, codes = 0, 0, []
        while row == 0 or row * 13 < count:
            line = self.take()
            if row == 0:
                count = int(line[3:6])
                self.expect(count % 4 == 0 and 0 < count <= 4 * len(SIGNALS[system]))
            for n in range(row * 13, min(row * 13 + 13, count)):
                code = line[6 + 4 * (n % 13) :][2:4]
                if n % 4 == 0:
                    self.expect(code in SIGNALS[system].values() and code not in codes)
                    codes.append(code)
            # the codes of later lines don't matter to this one
            filled = codes + ["  "] * (count // 4 - len(codes))
            self.expect(line == type_lines({system: filled})[row])
            row += 1
        self.plan[system] = codes

    def mixed_types(self) -> None:
        """Reads the lines of the observation types of two systems or more."""
        later = list(SIGNALS)
        while len(self.plan) < 2 or self.data[self.place : self.place + 1] != "D":
            system = self.data[self.place : self.place + 1]
            # of the first another follows
            if system not in (later if self.plan else later[:-1]):
                self.take()
                self.expect(False)
            self.types(system)
            later = later[later.index(system) + 1 :]

    def channels(self) -> None:
        """Reads the lines of the GLONASS channels."""
        row, count, slots = 0, 0, []
        while row == 0 or len(slots) < count:
            line = self.take()
            if row == 0:
                count = int(line[:3])
                self.expect(count >= 0)
            texts = [line[4 + 7 * n :][:7] for n in range(min(8, count - len(slots)))]
            pairs = [(int(text[1:3]), int(text[4:6])) for text in texts]
            self.expect(line == slot_line(" " * 4 if row else f"{count:>3} ", pairs))
            self.expect(all(channel in CHANNELS for _, channel in pairs))
            slots += [slot for slot, _ in pairs]
            # rising, with room for those that follow
            self.expect([0, *slots] == sorted({0, *slots}))
            self.expect(max(slots, default=0) + count - len(slots) <= SATELLITES["R"])
            row += 1

    def header(self) -> None:
        kind = self.take()
        front = f"{'3.05':>9}{'':11}{'OBSERVATION DATA':<20}"
        kinds = [letter for letter in [*SIGNALS, "M"] if kind == header_line(front + letter, "RINEX VERSION / TYPE")]
        self.expect(kinds != [])
        for text, label, is_always_there in TEXT_LINES:
            if not is_always_there and not self.has_next(label):
                continue
            self.expect(re.fullmatch(text + re.escape(label.ljust(20)), self.take()) is not None)
        self.values = self.station_line(0)
        self.values += self.station_line(1)
        if kinds == ["M"]:
            self.mixed_types()
        else:
            self.types(kinds[0])
        self.expect(self.take() == header_line("DBHZ", "SIGNAL STRENGTH UNIT"))
        if self.has_next("INTERVAL"):
            line = self.take()
            interval = units(line[:10], 3)
            self.expect(is_interval(interval) and line == header_line(line[:10], "INTERVAL"))
        first = self.take()
        date = [int(first[n : n + 6]) for n in range(0, 30, 6)]
        self.first = time_of(date, first[30:43])
        day = "".join(str(part).rjust(6) for part in date)
        self.expect(first == header_line(f"{day}{first[30:43]}     GPS", "TIME OF FIRST OBS"))
        for system in self.plan:
            self.expect(self.take() == header_line(system, "SYS / PHASE SHIFT"))
        if "R" in self.plan:
            self.channels()
            self.expect(self.take() == header_line("", "GLONASS COD/PHS/BIS"))
        self.expect(self.take() == header_line("", "END OF HEADER"))

    def event(self) -> None:
        """Reads the two lines of station values of an event."""
        values = self.station_line(0)
        values += self.station_line(1)
        self.expect(values != self.values)
        self.values = values
        self.events += 1

    def epoch(self, line: str, before: int | None) -> tuple[int, int]:
        """Returns the time and the number of satellites of an epoch line."""
        found = EPOCH.fullmatch(line)
        if found is None:
            raise ValueError(line)
        time, count = time_of([int(part) for part in found[1].split()], found[2]), int(found[3])
        self.expect(found[3] == str(count).rjust(3))
        self.expect(time == self.first if before is None else time > before)
        self.expect(0 < count <= sum(SATELLITES[system] for system in self.plan))
        return time, count

    def signal(self, text: str) -> bool:
        """Reads the columns of a signal. Returns whether there is a value."""
        cells = [text[n : n + 16] for n in range(0, 64, 16)]
        known = [None if cell == " " * 16 else units(cell[:14], 3) for cell in cells]
        strength = known[3]
        self.expect(all(value is None or -999_999_999_999 <= value <= 9_999_999_999_999 for value in known))
        self.expect(strength is None or 0 < strength < 100_000)
        digit = " " if strength is None else str(min(max(strength // 6000, 1), 9))
        ends = [" " + digit, cells[1][14] + digit, "  ", "  "]
        self.expect(cells[1][14] in " 123")
        self.expect(all(value is None or cell[14:] == end for value, cell, end in zip(known, cells, ends)))
        return any(value is not None for value in known)

    def satellite(self, line: str, before: tuple[str, int] | None) -> tuple[str, int]:
        """Judges a satellite's line, which comes after that of another."""
        system, number = line[:1], int(line[1:3])
        self.expect(line[:3] == f"{system}{number:02}" and system in self.plan)
        self.expect(0 < number - NUMBER_OFFSETS[system] <= SATELLITES[system])
        order = list(self.plan)
        self.expect(before is None or (order.index(system), number) > (order.index(before[0]), before[1]))
        columns = line[3:].ljust(64 * len(self.plan[system]))
        self.expect(line == line.rstrip(" ") and len(columns) == 64 * len(self.plan[system]))
        has_value = [self.signal(columns[n : n + 64]) for n in range(0, len(columns), 64)]
        self.expect(any(has_value))
        self.satellites += 1
        return system, number

    def read(self) -> Iterator[str]:
        """Reads the file. Before each part it returns the fault that a wrong line of the part is."""
        yield "BadHeader"
        self.header()
        time, is_due = None, True
        while is_due or self.place < len(self.data):
            yield "BadEpoch"
            line = self.take()
            if line == EVENT and not is_due:
                yield "BadEvent"
                self.event()
                is_due = True
                continue
            time, count = self.epoch(line, time)
            is_due = False
            if self.complete and not self.complete.has(time):
                raise Fault(f"OtherDay {self.number}")
            yield "BadSatellite"
            satellite, rows = None, []
            for _ in range(count):
                rows.append(self.take())
                satellite = self.satellite(rows[-1], satellite)
            self.times.append(time)
            self.rows.append(rows)

    def fault(self) -> Fault | None:
        """Reads the file. Returns its fault, if it has one."""
        kind = ""
        try:
            for kind in self.read():
                pass
        except (ValueError, IndexError):
            return Fault(f"{kind} {self.number}")
        except Fault as fault:
            return fault
        return None


def shown(time: int) -> str:
    return (datetime(1980, 1, 6) + timedelta(milliseconds=time)).isoformat(" ", "milliseconds")


def counts_line(file: File) -> str:
    """Returns the line of the counts of a file."""
    return f"epochs {len(file.times)} satellites {file.satellites} events {file.events}"


def time_lines(times: list[int]) -> list[str]:
    """Returns the lines of the first time, the last one, and the smallest step, if there are two."""
    lines = [f"first {shown(times[0])}", f"last {shown(times[-1])}"]
    steps = [later - time for time, later in zip(times, times[1:])]
    return lines + [f"step {min(steps) // 1000}.{min(steps) % 1000:03}"] if steps else lines


def gap_lines(complete: Completeness, times: list[int], has_end: bool) -> list[str]:
    """Returns the lines of the gaps of a file with epochs at these times, of which the end was read or not."""
    return [f"gap {shown(time)} {shown(later)}" for time, later in complete.gaps(times, has_end)]


def check_lines(data: bytes, has_times: bool = False, complete: Completeness | None = None) -> Iterator[str]:
    """Yields the gaps, the counts of a file, its times, and whether it is complete, as asked for.

    Raises its fault, if it has one, after the gaps of the epochs before it.
    """
    file = File(data, complete)
    fault, times = file.fault(), file.times
    if complete:
        yield from gap_lines(complete, times, fault is None)
    if fault:
        raise fault
    yield counts_line(file)
    yield from time_lines(times) if has_times else []
    if complete:
        indexes = {complete.index(time, times[0]) for time in times}
        yield f"complete {len(indexes)} of {complete.size(times[-1], times[0])}"
