"""What a file has of each signal and of each satellite, as a whole or by periods."""
from collections.abc import Iterator
from dataclasses import dataclass, field

from .files import LAST_TIME, File, counts_line, shown, units
from .lines import fixed

# An epoch this number of ms before a period is in it.
EARLY = 50
# The columns of a signal in a line, and of a value in these.
SIGNAL, CELL = 64, 16


@dataclass
class Tally:
    """The values of a signal: the numbers of each kind and of L with bit 0 and 1, and the sum of S in 0.001 dB-Hz."""

    kinds: dict[str, int] = field(default_factory=lambda: dict.fromkeys("clds", 0))
    lost: int = 0
    half: int = 0
    strength: int = 0

    def add(self, cells: list[str]) -> None:
        """Adds the values of the four cells of an epoch."""
        for kind, cell in zip("clds", cells):
            self.kinds[kind] += cell.strip() != ""
        mark = int(cells[1][14].strip() or 0)
        self.lost += mark & 1
        self.half += mark >> 1
        self.strength += units(cells[3][:14], 3) if cells[3].strip() else 0

    def mean(self) -> str:
        """Returns the mean of S in dB-Hz, rounded to nearest, halves up."""
        count = self.kinds["s"]
        return fixed((2 * self.strength + count) // (2 * count), 3) if count else "-"

    def __str__(self) -> str:
        counts = " ".join(f"{kind} {count}" for kind, count in self.kinds.items())
        return f"{counts} lost {self.lost} half {self.half} mean {self.mean()}"


def cells_of(plan: dict[str, list[str]], line: str) -> Iterator[tuple[str, list[str]]]:
    """Yields each signal of a satellite line with a value, with its four cells."""
    codes = plan[line[0]]
    columns = line[3:].ljust(SIGNAL * len(codes))
    for place, code in enumerate(codes):
        cells = [columns[SIGNAL * place + CELL * n :][:CELL] for n in range(4)]
        if any(cell.strip() for cell in cells):
            yield code, cells


def word_of(time: int) -> str:
    """Returns a time as one word."""
    return shown(time).replace(" ", "T")


def signal_lines(file: File) -> Iterator[str]:
    """Yields a line for each planned signal, in the order of the file."""
    tallies = {(system, code): Tally() for system, codes in file.plan.items() for code in codes}
    seen: dict[tuple[str, str], set[str]] = {signal: set() for signal in tallies}
    for line in (line for rows in file.rows for line in rows):
        for code, cells in cells_of(file.plan, line):
            tallies[line[0], code].add(cells)
            seen[line[0], code].add(line[:3])
    for (system, code), tally in tallies.items():
        yield f"signal {system} {code} satellites {len(seen[system, code])} {tally}"


def satellite_lines(file: File) -> Iterator[str]:
    """Yields a line for each satellite of the file, by system and number."""
    epochs: dict[str, list[int]] = {}
    lost: dict[str, int] = {}
    for place, rows in enumerate(file.rows):
        for line in rows:
            epochs.setdefault(line[:3], []).append(place)
            marks = sum(int(cells[1][14].strip() or 0) & 1 for _, cells in cells_of(file.plan, line))
            lost[line[:3]] = lost.get(line[:3], 0) + marks
    systems = list(file.plan)
    for name in sorted(epochs, key=lambda name: (systems.index(name[0]), name)):
        first, last = epochs[name][0], epochs[name][-1]
        times = f"first {word_of(file.times[first])} last {word_of(file.times[last])}"
        yield f"satellite {name} epochs {len(epochs[name])} of {last - first + 1} {times} lost {lost[name]}"


def period_lines(file: File, every: int, has_end: bool) -> Iterator[str]:
    """Yields the lines of the periods, without the last one if the file has a fault after it."""
    periods: dict[int, list[str]] = {}
    for time, rows in zip(file.times, file.rows):
        # there is no period after the last week
        periods.setdefault(min(time + EARLY, LAST_TIME - 1) // every, []).extend(rows)
    if not has_end and periods:
        del periods[max(periods)]
    systems = list(file.plan)
    for period, lines in sorted(periods.items()):
        tallies: dict[tuple[str, str], Tally] = {}
        for line in lines:
            for code, cells in cells_of(file.plan, line):
                tallies.setdefault((line[:3], code), Tally()).add(cells)
        def place(key: tuple[str, str]) -> tuple[int, str, int]:
            name, code = key
            return systems.index(name[0]), name, file.plan[name[0]].index(code)

        for name, code in sorted(tallies, key=place):
            yield f"{word_of(period * every)} {name} {code} {tallies[name, code]}"


def quality_lines(data: bytes, every: int | None = None) -> Iterator[str]:
    """Yields the lines of a file as a whole, or of each period of a number of ms.

    Raises its fault, if it has one, after the periods before that of its last whole epoch.
    """
    file = File(data)
    fault = file.fault()
    if every is not None:
        yield from period_lines(file, every, fault is None)
    if fault:
        raise fault
    if every is None:
        yield counts_line(file)
        yield from signal_lines(file)
        yield from satellite_lines(file)
