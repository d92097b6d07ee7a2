"""Times, epochs and loss-of-lock indicators of a list of messages."""
from dataclasses import dataclass, field, replace

from .messages import WEEK, Cell, Channels, Key, Message, Other, Station, numbers_of

LAST_WEEK = 100_000
MOST_CELLS = 256

Plan = dict[str, list[str]]
# The coordinates and the height of a station, in 0.0001 m.
StationValues = tuple[tuple[int, int, int], int]


NO_VALUES: StationValues = ((0, 0, 0), 0)


def week_near(time: int, noon: int) -> int:
    """Returns the week in which a time of week is nearest to noon of a date; the earlier of two."""
    weeks = range(max(noon // WEEK - 1, 0), min(noon // WEEK + 2, LAST_WEEK))
    return min(weeks, key=lambda week: abs(week * WEEK + time - noon))


@dataclass(frozen=True)
class Choice:
    """The epochs that are written: times in ms from 1980-01-06, an interval, if there is one, and a tolerance in ms."""

    start: int = 0
    until: int = LAST_WEEK * WEEK + 1000
    interval: int | None = None
    tolerance: int = 5

    def in_window(self, time: int) -> bool:
        return self.start <= time + self.tolerance < self.until

    def on_grid(self, time: int) -> bool:
        return self.interval is None or (time + self.tolerance) % self.interval <= 2 * self.tolerance

    def includes(self, time: int) -> bool:
        return self.in_window(time) and self.on_grid(time)


@dataclass
class Setup:
    # the week of the first time that is accepted; without it, it is nearest to noon of a date
    week: int | None
    station: int | None
    by_bit: bool
    plan: Plan
    # until a station message has others
    initial: StationValues = NO_VALUES
    # the forms of MSM that are decoded
    forms: tuple[int, ...] = (4, 7)
    # GPS time less UTC, and the channels, of GLONASS
    leap_seconds: int = 18
    channels: Channels = field(default_factory=dict)
    choice: Choice = Choice()
    noon: int | None = None

    def first_week(self, time: int) -> int:
        """Returns the week of the first time of week."""
        return week_near(time, self.noon) if self.week is None else self.week

    def numbers(self) -> set[int]:
        """Returns the numbers of the MSMs that are decoded: of GPS and Galileo in any case."""
        return numbers_of({"G", "E"} | {system for system, codes in self.plan.items() if codes}, self.forms)


class Gathered:
    """The epochs of a list of messages. A place is the index of a message in that list."""

    def __init__(self, setup: Setup, messages: list[Message]) -> None:
        self.setup, self.messages = setup, messages
        # the outcome of each message, and the times of those that are taken, by their places
        self.kinds: list[str] = []
        self.taken: dict[int, int] = {}
        for place in range(len(messages)):
            self.kinds.append(self.kind(place))
        self.times = sorted(set(self.taken.values()))
        self.kept_cells: dict[int, dict[Key, Cell]] = {}

    def is_own(self, place: int) -> bool:
        station = self.messages[place].station
        return station is not None and self.setup.station in (None, station)

    def ends_epoch(self, place: int) -> bool:
        """Returns whether the message ends the pending epoch."""
        message = self.messages[place]
        return self.setup.by_bit and not isinstance(message, Station) and self.is_own(place) and message.more == 0

    def first_of(self, time: int) -> int:
        return min(place for place, at in self.taken.items() if at == time)

    def kind(self, place: int) -> str:
        """Returns the outcome of a message, given the messages before it."""
        message = self.messages[place]
        if isinstance(message, Other):
            return "ignored"
        if not self.is_own(place):
            return "other"
        if isinstance(message, Station):
            return "station"
        of_week = message.gps_time(self.setup.leap_seconds)
        time = self.setup.first_week(of_week) * WEEK + of_week
        if self.taken:
            greatest = max(self.taken.values())
            ahead = (of_week - greatest) % WEEK
            is_closed = any(self.ends_epoch(at) for at in range(self.first_of(greatest), place))
            if ahead > WEEK // 2 or ahead == 0 and is_closed:
                return "late"
            time = greatest + ahead
        if time >= LAST_WEEK * WEEK:
            return "past"
        self.taken[place] = time
        return "taken"

    def closing(self, time: int) -> int:
        """Returns the place of the message that closes the epoch, or the length of the list."""
        for place in range(self.first_of(time), len(self.messages)):
            if self.ends_epoch(place) or self.taken.get(place, 0) > time:
                return place
        return len(self.messages)

    def outcomes(self, time: int) -> list[tuple[str, Cell]]:
        """Returns each cell of an epoch with its outcome."""
        kept: list[Key] = []
        outcomes = []
        for place in sorted(place for place, at in self.taken.items() if at == time):
            for cell in self.messages[place].cells:
                if cell.key is None or cell.key[2] not in self.setup.plan[cell.key[0]]:
                    outcome = "skipped"
                elif cell.key in kept:
                    outcome = "repeated"
                elif sum(key[0] == cell.key[0] for key in kept) == MOST_CELLS:
                    outcome = "crowded"
                else:
                    kept.append(cell.key)
                    outcome = "kept"
                outcomes.append((outcome, cell))
        return outcomes

    def seen(self, cell: Cell) -> Cell:
        """Returns a cell without the phase and the rate of a GLONASS satellite whose channel isn't known."""
        system, slot, _ = cell.key
        return replace(cell, phase=None, rate=None) if system == "R" and slot not in self.setup.channels else cell

    def kept(self, time: int) -> dict[Key, Cell]:
        """Returns the kept cells of an epoch by their keys. They are collected once."""
        if time not in self.kept_cells:
            kept = [cell for outcome, cell in self.outcomes(time) if outcome == "kept"]
            self.kept_cells[time] = {cell.key: self.seen(cell) for cell in kept}
        return self.kept_cells[time]

    def lli(self, time: int, cell: Cell) -> int:
        """Returns the loss-of-lock indicator of a kept cell of an epoch that is written."""
        if cell.phase is None:
            return 0
        return int(self.is_lost(time, cell) or self.was_lost(time, cell.key)) + 2 * cell.half_cycle

    def was_lost(self, time: int, key: Key) -> bool:
        """Returns whether lock was lost at a cell of the key since the latest earlier epoch on the grid in which it has
        a phase."""
        for then in reversed([then for then in self.times if then < time]):
            cell = self.kept(then).get(key)
            if cell is None or cell.phase is None:
                continue
            if self.setup.choice.on_grid(then):
                return False
            if self.is_lost(then, cell):
                return True
        return False

    def is_lost(self, time: int, cell: Cell) -> bool:
        """Returns whether lock was lost at a kept cell with a phase.

        Its reference is the latest earlier kept cell of the same satellite and signal with a phase and a known lock.
        """
        is_lost = False
        before = [then for then in self.times if then < time and has_lock(self.kept(then).get(cell.key))]
        if cell.least is not None and before:
            then = max(before)
            is_less = cell.least < self.kept(then)[cell.key].least
            is_lost = is_less or cell.upper is not None and cell.upper <= time - then
        return is_lost

    def station_values(self, time: int) -> StationValues:
        """Returns the coordinates and the antenna height known when the epoch is closed."""
        coordinates, height = self.setup.initial
        for place in range(self.closing(time)):
            message = self.messages[place]
            if self.kinds[place] == "station":
                coordinates = message.coordinates
                height = height if message.height is None else message.height
        return coordinates, height


def has_lock(cell: Cell | None) -> bool:
    return cell is not None and cell.phase is not None and cell.least is not None
