"""The week of a stream: that nearest to a date, and those that its ephemerides contain."""
from dataclasses import dataclass
from datetime import date, timedelta

from .epochs import LAST_WEEK, week_near
from .fields import Bits
from .messages import WEEK, Message, Msm, number_of, system_of
from .options import Fault, leap_seconds_at

SIX_HOURS = 21_600_000
ROLLOVER = 1_024
# By message: the least number of bytes, the bits of the week, the GPS week in which it begins, and the first bit, the
# number of bits and the unit in seconds of the clock time. The week begins at bit 18.
EPHEMERIDES = {
    1019: (61, 10, 0, 56, 16, 16),
    1042: (64, 13, 1_356, 54, 17, 8),
    1045: (62, 12, 1_024, 62, 14, 60),
    1046: (63, 12, 1_024, 62, 14, 60),
}


@dataclass
class Sent:
    """The week in an ephemeris, modulo 1,024 unless it is whole, and its clock time in ms."""

    week: int
    is_whole: bool
    clock: int


def week_in(message: bytes) -> Sent | None:
    number = number_of(message)
    if number not in EPHEMERIDES:
        return None
    size, width, begin, place, bits, unit = EPHEMERIDES[number]
    week = Bits(message).peek(18, width) if len(message) >= size else 0
    return Sent(week + begin, number != 1019, 1000 * unit * Bits(message).peek(place, bits)) if week else None


def nearest(time: int, of_week: int) -> int:
    """Returns the time with this time of week that is nearest to a time; of two the later one."""
    begin = time - time % WEEK
    return max((begin + n * WEEK + of_week for n in (-1, 0, 1)), key=lambda at: (-abs(at - time), at))


class Counted:
    """The times of a stream counted from week 0, by the frames that are read in their order."""

    def __init__(self, read: list[tuple[bytes, Message | None]], station: int | None) -> None:
        # the greatest time at each frame, the frames that count, and what ephemerides say of week 0
        self.greatest: list[int | None] = []
        self.counted: list[int] = []
        self.whole: list[int] = []
        self.rests: list[int] = []
        latest = None
        for place, (message, msm) in enumerate(read):
            if isinstance(msm, Msm) and station in (None, msm.station) and system_of(msm.number) != "R":
                self.counted.append(place)
                latest = self.later(latest, msm.gps_time(0))
            self.greatest.append(latest)
            sent = week_in(message)
            if sent and latest is not None:
                self.add(sent, latest)

    @staticmethod
    def later(latest: int | None, of_week: int) -> int:
        if latest is None:
            return of_week
        time = nearest(latest, of_week)
        return time if latest <= time < LAST_WEEK * WEEK else latest

    def add(self, sent: Sent, latest: int) -> None:
        week, of_week = divmod(latest, WEEK)
        if sent.clock >= WEEK or abs(sent.clock - of_week) > SIX_HOURS:
            return
        if not sent.is_whole:
            self.rests.append((sent.week - week) % ROLLOVER)
        elif sent.week >= week:
            self.whole.append(sent.week - week)

    def at(self, place: int) -> int:
        """Returns the greatest time at the first frame from this one on that counts, or the last one."""
        return self.greatest[next((after for after in self.counted if after >= place), -1)] or 0


@dataclass
class First:
    """The first MSM that is converted, and the greatest time at it."""

    msm: Msm
    at: int

    def time(self, zero: int, leap_seconds: int) -> int:
        """Returns its time if this GPS week was counted as week 0; 0 before GPS week 0."""
        return max(nearest(zero * WEEK + self.at, self.msm.gps_time(leap_seconds)), 0)

    def within(self, zero: int, leap_seconds: int) -> int:
        return min(self.time(zero, leap_seconds), LAST_WEEK * WEEK - 1)

    def leap_seconds(self, zero: int) -> int:
        """Returns those of its date, which by its time without leap seconds may be the day before."""
        return leap_seconds_at(self.within(zero, leap_seconds_at(self.within(zero, 0))))

    def week(self, zero: int) -> int:
        return self.within(zero, self.leap_seconds(zero)) // WEEK


def week_sent(counted: Counted, first: First) -> tuple[int, int]:
    """Returns the week by the ephemerides, and the leap seconds."""
    if not counted.whole:
        raise Fault("NoWeek")
    zero = counted.whole[0]
    other = next((week for week in counted.whole if week != zero), zero)
    if other != zero:
        raise Fault(f"SeveralWeeks {first.week(zero)} {first.week(other)}")
    return first.week(zero), first.leap_seconds(zero)


def check_near(counted: Counted, first: First, noon: int) -> None:
    """Raises the fault of a date that the ephemerides contradict."""
    leap = leap_seconds_at(noon)
    week = week_near(first.msm.gps_time(leap), noon)
    if counted.whole:
        if all(first.time(zero, leap) // WEEK != week for zero in counted.whole):
            raise Fault(other_week(first.within(counted.whole[0], leap)))
    elif counted.rests:
        rests = [first.time(zero + ROLLOVER, leap) // WEEK % ROLLOVER for zero in counted.rests]
        if week % ROLLOVER not in rests:
            of_week = first.msm.gps_time(leap)
            times = (n * WEEK + of_week for n in range(rests[0], LAST_WEEK, ROLLOVER))
            raise Fault(other_week(min(times, key=lambda time: abs(time - noon))))


def other_week(time: int) -> str:
    day = date(1980, 1, 6) + timedelta(days=time // (WEEK // 7))
    return f"OtherWeek {time // WEEK} {day.isoformat()}"
