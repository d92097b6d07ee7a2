"""Cases of the week that the ephemerides of a stream contain: weeks.json."""
from reference_impl.fields import packed
from reference_impl.weeks import EPHEMERIDES

from .common import file_row, msm, row

WEEK, DAY, HOUR = 604_800_000, 86_400_000, 3_600_000
SENT = ["options", "--week"]
USAGE = {"prints_usage": True}
NEAR = ["options", "--near", "2024-02-07"]
RECORDINGS = {
    "zed-f9t": ("samples/zed-f9t-2019-10-17.rtcm3", "2019-10-17"),
    "stfu": ("cases/input/stfu-2016-04-06.rtcm3", "2016-04-06"),
    "gr30": ("cases/input/gr30-2025-04-11.rtcm3", "2025-04-11"),
    "gmsd7": ("cases/input/gmsd7-2012-10-14.rtcm3", "2012-10-14"),
}
# What follows the number in a message that is none of these.
ANY = [(6, 1), (13, 944), *[(1, 1)] * 481]
# The week of 2024-02-07, and its noon of Wednesday as a time of week.
NOW, NOON = 2300, 3 * DAY + 12 * HOUR
STRONG = (1042, 1045, 1046)


def ephemeris(number: int, week: int, clock: int | None = None, size: int | None = None, last: int = 0) -> bytes:
    """Returns an ephemeris of a GPS week with a clock time in its units, by default that of noon, and zeros."""
    least, width, begin, place, bits, unit = EPHEMERIDES[number]
    clock = NOON // 1000 // unit if clock is None else clock
    fields = [(12, number), (6, 1), (width, (week - begin) % (1 << width)), (place - 18 - width, 0)]
    rest = 8 * (size or least) - place - bits
    return packed([*fields, (bits, clock), *[(1, 0)] * (rest - 1), (1, last)])


def at(time: int, number: int = 1077) -> bytes:
    return msm(number, time % WEEK)


def both(name: str, messages: list[bytes]) -> list[dict]:
    """Returns the cases of a stream by its ephemerides, and near a date of week 2300."""
    return [row(name, SENT, messages), row(f"{name}-near-a-date", NEAR, messages)]


def border_rows() -> list[dict]:
    """Clock times at most and just more than six hours from the time, and at both ends of a week."""
    rows = []
    for number in EPHEMERIDES:
        unit = EPHEMERIDES[number][5]
        for name, time in {"after": NOON + 6 * HOUR, "before": NOON - 6 * HOUR}.items():
            clock = NOON // 1000 // unit
            exact = 1000 * unit * clock + (time - NOON)
            for more in (-1, 0, 1):
                messages = [at(exact + more), ephemeris(number, NOW, clock)]
                rows += both(f"{number}-six-hours-{name}-by-{more}-ms", messages)
        last = 604_800 // unit - 1
        for clock in (last, last + 1, (1 << EPHEMERIDES[number][4]) - 1):
            end = at(WEEK - 1000)
            rows += both(f"{number}-a-clock-time-of-{clock}-units", [end, ephemeris(number, NOW, clock)])
        rows += both(f"{number}-the-next-week-before-midnight", [at(WEEK - 1000), ephemeris(number, NOW + 1, 0)])
        rows += both(f"{number}-the-last-week-after-midnight", [at(0), ephemeris(number, NOW - 1, last)])
    return rows


def field_rows() -> list[dict]:
    """The least and the greatest week of each message, and messages of any size."""
    rows = []
    first = at(NOON)
    for number, (size, width, begin, *_) in EPHEMERIDES.items():
        most = begin + (1 << width) - 1
        for week in (begin, begin + 1, most - 1, most):
            rows += both(f"{number}-week-{week}", [first, ephemeris(number, week)])
        rows += both(f"{number}-this-week", [first, ephemeris(number, NOW)])
        rows += both(f"{number}-the-week-before", [first, ephemeris(number, NOW - 1)])
        rows += both(f"{number}-a-byte-short", [first, ephemeris(number, NOW - 1, size=size)[:-1]])
        rows += both(f"{number}-a-byte-longer", [first, ephemeris(number, NOW - 1, size=size + 1, last=1)])
        rows += both(f"{number}-before-an-msm", [ephemeris(number, NOW - 1), first])
        of_both = [ephemeris(number, NOW - 2), first, ephemeris(number, NOW - 1)]
        rows += both(f"{number}-before-and-after-an-msm", of_both)
        rows += both(f"{number}-a-rollover-ago", [first, ephemeris(number, NOW - 1024)])
    for number in (1020, 1041, 1043, 1044, 1047):
        rows.append(row(f"{number}-is-not-read", SENT, [first, packed([(12, number), *ANY])]))
    return rows


def order_rows() -> list[dict]:
    """Several weeks, several kinds of messages, and first MSMs at other times than those of the ephemerides."""
    first, this, other = at(NOON), ephemeris(1045, NOW), ephemeris(1046, NOW + 5)
    rest, wrong = ephemeris(1019, NOW), ephemeris(1019, NOW + 7)
    hours = [at(WEEK - 12 * HOUR + n * 6 * HOUR) for n in range(60)]
    end = ephemeris(1045, NOW + 2, (WEEK - 12 * HOUR + 59 * 6 * HOUR) % WEEK // 60_000)
    days = [at(NOON + n * 3 * DAY) for n in range(11)]
    later = ephemeris(1042, NOW + 5, (NOON + 30 * DAY) % WEEK // 8000)
    late = [at(NOON), at(NOON - HOUR), at(NOON)]
    return [
        *both("two-weeks", [first, this, other]),
        *both("two-weeks-and-a-third", [first, this, this, other, ephemeris(1042, NOW - 3), this]),
        *both("two-other-weeks", [first, other, ephemeris(1042, NOW - 3)]),
        *both("a-week-modulo-1024-beside-a-whole-one", [first, wrong, this]),
        *both("a-whole-week-beside-one-modulo-1024", [first, rest, other]),
        *both("two-weeks-modulo-1024", [first, wrong, rest]),
        *both("two-other-weeks-modulo-1024", [first, wrong, ephemeris(1019, NOW - 9)]),
        *both("a-log-of-weeks", [*hours, end]),
        *both("a-log-of-a-month", [*days, later]),
        *both("late-messages", [*late, this]),
        *both("the-next-week-of-the-stream", [at(WEEK - HOUR), at(HOUR), ephemeris(1045, NOW + 1, 60)]),
        *both("half-a-week-ahead", [at(0), at(WEEK // 2), ephemeris(1045, NOW, WEEK // 120_000)]),
        *both("more-than-half-a-week-ahead", [at(0), at(WEEK // 2 + 1), ephemeris(1045, NOW, 0)]),
        *both("ephemerides-alone", [this, rest]),
        *both("another-station", [msm(1077, NOON, station=7), this]),
        row("another-station-of-two", [*SENT, "--station", "2003"], [msm(1077, 0, station=7), this, at(NOON), this]),
        row("the-other-of-two", [*SENT, "--station", "7"], [msm(1077, 0, station=7), this, at(NOON), this]),
        row("an-unknown-station", [*SENT, "--station", "9"], [first, this]),
        row("two-stations", SENT, [msm(1077, NOON, station=7), first, other]),
        row("no-signal", SENT, [msm(1077, NOON, whole=255, strength=0), this]),
        row("a-week-and-a-date", [*SENT, "--near", "2024-02-07"], [first, this]),
        row("a-week-and-no-date", [*SENT, "--near", "x"], [first, this]),
        row("the-flag-with-a-value", ["options", "--week=2300"], [first, this]) | USAGE,
        row("the-flag-twice", ["options", "--week", "--week"], [first, this]) | USAGE,
    ]


def unplanned(time: int) -> bytes:
    """Returns an MSM of BeiDou without a value, which is not converted."""
    return msm(1127, (time - 14_000) % WEEK, whole=255, strength=0)


def glonass(time: int, leap_seconds: int = 18, **values: int) -> bytes:
    """Returns an MSM of GLONASS of a GPS time of week."""
    of_week = (time + 3 * HOUR - 1000 * leap_seconds) % WEEK
    return msm(1087, (of_week // DAY << 27) | of_week % DAY, **values)


def first_rows() -> list[dict]:
    """First MSMs that don't count, or come after others that count but aren't converted."""
    this, early, day = ephemeris(1045, NOW), ephemeris(1045, NOW, 0), ephemeris(1045, NOW, DAY // 60_000)
    saturday = ephemeris(1045, NOW, (WEEK - HOUR) // 60_000)
    last = (WEEK - HOUR) // 60_000
    values = {"whole": 255, "strength": 0}
    return [
        *both("a-first-msm-of-glonass", [glonass(NOON), at(NOON), this]),
        *both("a-first-msm-of-glonass-of-the-week-before", [glonass(WEEK - 1000), at(0), early]),
        *both("a-first-msm-of-glonass-of-the-next-week", [glonass(0), at(WEEK - 1), saturday]),
        *both("glonass-alone", [glonass(NOON), this]),
        *both("glonass-after-another-msm", [unplanned(NOON), glonass(NOON), this]),
        *both("glonass-days-after-another-msm", [unplanned(0), this, glonass(4 * DAY), unplanned(3 * DAY), this]),
        *both("glonass-days-after-the-last-msm", [unplanned(0), early, glonass(4 * DAY)]),
        *both("glonass-before-and-after-others", [glonass(0), unplanned(NOON), glonass(NOON), this, at(NOON)]),
        *both("a-leap-second-at-the-begin-of-a-week", [glonass(18_000), at(18_000), early]),
        *both("a-leap-second-at-the-end-of-a-week", [glonass(WEEK - 1), at(0), early]),
        *both("a-late-msm-that-is-first", [unplanned(0), msm(1077, WEEK - 1000), early]),
        *both("a-late-msm-of-this-week-that-is-first", [unplanned(NOON), at(NOON - HOUR), this]),
        *both("an-msm-that-is-not-converted-a-week-before", [unplanned(WEEK - 1000), unplanned(DAY), at(DAY), day]),
        *both("msm5-without-a-value", [msm(1075, WEEK - 1000, **values), at(0), early]),
        row("leap-seconds-of-2016", SENT, [glonass(WEEK - 1000, 17), at(WEEK - 1000), ephemeris(1045, 1929, last)]),
        # 17 seconds before the leap second
        row("leap-seconds-of-the-begin-of-2017", SENT, [glonass(0, 17), at(0), ephemeris(1045, 1930, 0)]),
        row("leap-seconds-of-2017", SENT, [glonass(0, 18), at(0), ephemeris(1045, 1931, 0)]),
        row("leap-seconds-of-1999", SENT, [glonass(0, 13), at(0), ephemeris(1045, 1025, 0)]),
        row("leap-seconds-without-glonass", SENT, [at(0), ephemeris(1045, 1930, 0)]),
        row(
            "leap-seconds-of-the-begin-of-2017-by-a-later-time",
            SENT,
            [glonass(0, 17), at(HOUR), ephemeris(1045, 1930, 60)],
        ),
    ]


def near_rows() -> list[dict]:
    """Dates that weeks modulo 1,024 deny, with a tie, and at the first and the last date."""
    rows = []
    for week in (0, 1, 275, 276, 277, 511, 512, 513, 1023):
        for day in ("1980-01-06", "1989-10-29", "1999-08-22", "2009-06-14", "2024-02-07", "2038-11-21", "3896-07-18"):
            words = ["options", "--near", day]
            rows.append(row(f"rest-{week}-near-{day}", words, [at(NOON), ephemeris(1019, 1024 + week)]))
    tie = ["options", "--near", "2009-10-28"]
    for more in (-1000, 0, 1000):
        rows.append(row(f"rest-of-a-tie-by-{more}-ms", tie, [at(NOON + more), ephemeris(1019, 1024 + 1043)]))
    for week in (1025, 2299, 2300, 2301, 5119, 9547):
        for day in ("1980-01-06", "2024-02-03", "2024-02-04", "2024-02-10", "3896-07-18"):
            message = ephemeris(1042 if week > 5119 else 1045, week)
            rows.append(row(f"week-{week}-near-{day}", ["options", "--near", day], [at(NOON), message]))
    return rows


def recorded_rows() -> list[dict]:
    rows = []
    for name, (path, day) in RECORDINGS.items():
        rows.append(file_row(f"{name}-options-week", SENT, path))
        year, rest = int(day[:4]), day[4:]
        days = (day, day[:-1] + str((int(day[-1]) + 3) % 10), f"{year - 1}{rest}", f"{year + 19}{rest}")
        for near in days:
            rows.append(file_row(f"{name}-options-near-{near}", ["options", "--near", near], path))
    return rows


def rows() -> list[dict]:
    return [*recorded_rows(), *field_rows(), *border_rows(), *order_rows(), *first_rows(), *near_rows()]


def streams() -> dict[str, bytes]:
    return {}
